//! Measures trees of paths beside a sort of the same texts: `ptree_paths_bench TASK`, with a path on each line of standard
//! input. The tasks are `sort`, `given` and `sorted`. It prints how long one of them took, in nanoseconds.
#![tactic(auto)]

use ptree_trees::paths::{paths_tree, sorted_paths_tree};
use std::io::Read;
use std::time::Instant;
use std::{env, io};

fn main(rt: HostRuntime) -> io::Result<()> {
    let alloc = rt.alloc();
    let mut words = env::args(&rt)?.skip(1);
    let task = words.next().unwrap_or(String::from_str(alloc, "sort")?);
    let mut text = String::new(alloc);
    rt.stdin().read_to_string(&mut text)?;
    let mut paths = Vec::new(alloc);
    for path in text.as_str().lines() {
        paths.push(path)?;
    }
    let start = Instant::now(&rt)?;
    match task.as_str() {
        "given" => {
            let tree = paths_tree(alloc, "", paths.as_slice(), '/')?;
            println!(rt; "{} {}", start.elapsed(&rt)?.as_nanos(), tree.children.len())
        }
        "sorted" => {
            let tree = sorted_paths_tree(alloc, "", paths.as_slice(), '/')?;
            println!(rt; "{} {}", start.elapsed(&rt)?.as_nanos(), tree.children.len())
        }
        _ => {
            paths.sort()?;
            println!(rt; "{} {}", start.elapsed(&rt)?.as_nanos(), paths.len())
        }
    }
}
