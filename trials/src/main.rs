//! Tests of `ptree`, `ptree_sources` and `ptree_trees` by `rt try --test`, before any proof, for what
//! no clause says and no row can show: items, labels, writers and readers of one's own, errors,
//! values that no document has, copies, and the code of the pages.
#![tactic(auto)]

#[cfg(test)]
mod building;
#[cfg(test)]
mod candidates;
#[cfg(test)]
mod change;
#[cfg(test)]
mod copies;
#[cfg(test)]
mod counted;
#[cfg(test)]
mod errors;
#[cfg(test)]
mod expect;
#[cfg(test)]
mod fixtures;
#[cfg(test)]
mod graph;
#[cfg(test)]
mod indented;
#[cfg(test)]
mod items;
#[cfg(test)]
mod pages;
#[cfg(test)]
mod sinks;
#[cfg(test)]
mod styled;
#[cfg(test)]
mod values;

use std::process::ExitCode;

fn main(_rt: HostRuntime) -> ExitCode {
    ExitCode::from(0)
}
