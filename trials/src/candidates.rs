//! Tests where programs look for the configuration file.

use crate::expect::expect_text;
use ptree_sources::candidates::candidates;
use std::alloc::Global;
use std::test::Fail;

// Expects that a variable leads to paths, each with a blank behind it, and whether it names them.
fn expect_paths(
    alloc: Global,
    variable: Option<(&str, &str)>,
    named: bool,
    wanted: &str,
) -> Result<(), Fail> {
    let mut variables = Vec::new(alloc);
    if let Some((name, value)) = variable {
        variables.push((
            String::from_str(alloc, name)?,
            String::from_str(alloc, value)?,
        ))?;
    }
    let found = candidates(alloc, &variables)?;
    let mut paths = String::new(alloc);
    for path in &found.paths {
        paths.push_str(format!(in alloc; "{path} ")?.as_str())?;
    }
    if found.named != named {
        return Err(Fail::new(format_args!("{variable:?}")));
    }
    expect_text(paths.as_str(), wanted)
}

#[test]
fn variables_lead_to_paths(rt: HostRuntime) -> Result<(), Fail> {
    let home = "/h/.config/ptree.toml /h/.config/ptree.json ";
    for (variable, named, wanted) in [
        (Some(("PTREE_CONFIG", "/a/b")), true, "/a/b.toml /a/b.json "),
        (Some(("HOME", "/h")), false, home),
        (None, false, ""),
    ] {
        expect_paths(rt.alloc(), variable, named, wanted)?;
    }
    Ok(())
}
