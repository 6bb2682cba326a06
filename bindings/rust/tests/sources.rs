//! Loads configurations from the environment and from files. The environment is one for all threads, so this is one test.
use ptree::print_config::{StyleWhen, ASCII_CHARS_TICK, UTF_CHARS, UTF_CHARS_DOUBLE};
use ptree::{Color, PrintConfig};
use std::ffi::OsStr;
use std::os::unix::ffi::OsStrExt;
use std::os::unix::fs::symlink;
use std::path::Path;
use std::{env, fs, process};

#[test]
fn configurations_are_loaded() {
    for (name, _) in env::vars_os() {
        if name
            .to_string_lossy()
            .to_ascii_uppercase()
            .starts_with("PTREE_")
        {
            env::remove_var(name);
        }
    }
    let folder = env::temp_dir().join(format!("ptree {}", process::id()));
    fs::create_dir_all(&folder).expect("a folder");
    env::set_var("XDG_CONFIG_HOME", &folder);
    assert_eq!(PrintConfig::from_env(), PrintConfig::default());

    let load = |ending: &str, text: &str| {
        let path = folder.join(format!("given.{ending}"));
        fs::write(&path, text).expect("a file");
        env::set_var("PTREE_CONFIG", &path);
        let config = PrintConfig::from_env();
        env::remove_var("PTREE_CONFIG");
        config
    };
    let named = |name: &str| Some(Color::Named(name.to_string()));

    let config = load(
        "toml",
        "indent = 5\n[leaf]\nforeground = \"green\"\nbackground = \"steelblue\"\n",
    );
    assert_eq!((config.indent, config.depth), (5, u32::MAX));
    assert_eq!(
        (config.leaf.foreground, config.leaf.background),
        (named("green"), named("steelblue"))
    );
    assert_eq!(
        (config.branch.foreground, config.branch.background),
        (None, None)
    );

    let config = load("json", "{\"branch\": {\"foreground\": \"maroon\", \"background\": [1, 2, 3]}, \"styled\": \"always\"}");
    assert_eq!(
        (config.branch.foreground, config.branch.background),
        (named("maroon"), Some(Color::RGB(1, 2, 3)))
    );
    assert_eq!(
        (config.styled, config.branch.dimmed),
        (StyleWhen::Always, false)
    );

    let style = load(
        "toml",
        "leaf = { foreground = \"#102030\", background = 3, dimmed = true, bold = true }",
    )
    .leaf;
    assert_eq!(
        (style.foreground, style.background),
        (named("#102030"), Some(Color::Fixed(3)))
    );
    assert_eq!(
        (style.dimmed, style.bold, style.italic),
        (true, true, false)
    );

    assert_eq!(
        load("toml", "characters = \"ascii\"").characters,
        ASCII_CHARS_TICK.into()
    );
    assert_eq!(
        load("toml", "characters = \"utf\"").characters,
        UTF_CHARS.into()
    );
    assert_eq!(
        load("toml", "characters = \"utf-double\"").characters,
        UTF_CHARS_DOUBLE.into()
    );
    let config = load("toml", "[characters]\ndown_and_right = \"|\"\ndown = \"|\"\nturn_right = \"`\"\nright = \"-\"\nempty = \"\"\n");
    assert_eq!(
        (
            config.characters.right.as_str(),
            config.characters.empty.as_str()
        ),
        ("-", "")
    );

    env::set_var("PTREE_LEAF_BACKGROUND", "steelblue");
    env::set_var("PTREE_LEAF_BOLD", "true");
    env::set_var("ptree_depth", "4");
    let config = load("toml", "indent = 5\n[leaf]\nforeground = \"green\"\n");
    assert_eq!(
        (config.indent, config.depth, config.leaf.bold),
        (5, 4, true)
    );
    assert_eq!(
        (config.leaf.foreground, config.leaf.background),
        (named("green"), named("steelblue"))
    );

    // A fault means the whole default.
    assert!(faults().is_empty());
    env::set_var("ptree_depth", "-4");
    assert_eq!(load("toml", "indent = 5\n"), PrintConfig::default());
    let depth = "the variable PTREE_DEPTH isn't a whole number up to 4294967295";
    assert_eq!(faults(), [depth]);
    env::set_var("PTREE_CONFIG", folder.join("given.toml"));
    fs::write(folder.join("given.toml"), "indent = \n").expect("a file");
    assert_eq!(faults(), ["the file has a syntax error", depth]);
    fs::write(folder.join("given.toml"), b"\xff").expect("a file");
    assert_eq!(faults(), ["the file couldn't be read", depth]);
    env::remove_var("PTREE_CONFIG");
    env::remove_var("ptree_depth");
    assert_eq!(load("toml", "indent = \n"), PrintConfig::default());
    env::set_var("PTREE_INDENT", "9");
    for path in [
        folder.join("missing.toml"),
        folder.clone(),
        "/dev/null".into(),
    ] {
        env::set_var("PTREE_CONFIG", path);
        assert_eq!(PrintConfig::from_env(), PrintConfig::default());
    }
    env::remove_var("PTREE_INDENT");

    // The file of the user's folder.
    env::remove_var("PTREE_CONFIG");
    fs::write(folder.join("ptree.json"), "{\"indent\": 9}").expect("a file");
    assert_eq!(PrintConfig::from_env().indent, 9);
    fs::write(folder.join("ptree.toml"), "indent = 8").expect("a file");
    assert_eq!(PrintConfig::from_env().indent, 8);
    env::remove_var("PTREE_LEAF_BACKGROUND");
    env::remove_var("PTREE_LEAF_BOLD");
    files_are_found(&folder);
    fs::remove_dir_all(&folder).expect("a folder");
}

// The faults in the environment.
fn faults() -> Vec<String> {
    PrintConfig::faults_of_env().expect("memory")
}

// Loads from the files that values of `PTREE_CONFIG` lead to. A variable counts unless there is a fault.
fn files_are_found(folder: &Path) {
    env::set_var("PTREE_DEPTH", "6");
    let load = |value: &OsStr| {
        env::set_var("PTREE_CONFIG", value);
        let config = PrintConfig::from_env();
        (config.indent, config.depth)
    };
    let at = |name: &str| load(folder.join(name).as_os_str());
    let fault = (3, u32::MAX);
    let json = "{\"indent\": 7}";
    for name in ["only.json", ".json"] {
        fs::write(folder.join(name), json).expect("a file");
    }
    assert_eq!(at("only"), (7, 6));
    assert_eq!(at("only.json"), (7, 6));
    assert_eq!(at("only.toml"), fault);
    // The name may be an ending alone.
    assert_eq!(at(".json"), (7, 6));
    assert_eq!(at(""), (7, 6));

    for (device, name) in [
        ("null", "null.toml"),
        ("null", "null.json"),
        ("zero", "zero.toml"),
    ] {
        symlink(format!("/dev/{device}"), folder.join(name)).expect("a link");
    }
    assert_eq!(at("null.toml"), (3, 6));
    assert_eq!(at("null.json"), fault);
    assert_eq!(at("zero.toml"), fault);
    // A device's name has no ending, as any other.
    assert_eq!(load(OsStr::new("/dev/null")), fault);

    // A value that is not UTF-8 is ignored, so the user's file counts, and one below a file is a fault.
    assert_eq!(load(OsStr::from_bytes(b"\xff.toml")), (8, 6));
    assert_eq!(at("only.json/ptree.toml"), fault);
    env::remove_var("PTREE_CONFIG");
    env::set_var("XDG_CONFIG_HOME", "not/absolute");
    env::set_var("HOME", "/dev/null");
    assert_eq!(PrintConfig::from_env().depth, u32::MAX);
}
