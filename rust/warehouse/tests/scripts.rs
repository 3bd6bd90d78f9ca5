//! What the scripts tell before anything is proved or built.
#![cfg(unix)]
use std::process::Command;

fn told(script: &str, args: &[&str]) -> (Option<i32>, String, String) {
    let path = format!("{}/../../scripts/{script}", env!("CARGO_MANIFEST_DIR"));
    let o = Command::new(path).args(args).current_dir(env!("CARGO_MANIFEST_DIR")).output().unwrap();
    (o.status.code(), String::from_utf8(o.stdout).unwrap(), String::from_utf8(o.stderr).unwrap())
}

#[test]
fn help_and_version() {
    assert_eq!(told("main", &["--help"]), (Some(0), include_str!("../help.txt").into(), "".into()));
    assert_eq!(told("main", &["--block=6", "-h"]), (Some(0), include_str!("../help.txt").into(), "".into()));
    assert_eq!(told("main", &["--version"]), (Some(0), format!("warehouse {}\n", env!("CARGO_PKG_VERSION")), "".into()));
    for (script, usage) in [("grouping", "usage: scripts/grouping [FILE]\n"), ("samples", "usage: scripts/samples racking ")] {
        let (status, out, err) = told(script, &["--help"]);
        assert!(status == Some(0) && out.starts_with(usage) && err.is_empty(), "{out}{err}");
    }
}

#[test]
fn what_cannot_be_done_is_said_at_once() {
    for (script, args, message) in [
        ("main", &["--what", "x"][..], "no option '--what'\nusage: scripts/main"),
        ("main", &["--what=x"], "no option '--what'\nusage: scripts/main"),
        ("main", &["--block"], "--block: expected a value after it\n"),
        ("main", &["no-such-file.mtx"], "no-such-file.mtx: no such file, or it cannot be read\n"),
        ("main", &["--loads=no-such-file"], "no-such-file: no such file, or it cannot be read\n"),
        ("main", &["--compare", "--loads", "src"], "src: no such file, or it cannot be read\n"),
        ("grouping", &["--what"], "no option '--what'\nusage: scripts/grouping"),
        ("grouping", &["no-such-file"], "no-such-file: no such file, or it cannot be read\n"),
        ("grouping", &["Cargo.toml", "help.txt"], "expected one file, found 2\nusage: scripts/grouping"),
    ] {
        let (status, out, err) = told(script, args);
        assert!(status == Some(1) && out.is_empty() && err.starts_with(message), "{script} {args:?}: {out}{err}");
    }
}
