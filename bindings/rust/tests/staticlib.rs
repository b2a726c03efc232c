//! `staticlib.sh` in a small repository of its own, with a stand-in for `rt`: when it makes a library
//! again, and what it says of it. The build script runs it when one of its sources changes.

#![cfg(unix)]

#[allow(dead_code)]
#[path = "../archive.rs"]
mod archive;

use std::fs::{self, File, Permissions};
use std::os::unix::fs::PermissionsExt;
use std::path::{Path, PathBuf};
use std::process::{Command, Output};
use std::time::{Duration, SystemTime};
use std::{env, process};

/// Stands in for `rt lib`: notes the crate's name and makes what `rt` makes, or says much and fails;
/// or somebody changes a source meanwhile.
const RT: &str = r#"#!/usr/bin/env bash
crate=$(basename "$PWD")
echo "$crate" >> ../../asked
if [ -e ../../broken ] && [ "$crate" = high ]; then
  seq 100
  exit 3
fi
[ ! -e ../../changing ] || touch ../low/src/lib.rt
mkdir -p out/rlib
[ -e out/rlib/stamp ] || touch out/rlib/stamp
echo "of $crate" > "out/lib$crate.a"
"#;

/// What a library is made of, and in which order.
const ALL: &str = "low high exports";

struct Repository(PathBuf);

impl Repository {
    fn new(name: &str) -> Repository {
        let here = Repository(env::temp_dir().join(format!("{name}-{}", process::id())));
        here.write("crates.txt", "high: low # a remark\nexports staticlib: high\nlow:\nother:\n");
        here.write("crates/low/src/lib.rt", "");
        here.write("crates/low/proofs/Lib.antt", "");
        here.write("crates/high/src/lib.rt", "");
        here.write("crates/high/specs/Lib.antt", "");
        here.write("crates/exports/src/lib.rt", "");
        here.write("crates/other/src/lib.rt", "");
        here.write("bin/rt", RT);
        fs::set_permissions(here.0.join("bin/rt"), Permissions::from_mode(0o755)).unwrap();
        let script = Path::new(env!("CARGO_MANIFEST_DIR")).join("../../staticlib.sh");
        fs::copy(script, here.0.join("staticlib.sh")).unwrap();
        here
    }

    fn write(&self, file: &str, text: &str) {
        let path = self.0.join(file);
        fs::create_dir_all(path.parent().unwrap()).unwrap();
        fs::write(path, text).unwrap();
    }

    fn library(&self) -> PathBuf {
        self.0.join("target/staticlib/libexports.a")
    }

    /// When the library was made.
    fn made(&self) -> SystemTime {
        fs::metadata(self.library()).unwrap().modified().unwrap()
    }

    /// Gives a file this time; it is made if it is not there.
    fn date(&self, file: &str, time: SystemTime) {
        if !self.0.join(file).exists() {
            self.write(file, "");
        }
        File::open(self.0.join(file)).unwrap().set_modified(time).unwrap();
    }

    /// What the script says, and which crates it had proved, one after the other.
    fn run(&self) -> (Output, String) {
        let _ = fs::remove_file(self.0.join("asked"));
        let path = format!("{}:{}", self.0.join("bin").display(), env::var("PATH").unwrap());
        let script = self.0.join("staticlib.sh");
        let command = Command::new("bash").arg(script).arg("exports").env("PATH", path).output();
        let asked = fs::read_to_string(self.0.join("asked")).unwrap_or_default();
        (command.unwrap(), asked.lines().collect::<Vec<_>>().join(" "))
    }

    /// The crates that a run had proved, which succeeds.
    fn proved(&self) -> String {
        let (output, asked) = self.run();
        assert!(output.status.success(), "{output:?}");
        asked
    }
}

impl Drop for Repository {
    fn drop(&mut self) {
        let _ = fs::remove_dir_all(&self.0);
    }
}

#[test]
fn a_library_is_made_once() {
    let here = Repository::new("staticlib-once");
    assert_eq!(here.proved(), ALL);
    assert_eq!(fs::read_to_string(here.library()).unwrap(), "of exports\n");
    assert_eq!(here.proved(), "");
    fs::remove_file(here.library()).unwrap();
    assert_eq!(here.proved(), ALL);
}

#[test]
fn a_library_older_than_a_source_is_made_again() {
    let here = Repository::new("staticlib-older");
    here.proved();
    for source in [
        "crates.txt",
        "staticlib.sh",
        "crates/low/src/lib.rt",
        "crates/low/proofs/Lib.antt",
        "crates/low/proofs/deep/Answers.antt",
        "crates/high/specs/Lib.antt",
        "crates/exports/src/lib.rt",
    ] {
        here.date(source, here.made() + Duration::from_secs(60));
        assert_eq!(here.proved(), ALL, "{source}");
        here.date(source, here.made());
        assert_eq!(here.proved(), "", "{source}");
    }
    fs::remove_file(here.0.join("crates/high/specs/Lib.antt")).unwrap();
    assert_eq!(here.proved(), ALL);
}

#[test]
fn a_source_that_changes_meanwhile_is_newer() {
    let here = Repository::new("staticlib-meanwhile");
    here.write("changing", "");
    here.proved();
    fs::remove_file(here.0.join("changing")).unwrap();
    assert_eq!(here.proved(), ALL);
    assert_eq!(here.proved(), "");
}

#[test]
fn what_is_no_source_may_be_newer() {
    let here = Repository::new("staticlib-newer");
    here.proved();
    for file in [
        "README.md",
        "crates/low/out/lib",
        "crates/low/must-fail/one.edit",
        "crates/other/src/lib.rt",
        "crates/exports/data/one",
    ] {
        here.date(file, here.made() + Duration::from_secs(60));
        assert_eq!(here.proved(), "", "{file}");
    }
}

#[test]
fn the_build_script_looks_at_every_source() {
    let here = Repository::new("staticlib-sources");
    here.write("crates/low/must-fail/one.edit", "");
    here.write("crates/low/out/lib", "");
    let mut sources = archive::sources(&here.0);
    sources.sort();
    let expected = [
        "crates/exports/src",
        "crates/high/specs",
        "crates/high/src",
        "crates/low/proofs",
        "crates/low/src",
        "crates/other/src",
        "crates.txt",
        "staticlib.sh",
    ];
    assert_eq!(sources, expected.map(|source| here.0.join(source)));
}

#[test]
fn each_crate_is_told() {
    let here = Repository::new("staticlib-told");
    let (output, _) = here.run();
    let told = String::from_utf8(output.stderr).unwrap();
    let lines: Vec<&str> = told.lines().collect();
    assert_eq!(lines.len(), 4, "{told}");
    assert!(lines[0].starts_with("staticlib: 1 of 3: low, proved in "), "{told}");
    assert!(lines[1].starts_with("staticlib: 2 of 3: high, proved in "), "{told}");
    assert!(lines[2].starts_with("staticlib: 3 of 3: exports, proved in "), "{told}");
    assert!(lines[3].starts_with("staticlib: all 3 in "), "{told}");
    assert_eq!(output.stdout, b"staticlib: target/staticlib/libexports.a\n");

    let (output, _) = here.run();
    assert_eq!(output.stdout, b"staticlib: target/staticlib/libexports.a is up to date\n");
    assert_eq!(output.stderr, b"");

    here.date("crates.txt", here.made() + Duration::from_secs(60));
    let told = String::from_utf8(here.run().0.stderr).unwrap();
    assert!(told.starts_with("staticlib: 1 of 3: low, as it was proved\n"), "{told}");
}

#[test]
fn a_failure_is_shown_and_is_no_library() {
    let here = Repository::new("staticlib-failure");
    here.write("broken", "");
    let (output, asked) = here.run();
    assert_eq!((output.status.code(), &asked[..]), (Some(3), "low high"));
    let told = String::from_utf8(output.stderr).unwrap();
    assert!(told.contains("staticlib: 2 of 3: high, failed after "), "{told}");
    assert!(told.ends_with("\n99\n100\n") && told.contains("\n61\n"), "{told}");
    assert!(!told.contains("\n60\n"), "{told}");
    assert!(!here.library().exists());
    fs::remove_file(here.0.join("broken")).unwrap();
    assert_eq!(here.proved(), ALL);
}
