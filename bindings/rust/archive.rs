//! For build scripts: finds a static library of the repository, or has it proved and built, and links it.

use std::path::{Path, PathBuf};
use std::process::{Command, Output, exit};
use std::{env, fs};

/// Links `lib{name}.a`. The repository's root is told from the crate's folder.
pub fn link(name: &str, root: &str) {
    println!("cargo::rerun-if-env-changed=PAPERSLOE_LIB_DIR");
    let file = format!("lib{name}.a");
    let folder = match env::var_os("PAPERSLOE_LIB_DIR") {
        Some(folder) => named(PathBuf::from(folder), &file),
        None => own(name, &file, root),
    };
    println!("cargo::rerun-if-changed={}", folder.join(file).display());
    println!("cargo::rustc-link-search=native={}", folder.display());
    println!("cargo::rustc-link-lib=static={name}");
}

/// The folder that the caller names. What lies there is taken as it is.
fn named(folder: PathBuf, file: &str) -> PathBuf {
    let folder = fs::canonicalize(&folder).unwrap_or(folder);
    if !folder.join(file).is_file() {
        fail(&format!("PAPERSLOE_LIB_DIR is {}, which has no {file}", folder.display()))
    }
    folder
}

/// The repository's own folder for static libraries. `staticlib.sh` makes the library if it is not
/// there or older than what it is made from, and so is asked again when any of that changes.
fn own(name: &str, file: &str, root: &str) -> PathBuf {
    let crate_folder = PathBuf::from(env::var_os("CARGO_MANIFEST_DIR").unwrap_or_default());
    let root = crate_folder.join(root);
    let root = fs::canonicalize(&root).unwrap_or(root);
    for source in sources(&root) {
        println!("cargo::rerun-if-changed={}", source.display());
    }
    make(&root, name);
    let folder = root.join("target/staticlib");
    if !folder.join(file).is_file() {
        fail(&format!("`bash staticlib.sh {name}` succeeded and left no {file}"))
    }
    folder
}

/// What the repository's libraries are made from, and by what. Cargo looks at every file in a folder.
pub fn sources(root: &Path) -> Vec<PathBuf> {
    let mut sources = vec![root.join("crates.txt"), root.join("staticlib.sh")];
    let crates = fs::read_dir(root.join("crates")).into_iter().flatten().flatten();
    for it in crates {
        sources.extend(["src", "specs", "proofs"].map(|folder| it.path().join(folder)));
    }
    sources.retain(|source| source.exists());
    sources
}

/// Has the toolchain prove the library and write it, where that is to be done.
fn make(root: &Path, name: &str) {
    let output = Command::new("bash").args(["staticlib.sh", name]).current_dir(root).output();
    let hint =
        format!("where it cannot be made, set PAPERSLOE_LIB_DIR to the folder of a lib{name}.a");
    match output {
        Ok(output) if output.status.success() => {}
        Ok(output) => fail(&format!(
            "`bash staticlib.sh {name}`, which makes the static library, failed ({}); {hint}; \
             the last of what it said:\n{}",
            output.status,
            last_lines(&output)
        )),
        Err(error) => fail(&format!(
            "bash, which makes the static library `{name}`, cannot be run ({error}); {hint}"
        )),
    }
}

/// The last lines that a command wrote as errors: where a crate fails, `staticlib.sh` ends with a line
/// that names it and 40 of what `rt` said.
fn last_lines(output: &Output) -> String {
    let said = String::from_utf8_lossy(&output.stderr);
    let lines: Vec<&str> = said.lines().collect();
    lines[lines.len().saturating_sub(41)..].join("\n")
}

/// The build fails, and these lines say why: cargo sees to that, and shows more than them where the
/// script itself fails.
pub fn fail(lines: &str) -> ! {
    for line in lines.lines() {
        println!("cargo::error={line}");
    }
    exit(0)
}
