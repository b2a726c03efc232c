//! Slices the reference out of the published files, unchanged, into `OUT_DIR`; with the feature
//! `library`, links what shows the part of `receiver`.
//!
//! Only the items named below are taken. Each is found by its start line, with the attributes and
//! comments that stand directly above it, and ends at its closing brace. The published files are
//! formatted by rustfmt, so the brace that closes a top-level item stands alone in the first column.

#[path = "../bindings/rust/archive.rs"]
mod archive;

use archive::fail;
use std::path::{Path, PathBuf};
use std::{env, fs};

/// For each published file, the start lines of the items that are taken from it.
const ITEMS: [(&str, &[&str]); 4] = [
    (
        "shapes.rs",
        &[
            "pub enum Handle<BL = MaybeDynMemLayout> {",
            "pub struct MemLayout {",
            "pub struct MaybeDynMemLayout {",
        ],
    ),
    (
        "mod.rs",
        &[
            "pub enum QPtrUsage {",
            "pub struct QPtrMemUsage {",
            "impl QPtrMemUsage {",
            "pub enum QPtrMemUsageKind {",
        ],
    ),
    (
        "layout.rs",
        &[
            "pub(super) struct LayoutError(pub(super) Diag);",
            "pub(super) enum TypeLayout {",
            "pub(super) type HandleLayout = shapes::Handle<Rc<MemTypeLayout>>;",
            "pub(super) struct MemTypeLayout {",
            "pub(super) enum Components {",
            "impl Components {",
        ],
    ),
    (
        "analyze.rs",
        &[
            "struct AnalysisError(Diag);",
            "struct UsageMerger<'a> {",
            "struct MergeResult<T> {",
            "impl<T> MergeResult<T> {",
            "impl UsageMerger<'_> {",
            "impl MemTypeLayout {",
        ],
    ),
];

fn main() {
    println!("cargo::rerun-if-env-changed=SPIRT_SRC");
    println!("cargo::rerun-if-changed=build.rs");
    let folder = source_folder();
    let out = PathBuf::from(env::var_os("OUT_DIR").expect("cargo sets OUT_DIR"));
    for (file, markers) in ITEMS {
        let path = folder.join(file);
        println!("cargo::rerun-if-changed={}", path.display());
        let text = fs::read_to_string(&path).unwrap_or_else(|_| missing(&path));
        let sliced: String = markers.iter().map(|marker| slice(&text, marker, file)).collect();
        fs::write(out.join(file), sliced).expect("OUT_DIR can be written");
    }
    if cfg!(feature = "library") {
        archive::link("receiver_part", "..");
    }
}

/// Where the published `src/qptr` lies: under `$SPIRT_SRC`, or beside the repository.
fn source_folder() -> PathBuf {
    let root = match env::var_os("SPIRT_SRC") {
        Some(folder) => PathBuf::from(folder),
        None => Path::new(env!("CARGO_MANIFEST_DIR")).join("../../shared/docs/src"),
    };
    root.join("src/qptr")
}

fn missing(path: &Path) -> ! {
    fail(&format!(
        "the reference source is missing ({} cannot be read): get Rust-GPU/spirt at commit e8757adba8 and set SPIRT_SRC to its folder",
        path.display()
    ))
}

/// The item that starts with the line `marker`, with what stands directly above it.
fn slice(text: &str, marker: &str, file: &str) -> String {
    let lines: Vec<&str> = text.lines().collect();
    let starts: Vec<usize> = (0..lines.len()).filter(|&i| lines[i] == marker).collect();
    let &[start] = &starts[..] else {
        fail(&format!("{file}: the line `{marker}` occurs {} times, not once", starts.len()))
    };
    let belongs = |line: &&str| line.starts_with("#[") || line.starts_with("//");
    let above = lines[..start].iter().rev().take_while(|line| belongs(line)).count();
    let end = match marker.ends_with(';') {
        true => start,
        false => match (start..lines.len()).find(|&i| lines[i] == "}") {
            Some(end) => end,
            None => fail(&format!("{file}: the item `{marker}` is never closed")),
        },
    };
    let mut item = lines[start - above..=end].join("\n");
    item.push_str("\n\n");
    item
}
