//! Links the static library `exports`.

mod archive;

fn main() {
    println!("cargo::rerun-if-changed=build.rs");
    archive::link("exports", "../..");
}
