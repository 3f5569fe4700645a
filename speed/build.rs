//! Links the archive that host/build.sh puts into the repository's target folder, and takes a record's width from the header.

fn main() {
    let header = "../include/chultarvi.h";
    let text = std::fs::read_to_string(header).expect("the header");
    let width = text.lines().find_map(|line| line.strip_prefix("#define CHULTARVI_RECORD_WIDTH ")).and_then(|rest| rest.split('u').next());
    println!("cargo:rustc-env=CHULTARVI_RECORD_WIDTH={}", width.expect("a record's width"));
    println!("cargo:rerun-if-changed={header}");
    let folder = "../target/staticlib";
    println!("cargo:rustc-link-search=native={folder}");
    println!("cargo:rustc-link-lib=static=chultarvi");
    println!("cargo:rerun-if-changed={folder}/libchultarvi.a");
}
