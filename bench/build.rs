//! Links the proved libraries, which `rt lib` writes and bench/run gathers.

fn main() {
    let folder = concat!(env!("CARGO_MANIFEST_DIR"), "/target/libraries");
    println!("cargo:rustc-link-search=native={folder}");
    for library in ["count_each", "count_lent", "count_many", "list_linked", "rewind_linked"] {
        println!("cargo:rustc-link-lib=static={library}");
        println!("cargo:rerun-if-changed={folder}/lib{library}.a");
    }
}
