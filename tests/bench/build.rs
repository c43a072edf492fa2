//! Links the proved static libraries: `bindings/library benchmark` writes that of reading and checking,
//! `bindings/library capi` that of replaying, writing and drawing.

fn main() {
    let folder = concat!(env!("CARGO_MANIFEST_DIR"), "/../../target/staticlib");
    let programs = [
        ("swarmbanner-bench", "libbenchmark.a"),
        ("replay", "libcapi.a"),
        ("writing", "libcapi.a"),
        ("expression", "libcapi.a"),
    ];
    for (program, library) in programs {
        println!("cargo:rustc-link-arg-bin={program}={folder}/{library}");
        println!("cargo:rerun-if-changed={folder}/{library}");
    }
}
