// Links the static libraries that tests/staticlib.sh wrote.
fn main() {
    let root = std::env::var("CARGO_MANIFEST_DIR").unwrap();
    println!("cargo:rustc-link-search=native={root}/../../target/staticlib");
    for crate_name in ["board", "ipmiboard", "kcsboard"] {
        println!("cargo:rustc-link-lib=static={crate_name}");
        println!("cargo:rerun-if-changed={root}/../../target/staticlib/lib{crate_name}.a");
    }
}
