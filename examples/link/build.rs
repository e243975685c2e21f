fn main() {
    let archives = concat!(env!("CARGO_MANIFEST_DIR"), "/../../target/staticlib");
    println!("cargo:rustc-link-search=native={archives}");
    for name in ["exports", "exports_blake2bp"] {
        println!("cargo:rerun-if-changed={archives}/lib{name}.a");
    }
}
