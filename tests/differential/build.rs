fn main() {
    let archives = concat!(env!("CARGO_MANIFEST_DIR"), "/../../target/staticlib");
    let libb2 = std::env::var("LIBB2").expect("LIBB2 names the folder of libb2.a");
    println!("cargo:rustc-link-search=native={archives}");
    println!("cargo:rerun-if-changed={archives}/libexports_compression.a");
    println!("cargo:rustc-link-search=native={libb2}");
    println!("cargo:rerun-if-env-changed=LIBB2");
    println!("cargo:rustc-link-lib=static=b2");
    // libb2 hashes the leaves of BLAKE2bp in threads.
    println!("cargo:rustc-link-arg=-lgomp");
}
