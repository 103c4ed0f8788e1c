// Links the static library of the proved code, which `rt lib` writes in crates/c_api; RENTAL_LIBRARY names the folder of another one.
fn main() {
    let here = concat!(env!("CARGO_MANIFEST_DIR"), "/../../crates/c_api/out");
    let library = std::env::var("RENTAL_LIBRARY").unwrap_or_else(|_| here.to_string());
    println!("cargo:rustc-link-search=native={library}");
    println!("cargo:rustc-link-lib=static=c_api");
    println!("cargo:rerun-if-changed={library}/libc_api.a");
    println!("cargo:rerun-if-env-changed=RENTAL_LIBRARY");
}
