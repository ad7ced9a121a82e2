// Links libsagas.a from the folder in SAGAS_LIBRARY_DIR, by default from dist/ of this checkout.
fn main() {
    let folder = std::env::var("SAGAS_LIBRARY_DIR").unwrap_or_else(|_| concat!(env!("CARGO_MANIFEST_DIR"), "/../../../dist").to_string());
    println!("cargo:rustc-link-search=native={folder}");
    println!("cargo:rustc-link-lib=static=sagas");
    println!("cargo:rerun-if-env-changed=SAGAS_LIBRARY_DIR");
}
