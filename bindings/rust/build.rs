//! Links libtmpl.a: from the folder LIBTMPL_DIR, or from where `make lib` leaves it.
fn main() {
    println!("cargo:rerun-if-env-changed=LIBTMPL_DIR");
    let here = std::env::var("CARGO_MANIFEST_DIR").expect("cargo names the folder");
    let folder = std::env::var("LIBTMPL_DIR").unwrap_or_else(|_| format!("{here}/../out"));
    println!("cargo:rustc-link-search=native={folder}");
    println!("cargo:rustc-link-lib=static=tmpl");
    println!("cargo:rerun-if-changed={folder}/libtmpl.a");
}
