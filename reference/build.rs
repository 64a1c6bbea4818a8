//! Links the differential test, and it alone, with the archive in WELCHODRYS_LIBRARY_DIR.

fn main() {
    println!("cargo:rerun-if-env-changed=WELCHODRYS_LIBRARY_DIR");
    if let Ok(directory) = std::env::var("WELCHODRYS_LIBRARY_DIR") {
        let archive = format!("{directory}/libwelchodrys.a");
        println!("cargo:rerun-if-changed={archive}");
        println!("cargo:rustc-link-arg-bin=differential={archive}");
    }
}
