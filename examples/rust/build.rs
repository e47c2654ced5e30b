// Links libterminfo_c.a and libterminfo_texts_c.a: of the folder that TERMINFO_C_LIB names, or as the repository
// builds them.
use std::path::PathBuf;

fn main() {
    let given = std::env::var_os("TERMINFO_C_LIB").map(PathBuf::from);
    println!("cargo:rerun-if-env-changed=TERMINFO_C_LIB");
    for library in ["terminfo_texts_c", "terminfo_c"] {
        let built = format!("{}/../../crates/{library}/out", env!("CARGO_MANIFEST_DIR"));
        let folder = given.clone().unwrap_or_else(|| PathBuf::from(built));
        println!("cargo:rustc-link-search=native={}", folder.display());
        let archive = folder.join(format!("lib{library}.a"));
        assert!(archive.is_file(), "{} is missing: run examples/library", archive.display());
        println!("cargo:rerun-if-changed={}", archive.display());
        println!("cargo:rustc-link-lib=static={library}");
    }
}
