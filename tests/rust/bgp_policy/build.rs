//! Links the proved static library, libbgp_policy.a (installed) or libc_api.a (as built): from the folder that BGP_POLICY_LIB
//! names, else from target/staticlib at the repository's top.
use std::path::{Path, PathBuf};

fn main() {
    println!("cargo:rerun-if-env-changed=BGP_POLICY_LIB");
    let folder = match std::env::var_os("BGP_POLICY_LIB") {
        Some(folder) => PathBuf::from(folder),
        None => Path::new(env!("CARGO_MANIFEST_DIR")).join("../../../target/staticlib"),
    };
    for name in ["bgp_policy", "c_api"] {
        let library = folder.join(format!("lib{name}.a"));
        if library.is_file() {
            println!("cargo:rerun-if-changed={}", library.display());
            println!("cargo:rustc-link-search=native={}", folder.display());
            println!("cargo:rustc-link-lib=static={name}");
            return;
        }
    }
    eprintln!(
        "{} has no libbgp_policy.a and no libc_api.a: set BGP_POLICY_LIB to the library's folder, \
         or run `bash .ci/build` at the repository's top",
        folder.display()
    );
    std::process::exit(1);
}
