//! Links libtableau_sum.a from the folder that TABLEAU_SUM_LIB names, else from the repository's target/staticlib.

use std::env::var;
use std::path::{Path, PathBuf};
use std::process::exit;

fn main() {
    println!("cargo:rerun-if-env-changed=TABLEAU_SUM_LIB");
    let target = |part: &str| var(format!("CARGO_CFG_TARGET_{part}")).unwrap_or_default();
    if (target("ARCH").as_str(), target("OS").as_str(), target("POINTER_WIDTH").as_str()) != ("x86_64", "linux", "64") {
        refuse("libtableau_sum.a is for 64-bit x86-64 Linux, and the target is another.");
    }
    let folder = folder();
    let library = folder.join("libtableau_sum.a");
    if !library.is_file() {
        refuse(&format!(
            "There is no {}. `bindings/library`, run in the repository's root, proves the library and writes it to \
             target/staticlib; TABLEAU_SUM_LIB can name another folder that has it.",
            library.display()
        ));
    }
    println!("cargo:rerun-if-changed={}", library.display());
    println!("cargo:rustc-link-search=native={}", folder.display());
    println!("cargo:rustc-link-lib=static=tableau_sum");
}

fn folder() -> PathBuf {
    let package = var("CARGO_MANIFEST_DIR").expect("cargo names the package's folder");
    let named = var("TABLEAU_SUM_LIB").ok().filter(|name| !name.is_empty());
    let folder = Path::new(&package).join(named.as_deref().unwrap_or("../../target/staticlib"));
    folder.canonicalize().unwrap_or(folder)
}

/// Ends the build with a message that cargo shows.
fn refuse(message: &str) -> ! {
    eprintln!("tableau_sum: {message}");
    exit(1)
}
