//! Links libtableau_sum.a from the folder that TABLEAU_SUM_LIB names; differential/run sets it.

fn main() {
    let folder = std::env::var("TABLEAU_SUM_LIB").expect("TABLEAU_SUM_LIB names the folder of libtableau_sum.a");
    println!("cargo:rerun-if-env-changed=TABLEAU_SUM_LIB");
    println!("cargo:rerun-if-changed={folder}/libtableau_sum.a");
    println!("cargo:rustc-link-search=native={folder}");
    println!("cargo:rustc-link-lib=static=tableau_sum");
}
