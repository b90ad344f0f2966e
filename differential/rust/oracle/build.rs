//! Puts the seven published files, byte for byte, where cargo keeps what a build makes, in the layout that their `mod` items ask for,
//! and names them to src/lib.rs. They are read from the folder that PPVM_DOCS_SRC names; differential/run sets it.

use std::path::PathBuf;
use std::{env, fs};

const FILES: [&str; 7] = ["data.rs", "measure.rs", "noise.rs", "sampler.rs", "storage/entry_store.rs", "storage/mod.rs", "storage/vec.rs"];

fn main() {
    let docs = env::var("PPVM_DOCS_SRC").expect("PPVM_DOCS_SRC names the folder of the published files");
    let from = PathBuf::from(docs).join("crates/ppvm-tableau-sum/src");
    let to = PathBuf::from(env::var("OUT_DIR").unwrap()).join("published");
    fs::create_dir_all(to.join("storage")).unwrap();
    println!("cargo:rerun-if-env-changed=PPVM_DOCS_SRC");
    println!("cargo:rerun-if-changed=build.rs");
    for file in FILES {
        println!("cargo:rerun-if-changed={}", from.join(file).display());
        fs::write(to.join(file), fs::read(from.join(file)).unwrap()).unwrap();
    }
    // storage/mod.rs declares `pub mod map;`, which is not published.
    fs::write(to.join("storage/map.rs"), "").unwrap();

    // `#[path]` takes no macro, so the paths are written out.
    let mods = ["data", "measure", "noise", "sampler", "storage/mod"].map(|m| {
        let name = m.trim_end_matches("/mod");
        format!("#[allow(dead_code)]\n#[path = {:?}]\nmod {name};\n", to.join(format!("{m}.rs")))
    });
    fs::write(to.join("mods.rs"), mods.concat()).unwrap();
}
