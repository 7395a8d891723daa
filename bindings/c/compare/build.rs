//! Links the library of the folder NDARRAY_LAYOUT_LIB_DIR, or else the proved one, which `bindings/c/build --proved` makes, by
//! the names that the header says.

use std::error::Error;
use std::path::PathBuf;
use std::{env, fs};

fn main() -> Result<(), Box<dyn Error>> {
    let here = PathBuf::from(env::var("CARGO_MANIFEST_DIR")?);
    let library = env::var_os("NDARRAY_LAYOUT_LIB_DIR").map_or(here.join("../proved"), PathBuf::from);
    let header = here.join("../ndarray_layout.h");
    let text = fs::read_to_string(&header)?;
    let suffix = text.lines().find_map(|line| line.strip_prefix("#define ND_NAME(call) call##"));
    println!("cargo::rustc-env=ND_SUFFIX={}", suffix.ok_or("the header says no names of the library's")?);

    for read in [header, library.join("libndarray_layout.a")] {
        println!("cargo::rerun-if-changed={}", read.display());
    }
    println!("cargo::rerun-if-env-changed=NDARRAY_LAYOUT_LIB_DIR");
    println!("cargo::rustc-link-search=native={}", library.display());
    Ok(())
}
