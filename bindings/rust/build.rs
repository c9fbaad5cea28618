// Links the two static libraries: those in the folder that FADE_LIBS names, or those that
// `rt lib` writes. A relative FADE_LIBS is taken from the folder of this file.

use std::env;
use std::path::PathBuf;

// Where the crates are; `rt lib` writes the library of one to its folder out.
const CRATES: &str = "../../crates";

// The libraries: the function, and the reader of batch lines.
const LIBRARIES: [&str; 2] = ["exports", "batch_exports"];

// What the libraries are built for; with 32-bit pointers their structs would be others.
const TARGET: [(&str, &str); 3] = [
    ("CARGO_CFG_TARGET_ARCH", "x86_64"),
    ("CARGO_CFG_TARGET_OS", "linux"),
    ("CARGO_CFG_TARGET_POINTER_WIDTH", "64"),
];

fn main() {
    println!("cargo::rerun-if-changed=build.rs");
    println!("cargo::rerun-if-env-changed=FADE_LIBS");
    if let Err(why) = link() {
        println!("cargo::error={why}");
    }
}

// Tells cargo what to link, or says why it cannot.
fn link() -> Result<(), String> {
    if TARGET.iter().any(|(name, value)| env::var(name).as_deref() != Ok(*value)) {
        return Err("the libraries are for x86_64 Linux alone, and this is another target".into());
    }
    let named = env::var_os("FADE_LIBS").filter(|name| !name.is_empty());
    for library in LIBRARIES {
        let built = || PathBuf::from(CRATES).join(library).join("out");
        let folder = named.as_ref().map_or_else(built, PathBuf::from);
        let archive = folder.join(format!("lib{library}.a"));
        let name = archive.display();
        println!("cargo::rerun-if-changed={name}");
        if !archive.is_file() {
            return Err(format!("there is no {name}: run `rt lib` in crates/{library}, or set FADE_LIBS"));
        }
        println!("cargo::rustc-link-lib=static={library}");
        let whole = folder.canonicalize().map_err(|error| format!("{}: {error}", folder.display()))?;
        println!("cargo::rustc-link-search=native={}", whole.display());
    }
    Ok(())
}
