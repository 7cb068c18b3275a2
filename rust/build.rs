//! Finds the archive and links a copy of it. Crates above read DEP_BTS136_ARCHIVE and
//! DEP_BTS136_LINKED, so that a test can tell whether the two are still the same.
use std::path::{Path, PathBuf};
use std::process::exit;
use std::{env, fs};

const DEFAULT: &str = "crates/bts136/out/libbts136.a";

fn main() {
    println!("cargo::rerun-if-changed=build.rs");
    println!("cargo::rerun-if-env-changed=BTS136_LIB");
    let machine = env::var("CARGO_CFG_TARGET_ARCH").unwrap();
    if machine != "x86_64" {
        stop(format!(
            "The archive is made for x86_64, not for {machine}."
        ))
    }
    let archive = archive();
    println!("cargo::rerun-if-changed={}", archive.display());
    let Ok(bytes) = fs::read(&archive) else {
        stop(format!(
            "BTS136_LIB: no archive at {}. `rt lib`, run in crates/bts136, makes it; a relative \
             path counts from the top of the repository.",
            archive.display()
        ))
    };
    let out = PathBuf::from(env::var("OUT_DIR").unwrap());
    let linked = out.join("libbts136.a");
    fs::write(&linked, bytes).unwrap();
    println!("cargo::metadata=archive={}", archive.display());
    println!("cargo::metadata=linked={}", linked.display());
    println!("cargo::rustc-env=BTS136_ARCHIVE={}", archive.display());
    println!("cargo::rustc-link-search=native={}", out.display());
    println!("cargo::rustc-link-lib=static=bts136");
}

fn stop(message: String) -> ! {
    eprintln!("{message}");
    exit(1)
}

/// The one that BTS136_LIB names, counted from the top of the repository.
fn archive() -> PathBuf {
    let here = env::var("CARGO_MANIFEST_DIR").unwrap();
    let top = Path::new(&here).parent().unwrap();
    top.join(env::var("BTS136_LIB").unwrap_or(DEFAULT.into()))
}
