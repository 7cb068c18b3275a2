//! Finds what this project is built from but does not hold: the Rust of 136-bts and, where it is
//! installed, libosmocore. The archive of the port is found by the crate in `rust/`.
use std::path::{Path, PathBuf};
use std::process::{Command, exit};
use std::{env, fs};

const MR74: &str = "crates/bts136/src/codec/mr74.rs";

fn main() {
    println!("cargo:rerun-if-changed=build.rs");
    let out = PathBuf::from(env::var("OUT_DIR").unwrap());
    include_oracle(&out);
    tell_archive();
    println!("cargo:rustc-check-cfg=cfg(osmocore)");
    link_osmocore(&out);
}

/// The path that a variable names, counted from the top of the repository.
fn given(variable: &str, default: &str) -> PathBuf {
    println!("cargo:rerun-if-env-changed={variable}");
    let here = env::var("CARGO_MANIFEST_DIR").unwrap();
    let top = Path::new(&here).parent().unwrap();
    top.join(env::var(variable).unwrap_or(default.into()))
}

fn stop(message: String) -> ! {
    eprintln!("{message}");
    exit(1)
}

fn include_oracle(out: &Path) {
    let folder = given("BTS136_SRC", "../shared/docs/src");
    println!("cargo:rerun-if-changed={}", folder.display());
    let Ok(mr74) = fs::read_to_string(folder.join(MR74)) else {
        stop(format!(
            "BTS136_SRC: {} has no {MR74}. Set it to the folder of the Rust of 136-bts; a relative \
             path counts from the top of the repository.",
            folder.display()
        ))
    };
    let folder = folder.canonicalize().unwrap();
    println!("cargo:rustc-env=ORACLE_SOURCES={}", folder.display());
    lay_out_mr74(&mr74, &out.join("mr74"));
}

/// Puts mr74.rs beside stand-ins for the modules that it names, so that it compiles unchanged.
fn lay_out_mr74(text: &str, folder: &Path) {
    fs::create_dir_all(folder).unwrap();
    fs::write(folder.join("mod.rs"), text).unwrap();
    for line in text.lines() {
        let name = line.trim_start_matches("pub ").strip_prefix("mod ");
        if let Some(name) = name.and_then(|n| n.strip_suffix(';')) {
            fs::write(folder.join(format!("{name}.rs")), stand_in(name)).unwrap();
        }
    }
}

/// mr74.rs itself uses only `codebook`, for a method that nothing here calls.
fn stand_in(name: &str) -> &'static str {
    if name != "codebook" {
        return "";
    }
    "pub struct Codebook;
pub struct Error;
impl Codebook {
    pub fn try_new(_: u16, _: u16) -> Result<Self, Error> {
        Err(Error)
    }
}
"
}

/// Tells where the archive is and which copy of it is linked, for a test.
fn tell_archive() {
    for (name, told) in [
        ("PORT_ARCHIVE", "DEP_BTS136_ARCHIVE"),
        ("PORT_LINKED", "DEP_BTS136_LINKED"),
    ] {
        println!("cargo:rustc-env={name}={}", env::var(told).unwrap());
    }
}

/// Sets the cfg `osmocore` where a program that calls `osmo_conv_decode` links.
fn link_osmocore(out: &Path) {
    println!("cargo:rerun-if-env-changed=PKG_CONFIG_PATH");
    let flags = osmocore_flags();
    if !links(out, &flags) {
        return;
    }
    println!("cargo:rustc-cfg=osmocore");
    for flag in &flags {
        if let Some(folder) = flag.strip_prefix("-L") {
            println!("cargo:rustc-link-search=native={folder}");
        } else if let Some(library) = flag.strip_prefix("-l") {
            println!("cargo:rustc-link-lib=dylib={library}");
        }
    }
}

fn osmocore_flags() -> Vec<String> {
    let asked = Command::new("pkg-config")
        .args(["--libs", "libosmocore"])
        .output();
    match asked {
        Ok(answer) if answer.status.success() => {
            let text = String::from_utf8_lossy(&answer.stdout);
            text.split_whitespace().map(String::from).collect()
        }
        _ => vec!["-losmocore".into()],
    }
}

fn links(out: &Path, flags: &[String]) -> bool {
    let source = out.join("osmocore.c");
    let text = "int osmo_conv_decode();\nint main(void) { return osmo_conv_decode(); }\n";
    fs::write(&source, text).unwrap();
    let tried = Command::new("cc")
        .arg(&source)
        .arg("-o")
        .arg(out.join("osmocore"))
        .args(flags)
        .output();
    tried.is_ok_and(|answer| answer.status.success())
}
