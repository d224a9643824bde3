//! Finds the static library `libdirwolleu.a`: in the folder that `DIRWOLLEU_LIB_DIR` names, else in `clients/out` of a checkout, else
//! the prebuilt one of this crate or of the checkout, else by pkg-config.

use std::env;
use std::fs;
use std::path::{Path, PathBuf};
use std::process::{exit, Command};

const LIBRARY: &str = "libdirwolleu.a";

/// The server in memory, which tests use if it is there.
const BENCH: &str = "libdirwolleu_bench.a";

/// The folder that the environment names. No other is tried then.
fn named() -> Option<PathBuf> {
    env::var_os("DIRWOLLEU_LIB_DIR").map(PathBuf::from)
}

/// The folder with the library in a checkout, or in this packed crate: the one that `scripts/client_libraries` made, or else the one that
/// comes with it.
fn beside() -> Option<PathBuf> {
    let here = PathBuf::from(env::var_os("CARGO_MANIFEST_DIR")?);
    [
        "../out",
        "prebuilt/x86_64-linux",
        "../../prebuilt/x86_64-linux",
    ]
    .iter()
    .map(|place| here.join(place))
    .find(|folder| folder.join(LIBRARY).is_file())
}

/// The folder into which the libraries were installed.
fn installed() -> Option<PathBuf> {
    let program = env::var_os("PKG_CONFIG").unwrap_or_else(|| "pkg-config".into());
    let mut command = Command::new(program);
    let said = command
        .args(["--variable=libdir", "dirwolleu"])
        .output()
        .ok()?;
    let folder = PathBuf::from(String::from_utf8(said.stdout).ok()?.trim_end());
    folder.join(LIBRARY).is_file().then_some(folder)
}

/// The version of the libraries in a folder, if pkg-config has a description of them there.
fn version_in(folder: &Path) -> Option<String> {
    let places = [
        folder.join("dirwolleu.pc"),
        folder.join("pkgconfig/dirwolleu.pc"),
    ];
    let described = places
        .iter()
        .find_map(|place| fs::read_to_string(place).ok())?;
    let version = described
        .lines()
        .find_map(|line| line.strip_prefix("Version: "))?;
    Some(String::from(version))
}

/// Ends the build if the library is known to have another version than this crate.
fn check_version(folder: &Path) {
    let own = env!("CARGO_PKG_VERSION");
    if let Some(version) = version_in(folder).filter(|version| version != own) {
        eprintln!(
            "{} is of version {version}, and this crate of {own}: take both of one version",
            folder.join(LIBRARY).display()
        );
        exit(1);
    }
}

fn main() {
    println!("cargo:rerun-if-env-changed=DIRWOLLEU_LIB_DIR");
    println!("cargo:rerun-if-env-changed=PKG_CONFIG");
    println!("cargo:rerun-if-env-changed=PKG_CONFIG_PATH");
    println!("cargo:rerun-if-changed=../out/{LIBRARY}");
    let target = |part: &str| env::var(format!("CARGO_CFG_TARGET_{part}")).unwrap_or_default();
    if (target("ARCH").as_str(), target("OS").as_str()) != ("x86_64", "linux") {
        eprintln!(
            "dirwolleu runs on Linux on x86-64 alone, and this build is for {} on {}",
            target("OS"),
            target("ARCH")
        );
        exit(1);
    }
    let Some(folder) = named().or_else(beside).or_else(installed) else {
        eprintln!("{LIBRARY} was not found: name its folder in DIRWOLLEU_LIB_DIR");
        exit(1);
    };
    let library = folder.join(LIBRARY);
    if !library.is_file() {
        eprintln!(
            "{} is not there, which DIRWOLLEU_LIB_DIR names",
            library.display()
        );
        exit(1);
    }
    check_version(&folder);
    println!("cargo:rerun-if-changed={}", library.display());
    println!("cargo:rustc-link-search=native={}", folder.display());
    println!("cargo:rustc-link-lib=static=dirwolleu");
    println!("cargo:rustc-check-cfg=cfg(dirwolleu_bench)");
    println!("cargo:rerun-if-changed={}", folder.join(BENCH).display());
    if folder.join(BENCH).is_file() {
        println!("cargo:rustc-cfg=dirwolleu_bench");
    }
}
