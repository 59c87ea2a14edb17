//! Finds the static libraries: in the folder that CEILING_LIB_DIR names; else beside this package, in the source tree (target/staticlib) or where
//! scripts/install put both (PREFIX/share/ceiling/rust, PREFIX/lib); else where pkg-config says.

use std::env;
use std::path::{Path, PathBuf};
use std::process::{exit, Command};

fn main() {
    let engine = env::var_os("CARGO_FEATURE_ENGINE").is_some();
    let names = if engine { vec!["checker_library", "engine_library"] } else { vec!["checker_library"] };
    println!("cargo:rerun-if-changed=build.rs");
    for variable in ["CEILING_LIB_DIR", "PKG_CONFIG_PATH", "PKG_CONFIG_LIBDIR"] {
        println!("cargo:rerun-if-env-changed={variable}");
    }
    for (key, wanted) in [("CARGO_CFG_TARGET_ARCH", "x86_64"), ("CARGO_CFG_TARGET_OS", "linux")] {
        let target = env::var(key).unwrap_or_default();
        if target != wanted {
            fail(&format!("the ceiling library is for x86_64 linux, and the target is {target}"));
        }
    }
    let folder = folder(&names, if engine { "ceiling" } else { "ceiling-checker" });
    println!("cargo:rustc-link-search=native={}", folder.display());
    for name in names {
        println!("cargo:rerun-if-changed={}", archive(&folder, name).display());
        println!("cargo:rustc-link-lib=static={name}");
    }
}

fn archive(folder: &Path, name: &str) -> PathBuf {
    folder.join(format!("lib{name}.a"))
}

fn folder(names: &[&str], package: &str) -> PathBuf {
    let missing = |folder: &Path| names.iter().map(|name| archive(folder, name)).find(|path| !path.is_file());
    if let Some(named) = env::var_os("CEILING_LIB_DIR").map(PathBuf::from) {
        if let Some(path) = missing(&named) {
            fail(&format!("CEILING_LIB_DIR has no {}", path.display()));
        }
        return named;
    }
    let own = PathBuf::from(env::var_os("CARGO_MANIFEST_DIR").expect("cargo sets it"));
    let beside = ["../../target/staticlib", "../../../lib"].into_iter().filter_map(|path| own.join(path).canonicalize().ok());
    let found = beside.chain(pkg_config(package)).find(|folder| missing(folder).is_none());
    found.unwrap_or_else(|| {
        let wanted: Vec<String> = names.iter().map(|name| format!("lib{name}.a")).collect();
        fail(&format!("{} not found: set CEILING_LIB_DIR to their folder, or PKG_CONFIG_PATH to that of {package}.pc", wanted.join(", ")))
    })
}

fn pkg_config(package: &str) -> Option<PathBuf> {
    let said = Command::new("pkg-config").args(["--variable=libdir", package]).output().ok().filter(|said| said.status.success())?;
    Some(PathBuf::from(String::from_utf8(said.stdout).ok()?.trim_end_matches('\n')))
}

fn fail(words: &str) -> ! {
    eprintln!("ceiling: {words}");
    exit(1)
}
