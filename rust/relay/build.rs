//! Links the core's static library, which `rt lib` in crates/capi writes. Another folder can be named
//! by the variable RELAY_LIB_DIR. RELAY_EARLIER_LIB names the file of an earlier library, which is
//! linked beside it for the benchmark, its symbols renamed. It may lack the feeder's functions and
//! the reader of day logs, and its tables may have no ban lists, which the option
//! earlier_without_lists tells the crate. Whether it tells places is read from its layout at run time.

use std::collections::BTreeSet;
use std::env;
use std::ffi::OsString;
use std::path::{Path, PathBuf};
use std::process::Command;

/// What stands before each name of an earlier library.
const PREFIX: &str = "earlier_";

fn main() {
    println!("cargo::rustc-check-cfg=cfg(earlier_without_lists)");
    let folder = variable("RELAY_LIB_DIR").map_or_else(default_folder, PathBuf::from);
    let library = folder.join("libcapi.a");
    if !library.exists() {
        let missing = library.display();
        println!("cargo::error={missing} isn't there: `rt lib`, in crates/capi, makes it.");
        return;
    }
    let [prefix, feeder_prefix, log_prefix] = match variable("RELAY_EARLIER_LIB") {
        None => {
            link(&library, &folder, "capi");
            [""; 3]
        }
        Some(earlier) => {
            let earlier = Path::new(&earlier);
            link_aligned(&library, "capi", "");
            link_aligned(earlier, "earlier_capi", PREFIX);
            if !has(earlier, "relay_is_banned") {
                println!("cargo::rustc-cfg=earlier_without_lists");
            }
            let prefix_of = |function| if has(earlier, function) { PREFIX } else { "" };
            [PREFIX, prefix_of("relay_feed"), prefix_of("relay_read_record")]
        }
    };
    println!("cargo::rustc-env=RELAY_EARLIER_PREFIX={prefix}");
    println!("cargo::rustc-env=RELAY_EARLIER_FEEDER_PREFIX={feeder_prefix}");
    println!("cargo::rustc-env=RELAY_EARLIER_LOG_PREFIX={log_prefix}");
}

/// Whether a library has a function.
fn has(library: &Path, function: &str) -> bool {
    let output = Command::new("nm")
        .args([Path::new("--defined-only"), library])
        .output()
        .expect("nm, of the binutils, can be run");
    assert!(output.status.success(), "nm failed on {}", library.display());
    let symbol = format!(" T {function}");
    String::from_utf8_lossy(&output.stdout).lines().any(|line| line.ends_with(&symbol))
}

/// A variable that, where it changes, has this run again.
fn variable(name: &str) -> Option<OsString> {
    println!("cargo::rerun-if-env-changed={name}");
    env::var_os(name).filter(|value| !value.is_empty())
}

fn default_folder() -> PathBuf {
    let here = env::var_os("CARGO_MANIFEST_DIR").expect("cargo sets it");
    PathBuf::from(here).join("../../crates/capi/out")
}

/// Links a library that stands in a folder under some name, and has this run again where the file
/// that it is made from has changed.
fn link(from: &Path, folder: &Path, name: &str) {
    println!("cargo::rerun-if-changed={}", from.display());
    println!("cargo::rustc-link-search=native={}", folder.display());
    println!("cargo::rustc-link-lib=static={name}");
}

/// Links a copy of a library in which each function begins a line of the cache, so that the same code
/// takes the same time in both libraries, and the prefix stands before the names that `src/ffi.rs`
/// declares.
fn link_aligned(library: &Path, name: &str, prefix: &str) {
    let folder = PathBuf::from(env::var_os("OUT_DIR").expect("cargo sets it"));
    let words = include_str!("src/ffi.rs").split('"');
    let names: BTreeSet<&str> = words.filter(|word| word.starts_with("relay_")).collect();
    let status = Command::new("objcopy")
        .arg("--set-section-alignment=.text.*=64")
        .args(names.iter().map(|name| format!("--redefine-sym={name}={prefix}{name}")))
        .args([library, &folder.join(format!("lib{name}.a"))])
        .status()
        .expect("objcopy, of the binutils, can be run");
    assert!(status.success(), "objcopy failed on {}", library.display());
    link(library, &folder, name);
}
