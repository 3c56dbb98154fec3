//! Takes broker.rs from outside the repository and makes a module of it, and looks which
//! of the C exports are there to be compared.
//!
//! broker.rs cannot be `include!`d (it opens with `//!`) and its functions and fields are
//! private. So a file is written that is broker.rs byte for byte, with two lines added
//! after its last one: the first brings the stand-ins into scope under the crate names
//! that it uses, the second makes the driver a child module, which sees private items.
//! No line of broker.rs is changed; its SHA-256 is printed.

use std::env;
use std::fs;
use std::path::{Path, PathBuf};
use std::process::Command;

#[path = "src/sha256.rs"]
mod sha256;

const DEFAULT: &str = "../../shared/docs/src/crates/magnetar-differential/src/broker.rs";

const EXPORTS: [&str; 10] =
    ["open", "append", "subscribe", "flow", "ack", "seek", "redeliver", "close", "push", "calls"];

fn main() {
    println!("cargo:rerun-if-changed=build.rs");
    println!("cargo:rerun-if-changed=src/sha256.rs");
    let root = PathBuf::from(env::var("CARGO_MANIFEST_DIR").expect("set by cargo"));
    let out = PathBuf::from(env::var("OUT_DIR").expect("set by cargo"));
    broker(&root, &out);
    exports();
}

fn broker(root: &Path, out: &Path) {
    println!("cargo:rerun-if-env-changed=BROKER_RS");
    let path = env::var("BROKER_RS").map_or_else(|_| root.join(DEFAULT), PathBuf::from);
    println!("cargo:rerun-if-changed={}", path.display());
    let mut bytes = fs::read(&path)
        .unwrap_or_else(|e| panic!("{}: {e}; set BROKER_RS to broker.rs", path.display()));
    let digest = sha256::hex(&bytes);
    println!("cargo:warning=broker.rs SHA-256 {digest}");
    println!("cargo:rustc-env=BROKER_SHA256={digest}");

    let driver = root.join("src/driver.rs");
    let added = format!(
        "\nuse crate::standins::{{bytes, magnetar_proto, parking_lot, tokio}};\n\
         #[path = {driver:?}] pub mod driver;\n"
    );
    bytes.extend_from_slice(added.as_bytes());
    let generated = out.join("broker_gen.rs");
    fs::write(&generated, bytes).expect("write into OUT_DIR");
    let module = format!(
        "#[allow(warnings, clippy::all, clippy::pedantic)]\n#[path = {generated:?}]\npub mod broker;\n"
    );
    fs::write(out.join("broker_mod.rs"), module).expect("write into OUT_DIR");
}

/// One cfg for each export found in the archive that LIBBROKER names.
fn exports() {
    println!("cargo:rerun-if-env-changed=LIBBROKER");
    println!("cargo:rustc-check-cfg=cfg(has_plain_flow)");
    for name in EXPORTS {
        println!("cargo:rustc-check-cfg=cfg(has_broker_{name})");
    }
    let Ok(archive) = env::var("LIBBROKER") else { return };
    println!("cargo:rerun-if-changed={archive}");
    let Ok(archive) = fs::canonicalize(&archive) else { return };
    let tool = env::var("NM").unwrap_or_else(|_| "nm".to_owned());
    let listing = Command::new(&tool)
        .arg("-g")
        .arg(&archive)
        .output()
        .unwrap_or_else(|e| panic!("{tool}: {e}; set NM to a program that lists symbols"));
    let listing = String::from_utf8_lossy(&listing.stdout).into_owned();
    let mut found = false;
    for name in EXPORTS {
        if defines(&listing, &format!("broker_{name}")) {
            println!("cargo:rustc-cfg=has_broker_{name}");
            found = true;
        }
    }
    // counter.c's, which `bench` puts into its copy of the archive.
    if defines(&listing, "plain_flow") {
        println!("cargo:rustc-cfg=has_plain_flow");
    }
    if found {
        println!("cargo:rustc-link-arg-bins={}", archive.display());
    }
}

/// Whether `nm` lists the symbol as one in a text section ("T"). Some systems put an
/// underscore before C names.
fn defines(listing: &str, symbol: &str) -> bool {
    listing.lines().any(|line| {
        let mut words = line.split_whitespace().rev();
        let name = words.next().unwrap_or("");
        words.next() == Some("T") && name.strip_prefix('_').unwrap_or(name) == symbol
    })
}
