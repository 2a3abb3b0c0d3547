//! Takes the Rust of cotton-usb-host from where it lies, applies the listed edits
//! and leaves the result in OUT_DIR, from where `src/main.rs` includes it.

mod edits;

use std::path::{Path, PathBuf};
use std::{env, fs};

const FILES: [&str; 5] = [
    "bitset.rs",
    "async_pool.rs",
    "host_controller.rs",
    "wire.rs",
    "host/rp2040.rs",
];

fn main() {
    println!("cargo::rerun-if-env-changed=COTTON_SRC");
    println!("cargo::rerun-if-changed=build.rs");
    println!("cargo::rerun-if-changed=edits.rs");

    let sources = sources();
    let out = PathBuf::from(env::var("OUT_DIR").unwrap());
    for file in FILES {
        let path = sources.join("cotton-usb-host/src").join(file);
        println!("cargo::rerun-if-changed={}", path.display());
        let text = fs::read_to_string(&path)
            .unwrap_or_else(|e| panic!("{}: {e}; set COTTON_SRC", path.display()));
        let name = Path::new(file).file_name().unwrap();
        fs::write(out.join(name), edited(file, text)).unwrap();
    }
}

/// The folder that holds `cotton-usb-host`.
fn sources() -> PathBuf {
    match env::var_os("COTTON_SRC") {
        Some(folder) => folder.into(),
        None => Path::new(&env::var("CARGO_MANIFEST_DIR").unwrap())
            .join("../../shared/docs/src"),
    }
}

fn edited(file: &str, mut text: String) -> String {
    for edit in edits::EDITS.iter().filter(|edit| edit.file == file) {
        let found = text.matches(edit.old).count();
        assert!(
            found == edit.times,
            "{file}: found {found} times, not {}:\n{}\n({})",
            edit.times,
            edit.old,
            edit.reason
        );
        text = text.replace(edit.old, edit.new);
    }
    text
}
