//! Copies the Rust file, byte for byte, and appends one line: the declaration of a child module, which sees private parts.

use std::io::Write;
use std::path::Path;
use std::process::{Command, Stdio};
use std::{env, fs};

fn main() {
    println!("cargo:rerun-if-env-changed=SAWP_DIAMETER");
    println!("cargo:rerun-if-changed=build.rs");
    let file = env::var("SAWP_DIAMETER").expect("SAWP_DIAMETER is the path of sawp-diameter/src/lib.rs");
    println!("cargo:rerun-if-changed={file}");
    let bytes = fs::read(&file).unwrap_or_else(|e| panic!("{}: {}", file, e));

    let out = env::var("OUT_DIR").unwrap();
    let here = env::var("CARGO_MANIFEST_DIR").unwrap();
    let copy = Path::new(&out).join("diameter.rs");
    let mut text = bytes.clone();
    assert_eq!(text.last(), Some(&b'\n'), "the file ends with a whole line");
    writeln!(text, "#[path = {:?}] pub mod inside;", format!("{here}/src/inside.rs")).unwrap();
    fs::write(&copy, text).unwrap();
    fs::write(
        Path::new(&out).join("declare.rs"),
        format!("#[path = {copy:?}] #[allow(dead_code)] pub mod diameter;\n"),
    )
    .unwrap();
    println!("cargo:rustc-env=SAWP_DIAMETER_SHA256={}", sha256(&bytes));
}

// The digest of the bytes as they were before the line was appended.
fn sha256(bytes: &[u8]) -> String {
    let mut sum = Command::new("sha256sum")
        .stdin(Stdio::piped())
        .stdout(Stdio::piped())
        .spawn()
        .expect("sha256sum is needed");
    sum.stdin.take().unwrap().write_all(bytes).unwrap();
    let said = sum.wait_with_output().unwrap().stdout;
    String::from_utf8(said).unwrap()[..64].to_string()
}
