//! With the feature `others`: looks for the two libraries, so that a missing one
//! is named here and not by the linker.

use std::process::Command;

fn main() {
    println!("cargo:rerun-if-changed=build.rs");
    if std::env::var_os("CARGO_FEATURE_OTHERS").is_none() {
        return;
    }
    let wanted = [("sqlite3", "libsqlite3-dev"), ("lmdb", "liblmdb-dev")];
    let missing: Vec<&str> = (wanted.iter())
        .filter(|(library, _)| !found(library))
        .map(|(_, package)| *package)
        .collect();
    if !missing.is_empty() {
        eprintln!("Libraries for the feature 'others' are missing.");
        eprintln!("On Debian: apt install {}", missing.join(" "));
        eprintln!("Without that feature the benchmark needs none of them.");
        std::process::exit(1);
    }
}

/// Whether the linker would find the library: `cc`, which links, then answers
/// with a path, else with the bare name.
fn found(library: &str) -> bool {
    let asked = format!("-print-file-name=lib{library}.so");
    match Command::new("cc").arg(asked).output() {
        Ok(answer) => answer.stdout.contains(&b'/'),
        Err(error) => panic!("cc can't be run: {error}"),
    }
}
