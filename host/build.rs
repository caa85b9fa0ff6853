//! Links the proved library, which `bin/build` writes to target/staticlib; nothing else is linked. And asks the toolchain that proved it
//! for its name, which `recorder --version` prints.
use std::env;
use std::path::PathBuf;
use std::process::{exit, Command, Stdio};

fn main() {
    let manifest = PathBuf::from(env::var_os("CARGO_MANIFEST_DIR").expect("cargo names the manifest's folder"));
    let folder = manifest.join("../target/staticlib");
    let library = folder.join("libexported.a");
    println!("cargo:rerun-if-changed={}", library.display());
    if !library.is_file() {
        eprintln!("The proved library {} is missing.", library.display());
        eprintln!("Run `bin/build` in the repository's top folder, which makes both.");
        exit(1);
    }
    println!("cargo:rustc-link-search=native={}", folder.display());
    println!("cargo:rustc-link-lib=static=exported");
    let toolchain = toolchain().map_or_else(
        || "the toolchain that proved the library could not be asked for its name".into(),
        |name| format!("the library was proved with {name}"),
    );
    println!("cargo:rustc-env=RECORDER_TOOLCHAIN={toolchain}");
}

/// The line that `rt version` prints, if there is such a program and it prints one.
fn toolchain() -> Option<String> {
    let said = Command::new("rt").arg("version").stdin(Stdio::null()).output().ok().filter(|said| said.status.success())?;
    let text = String::from_utf8(said.stdout).ok()?;
    let line = text.lines().next()?.trim();
    (!line.is_empty() && line.chars().all(|letter| !letter.is_control())).then(|| line.to_string())
}
