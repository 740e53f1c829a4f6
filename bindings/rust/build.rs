//! Says where the library lies: in the folder that `SQUALL_DIR` names, as an archive, or else where
//! `pkg-config` finds it installed. Without one the crate is checked and documented, and not built:
//! `src/missing.rs` says what to set.

use std::env;
use std::path::Path;
use std::process::Command;

fn main() {
    println!("cargo::rustc-check-cfg=cfg(squall_missing)");
    for name in ["SQUALL_DIR", "PKG_CONFIG", "PKG_CONFIG_PATH"] {
        println!("cargo::rerun-if-env-changed={name}");
    }
    if let Some(dir) = env::var_os("SQUALL_DIR") {
        link_archive(Path::new(&dir));
    } else if let Some(words) = installed() {
        link_installed(&words);
    } else {
        lack(
            "no library of squall to link: set SQUALL_DIR to the folder with libsquall.a, or let pkg-config find squall",
        );
    }
}

/// Links the archive in the folder.
fn link_archive(dir: &Path) {
    let archive = dir.join("libsquall.a");
    println!("cargo::rerun-if-changed={}", archive.display());
    if archive.is_file() {
        println!("cargo::rustc-link-search=native={}", dir.display());
        println!("cargo::rustc-link-lib=static=squall");
    } else {
        let shown = dir.display();
        lack(&format!(
            "no library of squall to link: set SQUALL_DIR to the folder with libsquall.a, which {shown} has not"
        ));
    }
}

/// Links by the words of `pkg-config`.
fn link_installed(words: &str) {
    for word in words.split_whitespace() {
        if let Some(dir) = word.strip_prefix("-L") {
            println!("cargo::rustc-link-search=native={dir}");
        } else if let Some(name) = word.strip_prefix("-l") {
            println!("cargo::rustc-link-lib={name}");
        }
    }
}

/// Lets the compiler refuse to build, and say why. A build script can't refuse itself, since it runs
/// for `cargo check` too.
fn lack(why: &str) {
    println!("cargo::rustc-cfg=squall_missing");
    // Looks again at each build, since what is missing may have come: there is no such file.
    println!("cargo::rerun-if-changed=missing");
    println!("cargo::rustc-env=SQUALL_MISSING={why}");
}

/// The linker's words for the installed library, of this crate's version or a later one.
fn installed() -> Option<String> {
    let command = env::var_os("PKG_CONFIG").unwrap_or_else(|| "pkg-config".into());
    let wanted = concat!("squall >= ", env!("CARGO_PKG_VERSION"));
    let found = Command::new(command)
        .args(["--libs", wanted])
        .output()
        .ok()?;
    found
        .status
        .success()
        .then(|| String::from_utf8_lossy(&found.stdout).into_owned())
}
