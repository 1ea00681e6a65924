//! Finds `libnumbyroga.a`.

use std::env;
use std::fs;
use std::path::{Path, PathBuf};
use std::process::Command;

const ARCHIVE: &str = "libnumbyroga.a";
const VERSION: &str = env!("CARGO_PKG_VERSION");

fn main() {
    println!("cargo::rerun-if-env-changed=NUMBYROGA_LIB_DIR");
    println!("cargo::rerun-if-changed=build.rs");
    let repository = Path::new(&variable("CARGO_MANIFEST_DIR")).join("../../..");
    let built = repository.join("embed/build");
    // What `make -C embed` builds is for the machine that it runs on.
    let is_native = variable("CARGO_CFG_TARGET_ARCH") == env::consts::ARCH;
    if let Some(folder) = env::var_os("NUMBYROGA_LIB_DIR") {
        link(&named(PathBuf::from(folder)));
    } else if is_known_to_pkg_config() {
        // It has told cargo already.
    } else if is_native && built.join(ARCHIVE).is_file() {
        link(&built);
    } else if let Some(folder) = unpacked(&repository) {
        link(&folder);
    } else {
        link_nothing();
        // When it is there, this runs again.
        println!("cargo::rerun-if-changed={}", built.join(ARCHIVE).display());
    }
}

/// The folder that `NUMBYROGA_LIB_DIR` names.
fn named(folder: PathBuf) -> PathBuf {
    // Cargo runs this in the folder of this package, and rustc elsewhere.
    if folder.is_relative() {
        fail(&format!(
            "NUMBYROGA_LIB_DIR is {}: name the whole path, from / on, since a build runs in several folders",
            folder.display()
        ));
    }
    if !folder.join(ARCHIVE).is_file() {
        fail(&format!(
            "NUMBYROGA_LIB_DIR is {}, which has no {ARCHIVE}",
            folder.display()
        ));
    }
    folder
}

/// An older library may lack calls that are declared here.
fn is_known_to_pkg_config() -> bool {
    pkg_config::Config::new()
        .statik(true)
        .atleast_version(VERSION)
        .probe("numbyroga")
        .is_ok()
}

/// The folder of the released library for the target, out of the repository's `dist/`, if it has one.
fn unpacked(repository: &Path) -> Option<PathBuf> {
    let name = format!("numbyroga-{VERSION}-{}", target());
    let tarball = repository.join(format!("dist/{name}.tar.gz"));
    println!("cargo::rerun-if-changed={}", tarball.display());
    if !tarball.is_file() {
        return None;
    }
    let folder = PathBuf::from(variable("OUT_DIR"));
    let told = Command::new("tar")
        .arg("-xzf")
        .arg(&tarball)
        .arg("-C")
        .arg(&folder)
        .arg(&name)
        .output();
    match told {
        Err(error) => fail(&format!(
            "tar, which unpacks {}, does not start: {error}",
            tarball.display()
        )),
        Ok(told) if !told.status.success() => fail(&format!(
            "{} cannot be unpacked: {}",
            tarball.display(),
            String::from_utf8_lossy(&told.stderr).trim()
        )),
        Ok(_) => {}
    }
    let folder = folder.join(name);
    // The declarations here are those of the repository's header.
    let header = repository.join("embed/numbyroga.h");
    println!("cargo::rerun-if-changed={}", header.display());
    if without_comments(&header) != without_comments(&folder.join("include/numbyroga.h")) {
        fail(&format!(
            "{} is for another numbyroga.h than that of the repository, which has changed since: build the library by \
             `make -C embed`, or check out the release {VERSION}",
            tarball.display()
        ));
    }
    Some(folder.join("lib"))
}

/// The system and the processor that is compiled for.
fn target() -> String {
    let system = variable("CARGO_CFG_TARGET_OS");
    let processor = variable("CARGO_CFG_TARGET_ARCH");
    format!("{system}-{processor}")
}

/// Nothing is there to be linked. `cargo check` and `cargo doc` need nothing, so this is a warning; and rustc finds no library
/// where it makes a program or a test.
fn link_nothing() {
    let target = target();
    println!(
        "cargo::warning={ARCHIVE} for {target} is not there, so nothing can be linked: NUMBYROGA_LIB_DIR is not set, \
         pkg-config knows no numbyroga of version {VERSION} or later, and the repository of Numbyroga has it neither in \
         embed/build nor in dist/numbyroga-{VERSION}-{target}.tar.gz. Build it by `make -C embed` in the repository, or set \
         NUMBYROGA_LIB_DIR to the folder that has it"
    );
    println!("cargo::rustc-link-lib=static=numbyroga");
}

/// The words of a header.
fn without_comments(path: &Path) -> Vec<String> {
    let text = fs::read_to_string(path)
        .unwrap_or_else(|error| fail(&format!("{} cannot be read: {error}", path.display())));
    let mut code = String::new();
    for part in text.split("/*") {
        code.push_str(part.split_once("*/").map_or(part, |(_, rest)| rest));
        code.push(' ');
    }
    code.split_whitespace().map(str::to_owned).collect()
}

fn link(folder: &Path) {
    println!("cargo::rerun-if-changed={}", folder.join(ARCHIVE).display());
    println!("cargo::rustc-link-search=native={}", folder.display());
    println!("cargo::rustc-link-lib=static=numbyroga");
}

/// A variable that cargo sets.
fn variable(name: &str) -> String {
    env::var(name).unwrap_or_else(|_| fail(&format!("{name} is not set: cargo runs this program")))
}

fn fail(why: &str) -> ! {
    eprintln!("{why}");
    std::process::exit(1)
}
