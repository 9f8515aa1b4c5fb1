//! Links the proved static library and the kit's library by which Rattle calls the C library's heap. With the feature
//! `plain` there is nothing to link.
//!
//! `PARTIAL_DOOR_LIB` names the first, `libpartial_door.a`; without it the library lies where `bindings/library.sh` puts
//! it. One that `bindings/bitcode.sh` has built is linked with the flags that it prints. The one that
//! `bindings/library.sh --unproved` builds, `libpartial_door_unproved.a`, is linked only when it is named.
//! `PARTIAL_DOOR_HEAP` names the second, `liblibc_c.a`; without it `rt` says where the kit is. A relative path is one of
//! the folder in which cargo was called.
//!
//! Without a library `cargo check` and `cargo doc` work, and a warning says what to run. What links ends with rustc's
//! message that it finds no library of a name, and the name says what to run: cargo shows no warnings of a dependency.

use std::env;
use std::ffi::OsStr;
use std::path::{Path, PathBuf};
use std::process::{exit, Command};

const PROVED: &str = "libpartial_door.a";
const UNPROVED: &str = "libpartial_door_unproved.a";
const HEAP: &str = "liblibc_c.a";

fn main() {
    println!("cargo:rustc-check-cfg=cfg(partial_door_unproved)");
    if env::var_os("CARGO_FEATURE_PLAIN").is_some() {
        return;
    }
    check_target();
    let here = PathBuf::from(env::var_os("CARGO_MANIFEST_DIR").expect("cargo names the folder"));
    match named("PARTIAL_DOOR_LIB", &[PROVED, UNPROVED]).or_else(|| built(&here)) {
        Some(door) => link_door(&door),
        None => lack("partial_door", &format!("run {}", command(&here))),
    }
    match named("PARTIAL_DOOR_HEAP", &[HEAP]).or_else(heap_of_kit) {
        Some(heap) => link(&heap, "libc_c"),
        None => {
            lack("libc_c", "put the Rattle kit's rt on the PATH, or name the kit's c/liblibc_c.a in PARTIAL_DOOR_HEAP")
        }
    }
}

/// Ends the build for a target that the library isn't built for.
fn check_target() {
    let of = |name: &str| env::var(name).unwrap_or_default();
    let (arch, os) = (of("CARGO_CFG_TARGET_ARCH"), of("CARGO_CFG_TARGET_OS"));
    if (arch.as_str(), os.as_str(), of("CARGO_CFG_TARGET_POINTER_WIDTH").as_str()) != ("x86_64", "linux", "64") {
        refuse(&format!(
            "the library is built for x86-64 Linux, and the target is {}: the feature `plain` is for tests elsewhere",
            of("TARGET")
        ));
    }
}

/// The library where `bindings/library.sh` puts it, if it is there.
fn built(here: &Path) -> Option<PathBuf> {
    let path = here.join("../../crates/partial_door/out").join(PROVED);
    println!("cargo:rerun-if-changed={}", path.display());
    path.canonicalize().ok()
}

/// The command that builds the library.
fn command(here: &Path) -> String {
    match here.join("../library.sh").canonicalize() {
        Ok(path) => path.display().to_string(),
        Err(_) => "bindings/library.sh of its repository".to_string(),
    }
}

/// The library that an environment variable names, if it is set. Another file name, or no such file, ends the build.
fn named(variable: &str, files: &[&str]) -> Option<PathBuf> {
    println!("cargo:rerun-if-env-changed={variable}");
    let given = PathBuf::from(env::var_os(variable)?);
    // Cargo runs this in the folder of the crate. The caller's shell has left its own in PWD.
    let path = match env::var_os("PWD") {
        Some(caller) => Path::new(&caller).join(&given),
        None => given.clone(),
    };
    if !files.iter().any(|file| path.file_name() == Some(OsStr::new(file))) {
        refuse(&format!("{variable} has to name a file {}, and names {}", files.join(" or "), given.display()));
    }
    match path.canonicalize() {
        Ok(found) => Some(found),
        Err(fault) => refuse(&format!("{variable} names {}: {fault}", path.display())),
    }
}

/// The kit's library for the heap, if `rt` is on the path.
fn heap_of_kit() -> Option<PathBuf> {
    println!("cargo:rerun-if-env-changed=PATH");
    let said = Command::new("rt").arg("doc").output().ok()?;
    let page = String::from_utf8(said.stdout).ok()?;
    Path::new(page.trim()).parent()?.join("c").join(HEAP).canonicalize().ok()
}

/// Links the library itself, and says when it is the one of which nothing was proved.
fn link_door(library: &Path) {
    if library.file_name() == Some(OsStr::new(UNPROVED)) {
        println!("cargo:rustc-cfg=partial_door_unproved");
        println!("cargo:warning=nothing was proved of {}", library.display());
        link(library, "partial_door_unproved");
    } else {
        link(library, "partial_door");
    }
}

/// Links a static library.
fn link(library: &Path, name: &str) {
    let folder = library.parent().expect("a file lies in a folder");
    println!("cargo:rerun-if-changed={}", library.display());
    println!("cargo:rustc-link-search=native={}", folder.display());
    println!("cargo:rustc-link-lib=static={name}");
}

/// Says what to do about a library that is missing: now, and when something is linked.
fn lack(name: &str, what: &str) {
    println!("cargo:warning=there is no library {name}, so nothing with this crate can be linked: {what}");
    println!("cargo:rustc-link-lib=static={name} (it isn't built yet; {what})");
}

/// Ends the build, and says why.
fn refuse(why: &str) -> ! {
    eprintln!("{why}");
    exit(1)
}
