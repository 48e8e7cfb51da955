//! Finds libthreshlantern.a for the linker: in the folder that THRESHLANTERN_LIB names, or in build/ at the top of the
//! repository, where `make lib` puts it. A relative THRESHLANTERN_LIB counts from this crate's folder, as a build
//! script is not told where cargo was started.
//!
//! Without the archive, or with one for another machine, this gives a warning and no folder. So `cargo check` and
//! `cargo doc` work without it, and whatever has to be linked stops: "could not find native static library".

use std::env;
use std::fs;
use std::path::{Path, PathBuf};

fn main() {
    let here = PathBuf::from(env::var("CARGO_MANIFEST_DIR").unwrap_or_default());
    let folder = here.join(env::var("THRESHLANTERN_LIB").unwrap_or_else(|_| "../../build".into()));
    let archive = folder.join("libthreshlantern.a");
    println!("cargo:rerun-if-env-changed=THRESHLANTERN_LIB");
    println!("cargo:rerun-if-changed={}", archive.display());
    match trouble(&archive) {
        None => println!("cargo:rustc-link-search=native={}", folder.display()),
        Some(trouble) => println!(
            "cargo:warning={} {trouble}: nothing can be linked. Run `make lib` at the top of the repository, \
             or set THRESHLANTERN_LIB to the archive's folder (a relative one counts from {})",
            archive.display(),
            here.display()
        ),
    }
    println!("cargo:rustc-link-lib=static=threshlantern");
}

/// What keeps the archive from being linked for the target, if anything.
fn trouble(archive: &Path) -> Option<String> {
    let bytes = match fs::read(archive) {
        Ok(bytes) => bytes,
        Err(error) => return Some(format!("cannot be read ({error})")),
    };
    let target = env::var("CARGO_CFG_TARGET_ARCH").unwrap_or_default();
    match machine(&bytes) {
        None => Some("is no archive of ELF objects".into()),
        Some(machine) if name(machine) == target => None,
        Some(machine) => Some(format!("is for {}, and the target is {target}", name(machine))),
    }
}

/// The number of the machine (ELF's e_machine) that the first object of an archive is for.
fn machine(archive: &[u8]) -> Option<u16> {
    let mut rest = archive.strip_prefix(b"!<arch>\n")?;
    loop {
        // A member: a name of 16 bytes, its size in decimal at 48, its bytes from 60 on, to an even place.
        let size: usize = std::str::from_utf8(rest.get(48..58)?).ok()?.trim_end().parse().ok()?;
        let member = rest.get(60..60usize.checked_add(size)?)?;
        if let Some(b"\x7fELF") = member.get(..4) {
            let two = [*member.get(18)?, *member.get(19)?];
            return Some(if member[5] == 2 {
                u16::from_be_bytes(two)
            } else {
                u16::from_le_bytes(two)
            });
        }
        // The table of symbols or of long names, before the objects.
        if rest.first() != Some(&b'/') {
            return None;
        }
        rest = rest.get(60 + size + size % 2..)?;
    }
}

/// The machine as cargo names it.
fn name(machine: u16) -> &'static str {
    match machine {
        3 => "x86",
        40 => "arm",
        62 => "x86_64",
        183 => "aarch64",
        243 => "riscv64",
        _ => "another machine",
    }
}
