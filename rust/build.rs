//! Links the library for C. It is that of the folder `NETLINK_PACKET_DIR` if this variable is set, else that of
//! `c/build`, else the installed one that pkg-config finds.

use std::env;
use std::path::{Path, PathBuf};
use std::process::{exit, Command};

const ARCHIVE: &str = "libnetlink_packet.a";
const SHARED: &str = "libnetlink_packet.so";

/// Returns the folder that has the archive: this folder, or the folder `lib` in it.
fn folder_in(folder: &Path) -> Option<PathBuf> {
    [folder.to_path_buf(), folder.join("lib")].into_iter().find(|it| it.join(ARCHIVE).is_file())
}

/// Returns the folder of the installed library, as pkg-config prints it.
fn installed() -> Option<PathBuf> {
    let program = env::var_os("PKG_CONFIG").unwrap_or("pkg-config".into());
    let run = Command::new(program).args(["--variable=libdir", "netlink_packet"]).output().ok()?;
    let folder = PathBuf::from(String::from_utf8(run.stdout).ok()?.trim_end());
    let found = [ARCHIVE, SHARED].iter().any(|it| folder.join(it).is_file());
    (run.status.success() && found).then_some(folder)
}

/// Returns the folder of the library, or what to do if there is none.
fn folder() -> Result<PathBuf, String> {
    if let Some(named) = env::var_os("NETLINK_PACKET_DIR") {
        let named = PathBuf::from(named);
        let why = format!("NETLINK_PACKET_DIR is {0}, but neither it nor its lib has {ARCHIVE}", named.display());
        return folder_in(&named).ok_or(why);
    }
    let why = format!(
        "there is no {ARCHIVE}: run `c/build`, which needs the Rattle kit, or set NETLINK_PACKET_DIR to the prefix of an \
         installed library"
    );
    folder_in(&Path::new(env!("CARGO_MANIFEST_DIR")).join("../c/out")).or_else(installed).ok_or(why)
}

fn main() {
    println!("cargo:rerun-if-changed=build.rs");
    for name in ["NETLINK_PACKET_DIR", "PKG_CONFIG", "PKG_CONFIG_PATH", "PKG_CONFIG_LIBDIR"] {
        println!("cargo:rerun-if-env-changed={name}");
    }
    let folder = folder().unwrap_or_else(|why| {
        eprintln!("error: {why}");
        exit(1);
    });
    let archive = folder.join(ARCHIVE);
    let kind = if archive.is_file() { "static" } else { "dylib" };
    println!("cargo:rustc-link-search=native={}", folder.display());
    println!("cargo:rustc-link-lib={kind}=netlink_packet");
    println!("cargo:rerun-if-changed={}", archive.display());
}
