//! Links the library that `c/build` makes, and libmnl.

use std::path::Path;

fn main() {
    let out = Path::new(env!("CARGO_MANIFEST_DIR")).join("../c/out");
    println!("cargo:rustc-link-search=native={}", out.display());
    println!("cargo:rustc-link-lib=static=netlink_packet");
    println!("cargo:rustc-link-lib=dylib=mnl");
    println!("cargo:rerun-if-changed={}", out.join("libnetlink_packet.a").display());
}
