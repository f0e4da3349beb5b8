//! Runs one case in one library, a given number of times.
//!
//! `bench CASE LIBRARY SIZE TIMES` prints the sum of the results, so that those of the libraries can be compared, and
//! the time. `bench CASE LIBRARY SIZE bytes` prints in hexadecimal what one call wrote or found. Without arguments,
//! `bench` prints one line per case: its name, its size, and the libraries that have it. `run` compares the bytes and
//! counts the instructions.

mod found;
mod libmnl;
mod ours;
mod rust_crate;

use std::hint::black_box;

/// The sizes of a frame's payload, in bytes.
const SIZES: [usize; 4] = [4, 64, 1024, 32768];

/// The numbers of attributes, or of frames in a datagram.
const COUNTS: [usize; 3] = [10, 1000, 10000];

/// The numbers of attributes of a walk, whose first attribute costs most.
const WALKS: [usize; 6] = [1, 2, 3, 10, 1000, 10000];

/// The numbers of messages of a walk, whose first message costs most.
const READS: [usize; 6] = [1, 2, 3, 10, 1000, 10000];

/// The numbers of messages of captured dumps.
const DUMPS: [usize; 4] = [5, 6, 8, 17];

macro_rules! captured {
    ($name:literal) => {
        include_bytes!(concat!("../../examples/captured/", $name, ".bin"))
    };
}

/// Returns the datagrams of a captured dump, by the number of its messages: links, neighbours, addresses and routes.
#[inline(always)]
fn dump(messages: usize) -> &'static [&'static [u8]] {
    match messages {
        5 => &[captured!("links-0"), captured!("links-1"), captured!("links-2")],
        6 => &[captured!("neighbours-0")],
        8 => &[captured!("addresses-0"), captured!("addresses-1")],
        _ => &[captured!("routes-0"), captured!("routes-1")],
    }
}

/// Returns a frame of type 18 with a payload of this size.
fn frame(size: usize) -> Vec<u8> {
    let mut bytes = vec![0; 16];
    bytes[..4].copy_from_slice(&((16 + size) as u32).to_ne_bytes());
    bytes[4] = 18;
    bytes.extend((0..size).map(|i| i as u8));
    bytes
}

/// Returns a block of `count` attributes with 4-byte values.
fn block(count: usize) -> Vec<u8> {
    let mut bytes = Vec::new();
    for i in 0..count {
        bytes.extend_from_slice(&8u16.to_ne_bytes());
        bytes.extend_from_slice(&(i as u16 & 0x3fff).to_ne_bytes());
        bytes.extend_from_slice(&(i as u32).to_ne_bytes());
    }
    bytes
}

/// Returns a frame of type 18 whose payload is a block of `count` attributes.
fn message(count: usize) -> Vec<u8> {
    let mut bytes = frame(0);
    bytes.extend(block(count));
    let size = bytes.len() as u32;
    bytes[..4].copy_from_slice(&size.to_ne_bytes());
    bytes
}

/// Returns a datagram of `count` frames of 20 bytes.
fn datagram(count: usize) -> Vec<u8> {
    (0..count).flat_map(|_| frame(4)).collect()
}

/// Returns the input of a case.
fn input(case: &str, size: usize) -> Vec<u8> {
    match case {
        "read" | "view" | "round_trip" => frame(size),
        "refuse" => {
            let mut bytes = frame(size);
            bytes.pop();
            bytes
        }
        "split" | "messages" | "read_each" => datagram(size),
        "table" => message(size),
        _ => block(size),
    }
}

/// One call of a case: with the size, the input, and a buffer.
type Call = fn(usize, &[u8], &mut [u8]) -> usize;

/// Returns one call of a case in a library. It is chosen once, so that no count includes the choice.
fn call_of(case: &str, library: &str) -> Call {
    match (case, library) {
        ("read", "ours") | ("view", "ours") => |_, bytes, _| ours::read(bytes),
        ("read", "rust") => |_, bytes, _| rust_crate::read(bytes),
        ("view", "rust") => |_, bytes, _| rust_crate::view(bytes),
        ("view", "libmnl") => |_, bytes, _| libmnl::read(bytes),
        ("round_trip", "ours") => |_, bytes, out| ours::round_trip(bytes, out),
        ("round_trip", "rust") => |_, bytes, out| rust_crate::round_trip(bytes, out),
        ("walk", "ours") => |_, bytes, _| ours::walk(bytes),
        ("walk", "rust") => |_, bytes, _| rust_crate::walk(bytes),
        ("walk", "libmnl") => |_, bytes, _| libmnl::walk(bytes),
        ("walk_each", "ours") => |_, bytes, _| ours::walk_each(bytes),
        ("walk_each", "libmnl") => |_, bytes, _| libmnl::walk(bytes),
        ("put", "ours") => |size, _, out| ours::put(size, out),
        ("put", "rust") => |size, _, out| rust_crate::put(size, out),
        ("put", "libmnl") => |size, _, out| libmnl::put(size, out),
        ("normalise", "ours") => |_, bytes, out| ours::normalize(bytes, out),
        ("normalise", "rust") => |_, bytes, out| rust_crate::normalize(bytes, out),
        ("normalise", "libmnl") => |_, bytes, out| libmnl::normalize(bytes, out),
        ("refuse", "ours") => |_, bytes, _| ours::refuse(bytes),
        ("refuse", "rust") => |_, bytes, _| rust_crate::refuse(bytes),
        ("refuse", "libmnl") => |_, bytes, _| libmnl::refuse(bytes),
        ("split", "ours") => |_, bytes, _| ours::split(bytes),
        ("split", "rust") => |_, bytes, _| rust_crate::split(bytes),
        ("split", "libmnl") => |_, bytes, _| libmnl::split(bytes),
        ("table", "ours") => |size, bytes, out| ours::table(bytes, size, out),
        ("table", "libmnl") => |size, bytes, out| libmnl::table(bytes, size, out),
        ("messages", "ours") => |_, bytes, _| ours::messages(bytes),
        ("messages", "libmnl") => |_, bytes, _| libmnl::messages(bytes),
        ("read_each", "ours") => |_, bytes, _| ours::read_each(bytes),
        ("read_each", "libmnl") => |_, bytes, _| libmnl::messages(bytes),
        ("dump", "ours") => |size, _, _| dump(size).iter().map(|it| ours::messages(it)).sum(),
        ("dump", "libmnl") => |size, _, _| dump(size).iter().map(|it| libmnl::messages(it)).sum(),
        _ => panic!("no such case: {case} {library}"),
    }
}

/// Returns what one call wrote, or what it found in the layout of `found`.
fn output(case: &str, library: &str, size: usize, bytes: &[u8], out: &mut [u8]) -> Vec<u8> {
    // A byte that a call counts as written but does not write keeps this value.
    out.fill(0xee);
    match (case, library) {
        ("round_trip" | "put" | "normalise", _) => {
            let written = call_of(case, library)(size, bytes, out);
            // libmnl writes attributes after the header of a frame.
            let start = if library == "libmnl" { 16 } else { 0 };
            out[start..start + written].to_vec()
        }
        ("dump", "ours") => dump(size).iter().flat_map(|it| ours::found(case, size, it, out).0).collect(),
        ("dump", "libmnl") => dump(size).iter().flat_map(|it| libmnl::found(case, size, it, out).0).collect(),
        (_, "ours") => ours::found(case, size, bytes, out).0,
        (_, "rust") => rust_crate::found(case, bytes).0,
        (_, "libmnl") => libmnl::found(case, size, bytes, out).0,
        _ => panic!("no such library: {library}"),
    }
}

fn print_cases() {
    for (case, libraries, sizes) in [
        ("read", "ours rust", &SIZES[..]),
        ("view", "ours rust libmnl", &SIZES[..]),
        ("round_trip", "ours rust", &SIZES[..]),
        ("refuse", "ours rust libmnl", &SIZES[..]),
        ("walk", "ours rust libmnl", &WALKS[..]),
        ("walk_each", "ours libmnl", &COUNTS[..]),
        ("put", "ours rust libmnl", &COUNTS[..]),
        ("normalise", "ours rust libmnl", &COUNTS[..]),
        ("split", "ours rust libmnl", &COUNTS[..]),
        ("table", "ours libmnl", &COUNTS[..]),
        ("messages", "ours libmnl", &READS[..]),
        ("read_each", "ours libmnl", &COUNTS[..]),
        ("dump", "ours libmnl", &DUMPS[..]),
    ] {
        for size in sizes {
            println!("{case} {size} {libraries}");
        }
    }
}

fn main() {
    let words: Vec<String> = std::env::args().skip(1).collect();
    let [case, library, size, times] = &words[..] else {
        return print_cases();
    };
    let size: usize = size.parse().unwrap();
    let bytes = input(case, size);
    // A table of this library has 24 bytes for each attribute of 8.
    let mut out = vec![0; 32 + 4 * bytes.len()];
    if times == "bytes" {
        let bytes = output(case, library, size, &bytes, &mut out);
        return println!("{}", bytes.iter().map(|it| format!("{it:02x}")).collect::<String>());
    }
    let times: usize = times.parse().unwrap();
    let call = black_box(call_of(case, library));
    let mut sum = 0usize;
    let start = std::time::Instant::now();
    for _ in 0..times {
        sum = sum.wrapping_add(black_box(call(size, black_box(&bytes), black_box(&mut out))));
    }
    println!("{sum} {}", start.elapsed().as_nanos());
}
