//! The size of what a hub links, from the sections of the archive's objects (64-bit little-endian ELF).

use crate::table;
use std::path::Path;

const WRITE: u64 = 1;
const ALLOC: u64 = 2;
const EXECUTE: u64 = 4;

/// Bytes of an archive that a hub keeps in memory.
#[derive(Default)]
struct Sizes {
    code: u64,
    constants: u64,
    data: u64,
}

/// The number that stands in so many bytes at an offset.
fn number(bytes: &[u8], at: usize, length: usize) -> u64 {
    bytes[at..at + length].iter().rev().fold(0, |value, &byte| value << 8 | u64::from(byte))
}

/// The objects of an archive: each has a head of 60 bytes, in which its size stands in digits, and begins at an even offset.
fn objects(archive: &[u8]) -> Vec<&[u8]> {
    let mut rest = archive.strip_prefix(b"!<arch>\n").expect("an archive");
    let mut all = Vec::new();
    while rest.len() >= 60 {
        let (head, behind) = rest.split_at(60);
        let digits = str::from_utf8(&head[48..58]).expect("a size in digits");
        let size: usize = digits.trim_end().parse().expect("a size in digits");
        let (object, behind) = behind.split_at(size);
        // The list of symbols is a member too, and no object.
        if object.starts_with(b"\x7fELF") {
            all.push(object);
        }
        rest = behind.get(size % 2..).unwrap_or_default();
    }
    all
}

fn add_sections(object: &[u8], sizes: &mut Sizes) {
    let [start, entry, count] =
        [(0x28, 8), (0x3a, 2), (0x3c, 2)].map(|(at, length)| number(object, at, length));
    for index in 0..count {
        let at = (start + index * entry) as usize;
        let (flags, size) = (number(object, at + 8, 8), number(object, at + 32, 8));
        match flags & (ALLOC | WRITE | EXECUTE) {
            kind if kind & ALLOC == 0 => {}
            kind if kind & EXECUTE != 0 => sizes.code += size,
            kind if kind & WRITE != 0 => sizes.data += size,
            _ => sizes.constants += size,
        }
    }
}

pub fn print() {
    let path = Path::new(env!("CARGO_MANIFEST_DIR")).join("../../target/native/libkritnamon.a");
    let archive = std::fs::read(path).expect("the archive that was linked");
    let mut sizes = Sizes::default();
    objects(&archive).into_iter().for_each(|object| add_sections(object, &mut sizes));
    table::head("Size of the archive", &["code", "constants", "data"]);
    let cells = [sizes.code, sizes.constants, sizes.data].map(|size| table::number(size as f64) + " bytes");
    table::row(&[&cells[0], &cells[1], &cells[2]]);
}
