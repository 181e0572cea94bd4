//! docs/DECISIONS.md, "The word of a coordinate": of the numbers that are written out in the code of the crates, all ones
//! alone has more than 32 bits. What the compiler makes of expressions is looked up in the library (c/check).

use std::fs;
use std::path::Path;

/// The endings that name a number's type.
const TYPES: [&str; 11] = ["usize", "isize", "u128", "u64", "i64", "u32", "i32", "u16", "i16", "u8", "i8"];

/// The number that a word of the code writes out, if it is one.
fn number(word: &str) -> Option<u128> {
    let digits = TYPES.iter().find_map(|ending| word.strip_suffix(ending)).unwrap_or(word).replace('_', "");
    let bases = [("0x", 16), ("0o", 8), ("0b", 2)];
    let (start, base) = bases.into_iter().find(|(start, _)| digits.starts_with(start)).unwrap_or(("", 10));
    u128::from_str_radix(&digits[start.len()..], base).ok()
}

/// The numbers of a source that have more than 32 bits, its comments left out.
fn long_numbers(source: &str) -> Vec<u128> {
    let code = source.lines().map(|line| line.split("//").next().unwrap());
    let words = code.flat_map(|line| line.split(|c: char| !c.is_alphanumeric() && c != '_'));
    words.filter_map(number).filter(|&found| found > u128::from(u32::MAX)).collect()
}

/// The files of code below a folder, with the numbers of more than 32 bits in each that has some. What rt builds, in out/, is left out.
fn files(folder: &Path, found: &mut Vec<(String, Vec<u128>)>) {
    for path in fs::read_dir(folder).unwrap().map(|entry| entry.unwrap().path()) {
        if path.is_dir() && path.file_name().is_some_and(|name| name != "out") {
            files(&path, found);
        } else if path.extension().is_some_and(|end| end == "rt") {
            let numbers = long_numbers(&fs::read_to_string(&path).unwrap());
            if !numbers.is_empty() {
                found.push((path.file_name().unwrap().to_str().unwrap().to_string(), numbers));
            }
        }
    }
}

#[test]
fn all_ones_alone_is_long() {
    let mut found = Vec::new();
    files(&Path::new(env!("CARGO_MANIFEST_DIR")).join("../crates"), &mut found);
    assert_eq!(found, [("coordinates.rt".to_string(), vec![u128::from(u64::MAX)])]);
}

#[test]
fn a_long_number_is_seen() {
    assert_eq!(long_numbers("    0xCCCC_CCCC_CCCC_CCCC, // 0xF0F0_F0F0_F0F0_F0F0\n"), [0xCCCC_CCCC_CCCC_CCCC]);
    assert_eq!(long_numbers("const KEYS: usize = 4_294_967_296usize;\n"), [1 << 32]);
    assert!(long_numbers("let p = 1u64 << (1u64 << j); 0xFFFF_FFFF\n").is_empty());
}
