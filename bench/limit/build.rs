//! Writes the tables of the C files and compiles them with gcc.
use std::env;
use std::fmt::{Display, Write};
use std::fs;
use std::path::{Path, PathBuf};
use std::process::Command;

const SOURCES: [&str; 2] = ["limit.c", "bursts.c"];
const HEADERS: [&str; 4] = ["locate.h", "cell.h", "calls.h", "splits.h"];

/// The columns of data bits 0 to 63, then of the check bits.
fn columns() -> Vec<u8> {
    let three_ones = (0..=u8::MAX).filter(|column| column.count_ones() == 3);
    let rest = [31, 47, 55, 59, 61, 62, 79, 87];
    let check_bits = (0..8).map(|bit| 1 << bit);
    three_ones.chain(rest).chain(check_bits).collect()
}

fn array<T: Display>(text: &mut String, kind: &str, name: &str, values: &[T]) {
    let count = values.len();
    write!(
        text,
        "static const {kind} {name}[{count}] __attribute__((aligned(64))) = {{"
    )
    .unwrap();
    for (i, value) in values.iter().enumerate() {
        let before = if i % 16 == 0 { "\n    " } else { " " };
        write!(text, "{before}{value},").unwrap();
    }
    text.push_str("\n};\n");
}

/// CHECK: the check byte of a doubleword whose byte `i / 256` is `i % 256`, and whose other bytes are zero.
fn check(columns: &[u8]) -> Vec<u8> {
    let of_byte = |place: usize, value: usize| {
        let ones = (0..8).filter(|bit| value >> (7 - bit) & 1 == 1);
        ones.fold(0, |check, bit| check ^ columns[8 * place + bit])
    };
    (0..8 * 256).map(|i| of_byte(i / 256, i % 256)).collect()
}

/// SPLIT_CHECK: the same for a byte of two doublewords one after the other, `i / 256` being its place in both; the check byte of the second is in
/// the high byte.
fn split_check(check: &[u8]) -> Vec<u16> {
    let first = check.iter().map(|&byte| u16::from(byte));
    let second = check.iter().map(|&byte| u16::from(byte) << 8);
    first.chain(second).collect()
}

/// PART and FIX, by syndrome: the part of an answer, which is clean, corrected or uncorrectable (1, 2, 3) with the flip bit of a correction in the
/// next byte; and the data bit to be corrected, as a mask for the doubleword loaded with its first byte lowest.
fn syndromes(columns: &[u8]) -> (Vec<usize>, Vec<String>) {
    let (mut part, mut fix) = (vec![3; 256], vec![0u64; 256]);
    part[0] = 1;
    for (bit, &column) in columns.iter().enumerate() {
        part[usize::from(column)] = bit << 8 | 2;
        if bit < 64 {
            fix[usize::from(column)] = 1 << (bit ^ 7);
        }
    }
    (part, fix.iter().map(|mask| format!("{mask:#x}u")).collect())
}

/// In how many pairs of banks the first starts above the end of the second, if the enabled spans are disjoint and a disabled bank starts and ends
/// at -1. If no bank is enabled this is a number that never occurs.
fn disjoint_pairs(enabled: u32) -> u32 {
    match enabled.count_ones() {
        0 => 99,
        on => on * (on - 1) / 2 + on * (8 - on),
    }
}

/// OFF, by the enable byte: FFFF for each disabled bank; then how many lower banks are enabled, for each bank. Of bank 0 they are always 0, so the high
/// byte there has the pairs of disjoint banks.
fn off() -> Vec<u32> {
    let of_byte = |enabled: u32| {
        let lanes = (0..8).map(move |bank| if enabled >> bank & 1 == 1 { 0 } else { 0xffff });
        let lower = (1..8).map(move |bank| (enabled & ((1 << bank) - 1)).count_ones());
        lanes.chain([disjoint_pairs(enabled) << 8]).chain(lower)
    };
    (0..256).flat_map(of_byte).collect()
}

/// ROWS, by a byte of row codes: for its four banks the greatest length less 1, then the least size less 1.
fn rows() -> Vec<u32> {
    const LONGEST: [u32; 4] = [2, 8, 32, 256];
    let of_byte = |byte: u32| {
        let code = move |bank: u32| byte >> (2 * bank) & 3;
        let longest = (0..4).map(move |bank| LONGEST[code(bank) as usize] - 1);
        let least = (0..4).map(move |bank| 2u32.pow(code(bank)) - 1);
        longest.chain(least)
    };
    (0..256).flat_map(of_byte).collect()
}

/// BELOW, by the bank: FFFF for each lower bank.
fn below() -> Vec<u32> {
    (0..64)
        .map(|i| if i % 8 < i / 8 { 0xffff } else { 0 })
        .collect()
}

fn tables() -> String {
    let columns = columns();
    let (part, fix) = syndromes(&columns);
    let mut text = String::new();
    let check = check(&columns);
    array(&mut text, "uint8_t", "CHECK", &check);
    array(&mut text, "uint16_t", "SPLIT_CHECK", &split_check(&check));
    array(&mut text, "uint16_t", "PART", &part);
    array(&mut text, "uint64_t", "FIX", &fix);
    array(&mut text, "uint16_t", "OFF", &off());
    array(&mut text, "uint16_t", "ROWS", &rows());
    array(&mut text, "uint16_t", "BELOW", &below());
    text
}

fn run(command: &mut Command) {
    let status = command.status().expect("the command starts");
    assert!(status.success(), "{command:?} failed");
}

/// The object file of a C source.
fn compile(folder: &Path, out: &Path, source: &str) -> PathBuf {
    let object = out.join(source).with_extension("o");
    let flags = [
        "-std=c11", "-O3", "-Wall", "-Wextra", "-Werror", "-fPIC", "-c",
    ];
    run(Command::new("gcc")
        .args(flags)
        .arg("-I")
        .arg(out)
        .arg(folder.join(source))
        .arg("-o")
        .arg(&object));
    object
}

fn main() {
    let out = PathBuf::from(env::var_os("OUT_DIR").expect("cargo sets it"));
    let folder = Path::new(env!("CARGO_MANIFEST_DIR"));
    for file in SOURCES.iter().chain(&HEADERS) {
        println!("cargo:rerun-if-changed={}", folder.join(file).display());
    }
    println!("cargo:rerun-if-changed=build.rs");
    fs::write(out.join("tables.h"), tables()).expect("the tables are written");
    let objects = SOURCES.map(|source| compile(folder, &out, source));
    let library = out.join("liblimit.a");
    run(Command::new("ar").arg("crs").arg(&library).args(objects));
    println!("cargo:rustc-link-search=native={}", out.display());
    println!("cargo:rustc-link-lib=static=limit");
}
