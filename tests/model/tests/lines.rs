//! The line program: malformed lines, chunks, the last LF, random scripts.

use std::collections::HashSet;
use std::io::{self, Read};

use model::gen::{scripts, Rng};
use model::lines::{run, LineProgram};

fn output_of(input: &[u8]) -> String {
    let mut output = Vec::new();
    run(input, &mut output).unwrap();
    String::from_utf8(output).unwrap()
}

/// Gives its bytes in chunks of random size.
struct Chunks<'a> {
    rest: &'a [u8],
    rng: Rng,
}

impl Read for Chunks<'_> {
    fn read(&mut self, buffer: &mut [u8]) -> io::Result<usize> {
        let wanted = 1 + self.rng.below(60) as usize;
        let length = wanted.min(self.rest.len()).min(buffer.len());
        let (given, rest) = self.rest.split_at(length);
        buffer[..length].copy_from_slice(given);
        self.rest = rest;
        Ok(length)
    }
}

const MALFORMED: [&[u8]; 41] = [
    b"",
    b",",
    b"c",
    b"c,",
    b"c,b8",
    b"c,b8,",
    b"c,b8,1",
    b"c,b8,001",
    b"c,B8,01",
    b"c,b8,0A",
    b"c,b8,01,",
    b"c,b8,01\r",
    b"c,b8,01\0",
    b"c,b8,0g",
    b"c,b80,1",
    b"C,b8,01",
    b" c,b8,01",
    b"c,b8,01 ",
    b"\"c\",b8,01",
    b"cc,b8,01",
    b"g",
    b"g,b",
    b"g,b8,01",
    b"x,00000000",
    b"s,0000000",
    b"s,000000000",
    b"s,0000000A",
    b"s,00000000,",
    b"w,00000000",
    b"w,00000000,",
    b"w,00000000,1",
    b"w,00000000,123",
    b"w,00000000,112233445566778899",
    b"w,00000000,aB",
    b"r,00000000,",
    b"r,00000000,08",
    b"r,00000000,100",
    b"r,00000000,-1",
    b"f,00000000,00",
    b"f,00000000,+1",
    b"r,00000000,1,                               ",
];

#[test]
fn malformed_lines_change_nothing() {
    let mut program = LineProgram::new();
    let before = *program.record();
    for line in MALFORMED {
        let mut out = Vec::new();
        program.take_line(line, &mut out);
        assert_eq!(out, b"?,18\n", "{}", line.escape_ascii());
    }
    assert_eq!(*program.record(), before);
    assert!(program.cells().iter().all(|&byte| byte == 0));
}

#[test]
fn the_last_lf_may_lack() {
    assert_eq!(output_of(b""), "");
    assert_eq!(output_of(b"g,b8"), "g,0,00\n");
    assert_eq!(output_of(b"g,b8\n"), "g,0,00\n");
    assert_eq!(output_of(b"\n"), "?,18\n");
    assert_eq!(output_of(b"g,b8\n\n"), "g,0,00\n?,18\n");
    assert_eq!(output_of(b"g,b8\n "), "g,0,00\n?,18\n");
}

#[test]
fn a_long_line_is_one_malformed_line() {
    let mut input = b"g,b8,".to_vec();
    input.resize(200_000, b'0');
    input.extend_from_slice(b"\ng,b8\n");
    assert_eq!(output_of(&input), "?,18\ng,0,00\n");
    assert_eq!(output_of(&input[..150_000]), "?,18\n");
}

#[test]
fn counts_and_bits_of_two_digits() {
    let set_up = "c,a0,01\nc,f2,08\n";
    let lines = "r,00000000,0\nr,00000000,9\nr,00000000,99\nf,00000000,71\n\
                 f,00000000,72\nf,00000000,99\nf,00000000,0\ns,00000000\n";
    let output = output_of(format!("{set_up}{lines}").as_bytes());
    let expected = "c,0\nc,0\nr,6\nr,6\nr,6\nf,0\nf,8\nf,8\nf,0\ns,0,u\n";
    assert_eq!(output, expected);
}

#[test]
fn lent_cells_end_at_7280() {
    let input = "c,a0,01\nc,f2,08\ns,0000e37f\ns,0000e380\nf,00100000,0\nc,a0,00\n";
    assert_eq!(
        output_of(input.as_bytes()),
        "c,0\nc,0\ns,0,n\ns,9\nf,10\nc,4\n"
    );
}

#[test]
fn chunks_of_any_size_give_the_same() {
    for seed in 0..20 {
        let script = scripts::script(&mut Rng::new(seed), 2000);
        let mut input = scripts::as_input(&script);
        if seed % 2 == 0 {
            input.pop();
        }
        let rng = Rng::new(seed + 1000);
        let mut chunked = Vec::new();
        let chunks = Chunks { rest: &input, rng };
        run(chunks, &mut chunked).unwrap();
        assert_eq!(String::from_utf8(chunked).unwrap(), output_of(&input));
    }
}

/// The start of an output line, without bytes, values or bits: letter, 0 or
/// refusal, and the letters of the answers.
fn start_of(line: &str) -> String {
    let fields: Vec<&str> = line.split(',').collect();
    let is_answer = |field: &str| matches!(field, "n" | "c" | "u" | "e" | "p");
    let shown = |&(place, field): &(usize, &str)| place < 2 || is_answer(field);
    let kept = fields.into_iter().enumerate().filter(shown);
    kept.map(|(_, field)| field).collect::<Vec<_>>().join(",")
}

/// A random script meets every refusal that a line can get, every answer of
/// every letter, both answers of splits, and reports of each kind.
#[test]
fn random_scripts_meet_everything() {
    let script = scripts::script(&mut Rng::new(7), 60_000);
    let output = output_of(&scripts::as_input(&script));
    assert_eq!(output.lines().count(), script.len());
    let starts: HashSet<String> = output.lines().map(start_of).collect();
    for expected in [
        "c,0", "c,1", "c,2", "c,3", "c,4", "c,11", "c,12", "c,13", "c,14", "g,1", "r,5", "r,6",
        "r,7", "r,9", "r,0,n", "r,0,c", "r,0,u", "r,0,e", "w,5", "w,7", "w,9", "w,0,n", "w,0,c",
        "w,0,u", "w,0,e", "w,0,p", "f,0", "f,5", "f,8", "f,9", "f,10", "s,5", "s,9", "s,0,n",
        "s,0,c", "s,0,u", "s,0,e", "?,18",
    ] {
        assert!(starts.contains(expected), "{expected} is missing");
    }
    // The last doubleword of a bank is never lent here, so no split has "no
    // bank" after another answer.
    let both = [
        "n,n", "n,c", "n,u", "c,n", "c,c", "c,u", "u,n", "u,c", "u,u",
    ];
    let from_no_bank = ["e,n", "e,c", "e,u", "e,e"];
    for answers in both.into_iter().chain(from_no_bank) {
        for letter in ["r", "w"] {
            let expected = format!("{letter},0,{answers}");
            assert!(starts.contains(&expected), "{expected} is missing");
        }
    }
}
