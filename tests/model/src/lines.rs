//! The line program `busline`.

mod parse;

use std::io::{self, ErrorKind, Read, Write};

use crate::answers::Answer;
use crate::code::CELL_BYTES;
use crate::memory;
use crate::record::Record;
use crate::refusal::Refusal;
use parse::Line;

/// LINE-9
pub const LENT_CELLS: usize = 7280;

/// LINE-1: the LF is not counted.
pub const LONGEST_LINE: usize = 40;

/// The largest count that two decimal digits can ask for.
const LARGEST_COUNT: usize = 99;

const CHUNK: usize = 1 << 16;

const HEX: &[u8; 16] = b"0123456789abcdef";

/// LINE-9: the record and the cells that all lines share.
pub struct LineProgram {
    record: Record,
    cells: Vec<u8>,
}

impl Default for LineProgram {
    fn default() -> Self {
        LineProgram::new()
    }
}

impl LineProgram {
    pub fn new() -> Self {
        LineProgram {
            record: Record::fresh(),
            cells: vec![0; CELL_BYTES * LENT_CELLS],
        }
    }

    /// The record as the lines so far left it.
    pub fn record(&self) -> &Record {
        &self.record
    }

    /// The lent cells as the lines so far left them.
    pub fn cells(&self) -> &[u8] {
        &self.cells
    }

    /// Takes one line without its LF and appends the output line.
    pub fn take_line(&mut self, line: &[u8], out: &mut Vec<u8>) {
        match parse::parse(line) {
            Some(parsed) => {
                out.push(line[0]);
                if let Err(refusal) = self.execute(parsed, out) {
                    put_refusal(out, refusal);
                }
            }
            // LINE-11
            None => {
                out.push(b'?');
                put_refusal(out, Refusal::MalformedLine);
            }
        }
        out.push(b'\n');
    }

    /// Makes the call of a line. If it is accepted, ",0" and what follows are
    /// put out; if refused, nothing.
    fn execute(&mut self, line: Line, out: &mut Vec<u8>) -> Result<(), Refusal> {
        let LineProgram { record, cells } = self;
        match line {
            Line::Configure { offset, value } => {
                record.write_register(offset, value)?;
                put_accepted(out);
            }
            Line::Get { offset } => {
                let value = record.read_register(offset)?;
                put_accepted(out);
                out.push(b',');
                put_hex(out, &[value]);
            }
            Line::Write { address, bytes } => {
                let answers = memory::write(record, cells, address, bytes.as_slice())?;
                put_answers(out, answers.kinds());
            }
            Line::Read { address, count } => {
                let mut buffer = [0; LARGEST_COUNT];
                let buffer = &mut buffer[..usize::from(count)];
                let answers = memory::read(record, cells, address, buffer)?;
                put_answers(out, answers.kinds());
                out.push(b',');
                put_hex(out, buffer);
            }
            Line::Flip { address, bit } => {
                memory::flip(record, cells, address, bit)?;
                put_accepted(out);
            }
            Line::Scrub { address } => {
                let answer = memory::scrub(record, cells, address)?;
                put_answers(out, &[answer]);
            }
        }
        Ok(())
    }
}

/// Runs the program from an input to an output. Chunks may have any size.
pub fn run(mut input: impl Read, mut output: impl Write) -> io::Result<()> {
    let mut program = LineProgram::new();
    let mut splitter = LineSplitter::default();
    let mut chunk = vec![0; CHUNK];
    let mut out = Vec::with_capacity(2 * CHUNK);
    loop {
        let length = match input.read(&mut chunk) {
            Ok(0) => break,
            Ok(length) => length,
            Err(error) if error.kind() == ErrorKind::Interrupted => continue,
            Err(error) => return Err(error),
        };
        splitter.take_chunk(&chunk[..length], |line| program.take_line(line, &mut out));
        if out.len() >= CHUNK {
            output.write_all(&out)?;
            out.clear();
        }
    }
    splitter.finish(|line| program.take_line(line, &mut out));
    output.write_all(&out)?;
    output.flush()
}

/// Cuts chunks into lines, keeping an unfinished line for the next chunk.
#[derive(Default)]
struct LineSplitter {
    /// The unfinished line; of a line that is too long, just enough to know
    /// that it is.
    pending: Vec<u8>,
}

impl LineSplitter {
    fn take_chunk(&mut self, mut chunk: &[u8], mut take_line: impl FnMut(&[u8])) {
        while let Some(end) = chunk.iter().position(|&byte| byte == b'\n') {
            if self.pending.is_empty() {
                take_line(&chunk[..end]);
            } else {
                self.keep(&chunk[..end]);
                take_line(&self.pending);
                self.pending.clear();
            }
            chunk = &chunk[end + 1..];
        }
        self.keep(chunk);
    }

    fn keep(&mut self, part: &[u8]) {
        let room = LONGEST_LINE + 1 - self.pending.len();
        self.pending
            .extend_from_slice(&part[..part.len().min(room)]);
    }

    /// LINE-1: what is left after the last LF is a line if it has any byte.
    fn finish(self, mut take_line: impl FnMut(&[u8])) {
        if !self.pending.is_empty() {
            take_line(&self.pending);
        }
    }
}

/// LINE-12: the part after the letter.
fn put_refusal(out: &mut Vec<u8>, refusal: Refusal) {
    put_decimal(out, refusal.number());
}

/// A further field with a number below 100, without a leading zero.
fn put_decimal(out: &mut Vec<u8>, number: u8) {
    out.push(b',');
    if number >= 10 {
        out.push(b'0' + number / 10);
    }
    out.push(b'0' + number % 10);
}

fn put_accepted(out: &mut Vec<u8>) {
    out.extend_from_slice(b",0");
}

/// LINE-14: a letter for each access, in their order, and after the letter of a
/// correction its flip bit.
fn put_answers(out: &mut Vec<u8>, answers: &[Answer]) {
    put_accepted(out);
    for &answer in answers {
        out.extend_from_slice(&[b',', letter(answer)]);
        if let Answer::Corrected(bit) = answer {
            put_decimal(out, bit);
        }
    }
}

fn letter(answer: Answer) -> u8 {
    match answer {
        Answer::Clean => b'n',
        Answer::Corrected(_) => b'c',
        Answer::Uncorrectable => b'u',
        Answer::NoBank => b'e',
        Answer::Stored => b'p',
    }
}

fn put_hex(out: &mut Vec<u8>, bytes: &[u8]) {
    for &byte in bytes {
        out.push(HEX[usize::from(byte >> 4)]);
        out.push(HEX[usize::from(byte & 15)]);
    }
}
