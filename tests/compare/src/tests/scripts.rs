//! Line scripts through `busline` and through the model's line program.

mod output;

use model::gen::{scripts, Rng};
use model::lines;

use crate::busline::{Busline, Feed};
use crate::coverage::Coverage;
use crate::shrink::{self, Budget};
use output::{bits, every_bit, head};

const LONG_SCRIPTS: usize = 12;
const LONG_LINES: usize = 30_000;
const MIDDLE_SCRIPTS: usize = 120;
const MIDDLE_LINES: usize = 1_500;
const MANGLED_SCRIPTS: usize = 120;
const MANGLED_LINES: usize = 1_000;
const SHORT_SCRIPTS: usize = 60;

/// The bytes that lines are made of, and some that they are not.
const ALPHABET: &[u8] = b"cgwrfs,,,0123456789abcdef\n\nAF\r\0 \t\xFF";

/// The start of every output line that accepted, refused and malformed lines
/// can have; the random scripts must produce each of them.
const HEADS: &[&str] = &[
    "c,0", "c,1", "c,2", "c,3", "c,4", "c,11", "c,12", "c,13", "c,14", "g,0", "g,1", "w,0,n",
    "w,0,c", "w,0,u", "w,0,e", "w,0,p", "w,5", "w,7", "w,9", "r,0,n", "r,0,c", "r,0,u", "r,0,e",
    "r,5", "r,6", "r,7", "r,9", "f,0", "f,5", "f,8", "f,9", "f,10", "s,0,n", "s,0,c", "s,0,u",
    "s,0,e", "s,5", "s,9", "?,18",
];

/// The answers of splits (LINE-14) that the random scripts must produce, of
/// reads and of writes. A part without a bank, after one that has a bank, is not
/// among them: the cell of the one before it is not lent to `busline`.
const SPLITS: &[&str] = &[
    "n,n", "n,c", "n,u", "c,n", "c,c", "c,u", "u,n", "u,c", "u,u", "e,n", "e,c", "e,u", "e,e",
];

/// Whole scripts of the model's generator, in odd chunks.
pub fn random_scripts(rng: &mut Rng, busline: &Busline) -> Result<String, String> {
    let mut coverage = Coverage::new();
    for (number, length) in [(LONG_SCRIPTS, LONG_LINES), (MIDDLE_SCRIPTS, MIDDLE_LINES)] {
        for _ in 0..number {
            let script = scripts::script(rng, length);
            let mut input = scripts::as_input(&script);
            if rng.percent(30) {
                // LINE-1: the last LF may be missing.
                input.pop();
            }
            let feed = Feed::Chunks(rng.next_u64());
            compare(busline, &input, feed, &mut coverage)?;
        }
    }
    coverage.check(HEADS.iter().map(|head| head.as_bytes().to_vec()))?;
    for letter in ["r", "w"] {
        let split = |answers| format!("{letter},0,{answers}").into_bytes();
        coverage.check(SPLITS.iter().map(split))?;
    }
    for (letter, accesses) in [("r", 2), ("w", 2), ("s", 1)] {
        coverage.check((0..accesses).flat_map(|access| every_bit(letter, access)))?;
    }
    let lines = LONG_SCRIPTS * LONG_LINES + MIDDLE_SCRIPTS * MIDDLE_LINES;
    Ok(format!("{lines} lines"))
}

/// Scripts with bytes changed, taken out and put in, LFs among them.
pub fn mangled_scripts(rng: &mut Rng, busline: &Busline) -> Result<String, String> {
    let mut coverage = Coverage::new();
    for _ in 0..MANGLED_SCRIPTS {
        let script = scripts::script(rng, MANGLED_LINES);
        let mut input = scripts::as_input(&script);
        mangle(rng, &mut input);
        let feed = Feed::Chunks(rng.next_u64());
        compare(busline, &input, feed, &mut coverage)?;
    }
    coverage.check([b"?,18".to_vec(), b"w,0,p".to_vec()])?;
    Ok(format!("about {} lines", MANGLED_SCRIPTS * MANGLED_LINES))
}

/// Nothing at all, ends without LF, lines of about the greatest length and
/// very long ones, bytes from an alphabet; fed slowly in short chunks.
pub fn short_scripts(rng: &mut Rng, busline: &Busline) -> Result<String, String> {
    let mut coverage = Coverage::new();
    let mut inputs: Vec<Vec<u8>> = [
        "", "\n", "\n\n", "g,b8", "g,b8\n\n", "\r\n", "g,b8\r\n", "\0",
    ]
    .iter()
    .map(|text| text.as_bytes().to_vec())
    .collect();
    for length in [38, 39, 40, 41, 42, 80, 81, 4096, 65_536, 200_000] {
        inputs.push(after_padding(length, b"\ng,b8\n"));
        // What follows in the same line must not be taken for a new one.
        inputs.push(after_padding(length, b"g,b8\nc,b8,01\ng,b8\n"));
        inputs.push(after_padding(length, b""));
    }
    for _ in 0..SHORT_SCRIPTS {
        let length = rng.below(600) as usize;
        inputs.push((0..length).map(|_| rng.pick(ALPHABET)).collect());
        let script = scripts::script(rng, 60);
        inputs.push(scripts::as_input(&script));
    }
    for input in &inputs {
        let seed = rng.next_u64();
        let feed = if input.len() < 5_000 {
            Feed::Slow(seed)
        } else {
            Feed::Chunks(seed)
        };
        compare(busline, input, feed, &mut coverage)?;
    }
    coverage.check([b"?,18".to_vec(), b"g,0".to_vec(), b"c,0".to_vec()])?;
    Ok(format!("{} inputs", inputs.len()))
}

/// A line of that length, then some more input.
fn after_padding(length: usize, rest: &[u8]) -> Vec<u8> {
    let mut input = b"w,00000000,".to_vec();
    input.resize(length, b'0');
    input.extend_from_slice(rest);
    input
}

fn mangle(rng: &mut Rng, input: &mut Vec<u8>) {
    for _ in 0..input.len() / 200 {
        let at = rng.below(input.len() as u32) as usize;
        let byte = rng.pick(ALPHABET);
        match rng.below(3) {
            0 => input[at] = byte,
            1 => drop(input.remove(at)),
            _ => input.insert(at, byte),
        }
    }
}

fn compare(
    busline: &Busline,
    input: &[u8],
    feed: Feed,
    coverage: &mut Coverage<Vec<u8>>,
) -> Result<(), String> {
    let from_model = model_output(input);
    for line in from_model.split(|&byte| byte == b'\n') {
        coverage.meet(head(line));
        coverage.extend(bits(line));
    }
    match busline.run(input, feed) {
        Ok(output) if output == from_model => Ok(()),
        _ => Err(smallest(busline, input, feed)),
    }
}

fn model_output(input: &[u8]) -> Vec<u8> {
    let mut output = Vec::new();
    lines::run(input, &mut output).expect("neither end can fail");
    output
}

/// The smallest script found on which the outputs differ, with the first
/// output lines that do.
fn smallest(busline: &Busline, input: &[u8], feed: Feed) -> String {
    let differs =
        |input: &[u8], feed| busline.run(input, feed).as_ref() != Ok(&model_output(input));
    if !differs(input, Feed::Whole) {
        // The difference is in the cutting: no line can go without it.
        return cut_difference(busline, input, feed);
    }
    let budget = Budget::new();
    let lines = split_lines(up_to_difference(busline, input));
    let fails = |lines: &[Vec<u8>]| differs(&lines.concat(), Feed::Whole);
    let lines = if fails(&lines) {
        lines
    } else {
        split_lines(input)
    };
    let script = shrink::fewer(&budget, lines, fails).concat();
    format!(
        "script {} {}",
        escaped(&script),
        first_difference(&busline.run(&script, Feed::Whole), &model_output(&script))
    )
}

fn cut_difference(busline: &Busline, input: &[u8], feed: Feed) -> String {
    let difference = first_difference(&busline.run(input, feed), &model_output(input));
    let shown = escaped(&input[..input.len().min(2_000)]);
    format!("in chunks only, {} bytes {shown} {difference}", input.len())
}

/// The input up to the line whose output differs: no later one can matter.
fn up_to_difference<'a>(busline: &Busline, input: &'a [u8]) -> &'a [u8] {
    let Ok(output) = busline.run(input, Feed::Whole) else {
        return input;
    };
    let same = output
        .iter()
        .zip(&model_output(input))
        .take_while(|(a, b)| a == b)
        .count();
    let whole_lines = output[..same].iter().filter(|&&byte| byte == b'\n').count();
    let mut ends = (1..).zip(input).filter(|&(_, &byte)| byte == b'\n');
    match ends.nth(whole_lines) {
        Some((end, _)) => &input[..end],
        None => input,
    }
}

/// Each line keeps its LF, which may be missing after the last one.
fn split_lines(input: &[u8]) -> Vec<Vec<u8>> {
    input
        .split_inclusive(|&byte| byte == b'\n')
        .map(<[u8]>::to_vec)
        .collect()
}

fn first_difference(busline: &Result<Vec<u8>, String>, model: &[u8]) -> String {
    let output = match busline {
        Ok(output) => output,
        Err(message) => return message.clone(),
    };
    let mut library_lines = output.split(|&byte| byte == b'\n');
    let mut model_lines = model.split(|&byte| byte == b'\n');
    loop {
        match (library_lines.next(), model_lines.next()) {
            (None, None) => return "no difference now: the program is not repeatable".to_string(),
            (a, b) if a == b => {}
            (a, b) => {
                let shown = |line: Option<&[u8]>| line.map_or("nothing".to_string(), escaped);
                return format!("gives {} / {}", shown(a), shown(b));
            }
        }
    }
}

fn escaped(bytes: &[u8]) -> String {
    format!("\"{}\"", bytes.escape_ascii())
}
