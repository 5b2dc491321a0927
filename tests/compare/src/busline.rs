//! The program `busline`, fed through a pipe.

use std::io::{self, Read, Write};
use std::path::{Path, PathBuf};
use std::process::{Command, Stdio};
use std::thread;
use std::time::Duration;

use model::gen::Rng;

/// How the input is cut on its way through the pipe.
#[derive(Clone, Copy)]
pub enum Feed {
    Whole,
    /// Chunks of odd lengths, drawn from this seed.
    Chunks(u64),
    /// Short chunks with a pause after each, so that the program reads them
    /// one by one. Only for short inputs.
    Slow(u64),
}

pub struct Busline {
    program: PathBuf,
}

impl Busline {
    pub fn new(program: &Path) -> Self {
        Busline {
            program: program.to_path_buf(),
        }
    }

    /// The program's output; an error if it can't be run or fails.
    pub fn run(&self, input: &[u8], feed: Feed) -> Result<Vec<u8>, String> {
        let failed = |error: io::Error| format!("{}: {error}", self.program.display());
        let mut child = Command::new(&self.program)
            .stdin(Stdio::piped())
            .stdout(Stdio::piped())
            .spawn()
            .map_err(failed)?;
        let stdin = child.stdin.take().expect("a pipe");
        let mut stdout = child.stdout.take().expect("a pipe");
        let mut output = Vec::new();
        thread::scope(|scope| {
            // A program that stops reading shows in its output.
            scope.spawn(move || drop(send(stdin, input, feed)));
            stdout.read_to_end(&mut output)
        })
        .map_err(failed)?;
        let status = child.wait().map_err(failed)?;
        if status.success() {
            Ok(output)
        } else {
            Err(format!("busline ended with {status}"))
        }
    }
}

fn send(mut pipe: impl Write, mut input: &[u8], feed: Feed) -> io::Result<()> {
    let (seed, longest, pause) = match feed {
        Feed::Whole => return pipe.write_all(input),
        Feed::Chunks(seed) => (seed, 70_000, None),
        Feed::Slow(seed) => (seed, 60, Some(Duration::from_micros(300))),
    };
    let mut rng = Rng::new(seed);
    while !input.is_empty() {
        let length = match rng.below(4) {
            0 => 1 + rng.below(3),
            1 => 4095 + rng.below(3),
            _ => 1 + rng.below(longest),
        };
        let (chunk, rest) = input.split_at(input.len().min(length.min(longest) as usize));
        pipe.write_all(chunk)?;
        input = rest;
        if let Some(pause) = pause {
            thread::sleep(pause);
        }
    }
    Ok(())
}
