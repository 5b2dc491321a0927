//! Prints a random line script: `script SEED LINES`.

use std::io::{self, Write};

use model::gen::{scripts, Rng};

fn main() -> io::Result<()> {
    let numbers: Vec<u64> = std::env::args()
        .skip(1)
        .filter_map(|argument| argument.parse().ok())
        .collect();
    let &[seed, lines] = numbers.as_slice() else {
        eprintln!("usage: script SEED LINES");
        std::process::exit(2);
    };
    let script = scripts::script(&mut Rng::new(seed), lines as usize);
    io::stdout().lock().write_all(&scripts::as_input(&script))
}
