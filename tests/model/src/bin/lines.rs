//! The line program: standard input to standard output.

use std::io;

fn main() -> io::Result<()> {
    model::lines::run(io::stdin().lock(), io::stdout().lock())
}
