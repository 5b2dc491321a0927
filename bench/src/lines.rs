//! The two line programs on one random script of 500,000 lines, read from a file, with the output discarded;
//! the shortest of five runs each.
use crate::table::{print_line, print_titles};
use model::gen::{scripts, Rng};
use std::fs::File;
use std::process::{Command, Stdio};
use std::time::Instant;

const LINES: usize = 500_000;
const RUNS: usize = 5;

fn seconds(program: &str, input: &std::path::Path) -> std::io::Result<f64> {
    let start = Instant::now();
    let status = Command::new(program)
        .stdin(File::open(input)?)
        .stdout(Stdio::null())
        .status()?;
    assert!(status.success(), "{program} failed");
    Ok(start.elapsed().as_secs_f64())
}

pub fn print() {
    let programs = [std::env::var("BUSLINE"), std::env::var("MODEL_LINES")];
    let [Ok(ours), Ok(theirs)] = programs else {
        println!("busline: BUSLINE and MODEL_LINES name the two programs; bench/run sets them");
        return;
    };
    let script = scripts::script(&mut Rng::new(106), LINES);
    let input = std::env::temp_dir().join(format!("busline-{}.txt", std::process::id()));
    std::fs::write(&input, scripts::as_input(&script)).expect("the script is written");
    let (mut a, mut b) = (f64::MAX, f64::MAX);
    for _ in 0..RUNS {
        a = a.min(seconds(&ours, &input).expect("busline runs"));
        b = b.min(seconds(&theirs, &input).expect("the model's program runs"));
    }
    std::fs::remove_file(&input).ok();
    let nanoseconds = |t: f64| Some(t * 1e9 / LINES as f64);
    let million = |t: f64| LINES as f64 / t / 1e6;
    print_titles("ns a line");
    print_line("busline", [nanoseconds(a), nanoseconds(b), None]);
    println!(
        "\nbusline: {:.2} million lines a second; the model's program: {:.2}",
        million(a),
        million(b)
    );
}
