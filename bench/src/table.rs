//! The table of the least times.
use std::hint::black_box;
use std::time::Instant;

const TURNS: usize = 9;

/// Nanoseconds for each call: ours, the model's, and the limit's, which does not have every call.
type Times = [Option<f64>; 3];

/// A row to be timed: the set-up, the call, and what it is called with.
#[derive(Clone, Copy)]
pub struct Row<'a> {
    pub group: &'static str,
    pub name: &'static str,
    pub inputs: &'a [u32],
}

/// What a side is asked for: to put back the cells that its calls change, if they change what the next turn should find, or to make its call
/// with each input.
#[derive(Clone, Copy)]
pub enum Task<'a> {
    Restore,
    Calls(&'a [u32]),
}

/// One side of a row; none if the side has no such call.
pub type Side<'a> = Option<&'a mut dyn FnMut(Task)>;

struct Line {
    group: &'static str,
    name: &'static str,
    least: Times,
}

pub struct Table {
    lines: Vec<Line>,
    next: usize,
}

/// Makes the calls once without a clock, then timed.
fn nanoseconds(side: &mut dyn FnMut(Task), inputs: &[u32]) -> f64 {
    side(Task::Restore);
    side(Task::Calls(inputs));
    side(Task::Restore);
    let start = Instant::now();
    side(Task::Calls(inputs));
    start.elapsed().as_secs_f64() * 1e9 / inputs.len() as f64
}

/// A side's call as a loop over its inputs. What it changes is not put back.
pub fn over(mut call: impl FnMut(u32)) -> impl FnMut(Task) {
    move |task: Task| {
        if let Task::Calls(inputs) = task {
            each(inputs, &mut call);
        }
    }
}

pub fn each(inputs: &[u32], mut call: impl FnMut(u32)) {
    for &input in inputs {
        call(black_box(input));
    }
}

impl Table {
    pub fn new() -> Self {
        Table {
            lines: Vec::new(),
            next: 0,
        }
    }

    pub fn begin_pass(&mut self) {
        self.next = 0;
    }

    /// Times one row: turns of each side, ours first.
    pub fn row(&mut self, row: Row, mut sides: [Side; 3]) {
        if self.next == self.lines.len() {
            self.lines.push(Line {
                group: row.group,
                name: row.name,
                least: [None; 3],
            });
        }
        let line = &mut self.lines[self.next];
        self.next += 1;
        for _ in 0..TURNS {
            for (side, least) in sides.iter_mut().zip(&mut line.least) {
                let Some(side) = side else { continue };
                let time = nanoseconds(side, row.inputs);
                *least = Some(least.map_or(time, |before| before.min(time)));
            }
        }
    }

    pub fn print(&self) {
        let mut group = "";
        for line in &self.lines {
            if line.group != group {
                group = line.group;
                print_titles(&format!("ns a call, {group}"));
            }
            print_line(line.name, line.least);
        }
    }

    /// The time of a row divided by that of another of the same group, in each group.
    pub fn print_ratios(&self, name: &str, other: &str) {
        let title = format!("{name} / {other}");
        println!(
            "\n| {title:<36} | {:>7} | {:>8} | {:>6} |",
            "ours", "model", "limit"
        );
        println!("|{:-<38}|{:->8}:|{:->9}:|{:->7}:|", "", "", "", "");
        for line in self.lines.iter().filter(|line| line.name == name) {
            let other = self.least(line.group, other);
            let [ours, model, limit] = [0, 1, 2].map(|side| ratio(line.least[side], other[side]));
            let group = line.group;
            println!("| {group:<36} | {ours:>7} | {model:>8} | {limit:>6} |");
        }
    }

    fn least(&self, group: &str, name: &str) -> Times {
        let mut lines = self.lines.iter();
        let line = lines.find(|line| line.group == group && line.name == name);
        line.expect("a row of this group").least
    }
}

/// A number with that many places, or nothing.
fn shown(number: Option<f64>, places: usize) -> String {
    number.map_or_else(String::new, |x| format!("{x:.places$}"))
}

fn ratio(first: Option<f64>, second: Option<f64>) -> String {
    shown(first.zip(second).map(|(a, b)| a / b), 2)
}

/// The head of a table, in Markdown.
pub fn print_titles(title: &str) {
    println!(
        "\n| {title:<36} | {:>7} | {:>8} | {:>6} | {:>10} | {:>10} |",
        "ours", "model", "limit", "ours/model", "ours/limit"
    );
    println!(
        "|{:-<38}|{:->8}:|{:->9}:|{:->7}:|{:->11}:|{:->11}:|",
        "", "", "", "", "", ""
    );
}

pub fn print_line(name: &str, [ours, model, limit]: Times) {
    println!(
        "| {name:<36} | {:>7} | {:>8} | {:>6} | {:>10} | {:>10} |",
        shown(ours, 1),
        shown(model, 1),
        shown(limit, 1),
        ratio(ours, model),
        ratio(ours, limit)
    );
}
