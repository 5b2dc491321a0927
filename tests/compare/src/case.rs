//! A record, lent cells and calls on them, run on both sides.

use std::fmt;

use model::Record;

use crate::coverage::Coverage;
use crate::request::{nonzero, Given, Request, State};
use crate::shrink::{self, Budget};
use crate::ways::{met, met_bits, Met};

/// Calls one after the other, each on the state after the last.
#[derive(Clone)]
pub struct Case {
    pub record: Record,
    pub cells: Vec<u8>,
    pub requests: Vec<Request>,
}

/// The first call at which the sides differ, and how.
pub struct Difference {
    pub index: usize,
    pub text: String,
}

impl Case {
    /// Answer, filled place, buffer, record and cells are compared after each
    /// call.
    pub fn run(&self, coverage: &mut Coverage<Met>) -> Option<Difference> {
        let mut library = State::new(self.record, &self.cells);
        let mut model = library.clone();
        for (index, request) in self.requests.iter().enumerate() {
            let from_library = library.ask_library(request);
            let from_model = model.ask_model(request);
            coverage.meet(met(request, from_model.way(request)));
            coverage.extend(met_bits(request, &from_model));
            let text = Given::difference(&from_library, &from_model)
                .or_else(|| State::difference(&library, &model));
            if let Some(text) = text {
                return Some(Difference { index, text });
            }
        }
        None
    }

    /// Runs the case. If the sides differ, the error shows the smallest case
    /// found that still makes them differ.
    pub fn check(&self, coverage: &mut Coverage<Met>) -> Result<(), String> {
        match self.run(coverage) {
            None => Ok(()),
            Some(difference) => Err(self.smallest(difference.index)),
        }
    }

    /// The same, and the library must accept every call, or else refuse every
    /// call with 9 (REF-9).
    pub fn check_lent(&self, is_lent: bool, coverage: &mut Coverage<Met>) -> Result<(), String> {
        self.check(coverage)?;
        let mut state = State::new(self.record, &self.cells);
        let expected = if is_lent { 0 } else { 9 };
        let as_expected = |request| state.ask_library(request).result == expected;
        if self.requests.iter().all(as_expected) {
            Ok(())
        } else {
            Err(format!("{self}: the library does not return {expected}"))
        }
    }

    fn smallest(&self, index: usize) -> String {
        let mut case = self.clone();
        case.requests.truncate(index + 1);
        case.shrink(&Budget::new());
        match case.run(&mut Coverage::new()) {
            Some(difference) => format!("{case} at call {}: {}", difference.index, difference.text),
            None => format!("{case}, which now makes no difference: the calls are not repeatable"),
        }
    }

    fn shrink(&mut self, budget: &Budget) {
        let fails = |case: &Case| case.run(&mut Coverage::new()).is_some();

        let mut trial = self.clone();
        self.requests = shrink::fewer(budget, self.requests.clone(), |requests| {
            trial.requests = requests.to_vec();
            fails(&trial)
        });

        let mut trial = self.clone();
        let record = shrink::zeroed(budget, self.record.bytes.to_vec(), |bytes| {
            trial.record.bytes.copy_from_slice(bytes);
            fails(&trial)
        });
        self.record.bytes.copy_from_slice(&record);

        let mut trial = self.clone();
        self.cells = shrink::zeroed(budget, self.cells.clone(), |bytes| {
            trial.cells.copy_from_slice(bytes);
            fails(&trial)
        });

        self.shrink_alike(budget);
    }

    /// The other record of an alike call is input too. What is in both records,
    /// such as a bank that doesn't matter, can only be removed from both at
    /// once.
    fn shrink_alike(&mut self, budget: &Budget) {
        let [Request::Alike(second)] = self.requests.as_slice() else {
            return;
        };
        let (first, second) = (self.record, **second);
        let masked = |masks: &[u8]| {
            let of_both = &masks[512..];
            Case {
                record: mask(&mask(&first, &masks[..256]), of_both),
                cells: Vec::new(),
                requests: vec![Request::Alike(Box::new(mask(
                    &mask(&second, &masks[256..512]),
                    of_both,
                )))],
            }
        };
        let masks = shrink::zeroed(budget, vec![0xFF; 768], |masks| {
            masked(masks).run(&mut Coverage::new()).is_some()
        });
        *self = masked(&masks);
    }
}

/// The record with only those bits that stand in the mask.
fn mask(record: &Record, mask: &[u8]) -> Record {
    let mut masked = *record;
    for (byte, mask) in masked.bytes.iter_mut().zip(mask) {
        *byte &= mask;
    }
    masked
}

impl fmt::Display for Case {
    fn fmt(&self, f: &mut fmt::Formatter) -> fmt::Result {
        write!(f, "record {}", nonzero(&self.record.bytes))?;
        if !self.cells.is_empty() {
            write!(f, ", {} lent bytes ", self.cells.len())?;
            write!(f, "{}", nonzero(&self.cells))?;
        }
        for (index, request) in self.requests.iter().enumerate() {
            write!(f, "{} {request}", if index == 0 { "," } else { ";" })?;
        }
        Ok(())
    }
}
