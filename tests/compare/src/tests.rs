//! The tests by name.

mod bursts;
mod examples;
mod flipped_bit;
mod limit;
mod lists;
mod long_banks;
mod map;
mod memory;
mod registers;
mod scripts;
mod shrinking;
mod splits;
mod wrapper;

use model::gen::Rng;

use crate::busline::Busline;

/// A test gives its size, or the smallest input found that makes a
/// difference.
pub struct Test {
    pub name: &'static str,
    pub run: fn(&mut Rng, &Busline) -> Result<String, String>,
}

pub const TESTS: &[Test] = &[
    test("shrinking", |_, _| shrinking::only_the_guilty_is_left()),
    test("examples", |_, _| examples::places_and_lengths()),
    test("examples-interface", |_, _| {
        examples::wide_numbers_and_cells()
    }),
    test("examples-memory", |_, _| examples::memory_and_errors()),
    test("examples-splits", |_, _| examples::splits()),
    test("examples-bursts", |_, _| examples::bursts()),
    test("examples-lines", |_, busline| examples::lines(busline)),
    test("examples-lines-bits", |_, busline| {
        examples::lines_with_bits(busline)
    }),
    test("bank-ends", |_, busline| examples::bank_ends(busline)),
    test("registers", |rng, _| registers::random_calls(rng)),
    test("registers-every-write", |rng, _| {
        registers::every_write(rng)
    }),
    test("map", |rng, _| map::addresses(rng)),
    test("cell-count", |rng, _| map::cell_counts(rng)),
    test("way-back", |rng, _| map::way_back(rng)),
    test("alike", |rng, _| map::alike(rng)),
    test("alike-exhaustive", |rng, _| map::alike_exhaustive(rng)),
    test("long-banks", |_, _| long_banks::alone()),
    test("long-banks-together", |rng, _| long_banks::together(rng)),
    test("long-banks-most-cells", |rng, _| {
        long_banks::every_cell_lent(rng)
    }),
    test("memory", |rng, _| memory::few_cells(rng)),
    test("memory-two-banks", |rng, _| memory::two_banks(rng)),
    test("every-flip", |rng, _| memory::every_flip(rng)),
    test("splits", |rng, _| splits::from_any_state(rng)),
    test("splits-every-place", |rng, _| splits::every_place(rng)),
    test("splits-reports", |rng, _| splits::every_report(rng)),
    test("splits-edges", |rng, _| splits::edges::of_banks(rng)),
    test("splits-lent", |rng, _| splits::edges::of_what_is_lent(rng)),
    test("splits-last-addresses", |rng, _| {
        splits::edges::of_all_addresses(rng)
    }),
    test("bursts", |rng, _| bursts::from_any_state(rng)),
    test("bursts-edges", |rng, _| bursts::edges(rng)),
    test("bursts-lent", |rng, _| bursts::partly_lent(rng)),
    test("flipped-bit", |rng, _| flipped_bit::of_single_calls(rng)),
    test("flipped-bit-bursts", |rng, _| flipped_bit::of_beats(rng)),
    test("flipped-bit-splits", |rng, _| flipped_bit::of_parts(rng)),
    test("flipped-bit-three-flips", |rng, _| {
        flipped_bit::of_three_flips(rng)
    }),
    test("flipped-bit-other-kinds", |rng, _| {
        flipped_bit::none_without_correction(rng)
    }),
    test("syndromes", |rng, _| {
        flipped_bit::of_stored_check_bytes(rng)
    }),
    test("syndromes-printed", |_, _| flipped_bit::on_the_page()),
    test("wrapper", |rng, _| wrapper::beside_the_library(rng)),
    test("limit", |rng, _| limit::beside_the_library(rng)),
    test("lists", |rng, _| lists::against_flat_machine(rng)),
    test("lists-long-banks", |rng, _| lists::in_long_banks(rng)),
    test("scripts", scripts::random_scripts),
    test("scripts-mangled", scripts::mangled_scripts),
    test("scripts-short", scripts::short_scripts),
];

const fn test(name: &'static str, run: fn(&mut Rng, &Busline) -> Result<String, String>) -> Test {
    Test { name, run }
}
