//! What occurs in output lines: letters of answers, and bits of corrections.

use model::code::FLIP_BITS;

/// LINE-14: the letter of each answer of w, r and s, and the bit after that of
/// a correction. What is read has two digits or more.
fn answers(line: &[u8]) -> Vec<(&[u8], Option<&[u8]>)> {
    let mut fields = line.split(|&byte| byte == b',').skip(2);
    let mut answers = Vec::new();
    while let Some(letter) = fields.next().filter(|field| field.len() == 1) {
        let bit = if letter == b"c" { fields.next() } else { None };
        answers.push((letter, bit));
    }
    answers
}

/// Letter and number, with the letters of the answers alone.
pub fn head(line: &[u8]) -> Vec<u8> {
    let start = line.split(|&byte| byte == b',').take(2);
    let letters = answers(line).into_iter().map(|(letter, _)| letter);
    start.chain(letters).collect::<Vec<_>>().join(&b',')
}

/// What notes that an access of a line of that letter was corrected at a bit.
fn corrected_at(letter: &[u8], access: usize, bit: &[u8]) -> Vec<u8> {
    [letter, access.to_string().as_bytes(), bit].join(&b' ')
}

pub fn bits(line: &[u8]) -> impl Iterator<Item = Vec<u8>> + '_ {
    let bits = answers(line).into_iter().map(|(_, bit)| bit);
    bits.enumerate()
        .filter_map(|(access, bit)| Some(corrected_at(&line[..1], access, bit?)))
}

pub fn every_bit(letter: &str, access: usize) -> impl Iterator<Item = Vec<u8>> + '_ {
    (0..FLIP_BITS)
        .map(move |bit| corrected_at(letter.as_bytes(), access, bit.to_string().as_bytes()))
}
