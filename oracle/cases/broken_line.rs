//! Lines that fail a question: accepted lines with one fault or a few, and random
//! characters. A line feed is never put in, as it would end the line.

use crate::line::Line;
use crate::numbers::not_finite;
use crate::random::Random;
use oracle::digits::write_byte;
use oracle::frame;
use oracle::kinds::{Asks, Kind, KINDS};

const NO_DIGITS: &[u8] = b"abcdefgG@`:/ \r\0\x7F\x80\xFFxZ";

/// Puts one to three faults into an accepted line of the kind given.
pub fn spoil(random: &mut Random, kind: &Kind, line: &mut Line) {
    if random.once_in(16) {
        return noise(random, line);
    }
    let faults = random.pick(&[1, 1, 1, 2, 3]);
    for _ in 0..faults {
        match random.below(7) {
            0 => length(random, line),
            1 => character(random, line),
            2 => {
                let byte = random.pick(&[0x09, 0x0A, 0x0C, 0x10, 0x16, 0x20, 0x7F, 0x80, 0xFF]);
                set_byte(line, 0, byte);
            }
            3 => even_length(random, line),
            4 => range(random, kind, line),
            5 => number(random, kind, line),
            _ => count(random, kind, line),
        }
    }
}

/// Random characters, or random digits of a length that some kind has.
fn noise(random: &mut Random, line: &mut Line) {
    line.clear();
    let digits = random.once_in(2);
    let length = if digits { 2 * random.pick(&KINDS).bytes } else { random.below(400) as usize };
    for _ in 0..length {
        let character = if digits { random.pick(b"0123456789ABCDEF") } else { random.bits() as u8 };
        line.characters.push(if character == b'\n' { b'0' } else { character });
    }
    if digits {
        let kind = random.pick(&KINDS).number;
        set_byte(line, 0, kind);
    }
}

/// Question 1.
fn length(random: &mut Random, line: &mut Line) {
    match random.below(6) {
        0 => line.clear(),
        1 => line.characters.truncate(1),
        2 => line.characters.push(b'0'),
        3 => {
            line.characters.pop();
        }
        4 => {
            let more = random.below(8) as usize;
            line.characters.resize(2 * frame::LONGEST + 1 + more, b'0');
        }
        _ => {
            let many = 300 + random.below(300) as usize;
            line.characters.resize(many, b'A');
        }
    }
}

/// Question 2.
fn character(random: &mut Random, line: &mut Line) {
    if line.characters.is_empty() {
        return;
    }
    let places = line.characters.len() as u64;
    let anywhere = random.below(places);
    let place = random.pick(&[0, 1, places - 1, anywhere]) as usize;
    if let Some(character) = line.characters.get_mut(place) {
        *character =
            if random.once_in(4) { character.to_ascii_lowercase() } else { random.pick(NO_DIGITS) };
    }
}

/// Question 4: cut or lengthened by whole bytes, or another kind in front.
fn even_length(random: &mut Random, line: &mut Line) {
    let length = line.characters.len();
    match random.below(4) {
        0 => line.characters.truncate(2 * random.below(length as u64 / 2 + 1) as usize),
        1 => line.characters.truncate(length.saturating_sub(2)),
        2 => line.characters.extend_from_slice(b"00"),
        _ => set_byte(line, 0, random.pick(&KINDS).number),
    }
}

/// Question 5.
fn range(random: &mut Random, kind: &Kind, line: &mut Line) {
    let wrong = random.pick(&[2, 3, 4, 7, 8, 9, 0x10, 0x80, 0xFF]);
    if kind.asks == Asks::Check {
        set_byte(line, 1 + random.below(3) as usize, wrong);
    } else if kind.has_answers() {
        let second = random.below(2) as usize;
        set_byte(line, frame::ANSWERS + second * frame::ANSWER_LENGTH, wrong.max(4));
    }
}

/// Question 6; among the first numbers of kind 00 are times, which may hold
/// anything.
fn number(random: &mut Random, kind: &Kind, line: &mut Line) {
    let (first, count) =
        if kind.asks == Asks::Check { (frame::CHECK_TIMES, 18) } else { (frame::NUMBERS, 12) };
    let at = first + 8 * random.below(count) as usize;
    let bytes = not_finite(random).to_bits().to_be_bytes();
    for (index, byte) in bytes.into_iter().enumerate() {
        set_byte(line, at + index, byte);
    }
}

/// Question 7, where the need is not 00.
fn count(random: &mut Random, kind: &Kind, line: &mut Line) {
    if kind.has_answers() {
        let second = random.below(2) as usize;
        let at = frame::ANSWERS + second * frame::ANSWER_LENGTH;
        set_byte(line, at, random.pick(&[0, 0, 0, 1, 2, 3]));
    }
}

fn set_byte(line: &mut Line, at: usize, byte: u8) {
    if let Some(pair) = line.characters.get_mut(2 * at..2 * at + 2) {
        write_byte(byte, pair.try_into().unwrap());
    }
}
