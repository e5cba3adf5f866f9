//! The same lines, and the same lent places, to both sides.

use crate::{port, rust};
use cases::any_line::sometimes_broken;
use cases::attempt::at_rest;
use cases::kinds::Kind;
use cases::line::Line;
use cases::random::Random;
use plain::{digits, frame};
use std::time::{Duration, Instant};

const BATCH: u64 = 1_000_000;
const SHOWN: u64 = 10;

/// More than the longest reply, so that places past it are compared too.
const MOST: usize = 760;

/// How often what came up.
#[derive(Default)]
struct Counts {
    /// By number.
    answers: [u64; 9],
    /// Lines of kind 08 with both ends at rest, by their verdict and by that of the same line
    /// of kind 04. Where an end is not at rest, the whole reply is kind 04's.
    rests: [[u64; 2]; 2],
}

impl Counts {
    /// An accepted line of kind 08, and its reply.
    fn add_rest(&mut self, line: &Line, reply: &[u8; MOST]) {
        let mut request = line.characters.clone();
        request[1] = b'4';
        let mut other = *reply;
        assert_eq!(rust::answer(&request, &mut other).0, 0, "kind 04 has the questions of 08");
        let mut bytes = [0; frame::LONGEST];
        digits::read(&request, &mut bytes);
        if at_rest(&frame::numbers(&bytes, frame::NUMBERS)) {
            let [by_08, by_04] = [reply, &other].map(|places| (places[1] == b'1') as usize);
            self.rests[by_08][by_04] += 1;
        } else {
            assert!(*reply == other, "elsewhere kind 08 is kind 04");
        }
    }
}

pub fn count(seed: u64, millions: u64, kinds: &[&Kind]) -> u64 {
    let mut differences = 0;
    let start = Instant::now();
    let mut counts = Counts::default();
    for seed in seed..seed + millions {
        let mut sides = [Duration::ZERO; 2];
        let found = batch(seed, kinds, &mut differences, &mut counts, &mut sides);
        println!(
            "seed {seed}: {BATCH} lines, {found} differences, Rust {:.2} s, port {:.2} s",
            sides[0].as_secs_f64(),
            sides[1].as_secs_f64()
        );
    }
    println!("answers 0 to 8: {:?}", counts.answers);
    let [[neither, by_04], [by_08, both]] = counts.rests;
    println!(
        "kind 08 at rest, beside 04: yes of both {both}, of 08 alone {by_08}, of 04 alone {by_04}, \
         of neither {neither}"
    );
    println!(
        "{} lines in all, {differences} differences, {:.1} s",
        millions * BATCH,
        start.elapsed().as_secs_f64()
    );
    differences
}

fn batch(
    seed: u64,
    kinds: &[&Kind],
    differences: &mut u64,
    counts: &mut Counts,
    sides: &mut [Duration; 2],
) -> u64 {
    // Lines are made a few thousand at a time, so that making them is not timed.
    const PART: u64 = 4_000;
    let mut random = Random::new(seed);
    let mut lines: Vec<(Line, usize, u8)> = vec![(Line::default(), 0, 0); PART as usize];
    let mut by_rust = vec![[0; MOST]; PART as usize];
    let mut by_port = by_rust.clone();
    let mut answers = vec![[(0, 0); 2]; PART as usize];
    let before = *differences;
    for part in 0..BATCH / PART {
        for (line, places, mark) in &mut lines {
            let kind = random.pick(kinds);
            sometimes_broken(&mut random, kind, 8, line);
            *places = any_places(&mut random);
            *mark = random.bits() as u8;
        }
        for (index, (_, _, mark)) in lines.iter().enumerate() {
            by_rust[index].fill(*mark);
            by_port[index].fill(*mark);
        }
        let start = Instant::now();
        for (index, (line, places, _)) in lines.iter().enumerate() {
            answers[index][0] = rust::answer(&line.characters, &mut by_rust[index][..*places]);
        }
        sides[0] += start.elapsed();
        let start = Instant::now();
        for (index, (line, places, _)) in lines.iter().enumerate() {
            answers[index][1] = port::answer(&line.characters, &mut by_port[index][..*places]);
        }
        sides[1] += start.elapsed();
        for (index, (line, places, _)) in lines.iter().enumerate() {
            let [wanted, got] = answers[index];
            counts.answers[wanted.0 as usize] += 1;
            if wanted.0 == 0 && line.characters.starts_with(b"08") {
                counts.add_rest(line, &by_rust[index]);
            }
            if wanted == got && by_rust[index] == by_port[index] {
                continue;
            }
            *differences += 1;
            if *differences <= SHOWN {
                println!(
                    "seed {seed}, line {}, {places} places: Rust {wanted:?}, port {got:?}{}",
                    part * PART + index as u64,
                    first(&by_rust[index], &by_port[index])
                );
                println!("{}", String::from_utf8_lossy(&line.characters));
            }
        }
    }
    *differences - before
}

fn first(rust: &[u8], port: &[u8]) -> String {
    match rust.iter().zip(port).position(|(a, b)| a != b) {
        Some(place) => format!(", place {place} {} and {}", rust[place], port[place]),
        None => String::new(),
    }
}

/// Mostly enough, and now and then any number of places, so that question 8 is asked.
fn any_places(random: &mut Random) -> usize {
    match random.below(8) {
        0 => random.below(MOST as u64 + 1) as usize,
        1 => 226 + random.below(4) as usize,
        2 => 726 + random.below(4) as usize,
        3 => 730 + random.below(4) as usize,
        _ => port::LONGEST_REPLY,
    }
}
