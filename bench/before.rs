//! Accepted lines of each kind through the line entry of two static libraries, of another
//! commit and of this one; and those of kinds 01 to 05, with another first digit, as lines
//! of kinds 11 to 15.
//!
//!   before SEED first|second
//!
//! The second word says which of the two libraries is the other commit's. Both answer a few
//! lines by turns, each of them first as often as the other. Printed are the fastest turns
//! through all lines, and the median of the ratios of all turns.

use cases::any_line;
use cases::kinds::{Kind, KINDS};
use cases::line::Line;
use cases::random::Random;
use std::env;
use std::hint::black_box;
use std::time::Instant;

const LINES: usize = 10_000;
const FEW: usize = 250;
const TURNS: usize = 121;
const PLACES: usize = 732;

type Entry = unsafe extern "C" fn(*const u8, usize, *mut u8, usize, *mut usize) -> u32;

#[link(name = "first", kind = "static")]
extern "C" {
    fn first_counted(q: *const u8, n: usize, r: *mut u8, m: usize, filled: *mut usize) -> u32;
}

#[link(name = "second", kind = "static")]
extern "C" {
    fn second_counted(q: *const u8, n: usize, r: *mut u8, m: usize, filled: *mut usize) -> u32;
}

/// The reply, where the line is accepted.
fn answer<'a>(entry: Entry, line: &Line, reply: &'a mut [u8; PLACES]) -> Option<&'a [u8]> {
    let (request, mut filled) = (&line.characters, 0);
    // SAFETY: the entry has no `requires`. It reads the request and writes the reply within
    // their lengths, and writes the count; the three borrows keep all alive and apart.
    let number = unsafe {
        entry(request.as_ptr(), request.len(), reply.as_mut_ptr(), PLACES, &mut filled)
    };
    (number == 0).then_some(&reply[..filled])
}

/// Some lines, and the entry that they go to.
type Way<'a> = (&'a [Line], Entry);

fn turn(ways: [Way; 2], turn: usize) -> [f64; 2] {
    let mut reply = [0; PLACES];
    let mut times = [0.0; 2];
    for part in 0..LINES / FEW {
        for way in if (part + turn) % 2 == 0 { [0, 1] } else { [1, 0] } {
            let (lines, entry) = ways[way];
            let start = Instant::now();
            for line in &lines[part * FEW..][..FEW] {
                black_box(answer(entry, line, &mut reply));
            }
            times[way] += start.elapsed().as_nanos() as f64 / LINES as f64;
        }
    }
    times
}

fn print(name: &str, ways: [Way; 2]) {
    let times: Vec<[f64; 2]> = (0..TURNS).map(|number| turn(ways, number)).collect();
    let least = |way: usize| times.iter().map(|time| time[way]).fold(f64::INFINITY, f64::min);
    let mut ratios: Vec<f64> = times.iter().map(|time| time[1] / time[0]).collect();
    ratios.sort_by(f64::total_cmp);
    println!("  {name:<8} {:7.1} {:7.1}  {:6.3}", least(0), least(1), ratios[TURNS / 2]);
}

fn accepted(seed: u64, kind: &Kind) -> Vec<Line> {
    let mut random = Random::new(seed);
    let mut lines = vec![Line::default(); LINES];
    for line in &mut lines {
        any_line::accepted(&mut random, kind, line);
    }
    lines
}

/// What two commits must answer alike: all of a reply but its cause, to which a paper may have
/// added.
fn without_cause<'a>(kind: &Kind, reply: Option<&'a [u8]>) -> Option<&'a [u8]> {
    let cause = if kind.replies_causes() { 2 } else { 0 };
    reply.map(|places| &places[..places.len() - cause])
}

/// Whether the other commit answers the kind. If so, both answer every line alike.
fn alike(kind: &Kind, lines: &[Line], before: Entry, now: Entry) -> bool {
    let mut replies = [[0; PLACES]; 2];
    let [reply, other] = &mut replies;
    let known = answer(before, &lines[0], reply).is_some();
    for line in lines.iter().filter(|_| known) {
        let was = without_cause(kind, answer(before, line, reply));
        let is = without_cause(kind, answer(now, line, other));
        assert!(was == is, "{}", String::from_utf8_lossy(&line.characters));
    }
    known
}

fn main() {
    let words: Vec<String> = env::args().skip(1).collect();
    let seed = words[0].parse().expect("SEED is a decimal number");
    let [before, now]: [Entry; 2] = match words[1].as_str() {
        "first" => [first_counted, second_counted],
        _ => [second_counted, first_counted],
    };
    println!("seed {seed}, {LINES} accepted lines a kind, {TURNS} turns, ns a line");
    println!("  kind      before     now   ratio");
    for kind in &KINDS {
        let lines = accepted(seed, kind);
        if alike(kind, &lines, before, now) {
            print(&format!("{:02X}", kind.number), [(&lines, before), (&lines, now)]);
        }
    }
    println!("  kinds       as 0.   as 1.   ratio");
    for kind in KINDS.iter().filter(|kind| kind.replies_causes()) {
        let number = kind.number - 0x10;
        let plain = Kind::numbered(number).expect("the kind that it acts as");
        assert!(plain.shape() == kind.shape());
        let lines = accepted(seed, plain);
        let mut others = lines.clone();
        others.iter_mut().for_each(|line| line.characters[0] = b'1');
        print(&format!("{number:02X} {:02X}", kind.number), [(&lines, now), (&others, now)]);
    }
}
