//! Lines with what the line program writes for them. Many more are made than are
//! kept: they are sorted by what comes up in them, and every case gives its share.

use crate::Lists;
use cases::attempt::at_rest;
use cases::kinds::{Asks, Kind, Shape, KINDS};
use cases::line::Line;
use cases::random::Random;
use cases::{any_line, broken_line};
use oracle::{digits, frame};
use rsruckig::hand_in;
use rsruckig::trace::{self, Check};
use std::collections::BTreeMap;

/// Enough to meet every case that the generator's coverage asks for.
const MADE: usize = 400_000;

type Make = fn(&mut Random, &mut Line);

pub fn check(random: &mut Random, line: &mut Line) {
    any_line::accepted(random, Kind::asking(Asks::Check), line);
}

pub fn shape(random: &mut Random, line: &mut Line) {
    of_kind(random.pick(&[1, 1, 2, 2, 3, 3, 4, 4, 5, 5, 6, 7]), random, line);
}

pub fn causes(random: &mut Random, line: &mut Line) {
    of_kind(random.pick(&[0x11, 0x12, 0x13, 0x14, 0x15]), random, line);
}

pub fn rest_to_rest(random: &mut Random, line: &mut Line) {
    of_kind(0x08, random, line);
}

/// Faulty lines, though some of the faults are none: a time may be NaN.
pub fn broken(random: &mut Random, line: &mut Line) {
    let kind = random.pick(&KINDS);
    any_line::accepted(random, &kind, line);
    broken_line::spoil(random, &kind, line);
}

fn of_kind(number: u8, random: &mut Random, line: &mut Line) {
    any_line::accepted(random, Kind::numbered(number).expect("the number of a kind"), line);
}

struct Answered {
    /// The groups share the list equally, and so do the cases in a group.
    group: Vec<u8>,
    case: Vec<u8>,
    reply: Vec<u8>,
}

pub fn fill(lists: &mut Lists, random: &mut Random, count: usize, make: Make) {
    type Pair = (Vec<u8>, Vec<u8>);
    let mut groups: BTreeMap<Vec<u8>, BTreeMap<Vec<u8>, Vec<Pair>>> = BTreeMap::new();
    let mut line = Line::default();
    for _ in 0..MADE {
        make(random, &mut line);
        let Answered { group, case, reply } = answer(&line.characters);
        let kept = groups.entry(group).or_default().entry(case).or_default();
        if kept.len() < count / 4 {
            kept.push((line.characters.clone(), reply));
        }
    }
    let rows: Vec<Vec<Pair>> = groups.into_values().map(in_turn).collect();
    let longest = rows.iter().map(Vec::len).max().unwrap_or(0);
    for index in 0..longest {
        for (request, reply) in rows.iter().filter_map(|row| row.get(index)) {
            if lists.count < count {
                lists.push_bytes(request, reply);
            }
        }
    }
}

/// The first of every case, then the second of every case, and so on.
fn in_turn<T>(cases: BTreeMap<Vec<u8>, Vec<T>>) -> Vec<T> {
    let mut numbered: Vec<(usize, T)> =
        cases.into_values().flat_map(|kept| kept.into_iter().enumerate()).collect();
    numbered.sort_by_key(|(turn, _)| *turn);
    numbered.into_iter().map(|(_, kept)| kept).collect()
}

fn answer(request: &[u8]) -> Answered {
    trace::clear();
    hand_in::set([hand_in::RootAnswer::default(); 2]);
    let mut places = [0; frame::LONGEST_REPLY];
    let kind = match oracle::answer(request, &mut places) {
        Ok(kind) => kind,
        Err(number) => {
            return Answered {
                group: vec![number as u8],
                case: if number > 3 { request[..2].to_vec() } else { Vec::new() },
                reply: format!("{number:02}").into_bytes(),
            }
        }
    };
    let reply = places[..kind.places].to_vec();
    if !kind.replies_record() {
        // By the two needs.
        let case = vec![reply[1], reply[kind.places / 2 + 1]];
        return Answered { group: vec![0, kind.number], case, reply };
    }
    // By verdict; then by label, direction and signs, by the calls of `check`, the last of
    // them and their marks, and by what kind 00 was asked or the quartics asked for.
    let mut case = reply[2..8].to_vec();
    let (checks, calls) = trace::checks();
    case.push(calls as u8);
    if let Some(last) = calls.checked_sub(1).map(|index| checks[index]) {
        case.extend_from_slice(&[last.signs, last.label, last.cause]);
        if kind.replies_causes() {
            case.extend(marks(&checks[..calls]));
        }
    }
    match kind.shape() {
        None => case.extend_from_slice(&request[2..8]),
        Some(Shape::Acc0Acc1 | Shape::RestToRest) => case.push(at_rest(&twelve(request)) as u8),
        Some(_) => {
            let (quartics, ran) = hand_in::quartics();
            case.extend(quartics[..ran].iter().map(|quartic| quartic.asked));
        }
    }
    Answered { group: vec![0, kind.number, reply[1]], case, reply }
}

/// Which calls are marked for want of a square root, and whether the last is by a NaN.
fn marks(checks: &[Check]) -> impl Iterator<Item = u8> + '_ {
    let by_nan = checks.last().and_then(|last| last.argument).is_some_and(f64::is_nan);
    checks.iter().map(|check| check.marked as u8).chain([by_nan as u8])
}

fn twelve(request: &[u8]) -> [f64; 12] {
    let mut bytes = [0; frame::LONGEST];
    digits::read(request, &mut bytes);
    frame::numbers(&bytes, frame::NUMBERS)
}
