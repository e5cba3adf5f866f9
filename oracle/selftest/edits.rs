//! Over generated lines: the traced copy answers as the plain one; the quartics
//! taken out of the shapes give bit for bit what the shapes' own calls receive;
//! and what those calls ask for is what the needs say, with the same arguments.

use crate::{causes, rest_to_rest};
use cases::any_line::sometimes_broken;
use cases::kinds::{Kind, Shape};
use cases::line::Line;
use cases::random::Random;
use oracle::quartics::{need, polynoms};
use oracle::{answer, digits, frame, shapes};
use rsruckig::roots::resolvent_arguments;
use rsruckig::{hand_in, trace};

const NUMBERS: [u8; 18] =
    [0, 1, 2, 2, 3, 3, 4, 5, 6, 7, 8, 0x11, 0x12, 0x12, 0x13, 0x13, 0x14, 0x15];

/// How many quartics were compared, how many lines had their causes tried, how many of those
/// have the cause of a root that does not exist, and how many of kind 08 are at rest.
#[derive(Default)]
pub struct Tried {
    pub quartics: usize,
    pub causes: usize,
    pub marked: usize,
    pub rests: usize,
}

pub fn test(seed: u64, count: u64) -> Tried {
    let mut random = Random::new(seed);
    let mut line = Line::default();
    let mut tried = Tried::default();
    for _ in 0..count {
        let number = random.pick(&NUMBERS);
        let kind = Kind::numbered(number).expect("the number of a kind");
        sometimes_broken(&mut random, kind, 16, &mut line);
        let request = &line.characters;

        let mut traced = [b'-'; frame::LONGEST_REPLY];
        let mut untraced = traced;
        let answer = answer(request, &mut traced);
        assert_eq!(answer.err().unwrap_or(0), plain::answer_line(request, &mut untraced));
        assert_eq!(traced, untraced);
        if let Some(shape) = answer.ok().filter(|kind| kind.has_answers()).and_then(Kind::shape) {
            tried.quartics += compare_quartics(shape, request);
        }
        if request.starts_with(b"08") {
            tried.rests += rest_to_rest::test(request, &traced) as usize;
        }
        if let [b'1', b'1'..=b'5', ..] = request[..] {
            let lent = random.pick(&[727, 728, 731, 732, 732, 732, 732, 732]);
            let cause = causes::test(request, lent);
            tried.causes += cause.is_some() as usize;
            tried.marked += (cause == Some(trace::NO_ROOT)) as usize;
        }
    }
    tried
}

fn compare_quartics(shape: Shape, request: &[u8]) -> usize {
    let mut bytes = [0; frame::LONGEST];
    digits::read(request, &mut bytes);
    let numbers: [f64; 12] = frame::numbers(&bytes, frame::NUMBERS);
    let taken_out = polynoms(shape, &shapes::solver(&numbers), &numbers);
    let (quartics, ran) = hand_in::quartics();
    for (polynom, quartic) in taken_out.iter().zip(&quartics[..ran]) {
        same(polynom, &quartic.polynom);
        assert_eq!(need(polynom), quartic.asked);
        if quartic.asked == 2 {
            let [a, b, c, d] = *polynom;
            same(&resolvent_arguments(a, b, c, d), &quartic.arguments);
        }
    }
    ran
}

fn same(left: &[f64], right: &[f64]) {
    let bits = |number: &f64| {
        if number.is_nan() {
            1 << 63 | 1
        } else {
            number.to_bits()
        }
    };
    assert!(left.iter().map(bits).eq(right.iter().map(bits)), "{left:?} {right:?}");
}
