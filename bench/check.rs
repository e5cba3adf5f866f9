//! `check` on kind 00 cases: the proved one through the static library, in place and
//! by value, beside the Rust's. Lines come on standard input and are decoded before
//! any time is taken; every record is compared first, bit for bit, all NaNs as one.

mod timing;

use oracle::check::{LABELS, SIGNS};
use oracle::kinds::{Asks, KINDS};
use oracle::{digits, frame};
use rsruckig::profile::Profile;
use std::hint::black_box;
use std::io::{stdin, BufRead};

/// So few cases are learnt by the branch predictor, which is shown beside all of them.
const FEW: usize = 1000;

/// The calls of a way, some of them for each turn, which goes through all cases once.
const CALLS: usize = 2_000_000;

const NAMES: [&str; 3] =
    ["Rust, &mut Profile", "static library, in place", "static library, by value"];

/// What `check` is asked, beside the record.
#[derive(Clone)]
struct Asked {
    signs: u8,
    label: u8,
    set_limits: bool,
    /// jf, v_max, v_min, a_max, a_min.
    numbers: [f64; 5],
}

/// A record as the exported functions take it: t, t_sum, j, a, v, p, pf, vf, af in one row.
type Row = [f64; 48];

/// The Rust keeps its own record, and the library's two ways another one.
#[derive(Clone)]
struct Case {
    asked: Asked,
    profile: Profile,
    row: Row,
}

fn read(line: &[u8]) -> Case {
    let mut bytes = [0; frame::LONGEST];
    assert!(line.len() == 2 * frame::LONGEST && digits::read(line, &mut bytes), "no kind 00 line");
    let [kind, signs, label, set_limits, ..] = bytes;
    assert_eq!(KINDS[kind as usize].asks, Asks::Check);
    let [p0, v0, a0, pf, vf, af, jf, v_max, v_min, a_max, a_min] =
        frame::numbers(&bytes, frame::CHECK_NUMBERS);
    let mut profile = Profile::default();
    profile.set_boundary(p0, v0, a0, pf, vf, af);
    profile.t = frame::numbers(&bytes, frame::CHECK_TIMES);
    let row = row(&profile);
    let numbers = [jf, v_max, v_min, a_max, a_min];
    Case { asked: Asked { signs, label, set_limits: set_limits == 1, numbers }, profile, row }
}

fn row(of: &Profile) -> Row {
    let sevens = [of.t, of.t_sum, of.j];
    let eights = [of.a, of.v, of.p];
    let numbers = [sevens.as_flattened(), eights.as_flattened(), &[of.pf, of.vf, of.af]].concat();
    numbers.try_into().expect("48 numbers")
}

#[inline(always)]
fn by_rust(q: &Asked, profile: &mut Profile) -> bool {
    let (signs, label) = (SIGNS[q.signs as usize], LABELS[q.label as usize]);
    let [jf, v_max, v_min, a_max, a_min] = q.numbers;
    profile.check(signs, label, q.set_limits, jf, v_max, v_min, a_max, a_min)
}

/// The library's two ways take the same.
macro_rules! by_library {
    ($($name:ident, $check:ident;)*) => {
        extern "C" {
            $(fn $check(
                x: &mut Row, signs: u8, label: u8, set_limits: bool,
                jf: f64, v_max: f64, v_min: f64, a_max: f64, a_min: f64,
            ) -> u32;)*
        }
        $(#[inline(always)]
        fn $name(q: &Asked, x: &mut Row) -> u32 {
            let [jf, v_max, v_min, a_max, a_min] = q.numbers;
            unsafe { $check(x, q.signs, q.label, q.set_limits, jf, v_max, v_min, a_max, a_min) }
        })*
    };
}
by_library! {
    in_place, bench_check_in_place;
    by_value, bench_check_by_value;
}

/// Verdict, direction, signs and label in one number, as the library answers them.
fn number(yes: bool, profile: &Profile) -> u32 {
    yes as u32
        + 2 * profile.direction as u32
        + 4 * profile.control_signs as u32
        + 8 * profile.limits as u32
}

fn same(ours: &Row, theirs: &Row) -> bool {
    let mut pairs = ours.iter().zip(theirs);
    pairs.all(|(x, y)| x.to_bits() == y.to_bits() || x.is_nan() && y.is_nan())
}

/// Whether the move is accepted; both of the library's ways must leave what the Rust leaves.
fn verdict(case: &Case) -> bool {
    let mut profile = case.profile.clone();
    let yes = by_rust(&case.asked, &mut profile);
    let wanted = row(&profile);
    for check in [in_place, by_value] {
        let mut got = case.row;
        assert_eq!(check(&case.asked, &mut got), number(yes, &profile));
        assert!(same(&got, &wanted));
    }
    yes
}

fn measure(title: &str, cases: &mut [Case]) {
    let turns = CALLS / cases.len().max(1) | 1;
    // A second `check` of a record finds the same start and times, so it does the same again.
    let times = timing::medians(NAMES.len(), turns, cases.len(), |way, _| {
        for case in black_box(&mut *cases) {
            match way {
                0 => drop(black_box(by_rust(&case.asked, &mut case.profile))),
                1 => drop(black_box(in_place(&case.asked, &mut case.row))),
                _ => drop(black_box(by_value(&case.asked, &mut case.row))),
            }
        }
    });
    timing::print(
        &format!("{title}, {} cases {turns} times: time a call, and beside the first", cases.len()),
        &NAMES,
        &times,
        0,
    );
}

fn both(cases: &[Case]) {
    let (mut yes, mut no): (Vec<_>, Vec<_>) = cases.iter().cloned().partition(verdict);
    measure("accepted moves", &mut yes);
    measure("refused moves", &mut no);
}

fn main() {
    let lines = stdin().lock().lines();
    let cases: Vec<_> = lines.map(|line| read(line.expect("standard input").as_bytes())).collect();
    for case in &cases {
        verdict(case);
    }
    println!("{} records equal the Rust's", cases.len());
    if cases.len() > FEW {
        both(&cases[..FEW]);
    }
    both(&cases);
}
