//! Document 01, 'Moves worked through', and its whole case; and the move of document 02, Paper 4.

use cases::kinds::{Asks, Kind, Shape};
use cases::line::Line;
use oracle::{answer_line, digits, frame};
use rsruckig::hand_in::{self, RootAnswer};
use rsruckig::roots::solve_quart_monic_arr;

/// A line of kind 00; `Default` is the table's first row.
#[derive(Clone, Copy)]
struct Check {
    signs: u8,
    label: u8,
    times: [f64; 7],
    a0: f64,
    pf: f64,
    vf: f64,
    v: f64,
    a: f64,
}

const AS_IT_IS: Check =
    Check { signs: 0, label: 7, times: [0.0; 7], a0: 0.0, pf: 0.0, vf: 0.0, v: 9.0, a: 9.0 };

struct Reply {
    yes: bool,
    numbers: [f64; 45],
}

fn ask(line: &Line) -> Reply {
    let mut places = [0; frame::RECORD_PLACES];
    assert_eq!(answer_line(&line.characters, &mut places), 0);
    let mut bytes = [0; frame::RECORD_PLACES / 2];
    digits::read(&places, &mut bytes);
    Reply { yes: bytes[0] == 1, numbers: frame::numbers(&bytes, 4) }
}

fn check(check: Check) -> Reply {
    let Check { signs, label, times, a0, pf, vf, v, a } = check;
    let mut line = Line::default();
    for byte in [Kind::asking(Asks::Check).number, signs, label, 0] {
        line.byte(byte);
    }
    line.numbers(&times);
    line.numbers(&[0.0, 0.0, a0, pf, vf, 0.0, 1.0, v, -v, a, -a]);
    ask(&line)
}

fn shape(shape: Shape, tf: f64, pf: f64, v: f64) -> Reply {
    let mut line = Line::default();
    line.byte(Kind::asking(Asks::Shape(shape)).number);
    line.numbers(&[tf, 0.0, 0.0, 0.0, pf, 0.0, 0.0, v, -v, 1.0, -1.0, 1.0]);
    ask(&line)
}

/// How many rows hold; it stops at one that does not.
pub fn test() -> usize {
    const THREE: usize = 3;
    const LABEL_VEL: u8 = 1;
    let time = |index: usize, time: f64| {
        let mut times = [0.0; 7];
        times[index] = time;
        Check { times, ..AS_IT_IS }
    };
    let up_and_down =
        Check { times: [1.0, 0.0, 1.0, 0.0, 1.0, 0.0, 1.0], pf: 2.0, v: 1.0, a: 1.0, ..AS_IT_IS };
    let up_and_up = Check { signs: 1, pf: 4.0, vf: 2.0, v: 1.5, ..up_and_down };
    let smallest = f64::from_bits(1);
    let replaced = check(Check { a0: 1.0, label: LABEL_VEL, ..time(THREE, 1.0) });
    let all_one = shape(Shape::Acc0Acc1Vel, 7.0, 8.0, 2.0);
    let rest = shape(Shape::Acc0Acc1, 6.0, 6.0, 2.0);
    let rest_to_rest = shape(Shape::RestToRest, 6.0, 6.0, 2.0);

    let rows = [
        check(AS_IT_IS).yes,
        !check(Check { label: LABEL_VEL, ..AS_IT_IS }).yes,
        check(up_and_down).yes,
        !check(Check { pf: 2.00000002, ..up_and_down }).yes,
        check(up_and_up).yes,
        !check(Check { v: 1.25, ..up_and_up }).yes,
        check(time(THREE, 1e12)).yes,
        !check(time(THREE, f64::from_bits(1e12f64.to_bits() + 1))).yes,
        !check(time(0, f64::NAN)).yes,
        check(time(6, -0.0)).yes,
        !check(time(6, -smallest)).yes,
        // The accelerations follow t, t_sum and j; a[2] is still 1.
        replaced.yes && replaced.numbers[21 + 2] == 1.0 && replaced.numbers[21 + 3] == 0.0,
        all_one.yes && all_one.numbers[..7] == [1.0; 7],
        !shape(Shape::Acc0Acc1Vel, 7.0, 8.0, 1.5).yes,
        !rest.yes && rest.numbers[1] == -1.0,
        rest_to_rest.yes && rest_to_rest.numbers[..7] == [1.0, 1.0, 1.0, 0.0, 1.0, 1.0, 1.0],
        2f64.sqrt().to_bits() == 0x3FF6_A09E_667F_3BCD,
        quartic_inserts(),
        whole_case(),
        answer_line(b"", &mut []) == 1,
    ];
    for (row, holds) in rows.iter().enumerate() {
        assert!(holds, "row {row} of the worked moves does not hold");
    }
    rows.len()
}

fn quartic_inserts() -> bool {
    hand_in::set([RootAnswer::default(); 2]);
    let roots = solve_quart_monic_arr(&[-3.0, 2.0, 0.0, 0.0]);
    roots.into_iter().eq([0.0, 1.0, 2.0])
}

fn whole_case() -> bool {
    let request = [b"00000700".to_vec(), vec![b'0'; 288]].concat();
    let mut places = [0; frame::RECORD_PLACES];
    let number = answer_line(&request, &mut places);
    number == 0 && places[..] == [b"01070100".to_vec(), vec![b'0'; 720]].concat()
}
