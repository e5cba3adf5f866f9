//! Moves whose two quartics have many roots within the times of their attempts, so that a
//! shape calls `check` for each. Chance does not meet them: the root answers part the
//! quartics in another way than the resolvent's own would.

use crate::line::Line;
use crate::needs::{reach, Coefficient, A0, AF, PF, VF};
use crate::numbers::{ordinary, step};
use crate::quartic::given_y;
use crate::random::Random;
use crate::shape_line::mirror;
use oracle::kinds::Shape;
use oracle::{quartics, shapes};
use rsruckig::hand_in::{self, RootAnswer};
use rsruckig::roots::solve_quart_monic_arr;

/// The twelve numbers and the two answers, after the kind.
pub fn write(random: &mut Random, shape: Shape, line: &mut Line) {
    let (numbers, y) = match shape {
        Shape::Acc1Vel => second(random),
        _ if random.once_in(2) => third(random),
        _ => third_by_rounding(random),
    };
    // The quartics stay the same.
    let numbers = if random.once_in(2) { mirror(numbers) } else { numbers };
    line.numbers(&numbers);
    for (polynom, y) in polynoms(shape, &numbers).iter().zip(y) {
        line.answer(&given_y(random, polynom, y));
    }
}

fn polynoms(shape: Shape, numbers: &[f64; 12]) -> [[f64; 4]; 2] {
    quartics::polynoms(shape, &shapes::solver(numbers), numbers)
}

/// The second shape. Both quartics are the same where a_min, a_max and af are. Four roots
/// then have a sum that leaves room for all of them from -a0 / j_max, the least time, to
/// (a_max - a0) / j_max. tf bounds the roots as well, those of UDUD more than those of UDDU.
fn second(random: &mut Random) -> ([f64; 12], [f64; 2]) {
    let shape = Shape::Acc1Vel;
    let j = random.between(0.5, 4.0);
    let limit = random.between(0.5, 4.0);
    let longest = limit / j;
    let [x, z] = std::array::from_fn(|_| random.between(0.05, 0.95));
    let parts = [x, z, 1.0 - x, 1.0 - z];
    // No root is below zero, wherever the times begin.
    let least = parts.iter().copied().fold(1.0, f64::min);
    let begin = random.between(-1.0, least) * longest;
    let [r, s, t, u] = parts.map(|part| part * longest - begin);

    let tf = longest * random.between(2.0, 9.0);
    let mut numbers = motion(random, tf, [limit; 2], j);
    numbers[A0] = begin * j;
    numbers[AF] = limit;
    let c = -(r * s * (t + u) + t * u * (r + s));
    reach(&mut numbers, Coefficient { shape, signs: 0, index: 2 }, c, VF, 1.0);
    reach(&mut numbers, Coefficient { shape, signs: 0, index: 3 }, r * s * t * u, PF, 1.0);
    (numbers, [r * s + t * u; 2])
}

/// The third shape. UDUD's quartic is parted without its c where y² is 4 d. It may then have
/// four roots, two of x² - (m + e) x + q and two of x² - (m - e) x + q, none of them above
/// m = a_max / j_max, the longest time. UDDU's has an a above zero and so two roots at most:
/// two of one factor if y² is little above 4 d. They are bounded by a_min.
fn third(random: &mut Random) -> ([f64; 12], [f64; 2]) {
    let m = random.between(2.0, 8.0);
    let tf = m * random.between(10.0, 30.0);
    let longest = m * random.between(5.0, 30.0);
    let numbers = four_of_udud(random, m, tf, longest);
    let [of_uddu, of_udud] = least_y(&numbers);
    (numbers, [of_uddu * (1.0 + 10f64.powf(random.between(-3.0, -0.3))), of_udud])
}

/// The same with a third root of UDDU's, which rounding makes 0: the other factor's p² is so
/// large that p² - 4 q is the same again. For that y² is above 4 d by a few units of the last
/// place only. The larger root of the first factor is very large then, and tf has to be, too.
fn third_by_rounding(random: &mut Random) -> ([f64; 12], [f64; 2]) {
    let m = random.between(2.0, 8.0);
    let tf = m * random.between(27.0, 30.0).exp2();
    let numbers = four_of_udud(random, m, tf, tf);
    let [of_uddu, of_udud] = least_y(&numbers);
    let [polynom, _] = polynoms(Shape::Acc0Vel, &numbers);
    let roots = |steps: &i64| {
        let values = [step(of_uddu, *steps); 3];
        hand_in::set([RootAnswer { count: 1, values }; 2]);
        solve_quart_monic_arr(&polynom).into_iter().count()
    };
    let steps = (0..16).max_by_key(roots).unwrap_or(0);
    (numbers, [step(of_uddu, steps), of_udud])
}

fn four_of_udud(random: &mut Random, m: f64, tf: f64, longest: f64) -> [f64; 12] {
    let of_udud = |index| Coefficient { shape: Shape::Acc0Vel, signs: 1, index };
    let j = random.between(0.5, 4.0);
    let part = random.between(0.02, 0.24);
    let q = part * m * m;
    let e = m * part.min(1.0 - 2.0 * part.sqrt()) * random.between(0.05, 0.95);
    let mut numbers = motion(random, tf, [m * j, -longest * j], j);
    reach(&mut numbers, of_udud(1), m * m - e * e + 2.0 * q, VF, 1.0);
    reach(&mut numbers, of_udud(3), q * q, PF, m * j * tf * tf);
    // For a long tf a step of pf is too large, and a little of a0 does the rest.
    reach(&mut numbers, of_udud(3), q * q, A0, m * m * j / tf);
    numbers
}

/// With y² equal to 4 d, up to its rounding.
fn least_y(numbers: &[f64; 12]) -> [f64; 2] {
    polynoms(Shape::Acc0Vel, numbers).map(|[.., d]| 2.0 * d.sqrt())
}

fn motion(random: &mut Random, tf: f64, [a_max, a_min]: [f64; 2], j: f64) -> [f64; 12] {
    let [p0, v0] = std::array::from_fn(|_| ordinary(random));
    let [v_max, v_min] = [1.0, -1.0].map(|sign| sign * random.between(1.0, 40.0));
    [tf, p0, v0, 0.0, 0.0, 0.0, 0.0, v_max, v_min, a_max, a_min, j]
}
