//! Correctly rounded square roots by whole numbers alone, as a machine without the
//! instruction has them.

const INFINITY: u64 = 0x7FF0_0000_0000_0000;
const ONE: u64 = 1 << 52;

/// The nearest root, with `root(a)` for the whole part of the root of a * 2^54,
/// where a lies from 2^52 on and below 2^54.
#[inline(always)]
fn rounded(x: f64, root: impl Fn(u64) -> u64) -> f64 {
    if x > 0.0 {
        let bits = x.to_bits();
        if bits == INFINITY {
            return x;
        }
        let (q, e) = if bits < ONE {
            let shift = bits.leading_zeros() - 11;
            (bits << shift, 1022 - shift as u64)
        } else {
            (bits % ONE + ONE, bits / ONE + 1021)
        };
        let a = q << (e % 2);
        f64::from_bits(e / 2 * ONE + (root(a) + 1) / 2)
    } else if x == 0.0 {
        x
    } else {
        f64::NAN
    }
}

/// By divisions: the way of crates/sqrt.
#[inline(never)]
pub fn by_division(x: f64) -> f64 {
    rounded(x, |a| {
        let step = |h: u64| (h + a / h) / 2;
        let z = a / 0x400_0000;
        let mut h = step(step(z * (1_056_700_000 - z) / 0x8000_0000 + 36_700_000));
        while a < h * h {
            h = step(h);
        }
        let n = (a - h * h) << 27;
        let (c, t) = (n / (2 * h), n % (2 * h));
        let r = (h << 27) + c;
        r - ((t << 27) < c * c) as u64
    })
}

/// Digit by digit: the way of fdlibm's e_sqrt.c, 54 digits of a fixed point number.
#[inline(never)]
pub fn by_digit(x: f64) -> f64 {
    rounded(x, |a| {
        // With 2^53 as one, 2 a is a number from 1 on and below 4. `rest` is what the square of the
        // root so far leaves of it, over the digit that is tried; `twice` is twice that root.
        let (mut rest, mut twice, mut root) = (2 * a, 0u64, 0u64);
        let mut digit = 1u64 << 53;
        while digit != 0 {
            let trial = twice + digit;
            if trial <= rest {
                twice = trial + digit;
                rest -= trial;
                root += digit;
            }
            rest += rest;
            digit >>= 1;
        }
        root
    })
}
