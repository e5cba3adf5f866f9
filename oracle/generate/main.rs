//! Writes lines to standard output and, at the end, how often each case came up to
//! standard error. It fails if one that can come up never did.
//!
//!   generate SEED COUNT [checks | kind KK | arrivals]
//!
//! `checks` writes accepted lines of kind 00 only, and asks for its cases. `kind KK`
//! writes accepted lines of one kind only. `arrivals` writes only lines of kinds 01 to 05 and
//! 08 with a yes within the sizes of demand 3. The last two do not ask for complete coverage.

mod arrivals;
mod coverage;
mod expected;
mod marks;
mod table;

use cases::any_line;
use cases::kinds::{Asks, Kind, KINDS};
use cases::line::Line;
use cases::random::Random;
use coverage::Coverage;
use expected::Faults;
use std::io::{self, BufWriter, Write};
use std::{env, process};

/// The shapes get the most lines, as they have the most cases.
const OFTEN: [u8; 50] = [
    0x00, 0x00, 0x00, 0x00, 0x00, 0x00, 0x00, 0x00, 0x01, 0x01, 0x01, 0x01, 0x02, 0x02, 0x02, 0x02,
    0x03, 0x03, 0x03, 0x03, 0x04, 0x04, 0x04, 0x05, 0x05, 0x05, 0x06, 0x07, 0x11, 0x11, 0x11, 0x11,
    0x12, 0x12, 0x12, 0x12, 0x13, 0x13, 0x13, 0x13, 0x14, 0x14, 0x14, 0x15, 0x15, 0x15, 0x08, 0x08,
    0x08, 0x08,
];

enum Wanted {
    All,
    Checks,
    Kind(&'static Kind),
    Arrivals,
}

fn main() -> io::Result<()> {
    let words: Vec<String> = env::args().skip(1).collect();
    let words: Vec<&str> = words.iter().map(String::as_str).collect();
    let (seed, count, wanted) = match words.as_slice() {
        [seed, count] => (seed, count, Wanted::All),
        [seed, count, "checks"] => (seed, count, Wanted::Checks),
        [seed, count, "kind", kind] => {
            let number = u8::from_str_radix(kind, 16).expect("KK is two hexadecimal digits");
            let kind = Kind::numbered(number).expect("KK is the number of a kind");
            (seed, count, Wanted::Kind(kind))
        }
        [seed, count, "arrivals"] => (seed, count, Wanted::Arrivals),
        _ => {
            eprintln!("use: generate SEED COUNT [checks | kind KK | arrivals]");
            process::exit(2);
        }
    };
    let mut random = Random::new(seed.parse().expect("SEED is a decimal number"));
    let count: u64 = count.parse().expect("COUNT is a decimal number");

    let shapes: Vec<_> = KINDS.iter().filter(|kind| matches!(kind.asks, Asks::Shape(_))).collect();
    let check = Kind::asking(Asks::Check);
    let mut out = BufWriter::with_capacity(1 << 20, io::stdout().lock());
    let mut coverage = Coverage::default();
    let mut line = Line::default();
    while coverage.lines < count {
        match wanted {
            Wanted::All => {
                let number = random.pick(&OFTEN);
                let kind = Kind::numbered(number).expect("OFTEN has numbers of kinds");
                any_line::sometimes_broken(&mut random, kind, 8, &mut line);
            }
            Wanted::Checks => any_line::accepted(&mut random, check, &mut line),
            Wanted::Kind(kind) => any_line::accepted(&mut random, kind, &mut line),
            Wanted::Arrivals => loop {
                let kind = random.pick(&shapes);
                any_line::accepted(&mut random, kind, &mut line);
                if arrivals::arrives(&line.characters) {
                    break;
                }
            },
        }
        coverage.add(&line.characters);
        out.write_all(&line.characters)?;
        out.write_all(b"\n")?;
    }
    out.flush()?;
    let (text, faults) = match wanted {
        Wanted::All => (table::text(&coverage), expected::faults(&coverage)),
        Wanted::Checks => (table::text_of_checks(&coverage), expected::faults_of_checks(&coverage)),
        Wanted::Kind(_) | Wanted::Arrivals => (table::text(&coverage), Faults::default()),
    };
    eprint!("{text}");
    for fault in &faults.texts {
        eprintln!("{fault}");
    }
    if !faults.texts.is_empty() {
        process::exit(1);
    }
    Ok(())
}
