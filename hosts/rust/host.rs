//! A host in Rust: answers each line of standard input on standard output.
//!
//!   host          a reply, or the refusal in two decimal digits, for each line
//!   host guard    the same, with the places around the reply checked

mod siptkvaro;

use siptkvaro::{answer, Answer, LONGEST_REPLY};
use std::io::{self, BufRead, BufWriter, Write};

const GUARD: usize = 64;

fn main() -> io::Result<()> {
    let guarded = std::env::args().nth(1).as_deref() == Some("guard");
    let mut input = io::stdin().lock();
    let mut output = BufWriter::new(io::stdout().lock());
    let mut line = Vec::new();
    let mut lent = [0; LONGEST_REPLY + GUARD];
    let mut number = 0u64;
    while input.read_until(b'\n', &mut line)? > 0 {
        number += 1;
        if line.last() == Some(&b'\n') {
            line.pop();
        }
        let mark = (number * 37 + 1) as u8;
        if guarded {
            lent.fill(mark);
        }
        let filled = match answer(&line, &mut lent) {
            Answer::Reply(reply) => {
                output.write_all(reply)?;
                reply.len()
            }
            Answer::Refused(question) => {
                write!(output, "{question:02}")?;
                0
            }
        };
        assert!(
            !guarded || lent[filled..].iter().all(|&place| place == mark),
            "line {number}: a place past the reply was written"
        );
        output.write_all(b"\n")?;
        line.clear();
    }
    output.flush()
}
