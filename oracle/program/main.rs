//! The line program: each line of standard input gets its reply, or its refusal
//! in two decimal digits, each ended by a line feed.
//!
//!   oracle [PLACES]
//!
//! PLACES is how many places the reply is lent, 732 if not given.

mod line_feed;

use oracle::answer;
use oracle::frame::{LONGEST, LONGEST_REPLY};
use std::io::{self, Read, Write};

/// Large blocks, so that reading and writing cost little beside the answers.
const BLOCK: usize = 1 << 20;

/// One character more than any line that gets past question 1 has.
const KEPT: usize = 2 * LONGEST + 1;

struct Output<W: Write> {
    block: Vec<u8>,
    filled: usize,
    lent: usize,
    to: W,
}

impl<W: Write> Output<W> {
    fn answer(&mut self, request: &[u8]) -> io::Result<()> {
        if self.block.len() - self.filled < LONGEST_REPLY + 1 {
            self.flush()?;
        }
        let room = &mut self.block[self.filled..];
        let length = match answer(request, &mut room[..self.lent]) {
            Ok(kind) => kind.places,
            Err(number) => {
                room[0] = b'0' + (number / 10) as u8;
                room[1] = b'0' + (number % 10) as u8;
                2
            }
        };
        room[length] = b'\n';
        self.filled += length + 1;
        Ok(())
    }

    fn flush(&mut self) -> io::Result<()> {
        self.to.write_all(&self.block[..self.filled])?;
        self.filled = 0;
        self.to.flush()
    }
}

fn run(mut from: impl Read, output: &mut Output<impl Write>) -> io::Result<()> {
    let mut block = vec![0; BLOCK];
    // The unfinished line at the block's start. Only KEPT of its characters are
    // needed, so that a line may be of any length.
    let mut kept = 0;
    loop {
        let read = from.read(&mut block[kept..])?;
        if read == 0 {
            break;
        }
        let end = kept + read;
        let mut start = 0;
        let mut search = kept;
        while let Some(length) = line_feed::find(&block[search..end]) {
            output.answer(&block[start..search + length])?;
            start = search + length + 1;
            search = start;
        }
        let rest = end - start;
        kept = rest.min(KEPT);
        block.copy_within(start..start + kept, 0);
    }
    if kept > 0 {
        output.answer(&block[..kept])?;
    }
    output.flush()
}

fn main() -> io::Result<()> {
    let lent: usize = match std::env::args().nth(1) {
        Some(word) => word.parse().expect("PLACES is a decimal number"),
        None => LONGEST_REPLY,
    };
    let mut output = Output {
        block: vec![0; BLOCK],
        filled: 0,
        // No reply is longer, so more places change nothing.
        lent: lent.min(LONGEST_REPLY),
        to: io::stdout().lock(),
    };
    run(io::stdin().lock(), &mut output)
}
