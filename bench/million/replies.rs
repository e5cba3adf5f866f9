//! Every line to the port and to the Rust behind both of its readers. The number, the count of
//! places filled and every place have to be equal, and the number 0.

use crate::port::{self, LONGEST_REPLY};
use crate::reader::Reader;
use crate::tables;

/// No digit, so that a place left as it was is told from one that was filled.
const UNTOUCHED: u8 = b'-';

type Answered = ((u32, usize), [u8; LONGEST_REPLY]);

/// How many lines have a yes, or the first difference.
pub fn compare(lines: &[&[u8]]) -> Result<usize, String> {
    let mut reader = Reader::default();
    let mut yeses = 0;
    for line in lines {
        let rust = places(line, |request, reply| reader.answer(request, reply));
        let by_tables = places(line, tables::answer);
        let port = places(line, port::answer);
        if port != rust || by_tables != rust {
            return Err(["a reply differs", &text(line), &shown(&port), &shown(&rust)].join("\n"));
        }
        let ((number, _), reply) = rust;
        if number != 0 {
            return Err(format!("question {number} refuses\n{}", text(line)));
        }
        yeses += reply.starts_with(b"01") as usize;
    }
    Ok(yeses)
}

fn places(line: &[u8], mut answer: impl FnMut(&[u8], &mut [u8]) -> (u32, usize)) -> Answered {
    let mut reply = [UNTOUCHED; LONGEST_REPLY];
    (answer(line, &mut reply), reply)
}

fn shown(((number, filled), reply): &Answered) -> String {
    format!("number {number}, {filled} places, {}", text(reply))
}

fn text(characters: &[u8]) -> String {
    String::from_utf8_lossy(characters).into_owned()
}
