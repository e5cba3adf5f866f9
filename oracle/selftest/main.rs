//! Tests the oracle itself: the moves that documents 01 and 02 work through, some whose square
//! roots do not exist, and over a row of generated lines that the edits changed nothing but
//! what they had to.
//!
//!   selftest SEED COUNT

mod causes;
mod edits;
mod marks;
mod moves;
mod rest_to_rest;

use std::env;

fn main() {
    let mut words = env::args().skip(1).map(|word| word.parse().expect("a decimal number"));
    let (Some(seed), Some(count), None) = (words.next(), words.next(), words.next()) else {
        eprintln!("use: selftest SEED COUNT");
        std::process::exit(2);
    };
    let moves = moves::test();
    println!("{moves} moves of documents 01 and 02 hold");
    println!("{} moves with and without a root hold", marks::worked());
    let edits::Tried { quartics, causes, marked, rests } = edits::test(seed, count);
    println!("{count} lines answered alike, {quartics} quartics as taken out of the source");
    println!("{causes} lines of kinds 11 to 15 as those of 01 to 05, their causes found again,");
    println!("{marked} of them for want of a root");
    println!("{rests} lines of kind 08 at rest, with the document's t[1] and else as kind 04");
}
