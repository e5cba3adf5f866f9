//! The kinds of line, a row each. Whatever depends on a line's kind is read from here.

use crate::frame::{CAUSES_PLACES, QUARTICS_PLACES, RECORD_PLACES};

/// The five shapes of step 2, and the fourth with Paper 4's t[1] from rest to rest.
#[derive(Clone, Copy, PartialEq, Debug)]
pub enum Shape {
    Acc0Acc1Vel,
    Acc1Vel,
    Acc0Vel,
    Acc0Acc1,
    Acc0,
    RestToRest,
}

impl Shape {
    /// Whether it tries the roots of two quartics.
    pub fn takes_roots(self) -> bool {
        matches!(self, Shape::Acc1Vel | Shape::Acc0Vel)
    }
}

#[derive(Clone, Copy, PartialEq, Debug)]
pub enum Asks {
    Check,
    Shape(Shape),
    Quartics(Shape),
    /// A shape, with how often it calls `check` and the cause of the last call.
    Causes(Shape),
}

#[derive(Clone, Copy)]
pub struct Kind {
    pub number: u8,
    /// How long a frame is, in bytes.
    pub bytes: usize,
    /// How long a reply is, in places.
    pub places: usize,
    pub asks: Asks,
}

pub const COUNT: usize = 14;

pub static KINDS: [Kind; COUNT] = [
    Kind { number: 0x00, bytes: 148, places: RECORD_PLACES, asks: Asks::Check },
    Kind { number: 0x01, bytes: 97, places: RECORD_PLACES, asks: Asks::Shape(Shape::Acc0Acc1Vel) },
    Kind { number: 0x02, bytes: 147, places: RECORD_PLACES, asks: Asks::Shape(Shape::Acc1Vel) },
    Kind { number: 0x03, bytes: 147, places: RECORD_PLACES, asks: Asks::Shape(Shape::Acc0Vel) },
    Kind { number: 0x04, bytes: 97, places: RECORD_PLACES, asks: Asks::Shape(Shape::Acc0Acc1) },
    Kind { number: 0x05, bytes: 97, places: RECORD_PLACES, asks: Asks::Shape(Shape::Acc0) },
    Kind { number: 0x06, bytes: 97, places: QUARTICS_PLACES, asks: Asks::Quartics(Shape::Acc1Vel) },
    Kind { number: 0x07, bytes: 97, places: QUARTICS_PLACES, asks: Asks::Quartics(Shape::Acc0Vel) },
    Kind { number: 0x08, bytes: 97, places: RECORD_PLACES, asks: Asks::Shape(Shape::RestToRest) },
    Kind { number: 0x11, bytes: 97, places: CAUSES_PLACES, asks: Asks::Causes(Shape::Acc0Acc1Vel) },
    Kind { number: 0x12, bytes: 147, places: CAUSES_PLACES, asks: Asks::Causes(Shape::Acc1Vel) },
    Kind { number: 0x13, bytes: 147, places: CAUSES_PLACES, asks: Asks::Causes(Shape::Acc0Vel) },
    Kind { number: 0x14, bytes: 97, places: CAUSES_PLACES, asks: Asks::Causes(Shape::Acc0Acc1) },
    Kind { number: 0x15, bytes: 97, places: CAUSES_PLACES, asks: Asks::Causes(Shape::Acc0) },
];

/// Where the row of each number stands, past the last one for a number that is no kind's.
const ROWS: [u8; 256] = rows();

const fn rows() -> [u8; 256] {
    let mut table = [COUNT as u8; 256];
    let mut row = 0;
    while row < COUNT {
        table[KINDS[row].number as usize] = row as u8;
        row += 1;
    }
    table
}

impl Kind {
    #[inline]
    pub fn numbered(number: u8) -> Option<&'static Kind> {
        KINDS.get(ROWS[number as usize] as usize)
    }

    /// Where its row stands, for tables that have one for each kind.
    pub fn row(&self) -> usize {
        ROWS[self.number as usize] as usize
    }

    pub fn asking(asks: Asks) -> &'static Kind {
        KINDS.iter().find(|kind| kind.asks == asks).expect("a kind that asks this")
    }

    /// The others reply with two quartics.
    pub fn replies_record(&self) -> bool {
        !matches!(self.asks, Asks::Quartics(_))
    }

    /// Kinds 11 to 15: the calls of `check` come after the record.
    pub fn replies_causes(&self) -> bool {
        matches!(self.asks, Asks::Causes(_))
    }

    /// The shape that is run, if one is.
    pub fn shape(&self) -> Option<Shape> {
        match self.asks {
            Asks::Shape(shape) | Asks::Causes(shape) => Some(shape),
            _ => None,
        }
    }

    /// Kinds 02, 03, 12 and 13: the frame ends with two root answers.
    pub fn has_answers(&self) -> bool {
        self.shape().is_some_and(Shape::takes_roots)
    }

    /// The shape that has the line's two quartics, if it has any.
    pub fn quartics_of(&self) -> Option<Shape> {
        match self.asks {
            Asks::Quartics(shape) => Some(shape),
            _ => self.shape().filter(|shape| shape.takes_roots()),
        }
    }
}
