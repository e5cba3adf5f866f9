//! Frames as characters.

use oracle::digits::write_byte;
use rsruckig::hand_in::RootAnswer;

/// A line under construction, kept from one line to the next.
#[derive(Default, Clone)]
pub struct Line {
    pub characters: Vec<u8>,
}

impl Line {
    pub fn clear(&mut self) {
        self.characters.clear();
    }

    pub fn byte(&mut self, byte: u8) {
        let mut places = [0; 2];
        write_byte(byte, &mut places);
        self.characters.extend_from_slice(&places);
    }

    /// The very bits, NaN patterns too.
    pub fn number(&mut self, number: f64) {
        for byte in number.to_bits().to_be_bytes() {
            self.byte(byte);
        }
    }

    pub fn numbers(&mut self, numbers: &[f64]) {
        for number in numbers {
            self.number(*number);
        }
    }

    pub fn answer(&mut self, answer: &RootAnswer) {
        self.byte(answer.count);
        self.numbers(&answer.values);
    }
}
