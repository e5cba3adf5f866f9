//! Questions 1 to 4; the later ones are asked where the kind's body is read.

#[cfg(traced)]
use crate::causes;
use crate::kinds::{Asks, Kind};
use crate::{check, digits, frame, quartics, shapes};
#[cfg(not(traced))]
use traced::causes;

/// The number of the first question that the line fails, with the reply
/// untouched; or 0, with exactly the reply's places filled.
pub fn answer_line(request: &[u8], reply: &mut [u8]) -> u32 {
    answer(request, reply).err().unwrap_or(0)
}

/// The same, with the kind of an accepted line.
pub fn answer(request: &[u8], reply: &mut [u8]) -> Result<&'static Kind, u32> {
    let characters = request.len();
    if characters % 2 != 0 || characters < 2 || characters > 2 * frame::LONGEST {
        return Err(1);
    }
    let length = characters / 2;
    let mut bytes = [0; frame::LONGEST];
    if !digits::read(request, &mut bytes[..length]) {
        return Err(2);
    }
    let kind = Kind::numbered(bytes[0]).ok_or(3u32)?;
    if length != kind.bytes {
        return Err(4);
    }
    let number = match kind.asks {
        Asks::Check => check::answer(&bytes, reply),
        Asks::Shape(shape) => shapes::answer(shape, &bytes, reply),
        Asks::Quartics(shape) => quartics::answer(shape, &bytes, reply),
        Asks::Causes(_) => causes::answer(&bytes, reply),
    };
    if number == 0 {
        Ok(kind)
    } else {
        Err(number)
    }
}
