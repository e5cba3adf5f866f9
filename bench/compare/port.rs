//! The port's line entry, out of the static library, as a host in Rust has it.

#[path = "../../hosts/rust/siptkvaro.rs"]
mod siptkvaro;

pub use siptkvaro::LONGEST_REPLY;

/// The number, and how many places the reply fills.
pub fn answer(request: &[u8], reply: &mut [u8]) -> (u32, usize) {
    match siptkvaro::answer(request, reply) {
        siptkvaro::Answer::Reply(reply) => (0, reply.len()),
        siptkvaro::Answer::Refused(number) => (number, 0),
    }
}
