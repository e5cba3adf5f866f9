//! The line entry of Siptkvaro behind a safe function. Link liblines.a
//! (`tools/make.sh library lines_c lines`); `include/siptkvaro.h` has the contract in words.

/// The longest reply, in places: lent as many, no line is refused by question 8.
pub const LONGEST_REPLY: usize = 732;

pub enum Answer<'a> {
    /// The reply's characters; the lent places after them are as they were.
    Reply(&'a [u8]),
    /// The number of the first question with a no; the lent places are as they were.
    Refused(u32),
}

/// Answers one line, given without its line feed.
pub fn answer<'a>(request: &[u8], reply: &'a mut [u8]) -> Answer<'a> {
    match call(request, reply) {
        (0, filled) => Answer::Reply(&reply[..filled]),
        (number, _) => Answer::Refused(number),
    }
}

/// The number, and how many places the reply fills.
fn call(request: &[u8], reply: &mut [u8]) -> (u32, usize) {
    #[link(name = "lines", kind = "static")]
    extern "C" {
        fn answer_counted(
            request: *const u8,
            request_length: usize,
            reply: *mut u8,
            reply_length: usize,
            filled: *mut usize,
        ) -> u32;
    }
    let (lent, length) = (reply.as_mut_ptr(), reply.len());
    let mut filled = 0;
    // SAFETY: the entry has no `requires`. It reads the request and writes the
    // reply within their lengths, and writes the count; the three borrows keep
    // all alive and apart.
    let number =
        unsafe { answer_counted(request.as_ptr(), request.len(), lent, length, &mut filled) };
    (number, filled)
}
