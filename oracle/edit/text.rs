//! Text edits that either apply exactly as expected or stop the build.

pub fn fail(message: &str) -> ! {
    eprintln!("edit: {message}");
    std::process::exit(1);
}

/// Replaces `old`, which must occur exactly `count` times.
pub fn replace(text: &str, old: &str, new: &str, count: usize) -> String {
    let found = text.matches(old).count();
    if found != count {
        fail(&format!("{old:?} occurs {found} times, not {count}"));
    }
    text.replace(old, new)
}

/// The text from the first `start` up to the first `end` after it, `end` left out.
pub fn between<'a>(text: &'a str, start: &str, end: &str) -> &'a str {
    let from = text.find(start).unwrap_or_else(|| fail(&format!("{start:?} not found")));
    let length = text[from..]
        .find(end)
        .unwrap_or_else(|| fail(&format!("{end:?} not found after {start:?}")));
    &text[from..from + length]
}

/// What follows the first `mark`.
pub fn after<'a>(text: &'a str, mark: &str) -> &'a str {
    let from = text.find(mark).unwrap_or_else(|| fail(&format!("{mark:?} not found")));
    &text[from + mark.len()..]
}
