//! Makes the build-time copy of the Rust sources. Every edit names the text that
//! it expects and how often; if the sources differ from that, nothing is built.

mod profile;
mod roots;
mod step2;
mod text;

use std::path::Path;
use std::{env, fs, process};

fn main() {
    let words: Vec<String> = env::args().skip(1).collect();
    let [variant, from, to] = words.as_slice() else {
        eprintln!("use: edit plain|traced FROM TO");
        process::exit(2);
    };
    let traced = match variant.as_str() {
        "plain" => false,
        "traced" => true,
        _ => text::fail("the variant is neither plain nor traced"),
    };
    let read = |name: &str| {
        fs::read_to_string(Path::new(from).join(name))
            .unwrap_or_else(|error| text::fail(&format!("{from}/{name}: {error}")))
    };
    let write = |name: &str, content: String| {
        fs::write(Path::new(to).join(name), content)
            .unwrap_or_else(|error| text::fail(&format!("{to}/{name}: {error}")))
    };

    write("brake.rs", read("brake.rs"));
    write("util.rs", read("util.rs"));
    write("roots.rs", roots::edit(&read("roots.rs")));
    let step2 = step2::edit(&read("position_third_step2.rs"));
    write("position_third_step2.rs", if traced { step2::trace(&step2) } else { step2 });
    let profile = read("profile.rs");
    write("profile.rs", if traced { profile::trace(&profile) } else { profile });
}
