//! A plain judge in ordinary Rust, the rules of docs/RULES.md: what `maxt` is measured against.
//! Nothing of it is proved. It reads a session from standard input and prints the replies.
mod calls;
mod case;
mod graph;
mod lines;
mod tree;

use case::{Case, No};
use lines::answer;
use std::fmt::Write as _;
use std::io::{self, Read, Write as _};

fn main() -> io::Result<()> {
    let mut text = Vec::with_capacity(65_536);
    io::stdin().lock().take(65_536).read_to_end(&mut text)?;
    let mut case = Case::new();
    let mut numbers = Vec::with_capacity(512);
    let mut replies = String::new();
    for line in text.split_inclusive(|byte| *byte == b'\n') {
        let line = line.strip_suffix(b"\n").unwrap_or(line);
        let begin = replies.len();
        replies.push_str("ok");
        match answer(&mut case, line, &mut numbers, &mut replies).unwrap_or(Err(No(27, 0, 0))) {
            Ok(()) => replies.push('\n'),
            Err(No(question, first, second)) => {
                replies.truncate(begin);
                _ = writeln!(replies, "no {question} {first} {second}");
            }
        }
    }
    io::stdout().lock().write_all(replies.as_bytes())
}
