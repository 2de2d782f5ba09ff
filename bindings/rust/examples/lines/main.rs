//! Answers the lines of docs/LINES.md as `dcel_run` does, with a mesh of this crate.

mod answer;
mod read;

use dcel::Dcel;
use std::error::Error;
use std::io::{self, BufRead, BufReader, BufWriter, Write};

fn main() -> Result<(), Box<dyn Error>> {
    let mut dcel = Dcel::<i64>::new()?;
    let mut lines = BufReader::new(io::stdin());
    let mut replies = BufWriter::new(io::stdout());
    let mut line = Vec::new();
    while lines.read_until(b'\n', &mut line)? > 0 {
        if line.last() == Some(&b'\n') {
            line.pop();
        }
        writeln!(replies, "{}", reply(&mut dcel, &line))?;
        line.clear();
        if lines.buffer().is_empty() {
            replies.flush()?;
        }
    }
    Ok(replies.flush()?)
}

fn reply(dcel: &mut Dcel<i64>, line: &[u8]) -> String {
    let Some((word, given)) = read::read(line) else {
        return "bad line".into();
    };
    match answer::answer(dcel, word, given) {
        Ok(reply) => reply,
        Err(why) => format!("refused {} {}", why.number(), why.name()),
    }
}
