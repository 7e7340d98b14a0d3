//! Prints what the archive, the reference and a plain copy need for the same
//! work: the best of many rounds, in nanoseconds. `--markdown` for Markdown.
//! `--count ROW SIDE TIMES` does one side's work of one row and prints the
//! rows' names (scripts/count.sh).

use board::bench::{count, markdown, plain, rows};
use std::env;

fn main() {
    if env::args().any(|argument| argument == "--count") {
        for row in count() {
            println!("{}", row.name);
        }
        return;
    }
    let rows = rows();
    let as_markdown = env::args().any(|argument| argument == "--markdown");
    let print = if as_markdown { markdown } else { plain };
    print!("{}", print(&rows));
}
