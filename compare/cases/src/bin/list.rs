//! Lists the recording on standard input as the lister does, with the
//! reference: what the lister's speed is held against.

use std::io::{self, Read, Write};

fn main() -> io::Result<()> {
    let mut recording = Vec::new();
    io::stdin().lock().read_to_end(&mut recording)?;
    io::stdout()
        .lock()
        .write_all(reference::list(&recording).as_bytes())
}
