//! The bench program of 01: standard input to its end, then the answer.

use std::io::{self, Read, Write};

fn main() -> io::Result<()> {
    let mut input = Vec::new();
    io::stdin().lock().read_to_end(&mut input)?;
    let mut out = io::stdout().lock();
    out.write_all(&second::bench(&input))?;
    out.flush()
}
