//! The day program over standard input and output.

use std::io::{self, BufReader, BufWriter};

fn main() -> io::Result<()> {
    reference::day(BufReader::new(io::stdin()), BufWriter::new(io::stdout()))
}
