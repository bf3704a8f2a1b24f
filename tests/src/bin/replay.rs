//! Reads calls on standard input, one a line in the format of `second`, makes each through the C
//! interface, and writes what it answers and leaves, a line for a line.

use second::BAD_LINE;
use shelf_tests::answer_line;
use std::io::{self, BufRead, BufWriter, Write};

/// Lines are read as bytes, since a bad line need not be text.
fn main() -> io::Result<()> {
    let mut output = BufWriter::new(io::stdout().lock());
    for line in io::stdin().lock().split(b'\n') {
        let text = match std::str::from_utf8(&line?) {
            Ok(line) => answer_line(line),
            Err(_) => BAD_LINE.to_string(),
        };
        writeln!(output, "{text}")?;
    }
    output.flush()
}
