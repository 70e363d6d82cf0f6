//! Reads tunes as text from standard input and writes the book that the
//! reference makes of it, or says what is wrong.

use compare::text::{press, LONGEST_TEXT};
use std::io::{self, Read, Write};

fn main() -> io::Result<()> {
    let mut text = Vec::new();
    // One byte more than a text may have is enough to refuse it.
    let most = LONGEST_TEXT as u64 + 1;
    io::stdin().lock().take(most).read_to_end(&mut text)?;
    let pressed = press(&text);
    eprint!("{}", pressed.err);
    io::stdout().write_all(&pressed.out)
}
