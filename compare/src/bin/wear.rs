//! Reads a tune book from standard input and prints the wear of its tunes that
//! the reference finds.

use compare::book::{wear_report, LONGEST_BOOK};
use std::io::{self, Read};

fn main() -> io::Result<()> {
    let mut book = Vec::new();
    // One byte more than a book may have is enough to refuse it.
    let most = LONGEST_BOOK as u64 + 1;
    io::stdin().lock().take(most).read_to_end(&mut book)?;
    print!("{}", wear_report(&book));
    Ok(())
}
