//! Lists the book on standard input, or in the file named by its argument, by
//! the fast implementation: the peer of the program `list_book`.

use compare::book::{LISTING_MAX, LONGEST_BOOK};
use compare::fast::Fast;
use compare::library::Library;
use std::fs::File;
use std::io::{self, Read, Write};
use std::{env, process};

fn main() -> io::Result<()> {
    let arguments: Vec<String> = env::args().skip(1).collect();
    let book = match arguments.as_slice() {
        [] => read(io::stdin().lock())?,
        [path] => read(File::open(path)?)?,
        _ => {
            eprintln!("usage: fast_listing [FILE]");
            process::exit(2);
        }
    };
    let mut text = vec![0; LISTING_MAX];
    let mut written = 0;
    let status = Fast::list(&book, &mut text, &mut written);
    assert_eq!(status, 0, "the text has the length asked for");
    io::stdout().write_all(&text[..written])
}

/// One byte more than a book may have is enough to refuse it.
fn read(input: impl Read) -> io::Result<Vec<u8>> {
    let most = LONGEST_BOOK + 1;
    let mut book = Vec::with_capacity(most);
    input.take(most as u64).read_to_end(&mut book)?;
    Ok(book)
}
