//! The programs `list_book`, `wear_book`, `press_book` and `cases` as they were
//! built: what they print, against the reference, and what comes of inputs and
//! outputs that fail. All programs end with the status 0.

use compare::book::{listing, wear_report, LONGEST_BOOK};
use compare::call::Call;
use compare::code::Card;
use compare::random::Random;
use compare::samples;
use compare::text::{self, press, Pressed, LONGEST_TEXT};
use compare::vectors::{self, STORED};
use compare::writer::Tunes;
use std::ffi::c_int;
use std::fs::{self, File};
use std::io::{self, PipeReader, PipeWriter, Read, Write};
use std::os::fd::{AsRawFd, OwnedFd};
use std::os::unix::net::UnixDatagram;
use std::path::{Path, PathBuf};
use std::process::{Command, Output, Stdio};
use std::thread::{self, sleep};
use std::time::Duration;

extern "C" {
    fn fcntl(file: c_int, command: c_int, ...) -> c_int;
    fn kill(process: c_int, signal: c_int) -> c_int;
}

// Linux's numbers.
const F_SETFL: c_int = 4;
const F_SETPIPE_SZ: c_int = 1031;
const O_NONBLOCK: c_int = 0o4000;
const SIGCONT: c_int = 18;
const SIGSTOP: c_int = 19;

const CANNOT_OPEN: &str = "cannot open the input: ";
const CANNOT_READ: &str = "cannot read the input: ";
const CANNOT_WRITE: &str = "cannot write the output: ";

fn repository(path: &str) -> PathBuf {
    Path::new(env!("CARGO_MANIFEST_DIR")).join("..").join(path)
}

fn program(name: &str) -> PathBuf {
    let path = repository("target/bin").join(name);
    assert!(
        path.is_file(),
        "no target/bin/{name}: run `tools/build list_book wear_book press_book cases` in the \
         repository first"
    );
    path
}

/// A program that reads a book and prints a text.
struct Reader {
    name: &'static str,
    /// The text, by the reference.
    text: fn(&[u8]) -> String,
}

const LIST_BOOK: Reader = Reader {
    name: "list_book",
    text: listing,
};

const WEAR_BOOK: Reader = Reader {
    name: "wear_book",
    text: wear_report,
};

const READERS: [Reader; 2] = [LIST_BOOK, WEAR_BOOK];

impl Reader {
    fn command(&self) -> Command {
        Command::new(program(self.name))
    }
}

fn press_book() -> Command {
    Command::new(program("press_book"))
}

fn milliseconds(count: u64) -> Duration {
    Duration::from_millis(count)
}

/// A file with these bytes. Tests that run at the same time give other names.
fn file(name: &str, bytes: &[u8]) -> PathBuf {
    let path = Path::new(env!("CARGO_TARGET_TMPDIR")).join(name);
    fs::write(&path, bytes).expect("a file in the temporary folder");
    path
}

fn open(path: &Path) -> File {
    File::open(path).expect("a file that can be opened")
}

/// A pipe out of which these pieces come, with a pause after each. A program
/// need not read them all.
fn pipe(pieces: Vec<Vec<u8>>, pause: Duration) -> PipeReader {
    let (reader, mut writer) = io::pipe().expect("a pipe");
    thread::spawn(move || {
        for piece in pieces {
            if writer.write_all(&piece).is_err() {
                return;
            }
            sleep(pause);
        }
    });
    reader
}

fn piped(bytes: &[u8]) -> PipeReader {
    pipe(vec![bytes.to_vec()], Duration::ZERO)
}

/// A pipe that holds a page only, which is less than the programs can print.
fn small_pipe() -> (PipeReader, PipeWriter) {
    let (reader, writer) = io::pipe().expect("a pipe");
    // Sound: it only changes how much an open pipe holds.
    let size = unsafe { fcntl(writer.as_raw_fd(), F_SETPIPE_SZ, 4_096 as c_int) };
    assert!(size > 0, "{}", io::Error::last_os_error());
    (reader, writer)
}

fn set_nonblocking(file: &impl AsRawFd) {
    // Sound: it only sets a flag of an open file.
    let answer = unsafe { fcntl(file.as_raw_fd(), F_SETFL, O_NONBLOCK) };
    assert_eq!(answer, 0, "{}", io::Error::last_os_error());
}

fn run(command: &mut Command) -> Output {
    let output = command.output().expect("a program that runs");
    assert_eq!(output.status.code(), Some(0), "{command:?}");
    output
}

/// Panics unless the program printed this and said nothing else.
fn expect_printed(command: &mut Command, text: &str) {
    let output = run(command);
    assert_eq!(String::from_utf8_lossy(&output.stderr), "", "{command:?}");
    if output.stdout != text.as_bytes() {
        let printed = String::from_utf8_lossy(&output.stdout);
        assert_eq!(printed, text, "{command:?}");
    }
}

/// Panics unless the program printed nothing and said one line that begins so.
fn expect_said(command: &mut Command, beginning: &str) {
    let output = run(command);
    assert_eq!(String::from_utf8_lossy(&output.stdout), "", "{command:?}");
    assert_one_line(&output.stderr, beginning);
}

fn assert_one_line(said: &[u8], beginning: &str) {
    let said = String::from_utf8_lossy(said);
    let one_line = said.ends_with('\n') && said.lines().count() == 1;
    assert!(
        one_line && said.starts_with(beginning),
        "{said:?} is no line that begins with {beginning:?}"
    );
}

/// Hands a book to each program that reads one, from a pipe, from a file, and
/// from a file named as argument.
fn check_book(name: &str, book: &[u8]) {
    let path = file(name, book);
    for reader in READERS {
        let text = (reader.text)(book);
        expect_printed(reader.command().stdin(piped(book)), &text);
        expect_printed(reader.command().stdin(open(&path)), &text);
        expect_printed(reader.command().arg(&path), &text);
    }
}

/// The same of a book that is refused, with this number.
fn check_refused(name: &str, book: &[u8], refusal: u32) {
    for reader in READERS {
        let line = format!("book refused {refusal}\n");
        assert_eq!((reader.text)(book), line, "{}", reader.name);
    }
    check_book(name, book);
}

/// Panics unless the program wrote and said what the reference does.
fn expect_pressed(command: &mut Command, text: &[u8], pressed: &Pressed) {
    let output = run(command);
    let text = String::from_utf8_lossy(text);
    let said = String::from_utf8_lossy(&output.stderr);
    assert_eq!(said, pressed.err, "{command:?}\n{text}");
    let written = output.stdout == pressed.out;
    assert!(written, "{command:?}\nwrites another book\n{text}");
}

/// Presses a text from a pipe, from a file, and from a file named as argument.
/// The book that is written lists the strikes of the text.
fn check_pressing(name: &str, text: &[u8]) -> Pressed {
    let pressed = press(text);
    let path = file(name, text);
    expect_pressed(press_book().stdin(piped(text)), text, &pressed);
    expect_pressed(press_book().stdin(open(&path)), text, &pressed);
    expect_pressed(press_book().arg(&path), text, &pressed);
    if pressed.err.is_empty() {
        let tunes = text::read(text).expect("a text without mistakes");
        let listing = samples::listing(&tunes);
        let mut list_book = LIST_BOOK.command();
        expect_printed(list_book.stdin(piped(&pressed.out)), &listing);
    }
    pressed
}

/// Cards with damage of all kinds, one in four with a bell over the largest, and
/// one with a wrong symbol. There are few, as the reference takes its time for
/// each.
fn some_cards(random: &mut Random) -> Vec<Card> {
    let sent = |turn: u32| match turn % 4 {
        3 => samples::sent_no_bell(random, turn % 5),
        _ => samples::sent_strike(random, turn % 5),
    };
    let mut cards: Vec<Card> = (0..40).map(sent).map(|sent| sent.received).collect();
    cards[6][3] = 729;
    cards
}

fn body(random: &mut Random, cards: &[Card], count: usize) -> Vec<u8> {
    let picked: Vec<Card> = (0..count).map(|_| *random.pick(cards)).collect();
    samples::body(&picked)
}

/// Tunes with so many cards each, and rising numbers up to 9,999.
fn book(random: &mut Random, cards: &[Card], counts: &[usize]) -> Vec<u8> {
    let first = 10_000 - counts.len() as u16;
    let tunes: Vec<(u16, Vec<u8>)> = (first..)
        .zip(counts)
        .map(|(number, count)| (number, body(random, cards, *count)))
        .collect();
    samples::book(&tunes)
}

/// Tunes with so many of `some_cards` each.
fn mixed_book(counts: &[usize]) -> Vec<u8> {
    let random = &mut Random::new(1);
    let cards = some_cards(random);
    book(random, &cards, counts)
}

/// Tunes with so many cards each, all with the widest values and damage.
fn widest_book(counts: &[usize]) -> Vec<u8> {
    let random = &mut Random::new(2);
    let card = samples::widest_card(random);
    book(random, &[card], counts)
}

#[test]
fn examples() {
    let mut count = 0;
    for entry in fs::read_dir(repository("examples")).expect("a folder of examples") {
        let path = entry.expect("a file").path();
        if path
            .extension()
            .is_some_and(|extension| extension == "book")
        {
            check_book("examples.book", &fs::read(path).expect("a book"));
            count += 1;
        }
    }
    assert!(count > 0, "there are no examples");
}

#[test]
fn books() {
    for counts in [
        &[1][..],
        &[4],
        &[1, 2, 3],
        &[7, 8, 9],
        &[30; 30],
        &[999, 1, 1_000],
    ] {
        check_book("books.book", &mixed_book(counts));
    }
    // No tunes: nothing is printed.
    check_book("books.book", &[0, 0]);
}

#[test]
fn refused_books() {
    let good = mixed_book(&[2, 1]);
    let changed = |place: usize, byte: u8| {
        let mut book = good.clone();
        book[place] = byte;
        book
    };
    let books = [
        (vec![0], 5),
        (vec![1], 5),
        (vec![255], 5),
        (changed(1, 200), 5),
        (changed(2, 255), 6),
        (changed(11, good[3]), 6),
        (changed(7, 0), 7),
        (changed(9, 1), 7),
        (vec![0, 0, 0], 7),
        (good[..good.len() - 1].to_vec(), 7),
    ];
    for (book, refusal) in books {
        check_refused("refused_books.book", &book, refusal);
    }
}

/// A file of no bytes, and other inputs that end at once: nothing is printed.
#[test]
fn empty_file() {
    check_book("empty_file.book", &[]);
    let example = repository("examples/empty.book");
    let bytes = fs::read(&example).expect("an example");
    assert_eq!(bytes, [], "examples/empty.book is no empty file");
    let nowhere = Path::new("/dev/null");
    for reader in READERS {
        for path in [&example, nowhere] {
            expect_printed(reader.command().arg(path), "");
            expect_printed(reader.command().stdin(open(path)), "");
        }
        let (closed, writer) = io::pipe().expect("a pipe");
        drop(writer);
        expect_printed(reader.command().stdin(closed), "");
        let late = pipe(vec![vec![]], milliseconds(50));
        expect_printed(reader.command().stdin(late), "");
    }
}

/// Books without tunes: nothing is written, so that an output that would fail
/// does not.
#[test]
fn nothing_to_write() {
    for book in [&[][..], &[0, 0]] {
        let path = file("nothing_to_write.book", book);
        for reader in READERS {
            assert_eq!((reader.text)(book), "");
            assert!(writes(reader.command().arg(&path)).is_empty());
            on_failing_outputs(&reader, &path, |command| expect_printed(command, ""));
        }
    }
}

/// Books of the largest size, and inputs of more bytes than a book may have.
#[test]
fn large_books() {
    let largest = mixed_book(&[1, 5_457, 1]);
    assert_eq!(largest.len(), LONGEST_BOOK - 2);
    check_book("large_books.book", &largest);
    for (len, refusal) in [(65_535, 7), (65_536, 7), (65_537, 5), (200_000, 5)] {
        let mut book = largest.clone();
        book.resize(len, 0);
        check_refused("large_books.book", &book, refusal);
    }
    check_book("large_books.book", &widest_book(&[5_460]));
    check_book("large_books.book", &mixed_book(&[8; 630]));
    check_book("large_books.book", &samples::longest_listing());
}

/// A book that arrives in pieces, with pauses.
#[test]
fn slow_input() {
    let (small, large) = (mixed_book(&[3, 2]), samples::longest_listing());
    for (book, size) in [(&small, 1), (&small, 7), (&large, 4_000), (&large, 65_533)] {
        for reader in READERS {
            let pieces = book.chunks(size).map(<[u8]>::to_vec).collect();
            let input = pipe(pieces, milliseconds(2));
            expect_printed(reader.command().stdin(input), &(reader.text)(book));
        }
    }
}

#[test]
fn inputs_that_fail() {
    let folder = repository("examples");
    let missing = repository("no/such.book");
    let closed = r#"exec "$0" <&-"#;
    for reader in READERS {
        expect_said(reader.command().stdin(open(&folder)), CANNOT_READ);
        expect_said(reader.command().arg(&folder), CANNOT_READ);
        expect_said(reader.command().arg(&missing), CANNOT_OPEN);
        expect_said(reader.command().arg(""), CANNOT_OPEN);
        expect_said(sh(closed).arg(program(reader.name)), CANNOT_READ);
    }
}

/// A read that fails after some bytes were read; or at once, which is not taken
/// for an empty file.
#[test]
fn input_that_fails_late() {
    let book = fs::read(repository("examples/clean.book")).expect("an example");
    for len in [0, 1, book.len() - 1, book.len()] {
        for reader in READERS {
            let (input, mut writer) = io::pipe().expect("a pipe");
            set_nonblocking(&input);
            writer.write_all(&book[..len]).expect("a pipe with room");
            expect_said(reader.command().stdin(input), CANNOT_READ);
            drop(writer);
        }
    }
}

#[test]
fn arguments() {
    let example = repository("examples/clean.book");
    for reader in READERS {
        let usage = format!("usage: {} [FILE]\n", reader.name);
        for more in 1..=3 {
            let paths = vec![&example; 1 + more];
            expect_said(reader.command().args(paths), &usage);
        }
    }
}

fn sh(script: &str) -> Command {
    let mut command = Command::new("sh");
    command.args(["-c", script]);
    command
}

#[test]
fn outputs_that_fail() {
    for book in [samples::longest_listing(), vec![0, 1], vec![0]] {
        let path = file("outputs_that_fail.book", &book);
        for reader in READERS {
            on_failing_outputs(&reader, &path, |command| expect_said(command, CANNOT_WRITE));
        }
        assert!(fs::read(&path).unwrap() == book, "the book was changed");
    }
}

/// Hands over the program on a book with outputs that are full or closed.
fn on_failing_outputs(reader: &Reader, path: &Path, expect: impl Fn(&mut Command)) {
    let full = File::options().write(true).open("/dev/full");
    let full = full.expect("an output that is always full");
    expect(reader.command().arg(path).stdout(full));
    let closed = r#"exec "$0" <"$1" >&-"#;
    let closed_named = r#"exec "$0" "$1" >&-"#;
    for script in [closed, closed_named] {
        let arguments = [&program(reader.name), path];
        expect(sh(script).args(arguments));
    }
}

/// A pipe as output that is not waited for, with a slow reader: a write takes
/// what there is room for, or fails.
#[test]
fn nonblocking_output() {
    let (small, large) = (mixed_book(&[100]), samples::longest_listing());
    for reader in READERS {
        let all = |book: &[u8]| (reader.text)(book).len();
        assert_eq!(from_nonblocking_pipe(&reader, &small), all(&small));
        // The pipe holds a page.
        let arrived = from_nonblocking_pipe(&reader, &large);
        assert!((4_096..=all(&large)).contains(&arrived));
    }
}

/// How much of the text arrives. Panics unless it is a beginning, and the
/// program says that it could not write exactly if there is more.
fn from_nonblocking_pipe(reader: &Reader, book: &[u8]) -> usize {
    let (mut output, writer) = small_pipe();
    set_nonblocking(&writer);
    let child = reader
        .command()
        .stdin(piped(book))
        .stdout(writer)
        .stderr(Stdio::piped())
        .spawn()
        .expect("a program that runs");
    let mut arrived = vec![];
    let mut piece = [0; 10_000];
    loop {
        sleep(milliseconds(5));
        match output.read(&mut piece).expect("a pipe") {
            0 => break,
            len => arrived.extend(&piece[..len]),
        }
    }
    let output = child.wait_with_output().expect("a program that ends");
    assert_eq!(output.status.code(), Some(0));
    let text = (reader.text)(book);
    let is_beginning = text.as_bytes().starts_with(&arrived);
    assert!(is_beginning, "{} bytes, not of the text", arrived.len());
    match arrived.len() < text.len() {
        true => assert_one_line(&output.stderr, CANNOT_WRITE),
        false => assert!(output.stderr.is_empty()),
    }
    arrived.len()
}

/// A program that is stopped while it waits for room in a pipe has written
/// only a part when it goes on.
#[test]
fn interrupted_output() {
    for reader in READERS {
        interrupt(&reader);
    }
}

fn interrupt(reader: &Reader) {
    let book = samples::longest_listing();
    let (mut output, writer) = small_pipe();
    let child = reader
        .command()
        .stdin(piped(&book))
        .stdout(writer)
        .stderr(Stdio::piped())
        .spawn()
        .expect("a program that runs");
    for signal in [SIGSTOP, SIGCONT] {
        sleep(milliseconds(200));
        // Sound: it changes nothing here. The process has not been waited
        // for, so that its number is still its own.
        let answer = unsafe { kill(child.id() as c_int, signal) };
        assert_eq!(answer, 0, "{}", io::Error::last_os_error());
    }
    sleep(milliseconds(20));
    let mut arrived = String::new();
    output.read_to_string(&mut arrived).expect("a text");
    let output = child.wait_with_output().expect("a program that ends");
    assert_eq!(String::from_utf8_lossy(&output.stderr), "");
    assert!(arrived == (reader.text)(&book), "{} bytes", arrived.len());
}

/// What goes into a socket of messages tells one write from another.
#[test]
fn one_write() {
    for book in [mixed_book(&[3, 2]), samples::longest_listing(), vec![0]] {
        for reader in READERS {
            let text = (reader.text)(&book);
            let writes = writes(reader.command().stdin(piped(&book)));
            let lengths: Vec<usize> = writes.iter().map(Vec::len).collect();
            assert_eq!(lengths, [text.len()]);
            assert!(writes[0] == text.as_bytes());
        }
    }
}

/// What a program writes, by its writes.
fn writes(command: &mut Command) -> Vec<Vec<u8>> {
    let (ours, theirs) = UnixDatagram::pair().expect("two sockets");
    let timeout = Some(milliseconds(10));
    ours.set_read_timeout(timeout).expect("a socket");
    let output = OwnedFd::from(theirs);
    let mut child = command.stdout(output).spawn().expect("a program that runs");
    let mut message = vec![0; 200_000];
    let mut writes = vec![];
    loop {
        let ended = child.try_wait().expect("a program").is_some();
        match ours.recv(&mut message) {
            Ok(len) => writes.push(message[..len].to_vec()),
            Err(_) if ended => return writes,
            Err(_) => {}
        }
    }
}

/// The texts among the examples, none of which is refused.
#[test]
fn example_texts() {
    let mut count = 0;
    for entry in fs::read_dir(repository("examples")).expect("a folder of examples") {
        let path = entry.expect("a file").path();
        if path.extension().is_some_and(|extension| extension == "txt") {
            let text = fs::read(path).expect("a text");
            let pressed = check_pressing("example_texts.txt", &text);
            assert_eq!(pressed.err, "");
            assert!(pressed.out.len() > 2, "an example without tunes");
            count += 1;
        }
    }
    assert!(count > 0, "there are no examples");
}

/// Random texts: as they should be, and with faults.
#[test]
fn texts() {
    let random = &mut Random::new(4);
    let mut beginnings = vec![];
    for turn in 0..600 {
        let tunes = some_tunes(random);
        let mut text = samples::text(random, &tunes);
        for _ in 0..turn % 4 {
            spoil(random, &mut text);
        }
        let pressed = check_pressing("texts.txt", &text);
        beginnings.push(pressed.err.chars().take(4).collect::<String>());
    }
    for beginning in ["", "line", "book"] {
        let count = beginnings.iter().filter(|said| *said == beginning).count();
        assert!(count > 60, "only {count} texts of 600 say {beginning:?}");
    }
}

/// Up to five tunes of up to six cards. One text in four has a number out of
/// its range or a tune without cards.
fn some_tunes(random: &mut Random) -> Tunes {
    let len = random.below(6) as usize;
    let faulty = random.chance(4);
    let counts = random.numbers(len, 6);
    let counts: Vec<u16> = counts
        .iter()
        .map(|count| count + u16::from(!faulty))
        .collect();
    let mut tunes = samples::tunes(random, &counts);
    for list in [&mut tunes.numbers, &mut tunes.strikes] {
        if faulty && random.chance(2) && !list.is_empty() {
            let place = random.below(list.len() as u64) as usize;
            list[place] = *random.pick(&[0, 8, 9, 47, 48, 728, 729, 9_999, 10_000, 65_535]);
        }
    }
    tunes
}

/// Changes a text in some place: a byte, or a line.
fn spoil(random: &mut Random, text: &mut Vec<u8>) {
    let byte = *random.pick(b"\n\n \t\r\x0b\0\xff#-+.,0123456789tuneT");
    let place = random.below(text.len() as u64 + 1) as usize;
    let mut lines: Vec<Vec<u8>> = text
        .split(|byte| *byte == b'\n')
        .map(<[u8]>::to_vec)
        .collect();
    let line = random.below(lines.len() as u64) as usize;
    match random.below(6) {
        0 => text.insert(place, byte),
        1 if place < text.len() => text[place] = byte,
        2 if place < text.len() => drop(text.remove(place)),
        3 => text.truncate(place),
        4 => {
            lines.insert(line, lines[line].clone());
            *text = lines.join(&b'\n');
        }
        _ => {
            lines.swap(0, line);
            *text = lines.join(&b'\n');
        }
    }
}

/// Mistakes of all kinds, in the first line, after others, and before others.
#[test]
fn texts_with_mistakes() {
    let mistakes = [
        "tune",
        "tune ",
        "tune x",
        "tune 1x",
        "tune -1",
        "tune 1 2",
        "tune 1 # one",
        "tune #1",
        "tune 1\u{b}",
        "tune1",
        "tunes 1",
        "Tune 1",
        "TUNE 1",
        "1",
        "1 2",
        "1 2 3 4",
        "1 2 x",
        "1 2 3 # soft",
        "1,2,3",
        "1 2 3.",
        "1 2 +3",
        "1 2 -3",
        "x",
        "\0",
        "\u{b}",
        "\u{e9} 1 2",
        ";",
        "1 2 tune",
        "tune tune",
    ];
    for mistake in mistakes {
        let texts = [
            mistake.to_string(),
            format!("{mistake}\n"),
            format!("{mistake}\r\ntune 1\r\n1 2 3\r\n"),
            format!("tune 1\n1 2 3\n{mistake}"),
            format!("# {mistake}\n\n \ntune 1\n1 2 3\n\t{mistake} \n1 2\n"),
            format!("tune 0\n48 9 729\n{mistake}\n"),
        ];
        for text in texts {
            let pressed = check_pressing("texts_with_mistakes.txt", text.as_bytes());
            assert!(pressed.err.starts_with("line "), "{text:?}");
        }
    }
    for text in ["1 2 3", "# x\n\n1 2 3\ntune 1", "48 9 729\ntune"] {
        let pressed = check_pressing("texts_with_mistakes.txt", text.as_bytes());
        assert!(pressed.err.ends_with(": a strike before the first tune\n"));
    }
}

/// A line number of several digits, and a mistake at the end of a long text.
#[test]
fn late_mistakes() {
    for lines in [8, 9, 98, 99, 100, 1_000, 9_999, 65_535, 65_536, 131_068] {
        let text = "\n".repeat(lines) + "tune";
        let pressed = check_pressing("late_mistakes.txt", text.as_bytes());
        let said = format!("line {}: a tune needs one number\n", lines + 1);
        assert_eq!(pressed.err, said);
    }
}

/// Texts that say nothing, and long words and lines.
#[test]
fn odd_texts() {
    let nothing = [
        "",
        "\n",
        "\n\n\n",
        " ",
        "\t\r\n",
        "#",
        "#\n",
        "# tune 1\n#1 2 3",
    ];
    for text in nothing {
        let pressed = check_pressing("odd_texts.txt", text.as_bytes());
        assert_eq!(pressed.out, [0, 0], "{text:?}");
    }
    let (zeros, nines, blanks) = ("0".repeat(100), "9".repeat(100), " \t\r".repeat(10_000));
    let long = "z".repeat(50_000);
    let texts = [
        (
            format!("tune {zeros}9999\n{zeros}47 {zeros}8 {zeros}728"),
            "",
        ),
        (format!("tune {nines}\n1 2 3"), "book refused 6\n"),
        (format!("tune 1\n{nines} 2 3"), "book refused 10\n"),
        (format!("tune 1\n1 {nines} 3"), "book refused 10\n"),
        (format!("tune 1\n1 2 {nines}"), "book refused 10\n"),
        ("tune 65537\n1 2 3".to_string(), "book refused 6\n"),
        ("tune 4294967297\n1 2 3".to_string(), "book refused 6\n"),
        (
            "tune 18446744073709551617\n1 2 3".to_string(),
            "book refused 6\n",
        ),
        ("tune 1\n65537 2 3".to_string(), "book refused 10\n"),
        ("tune 1\n1 4294967298 3".to_string(), "book refused 10\n"),
        (format!("{blanks}tune{blanks}7{blanks}\n1 2 3"), ""),
        (format!("tune 7\n{blanks}1{blanks}2 3{blanks}"), ""),
        (format!("#{long}\ntune 7\n# {long}\n1 2 3"), ""),
        (
            format!("tune 7\n1 2 3{nines}{long}"),
            "line 2: neither a tune nor a strike of three numbers\n",
        ),
    ];
    for (text, said) in texts {
        assert_eq!(check_pressing("odd_texts.txt", text.as_bytes()).err, said);
    }
}

#[test]
fn refused_texts() {
    let strikes = |count: usize| "0 0 0\n".repeat(count);
    let tunes = |count: u32| {
        (1..=count)
            .map(|n| format!("tune {n}\n"))
            .collect::<String>()
    };
    let texts = [
        ("tune 1\n48 0 0\n".to_string(), 10),
        ("tune 1\n80 8 0\n".to_string(), 10),
        ("tune 1\n0 9 0\n".to_string(), 10),
        ("tune 1\n47 8 728\n47 9 728\n".to_string(), 10),
        ("tune 1\n0 0 729\n".to_string(), 10),
        (format!("tune 0\n{}0 0 729\ntune 0\n", strikes(6_000)), 10),
        (format!("tune 1\n{}", strikes(5_461)), 5),
        (format!("tune 0\n{}tune 0\n", strikes(21_843)), 5),
        (tunes(8_192), 5),
        ("tune 1\n".repeat(18_724), 5),
        ("tune 0\n0 0 0\n".to_string(), 6),
        ("tune 10000\n0 0 0\n".to_string(), 6),
        ("tune 2\n0 0 0\ntune 2\n0 0 0\n".to_string(), 6),
        ("tune 3\n0 0 0\ntune 2\n".to_string(), 6),
        ("tune 1\n".to_string(), 7),
        ("tune 1\ntune 2\n0 0 0\n".to_string(), 7),
        ("tune 1\n0 0 0\ntune 2".to_string(), 7),
        (tunes(8_191), 7),
    ];
    for (text, refusal) in texts {
        let pressed = check_pressing("refused_texts.txt", text.as_bytes());
        assert_eq!(pressed.err, format!("book refused {refusal}\n"));
    }
}

/// The largest books, and texts of the largest size and more.
#[test]
fn large_texts() {
    let random = &mut Random::new(5);
    for counts in [&[5_460][..], &[1, 5_457, 1], &[1; 3_276], &[12; 409]] {
        let tunes = samples::tunes(random, counts);
        let text = plain_text(&tunes);
        let pressed = check_pressing("large_texts.txt", &text);
        assert_eq!(pressed.err, "");
        for len in [LONGEST_TEXT, LONGEST_TEXT + 1, LONGEST_TEXT + 70_000] {
            let mut text = [&text[..], b"#"].concat();
            text.resize(len, b'#');
            let longer = check_pressing("large_texts.txt", &text);
            assert_eq!(longer.err.is_empty(), len == LONGEST_TEXT);
        }
    }
    for byte in *b"\n# t1" {
        for len in [LONGEST_TEXT - 1, LONGEST_TEXT, LONGEST_TEXT + 1, 1_000_000] {
            let pressed = check_pressing("large_texts.txt", &vec![byte; len]);
            let refused = pressed.err == "text refused: more than 131072 bytes\n";
            assert_eq!(refused, len > LONGEST_TEXT);
        }
    }
}

/// A text without anything that could be left out.
fn plain_text(tunes: &Tunes) -> Vec<u8> {
    let mut text = String::new();
    let mut strikes = tunes.strikes.chunks_exact(3);
    for (number, count) in tunes.numbers.iter().zip(&tunes.counts) {
        text += &format!("tune {number}\n");
        for strike in strikes.by_ref().take((*count).into()) {
            text += &format!("{} {} {}\n", strike[0], strike[1], strike[2]);
        }
    }
    text.into_bytes()
}

/// A text that arrives in pieces, with pauses.
#[test]
fn slow_text() {
    let tunes = samples::tunes(&mut Random::new(6), &[3, 2]);
    let large = samples::tunes(&mut Random::new(7), &[5_460]);
    let (small, large) = (plain_text(&tunes), plain_text(&large));
    for (text, size) in [(&small, 1), (&small, 7), (&large, 4_000), (&large, 65_533)] {
        let pieces = text.chunks(size).map(<[u8]>::to_vec).collect();
        let input = pipe(pieces, milliseconds(2));
        expect_pressed(press_book().stdin(input), text, &press(text));
    }
}

/// The same for `press_book` as for the programs that read a book: inputs,
/// arguments and outputs that fail.
#[test]
fn pressing_that_fails() {
    let folder = repository("examples");
    expect_said(press_book().stdin(open(&folder)), CANNOT_READ);
    expect_said(press_book().arg(&folder), CANNOT_READ);
    expect_said(press_book().arg(repository("no/such.txt")), CANNOT_OPEN);
    expect_said(press_book().arg(""), CANNOT_OPEN);
    let closed = r#"exec "$0" <&-"#;
    expect_said(sh(closed).arg(program("press_book")), CANNOT_READ);
    for count in 2..=4 {
        let paths = vec![repository("examples/carol.txt"); count];
        expect_said(press_book().args(paths), "usage: press_book [FILE]\n");
    }
    for text in ["", "tune 1\n1 2 3\n"] {
        let path = file("pressing_that_fails.txt", text.as_bytes());
        let full = File::options().write(true).open("/dev/full");
        let full = full.expect("an output that is always full");
        expect_said(press_book().arg(&path).stdout(full), CANNOT_WRITE);
        let script = r#"exec "$0" "$1" >&-"#;
        let arguments = [&program("press_book"), &path];
        expect_said(sh(script).args(arguments), CANNOT_WRITE);
    }
}

/// A read that fails after some bytes were read.
#[test]
fn text_that_fails_late() {
    for text in [&b"tune 1\n1 2 3\n"[..], b"tune 1", b"x"] {
        let (reader, mut writer) = io::pipe().expect("a pipe");
        set_nonblocking(&reader);
        writer.write_all(text).expect("a pipe with room");
        expect_said(press_book().stdin(reader), CANNOT_READ);
        drop(writer);
    }
}

/// A book is written with one write, and none is made where there is none.
#[test]
fn one_write_of_a_book() {
    let tunes = samples::tunes(&mut Random::new(8), &[5_460]);
    for text in [&plain_text(&tunes)[..], b"tune 1\n1 2 3", b""] {
        assert_eq!(writes(press_book().stdin(piped(text))), [press(text).out]);
    }
    for text in [&b"tune 1"[..], b"x"] {
        let mut command = press_book();
        command.stdin(piped(text)).stderr(Stdio::null());
        assert!(writes(&mut command).is_empty());
    }
}

fn lines(calls: &[Call]) -> String {
    calls.iter().map(|call| call.line() + "\n").collect()
}

/// Runs calls through the program `cases`.
fn check_calls(calls: &[Call]) {
    let input = lines(calls);
    assert!(input.len() <= 131_072, "{} bytes of calls", input.len());
    let output = run(Command::new(program("cases")).stdin(piped(input.as_bytes())));
    assert_eq!(String::from_utf8_lossy(&output.stderr), "");
    let printed = String::from_utf8_lossy(&output.stdout);
    assert_eq!(printed.lines().count(), calls.len());
    for (call, line) in calls.iter().zip(printed.lines()) {
        assert_eq!(line, call.expected().line(), "{}", call.line());
    }
}

#[test]
fn stored_calls() {
    let calls = vectors::calls(STORED);
    let stored = fs::read_to_string(repository("crates/cases/stdin")).expect("stored calls");
    let fresh = stored == lines(&calls);
    assert!(fresh, "crates/cases/stdin is not what `vectors` writes");
    check_calls(&calls);
}

#[test]
fn other_calls() {
    check_calls(&[]);
    for seed in [2, 3] {
        check_calls(&vectors::calls(seed));
    }
    // Bodies with several damaged cards.
    let random = &mut Random::new(3);
    let cards = some_cards(random);
    let call = |_| Call::DamagedCard {
        body: body(random, &cards, 10),
    };
    check_calls(&(0..100).map(call).collect::<Vec<Call>>());
    // About as many cards as the program takes.
    let call = |width| Call::Wear {
        width,
        body: body(random, &cards, 340),
    };
    check_calls(&[0, 1, 2, 8, 63, 64, 65].map(call));
}
