//! durable TAPE BOOK: a host that keeps its word. It reads a delivery from each line of standard
//! input, `serial kind a b c`, and has what it booked on the disk before it answers. BOOK.new and
//! BOOK.lock are its own.

use banlothek::{deliver_kind, redraw, version, Booked, Refusal, VERSION};
use std::fs::{self, File};
use std::io::{self, BufRead, ErrorKind, Read, Write};
use std::os::unix::io::AsRawFd;
use std::path::Path;

const MOST_LINE: usize = 255;

fn main() {
    let names: Vec<_> = std::env::args_os().skip(1).collect();
    let served = match &names[..] {
        [tape, book] if !book.is_empty() => host(tape.as_ref(), book.as_ref()),
        _ => Err("usage: durable TAPE BOOK".into()),
    };
    if let Err(said) = served {
        let _ = writeln!(io::stderr(), "{said}"); // `eprintln!` would panic where this fails
        std::process::exit(1);
    }
}

/// Serves until the input ends. An error is what is to be said of it.
fn host(tape: &Path, book: &Path) -> Result<(), String> {
    if version() != VERSION {
        return Err(format!("the library is version {}, not {VERSION}", version()));
    }
    // The file behind a link is replaced, and the link stays. A name alone gets a folder.
    let book = &fs::canonicalize(book).unwrap_or_else(|_| Path::new(".").join(book));
    let _lock = lock(book)?; // held to the end: one writer for one book
    let tape = read_tape(tape).ok_or("unread tape")?;
    let mut bytes = load(book)?;
    // Over another tape a book can look sound, so all that was booked is drawn again first.
    redraw(&tape, &bytes).map_err(|refusal| format!("unfit: {refusal}"))?;
    Ok(serve(&tape, book, &mut bytes)?)
}

fn serve(tape: &[u64], book: &Path, bytes: &mut [u8]) -> Result<(), &'static str> {
    let (mut input, mut output) = (io::stdin().lock(), io::stdout());
    for number in 1_u64.. {
        let line = next_line(&mut input).map_err(|_| "unread input")?;
        let said = match message(&line) {
            _ if line.is_empty() => break,
            None => format!("unread line {number}"),
            Some((serial, kind, parameters)) => {
                let answer = deliver_kind(tape, bytes, serial, kind, parameters);
                if matches!(answer, Ok(booked) if !booked.copied) {
                    store(book, bytes).map_err(|_| "unwritten")?; // or it gets no answer
                }
                said(serial, answer)
            }
        };
        writeln!(output, "{said}").and_then(|()| output.flush()).map_err(|_| "unwritten answer")?;
        if !line.ends_with(b"\n") {
            break; // what may follow would be the rest of this message, and no line of its own
        }
    }
    Ok(())
}

fn said(serial: u32, answer: Result<Booked, Refusal>) -> String {
    match answer {
        Err(refusal) => format!("refused {}", refusal.number()),
        Ok(it) if it.copied => format!("copy serial {serial} count {} used {}", it.count, it.used),
        Ok(it) => format!("booked serial {serial} count {} used {}", it.count, it.used),
    }
}

/// The next line with its newline; empty at the end of the input. It is read byte by byte, and no
/// more is kept of a long one than shows that it is too long.
fn next_line(input: &mut impl BufRead) -> io::Result<Vec<u8>> {
    let mut line = Vec::new();
    while input.by_ref().take(1).read_until(b'\n', &mut line)? == 1 && !line.ends_with(b"\n") {
        line.truncate(MOST_LINE + 1);
    }
    Ok(line)
}

/// A line's serial, kind and parameters: digits (`parse` takes a + too), one space between two.
fn message(line: &[u8]) -> Option<(u32, u32, [u64; 3])> {
    let line = line.strip_suffix(b"\n").filter(|line| line.len() <= MOST_LINE)?;
    let text = std::str::from_utf8(line).ok()?;
    let number = |digits: &str| digits.parse().ok().filter(|_| !digits.starts_with('+'));
    let numbers: Option<Vec<u64>> = text.split(' ').map(number).collect();
    let [serial, kind, a, b, c]: [u64; 5] = numbers?.try_into().ok()?;
    Some((serial.try_into().ok()?, kind.try_into().ok()?, [a, b, c]))
}

/// Locks a file beside the book, exclusively (2) and without waiting (4). It is never renamed or
/// removed, and the lock ends with the process, however that ends.
fn lock(book: &Path) -> Result<File, &'static str> {
    extern "C" {
        fn flock(fd: i32, operation: i32) -> i32;
    }
    let file = File::options().append(true).create(true).open(beside(book, ".lock"));
    let file = file.map_err(|_| "unwritten")?;
    // SAFETY: flock takes no pointer, and `file` keeps the descriptor open.
    match unsafe { flock(file.as_raw_fd(), 2 | 4) } {
        0 => Ok(file),
        _ => Err("in use"),
    }
}

fn beside(book: &Path, ending: &str) -> std::ffi::OsString {
    [book.as_os_str(), ending.as_ref()].into_iter().collect()
}

/// The bytes of a file, if it can be read and has no more than `most`.
fn read(path: &Path, most: u64) -> Option<Vec<u8>> {
    let mut bytes = Vec::new();
    File::open(path).ok()?.take(most + 1).read_to_end(&mut bytes).ok()?;
    Some(bytes).filter(|bytes| bytes.len() as u64 <= most)
}

/// The words of a tape, lowest byte first, if all are whole.
fn read_tape(tape: &Path) -> Option<Vec<u64>> {
    let bytes = read(tape, 8 * 1_048_576)?;
    bytes.chunks(8).map(|word| Some(u64::from_le_bytes(word.try_into().ok()?))).collect()
}

/// The book's bytes. One is made only where there is none: what can't be read may have bookings.
fn load(book: &Path) -> Result<Vec<u8>, &'static str> {
    if matches!(fs::symlink_metadata(book), Err(error) if error.kind() == ErrorKind::NotFound) {
        store(book, &[0; 65_536]).map_err(|_| "unwritten")?;
    }
    let bytes = read(book, 65_536).ok_or("unread book")?;
    // An earlier run may have been killed between its rename and its sync.
    let synced = File::open(book).and_then(|file| file.sync_all());
    synced.and_then(|()| sync_folder(book)).map(|()| bytes).map_err(|_| "unwritten")
}

/// Replaces the book's file. Cut short at any moment, it leaves the old book or the new one.
fn store(book: &Path, bytes: &[u8]) -> io::Result<()> {
    let next = beside(book, ".new");
    let _ = fs::remove_file(&next); // a leftover, or a link, is not written into
    let mut file = File::options().write(true).create_new(true).open(&next)?;
    file.write_all(bytes)?;
    file.sync_all()?; // else the name could be on the disk before the bytes
    fs::rename(&next, book)?;
    sync_folder(book) // else the old name could come back
}

fn sync_folder(book: &Path) -> io::Result<()> {
    File::open(book.parent().unwrap_or(book))?.sync_all()
}
