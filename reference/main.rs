//! A second program for the same rules, to judge the first one by.
//!
//!     reference waistband        runs the script on the standard input
//!     reference edit_cases       applies the edits on the standard input
//!     reference draw SEED COUNT  prints a list of edits for edit_cases
//!     reference count            tells what kinds of cases such a list holds
//!     reference stars            checks the worked examples and the machines
//!     reference images           runs the script of stores and images on the standard input
//!     reference draw-images SEED prints a script for images
//!     reference table-run        runs a cluster by the calls on the standard input
//!     reference watch            the same, and checks along the run what every run promises
//!     reference draw-calls SEED COUNT
//!                                prints a list of calls for table-run
//!     reference piles            runs the calls on the standard input on every kind of cluster
//!     reference draw-piles SEED  prints a list of calls for piles
//!     reference ticket-story     tells a story of tickets and their closing
//!     reference compare SEED COUNT PROGRAM
//!                                draws that many lists of calls, compares what the program
//!                                prints for each with what table-run prints, and watches it

mod cluster;
mod compare;
mod draw;
mod draw_calls;
mod draw_images;
mod draw_piles;
mod images;
mod piles;
mod rules;
mod stars;
mod table_run;
mod ticket_story;
mod watch;

use images::{Entry, Fault, Reader, Store, ENTRY, HEAD, OPENING};
use rules::{Edit, Machine, Refusal, ReplayMachine, Sheet, UndoMachine, ROWS, SIZES};
use std::io::{self, BufWriter, Read, Write};
use std::process::ExitCode;

/// How many bytes are printed at once.
const OUT_BYTES: usize = 1 << 16;

fn main() -> ExitCode {
    let args: Vec<String> = std::env::args().skip(1).collect();
    let args: Vec<&str> = args.iter().map(String::as_str).collect();
    let mut out = BufWriter::with_capacity(OUT_BYTES, io::stdout().lock());
    let Some(done) = run(&args, &mut out) else {
        eprintln!(
            "reference waistband | edit_cases | draw SEED COUNT | count | stars | images \
             | draw-images SEED | table-run | watch | draw-calls SEED COUNT \
             | piles | draw-piles SEED | ticket-story | compare SEED COUNT PROGRAM"
        );
        return ExitCode::FAILURE;
    };
    match done.and_then(|good| out.flush().map(|()| good)) {
        Ok(true) => ExitCode::SUCCESS,
        Ok(false) => ExitCode::FAILURE,
        Err(error) => {
            eprintln!("{error}");
            ExitCode::FAILURE
        }
    }
}

/// Runs what the arguments ask for and tells whether nothing was found wrong; nothing where
/// they are not understood.
fn run(args: &[&str], out: &mut impl Write) -> Option<io::Result<bool>> {
    let done = match *args {
        ["watch"] => return Some(input().and_then(|text| watch::watch(&text, out))),
        ["compare", seed, count, program] => {
            let (seed, count) = (seed.parse().ok()?, count.parse().ok()?);
            return Some(compare::compare(seed, count, program, out));
        }
        ["table-run"] => input().and_then(|text| table_run::table_run(&text, out)),
        ["draw-calls", seed, count] => {
            draw_calls::draw(seed.parse().ok()?, count.parse().ok()?, out)
        }
        ["piles"] => input().and_then(|text| piles::piles(&text, out)),
        ["draw-piles", seed] => draw_piles::draw(seed.parse().ok()?, out),
        ["ticket-story"] => ticket_story::ticket_story(out),
        ["waistband"] => input().and_then(|text| waistband(&text, out)),
        ["edit_cases"] => input().and_then(|text| edit_cases(&text, out)),
        ["count"] => input().and_then(|text| draw::count(&text, out)),
        ["stars"] => stars::check(out),
        ["images"] => input().and_then(|text| run_images(&text, out)),
        ["draw-images", seed] => draw_images::draw(seed.parse().ok()?, out),
        ["draw", seed, count] => draw::draw(seed.parse().ok()?, count.parse().ok()?, out),
        _ => return None,
    };
    Some(done.map(|()| true))
}

fn input() -> io::Result<Vec<u8>> {
    let mut text = Vec::new();
    io::stdin().read_to_end(&mut text)?;
    Ok(text)
}

/// The lines of a text. A line feed ends a line; one at the very end opens no further line.
fn lines(text: &[u8]) -> impl Iterator<Item = &[u8]> {
    let body = text.strip_suffix(b"\n").unwrap_or(text);
    let none = text.is_empty();
    body.split(|&byte| byte == b'\n').filter(move |_| !none)
}

/// A number: digits with at most one minus sign before them, nothing else, and from
/// `low` to `high`.
fn number(word: &[u8], low: i64, high: i64) -> Option<i64> {
    let (digits, negative) = match word.strip_prefix(b"-") {
        Some(rest) => (rest, true),
        None => (word, false),
    };
    if digits.is_empty() || !digits.iter().all(u8::is_ascii_digit) {
        return None;
    }
    let size = digits.iter().fold(0i64, |sum, &digit| {
        sum.saturating_mul(10)
            .saturating_add(i64::from(digit - b'0'))
    });
    let value = if negative { -size } else { size };
    (low..=high).contains(&value).then_some(value)
}

fn word32(word: &[u8]) -> Option<i32> {
    number(word, i32::MIN.into(), i32::MAX.into()).map(|value| value as i32)
}

/// The words of a line, one space apart. More spaces make empty words, which are no numbers.
fn words(line: &[u8]) -> Vec<&[u8]> {
    line.split(|&byte| byte == b' ').collect()
}

fn edit_from(words: &[&[u8]]) -> Option<Edit> {
    let &[kind, row, size, a, q] = words else {
        return None;
    };
    Some(Edit {
        kind: number(kind, 0, u16::MAX.into())? as u16,
        row: word32(row)?,
        size: word32(size)?,
        a: word32(a)?,
        q: word32(q)?,
    })
}

// ---- waistband ----

enum Command<'a> {
    Say(&'a [u8]),
    Edit(Edit),
    Undo,
    Settle,
    Reset,
    Show,
    Cell(i32, i32),
    Mark,
    Same,
    Seam(i32, i32),
}

fn command(line: &[u8]) -> Option<Command<'_>> {
    if let Some(text) = line.strip_prefix(b"say ") {
        return Some(Command::Say(text));
    }
    let words = words(line);
    let (&name, rest) = words.split_first()?;
    match (name, rest) {
        (b"say", []) => Some(Command::Say(b"")),
        (b"edit", rest) => edit_from(rest).map(Command::Edit),
        (b"undo", []) => Some(Command::Undo),
        (b"settle", []) => Some(Command::Settle),
        (b"reset", []) => Some(Command::Reset),
        (b"show", []) => Some(Command::Show),
        (b"cell", &[row, size]) => Some(Command::Cell(word32(row)?, word32(size)?)),
        (b"mark", []) => Some(Command::Mark),
        (b"same", []) => Some(Command::Same),
        (b"seam", &[first, second]) => Some(Command::Seam(word32(first)?, word32(second)?)),
        _ => None,
    }
}

fn waistband(script: &[u8], out: &mut impl Write) -> io::Result<()> {
    writeln!(out, "machine: undo")?;
    run_script::<UndoMachine>(script, out)?;
    writeln!(out, "machine: replay")?;
    run_script::<ReplayMachine>(script, out)
}

fn run_script<M: Machine>(script: &[u8], out: &mut impl Write) -> io::Result<()> {
    let mut machine = M::open();
    let mut marked = Sheet::default();
    for line in lines(script) {
        let Some(command) = command(line) else {
            writeln!(out, "not a command")?;
            continue;
        };
        let answer = match command {
            Command::Say(text) => {
                out.write_all(text)?;
                writeln!(out)?;
                Ok(())
            }
            Command::Edit(edit) => machine.apply(edit),
            Command::Undo => machine.undo(),
            Command::Settle => machine.settle(),
            Command::Reset => {
                machine.reset();
                Ok(())
            }
            Command::Show => {
                write_table(&newest(&machine), out)?;
                Ok(())
            }
            Command::Cell(row, size) => match machine.read(row, size) {
                Ok(cell) => {
                    writeln!(out, "{}", millimetres(cell.into()))?;
                    Ok(())
                }
                Err(refusal) => Err(refusal),
            },
            Command::Mark => {
                marked = newest(&machine);
                Ok(())
            }
            Command::Same => {
                match differing_cells(&newest(&machine), &marked) {
                    0 => writeln!(out, "every cell is what it was")?,
                    n => writeln!(out, "{n} cells differ")?,
                }
                Ok(())
            }
            Command::Seam(first, second) => match seam(&machine, first, second) {
                Ok(differences) => {
                    write_line("   size", (1..=SIZES).map(|size| size.to_string()), out)?;
                    write_line("   seam", differences.iter().map(|&d| millimetres(d)), out)?;
                    Ok(())
                }
                Err(refusal) => Err(refusal),
            },
        };
        if answer == Err(Refusal) {
            writeln!(out, "refused {}", Refusal::NUMBER)?;
        }
    }
    Ok(())
}

/// The newest sheet of a machine, read cell by cell.
fn newest(machine: &impl Machine) -> Sheet {
    let mut sheet = Sheet::default();
    for (row, cells) in (1..).zip(&mut sheet.rows) {
        for (size, cell) in (1..).zip(cells) {
            *cell = machine.read(row, size).expect("a cell of the sheet");
        }
    }
    sheet
}

fn differing_cells(left: &Sheet, right: &Sheet) -> usize {
    let (left, right) = (left.rows.iter().flatten(), right.rows.iter().flatten());
    left.zip(right).filter(|(l, r)| l != r).count()
}

fn seam(machine: &impl Machine, first: i32, second: i32) -> Result<[i32; SIZES], Refusal> {
    let mut differences = [0; SIZES];
    for (size, difference) in (1..).zip(&mut differences) {
        let (first, second) = (machine.read(first, size)?, machine.read(second, size)?);
        *difference = i32::from(first) - i32::from(second);
    }
    Ok(differences)
}

/// Tenths of a millimetre as millimetres with one decimal.
fn millimetres(tenths: i32) -> String {
    let sign = if tenths < 0 { "-" } else { "" };
    let tenths = tenths.unsigned_abs();
    format!("{sign}{}.{}", tenths / 10, tenths % 10)
}

/// One line of a table: its head, then the columns, each right-aligned in 8.
fn write_line(
    head: &str,
    columns: impl Iterator<Item = String>,
    out: &mut impl Write,
) -> io::Result<()> {
    write!(out, "{head}")?;
    for column in columns {
        write!(out, "{column:>8}")?;
    }
    writeln!(out)
}

fn write_table(sheet: &Sheet, out: &mut impl Write) -> io::Result<()> {
    write_line("measure", (1..=SIZES).map(|size| size.to_string()), out)?;
    for (number, row) in (1..).zip(&sheet.rows) {
        let head = format!("{number:>7}");
        write_line(&head, row.iter().map(|&cell| millimetres(cell.into())), out)?;
    }
    Ok(())
}

// ---- edit_cases ----

fn edit_cases(text: &[u8], out: &mut impl Write) -> io::Result<()> {
    let mut sheet = Sheet::default();
    for line in lines(text) {
        if line == b"sheet" {
            write_rows(&sheet, 0..ROWS, out)?;
        } else if let Some(edit) = edit_from(&words(line)) {
            let before = sheet;
            sheet.apply(&edit);
            let changed = (0..ROWS).filter(|&row| sheet.rows[row] != before.rows[row]);
            if sheet == before {
                writeln!(out, "same")?;
            } else {
                write_rows(&sheet, changed, out)?;
            }
        } else {
            writeln!(out, "not an edit")?;
        }
    }
    Ok(())
}

/// The rows at these places on one line, in tenths of a millimetre.
fn write_rows(
    sheet: &Sheet,
    places: impl Iterator<Item = usize>,
    out: &mut impl Write,
) -> io::Result<()> {
    for (i, place) in places.enumerate() {
        if i > 0 {
            write!(out, "; ")?;
        }
        write!(out, "{}:", place + 1)?;
        for cell in &sheet.rows[place] {
            write!(out, " {cell}")?;
        }
    }
    writeln!(out)
}

// ---- images ----

/// The most bytes of a buffer to write into.
const MAX_ROOM: u32 = 4_096;
/// What stands in a buffer before anything is written.
const UNTOUCHED: u8 = 255;

enum ImageCommand<'a> {
    Say(&'a [u8]),
    Clear,
    Set(u32, u16),
    Append(Entry),
    Sync,
    Show,
    Write(usize),
    Read(Vec<u8>),
    Reread,
    Cut(usize),
    Byte(usize, u8),
    Load(Vec<u8>),
}

/// Digits and nothing else, for a number from 0 to `high`.
fn natural(word: &[u8], high: u32) -> Option<u32> {
    if word.starts_with(b"-") {
        return None;
    }
    number(word, 0, high.into()).map(|value| value as u32)
}

/// One or more pairs of hexadecimal digits, the letters small.
fn bytes_from(word: &[u8]) -> Option<Vec<u8>> {
    let digit = |byte: u8| match byte {
        b'0'..=b'9' => Some(byte - b'0'),
        b'a'..=b'f' => Some(byte - b'a' + 10),
        _ => None,
    };
    if word.is_empty() {
        return None;
    }
    let pairs = word.chunks(2).map(|pair| match *pair {
        [high, low] => Some(digit(high)? << 4 | digit(low)?),
        _ => None,
    });
    pairs.collect()
}

fn entry_from(words: &[&[u8]]) -> Option<Entry> {
    let (term, edit) = words.split_first()?;
    // The kind is no word of the edit: no minus sign may stand before it.
    natural(edit.first()?, u16::MAX.into())?;
    Some(Entry {
        term: natural(term, u32::MAX)?,
        edit: edit_from(edit)?,
    })
}

fn image_command(line: &[u8]) -> Option<ImageCommand<'_>> {
    if let Some(text) = line.strip_prefix(b"say ") {
        return Some(ImageCommand::Say(text));
    }
    let words = words(line);
    let (&name, rest) = words.split_first()?;
    let command = match (name, rest) {
        (b"say", []) => ImageCommand::Say(b""),
        (b"clear", []) => ImageCommand::Clear,
        (b"set", &[term, vote]) => ImageCommand::Set(
            natural(term, u32::MAX)?,
            natural(vote, u16::MAX.into())? as u16,
        ),
        (b"append", rest) => ImageCommand::Append(entry_from(rest)?),
        (b"sync", []) => ImageCommand::Sync,
        (b"show", []) => ImageCommand::Show,
        (b"write", &[room]) => ImageCommand::Write(natural(room, MAX_ROOM)? as usize),
        (b"read", []) => ImageCommand::Read(Vec::new()),
        (b"read", &[bytes]) => ImageCommand::Read(bytes_from(bytes)?),
        (b"reread", []) => ImageCommand::Reread,
        (b"cut", &[n]) => ImageCommand::Cut(natural(n, u32::MAX)? as usize),
        (b"byte", &[at, value]) => ImageCommand::Byte(
            natural(at, u32::MAX)? as usize,
            natural(value, u8::MAX.into())? as u8,
        ),
        (b"load", []) => ImageCommand::Load(Vec::new()),
        (b"load", &[bytes]) => ImageCommand::Load(bytes_from(bytes)?),
        _ => return None,
    };
    Some(command)
}

fn run_images(script: &[u8], out: &mut impl Write) -> io::Result<()> {
    let mut store = Store::default();
    // The image last written.
    let mut remembered = Vec::new();
    for line in lines(script) {
        let Some(command) = image_command(line) else {
            writeln!(out, "not a command")?;
            continue;
        };
        match command {
            ImageCommand::Say(text) => {
                out.write_all(text)?;
                writeln!(out)?;
            }
            ImageCommand::Clear => store = Store::default(),
            ImageCommand::Set(term, vote) => (store.term, store.vote) = (term, vote),
            ImageCommand::Append(entry) => {
                if store.append(entry) == Err(Refusal) {
                    writeln!(out, "refused {}", Refusal::NUMBER)?;
                }
            }
            ImageCommand::Sync => store.sync(),
            ImageCommand::Show => write_store(&store, out)?,
            ImageCommand::Write(room) => {
                if let Some(image) = write_image(&store, room, out)? {
                    remembered = image;
                }
            }
            ImageCommand::Read(bytes) => write_read(&mut Store::default(), &bytes, out)?,
            ImageCommand::Reread => write_read(&mut Store::default(), &remembered, out)?,
            ImageCommand::Cut(n) => {
                let front = remembered.get(..n).unwrap_or(&remembered);
                write_read(&mut Store::default(), front, out)?;
            }
            ImageCommand::Byte(at, value) => {
                let mut bytes = remembered.clone();
                if let Some(byte) = bytes.get_mut(at) {
                    *byte = value;
                }
                write_read(&mut Store::default(), &bytes, out)?;
            }
            ImageCommand::Load(bytes) => write_read(&mut store, &bytes, out)?,
        }
    }
    Ok(())
}

fn write_store(store: &Store, out: &mut impl Write) -> io::Result<()> {
    let (term, vote, durable) = (store.term, store.vote, store.durable);
    let length = store.entries.len();
    writeln!(out, "term {term} vote {vote} durable {durable} of {length}")?;
    for (number, Entry { term, edit }) in (1..).zip(&store.entries) {
        let Edit {
            kind,
            row,
            size,
            a,
            q,
        } = edit;
        writeln!(out, "{number}: {term} {kind} {row} {size} {a} {q}")?;
    }
    Ok(())
}

/// Reads the bytes into the store and tells what was read, or the fault.
fn write_read(store: &mut Store, bytes: &[u8], out: &mut impl Write) -> io::Result<()> {
    let Err(fault) = store.read(bytes) else {
        return write_store(store, out);
    };
    let Fault {
        number,
        offset,
        reader,
    } = fault;
    let reader = match reader {
        Reader::Field => "field",
        Reader::Record => "record",
        Reader::Image => "image",
    };
    writeln!(out, "fault {number} at {offset} by {reader}")
}

/// Writes the store's image into a buffer of that room, and gives the image that was written.
fn write_image(store: &Store, room: usize, out: &mut impl Write) -> io::Result<Option<Vec<u8>>> {
    let mut buffer = vec![UNTOUCHED; room];
    let answer = store.write(&mut buffer);
    let (image, behind) = buffer.split_at(answer.unwrap_or(0));
    match answer {
        Ok(length) => {
            let (opening, entries) = image.split_at(HEAD + usize::from(OPENING.1));
            let entries = entries.chunks(HEAD + usize::from(ENTRY.1));
            for record in std::iter::once(opening).chain(entries) {
                let bytes: Vec<String> = record.iter().map(|byte| format!("{byte:02x}")).collect();
                writeln!(out, "{}", bytes.join(" "))?;
            }
            writeln!(out, "{length} bytes")?;
        }
        Err(number) => writeln!(out, "refused {number}")?,
    }
    if behind.iter().any(|&byte| byte != UNTOUCHED) {
        writeln!(out, "the buffer changed")?;
    }
    Ok(answer.is_ok().then(|| image.to_vec()))
}
