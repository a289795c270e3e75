//! Draws a script for images: good images, and images with one fault or several.

use crate::draw::Rng;
use crate::images::{entry_bytes, opening_bytes, Entry, ENTRY, HEAD, MAX_ENTRIES, OPENING};
use crate::rules::Edit;
use std::fmt::Display;
use std::io::{self, Write};

/// Kinds that no record has: neighbours of the two, their bytes swapped, and the ends.
const STRANGE_KINDS: [u16; 6] = [0, 3, 256, 257, 512, 65_535];

const WORDS: [i32; 10] = [
    i32::MIN,
    i32::MIN + 1,
    -65_536,
    -256,
    -1,
    0,
    255,
    65_536,
    i32::MAX - 1,
    i32::MAX,
];

const EDIT_KINDS: [u16; 8] = [0, 1, 2, 3, 4, 255, 256, 65_535];

/// The term of the opening record in most images drawn here; the entries have 10, 20, 30 ...
const HIGHEST: u32 = 700;

/// A record in parts, so that each of them can be wrong by itself.
#[derive(Clone)]
struct Record {
    length: u16,
    kind: u16,
    fields: Vec<u8>,
}

impl Record {
    fn from_bytes(bytes: &[u8]) -> Self {
        Record {
            length: u16::from_le_bytes([bytes[0], bytes[1]]),
            kind: u16::from_le_bytes([bytes[2], bytes[3]]),
            fields: bytes[HEAD..].to_vec(),
        }
    }

    fn opening(term: u32, vote: u16) -> Self {
        Self::from_bytes(&opening_bytes(term, vote))
    }

    fn entry(term: u32, edit: Edit) -> Self {
        Self::from_bytes(&entry_bytes(&Entry { term, edit }))
    }

    fn with_kind(&self, kind: u16) -> Self {
        Record {
            kind,
            ..self.clone()
        }
    }

    /// Says another length, with the same fields.
    fn saying(&self, length: u16) -> Self {
        Record {
            length,
            ..self.clone()
        }
    }

    /// Says another length and has that many bytes of fields.
    fn resized(&self, length: u16) -> Self {
        let mut record = self.saying(length);
        record.fields.resize(length.into(), 0);
        record
    }

    /// Has another term, in either kind. The record keeps its length.
    fn with_term(&self, term: u32) -> Self {
        let mut record = self.clone();
        for (field, byte) in record.fields.iter_mut().zip(term.to_le_bytes()) {
            *field = byte;
        }
        record
    }

    fn bytes(&self) -> Vec<u8> {
        let mut bytes = Vec::new();
        bytes.extend(self.length.to_le_bytes());
        bytes.extend(self.kind.to_le_bytes());
        bytes.extend(&self.fields);
        bytes
    }
}

fn bytes(records: &[Record]) -> Vec<u8> {
    records.iter().flat_map(Record::bytes).collect()
}

/// The records with the one at `place` replaced.
fn replaced(records: &[Record], place: usize, record: Record) -> Vec<Record> {
    let mut records = records.to_vec();
    records[place] = record;
    records
}

/// The records and one more behind them.
fn followed(records: &[Record], record: Record) -> Vec<Record> {
    let mut records = records.to_vec();
    records.push(record);
    records
}

fn append_line(term: u32, edit: &Edit) -> String {
    let Edit {
        kind,
        row,
        size,
        a,
        q,
    } = edit;
    format!("append {term} {kind} {row} {size} {a} {q}")
}

struct Script {
    rng: Rng,
    text: String,
}

impl Script {
    fn line(&mut self, line: impl Display) {
        self.text.push_str(&format!("{line}\n"));
    }

    fn lines(&mut self, lines: &[&str]) {
        for line in lines {
            self.line(line);
        }
    }

    fn say(&mut self, text: &str) {
        self.line(format_args!("say {text}"));
    }

    /// A heading, with an empty line before it.
    fn part(&mut self, text: &str) {
        self.line("say");
        self.say(text);
    }

    fn with_bytes(&mut self, command: &str, bytes: &[u8]) {
        self.text.push_str(command);
        if !bytes.is_empty() {
            self.text.push(' ');
        }
        for byte in bytes {
            self.text.push_str(&format!("{byte:02x}"));
        }
        self.text.push('\n');
    }

    fn read(&mut self, records: &[Record]) {
        self.with_bytes("read", &bytes(records));
    }

    /// Reads the records without their last bytes.
    fn read_short(&mut self, records: &[Record], missing: usize) {
        let bytes = bytes(records);
        self.with_bytes("read", &bytes[..bytes.len() - missing]);
    }

    fn load(&mut self, records: &[Record]) {
        self.with_bytes("load", &bytes(records));
    }

    /// An edit as one might make it.
    fn plain_edit(&mut self) -> Edit {
        let rng = &mut self.rng;
        Edit {
            kind: rng.range(0, 3) as u16,
            row: rng.range(1, 8),
            size: rng.range(1, 12),
            a: rng.range(-500, 12_000),
            q: rng.range(1, 9),
        }
    }

    /// An edit of any words.
    fn wild_edit(&mut self) -> Edit {
        let rng = &mut self.rng;
        Edit {
            kind: rng.pick(&EDIT_KINDS),
            row: rng.pick(&WORDS),
            size: rng.pick(&WORDS),
            a: rng.range(i32::MIN, i32::MAX),
            q: rng.pick(&WORDS),
        }
    }

    fn entry(&mut self, term: u32) -> Record {
        let edit = self.plain_edit();
        Record::entry(term, edit)
    }

    /// An image without fault: the terms of its entries are 10, 20, 30 and so on.
    fn good(&mut self, entries: usize) -> Vec<Record> {
        let mut records = vec![Record::opening(HIGHEST, 2)];
        for i in 1..=entries {
            let entry = self.entry(10 * i as u32);
            records.push(entry);
        }
        records
    }

    /// Appends entries of these terms to the script's own store.
    fn append(&mut self, terms: impl IntoIterator<Item = u32>) {
        for term in terms {
            let edit = self.plain_edit();
            self.line(append_line(term, &edit));
        }
    }
}

pub fn draw(seed: u64, out: &mut impl Write) -> io::Result<()> {
    let mut script = Script {
        rng: Rng::new(seed),
        text: String::new(),
    };
    worked_example(&mut script);
    small_image(&mut script);
    short_images(&mut script);
    each_fault(&mut script);
    ranges(&mut script);
    two_faults_in_a_record(&mut script);
    two_records_at_fault(&mut script);
    most_entries(&mut script);
    trailing_bytes(&mut script);
    extreme_words(&mut script);
    writing(&mut script);
    appending(&mut script);
    loading(&mut script);
    malformed(&mut script);
    chance(&mut script);
    out.write_all(script.text.as_bytes())
}

fn worked_example(script: &mut Script) {
    script.part("The worked example.");
    script.lines(&[
        "clear",
        "set 3 2",
        "append 3 2 1 5 -425 2",
        "sync",
        "show",
        "write 36",
        "reread",
        "read 060001000300000002001600020003000000020001000000050000\
         0057feffff02000000",
    ]);
}

/// Every length and every byte of an image with two entries.
fn small_image(script: &mut Script) {
    script.part("An image with two entries, cut to every length.");
    script.lines(&["clear", "set 770 3"]);
    let mut image = opening_bytes(770, 3);
    for term in [259, 515] {
        let edit = Edit {
            kind: 2,
            row: script.rng.range(i32::MIN, i32::MAX),
            size: script.rng.range(1, 12),
            a: script.rng.range(-40_000, -300),
            q: script.rng.range(2, 1_000),
        };
        script.line(append_line(term, &edit));
        image.extend(entry_bytes(&Entry { term, edit }));
    }
    script.lines(&["sync", "write 62"]);
    for n in (0..=63).chain([4_096, u32::MAX]) {
        script.line(format_args!("cut {n}"));
    }
    script.say("The same image with every byte replaced.");
    for (at, &byte) in image.iter().enumerate() {
        let mut values = vec![0, 1, 255, byte ^ 1];
        values.sort();
        values.dedup();
        values.retain(|&value| value != byte);
        for value in values {
            script.line(format_args!("byte {at} {value}"));
        }
    }
    script.say("A byte where there is none.");
    script.lines(&["byte 62 0", "byte 63 255", "byte 4294967295 1", "reread"]);
}

fn short_images(script: &mut Script) {
    let opening = Record::opening(5, 1);
    let entry = script.entry(5);
    script
        .part("No bytes; an opening record alone; an entry alone; two and three opening records.");
    script.read(&[]);
    script.read(&[opening.clone()]);
    script.read(&[Record::opening(0, 0)]);
    script.read(&[entry.clone()]);
    script.read(&[opening.clone(), opening.clone()]);
    script.read(&[opening.clone(), Record::opening(6, 2)]);
    script.read(&[opening.clone(), opening.clone(), opening.clone()]);
    script.read(&[entry.clone(), opening.clone()]);
    script.read(&[entry.clone(), entry.clone()]);
    script.read(&[opening.clone(), entry.clone(), opening.clone()]);
    script.read(&[opening, entry.clone(), entry]);
    script.say("One to five bytes.");
    for bytes in [
        &[0][..],
        &[6],
        &[6, 0],
        &[6, 0, 1],
        &[255, 255, 255],
        &[0, 0, 0, 0],
        &[0, 0, 1, 0],
        &[0, 0, 2, 0],
        &[255, 255, 255, 255],
        &[1, 0, 1, 0, 0],
        &[1, 0, 2, 0, 0],
        &[0, 0, 1, 0, 0],
    ] {
        script.with_bytes("read", bytes);
    }
}

/// Each fault at the first record, the second, a middle one and the last of nine.
fn each_fault(script: &mut Script) {
    let good = script.good(8);
    let size = |records: &[Record]| bytes(records).len();
    script.part("An image with eight entries, and then each fault at four of its records.");
    script.read(&good);
    for place in [0, 1, 4, 8] {
        let own = &good[place];
        let front = &good[..=place];
        let inside = own.fields.len();
        script.say(&format!(
            "At record {}: cut in the head, cut in the fields, and lengths beyond the end.",
            place + 1
        ));
        for missing in [inside + 3, inside + 1, inside, 1] {
            script.read_short(front, missing);
        }
        let rest = (size(&good) - size(front) + inside) as u16;
        for length in [65_535, rest + 1] {
            script.read(&replaced(&good, place, own.saying(length)));
        }
        script.say("A length that takes in the whole rest.");
        script.read(&replaced(&good, place, own.saying(rest)));
        script.say("Unknown kinds.");
        for kind in STRANGE_KINDS {
            script.read(&replaced(&good, place, own.with_kind(kind)));
        }
        script.say("Wrong lengths, with as many bytes.");
        for length in [
            0,
            own.length - 1,
            own.length + 1,
            28 - own.length,
            own.length + 256,
        ] {
            script.read(&replaced(&good, place, own.resized(length)));
        }
        script.say("A wrong length with the right bytes.");
        script.read(&replaced(&good, place, own.saying(own.length - 1)));
        script.say("A wrong kind for this place.");
        if place == 0 {
            let entry = script.entry(5);
            script.read(&replaced(&good, 0, entry));
            script.read(&good[1..]);
        } else {
            script.read(&replaced(&good, place, good[0].clone()));
            let mut twice = good.clone();
            twice.insert(place, good[0].clone());
            script.read(&twice);
        }
        script.say("Numbers out of range.");
        if place == 0 {
            for (term, vote) in [(HIGHEST, 4), (HIGHEST, 65_535), (1_000_001, 2), (79, 2)] {
                script.read(&replaced(&good, 0, Record::opening(term, vote)));
            }
        } else {
            let before = 10 * (place as u32 - 1);
            let falling = if place == 1 { 0 } else { before - 1 };
            for term in [0, falling, HIGHEST + 1, u32::MAX] {
                script.read(&replaced(&good, place, own.with_term(term)));
            }
            script.say("The term of the one before, and that of the opening record.");
            for term in [before.max(1), HIGHEST] {
                script.read(&replaced(&good, place, own.with_term(term)));
            }
        }
    }
}

fn ranges(script: &mut Script) {
    script.part("Votes and terms of an opening record alone.");
    for vote in [0, 1, 3, 4, 256, 259, 32_768, 65_535] {
        script.read(&[Record::opening(9, vote)]);
    }
    for term in [
        0,
        256,
        65_536,
        1_000_000,
        1_000_001,
        16_777_216,
        0x7fff_ffff,
        0x8000_0000,
        u32::MAX,
    ] {
        script.read(&[Record::opening(term, 0)]);
    }
    script.read(&[Record::opening(1_000_001, 4)]);
    script.say("An opening record's term and one entry's.");
    for (highest, term) in [
        (0, 0),
        (0, 1),
        (1, 0),
        (1, 1),
        (1, 2),
        (255, 256),
        (256, 255),
        (65_535, 65_536),
        (65_536, 65_535),
        (1_000_000, 999_999),
        (1_000_000, 1_000_000),
        (1_000_000, 1_000_001),
        (1_000_000, 0x8000_0000),
        (1_000_000, u32::MAX),
    ] {
        let entry = script.entry(term);
        script.read(&[Record::opening(highest, 1), entry]);
    }
    script.say("Two entries' terms, and then three.");
    for terms in [
        &[1, 1][..],
        &[1, 2],
        &[2, 1],
        &[255, 256],
        &[256, 255],
        &[256, 1],
        &[65_535, 65_536],
        &[65_536, 65_535],
        &[65_536, 1],
        &[1_000_000, 999_999],
        &[3, 0],
        &[2, 3, 2],
        &[2, 3, 1],
        &[2, 2, 2],
        &[3, 2, 3],
        &[1, 3, 0],
        &[1, 2, 1_000_001],
    ] {
        let mut records = vec![Record::opening(1_000_000, 3)];
        for &term in terms {
            let entry = script.entry(term);
            records.push(entry);
        }
        script.read(&records);
    }
}

/// Every two faults that one record can have at once.
fn two_faults_in_a_record(script: &mut Script) {
    let opening = Record::opening(HIGHEST, 1);
    let bad_opening = Record::opening(HIGHEST, 4);
    let good = script.good(2);
    let entry = script.entry(30);
    let fallen = entry.with_term(19);

    script.part("Two faults in the first record: too few bytes, and something else.");
    for kind in [0, 3, 256, 65_535] {
        script.read_short(&[opening.with_kind(kind)], 1);
    }
    script.read(&[opening.saying(7)]);
    script.read(&[opening.saying(65_535)]);
    script.read(&[opening.saying(22)]);
    script.read_short(std::slice::from_ref(&entry), 1);
    script.read_short(std::slice::from_ref(&bad_opening), 1);
    script.say("An unknown kind, and something else.");
    for length in [0, 5, 7, 22] {
        script.read(&[opening.with_kind(3).resized(length)]);
    }
    script.read(&[entry.with_kind(512)]);
    script.read(&[bad_opening.with_kind(257)]);
    script.say("A wrong length, and something else.");
    for length in [0, 6, 21, 23] {
        script.read(&[entry.resized(length)]);
    }
    script.read(&[bad_opening.resized(7)]);
    script.read(&[opening.with_term(1_000_001).resized(5)]);
    script.say("A wrong kind for this place, and a number out of range.");
    script.read(&[entry.with_term(0)]);
    script.read(&[entry.with_term(u32::MAX)]);

    script.say("The same in the last record: too few bytes, and something else.");
    for kind in [0, 3, 512, 65_535] {
        script.read_short(&followed(&good, entry.with_kind(kind)), 1);
    }
    script.read(&followed(&good, entry.saying(23)));
    script.read(&followed(&good, entry.saying(65_535)));
    script.read_short(&followed(&good, entry.resized(21)), 1);
    script.read_short(&followed(&good, opening.clone()), 1);
    script.read_short(&followed(&good, opening.resized(5)), 1);
    script.read_short(&followed(&good, fallen.clone()), 1);
    script.read_short(&followed(&good, entry.with_term(0)), 22);
    script.say("An unknown kind, and something else.");
    for length in [0, 6, 21, 23] {
        script.read(&followed(&good, entry.with_kind(4).resized(length)));
    }
    script.read(&followed(&good, opening.with_kind(256)));
    script.read(&followed(&good, fallen.with_kind(3)));
    script.say("A wrong length, and something else.");
    for length in [0, 5, 7, 22] {
        script.read(&followed(&good, opening.resized(length)));
    }
    script.read(&followed(&good, fallen.resized(21)));
    script.read(&followed(&good, entry.with_term(0).resized(23)));
    script.read(&followed(&good, bad_opening.resized(7)));
    script.say("A wrong kind for this place, and a number out of range.");
    script.read(&followed(&good, bad_opening.clone()));
    script.read(&followed(&good, opening.with_term(1_000_001)));
    script.read(&followed(&good, entry.with_kind(1).resized(6).with_term(0)));
}

/// A fault in the third record and another in the fifth; then the first and the second.
fn two_records_at_fault(script: &mut Script) {
    let good = script.good(5);
    let faulty = |record: &Record| {
        [
            record.with_kind(3),
            record.resized(21),
            good[0].clone(),
            record.with_term(HIGHEST + 1),
        ]
    };
    script.part("Two records at fault: the earlier one is told, whatever the numbers are.");
    for early in faulty(&good[2]) {
        let early = replaced(&good, 2, early);
        for late in faulty(&good[4]) {
            script.read(&replaced(&early, 4, late));
        }
        script.read_short(&early, 1);
        script.read(&replaced(&early, 4, good[4].saying(65_535)));
    }
    script.say("The same, with the first record and the second.");
    let first = [
        good[0].with_kind(0),
        good[0].resized(7),
        good[1].clone(),
        Record::opening(HIGHEST, 4),
        Record::opening(1_000_001, 0),
    ];
    for early in first {
        let early = replaced(&good, 0, early);
        for late in faulty(&good[1]) {
            script.read(&replaced(&early, 1, late));
        }
        script.read_short(&early[..2], 23);
    }
}

fn most_entries(script: &mut Script) {
    let full = script.good(MAX_ENTRIES);
    let entry = script.entry(650);
    script.part("63 entries, 64, 65 and 66.");
    script.read(&full[..MAX_ENTRIES]);
    script.read(&full);
    let over = followed(&full, entry.clone());
    script.read(&over);
    script.read(&followed(&over, entry.clone()));
    script.say("A 65th entry with another fault.");
    for term in [0, 639, HIGHEST + 1] {
        script.read(&followed(&full, entry.with_term(term)));
    }
    for missing in [1, 22, 23, 25] {
        script.read_short(&over, missing);
    }
    script.read(&followed(&full, entry.with_kind(3)));
    script.read(&followed(&full, entry.resized(21)));
    script.read(&followed(&full, entry.saying(23)));
    script.read(&followed(&full, full[0].clone()));
    script.read(&followed(&full, full[0].resized(7)));
    script.say("65 entries with a fault in the 64th, and 66 with one in the last.");
    script.read(&replaced(&over, 64, full[64].with_term(1)));
    script.read(&replaced(&over, 64, full[64].with_kind(256)));
    script.read_short(&followed(&over, entry.clone()), 1);
    script.read(&followed(&over, entry.with_kind(0)));
    script.say("64 entries after an entry instead of an opening record.");
    script.read(&replaced(&over, 0, entry.clone()));
    script.say("One record of the greatest length.");
    script.read(&[entry.resized(65_535)]);
}

fn trailing_bytes(script: &mut Script) {
    script.part("One to four bytes behind the last record, and more.");
    let tails: [&[u8]; 16] = [
        &[0],
        &[255],
        &[0, 0],
        &[22, 0],
        &[0, 0, 0],
        &[22, 0, 2],
        &[255, 255, 255],
        &[0, 0, 0, 0],
        &[0, 0, 1, 0],
        &[0, 0, 2, 0],
        &[6, 0, 1, 0],
        &[22, 0, 2, 0],
        &[255, 255, 255, 255],
        &[0; 26],
        &[1, 0, 3, 0, 0],
        &[6, 0, 1, 0, 0, 0, 0, 0, 0, 0],
    ];
    for entries in [0, 2] {
        let image = bytes(&script.good(entries));
        for tail in tails {
            script.with_bytes("read", &[&image[..], tail].concat());
        }
    }
}

fn extreme_words(script: &mut Script) {
    script.part("Edits of every kind with extreme words.");
    let edit = |kind, row, size, a, q| Edit {
        kind,
        row,
        size,
        a,
        q,
    };
    let mut edits = vec![
        edit(0, i32::MIN, i32::MIN, i32::MIN, i32::MIN),
        edit(3, i32::MAX, i32::MAX, i32::MAX, i32::MAX),
        edit(4, -1, -1, -1, -1),
        edit(65_535, 0, 0, 0, 0),
        edit(1, 1, 256, 65_536, 16_777_216),
        edit(2, i32::MIN, i32::MAX, -1, 0),
    ];
    for _ in 0..6 {
        let edit = script.wild_edit();
        edits.push(edit);
    }
    let mut records = vec![Record::opening(1_000_000, 3)];
    for &edit in &edits {
        script.read(&[Record::opening(7, 0), Record::entry(7, edit)]);
        records.push(Record::entry(1_000_000, edit));
    }
    script.read(&records);
    script.say("The same, written.");
    script.lines(&["clear", "set 1000000 3"]);
    for edit in &edits {
        script.line(append_line(1_000_000, edit));
    }
    script.lines(&["sync", "show", "write 322", "reread"]);
}

fn writing(script: &mut Script) {
    script.part("Writing an empty store.");
    script.line("clear");
    for room in [0, 1, 9, 10, 11, 4_096] {
        script.line(format_args!("write {room}"));
    }
    script.line("reread");
    script.say(
        "Only what is durable is written: none of one, one of two, two of four, four of four.",
    );
    script.lines(&["clear", "set 5 1"]);
    script.append([2]);
    script.lines(&["write 9", "write 10", "write 36", "sync"]);
    script.append([3]);
    script.lines(&["show", "write 35", "write 36", "write 37", "reread", "sync"]);
    script.append([3, 5]);
    for room in [0, 10, 36, 61, 62, 63, 88, 114, 4_096] {
        script.line(format_args!("write {room}"));
    }
    script.lines(&["reread", "sync", "write 113", "write 114", "reread", "show"]);

    script.say("A refused image is not remembered.");
    script.lines(&[
        "set 5 4",
        "write 4096",
        "reread",
        "set 5 1",
        "write 10",
        "reread",
    ]);

    script.say("A vote or a term out of range, with room enough, too little and none.");
    for (term, vote) in [
        (5, 4),
        (5, 256),
        (5, 65_535),
        (1_000_001, 0),
        (u32::MAX, 3),
        (1_000_001, 4),
    ] {
        script.line("clear");
        script.line(format_args!("set {term} {vote}"));
        script.lines(&["write 10", "write 9", "write 0"]);
    }
    script.say("At the ends of the range.");
    for (term, vote) in [(1_000_000, 3), (0, 3), (1_000_000, 0)] {
        script.line("clear");
        script.line(format_args!("set {term} {vote}"));
        script.lines(&["write 9", "write 10"]);
    }

    script.say("Terms of entries out of range: before they are durable, and after.");
    for terms in [
        &[0][..],
        &[7, 0],
        &[7, 6],
        &[7, 8, 7, 9],
        &[10],
        &[8, 9, 10],
        &[u32::MAX],
        &[9, 0, 10],
    ] {
        script.lines(&["clear", "set 9 2"]);
        script.append(terms.iter().copied());
        script.lines(&["write 4096", "sync"]);
        let whole = 10 + 26 * terms.len();
        for room in [whole, whole - 1] {
            script.line(format_args!("write {room}"));
        }
        script.line("show");
    }
    script.say("One durable entry in range, and one out of range that is not durable.");
    script.lines(&["clear", "set 9 2"]);
    script.append([7]);
    script.line("sync");
    script.append([6]);
    script.lines(&[
        "write 36", "write 35", "reread", "sync", "write 36", "write 62", "reread",
    ]);
    script.say("The store's term falls below an entry's, and rises again.");
    script.lines(&["clear", "set 9 2"]);
    script.append([1, 9]);
    script.lines(&[
        "sync", "write 62", "set 8 2", "write 62", "write 61", "set 0 0", "write 62",
    ]);
    script.lines(&["set 10 0", "write 61", "write 62", "reread"]);
}

fn appending(script: &mut Script) {
    script.part("63 entries, 64, and one more.");
    script.lines(&["clear", "set 65 3"]);
    script.append(1..=63);
    script.lines(&["sync", "write 1647", "write 1648"]);
    script.append([64]);
    script.line("write 1648");
    script.append([65]);
    script.lines(&["append 0 65535 -1 -1 -1 -1", "show", "sync", "show"]);
    script.append([65]);
    script.lines(&["write 1673", "write 1674", "write 1675", "reread"]);
    script.lines(&["cut 1673", "cut 1648", "cut 1649", "cut 1651", "cut 1652"]);
    script.lines(&["byte 1648 21", "byte 1648 23", "byte 1650 1", "byte 1650 3"]);
    script.lines(&[
        "byte 1652 0",
        "byte 1652 62",
        "byte 1652 63",
        "byte 1652 65",
    ]);
    script.lines(&[
        "byte 1652 66",
        "byte 1673 127",
        "byte 4 64",
        "byte 4 63",
        "byte 8 4",
    ]);
    script.say("An entry in the middle, at byte 816.");
    for (at, value) in [
        (816, 21),
        (817, 255),
        (818, 0),
        (818, 1),
        (818, 3),
        (819, 1),
        (820, 0),
        (820, 30),
        (820, 31),
        (820, 33),
        (820, 34),
        (820, 66),
    ] {
        script.line(format_args!("byte {at} {value}"));
    }
}

fn loading(script: &mut Script) {
    let good = script.good(2);
    let other = script.good(1);
    let cut = &bytes(&good)[..40];
    let fallen = replaced(&good, 2, good[2].with_term(9));
    let unknown = replaced(&good, 1, good[1].with_kind(7));
    let alone = [Record::opening(0, 0)];

    script.part("Loading into an empty store, and again into the same.");
    script.lines(&["clear", "load", "show"]);
    script.load(&good);
    script.line("show");
    script.load(&good);
    script.load(&other);
    script.lines(&["load", "load 00", "show"]);
    script.say("What was loaded is durable: it is written as it was read.");
    script.lines(&["write 61", "write 62", "reread"]);
    script.append([700]);
    script.lines(&["show", "write 62", "sync", "write 88"]);

    script.say("Bad bytes into an empty store, which stays empty.");
    script.line("clear");
    script.with_bytes("load", cut);
    script.line("show");
    script.load(&fallen);
    script.line("show");
    script.load(&unknown);
    script.line("show");
    script.load(&replaced(&good, 1, good[1].resized(21)));
    script.line("show");
    script.load(&good[1..]);
    script.line("show");
    script.load(&[Record::opening(3, 4)]);
    script.line("show");
    script.load(&other);
    script.line("show");

    for (text, made) in [
        ("Term 0 and vote 0, set.", &["set 0 0"][..]),
        ("Set, and set back.", &["set 8 3", "set 0 0"]),
        ("Term 1.", &["set 1 0"]),
        ("Term 4294967295.", &["set 4294967295 0"]),
        ("Term 256.", &["set 256 0"]),
        ("Vote 1.", &["set 0 1"]),
        ("Vote 65535.", &["set 0 65535"]),
        ("Vote 256.", &["set 0 256"]),
        ("An entry that is not durable.", &["append 0 0 0 0 0 0"]),
        ("A durable entry.", &["append 1 2 3 4 5 6", "sync"]),
        (
            "A term, a vote and entries.",
            &[
                "set 4 2",
                "append 3 1 1 1 1 1",
                "sync",
                "append 4 0 0 0 0 0",
            ],
        ),
        (
            "Cleared after all.",
            &["set 4 2", "append 3 1 1 1 1 1", "clear"],
        ),
    ] {
        script.say(text);
        script.line("clear");
        script.lines(made);
        script.with_bytes("load", cut);
        script.load(&fallen);
        script.line("show");
        script.load(&other);
        script.line("show");
    }

    script.say("An image of an empty store leaves the store empty, so that another can follow.");
    script.line("clear");
    script.load(&alone);
    script.load(&alone);
    script.load(&other);
    script.load(&alone);
    script.line("show");

    script.say("64 entries loaded, one more refused; then 63 loaded and one more taken.");
    let full = script.good(MAX_ENTRIES);
    script.line("clear");
    script.load(&full);
    script.append([700]);
    script.lines(&["write 1673", "clear"]);
    script.load(&followed(&full, full[64].clone()));
    script.line("show");
    script.load(&full[..MAX_ENTRIES]);
    script.append([700, 700]);
    script.lines(&["show", "sync", "write 1674", "clear"]);
}

fn malformed(script: &mut Script) {
    script.part("Lines that are no command; the store and the image stay as they are.");
    script.lines(&[
        "clear",
        "set 3 2",
        "append 3 2 1 5 -425 2",
        "sync",
        "write 36",
    ]);
    script.lines(&[
        "",
        " ",
        "Show",
        "show ",
        " show",
        "show 1",
        "shows",
        "clear 1",
        "clear ",
        "sync 1",
        "reread 1",
        "reread ",
        "saying",
        "Say it",
        "set",
        "set 1",
        "set 1 2 3",
        "set 1 2 ",
        "set 1  2",
        "set 1\t2",
        "set -1 0",
        "set -0 0",
        "set 0 -1",
        "set 0 -0",
        "set +1 0",
        "set 4294967296 0",
        "set 0 65536",
        "set 99999999999999999999999999 0",
        "set 18446744073709551616 0",
        "set x 0",
        "set 0x1 0",
        "set 1.0 0",
        "append",
        "append 3 1 1 1 1",
        "append 3 1 1 1 1 1 1",
        "append 3 1 1 1 1 ",
        "append 4294967296 1 1 1 1 1",
        "append -1 1 1 1 1 1",
        "append 3 65536 1 1 1 1",
        "append 3 -1 1 1 1 1",
        "append 3 -0 1 1 1 1",
        "append 3 1 2147483648 1 1 1",
        "append 3 1 1 -2147483649 1 1",
        "append 3 1 1 1 4294967295 1",
        "append 3 1 1 1 1 --1",
        "append 3 1 1 1 1 -",
        "append 3 1 1 1 1 +1",
        "append 3 1 1 1 1 1-",
        "write",
        "write ",
        "write -1",
        "write -0",
        "write 4097",
        "write 4294967295",
        "write 4294967296",
        "write 36 36",
        "write all",
        "read 0",
        "read 060",
        "read 0g",
        "read 0A",
        "read 06000100030000000A00",
        "read 06 00",
        "read 0x06",
        "read -1",
        "read  06",
        "load 0",
        "load 060",
        "load 0G",
        "load 06 00",
        "cut",
        "cut -1",
        "cut -0",
        "cut 4294967296",
        "cut 1 2",
        "byte",
        "byte 0",
        "byte 0 256",
        "byte 0 -1",
        "byte 0 -0",
        "byte -1 0",
        "byte 4294967296 0",
        "byte 0 0 0",
        "byte 0 ff",
        "show",
        "reread",
    ]);
    script.say("Zeros before a number, and a minus sign before nought.");
    script.lines(&[
        "clear",
        "set 00000000000000000000004 0002",
        "append 03 00002 -0 007 -00425 -2147483648",
        "append 004 65535 2147483647 0000000000000000000000 -1 1",
        "sync",
        "show",
        "write 00062",
        "cut 0061",
        "byte 004 0003",
        "byte 0 006",
    ]);
    script.say("Words of all kinds  after say,   with their spaces: 1 -1 ff not a command");
    script.line("say  two spaces");
}

/// Images with one to three faults that are drawn, and runs of bytes.
fn chance(script: &mut Script) {
    script.part("Images with faults as they come.");
    for _ in 0..50 {
        let entries = script.rng.below(6) as usize;
        let mut records = script.good(entries);
        for _ in 0..=script.rng.below(3) {
            damage(script, &mut records);
        }
        let mut image = bytes(&records);
        match script.rng.below(6) {
            0 => image.truncate(script.rng.below(image.len() as u64 + 1) as usize),
            1 => image.extend([0; 3]),
            _ => {}
        }
        script.with_bytes("read", &image);
    }
    script.say("Bytes as they come.");
    for _ in 0..12 {
        let opening = Record::opening(HIGHEST, 0).bytes();
        let front = script.rng.pick(&[0, 2, 4, 10]);
        let mut image = opening[..front].to_vec();
        for _ in 0..script.rng.below(40) {
            let low = script.rng.below(4) as u8;
            let any = script.rng.below(256) as u8;
            image.push(script.rng.pick(&[0, 0, low, any]));
        }
        script.with_bytes("read", &image);
    }
}

fn damage(script: &mut Script, records: &mut Vec<Record>) {
    let place = script.rng.below(records.len() as u64) as usize;
    let own = records[place].clone();
    records[place] = match script.rng.below(7) {
        0 => own.with_kind(script.rng.pick(&STRANGE_KINDS)),
        1 => own.with_kind(OPENING.0 + ENTRY.0 - own.kind.clamp(1, 2)),
        2 => own.saying(script.rng.pick(&[0, 5, 6, 7, 21, 22, 23, 48, 256, 65_535])),
        3 => own.resized(script.rng.pick(&[0, 5, 6, 7, 21, 22, 23, 48])),
        4 => own.with_term(
            script
                .rng
                .pick(&[0, 1, 9, 15, 29, 700, 701, 1_000_000, u32::MAX]),
        ),
        5 => Record::opening(HIGHEST, script.rng.pick(&[0, 3, 4, 65_535])),
        _ => {
            let edit = script.wild_edit();
            Record::entry(script.rng.pick(&[1, 10, 20, 50, 700]), edit)
        }
    };
}
