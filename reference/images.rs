//! Stores and their images, written straight from their description.

use crate::rules::{Edit, Refusal};

/// The most entries that a store holds.
pub const MAX_ENTRIES: usize = 64;
/// The bytes of a record before its fields: the length and the kind.
pub const HEAD: usize = 4;
/// The opening record's kind and its length.
pub const OPENING: (u16, u16) = (1, 6);
/// An entry's kind and its length.
pub const ENTRY: (u16, u16) = (2, 22);

const MAX_TERM: u32 = 1_000_000;
const MAX_VOTE: u16 = 3;

const TOO_FEW_BYTES: u8 = 21;
const WRONG_LENGTH: u8 = 22;
const UNKNOWN_KIND: u8 = 23;
const WRONG_PLACE: u8 = 24;
const TOO_MANY_ENTRIES: u8 = 25;
const OUT_OF_RANGE: u8 = 26;
const SHORT_BUFFER: u8 = 27;
const NOT_EMPTY: u8 = 28;

#[derive(Clone, Copy, Debug, Default, PartialEq, Eq)]
pub struct Entry {
    pub term: u32,
    pub edit: Edit,
}

/// The first `durable` entries are durable.
#[derive(Clone, Debug, Default, PartialEq, Eq)]
pub struct Store {
    pub term: u32,
    pub vote: u16,
    pub entries: Vec<Entry>,
    pub durable: usize,
}

#[derive(Clone, Copy, Debug, PartialEq, Eq)]
pub enum Reader {
    Field,
    Record,
    Image,
}

/// Why an image is not read. The offset is that of the record's head.
#[derive(Clone, Copy, Debug, PartialEq, Eq)]
pub struct Fault {
    pub number: u8,
    pub offset: usize,
    pub reader: Reader,
}

/// What a record holds.
enum Record {
    Opening { term: u32, vote: u16 },
    Entry(Entry),
}

fn opening_in_range(term: u32, vote: u16) -> bool {
    vote <= MAX_VOTE && term <= MAX_TERM
}

/// `before` is the entry before this one, `highest` the term of the opening record.
fn entry_in_range(entry: &Entry, before: Option<&Entry>, highest: u32) -> bool {
    entry.term != 0
        && before.is_none_or(|before| before.term <= entry.term)
        && entry.term <= highest
}

impl Store {
    pub fn append(&mut self, entry: Entry) -> Result<(), Refusal> {
        if self.entries.len() == MAX_ENTRIES {
            return Err(Refusal);
        }
        self.entries.push(entry);
        Ok(())
    }

    pub fn sync(&mut self) {
        self.durable = self.entries.len();
    }

    fn is_empty(&self) -> bool {
        self.term == 0 && self.vote == 0 && self.entries.is_empty()
    }

    /// Writes the image to the front of the buffer and tells its length, or the number of
    /// the refusal.
    pub fn write(&self, buffer: &mut [u8]) -> Result<usize, u8> {
        let durable = &self.entries[..self.durable];
        let mut in_range = opening_in_range(self.term, self.vote);
        for (i, entry) in durable.iter().enumerate() {
            let before = i.checked_sub(1).map(|i| &durable[i]);
            in_range &= entry_in_range(entry, before, self.term);
        }
        if !in_range {
            return Err(OUT_OF_RANGE);
        }
        let mut image = opening_bytes(self.term, self.vote);
        for entry in durable {
            image.extend(entry_bytes(entry));
        }
        let front = buffer.get_mut(..image.len()).ok_or(SHORT_BUFFER)?;
        front.copy_from_slice(&image);
        Ok(image.len())
    }

    /// Reads an image into this store. A fault leaves the store as it was.
    pub fn read(&mut self, bytes: &[u8]) -> Result<(), Fault> {
        if !self.is_empty() {
            return Err(Fault {
                number: NOT_EMPTY,
                offset: 0,
                reader: Reader::Image,
            });
        }
        *self = image(bytes)?;
        Ok(())
    }
}

fn record_bytes((kind, length): (u16, u16), fields: &[&[u8]]) -> Vec<u8> {
    let mut bytes = Vec::new();
    bytes.extend(length.to_le_bytes());
    bytes.extend(kind.to_le_bytes());
    bytes.extend(fields.concat());
    bytes
}

pub fn opening_bytes(term: u32, vote: u16) -> Vec<u8> {
    record_bytes(OPENING, &[&term.to_le_bytes(), &vote.to_le_bytes()])
}

pub fn entry_bytes(entry: &Entry) -> Vec<u8> {
    let edit = &entry.edit;
    record_bytes(
        ENTRY,
        &[
            &entry.term.to_le_bytes(),
            &edit.kind.to_le_bytes(),
            &edit.row.to_le_bytes(),
            &edit.size.to_le_bytes(),
            &edit.a.to_le_bytes(),
            &edit.q.to_le_bytes(),
        ],
    )
}

/// The kind and the fields of the record whose head begins at `offset`.
fn fields(bytes: &[u8], offset: usize) -> Result<(u16, &[u8]), Fault> {
    let fault = Fault {
        number: TOO_FEW_BYTES,
        offset,
        reader: Reader::Field,
    };
    let (head, rest) = bytes[offset..].split_first_chunk::<HEAD>().ok_or(fault)?;
    let [l0, l1, k0, k1] = *head;
    let length = usize::from(u16::from_le_bytes([l0, l1]));
    let kind = u16::from_le_bytes([k0, k1]);
    Ok((kind, rest.get(..length).ok_or(fault)?))
}

/// The record whose head begins at `offset`, and the offset behind it.
fn record(bytes: &[u8], offset: usize) -> Result<(Record, usize), Fault> {
    let fault = |number| Fault {
        number,
        offset,
        reader: Reader::Record,
    };
    let (kind, fields) = fields(bytes, offset)?;
    let (_, length) = [OPENING, ENTRY]
        .into_iter()
        .find(|&(known, _)| known == kind)
        .ok_or(fault(UNKNOWN_KIND))?;
    if fields.len() != usize::from(length) {
        return Err(fault(WRONG_LENGTH));
    }
    let two = |at: usize| [fields[at], fields[at + 1]];
    let four = |at: usize| [fields[at], fields[at + 1], fields[at + 2], fields[at + 3]];
    let term = u32::from_le_bytes(four(0));
    let record = if kind == OPENING.0 {
        Record::Opening {
            term,
            vote: u16::from_le_bytes(two(4)),
        }
    } else {
        Record::Entry(Entry {
            term,
            edit: Edit {
                kind: u16::from_le_bytes(two(4)),
                row: i32::from_le_bytes(four(6)),
                size: i32::from_le_bytes(four(10)),
                a: i32::from_le_bytes(four(14)),
                q: i32::from_le_bytes(four(18)),
            },
        })
    };
    Ok((record, offset + HEAD + fields.len()))
}

/// The store that the whole image means.
fn image(bytes: &[u8]) -> Result<Store, Fault> {
    let fault = |number, offset| Fault {
        number,
        offset,
        reader: Reader::Image,
    };
    let (first, mut offset) = record(bytes, 0)?;
    let Record::Opening { term, vote } = first else {
        return Err(fault(WRONG_PLACE, 0));
    };
    if !opening_in_range(term, vote) {
        return Err(fault(OUT_OF_RANGE, 0));
    }
    let mut store = Store {
        term,
        vote,
        ..Store::default()
    };
    while offset < bytes.len() {
        let (next, behind) = record(bytes, offset)?;
        let Record::Entry(entry) = next else {
            return Err(fault(WRONG_PLACE, offset));
        };
        if store.entries.len() == MAX_ENTRIES {
            return Err(fault(TOO_MANY_ENTRIES, offset));
        }
        if !entry_in_range(&entry, store.entries.last(), term) {
            return Err(fault(OUT_OF_RANGE, offset));
        }
        store.entries.push(entry);
        offset = behind;
    }
    store.sync();
    Ok(store)
}
