//! The rules of sheets, edits and machines, written straight from their description.

pub const ROWS: usize = 8;
pub const SIZES: usize = 12;
/// The largest cell, in tenths of a millimetre.
pub const MAX_CELL: i32 = 30_000;
/// The most edits that a machine keeps open.
pub const MAX_OPEN: usize = 16;

const MAX_A: i32 = 100_000;
const MAX_Q: i32 = 1_000;

/// The twelve cells of one measure. Every cell is at most `MAX_CELL`.
pub type Row = [u16; SIZES];

#[derive(Clone, Copy, Debug, Default, PartialEq, Eq)]
pub struct Edit {
    pub kind: u16,
    pub row: i32,
    pub size: i32,
    pub a: i32,
    pub q: i32,
}

/// Why an edit is set aside, the first reason that holds. The discriminants are
/// the numbers of the cases in the rules.
#[derive(Clone, Copy, Debug, PartialEq, Eq)]
pub enum SetAside {
    Kind = 1,
    Place = 2,
    Slope = 3,
    Range = 4,
}

#[derive(Clone, Copy, Debug, Default, PartialEq, Eq)]
pub struct Sheet {
    pub rows: [Row; ROWS],
}

fn row_index(row: i32) -> Option<usize> {
    (1..=ROWS as i32).contains(&row).then(|| row as usize - 1)
}

fn size_index(size: i32) -> Option<usize> {
    (1..=SIZES as i32)
        .contains(&size)
        .then(|| size as usize - 1)
}

fn cell_from(value: i32) -> Option<u16> {
    (0..=MAX_CELL).contains(&value).then_some(value as u16)
}

/// The quotient rounded towards minus infinity; `divisor` is above 0.
fn floor_div(dividend: i32, divisor: i32) -> i32 {
    let quotient = dividend / divisor;
    if dividend % divisor < 0 {
        quotient - 1
    } else {
        quotient
    }
}

/// The row graded from the cell at `at`, or nothing where a cell would leave the range.
/// `a` and `q` have been checked, so every sum here stays far inside 32 bits.
fn graded(row: &Row, at: usize, a: i32, q: i32) -> Option<Row> {
    let base = i32::from(row[at]);
    let mut new = [0; SIZES];
    for (s, cell) in new.iter_mut().enumerate() {
        let steps = s as i32 - at as i32;
        *cell = cell_from(base + floor_div(2 * steps * a + q, 2 * q))?;
    }
    Some(new)
}

impl Sheet {
    /// What the edit would write: the place of the row and its new cells. `None` for
    /// the edit that does nothing, an error for one that is set aside.
    #[inline]
    pub fn outcome(&self, edit: &Edit) -> Result<Option<(usize, Row)>, SetAside> {
        let row = || row_index(edit.row).ok_or(SetAside::Place);
        let size = || size_index(edit.size).ok_or(SetAside::Place);
        match edit.kind {
            0 => Ok(None),
            1 => {
                let (row, size) = (row()?, size()?);
                let mut new = self.rows[row];
                new[size] = cell_from(edit.a).ok_or(SetAside::Range)?;
                Ok(Some((row, new)))
            }
            2 => {
                let (row, size) = (row()?, size()?);
                if !(-MAX_A..=MAX_A).contains(&edit.a) || !(1..=MAX_Q).contains(&edit.q) {
                    return Err(SetAside::Slope);
                }
                let new = graded(&self.rows[row], size, edit.a, edit.q).ok_or(SetAside::Range)?;
                Ok(Some((row, new)))
            }
            3 => {
                let row = row()?;
                let from = row_index(edit.a).ok_or(SetAside::Place)?;
                Ok(Some((row, self.rows[from])))
            }
            _ => Err(SetAside::Kind),
        }
    }

    /// Applies the edit and gives back the row that it replaced, if it wrote one.
    #[inline]
    pub fn apply(&mut self, edit: &Edit) -> Option<Replaced> {
        let (row, new) = self.outcome(edit).ok().flatten()?;
        let cells = std::mem::replace(&mut self.rows[row], new);
        Some(Replaced {
            row: row as u8,
            cells,
        })
    }

    /// The cell at a row and a size, or nothing where there is no such place.
    pub fn cell(&self, row: i32, size: i32) -> Option<u16> {
        Some(self.rows[row_index(row)?][size_index(size)?])
    }
}

/// A row as it stood before an edit wrote over it.
#[derive(Clone, Copy)]
pub struct Replaced {
    row: u8,
    cells: Row,
}

/// A move that a machine cannot make, or a cell that it does not have.
#[derive(Clone, Copy, Debug, PartialEq, Eq)]
pub struct Refusal;

impl Refusal {
    pub const NUMBER: u32 = 15;
}

pub trait Machine {
    fn open() -> Self;
    fn apply(&mut self, edit: Edit) -> Result<(), Refusal>;
    fn undo(&mut self) -> Result<(), Refusal>;
    fn settle(&mut self) -> Result<(), Refusal>;
    fn reset(&mut self);
    /// The cell at a row and a size of the newest sheet.
    fn read(&self, row: i32, size: i32) -> Result<u16, Refusal>;
}

/// At most `MAX_OPEN` values in order of age, in one fixed array.
struct Ring<T> {
    slots: [T; MAX_OPEN],
    oldest: usize,
    len: usize,
}

impl<T: Copy> Ring<T> {
    fn filled_with(blank: T) -> Self {
        Ring {
            slots: [blank; MAX_OPEN],
            oldest: 0,
            len: 0,
        }
    }

    fn is_full(&self) -> bool {
        self.len == MAX_OPEN
    }

    /// Puts a value in as the newest; there must be room.
    fn push(&mut self, value: T) {
        self.slots[(self.oldest + self.len) % MAX_OPEN] = value;
        self.len += 1;
    }

    fn pop_newest(&mut self) -> Option<T> {
        self.len = self.len.checked_sub(1)?;
        Some(self.slots[(self.oldest + self.len) % MAX_OPEN])
    }

    fn pop_oldest(&mut self) -> Option<T> {
        self.len = self.len.checked_sub(1)?;
        let value = self.slots[self.oldest % MAX_OPEN];
        self.oldest = (self.oldest + 1) % MAX_OPEN;
        Some(value)
    }

    fn clear(&mut self) {
        self.len = 0;
    }

    /// From the oldest to the newest.
    fn iter(&self) -> impl Iterator<Item = &T> {
        (self.oldest..self.oldest + self.len).map(|i| &self.slots[i % MAX_OPEN])
    }
}

/// Keeps the newest sheet and, for each open edit, the row that it replaced.
pub struct UndoMachine {
    newest: Sheet,
    replaced: Ring<Option<Replaced>>,
}

impl Machine for UndoMachine {
    fn open() -> Self {
        UndoMachine {
            newest: Sheet::default(),
            replaced: Ring::filled_with(None),
        }
    }

    fn apply(&mut self, edit: Edit) -> Result<(), Refusal> {
        if self.replaced.is_full() {
            return Err(Refusal);
        }
        let replaced = self.newest.apply(&edit);
        self.replaced.push(replaced);
        Ok(())
    }

    fn undo(&mut self) -> Result<(), Refusal> {
        if let Some(old) = self.replaced.pop_newest().ok_or(Refusal)? {
            self.newest.rows[usize::from(old.row)] = old.cells;
        }
        Ok(())
    }

    fn settle(&mut self) -> Result<(), Refusal> {
        self.replaced.pop_oldest().map(drop).ok_or(Refusal)
    }

    fn reset(&mut self) {
        self.newest = Sheet::default();
        self.replaced.clear();
    }

    fn read(&self, row: i32, size: i32) -> Result<u16, Refusal> {
        self.newest.cell(row, size).ok_or(Refusal)
    }
}

/// Keeps the oldest sheet and the open edits.
pub struct ReplayMachine {
    oldest: Sheet,
    edits: Ring<Edit>,
}

impl ReplayMachine {
    fn newest(&self) -> Sheet {
        let mut sheet = self.oldest;
        for edit in self.edits.iter() {
            sheet.apply(edit);
        }
        sheet
    }
}

impl Machine for ReplayMachine {
    fn open() -> Self {
        ReplayMachine {
            oldest: Sheet::default(),
            edits: Ring::filled_with(Edit::default()),
        }
    }

    fn apply(&mut self, edit: Edit) -> Result<(), Refusal> {
        if self.edits.is_full() {
            return Err(Refusal);
        }
        self.edits.push(edit);
        Ok(())
    }

    fn undo(&mut self) -> Result<(), Refusal> {
        self.edits.pop_newest().map(drop).ok_or(Refusal)
    }

    fn settle(&mut self) -> Result<(), Refusal> {
        let edit = self.edits.pop_oldest().ok_or(Refusal)?;
        self.oldest.apply(&edit);
        Ok(())
    }

    fn reset(&mut self) {
        self.oldest = Sheet::default();
        self.edits.clear();
    }

    fn read(&self, row: i32, size: i32) -> Result<u16, Refusal> {
        self.newest().cell(row, size).ok_or(Refusal)
    }
}
