//! Draws lists of edits for edit_cases, and counts what such a list holds.

use crate::rules::{Edit, SetAside, Sheet, MAX_CELL, ROWS, SIZES};
use crate::{edit_from, lines, words};
use std::io::{self, Write};

/// A small deterministic generator.
pub struct Rng(u64);

impl Rng {
    pub fn new(seed: u64) -> Self {
        Rng(seed)
    }

    fn next(&mut self) -> u64 {
        self.0 = self.0.wrapping_add(0x9E37_79B9_7F4A_7C15);
        let mut z = self.0;
        z = (z ^ (z >> 30)).wrapping_mul(0xBF58_476D_1CE4_E5B9);
        z = (z ^ (z >> 27)).wrapping_mul(0x94D0_49BB_1331_11EB);
        z ^ (z >> 31)
    }

    pub fn below(&mut self, bound: u64) -> u64 {
        ((u128::from(self.next()) * u128::from(bound)) >> 64) as u64
    }

    /// From `low` to `high`, both included.
    pub fn range(&mut self, low: i32, high: i32) -> i32 {
        let span = (i64::from(high) - i64::from(low) + 1) as u64;
        (i64::from(low) + self.below(span) as i64) as i32
    }

    pub fn pick<T: Copy>(&mut self, list: &[T]) -> T {
        list[self.below(list.len() as u64) as usize]
    }

    pub fn chance(&mut self, percent: u64) -> bool {
        self.below(100) < percent
    }
}

/// Places of rows and sizes: the ends of the valid ones and what lies beyond.
const PLACES: [i32; 9] = [i32::MIN, -1, 0, 1, 8, 9, 12, 13, i32::MAX];

const AS: [i32; 22] = [
    i32::MIN,
    i32::MIN + 1,
    -100_001,
    -100_000,
    -99_999,
    -30_001,
    -30_000,
    -65_536,
    -2,
    -1,
    0,
    1,
    2,
    29_999,
    30_000,
    30_001,
    65_535,
    65_536,
    99_999,
    100_000,
    100_001,
    i32::MAX,
];

const QS: [i32; 14] = [
    i32::MIN,
    -1_000,
    -2,
    -1,
    0,
    1,
    2,
    999,
    1_000,
    1_001,
    65_536,
    65_537,
    i32::MAX - 1,
    i32::MAX,
];

const KINDS_ABOVE: [u16; 13] = [
    4, 5, 6, 7, 255, 256, 257, 258, 259, 32_769, 32_770, 65_534, 65_535,
];

/// Lines that are no edit. Nearly all would change the sheet if they were taken for one.
const NO_EDITS: [&str; 27] = [
    "",
    "1 1 1 123",
    "1 1 1 123 1 1",
    "1 1 1 x 1",
    "65536 1 1 123 1",
    "1 1 1 2147483648 1",
    "1 1 1 -2147483649 1",
    "1 1  1 123 1",
    "1 1 1 123 1 ",
    "1 1 1 +123 1",
    "1 1 1 - 1",
    "-",
    " 1 1 1 123 1",
    "65537 1 1 123 1",
    "-1 1 1 123 1",
    "1 1 1 4294967419 1",
    "1 1 1 18446744073709551739 1",
    "1 1 1 --123 1",
    "1 1 1 123- 1",
    "1 1 1 12e1 1",
    "1 1 1 0x7b 1",
    "1 1 1 123.0 1",
    "1\t1\t1\t123\t1",
    "1,1,1,123,1",
    "edit 1 1 1 123 1",
    "sheet ",
    "1 1 1 123 2147483648",
];

/// Lines that look odd and are edits all the same: leading zeros, and a minus before nothing.
const ODD_EDITS: [&str; 6] = [
    "1 2 3 00123 0",
    "0001 4 05 6789 1",
    "1 3 4 5432 -0",
    "2 1 6 -0 7",
    "-0 1 1 123 1",
    "1 5 5 0000000000000000000000007777 0",
];

pub fn draw(seed: u64, count: u64, out: &mut impl Write) -> io::Result<()> {
    let mut rng = Rng::new(seed);
    let mut sheet = Sheet::default();
    let mut odd_lines = NO_EDITS.iter().chain(&ODD_EDITS).cycle();
    for drawn in 1..=count {
        let edit = draw_edit(&mut rng, &sheet);
        let Edit {
            kind,
            row,
            size,
            a,
            q,
        } = edit;
        writeln!(out, "{kind} {row} {size} {a} {q}")?;
        sheet.apply(&edit);
        if drawn % 61 == 0 {
            let line = odd_lines.next().expect("an endless list");
            writeln!(out, "{line}")?;
            if let Some(edit) = edit_from(&words(line.as_bytes())) {
                sheet.apply(&edit);
            }
        }
        if drawn % 100 == 0 {
            writeln!(out, "sheet")?;
        }
    }
    Ok(())
}

pub fn draw_edit(rng: &mut Rng, sheet: &Sheet) -> Edit {
    match rng.below(100) {
        0..=13 => set_cell(rng),
        14..=31 => grade(rng, sheet),
        32..=40 => grade_to_edge(rng, sheet, &[0, MAX_CELL]),
        41..=48 => grade_to_edge(rng, sheet, &[-1, MAX_CELL + 1]),
        49..=57 => grade_by_halves(rng, sheet),
        58..=62 => copy_row(rng),
        63..=65 => any_edit(rng, 0),
        66..=70 => Edit {
            kind: kind_above(rng),
            ..valid(rng, sheet)
        },
        71..=77 => misplaced(rng, sheet),
        78..=86 => grade_at_limits(rng, sheet),
        87..=92 => Edit {
            a: edge_a(rng),
            ..set_cell(rng)
        },
        93..=96 => Edit {
            a: edge_place(rng, 1),
            ..copy_row(rng)
        },
        _ => {
            let kind = rng.range(0, 3) as u16;
            any_edit(rng, kind)
        }
    }
}

fn row(rng: &mut Rng) -> i32 {
    rng.range(1, ROWS as i32)
}

fn size(rng: &mut Rng) -> i32 {
    rng.range(1, SIZES as i32)
}

/// A word that the edit's kind ignores.
fn ignored(rng: &mut Rng) -> i32 {
    match rng.below(4) {
        0 => 0,
        1 => rng.pick(&[i32::MIN, i32::MAX]),
        2 => rng.pick(&AS),
        _ => rng.range(i32::MIN, i32::MAX),
    }
}

fn kind_above(rng: &mut Rng) -> u16 {
    if rng.chance(85) {
        rng.pick(&KINDS_ABOVE)
    } else {
        rng.range(4, u16::MAX.into()) as u16
    }
}

/// A place at an edge, or one that looks like `place` when its upper bits are lost.
fn edge_place(rng: &mut Rng, place: i32) -> i32 {
    if rng.chance(70) {
        rng.pick(&PLACES)
    } else {
        place + rng.pick(&[-65_536, -256, 256, 65_536, i32::MIN, 1 << 30])
    }
}

fn edge_a(rng: &mut Rng) -> i32 {
    match rng.below(10) {
        0..=7 => rng.pick(&AS),
        8 => 65_536 * rng.range(-3, 3) + rng.range(0, MAX_CELL),
        _ => rng.range(i32::MIN, i32::MAX),
    }
}

fn edge_q(rng: &mut Rng) -> i32 {
    match rng.below(10) {
        0..=7 => rng.pick(&QS),
        8 => 65_536 * rng.range(-3, 3) + rng.range(1, 1_000),
        _ => rng.range(i32::MIN, i32::MAX),
    }
}

fn valid_q(rng: &mut Rng) -> i32 {
    match rng.below(3) {
        0 => rng.pick(&[1, 2, 3, 4, 5, 999, 1_000]),
        1 => rng.range(1, 20),
        _ => rng.range(1, 1_000),
    }
}

fn set_cell(rng: &mut Rng) -> Edit {
    let a = match rng.below(10) {
        0 => rng.pick(&[0, 1, 29_999, 30_000]),
        1..=2 => rng.range(0, MAX_CELL),
        _ => rng.range(6_000, 24_000),
    };
    Edit {
        kind: 1,
        row: row(rng),
        size: size(rng),
        a,
        q: ignored(rng),
    }
}

fn copy_row(rng: &mut Rng) -> Edit {
    let from = row(rng);
    // Another row, but once in a while the same one.
    let to = if rng.chance(90) {
        (from - 1 + rng.range(1, 7)) % 8 + 1
    } else {
        from
    };
    Edit {
        kind: 3,
        row: to,
        size: ignored(rng),
        a: from,
        q: ignored(rng),
    }
}

fn any_edit(rng: &mut Rng, kind: u16) -> Edit {
    let (row, size) = (row(rng), size(rng));
    Edit {
        kind,
        row: edge_place(rng, row),
        size: edge_place(rng, size),
        a: edge_a(rng),
        q: edge_q(rng),
    }
}

fn valid(rng: &mut Rng, sheet: &Sheet) -> Edit {
    match rng.below(3) {
        0 => set_cell(rng),
        1 => grade(rng, sheet),
        _ => copy_row(rng),
    }
}

/// An edit that would do something, were its row, its size or both not wrong.
fn misplaced(rng: &mut Rng, sheet: &Sheet) -> Edit {
    let mut edit = valid(rng, sheet);
    let wrong = rng.below(5);
    if wrong != 0 {
        if edit.kind == 3 && rng.chance(50) {
            edit.a = edge_place(rng, edit.a);
        } else {
            edit.row = edge_place(rng, edit.row);
        }
    }
    if wrong < 3 && edit.kind != 3 {
        edit.size = edge_place(rng, edit.size);
    }
    edit
}

fn changes(sheet: &Sheet, edit: &Edit) -> bool {
    let mut after = *sheet;
    after.apply(edit);
    after != *sheet
}

/// Tries until an edit changes the sheet; gives up after a while.
fn until_changing(sheet: &Sheet, mut make: impl FnMut() -> Edit) -> Edit {
    let mut edit = make();
    for _ in 0..60 {
        if changes(sheet, &edit) {
            break;
        }
        edit = make();
    }
    edit
}

fn grade(rng: &mut Rng, sheet: &Sheet) -> Edit {
    until_changing(sheet, || {
        let a = match rng.below(4) {
            0 => rng.range(-50, 50),
            1..=2 => rng.range(-3_000, 3_000),
            _ => rng.range(-100_000, 100_000),
        };
        Edit {
            kind: 2,
            row: row(rng),
            size: size(rng),
            a,
            q: valid_q(rng),
        }
    })
}

/// A row's straight line before any check of range, reckoned in wide numbers.
/// `q` is above 0; the edit's row and size exist.
pub fn line(sheet: &Sheet, edit: &Edit) -> [i128; SIZES] {
    let (a, q) = (i128::from(edit.a), i128::from(edit.q));
    let row = &sheet.rows[edit.row as usize - 1];
    let base = i128::from(row[edit.size as usize - 1]);
    std::array::from_fn(|i| {
        let steps = i as i128 + 1 - i128::from(edit.size);
        base + (2 * steps * a + q).div_euclid(2 * q)
    })
}

fn in_range(value: i128) -> bool {
    (0..=i128::from(MAX_CELL)).contains(&value)
}

/// Grading whose first or last size comes to one of the `targets`, all other cells in range.
fn grade_to_edge(rng: &mut Rng, sheet: &Sheet, targets: &[i32]) -> Edit {
    for _ in 0..400 {
        let (row, size) = (row(rng), size(rng));
        let end = rng.pick(&[1, SIZES as i32]);
        if end == size {
            continue;
        }
        let target = rng.pick(targets);
        let way = target - i32::from(sheet.rows[row as usize - 1][size as usize - 1]);
        let q = valid_q(rng);
        let a = (way * q).div_euclid(end - size) + rng.range(-1, 2);
        let edit = Edit {
            kind: 2,
            row,
            size,
            a,
            q,
        };
        if !(-100_000..=100_000).contains(&a) {
            continue;
        }
        let cells = line(sheet, &edit);
        let place = end as usize - 1;
        let others = (0..SIZES)
            .filter(|&i| i != place)
            .all(|i| in_range(cells[i]));
        let useful = target < 0 || target > MAX_CELL || changes(sheet, &edit);
        if cells[place] == i128::from(target) && others && useful {
            return edit;
        }
    }
    grade(rng, sheet)
}

/// Grading with cells that lie exactly half-way (even q), or as near to it as they can (odd q).
fn grade_by_halves(rng: &mut Rng, sheet: &Sheet) -> Edit {
    until_changing(sheet, || {
        let size = if rng.chance(75) {
            rng.range(2, SIZES as i32 - 1)
        } else {
            size(rng)
        };
        let (a, q) = if rng.chance(70) {
            // At an odd number of sizes, or twice, four times that, from the base: a half.
            let part = rng.pick(&[2, 2, 4, 8]);
            let unit = if rng.chance(50) {
                rng.range(1, 5)
            } else {
                rng.range(1, 1_000 / part)
            };
            let limit = (100_000 / unit).min(rng.pick(&[5, 50, 1_500])) / 2;
            (unit * (2 * rng.range(-limit, limit - 1) + 1), unit * part)
        } else {
            let q = 2 * rng.pick(&[1, 2, 3, 7, 49, 200, 499]) + 1;
            let limit = rng.pick(&[2, 20, 90]);
            (q * rng.range(-limit, limit) + q / 2 + rng.range(0, 1), q)
        };
        Edit {
            kind: 2,
            row: row(rng),
            size,
            a,
            q,
        }
    })
}

/// Grading with a, q or both at their limits or beyond.
fn grade_at_limits(rng: &mut Rng, sheet: &Sheet) -> Edit {
    if rng.chance(50) {
        // The line itself lies in range, so that only a or q can be the reason to set it aside.
        for _ in 0..200 {
            let a = rng.pick(&[
                -100_001, -100_000, -99_999, -30_001, 0, 29_999, 30_000, 65_535, 65_536, 99_999,
                100_000, 100_001,
            ]);
            let q = rng.pick(&[1, 999, 1_000, 1_000, 1_000, 1_001]);
            let edit = Edit {
                kind: 2,
                row: row(rng),
                size: size(rng),
                a,
                q,
            };
            if line(sheet, &edit).iter().all(|&value| in_range(value)) {
                return edit;
            }
        }
    }
    let mut edit = grade(rng, sheet);
    let which = rng.below(3);
    if which != 0 {
        edit.a = edge_a(rng);
    }
    if which != 1 {
        edit.q = edge_q(rng);
    }
    edit
}

// ---- counting ----

#[derive(Default)]
struct Counts {
    edits: u32,
    changed: u32,
    unchanged: u32,
    kind_zero: u32,
    set_aside: [u32; 4],
    not_edits: u32,
    sheet_lines: u32,
    kinds: [u32; 5],
    grades_by_base: [u32; SIZES],
    tied_above: [u32; 2],
    tied_below: [u32; 2],
    near_half: u32,
    at_zero: u32,
    at_most: u32,
    one_below: u32,
    one_above: u32,
}

impl Counts {
    fn add_edit(&mut self, sheet: &mut Sheet, edit: &Edit) {
        self.edits += 1;
        self.kinds[usize::from(edit.kind.min(4))] += 1;
        let before = *sheet;
        let outcome = sheet.outcome(edit);
        match outcome {
            Err(reason) => self.set_aside[reason as usize - 1] += 1,
            Ok(None) => self.kind_zero += 1,
            Ok(Some(_)) => {}
        }
        if edit.kind == 2 && (outcome.is_ok() || outcome == Err(SetAside::Range)) {
            self.add_grade(sheet, edit, outcome.is_ok());
        }
        sheet.apply(edit);
        if *sheet != before {
            self.changed += 1;
        } else if matches!(outcome, Ok(Some(_))) {
            self.unchanged += 1;
        }
    }

    fn add_grade(&mut self, sheet: &Sheet, edit: &Edit, applied: bool) {
        let cells = line(sheet, edit);
        let ends = [(1, cells[0]), (SIZES as i32, cells[SIZES - 1])];
        // An end that grading reaches; the base itself stays.
        let reaches = |value: i32| {
            ends.iter()
                .any(|&(s, cell)| s != edit.size && cell == i128::from(value))
        };
        if !applied {
            let outside = cells.iter().filter(|&&cell| !in_range(cell)).count();
            self.one_below += u32::from(outside == 1 && reaches(-1));
            self.one_above += u32::from(outside == 1 && reaches(MAX_CELL + 1));
            return;
        }
        self.grades_by_base[edit.size as usize - 1] += 1;
        if edit.a != 0 {
            self.at_zero += u32::from(reaches(0));
            self.at_most += u32::from(reaches(MAX_CELL));
        }
        let mut tied = [false; 2];
        let mut near = false;
        for s in 1..=SIZES as i32 {
            let way = (s - edit.size) * edit.a;
            let over = (2 * way).rem_euclid(2 * edit.q);
            near |= (over - edit.q).abs() == 1;
            if over == edit.q {
                tied[usize::from(way < 0)] = true;
                self.tied_above[1] += u32::from(way > 0);
                self.tied_below[1] += u32::from(way < 0);
            }
        }
        self.tied_above[0] += u32::from(tied[0]);
        self.tied_below[0] += u32::from(tied[1]);
        self.near_half += u32::from(near && edit.q % 2 == 1 && edit.q > 1);
    }
}

pub fn count(text: &[u8], out: &mut impl Write) -> io::Result<()> {
    let mut counts = Counts::default();
    let mut sheet = Sheet::default();
    for line in lines(text) {
        if line == b"sheet" {
            counts.sheet_lines += 1;
        } else if let Some(edit) = edit_from(&words(line)) {
            counts.add_edit(&mut sheet, &edit);
        } else {
            counts.not_edits += 1;
        }
    }
    let Counts {
        tied_above,
        tied_below,
        ..
    } = counts;
    writeln!(out, "edits                              {}", counts.edits)?;
    writeln!(out, "  of kinds 0, 1, 2, 3, above 3     {:?}", counts.kinds)?;
    writeln!(out, "  changed the sheet                {}", counts.changed)?;
    writeln!(
        out,
        "  wrote what stood there           {}",
        counts.unchanged
    )?;
    writeln!(
        out,
        "  kind 0                           {}",
        counts.kind_zero
    )?;
    writeln!(
        out,
        "  set aside, reasons 1 to 4        {:?}",
        counts.set_aside
    )?;
    writeln!(
        out,
        "lines `sheet`                      {}",
        counts.sheet_lines
    )?;
    writeln!(
        out,
        "lines that are no edit             {}",
        counts.not_edits
    )?;
    writeln!(
        out,
        "applied grades by base size        {:?}",
        counts.grades_by_base
    )?;
    writeln!(out, "grades with an end at 0            {}", counts.at_zero)?;
    writeln!(out, "grades with an end at 30,000       {}", counts.at_most)?;
    writeln!(
        out,
        "set aside only by an end at -1     {}",
        counts.one_below
    )?;
    writeln!(
        out,
        "set aside only by one at 30,001    {}",
        counts.one_above
    )?;
    writeln!(
        out,
        "halves above the base              {} grades, {} cells",
        tied_above[0], tied_above[1]
    )?;
    writeln!(
        out,
        "halves below the base              {} grades, {} cells",
        tied_below[0], tied_below[1]
    )?;
    writeln!(
        out,
        "odd q, as near to a half as can be {} grades",
        counts.near_half
    )
}
