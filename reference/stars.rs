//! Checks the worked examples, the grading sum, and the machines beside a plain list of states.

use crate::draw::{line, Rng};
use crate::rules::{
    Edit, Machine, Refusal, ReplayMachine, SetAside, Sheet, UndoMachine, MAX_CELL, ROWS, SIZES,
};
use std::io::{self, Write};

pub fn check(out: &mut impl Write) -> io::Result<()> {
    starred();
    writeln!(out, "the worked examples hold")?;
    grading();
    writeln!(out, "grading is the nearest whole tenth, a half going up")?;
    machines::<UndoMachine>();
    writeln!(out, "the undo machine moves like a list of states")?;
    machines::<ReplayMachine>();
    writeln!(out, "the replay machine moves like a list of states")
}

fn any_sheet(rng: &mut Rng) -> Sheet {
    let mut sheet = Sheet::default();
    for cell in sheet.rows.iter_mut().flatten() {
        *cell = rng.range(0, MAX_CELL) as u16;
    }
    sheet
}

fn starred() {
    let mut rng = Rng::new(1);
    let edit = Edit {
        kind: 2,
        row: 1,
        size: 3,
        a: 25,
        q: 2,
    };
    for row in 1..=ROWS as i32 {
        let edit = Edit { row, ..edit };
        let mut sheet = any_sheet(&mut rng);
        sheet.rows[row as usize - 1][2] = 7_000;
        sheet.apply(&edit);
        for (size, cell) in [(3, 7_000), (4, 7_013), (5, 7_025), (2, 6_988), (11, 7_100)] {
            assert_eq!(sheet.cell(row, size), Some(cell));
        }
        let no_step = Edit { q: 0, ..edit };
        for _ in 0..1_000 {
            let mut sheet = any_sheet(&mut rng);
            let before = sheet;
            assert_eq!(sheet.outcome(&no_step), Err(SetAside::Slope));
            sheet.apply(&no_step);
            assert_eq!(sheet, before);
        }
    }
}

/// Holds the sum against what it means: no whole number lies nearer to the straight line,
/// and of two that lie equally near it is the upper one.
fn grading() {
    let mut rng = Rng::new(2);
    for _ in 0..200_000 {
        let mut sheet = any_sheet(&mut rng);
        let limit = rng.pick(&[10, 1_000, 100_000]);
        let q = if rng.below(2) == 0 {
            rng.range(1, 12)
        } else {
            rng.range(1, 1_000)
        };
        let (row, size) = (rng.range(1, ROWS as i32), rng.range(1, SIZES as i32));
        let edit = Edit {
            kind: 2,
            row,
            size,
            a: rng.range(-limit, limit),
            q,
        };
        let cells = line(&sheet, &edit);
        let fits = cells
            .iter()
            .all(|cell| (0..=i128::from(MAX_CELL)).contains(cell));
        let before = sheet;
        let base = i128::from(before.cell(row, size).expect("a cell of the sheet"));
        sheet.apply(&edit);
        for (s, &cell) in (1..).zip(&cells) {
            let way = i128::from((s - size) * edit.a);
            let q = i128::from(q);
            // How far the line lies above the cell, in parts of q: at least -q/2, below q/2.
            let over = way - (cell - base) * q;
            assert!(-q <= 2 * over && 2 * over < q);
            if fits {
                assert_eq!(sheet.cell(row, s).map(i128::from), Some(cell));
            }
        }
        let expected = if fits { Ok(()) } else { Err(SetAside::Range) };
        assert_eq!(before.outcome(&edit).map(drop), expected);
        for other in (0..ROWS).filter(|&r| !fits || r + 1 != row as usize) {
            assert_eq!(sheet.rows[other], before.rows[other]);
        }
    }
}

fn machines<M: Machine>() {
    let mut rng = Rng::new(3);
    let mut machine = M::open();
    // Newest last.
    let mut states = vec![Sheet::default()];
    for step in 0..200_000 {
        // Now mostly growing, now mostly shrinking, so that both ends are met.
        let applying = if step / 50 % 2 == 0 { 75 } else { 30 };
        if rng.below(100) < applying {
            let a = match rng.below(3) {
                0 => rng.range(0, 9),
                1 => rng.range(-300, 300),
                _ => rng.range(-100, 31_000),
            };
            let edit = Edit {
                kind: rng.range(0, 4) as u16,
                row: rng.range(0, 9),
                size: rng.range(0, 13),
                a,
                q: rng.range(0, 9),
            };
            let room = states.len() < 17;
            assert_eq!(
                machine.apply(edit),
                if room { Ok(()) } else { Err(Refusal) }
            );
            if room {
                let mut next = states[states.len() - 1];
                next.apply(&edit);
                states.push(next);
            }
        } else if rng.below(500) == 0 {
            machine.reset();
            states = vec![Sheet::default()];
        } else {
            let open = states.len() > 1;
            let expected = if open { Ok(()) } else { Err(Refusal) };
            if rng.below(2) == 0 {
                assert_eq!(machine.undo(), expected);
                if open {
                    states.pop();
                }
            } else {
                assert_eq!(machine.settle(), expected);
                if open {
                    states.remove(0);
                }
            }
        }
        let newest = &states[states.len() - 1];
        for row in 0..=ROWS as i32 + 1 {
            let size = rng.range(-1, SIZES as i32 + 2);
            assert_eq!(
                machine.read(row, size),
                newest.cell(row, size).ok_or(Refusal)
            );
        }
    }
}
