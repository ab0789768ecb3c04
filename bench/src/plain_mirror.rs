//! A table made the same in rows and columns, or with them exchanged, in plain Rust: squares of 16 by 16 are turned by
//! weaving their lines.
use crate::plain::ROW;

const SIDE: usize = 16;

type Square = [[u8; SIDE]; SIDE];

/// Rows and columns exchanged: four times each line of the upper half is woven with its like of the lower half.
#[inline(always)]
fn turned(mut lines: Square) -> Square {
    for _ in 0..4 {
        let mut woven = [[0; SIDE]; SIDE];
        for i in 0..8 {
            let (upper, lower) = (lines[i], lines[i + 8]);
            for k in 0..8 {
                woven[2 * i][2 * k] = upper[k];
                woven[2 * i][2 * k + 1] = lower[k];
                woven[2 * i + 1][2 * k] = upper[k + 8];
                woven[2 * i + 1][2 * k + 1] = lower[k + 8];
            }
        }
        lines = woven;
    }
    lines
}

/// Each entry of the states becomes the greater one of itself and its mirror, of which one is 0 or both are the same.
pub fn mirror(rows: &mut [[u8; ROW]; ROW], states: usize) {
    let squares = states.div_ceil(SIDE).min(ROW / SIDE);
    for i in 0..squares {
        for j in i..squares {
            let mut lines = square(rows, i, j);
            let others = turned(square(rows, j, i));
            for (line, other) in lines.iter_mut().zip(&others) {
                for (entry, mirrored) in line.iter_mut().zip(other) {
                    *entry |= mirrored;
                }
            }
            put(rows, i, j, &lines);
            put(rows, j, i, &turned(lines));
        }
    }
}

/// Rows and columns exchanged.
pub fn transposed(rows: &[[u8; ROW]; ROW]) -> [[u8; ROW]; ROW] {
    let mut exchanged = [[0; ROW]; ROW];
    for i in 0..ROW / SIDE {
        for j in 0..ROW / SIDE {
            put(&mut exchanged, j, i, &turned(square(rows, i, j)));
        }
    }
    exchanged
}

#[inline(always)]
fn square(rows: &[[u8; ROW]; ROW], i: usize, j: usize) -> Square {
    let mut lines = [[0; SIDE]; SIDE];
    for (k, line) in lines.iter_mut().enumerate() {
        *line = rows[SIDE * i + k].as_chunks().0[j];
    }
    lines
}

#[inline(always)]
fn put(rows: &mut [[u8; ROW]; ROW], i: usize, j: usize, lines: &Square) {
    for (k, line) in lines.iter().enumerate() {
        rows[SIDE * i + k].as_chunks_mut().0[j] = *line;
    }
}
