//! The rows of the benchmark, each shape of 256 and of 16,384 symbols, and a single leaf, for the programs that measure the stack. Written
//! to standard output: the number of symbols of the alphabet and that of the row, 32 bits each, then the arities and the row, 16 bits
//! each, the low byte first.
#![allow(dead_code)]

#[path = "../../bench/baseline.rs"]
mod baseline;
#[path = "../../bench/rows.rs"]
mod rows;

use rows::{Rows, CLASS_SHAPES, COLLIDING, SHAPES};
use std::io::{self, Write};

fn put(out: &mut impl Write, arities: &[u16], row: &[u16]) -> io::Result<()> {
    for list in [arities, row] {
        out.write_all(&(list.len() as u32).to_le_bytes())?;
    }
    arities.iter().chain(row).try_for_each(|x| out.write_all(&x.to_le_bytes()))
}

fn main() -> io::Result<()> {
    let mut out = io::BufWriter::new(io::stdout());
    for shape in SHAPES.into_iter().chain(CLASS_SHAPES).chain(COLLIDING) {
        let rows = Rows::new(shape, vec![256, 16384]);
        put(&mut out, &rows.arities, &[0])?;
        (0..2).try_for_each(|l| put(&mut out, &rows.arities, &rows.at(l, 0).row))?;
    }
    out.flush()
}
