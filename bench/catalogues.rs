//! The catalogues that are read and written, and their files.

use crate::rows::{alphabet, row};

/// What the writer is lent. Arities and rows are numbers as bytes, the low one first.
#[derive(Clone)]
pub struct Catalogue {
    pub arities: Vec<u8>,
    pub numbers: Vec<u32>,
    pub lengths: Vec<u32>,
    pub rows: Vec<u8>,
}

pub fn bytes(list: &[u16]) -> Vec<u8> {
    list.iter().flat_map(|number| number.to_le_bytes()).collect()
}

impl Catalogue {
    pub fn symbols(&self) -> usize {
        self.arities.len() / 2
    }

    /// Its file, laid out without a look at what could be wrong.
    pub fn file(&self) -> Vec<u8> {
        let mut next = (4 + 12 * self.numbers.len() + self.symbols()) as u32;
        let mut file = bytes(&[self.numbers.len() as u16, self.symbols() as u16]);
        for (number, &length) in self.numbers.iter().zip(&self.lengths) {
            file.extend([*number, next, length].iter().flat_map(|wide| wide.to_le_bytes()));
            next = next.wrapping_add(length.wrapping_mul(2));
        }
        file.extend(self.arities.chunks_exact(2).map(|arity| if arity[1] > 0 { 255 } else { arity[0] }));
        file.extend(&self.rows[..self.rows.len() & !1]);
        file
    }
}

/// The shapes of the rows.
pub const SHAPES: [&str; 4] = ["left comb", "chain", "random", "15-ary"];

/// How many symbols the alphabets have: a few, and as many as there may be.
pub const ALPHABETS: [usize; 2] = [5, 1024];

/// An alphabet that has all arities of the shape; the large one has 64 symbols of each.
fn arities(shape: &str, symbols: usize) -> Vec<u16> {
    match (symbols, shape) {
        (5, "15-ary") => vec![0, 1, 2, 3, 15],
        (5, _) => vec![0, 1, 2, 3, 4],
        _ => (0..symbols as u16).map(|s| s % 16).collect(),
    }
}

/// The same tree over another alphabet: symbols of the same arity take turns.
fn recoded(arities: &[u16], row: &[u16]) -> Vec<u16> {
    let same = |arity| (0..arities.len() as u16).filter(|&s| arities[s as usize] == arity).collect();
    let symbols: Vec<Vec<u16>> = (0..16).map(same).collect();
    let recode = |(i, &s): (usize, &u16)| {
        let mine = &symbols[alphabet()[s as usize] as usize];
        mine[37 * i % mine.len()]
    };
    row.iter().enumerate().map(recode).collect()
}

/// How long the rows of so many programmes are: one just as said, of several some are shorter and some longer.
pub fn lengths(programmes: usize, each: usize) -> Vec<usize> {
    if programmes == 1 {
        return vec![each];
    }
    (0..programmes).map(|k| each - 8 + k % 16).collect()
}

pub fn catalogue(shape: &str, symbols: usize, lengths: &[usize], seed: u64) -> Catalogue {
    let arities = arities(shape, symbols);
    let one = |(k, &n): (usize, &usize)| bytes(&recoded(&arities, &row(shape, n, seed + k as u64)));
    Catalogue {
        arities: bytes(&arities),
        numbers: (0..lengths.len() as u32).map(|k| 7 + 893 * k).collect(),
        lengths: lengths.iter().map(|&n| n as u32).collect(),
        rows: lengths.iter().enumerate().flat_map(one).collect(),
    }
}

/// How many programmes the files have, and how many symbols each, or about as many: one of every length, and two that nearly fill the
/// longest file.
pub const SIZES: [(&str, usize, &[usize]); 3] =
    [("one programme", 1, &[16, 256, 1024, 4096, 16384]), ("16 programmes", 16, &[2000]), ("256 programmes", 256, &[120])];

/// The catalogues of one shape over one alphabet that the calls are timed on, with their files; for each length, which is that of all
/// rows together, those that are met one after the other. As with rows, random ones are several.
pub struct Catalogues {
    pub on: String,
    pub shape: &'static str,
    pub lengths: Vec<usize>,
    pub all: Vec<Vec<(Catalogue, Vec<u8>)>>,
}

impl Catalogues {
    pub fn new(shape: &'static str, symbols: usize, (what, programmes, sizes): (&str, usize, &[usize])) -> Catalogues {
        let of = |&each: &usize| {
            let lengths = lengths(programmes, each);
            let many = if shape == "random" { (65_536 / lengths.iter().sum::<usize>()).min(256) } else { 1 };
            let filed = |k| {
                let c = catalogue(shape, symbols, &lengths, 2026 + 1000 * k as u64);
                let file = c.file();
                (c, file)
            };
            (0..many).map(filed).collect()
        };
        let lengths = sizes.iter().map(|&each| lengths(programmes, each).iter().sum()).collect();
        Catalogues { on: format!("{what} over {symbols} symbols"), shape, lengths, all: sizes.iter().map(of).collect() }
    }

    /// For the k-th call at the l-th length.
    pub fn at(&self, l: usize, k: usize) -> &(Catalogue, Vec<u8>) {
        &self.all[l][k % self.all[l].len()]
    }
}
