//! The rows that the calls are timed on.

use crate::baseline;

/// A pseudo-random number, the same in every run.
struct Random(u64);

impl Random {
    fn below(&mut self, n: usize) -> usize {
        self.0 = self.0.wrapping_mul(6364136223846793005).wrapping_add(1442695040888963407);
        ((self.0 >> 33) as usize) % n
    }
}

/// Symbols of the alphabet: two leaves, then one symbol for each arity from 1 to 15.
pub fn alphabet() -> Vec<u16> {
    let mut a = vec![0, 0];
    a.extend(1..=15);
    a
}

pub const ONE: u16 = 2;
pub const TWO: u16 = 3;
const THREE: u16 = 4;
pub const FIFTEEN: u16 = 16;

/// The same with so many more leaves, symbols of one child, and symbols of two.
const MORE: usize = 335;

fn wide_alphabet() -> Vec<u16> {
    [alphabet(), vec![0; MORE], vec![1; MORE], vec![2; MORE]].concat()
}

/// One of those that are more, of so many children.
fn one_more(children: usize, which: usize) -> u16 {
    (alphabet().len() + children * MORE + which % MORE) as u16
}

/// A row of exactly n symbols: `next` chooses the arity at each place from what is left and what is open; a filler of
/// arity 1 evens out the length.
fn grown(n: usize, mut next: impl FnMut(usize, usize) -> u16) -> Vec<u16> {
    let mut row = Vec::with_capacity(n);
    let mut open = 1;
    while row.len() < n {
        let left = n - row.len();
        let mut s = next(left, open);
        let arity = |s: u16| if s < 2 { 0 } else { s as usize - 1 };
        if open - 1 + arity(s) > left - 1 {
            s = if open < left { ONE } else { 0 };
        }
        if open - 1 + arity(s) == 0 && left > 1 {
            s = if left > 2 { TWO } else { ONE };
        }
        open = open - 1 + arity(s);
        row.push(s);
    }
    row
}

fn full_binary(row: &mut Vec<u16>, n: usize) {
    if n < 3 {
        row.extend(std::iter::repeat(ONE).take(n - 1));
        row.push(0);
        return;
    }
    row.push(TWO);
    full_binary(row, (n - 1) / 2);
    full_binary(row, n - 1 - (n - 1) / 2);
}

/// The same with other symbols at every place.
fn full_binary_of(symbol: &mut impl FnMut(usize) -> u16, row: &mut Vec<u16>, n: usize) {
    if n < 3 {
        row.extend((0..n).rev().map(|children| symbol(children)));
        return;
    }
    row.push(symbol(2));
    full_binary_of(symbol, row, (n - 1) / 2);
    full_binary_of(symbol, row, n - 1 - (n - 1) / 2);
}

/// A symbol over each of the parts and the rest of them, as many as there is room for; a chain evens out the length.
fn strung(n: usize, parts: impl Iterator<Item = Vec<u16>>) -> Vec<u16> {
    let mut row = Vec::with_capacity(n);
    for part in parts {
        if row.len() + part.len() + 2 > n {
            break;
        }
        row.push(TWO);
        row.extend(part);
    }
    row.push(0);
    [vec![ONE; n - row.len()], row].concat()
}

/// A symbol over two leaves, of those that are more.
fn pair(left: usize, right: usize) -> Vec<u16> {
    vec![one_more(2, 0), one_more(0, left), one_more(0, right)]
}

/// In a Fibonacci tree the two children of a symbol are the trees of the two numbers before.
fn fibonacci(row: &mut Vec<u16>, k: usize) {
    if k < 2 {
        return row.push(k as u16);
    }
    row.push(TWO);
    fibonacci(row, k - 1);
    fibonacci(row, k - 2);
}

fn longest_fibonacci(n: usize) -> Vec<u16> {
    let tree = |k| {
        let mut row = Vec::new();
        fibonacci(&mut row, k);
        row
    };
    let row = (1..).map(tree).take_while(|row| row.len() <= n).last().expect("a leaf");
    [vec![ONE; n - row.len()], row].concat()
}

pub fn row(shape: &str, n: usize, seed: u64) -> Vec<u16> {
    let mut random = Random(seed);
    match shape {
        "chain" => grown(n, |_, _| ONE),
        "left comb" => grown(n, |left, open| if open < left / 2 { TWO } else { 0 }),
        "full binary" => {
            let mut row = Vec::new();
            full_binary(&mut row, n);
            row
        }
        "right comb" => grown(n, |_, open| if open < 2 { TWO } else { 0 }),
        "15-ary" => grown(n, |_, open| if open < 2 { FIFTEEN } else { 0 }),
        "random" => grown(n, |_, _| [0, 1, 0, ONE, TWO, THREE, 5][random.below(7)]),
        "repeated blocks" => {
            let size = 60.min(n / 4);
            let blocks = [(); 8].map(|()| grown(size, |_, _| [0, 1, 0, ONE, TWO, THREE, 5][random.below(7)]));
            strung(n, std::iter::from_fn(|| Some(blocks[random.below(8)].clone())))
        }
        // chains that differ in their last symbol only
        "near-equal chains" => {
            let many = 8.min(n / 6);
            strung(n, (0..many).map(|k| [vec![ONE; n / many - 3], vec![one_more(0, k)]].concat()))
        }
        "distinct pairs" => strung(n, (0..).map(|k| pair(37 * k, k + 11 * (k / MORE)))),
        "full binary of random symbols" => {
            let mut row = Vec::new();
            full_binary_of(&mut |children| one_more(children, random.below(MORE)), &mut row, n);
            row
        }
        "symbols in progression" => strung(n, (0..).map(|k| pair(k, k + k / MORE))),
        // leaves first, so that the classes of the pairs' children are each two more than the one before
        "classes in progression" => strung(n, (0..MORE).map(|k| vec![one_more(0, k)]).chain((0..).map(|k| pair(k / MORE, k)))),
        "Fibonacci" => longest_fibonacci(n),
        // both children of every symbol are the same, at each height
        _ => {
            let mut row = vec![ONE];
            full_binary(&mut row, n - 1);
            row
        }
    }
}

/// The lengths that the calls are timed at: 257 beside 256, for a jump where a larger room is taken.
pub const LENGTHS: [usize; 6] = [16, 256, 257, 1024, 4096, 16384];

pub const SHAPES: [&str; 6] = ["left comb", "chain", "full binary", "15-ary", "random", "equal subtrees"];

/// Further ones, for what is done about classes.
pub const CLASS_SHAPES: [&str; 4] = ["right comb", "repeated blocks", "distinct pairs", "full binary of random symbols"];

/// And ones on which a hash of symbols, of classes or of sizes that is too simple makes many subtrees look alike.
pub const COLLIDING: [&str; 4] = ["near-equal chains", "symbols in progression", "classes in progression", "Fibonacci"];

/// A row with its table and its classes.
#[derive(Clone)]
pub struct Programme {
    pub row: Vec<u16>,
    pub table: Vec<u16>,
    pub classes: Vec<u16>,
}

fn programme(arities: &[u16], row: Vec<u16>) -> Programme {
    let (mut table, mut classes) = (vec![0; row.len()], vec![0; row.len()]);
    assert!(baseline::build(arities, &row, &mut table, &mut classes).is_ok(), "a row of {} symbols is no row", row.len());
    Programme { row, table, classes }
}

/// The rows of one shape that a call is timed on, and their alphabet; for each length those that it meets one after the other.
/// Random ones are several, 65,536 symbols in all (256 rows at most): a processor that meets one row again and again learns its
/// branches by heart, and a short row sooner than a long one.
pub struct Rows {
    pub shape: &'static str,
    pub arities: Vec<u16>,
    pub lengths: Vec<usize>,
    pub all: Vec<Vec<Programme>>,
}

impl Rows {
    pub fn new(shape: &'static str, lengths: Vec<usize>) -> Rows {
        let arities = if SHAPES.contains(&shape) { alphabet() } else { wide_alphabet() };
        let of = |&n: &usize| {
            let random = shape.contains("random") || shape == "repeated blocks";
            let many = if random { (65_536 / n).min(256) } else { 1 };
            (0..many).map(|k| programme(&arities, row(shape, n, 2026 + k as u64))).collect()
        };
        Rows { shape, all: lengths.iter().map(of).collect(), arities, lengths }
    }

    /// For the k-th call at the l-th length.
    pub fn at(&self, l: usize, k: usize) -> &Programme {
        &self.all[l][k % self.all[l].len()]
    }

    /// The same with something changed in each.
    pub fn with(&self, change: impl Fn(&mut Programme)) -> Rows {
        let mut all = self.all.clone();
        all.iter_mut().flatten().for_each(change);
        Rows { shape: self.shape, arities: self.arities.clone(), lengths: self.lengths.clone(), all }
    }

    /// Something of each.
    pub fn map<T>(&self, f: impl Fn(&Programme) -> T) -> Vec<Vec<T>> {
        self.all.iter().map(|same| same.iter().map(&f).collect()).collect()
    }
}
