//! Timing calls side by side, in rounds.

use crate::calls::{Answer, By, ALL};
use crate::rows::Rows;
use std::fmt::Debug;
use std::hint::black_box;
use std::time::Instant;

pub fn median(mut xs: Vec<f64>) -> f64 {
    xs.sort_by(f64::total_cmp);
    xs[xs.len() / 2]
}

/// The columns that are timed: library, Rust, C, strongest C, and the yardstick, a call of the library's own on the same rows.
const COLUMNS: usize = 5;
const YARDSTICK: usize = 4;

/// What was measured: the call, what it was called on, the row's shape and length; nanoseconds in each column; the library's time
/// as a share of each other column's; and its time for each symbol as a share of that at the length before. What was not
/// timed is no number.
#[derive(Clone)]
pub struct Measured {
    pub call: String,
    pub on: String,
    pub shape: String,
    pub n: usize,
    pub ns: [f64; COLUMNS],
    pub of: [f64; COLUMNS],
    pub growth: f64,
}

impl Measured {
    pub const HEADER: &str = "call,on,row,length,library_ns,rust_ns,c_ns,strongest_c_ns,yardstick_ns,of_rust,of_c,of_strongest_c,of_yardstick,growth\n";

    pub fn of_rust(&self) -> f64 {
        self.of[By::Rust as usize]
    }

    pub fn of_c(&self) -> f64 {
        self.of[By::C as usize]
    }

    pub fn of_strongest(&self) -> f64 {
        self.of[By::Strong as usize]
    }

    pub fn of_yardstick(&self) -> f64 {
        self.of[YARDSTICK]
    }

    /// Is it about the file of a catalogue?
    pub fn is_on_file(&self) -> bool {
        self.call.contains("catalogue")
    }

    /// Is it about bar notation?
    pub fn is_on_form(&self) -> bool {
        self.call.contains("bars")
    }

    pub fn line(&self) -> String {
        let number = |x: f64, places: usize| if x.is_nan() { String::new() } else { format!("{x:.places$}") };
        let names = [&self.call, &self.on, &self.shape].map(String::clone);
        let ns = self.ns.map(|x| number(x, 1));
        let of = [1, 2, 3, YARDSTICK].map(|column| number(self.of[column], 3));
        let words: Vec<String> = names.into_iter().chain([self.n.to_string()]).chain(ns).chain(of).chain([number(self.growth, 3)]).collect();
        words.join(",") + "\n"
    }

    pub fn of_line(line: &str) -> Measured {
        let words: Vec<&str> = line.split(',').collect();
        let number = |k: usize| words[k].parse().unwrap_or(f64::NAN);
        let [call, on, shape] = [0, 1, 2].map(|k| words[k].to_string());
        let [r, c, s, y] = [9, 10, 11, 12].map(number);
        let n = words[3].parse().expect("a length");
        Measured { call, on, shape, n, ns: [4, 5, 6, 7, 8].map(number), of: [1.0, r, c, s, y], growth: number(13) }
    }
}

/// The medians of several measurements of the same calls, in the same order.
pub fn medians(turns: &[Vec<Measured>]) -> Vec<Measured> {
    let one = |k: usize| {
        let over = |f: &dyn Fn(&Measured) -> f64| median(turns.iter().map(|turn| f(&turn[k])).collect());
        let column = |column: usize| (over(&|m| m.ns[column]), over(&|m| m.of[column]));
        let columns = [0, 1, 2, 3, 4].map(column);
        Measured { ns: columns.map(|c| c.0), of: columns.map(|c| c.1), growth: over(&|m| m.growth), ..turns[0][k].clone() }
    };
    (0..turns[0].len()).map(one).collect()
}

/// Nanoseconds of one of several calls.
fn timed<T>(calls: std::ops::Range<usize>, mut call: impl FnMut(usize) -> T) -> f64 {
    let (began, many) = (Instant::now(), calls.len());
    for k in calls {
        black_box(call(k));
    }
    began.elapsed().as_nanos() as f64 / many as f64
}

/// How many rounds, and how many nanoseconds of calls in each; and what has been measured.
pub struct Bench {
    pub rounds: usize,
    pub batch: f64,
    pub measured: Vec<Measured>,
}

impl Bench {
    /// Times a call by each of the four, and the yardstick, at each length. A call is told who is called, which length, and how many
    /// calls there were. The yardstick, which is the library's code too, has its turn between other columns.
    pub fn add(
        &mut self,
        names: [&str; 2],
        rows: &Rows,
        mut f: impl FnMut(By, usize, usize) -> Answer,
        mut yardstick: impl FnMut(usize, usize) -> Answer,
    ) {
        let call = |column, l, k| if column == YARDSTICK { yardstick(l, k) } else { f(black_box(ALL[column]), l, k) };
        self.measure([names[0], names[1], rows.shape], &rows.lengths, &[0, 1, YARDSTICK, 2, 3], call);
    }

    /// The same of a call that has no yardstick.
    pub fn four<T: PartialEq + Debug>(&mut self, names: [&str; 3], lengths: &[usize], mut f: impl FnMut(By, usize, usize) -> T) {
        self.measure(names, lengths, &[0, 1, 2, 3], |column, l, k| f(black_box(ALL[column]), l, k));
    }

    /// Times an exported function, in the library's column. The yardstick is the inner call.
    pub fn exported(&mut self, names: [&str; 2], rows: &Rows, mut f: impl FnMut(By, usize, usize) -> Answer) {
        self.pair(names, rows, |yardstick, l, k| f(black_box(if yardstick { By::Library } else { By::Exported }), l, k));
    }

    /// Times something of the library's, in its column, and beside it the yardstick.
    pub fn pair(&mut self, names: [&str; 2], rows: &Rows, mut f: impl FnMut(bool, usize, usize) -> Answer) {
        self.measure([names[0], names[1], rows.shape], &rows.lengths, &[0, YARDSTICK], |column, l, k| f(column == YARDSTICK, l, k));
    }

    /// All columns are timed in every round, one after the other, and each share is the median of the shares in the rounds: what
    /// slows the machine down for a while slows all. Whoever meets rows first brings them near for the others, so the columns take
    /// turns in going first. A processor that has just met a row by the same code knows its branches by heart: so no column meets
    /// the rows of a round before it is timed on them, and what they answer is compared behind that.
    fn measure<T: PartialEq + Debug>(
        &mut self,
        names: [&str; 3],
        lengths: &[usize],
        columns: &[usize],
        mut call: impl FnMut(usize, usize, usize) -> T,
    ) {
        let mut once = |l| (0..3).map(|k| timed(0..2, |_| call(0, l, k))).fold(f64::INFINITY, f64::min);
        let once: Vec<f64> = (0..lengths.len()).map(&mut once).collect();
        let mut times = vec![[(); COLUMNS].map(|()| vec![f64::NAN; self.rounds]); lengths.len()];
        for round in 0..self.rounds {
            for l in 0..lengths.len() {
                let batch = (self.batch / once[l].max(50.0)).clamp(1.0, 4_000.0) as usize;
                let calls = round * batch..(round + 1) * batch;
                for &column in columns.iter().cycle().skip(round % columns.len()).take(columns.len()) {
                    times[l][column][round] = timed(calls.clone(), |k| call(column, l, k));
                }
                let said = call(0, l, calls.start);
                for &column in columns.iter().filter(|&&column| column != YARDSTICK) {
                    let says = call(column, l, calls.start);
                    assert!(says == said, "{names:?}: {says:?} and not {said:?}");
                }
            }
        }
        for l in 0..lengths.len() {
            self.tell(names, lengths, l, &times);
        }
    }

    fn tell(&mut self, names: [&str; 3], lengths: &[usize], l: usize, times: &[[Vec<f64>; COLUMNS]]) {
        let share = |f: &dyn Fn(usize) -> f64| median((0..self.rounds).map(f).collect());
        let each = |l: usize, round: usize| times[l][0][round] / lengths[l] as f64;
        let ns = times[l].clone().map(median);
        let of = [0, 1, 2, 3, 4].map(|column| share(&|round| times[l][0][round] / times[l][column][round]));
        let growth = if l == 0 { f64::NAN } else { share(&|round| each(l, round) / each(l - 1, round)) };
        let [call, on, shape] = names.map(str::to_string);
        let measured = Measured { call, on, shape, n: lengths[l], ns, of, growth };
        eprint!("{}", measured.line());
        self.measured.push(measured);
    }
}
