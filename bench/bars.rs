//! What the calls are held to, and how far each is from it.

use crate::catalogues::{self, SIZES};
use crate::lines::PATTERNS;
use crate::rows::{COLLIDING, LENGTHS, SHAPES};
use crate::timing::Measured;
use std::fmt::Write;

/// What is held: a figure of some lines to at most `most`, or `shortest` on rows of 16 symbols, on rows of `from` symbols or more.
struct Bar {
    what: &'static str,
    most: f64,
    shortest: f64,
    from: usize,
    on: fn(&Measured) -> bool,
    figure: fn(&Measured) -> f64,
}

impl Bar {
    /// The library's time as a share of the strongest C's, on rows of every length.
    fn strongest(what: &'static str, most: f64, on: fn(&Measured) -> bool) -> Bar {
        Bar { what, most, shortest: most.max(1.3), from: 0, on, figure: Measured::of_strongest }
    }

    /// An exported function's time as a share of the inner call's.
    fn exported(what: &'static str, most: f64, shortest: f64, on: fn(&Measured) -> bool) -> Bar {
        Bar { what, most, shortest, from: 0, on, figure: Measured::of_yardstick }
    }

    /// Any other figure, on rows of some length or more.
    fn other(what: &'static str, most: f64, from: usize, on: fn(&Measured) -> bool, figure: fn(&Measured) -> f64) -> Bar {
        Bar { what, most, shortest: most, from, on, figure }
    }

    fn limit(&self, n: usize) -> f64 {
        if n == LENGTHS[0] { self.shortest } else { self.most }
    }

    /// The worst figure over all rows of a length, and its line. Replacements leave a little room below the longest row.
    fn worst<'a>(&self, all: &'a [Measured], n: usize) -> Option<(f64, &'a Measured)> {
        let mine = all.iter().filter(|m| (m.n == n || m.n == n - 8) && (self.on)(m));
        mine.map(|m| ((self.figure)(m), m)).filter(|(figure, _)| !figure.is_nan()).max_by(|a, b| a.0.total_cmp(&b.0))
    }

    fn broken_by(&self, figure: f64, n: usize) -> bool {
        n >= self.from && figure > self.limit(n)
    }

    /// A line of the table: the bar, its limits, and the worst figure in each column, in bold where the bar is broken.
    fn line(&self, columns: &[Column], all: &[Measured]) -> String {
        let limits = match (self.most, self.shortest) {
            (most, _) if most.is_infinite() => "not held".to_string(),
            (most, shortest) if most == shortest => most.to_string(),
            (most, shortest) => format!("{most}; {shortest} at 16"),
        };
        let cell = |&(n, _): &Column| match self.worst(all, n) {
            None => " |".to_string(),
            Some((figure, _)) if self.broken_by(figure, n) => format!(" **{figure:.2}** |"),
            Some((figure, _)) => format!(" {figure:.2} |"),
        };
        format!("| {} | {limits} |{}\n", self.what, columns.iter().map(cell).collect::<String>())
    }
}

/// A column of a table: the length of its rows, or of all rows of a catalogue, and its name.
type Column = (usize, String);

fn rows() -> Vec<Column> {
    LENGTHS.map(|n| (n, n.to_string())).to_vec()
}

fn files() -> Vec<Column> {
    let column = |programmes: usize, each: usize| {
        let name = if programmes == 1 { each.to_string() } else { format!("{programmes} of {each}") };
        (catalogues::lengths(programmes, each).iter().sum(), name)
    };
    SIZES.iter().flat_map(|&(_, programmes, sizes)| sizes.iter().map(move |&each| column(programmes, each))).collect()
}

fn is(m: &Measured, call: &str, on: &str) -> bool {
    m.call == call && m.on == on
}

fn is_short(m: &Measured) -> bool {
    m.on.ends_with("short output")
}

/// Rows of which nearly all subtrees are different, though their symbols are few or their sizes the same.
const DISTINCT: [&str; 3] = ["near-equal chains", "distinct pairs", "full binary of random symbols"];

fn is_build(m: &Measured) -> bool {
    is(m, "build", "accepted")
}

fn is_class_check(m: &Measured) -> bool {
    is(m, "class check", "right classes")
}

fn on_any(m: &Measured, shapes: &[&str]) -> bool {
    shapes.contains(&m.shape.as_str())
}

/// A whole call of the library, with all four versions timed.
fn whole(m: &Measured) -> bool {
    !m.of_rust().is_nan() && !m.is_on_file() && !m.is_on_form()
}

/// The same on bar notation.
fn whole_form(m: &Measured) -> bool {
    !m.of_rust().is_nan() && m.is_on_form()
}

fn beside_the_strongest() -> Vec<Bar> {
    vec![
        Bar::strongest("pass", 1.15, |m| is(m, "pass", "accepted")),
        Bar::strongest("find, rare root or S alone", 1.2, |m| is(m, "find", "rare root") || is(m, "find", "bare S")),
        Bar::strongest("find, common root", 1.5, |m| is(m, "find", "common root")),
        Bar::strongest("find, long fixed stretch", 1.5, |m| is(m, "find", "long fixed stretch")),
        Bar::strongest("find, repeated variables", 1.5, |m| is(m, "find", "repeated variables")),
        Bar::strongest("find on its slowest, repeated leaf", 1.5, |m| is(m, "find on its slowest", "repeated leaf")),
        Bar::strongest("find on its slowest, fixed chain", 1.5, |m| is(m, "find on its slowest", "fixed chain")),
        Bar::strongest("find on its slowest, chain over S", 1.5, |m| is(m, "find on its slowest", "chain over S")),
        Bar::strongest("find, output shorter than the row", f64::INFINITY, |m| m.call == "find" && is_short(m)),
        Bar::strongest("sheet", f64::INFINITY, |m| m.call == "sheet"),
        Bar::strongest("variables", 1.2, |m| m.call == "variables"),
        Bar::strongest("plain matcher", 1.2, |m| m.call == "plain matcher"),
        Bar::strongest("replace", 1.25, |m| m.call.starts_with("replace")),
        Bar::strongest("build", f64::INFINITY, is_build),
        Bar::strongest("class check", 1.15, is_class_check),
    ]
}

fn others() -> Vec<Bar> {
    // a jump shows that more room is taken; not so where the work is another at each length
    let jumps: fn(&Measured) -> bool = |m| {
        let other_work = m.on.contains("fixed") || (m.call == "class check" && m.shape == "equal subtrees");
        m.n == 257 && whole(m) && on_any(m, &SHAPES) && !other_work
    };
    let grows: fn(&Measured) -> bool = |m| m.n >= 16384 - 8 && whole(m) && on_any(m, &SHAPES);
    let chains: fn(&Measured) -> bool = |m| is_class_check(m) && on_any(m, &["repeated blocks", "chain", "near-equal chains", "left comb", "right comb"]);
    let random: fn(&Measured) -> bool = |m| is_class_check(m) && on_any(m, &["random", "full binary of random symbols"]);
    let usual: fn(&Measured) -> bool = |m| is_build(m) && !on_any(m, &DISTINCT) && !on_any(m, &COLLIDING);
    let colliding: fn(&Measured) -> bool = |m| (is_build(m) || is_class_check(m)) && on_any(m, &COLLIDING);
    let yardstick: fn(&Measured) -> f64 = Measured::of_yardstick;
    vec![
        Bar::other("a whole call, of the Rust", 1.0, 4096, whole, Measured::of_rust),
        Bar::other("a whole call, of the plain C", 1.15, 4096, whole, Measured::of_c),
        Bar::other("class check of blocks, chains and combs, of a pass", 1.5, 4096, chains, yardstick),
        Bar::other("class check of random rows and symbols, of a pass", 6.0, 4096, random, yardstick),
        Bar::other("build, of a pass", 12.0, 4096, usual, yardstick),
        Bar::other("build where nearly all subtrees are different, of a pass", 20.0, 4096, |m| is_build(m) && on_any(m, &DISTINCT), yardstick),
        Bar::other("build and class check of rows made to collide, in ms", 5.0, 0, colliding, |m| m.ns[0] / 1e6),
        Bar::other("a wrong class, of a right one, a build and a pass", 1.0, 4096, |m| m.on.contains("wrong"), yardstick),
        Bar::other("find with a rare root, of its checks", 2.5, 4096, |m| is(m, "find", "rare root"), yardstick),
        Bar::other("find with repeated variables, of one with a common root", 1.5, 4096, |m| is(m, "find", "repeated variables"), yardstick),
        Bar::other("find with an output shorter than the row, of find with room", 1.15, 0, is_short, yardstick),
        Bar::other("sheet of 64 rare roots, of 64 finds", 0.2, 16384, |m| is(m, "sheet", "64 rare roots"), |m| m.of_yardstick() / PATTERNS as f64),
        Bar::other("sheet of one pattern, of one find", 1.1, 256, |m| m.call == "sheet" && m.on.starts_with("one"), yardstick),
        Bar::other("sheet of 64 mixed patterns, of the Rust", 1.0, 256, |m| is(m, "sheet", "64 mixed"), Measured::of_rust),
        Bar::other("sheet of 64 mixed patterns, of the plain C", 1.15, 256, |m| is(m, "sheet", "64 mixed"), Measured::of_c),
        Bar::other("sheet searched twice, of one searched once", f64::INFINITY, 4096, |m| is(m, "sheet", "64 searched twice"), yardstick),
        Bar::other("a stale table, of one that is accepted", 3.0, 4096, |m| m.on.contains("stale"), yardstick),
        Bar::other("one replacement, of a build", 2.0, 4096, |m| m.call == "replace and back", |m| m.of_yardstick() / 2.0),
        Bar::other("the whole row replaced, of a build", 2.0, 4096, |m| m.on == "whole row", yardstick),
        Bar::other("pass with 1,024 symbols, of one with 17", 2.0, 0, |m| m.on.starts_with("alphabet"), yardstick),
        Bar::other("time for each symbol, at 257 of that at 256", 1.2, 0, jumps, |m| m.growth),
        Bar::other("time for each symbol, at 16,384 of that at 4,096", 1.25, 4096, grows, |m| m.growth),
    ]
}

fn beside_the_inner_calls() -> Vec<Bar> {
    vec![
        Bar::exported("sparrowhem_build", 1.1, 1.1, |m| m.call == "sparrowhem_build"),
        Bar::exported("sparrowhem_find, rare root", 1.3, 3.0, |m| is(m, "sparrowhem_find", "rare root")),
        Bar::exported("sparrowhem_find, common root", 1.3, 3.0, |m| is(m, "sparrowhem_find", "common root")),
        Bar::exported("sparrowhem_sheet, one pattern", 1.3, 3.0, |m| is(m, "sparrowhem_sheet", "one rare root")),
        Bar::exported("sparrowhem_sheet, 64 patterns", 1.3, 3.0, |m| is(m, "sparrowhem_sheet", "64 rare roots")),
        Bar::exported("sparrowhem_replace, same size", 1.3, 3.0, |m| is(m, "sparrowhem_replace", "same size in the middle")),
        Bar::exported("sparrowhem_replace, grow and shrink", 1.3, 3.0, |m| is(m, "sparrowhem_replace", "grow and shrink in the middle")),
    ]
}

fn on_forms() -> Vec<Bar> {
    let read: fn(&Measured) -> bool = |m| is(m, "bars read", "accepted");
    let write: fn(&Measured) -> bool = |m| is(m, "bars write", "accepted");
    let refused: fn(&Measured) -> bool = |m| m.call == "bars read" && m.on.starts_with("refused");
    let jumps: fn(&Measured) -> bool = |m| m.n == 257 && whole_form(m);
    let grows: fn(&Measured) -> bool = |m| m.n == 16384 && whole_form(m);
    let yardstick: fn(&Measured) -> f64 = Measured::of_yardstick;
    vec![
        Bar::other("reading, of the Rust", 1.0, 256, read, Measured::of_rust),
        Bar::other("reading, of the plain C", 1.15, 256, read, Measured::of_c),
        Bar::other("reading, of the strongest C", f64::INFINITY, 256, read, Measured::of_strongest),
        Bar::other("reading, of a pass over the row", f64::INFINITY, 256, read, yardstick),
        Bar::other("reading refused for a root that is not closed, of reading", 2.0, 0, refused, yardstick),
        Bar::other("writing, of the Rust", 1.0, 256, write, Measured::of_rust),
        Bar::other("writing, of the plain C", 1.15, 256, write, Measured::of_c),
        Bar::other("writing, of the strongest C", f64::INFINITY, 256, write, Measured::of_strongest),
        Bar::other("writing, of a pass over the row", f64::INFINITY, 256, write, yardstick),
        Bar::other("time for each symbol, at 257 of that at 256", 1.2, 0, jumps, |m| m.growth),
        Bar::other("time for each symbol, at 16,384 of that at 4,096", 1.25, 0, grows, |m| m.growth),
        Bar::exported("sparrowhem_bars_read, of the inner call", 1.3, 3.0, |m| m.call == "sparrowhem_bars_read"),
        Bar::exported("sparrowhem_bars_write, of the inner call", 1.3, 3.0, |m| m.call == "sparrowhem_bars_write"),
    ]
}

/// What shorter files cost is not held.
fn on_files() -> Vec<Bar> {
    let read: fn(&Measured) -> bool = |m| m.call == "sparrowhem_catalogue_read";
    let write: fn(&Measured) -> bool = |m| m.call == "sparrowhem_catalogue_write";
    vec![
        Bar::other("reading, of the Rust", 1.0, 1024, read, Measured::of_rust),
        Bar::other("reading, of the plain C", 1.15, 1024, read, Measured::of_c),
        Bar::other("reading, of the strongest C", 1.15, 1024, read, Measured::of_strongest),
        Bar::other("writing, of the Rust", 1.0, 1024, write, Measured::of_rust),
        Bar::other("writing, of the plain C", 1.15, 1024, write, Measured::of_c),
        Bar::other("writing, of the strongest C", 1.15, 1024, write, Measured::of_strongest),
    ]
}

fn table(what: &str, bars: &[Bar], columns: &[Column], all: &[Measured]) -> String {
    let mut text = format!("| {what} | at most |");
    columns.iter().for_each(|(_, name)| write!(text, " {name} |").unwrap());
    text += &format!("\n|---|---|{}\n", "---|".repeat(columns.len()));
    bars.iter().fold(text, |text, bar| text + &bar.line(columns, all))
}

pub fn bars(all: &[Measured]) -> String {
    table("of the strongest C", &beside_the_strongest(), &rows(), all) + "\n" + &table("of other times", &others(), &rows(), all)
}

pub fn exported(all: &[Measured]) -> String {
    table("of the inner call", &beside_the_inner_calls(), &rows(), all)
}

pub fn notation(all: &[Measured]) -> String {
    table("bar notation", &on_forms(), &rows(), all)
}

pub fn catalogue(all: &[Measured]) -> String {
    table("catalogue files", &on_files(), &files(), all)
}

/// Each broken bar at each length, with the line that breaks it most.
pub fn broken(all: &[Measured]) -> String {
    let mut text = String::new();
    let on_rows = [beside_the_strongest(), others(), beside_the_inner_calls(), on_forms()].map(|bars| (bars, rows()));
    for (bars, columns) in on_rows.into_iter().chain([(on_files(), files())]) {
        for (bar, (n, name)) in bars.iter().flat_map(|bar| columns.iter().map(move |column| (bar, column))) {
            if let Some((figure, m)) = bar.worst(all, *n).filter(|&(figure, _)| bar.broken_by(figure, *n)) {
                writeln!(text, "over its bar: {} at {name}: {figure:.2}, at most {} ({}, {}, {})", bar.what, bar.limit(*n), m.call, m.on, m.shape).unwrap();
            }
        }
    }
    text
}
