//! The lines of the benchmark: which call is timed on what, and beside which yardstick.

use crate::baseline::Entry;
use crate::calls::{bars_read, bars_write, build, catalogue_read, catalogue_write, class_check, ends_by_hops, ends_by_list, find, pass};
use crate::calls::{plain_match, replace, sheet, variables, Answer, Buffers, By, Laid};
use crate::catalogues::Catalogues;
use crate::forms::{form, unclosed};
use crate::rows::{alphabet, Programme, Rows, FIFTEEN, ONE, TWO};
use crate::timing::Bench;

const S: u16 = 65535;
const X0: u16 = 65280;

/// A symbol over as many of the same leaf as it has children.
fn over(root: u16, leaf: u16) -> Vec<u16> {
    std::iter::once(root).chain(std::iter::repeat(leaf).take(alphabet()[root as usize] as usize)).collect()
}

/// A symbol that stands in many places of a row of this shape.
fn common(shape: &str) -> u16 {
    match shape {
        "chain" => ONE,
        "15-ary" => FIFTEEN,
        _ => TWO,
    }
}

/// The patterns that are sought in a row, each with its name.
pub fn patterns(shape: &str, p: &Programme) -> Vec<(&'static str, Vec<u16>)> {
    let common = common(shape);
    let mut all = vec![("rare root", over(15, S)), ("common root", over(common, S)), ("bare S", vec![S])];
    if common != ONE {
        all.push(("repeated variables", over(common, X0)));
    }
    let most = p.row.len().min(256);
    let sizes = p.table.iter().enumerate().map(|(begin, &end)| (begin, end as usize - begin));
    let (begin, size) = sizes.filter(|&(_, size)| size <= most).max_by_key(|&(_, size)| size).expect("a leaf");
    all.push(("long fixed stretch", p.row[begin..begin + size].to_vec()));
    all
}

/// A pass over the row and the table of a programme.
fn pass_over(by: By, rows: &Rows, l: usize, k: usize) -> Answer {
    let p = rows.at(l, k);
    pass(by, &rows.arities, &p.row, &p.table)
}

/// What each call with a table does first, by the library: a pass, and the check of the classes.
fn checked(rows: &Rows, l: usize, k: usize) -> Answer {
    pass_over(By::Library, rows, l, k);
    let p = rows.at(l, k);
    class_check(By::Library, &p.row, &p.table, &p.classes)
}

/// Pass, check of the classes, build. The yardstick is a pass; of a wrong class, what it may cost: the check of right ones, a build
/// and a pass.
pub fn kept(bench: &mut Bench, rows: &Rows) {
    let (mut table, mut classes) = (vec![0; 16384], vec![0; 16384]);
    let beside = |l, k| pass_over(By::Library, rows, l, k);
    let mut built = |by, l, k| build(by, &rows.arities, &rows.at(l, k).row, &mut table, &mut classes);
    bench.add(["pass", "accepted"], rows, |by, l, k| pass_over(by, rows, l, k), beside);
    bench.add(["build", "accepted"], rows, &mut built, beside);
    let first = rows.with(|p| p.classes[0] ^= 1);
    let last = rows.with(|p| *p.classes.last_mut().expect("a class") ^= 1);
    let check = |rows: &Rows, by, l, k| class_check(by, &rows.at(l, k).row, &rows.at(l, k).table, &rows.at(l, k).classes);
    bench.add(["class check", "right classes"], rows, |by, l, k| check(rows, by, l, k), beside);
    for (on, wrong) in [("refused for a wrong first class", first), ("refused for a wrong last class", last)] {
        let at_most = |l, k| {
            checked(rows, l, k);
            built(By::Library, l, k)
        };
        bench.add(["class check", on], rows, |by, l, k| check(&wrong, by, l, k), at_most);
    }
}

/// The ends alone, by hops. The yardstick is the same by a list of the ends of the trees that stand side by side.
pub fn ends(bench: &mut Bench, rows: &Rows) {
    let mut table = vec![0; 16384];
    bench.pair(["ends", "by hops"], rows, |listed, l, k| {
        let fill = if listed { ends_by_list } else { ends_by_hops };
        fill(&rows.arities, &rows.at(l, k).row, &mut table)
    });
}

/// Find and variables. The yardstick is what they check first; of find with an output shorter than the row, find with room; of
/// find with repeated variables, find with the same root over S.
pub fn searches(bench: &mut Bench, rows: &Rows) {
    let (mut out, mut room, mut spans) = (vec![0; 16384], vec![0; 16384], [0; 32]);
    let sought = rows.map(|p| patterns(rows.shape, p));
    let seek = |which: usize, by, l: usize, k: usize, out: &mut [u16]| {
        let (p, same) = (rows.at(l, k), &sought[l]);
        find(by, &rows.arities, &p.row, &p.table, &p.classes, &same[k % same.len()][which].1, out)
    };
    let names: Vec<&str> = sought[0][0].iter().map(|(on, _)| *on).collect();
    let common = names.iter().position(|on| *on == "common root").expect("a common root");
    for (which, on) in names.into_iter().enumerate() {
        let call = |by, l, k| seek(which, by, l, k, &mut out);
        if on == "repeated variables" {
            bench.add(["find", on], rows, call, |l, k| seek(common, By::Library, l, k, &mut room));
            continue;
        }
        bench.add(["find", on], rows, call, |l, k| checked(rows, l, k));
        if on.ends_with("root") {
            let short = |by, l, k| seek(which, by, l, k, &mut out[..rows.lengths[l] - 1]);
            bench.add(["find", &format!("{on} and short output")], rows, short, |l, k| seek(which, By::Library, l, k, &mut room));
        }
    }
    let call = |by, l, k| {
        let p = rows.at(l, k);
        variables(by, &rows.arities, &p.row, &p.table, &p.classes, &[X0], 0, &mut spans)
    };
    bench.add(["variables", "bare X0"], rows, call, |l, k| checked(rows, l, k));
}

/// The most patterns that a sheet has.
pub const PATTERNS: usize = 64;

/// A sheet of patterns of many kinds, of which 16,384 places hold all positions: one with a common root over S, one over a repeated
/// variable; then by turns those with rare roots, with a common root that seldom matches, and with a variable that is compared and
/// seldom equal; the last is refused.
pub fn mixed(shape: &str) -> Laid {
    let common = common(shape);
    let seldom = |i: usize| match i % 3 {
        0 => over(6 + (i % 10) as u16, S),
        1 => over(common, 1),
        _ => vec![TWO, TWO, X0, S, X0],
    };
    let mut all = vec![over(common, S), over(common.max(TWO), X0)];
    all.extend((0..PATTERNS - 3).map(seldom));
    all.push(vec![TWO, S]);
    Laid::new(&all)
}

/// A sheet with more positions, on long rows, than are gathered at once: a common root over S and a leaf, by turns.
pub fn crowded(shape: &str) -> Laid {
    Laid::new(&vec![[over(common(shape), S), vec![0]]; PATTERNS / 2].concat())
}

/// A sheet over a programme.
fn sheet_over(by: By, rows: &Rows, l: usize, k: usize, laid: &Laid, positions: &mut [u16], results: &mut [u16]) -> Answer {
    let p = rows.at(l, k);
    sheet(by, &rows.arities, &p.row, &p.table, &p.classes, laid, positions, results)
}

/// Sheets: of one pattern, in an output as long as the row, and of 64 in one of 16,384 places. The yardstick is one find; of mixed
/// patterns, what is checked first.
pub fn sheets(bench: &mut Bench, rows: &Rows) {
    let (mut positions, mut results, mut out) = (vec![0; 16384], [0; 3 * PATTERNS], vec![0; 16384]);
    let mut one_find = |pattern: &[u16], l: usize, k| {
        let p = rows.at(l, k);
        find(By::Library, &rows.arities, &p.row, &p.table, &p.classes, pattern, &mut out[..rows.lengths[l]])
    };
    let (rare, common) = (over(15, S), over(common(rows.shape), S));
    for (on, pattern) in [("one rare root", &rare), ("one common root", &common)] {
        let laid = Laid::new(&[pattern.clone()]);
        let call = |by, l: usize, k| sheet_over(by, rows, l, k, &laid, &mut positions[..rows.lengths[l]], &mut results);
        bench.add(["sheet", on], rows, call, |l, k| one_find(pattern, l, k));
    }
    let laid = Laid::new(&vec![rare.clone(); PATTERNS]);
    let call = |by, l, k| sheet_over(by, rows, l, k, &laid, &mut positions, &mut results);
    bench.add(["sheet", "64 rare roots"], rows, call, |l, k| one_find(&rare, l, k));
    let laid = mixed(rows.shape);
    let call = |by, l, k| sheet_over(by, rows, l, k, &laid, &mut positions, &mut results);
    bench.add(["sheet", "64 mixed"], rows, call, |l, k| checked(rows, l, k));
}

/// A sheet that is searched twice, since its output could be too short and its positions are more than are gathered at once. The
/// yardstick is the same with one place more, searched once.
pub fn sheets_twice(bench: &mut Bench, rows: &Rows) {
    let (mut positions, mut out) = (vec![0; PATTERNS * 16384], vec![0; PATTERNS * 16384]);
    let laid = crowded(rows.shape);
    let most = |l: usize| PATTERNS * rows.lengths[l];
    let answer = |by, l, k, positions: &mut [u16]| sheet_over(by, rows, l, k, &laid, positions, &mut [0; 3 * PATTERNS]);
    let call = |by, l, k| answer(by, l, k, &mut positions[..most(l) - 1]);
    bench.add(["sheet", "64 searched twice"], rows, call, |l, k| answer(By::Library, l, k, &mut out[..most(l)]));
}

/// The plain matcher. The yardstick is a pass.
pub fn plain(bench: &mut Bench, rows: &Rows) {
    let first = |p: &Programme| p.row.iter().position(|&s| s == common(rows.shape)).unwrap_or(0);
    let last = |p: &Programme| p.row.iter().rposition(|&s| s > 1).unwrap_or(0);
    let asked = [
        ("bare X0", rows.map(|_| (0, vec![X0]))),
        ("common root over S", rows.map(|p| (first(p), over(p.row[first(p)], S)))),
        ("common root over X0", rows.map(|p| (first(p), over(p.row[first(p)], X0)))),
        ("last node", rows.map(|p| (last(p), p.row[last(p)..p.table[last(p)] as usize].to_vec()))),
    ];
    for (on, all) in &asked {
        let call = |by, l: usize, k: usize| {
            let (at, pattern) = &all[l][k % all[l].len()];
            plain_match(by, &rows.arities, &rows.at(l, k).row, pattern, *at)
        };
        bench.add(["plain matcher", on], rows, call, |l, k| pass_over(By::Library, rows, l, k));
    }
}

/// Rows with a little room behind, and a leaf of each: where it stands, and what is put in its place.
struct Edits<'a> {
    rows: &'a Rows,
    roomy: Rows,
    leaves: Vec<Vec<usize>>,
    new: &'a [u16],
}

impl<'a> Edits<'a> {
    /// The leaf stands after so many quarters of all leaves.
    fn new(rows: &'a Rows, quarters: usize, new: &'a [u16]) -> Edits<'a> {
        let leaves = rows.map(|p| {
            let leaves: Vec<usize> = (0..p.row.len()).filter(|&at| p.row[at] < 2).collect();
            leaves[(leaves.len() - 1) * quarters / 4]
        });
        let roomy = rows.with(|p| [&mut p.row, &mut p.table, &mut p.classes].into_iter().for_each(|list| list.extend([0; 8])));
        Edits { rows, roomy, leaves, new }
    }

    /// A replacement and putting back: the row is then as it was.
    fn there_and_back(&mut self, by: By, l: usize, k: usize) -> Answer {
        let which = k % self.leaves[l].len();
        let (p, at) = (&mut self.roomy.all[l][which], self.leaves[l][which]);
        let there = replace(by, &self.rows.arities, buffers(p), self.rows.lengths[l], self.new, at);
        let old = &self.rows.all[l][which].row[at..at + 1];
        replace(by, &self.rows.arities, buffers(p), there.count as usize, old, at)
    }
}

fn buffers(p: &mut Programme) -> Buffers<'_> {
    Buffers { row: &mut p.row, table: &mut p.table, classes: &mut p.classes }
}

/// What is put in a leaf's place.
const NEW: [(&str, &[u16]); 2] = [("same size", &[1]), ("grow and shrink", &[ONE, ONE, TWO, 0, 1])];

/// A replacement and putting back, together; and the whole row replaced by itself. The yardstick is a build.
pub fn replacements(bench: &mut Bench, rows: &Rows) {
    let (mut table, mut classes) = (vec![0; 16384], vec![0; 16384]);
    let mut beside = |l, k| build(By::Library, &rows.arities, &rows.at(l, k).row, &mut table, &mut classes);
    for (place, quarters) in [("at the front", 0), ("in the middle", 2), ("at the end", 4)] {
        for (on, new) in NEW {
            let mut edits = Edits::new(rows, quarters, new);
            let call = |by, l, k| edits.there_and_back(by, l, k);
            bench.add(["replace and back", &format!("{on} {place}")], rows, call, &mut beside);
        }
    }
    let mut roomy = rows.with(|_| ());
    let call = |by, l: usize, k: usize| {
        let which = k % rows.all[l].len();
        let p = &mut roomy.all[l][which];
        replace(by, &rows.arities, buffers(p), rows.lengths[l], &rows.all[l][which].row, 0)
    };
    bench.add(["replace", "whole row"], rows, call, &mut beside);
}

/// Refused input: a bad last number, and a stale first and last entry. The yardstick is a pass over the same rows, accepted.
pub fn refusals(bench: &mut Bench, rows: &Rows) {
    let (mut table, mut classes, mut out) = (vec![0; 16384], vec![0; 16384], vec![0; 16384]);
    let beside = |l, k| pass_over(By::Library, rows, l, k);
    let bad = rows.with(|p| *p.row.last_mut().expect("a symbol") = 999);
    let call = |by, l, k| build(by, &rows.arities, &bad.at(l, k).row, &mut table, &mut classes);
    bench.add(["build", "refused for a bad last number"], rows, call, beside);
    let first = rows.with(|p| p.table[0] ^= 1);
    let last = rows.with(|p| *p.table.last_mut().expect("an entry") ^= 1);
    for (on, stale) in [("refused for a stale first entry", first), ("refused for a stale last entry", last)] {
        let call = |by, l, k| {
            let p = stale.at(l, k);
            find(by, &rows.arities, &p.row, &p.table, &p.classes, &[S], &mut out)
        };
        bench.add(["find", on], rows, call, beside);
    }
}

/// A pass with an alphabet of 1,024 symbols. The yardstick is a pass over the same rows with 17.
pub fn wide_alphabet(bench: &mut Bench, rows: &Rows) {
    let (few, mut many) = (alphabet(), alphabet());
    many.resize(1024, 15);
    let call = |arities, by, l, k| pass(by, arities, &rows.at(l, k).row, &rows.at(l, k).table);
    bench.add(["pass", "alphabet of 1024 symbols"], rows, |by, l, k| call(&many, by, l, k), |l, k| call(&few, By::Library, l, k));
}

/// The inputs that find was slowest on. The yardstick is what it checks first; with an output shorter than the row, find with room.
pub fn slowest(bench: &mut Bench) {
    let (mut out, mut room) = (vec![0; 16384], vec![0; 16384]);
    let chain = |last| [vec![ONE; 255], vec![last]].concat();
    let comb = [[TWO, X0].repeat(127), vec![S]].concat();
    for (on, shape, pattern) in [("repeated leaf", "right comb", comb), ("fixed chain", "chain", chain(0)), ("chain over S", "chain", chain(S))] {
        let rows = Rows::new(shape, vec![16384]);
        let p = rows.at(0, 0);
        let mut seek = |by, _, _| find(by, &rows.arities, &p.row, &p.table, &p.classes, &pattern, &mut out);
        bench.add(["find on its slowest", on], &rows, &mut seek, |l, k| checked(&rows, l, k));
        let short = |by, _, _| find(by, &rows.arities, &p.row, &p.table, &p.classes, &pattern, &mut room[..16383]);
        bench.add(["find on its slowest", &format!("{on} and short output")], &rows, short, |l, k| seek(By::Library, l, k));
    }
}

/// The functions that the library exports to C. The yardstick of each is the inner call on the same rows.
pub fn exported(bench: &mut Bench, rows: &Rows) {
    let (mut table, mut classes, mut out) = (vec![0; 16384], vec![0; 16384], vec![0; 16384]);
    let call = |by, l, k| {
        let n = rows.lengths[l];
        build(by, &rows.arities, &rows.at(l, k).row, &mut table[..n], &mut classes[..n])
    };
    bench.exported(["sparrowhem_build", "accepted"], rows, call);
    for (on, pattern) in [("rare root", over(15, S)), ("common root", over(common(rows.shape), S))] {
        let call = |by, l, k| {
            let p = rows.at(l, k);
            find(by, &rows.arities, &p.row, &p.table, &p.classes, &pattern, &mut out[..rows.lengths[l]])
        };
        bench.exported(["sparrowhem_find", on], rows, call);
    }
    for (on, many) in [("one rare root", 1), ("64 rare roots", PATTERNS)] {
        let (laid, mut results) = (Laid::new(&vec![over(15, S); many]), vec![0; 3 * many]);
        let places = |l: usize| if many == 1 { rows.lengths[l] } else { 16384 };
        let call = |by, l, k| sheet_over(by, rows, l, k, &laid, &mut out[..places(l)], &mut results);
        bench.exported(["sparrowhem_sheet", on], rows, call);
    }
    for (on, new) in NEW {
        let mut edits = Edits::new(rows, 2, new);
        bench.exported(["sparrowhem_replace", &format!("{on} in the middle")], rows, |by, l, k| edits.there_and_back(by, l, k));
    }
}

/// Bar forms read and written, and by the exported functions. The yardstick is a pass over the row and its table; of a form whose root is
/// not closed, the reading of the whole one; of an exported function the inner call.
pub fn forms(bench: &mut Bench, rows: &Rows) {
    let (mut row, mut out, mut room) = (vec![0; 16384], vec![0; 32768], vec![0; 16384]);
    let (whole, open) = (rows.map(form), rows.map(unclosed));
    let read = |all: &[Vec<Vec<u16>>], by, l: usize, k: usize, row: &mut [u16]| {
        let same = &all[l];
        bars_read(by, &rows.arities, &same[k % same.len()], row)
    };
    let mut write = |by, l, k| bars_write(by, &rows.arities, &rows.at(l, k).row, &mut out[..2 * rows.lengths[l]]);
    bench.add(["bars read", "accepted"], rows, |by, l, k| read(&whole, by, l, k, &mut row), |l, k| pass_over(By::Library, rows, l, k));
    bench.add(["bars write", "accepted"], rows, &mut write, |l, k| pass_over(By::Library, rows, l, k));
    let refused = |by, l, k| read(&open, by, l, k, &mut row);
    bench.add(["bars read", "refused for a root that is not closed"], rows, refused, |l, k| read(&whole, By::Library, l, k, &mut room));
    bench.exported(["sparrowhem_bars_read", "accepted"], rows, |by, l, k| read(&whole, by, l, k, &mut row[..rows.lengths[l]]));
    bench.exported(["sparrowhem_bars_write", "accepted"], rows, write);
}

/// Reading and writing the files of catalogues.
pub fn catalogues(bench: &mut Bench, all: &Catalogues) {
    let (mut entries, mut file) = (vec![Entry { programme: 0, start: 0, length: 0 }; 256], vec![0; 65536]);
    let read = |by, l, k| catalogue_read(by, &all.at(l, k).1, &mut entries);
    bench.four(["sparrowhem_catalogue_read", &all.on, all.shape], &all.lengths, read);
    let write = |by, l, k| catalogue_write(by, &all.at(l, k).0, &mut file);
    bench.four(["sparrowhem_catalogue_write", &all.on, all.shape], &all.lengths, write);
}
