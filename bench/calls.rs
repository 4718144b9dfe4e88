//! The calls, by the library, in plain Rust, in plain C and in the strongest C; and those that the library exports to C.

use crate::baseline::{self, Entry};
use crate::catalogues::Catalogue;

#[repr(C)]
#[derive(Clone, Copy, Debug, PartialEq)]
pub struct Answer {
    pub refusal: u64,
    pub change: i32,
    pub place: u64,
    pub count: u64,
}

type List = (*const u16, usize);

macro_rules! calls {
    ($($pass:ident $class_check:ident $build:ident $find:ident $sheet:ident $variables:ident $replace:ident $plain:ident
        $bars_read:ident $bars_write:ident)*) => { extern "C" { $(
        fn $pass(arities: *const u16, symbols: usize, row: *const u16, n: usize, table: *const u16, room: usize) -> Answer;
        fn $class_check(row: *const u16, n: usize, table: *const u16, room: usize, classes: *const u16, class_room: usize) -> Answer;
        fn $build(arities: *const u16, symbols: usize, row: *const u16, n: usize, table: *mut u16, room: usize,
            classes: *mut u16, class_room: usize) -> Answer;
        fn $find(arities: *const u16, symbols: usize, row: *const u16, n: usize, table: *const u16, room: usize,
            classes: *const u16, class_room: usize, pattern: *const u16, m: usize, out: *mut u16, places: usize) -> Answer;
        fn $sheet(arities: *const u16, symbols: usize, row: *const u16, n: usize, table: *const u16, room: usize,
            classes: *const u16, class_room: usize, patterns: *const u16, lent: usize, lengths: *const u16, many: usize,
            positions: *mut u16, places: usize, results: *mut u16, result_places: usize) -> Answer;
        fn $variables(arities: *const u16, symbols: usize, row: *const u16, n: usize, table: *const u16, room: usize,
            classes: *const u16, class_room: usize, pattern: *const u16, m: usize, position: usize, out: *mut u16, places: usize) -> Answer;
        fn $replace(arities: *const u16, symbols: usize, row: *mut u16, row_room: usize, table: *mut u16, room: usize,
            classes: *mut u16, class_room: usize, n: usize, replacement: *const u16, m: usize, position: usize) -> Answer;
        fn $plain(arities: *const u16, symbols: usize, row: *const u16, n: usize, pattern: *const u16, m: usize,
            position: usize) -> Answer;
        fn $bars_read(arities: *const u16, symbols: usize, form: *const u16, m: usize, row: *mut u16, places: usize) -> Answer;
        fn $bars_write(arities: *const u16, symbols: usize, row: *const u16, n: usize, form: *mut u16, places: usize) -> Answer;
    )* } };
}
calls! {
    timed_pass timed_class_check timed_build timed_find timed_sheet timed_variables timed_replace timed_plain_match
    timed_bars_read timed_bars_write
    c_pass c_class_check c_build c_find c_sheet c_variables c_replace c_plain_match
    c_bars_read c_bars_write
    strong_pass strong_class_check strong_build strong_find strong_sheet strong_variables strong_replace strong_plain_match
    strong_bars_read strong_bars_write
}

// The ends alone, by the library's two ways.
extern "C" {
    fn timed_hops(arities: *const u16, symbols: usize, row: *const u16, n: usize, table: *mut u16, room: usize) -> Answer;
    fn timed_list(arities: *const u16, symbols: usize, row: *const u16, n: usize, table: *mut u16, room: usize) -> Answer;
}

/// What an exported function answers, as include/sparrowhem.h says.
#[repr(C)]
struct Exported {
    refusal: u32,
    change: i32,
    place: u64,
    count: u64,
}

impl Exported {
    fn answer(self) -> Answer {
        Answer { refusal: self.refusal as u64, change: self.change, place: self.place, count: self.count }
    }
}

// A list crosses as bytes, the low one of each number first, which is how numbers lie here.
#[cfg(target_endian = "little")]
extern "C" {
    fn sparrowhem_build(arities: *const u16, symbols: usize, row: *const u16, n: usize, table: *mut u16, room: usize,
        classes: *mut u16, class_room: usize) -> Exported;
    fn sparrowhem_find(arities: *const u16, symbols: usize, row: *const u16, n: usize, table: *const u16, room: usize,
        classes: *const u16, class_room: usize, pattern: *const u16, m: usize, out: *mut u16, places: usize) -> Exported;
    fn sparrowhem_sheet(arities: *const u16, symbols: usize, row: *const u16, n: usize, table: *const u16, room: usize,
        classes: *const u16, class_room: usize, patterns: *const u16, lent: usize, lengths: *const u16, many: usize,
        positions: *mut u16, places: usize, results: *mut u16, result_places: usize) -> Exported;
    fn sparrowhem_replace(arities: *const u16, symbols: usize, row: *mut u16, row_room: usize, table: *mut u16, room: usize,
        classes: *mut u16, class_room: usize, n: u64, replacement: *const u16, m: usize, position: u64) -> Exported;
    fn sparrowhem_bars_read(arities: *const u16, symbols: usize, form: *const u16, m: usize, row: *mut u16, places: usize) -> Exported;
    fn sparrowhem_bars_write(arities: *const u16, symbols: usize, row: *const u16, n: usize, form: *mut u16, places: usize) -> Exported;
}

fn list(xs: &[u16]) -> List {
    (xs.as_ptr(), xs.len())
}

fn written(xs: &mut [u16]) -> (*mut u16, usize) {
    (xs.as_mut_ptr(), xs.len())
}

/// Who answers: the library, plain Rust, plain C, the strongest C; or the library's exported function of that name.
#[derive(Clone, Copy)]
pub enum By {
    Library,
    Rust,
    C,
    Strong,
    Exported,
}

pub const ALL: [By; 4] = [By::Library, By::Rust, By::C, By::Strong];

const NOT_EXPORTED: &str = "the library does not export this call";

fn answered(r: Result<(u64, i32), baseline::Refusal>) -> Answer {
    match r {
        Ok((count, change)) => Answer { refusal: 0, change, place: 0, count },
        Err((refusal, place)) => Answer { refusal: refusal as u64, change: 0, place, count: 0 },
    }
}

/// Refusals 1 to 10 alone: the pass over row and table that every call with a table makes. It is asked where the row's length is
/// in order and the table has room for it.
pub fn pass(by: By, arities: &[u16], row: &[u16], table: &[u16]) -> Answer {
    let ((a, k), (w, n), (t, m)) = (list(arities), list(row), list(table));
    match by {
        By::Library => unsafe { timed_pass(a, k, w, n, t, m) },
        By::Rust => answered(baseline::check_ends(arities, row, table).map(|()| (0, 0))),
        By::C => unsafe { c_pass(a, k, w, n, t, m) },
        By::Strong => unsafe { strong_pass(a, k, w, n, t, m) },
        By::Exported => unreachable!("{NOT_EXPORTED}"),
    }
}

/// Refusal 62 alone, which every call with classes looks for behind the pass. It is asked where row and table are right and the
/// classes are as many as the row has symbols.
pub fn class_check(by: By, row: &[u16], table: &[u16], classes: &[u16]) -> Answer {
    let ((w, n), (t, m), (c, r)) = (list(row), list(table), list(classes));
    match by {
        By::Library => unsafe { timed_class_check(w, n, t, m, c, r) },
        By::Rust => answered(baseline::check_classes(row, table, classes).map(|()| (0, 0))),
        By::C => unsafe { c_class_check(w, n, t, m, c, r) },
        By::Strong => unsafe { strong_class_check(w, n, t, m, c, r) },
        By::Exported => unreachable!("{NOT_EXPORTED}"),
    }
}

/// The ends of an accepted row by hops from child to child, as build fills them in.
pub fn ends_by_hops(arities: &[u16], row: &[u16], table: &mut [u16]) -> Answer {
    let ((a, k), (w, n), (t, m)) = (list(arities), list(row), written(table));
    unsafe { timed_hops(a, k, w, n, t, m) }
}

/// The same with a list of the ends of the trees that stand side by side.
pub fn ends_by_list(arities: &[u16], row: &[u16], table: &mut [u16]) -> Answer {
    let ((a, k), (w, n), (t, m)) = (list(arities), list(row), written(table));
    unsafe { timed_list(a, k, w, n, t, m) }
}

pub fn build(by: By, arities: &[u16], row: &[u16], table: &mut [u16], classes: &mut [u16]) -> Answer {
    let ((a, k), (w, n), (t, m), (c, r)) = (list(arities), list(row), written(table), written(classes));
    match by {
        By::Library => unsafe { timed_build(a, k, w, n, t, m, c, r) },
        By::Rust => answered(baseline::build(arities, row, table, classes).map(|()| (row.len() as u64, 0))),
        By::C => unsafe { c_build(a, k, w, n, t, m, c, r) },
        By::Strong => unsafe { strong_build(a, k, w, n, t, m, c, r) },
        By::Exported => unsafe { sparrowhem_build(a, 2 * k, w, 2 * n, t, 2 * m, c, 2 * r).answer() },
    }
}

pub fn find(by: By, arities: &[u16], row: &[u16], table: &[u16], classes: &[u16], pattern: &[u16], out: &mut [u16]) -> Answer {
    let ((a, k), (w, n), (t, m), (c, r), (q, l), (o, p)) = (list(arities), list(row), list(table), list(classes), list(pattern), written(out));
    match by {
        By::Library => unsafe { timed_find(a, k, w, n, t, m, c, r, q, l, o, p) },
        By::Rust => answered(baseline::find(arities, row, table, classes, pattern, out).map(|c| (c as u64, 0))),
        By::C => unsafe { c_find(a, k, w, n, t, m, c, r, q, l, o, p) },
        By::Strong => unsafe { strong_find(a, k, w, n, t, m, c, r, q, l, o, p) },
        By::Exported => unsafe { sparrowhem_find(a, 2 * k, w, 2 * n, t, 2 * m, c, 2 * r, q, 2 * l, o, 2 * p).answer() },
    }
}

/// A sheet's patterns laid end to end, and their lengths.
#[derive(Clone)]
pub struct Laid {
    pub patterns: Vec<u16>,
    pub lengths: Vec<u16>,
}

impl Laid {
    pub fn new(all: &[Vec<u16>]) -> Laid {
        Laid { patterns: all.concat(), lengths: all.iter().map(|pattern| pattern.len() as u16).collect() }
    }
}

pub fn sheet(by: By, arities: &[u16], row: &[u16], table: &[u16], classes: &[u16], laid: &Laid, positions: &mut [u16], results: &mut [u16]) -> Answer {
    let ((a, k), (w, n), (t, m), (c, r)) = (list(arities), list(row), list(table), list(classes));
    let ((q, l), (g, i), (o, p), (e, s)) = (list(&laid.patterns), list(&laid.lengths), written(positions), written(results));
    match by {
        By::Library => unsafe { timed_sheet(a, k, w, n, t, m, c, r, q, l, g, i, o, p, e, s) },
        By::Rust => answered(baseline::sheet(arities, row, table, classes, &laid.patterns, &laid.lengths, positions, results).map(|c| (c as u64, 0))),
        By::C => unsafe { c_sheet(a, k, w, n, t, m, c, r, q, l, g, i, o, p, e, s) },
        By::Strong => unsafe { strong_sheet(a, k, w, n, t, m, c, r, q, l, g, i, o, p, e, s) },
        By::Exported => unsafe { sparrowhem_sheet(a, 2 * k, w, 2 * n, t, 2 * m, c, 2 * r, q, 2 * l, g, 2 * i, o, 2 * p, e, 2 * s).answer() },
    }
}

pub fn variables(by: By, arities: &[u16], row: &[u16], table: &[u16], classes: &[u16], pattern: &[u16], position: usize, out: &mut [u16]) -> Answer {
    let ((a, k), (w, n), (t, m), (c, r), (q, l), (o, p)) = (list(arities), list(row), list(table), list(classes), list(pattern), written(out));
    match by {
        By::Library => unsafe { timed_variables(a, k, w, n, t, m, c, r, q, l, position, o, p) },
        By::Rust => answered(baseline::variables(arities, row, table, classes, pattern, position, out).map(|y| (y as u64, 0))),
        By::C => unsafe { c_variables(a, k, w, n, t, m, c, r, q, l, position, o, p) },
        By::Strong => unsafe { strong_variables(a, k, w, n, t, m, c, r, q, l, position, o, p) },
        By::Exported => unreachable!("{NOT_EXPORTED}"),
    }
}

/// The buffers that replace changes.
pub struct Buffers<'a> {
    pub row: &'a mut [u16],
    pub table: &'a mut [u16],
    pub classes: &'a mut [u16],
}

pub fn replace(by: By, arities: &[u16], b: Buffers, n: usize, new: &[u16], position: usize) -> Answer {
    let ((a, k), (w, s), (t, m), (c, r), (v, l)) = (list(arities), written(b.row), written(b.table), written(b.classes), list(new));
    match by {
        By::Library => unsafe { timed_replace(a, k, w, s, t, m, c, r, n, v, l, position) },
        By::Rust => answered(baseline::replace(arities, b.row, b.table, b.classes, n, new, position).map(|(l, c)| (l as u64, c))),
        By::C => unsafe { c_replace(a, k, w, s, t, m, c, r, n, v, l, position) },
        By::Strong => unsafe { strong_replace(a, k, w, s, t, m, c, r, n, v, l, position) },
        By::Exported => unsafe { sparrowhem_replace(a, 2 * k, w, 2 * s, t, 2 * m, c, 2 * r, n as u64, v, 2 * l, position as u64).answer() },
    }
}

pub fn plain_match(by: By, arities: &[u16], row: &[u16], pattern: &[u16], position: usize) -> Answer {
    let ((a, k), (w, n), (q, l)) = (list(arities), list(row), list(pattern));
    match by {
        By::Library => unsafe { timed_plain_match(a, k, w, n, q, l, position) },
        By::Rust => answered(baseline::plain_match(arities, row, pattern, position).map(|y| (y as u64, 0))),
        By::C => unsafe { c_plain_match(a, k, w, n, q, l, position) },
        By::Strong => unsafe { strong_plain_match(a, k, w, n, q, l, position) },
        By::Exported => unreachable!("{NOT_EXPORTED}"),
    }
}

/// A bar form read into a row.
pub fn bars_read(by: By, arities: &[u16], form: &[u16], row: &mut [u16]) -> Answer {
    let ((a, k), (f, m), (w, p)) = (list(arities), list(form), written(row));
    match by {
        By::Library => unsafe { timed_bars_read(a, k, f, m, w, p) },
        By::Rust => answered(baseline::bars_read(arities, form, row).map(|n| (n as u64, 0))),
        By::C => unsafe { c_bars_read(a, k, f, m, w, p) },
        By::Strong => unsafe { strong_bars_read(a, k, f, m, w, p) },
        By::Exported => unsafe { sparrowhem_bars_read(a, 2 * k, f, 2 * m, w, 2 * p).answer() },
    }
}

/// A row's bar form written.
pub fn bars_write(by: By, arities: &[u16], row: &[u16], form: &mut [u16]) -> Answer {
    let ((a, k), (w, n), (f, p)) = (list(arities), list(row), written(form));
    match by {
        By::Library => unsafe { timed_bars_write(a, k, w, n, f, p) },
        By::Rust => answered(baseline::bars_write(arities, row, form).map(|m| (m as u64, 0))),
        By::C => unsafe { c_bars_write(a, k, w, n, f, p) },
        By::Strong => unsafe { strong_bars_write(a, k, w, n, f, p) },
        By::Exported => unsafe { sparrowhem_bars_write(a, 2 * k, w, 2 * n, f, 2 * p).answer() },
    }
}

/// What is answered on a catalogue, as include/sparrowhem.h says.
#[repr(C)]
#[derive(Clone, Copy, Debug, PartialEq)]
pub struct CatalogueAnswer {
    pub refusal: u32,
    pub programme: u32,
    pub place: u64,
    pub count: u64,
}

macro_rules! catalogue_calls {
    ($($read:ident $write:ident)*) => { extern "C" { $(
        fn $read(file: *const u8, bytes: usize, entries: *mut Entry, count: usize) -> CatalogueAnswer;
        fn $write(arities: *const u8, arities_bytes: usize, numbers: *const u32, n: usize, lengths: *const u32, many: usize,
            rows: *const u8, rows_bytes: usize, file: *mut u8, room: usize) -> CatalogueAnswer;
    )* } };
}
catalogue_calls! {
    sparrowhem_catalogue_read sparrowhem_catalogue_write
    c_catalogue_read c_catalogue_write
    strong_catalogue_read strong_catalogue_write
}

fn answered_on_file(r: Result<usize, baseline::CatalogueRefusal>) -> CatalogueAnswer {
    match r {
        Ok(count) => CatalogueAnswer { refusal: 0, programme: 0, place: 0, count: count as u64 },
        Err((refusal, programme, place)) => CatalogueAnswer { refusal, programme, place, count: 0 },
    }
}

/// Catalogues are read and written where they are lent: the library's call is the exported function.
pub fn catalogue_read(by: By, file: &[u8], entries: &mut [Entry]) -> CatalogueAnswer {
    let (f, n, e, k) = (file.as_ptr(), file.len(), entries.as_mut_ptr(), entries.len());
    match by {
        By::Library | By::Exported => unsafe { sparrowhem_catalogue_read(f, n, e, k) },
        By::Rust => answered_on_file(baseline::catalogue_read(file, entries)),
        By::C => unsafe { c_catalogue_read(f, n, e, k) },
        By::Strong => unsafe { strong_catalogue_read(f, n, e, k) },
    }
}

pub fn catalogue_write(by: By, c: &Catalogue, file: &mut [u8]) -> CatalogueAnswer {
    let ((a, s), (w, m)) = ((c.arities.as_ptr(), c.arities.len()), (c.rows.as_ptr(), c.rows.len()));
    let ((u, n), (l, k), (f, b)) = ((c.numbers.as_ptr(), c.numbers.len()), (c.lengths.as_ptr(), c.lengths.len()), (file.as_mut_ptr(), file.len()));
    match by {
        By::Library | By::Exported => unsafe { sparrowhem_catalogue_write(a, s, u, n, l, k, w, m, f, b) },
        By::Rust => answered_on_file(baseline::catalogue_write(&c.arities, &c.numbers, &c.lengths, &c.rows, file)),
        By::C => unsafe { c_catalogue_write(a, s, u, n, l, k, w, m, f, b) },
        By::Strong => unsafe { strong_catalogue_write(a, s, u, n, l, k, w, m, f, b) },
    }
}
