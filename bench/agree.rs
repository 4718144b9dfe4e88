//! Before anything is timed: all versions answer and write the same, on every row that is timed and on faulty input.

use crate::baseline::Entry;
use crate::calls::{bars_read, bars_write, build, catalogue_read, catalogue_write, class_check, find, pass, plain_match, replace, sheet};
use crate::calls::{variables, Answer, Buffers, By, Laid, ALL};
use crate::catalogues::{bytes, catalogue, Catalogue, Catalogues, ALPHABETS};
use crate::forms::{form, BAR};
use crate::lines::{crowded, mixed, patterns};
use crate::rows::{Programme, Rows, ONE, TWO};

/// What the calls are lent.
#[derive(Clone)]
struct Given {
    arities: Vec<u16>,
    row: Vec<u16>,
    table: Vec<u16>,
    classes: Vec<u16>,
    pattern: Vec<u16>,
    replacement: Vec<u16>,
    position: usize,
    places: usize,
    sheet: Laid,
    result_places: usize,
}

/// Do all of them do the same?
fn same<T: PartialEq>(what: &str, by: &[By], mut call: impl FnMut(By) -> T) {
    let mut said = by.iter().map(|&by| call(by));
    let library = said.next().expect("the library");
    assert!(said.all(|other| other == library), "{what}: the versions do not answer or write the same");
}

/// All versions, and the exported function.
const EXPORTED: [By; 5] = [ALL[0], ALL[1], ALL[2], ALL[3], By::Exported];

/// Every call on the same input: what is answered, and what every lent buffer then holds.
fn same_calls(what: &str, g: &Given) {
    let longer = |list: &[u16]| [list, &[7; 8]].concat();
    let sized = (1..=16384).contains(&g.row.len()) && g.table.len() >= g.row.len();
    if sized {
        same(what, &ALL, |by| pass(by, &g.arities, &g.row, &g.table));
    }
    if sized && g.classes.len() >= g.row.len() && pass(By::Library, &g.arities, &g.row, &g.table).refusal == 0 {
        same(what, &ALL, |by| class_check(by, &g.row, &g.table, &g.classes));
    }
    same(what, &EXPORTED, |by| {
        let (mut table, mut classes) = (vec![7; g.table.len()], vec![7; g.classes.len()]);
        (build(by, &g.arities, &g.row, &mut table, &mut classes), table, classes)
    });
    same(what, &EXPORTED, |by| {
        let mut out = vec![7; g.places];
        (find(by, &g.arities, &g.row, &g.table, &g.classes, &g.pattern, &mut out), out)
    });
    same(what, &ALL, |by| {
        let mut out = vec![7; g.places];
        (variables(by, &g.arities, &g.row, &g.table, &g.classes, &g.pattern, g.position, &mut out), out)
    });
    same_sheets(what, g);
    same(what, &ALL, |by| plain_match(by, &g.arities, &g.row, &g.pattern, g.position));
    same(what, &EXPORTED, |by| {
        let (mut row, mut table, mut classes) = (longer(&g.row), longer(&g.table), longer(&g.classes));
        let buffers = Buffers { row: &mut row, table: &mut table, classes: &mut classes };
        (replace(by, &g.arities, buffers, g.row.len(), &g.replacement, g.position), row, table, classes)
    });
}

/// A sheet in outputs of every size that matters: without places, with one too few and just enough for the positions, and with one too
/// few and just enough for a match of each pattern at each position.
fn same_sheets(what: &str, g: &Given) {
    let answer = |by, places: usize| {
        let (mut positions, mut results) = (vec![7; places], vec![7; g.result_places]);
        (sheet(by, &g.arities, &g.row, &g.table, &g.classes, &g.sheet, &mut positions, &mut results), positions, results)
    };
    let (needed, most) = (answer(By::Library, 0).0.place as usize, g.row.len() * g.sheet.lengths.len());
    for places in [0, needed.saturating_sub(1), needed, most.saturating_sub(1), most] {
        same(what, &EXPORTED, |by| answer(by, places));
    }
}

/// The last class that is not its position's own, and all that are the same, name its position and no longer the first.
fn lead_later(g: &mut Given) {
    if let Some(last) = (0..g.row.len()).rfind(|&p| (g.classes[p] as usize) < p) {
        let first = g.classes[last];
        g.classes.iter_mut().filter(|c| **c == first).for_each(|c| *c = last as u16);
    }
}

/// One fault each, most of them with a refusal of its own.
const FAULTS: [(&str, fn(&mut Given)); 41] = [
    ("no alphabet", |g| g.arities.clear()),
    ("a long alphabet", |g| g.arities.resize(1025, 0)),
    ("an arity of 16", |g| g.arities.push(16)),
    ("no leaf", |g| g.arities.retain(|&a| a > 0)),
    ("no row", |g| g.row.clear()),
    ("a long row", |g| g.row.resize(16385, 0)),
    ("a short table", |g| g.table.truncate(g.row.len() - 9)),
    ("short classes", |g| g.classes.truncate(g.row.len() - 9)),
    ("a bad first number", |g| g.row[0] = 1024),
    ("a bad last number", |g| *g.row.last_mut().expect("a symbol") = 1024),
    ("a row that ends early", |g| g.row.truncate(g.row.len() - 1)),
    ("a row that goes on", |g| [&mut g.row, &mut g.table, &mut g.classes].into_iter().for_each(|list| list.insert(0, 1))),
    ("a stale first entry", |g| g.table[0] ^= 1),
    ("a stale last entry", |g| *g.table.last_mut().expect("an entry") ^= 1),
    ("a wrong first class", |g| g.classes[0] ^= 1),
    ("a wrong last class", |g| *g.classes.last_mut().expect("a class") ^= 1),
    ("a class behind the row", |g| g.classes[g.row.len() / 2] = 16384),
    ("classes that are all 0", |g| g.classes.fill(0)),
    ("classes that are each their own", |g| (0..g.row.len()).for_each(|p| g.classes[p] = p as u16)),
    ("a later leader", lead_later),
    ("a stale last entry and a wrong first class", |g| {
        *g.table.last_mut().expect("an entry") ^= 1;
        g.classes[0] ^= 1;
    }),
    ("no pattern", |g| g.pattern.clear()),
    ("a long pattern", |g| g.pattern.resize(257, 0)),
    ("a bad number in a pattern", |g| g.pattern[0] = 65296),
    ("a pattern that ends early", |g| g.pattern.insert(0, TWO)),
    ("a pattern that goes on", |g| g.pattern.push(65535)),
    ("no replacement", |g| g.replacement.clear()),
    ("a long replacement", |g| g.replacement.resize(16385, 0)),
    ("a bad number in a replacement", |g| g.replacement[0] = 65535),
    ("a replacement that ends early", |g| g.replacement.insert(0, TWO)),
    ("a position behind the row", |g| g.position = g.row.len()),
    ("an output without places", |g| g.places = 0),
    ("a sheet without patterns", |g| g.sheet = Laid::new(&[])),
    ("a sheet of 65 patterns", |g| g.sheet = Laid::new(&vec![vec![65535]; 65])),
    ("lengths that add up to less", |g| g.sheet.lengths[0] -= 1),
    ("lengths that add up to more", |g| g.sheet.lengths[0] += 1),
    ("lengths that add up to 65,536 more", |g| g.sheet.lengths.extend([65535, 1])),
    ("too few places for the results", |g| g.result_places = 3 * g.sheet.lengths.len() - 1),
    ("a wrong first class and a sheet without patterns", |g| {
        g.classes[0] ^= 1;
        g.sheet = Laid::new(&[]);
    }),
    ("a sheet of 65 patterns and lengths that add up to less", |g| {
        g.sheet = Laid::new(&vec![vec![65535]; 65]);
        g.sheet.lengths[0] -= 1;
    }),
    ("lengths that add up to less and no places for the results", |g| {
        g.sheet.lengths[0] -= 1;
        g.result_places = 0;
    }),
];

/// A sheet with the pattern, and others behind it: one without numbers, a long one, one with a bad number, one that ends early, one that
/// goes on, and the pattern once more.
fn motley(pattern: &[u16]) -> Laid {
    let others = [vec![], vec![0; 257], vec![TWO, 0, 65296], vec![TWO, 65535], vec![0, 65535]];
    Laid::new(&[&[pattern.to_vec()], &others[..], &[pattern.to_vec()]].concat())
}

fn given(rows: &Rows, p: &Programme, pattern: Vec<u16>, replacement: Vec<u16>) -> Given {
    let Programme { row, table, classes } = p.clone();
    let n = row.len();
    let sheet = motley(&pattern);
    Given { arities: rows.arities.clone(), row, table, classes, pattern, replacement, position: n / 2, places: n + 40, sheet, result_places: 200 }
}

pub fn agree(rows: &Rows) {
    for p in rows.all.iter().flatten() {
        for (on, pattern) in patterns(rows.shape, p) {
            same_calls(on, &given(rows, p, pattern, vec![1]));
        }
        same_calls("a longer replacement", &given(rows, p, vec![65280], vec![ONE, ONE, TWO, 0, 1]));
    }
    for same_length in &rows.all {
        for (what, sheet) in [("a mixed sheet", mixed(rows.shape)), ("a crowded sheet", crowded(rows.shape))] {
            same_sheets(what, &Given { sheet, ..given(rows, &same_length[0], vec![1], vec![1]) });
        }
        for (what, fault) in FAULTS {
            let mut g = given(rows, &same_length[0], vec![TWO, 65280, 65280], vec![ONE, 0]);
            fault(&mut g);
            same_calls(what, &g);
        }
    }
}

/// A file read into records of every number that matters.
fn same_reading(what: &str, file: &[u8]) {
    let said = if file.len() < 2 { 0 } else { u16::from_le_bytes([file[0], file[1]]) as usize };
    for places in [0, said.saturating_sub(1), said, said + 1] {
        same(what, &ALL, |by| {
            let mut entries = vec![Entry { programme: 1, start: 2, length: 3 }; places.min(300)];
            (catalogue_read(by, file, &mut entries), entries)
        });
    }
}

/// A catalogue written into buffers of every size that matters, and its file read.
fn same_catalogues(what: &str, c: &Catalogue) {
    let file = c.file();
    for room in [0, file.len().saturating_sub(1), file.len(), file.len() + 3] {
        same(what, &ALL, |by| {
            let mut out = vec![7; room];
            (catalogue_write(by, c, &mut out), out)
        });
    }
    same_reading(what, &file);
}

impl Catalogue {
    /// Another programme behind the others.
    fn push(&mut self, number: u32, row: &[u16]) {
        self.rows.truncate(self.rows.len() & !1);
        self.numbers.push(number);
        self.lengths.push(row.len() as u32);
        self.rows.extend(bytes(row));
    }

    /// A symbol before the first row, which then goes on after its tree where it is a leaf, and else ends early.
    fn precede(&mut self, symbol: u16) {
        self.rows.splice(0..0, symbol.to_le_bytes());
        self.lengths.iter_mut().take(1).for_each(|length| *length += 1);
    }

    /// A number above the last one.
    fn next(&self) -> u32 {
        self.numbers.last().map_or(7, |number| number.wrapping_add(1))
    }
}

/// One fault each in what the writer is lent, most with a refusal of its own; the first two are none.
const CATALOGUE_FAULTS: [(&str, fn(&mut Catalogue)); 29] = [
    ("no programmes", |c| *c = Catalogue { arities: c.arities.clone(), numbers: vec![], lengths: vec![], rows: vec![] }),
    ("odd bytes behind", |c| [&mut c.arities, &mut c.rows].into_iter().for_each(|list| list.push(7))),
    ("257 programmes", |c| (0..257).for_each(|_| c.push(c.next(), &[0]))),
    ("an alphabet without symbols", |c| c.arities.clear()),
    ("a long alphabet", |c| c.arities.resize(2 * 1025, 0)),
    ("a first arity of 16", |c| c.arities.iter_mut().take(1).for_each(|byte| *byte = 16)),
    ("a last arity of 256", |c| c.arities.extend([0, 1])),
    ("an alphabet without a leaf", |c| c.arities.chunks_exact_mut(2).for_each(|arity| arity[0] = arity[0].max(1))),
    ("a number twice", |c| c.push(c.next().wrapping_sub(1), &[0])),
    ("a number that falls", |c| c.push(c.next().wrapping_sub(2), &[0])),
    ("a first number that is large", |c| c.numbers.iter_mut().take(1).for_each(|number| *number = u32::MAX)),
    ("a length too many", |c| c.lengths.push(0)),
    ("a length too few", |c| c.lengths.truncate(c.lengths.len().saturating_sub(1))),
    ("lengths that add up to more", |c| c.lengths.iter_mut().take(1).for_each(|length| *length += 1)),
    ("lengths that add up to less", |c| c.lengths.iter_mut().take(1).for_each(|length| *length = length.saturating_sub(1))),
    ("a length of 2^31 more", |c| c.lengths.iter_mut().take(1).for_each(|length| *length ^= 1 << 31)),
    ("lengths of 2^32 more", |c| (0..2).for_each(|_| {
        c.push(c.next(), &[]);
        *c.lengths.last_mut().expect("a length") = 1 << 31;
    })),
    ("rows that are cut elsewhere", |c| if let [first, second, ..] = &mut c.lengths[..] {
        *first += 1;
        *second = second.saturating_sub(1);
    }),
    ("a long file", |c| (0..4).for_each(|_| c.push(c.next(), &[0; 8192]))),
    ("an empty first row", |c| {
        c.numbers.insert(0, 0);
        c.lengths.insert(0, 0);
    }),
    ("an empty last row", |c| c.push(c.next(), &[])),
    ("a long row", |c| c.push(c.next(), &[0; 16385])),
    ("the longest row and one symbol", |c| c.push(c.next(), &[&[1; 16384][..], &[0]].concat())),
    ("a first number that is no symbol", |c| c.precede((c.arities.len() / 2) as u16)),
    ("a last number that is no symbol", |c| c.push(c.next(), &[1, 1, 65535])),
    ("a row that ends early", |c| c.push(c.next(), &[2, 0])),
    ("a first row that ends early", |c| c.precede(2)),
    ("a row that goes on", |c| c.push(c.next(), &[1, 0, 65535])),
    ("a first row that goes on", |c| c.precede(0)),
];

fn put(file: &mut [u8], at: usize, bytes: &[u8]) {
    if let Some(there) = file.get_mut(at..at + bytes.len()) {
        there.copy_from_slice(bytes);
    }
}

/// One fault each in the bytes of a file.
const FILE_FAULTS: [(&str, fn(&mut Vec<u8>)); 16] = [
    ("no bytes", |file| file.clear()),
    ("three bytes", |file| file.truncate(3)),
    ("a head alone", |file| file.truncate(4)),
    ("contents that are cut off", |file| file.truncate(15)),
    ("a byte less", |file| file.truncate(file.len().saturating_sub(1))),
    ("a byte more", |file| file.push(0)),
    ("a byte too many", |file| file.resize(65537, 0)),
    ("as many bytes as there may be", |file| file.resize(65536, 0)),
    ("no programmes in the head", |file| put(file, 0, &[0, 0])),
    ("257 programmes in the head", |file| put(file, 0, &[1, 1])),
    ("65,535 programmes in the head", |file| put(file, 0, &[255, 255])),
    ("no symbols in the head", |file| put(file, 2, &[0, 0])),
    ("1,025 symbols in the head", |file| put(file, 2, &[1, 4])),
    ("a first row that starts late", |file| put(file, 8, &[255, 0, 0, 0])),
    ("a first row that starts 2^24 late", |file| put(file, 11, &[1])),
    ("a first length that is the longest", |file| put(file, 12, &[255; 4])),
];

/// Two faults at a time, which shows their order: in what is written, in a file, and one in each.
fn same_faults(c: &Catalogue) {
    for (one, fault) in CATALOGUE_FAULTS {
        let mut faulty = c.clone();
        fault(&mut faulty);
        same_catalogues(one, &faulty);
        for (other, fault) in CATALOGUE_FAULTS {
            let mut both = faulty.clone();
            fault(&mut both);
            same_catalogues(&format!("{one} and {other}"), &both);
        }
        for (other, fault) in FILE_FAULTS {
            let mut both = faulty.file();
            fault(&mut both);
            same_reading(&format!("{one} and {other}"), &both);
        }
    }
    for (one, fault) in FILE_FAULTS {
        let mut file = c.file();
        fault(&mut file);
        same_reading(one, &file);
        for (other, fault) in FILE_FAULTS {
            let mut both = file.clone();
            fault(&mut both);
            same_reading(&format!("{one} and {other}"), &both);
        }
    }
}

/// Faults are put into small catalogues.
pub fn faulty_catalogues() {
    for symbols in ALPHABETS {
        for lengths in [&[1][..], &[16], &[9, 70, 16]] {
            same_faults(&catalogue("random", symbols, lengths, 2026));
        }
    }
}

pub fn catalogues(all: &Catalogues) {
    for (c, file) in all.all.iter().flatten() {
        same_catalogues(&all.on, c);
        same(&all.on, &ALL, |by| {
            let mut out = vec![7; file.len()];
            catalogue_write(by, c, &mut out).refusal == 0 && out == *file
        });
        assert!(catalogue_read(By::Library, file, &mut [Entry { programme: 0, start: 0, length: 0 }; 256]).refusal == 0, "{}: refused", all.on);
    }
}

/// What is answered with so many places, and what they then hold: behind a refusal what they held before.
fn in_places(places: usize, call: impl FnOnce(&mut [u16]) -> Answer) -> (Answer, Vec<u16>) {
    let mut out = vec![7; places];
    let answer = call(&mut out);
    assert!(answer.refusal == 0 || out.iter().all(|&number| number == 7), "refusal {} has written", answer.refusal);
    (answer, out)
}

/// A list read as a bar form, and written as a row, into buffers of every size that matters.
fn same_forms(what: &str, arities: &[u16], list: &[u16]) {
    let (half, twice) = (list.len() / 2, 2 * list.len());
    for places in [0, half.saturating_sub(1), half, half + 1, half + 20] {
        same(what, &EXPORTED, |by| in_places(places, |row| bars_read(by, arities, list, row)));
    }
    for places in [0, twice.saturating_sub(1), twice, twice + 1, twice + 20] {
        same(what, &EXPORTED, |by| in_places(places, |form| bars_write(by, arities, list, form)));
    }
}

/// One fault each in a bar form or a row, at a place of it or behind it.
const FORM_FAULTS: [(&str, fn(&mut Vec<u16>, usize)); 14] = [
    ("a bar for another number", |list, at| put_number(list, at, BAR)),
    ("a leaf for another number", |list, at| put_number(list, at, 0)),
    ("a symbol of one child for another number", |list, at| put_number(list, at, ONE)),
    ("a symbol of two children for another number", |list, at| put_number(list, at, TWO)),
    ("a number above the symbols", |list, at| put_number(list, at, 17)),
    ("a number below the bar", |list, at| put_number(list, at, BAR - 1)),
    ("a number above the bar", |list, at| put_number(list, at, BAR + 1)),
    ("a bar more", |list, at| list.insert(at.min(list.len()), BAR)),
    ("a leaf more", |list, at| list.insert(at.min(list.len()), 0)),
    ("a symbol of one child more", |list, at| list.insert(at.min(list.len()), ONE)),
    ("a number more that is no symbol", |list, at| list.insert(at.min(list.len()), 1024)),
    ("a number less", |list, at| drop(list.splice(at.min(list.len())..(at + 1).min(list.len()), []))),
    ("an end", |list, at| list.truncate(at)),
    ("the same again", |list, at| list.extend_from_within(at.min(list.len())..)),
];

fn put_number(list: &mut [u16], at: usize, number: u16) {
    list.iter_mut().skip(at).take(1).for_each(|there| *there = number);
}

/// At the first, in the middle, at the last place, beside each and behind all.
fn places(list: &[u16]) -> Vec<usize> {
    let n = list.len();
    let mut all = vec![0, 1, n / 2, n / 2 + 1, n / 2 + 2, n.saturating_sub(2), n - 1, n];
    all.dedup();
    all
}

/// One fault at a time and, where the list is short, two, which shows their order.
fn faulty_forms(arities: &[u16], list: &[u16]) {
    for (one, fault) in FORM_FAULTS {
        for at in places(list) {
            let mut faulty = list.to_vec();
            fault(&mut faulty, at);
            same_forms(one, arities, &faulty);
            for (other, fault) in FORM_FAULTS.iter().filter(|_| list.len() <= 64) {
                for at in places(list) {
                    let mut both = faulty.clone();
                    fault(&mut both, at);
                    same_forms(&format!("{one} and {other}"), arities, &both);
                }
            }
        }
    }
}

/// All short lists of leaves, symbols of one and of two children, a number that is no symbol, and bars; long ones of each kind, as many as
/// each room holds, one more and one less; and all of that with faulty alphabets.
pub fn short_forms() {
    let (arities, numbers) = ([0, 1, 2], [0, 1, 2, 3, BAR]);
    let alphabets = [vec![], vec![0; 1025], vec![0, 1, 16], vec![1, 2, 3]];
    let mut lists: Vec<Vec<u16>> = vec![vec![]];
    for _ in 0..5 {
        lists.iter().for_each(|list| same_forms("a short list", &arities, list));
        lists.iter().for_each(|list| alphabets.iter().for_each(|faulty| same_forms("a faulty alphabet", faulty, list)));
        lists = lists.iter().flat_map(|list| numbers.map(|number| [&list[..], &[number]].concat())).collect();
    }
    lists.iter().for_each(|list| same_forms("a short list", &arities, list));
    for n in [255, 256, 257, 511, 512, 513, 2048, 4095, 4096, 4097, 8192, 8193, 16383, 16384, 16385, 32767, 32768, 32769] {
        same_forms("nodes that stay open", &arities, &vec![1; n]);
        same_forms("nodes that take two", &arities, &[vec![2; n / 2], vec![0; n - n / 2]].concat());
        same_forms("trees side by side", &arities, &[0, BAR].repeat(n / 2));
        same_forms("bars", &arities, &vec![BAR; n]);
        alphabets.iter().for_each(|faulty| same_forms("a faulty alphabet", faulty, &vec![1; n]));
    }
}

/// Every row, what its bar form is, and that the form is read as the row; then faults in both.
pub fn forms(rows: &Rows) {
    for p in rows.all.iter().flatten() {
        let (n, whole) = (p.row.len(), form(p));
        let read = in_places(n, |row| bars_read(By::Library, &rows.arities, &whole, row));
        let written = in_places(2 * n, |form| bars_write(By::Library, &rows.arities, &p.row, form));
        assert!(read.0.count == n as u64 && read.1 == p.row, "{}: not read as the row", rows.shape);
        assert!(written.0.count == 2 * n as u64 && written.1 == whole, "{}: not written as its bar form", rows.shape);
        same_forms(rows.shape, &rows.arities, &whole);
        same_forms(rows.shape, &rows.arities, &p.row);
    }
    for same_length in &rows.all {
        faulty_forms(&rows.arities, &form(&same_length[0]));
        faulty_forms(&rows.arities, &same_length[0].row);
    }
}
