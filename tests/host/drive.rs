// Drives the archive's server (serve.c) with random inputs and holds every answer, and every byte that the call left, against
// a model of docs/SCOPE.md that is written from what a row means: a tree. The model shares nothing with the proved code.
//
// drive [--seed N] [--inputs N] SERVER [WORD..]: the last words start the server. Its last line is `N passed, M failed`.
use std::collections::{BTreeSet, HashMap};
use std::io::{Read, Write};
use std::process::{Child, ChildStdin, ChildStdout, Command, Stdio};

// ---- the model -------------------------------------------------------------------------------------------------------------

const BLANK: u16 = 65535;
const MOST: usize = 16384;

#[derive(Clone)]
struct Node {
    symbol: u16,
    children: Vec<Node>,
}

// A refusal of docs/SCOPE.md: number and place.
type Refused = (u32, u64);

fn variable(symbol: u16) -> Option<usize> {
    if (65280..=65295).contains(&symbol) {
        Some(symbol as usize - 65280)
    } else {
        None
    }
}

// Faults of a list that should be a row: which numbers they have depends on what the list is for.
struct Numbers {
    empty: u32,
    long: u32,
    stray: u32,
    early: u32,
    extra: u32,
    most: usize,
    leaves: bool,
}

const ROW: Numbers = Numbers { empty: 4, long: 5, stray: 7, early: 8, extra: 9, most: MOST, leaves: false };
const PATTERN: Numbers = Numbers { empty: 11, long: 12, stray: 13, early: 14, extra: 15, most: 256, leaves: true };
const REPLACEMENT: Numbers = Numbers { empty: 24, long: 25, stray: 27, early: 28, extra: 29, most: MOST, leaves: false };

fn size_fault(n: u64, k: &Numbers) -> Result<(), Refused> {
    if n == 0 {
        return Err((k.empty, 0));
    }
    if n > k.most as u64 {
        return Err((k.long, n));
    }
    Ok(())
}

// A node: its symbol, then as many nodes as the symbol's arity says.
fn node(arities: &[u16], list: &[u16], at: &mut usize, k: &Numbers) -> Result<Node, Refused> {
    if *at == list.len() {
        return Err((k.early, list.len() as u64));
    }
    let symbol = list[*at];
    let arity = match arities.get(symbol as usize) {
        Some(&a) => a,
        None if k.leaves && (symbol == BLANK || variable(symbol).is_some()) => 0,
        None => return Err((k.stray, *at as u64)),
    };
    *at += 1;
    let mut children = Vec::with_capacity(arity as usize);
    for _ in 0..arity {
        children.push(node(arities, list, at, k)?);
    }
    Ok(Node { symbol, children })
}

fn tree(arities: &[u16], list: &[u16], k: &Numbers) -> Result<Node, Refused> {
    let mut at = 0;
    let root = node(arities, list, &mut at, k)?;
    if at < list.len() {
        return Err((k.extra, at as u64));
    }
    Ok(root)
}

fn write_row(t: &Node, row: &mut Vec<u16>) {
    row.push(t.symbol);
    for c in &t.children {
        write_row(c, row);
    }
}

fn row_of(t: &Node) -> Vec<u16> {
    let mut row = vec![];
    write_row(t, &mut row);
    row
}

fn write_ends(t: &Node, at: usize, table: &mut Vec<u16>) -> usize {
    table.push(0);
    let mut end = at + 1;
    for c in &t.children {
        end = write_ends(c, end, table);
    }
    table[at] = end as u16;
    end
}

fn table_of(t: &Node) -> Vec<u16> {
    let mut table = vec![];
    write_ends(t, 0, &mut table);
    table
}

// All subtrees, in the order of their positions.
fn subtrees<'a>(t: &'a Node, all: &mut Vec<&'a Node>) {
    all.push(t);
    for c in &t.children {
        subtrees(c, all);
    }
}

// For each position the first whose subtree is equal, symbol by symbol. Only subtrees of one size are compared, and only with
// those that were the first of their kind.
fn classes_of(t: &Node) -> Vec<u16> {
    let (row, table) = (row_of(t), table_of(t));
    let mut firsts: HashMap<usize, Vec<usize>> = HashMap::new();
    let mut class = |p: usize| {
        let size = table[p] as usize - p;
        let same_size = firsts.entry(size).or_default();
        if let Some(&q) = same_size.iter().find(|&&q| row[q..q + size] == row[p..p + size]) {
            return q as u16;
        }
        same_size.push(p);
        p as u16
    };
    (0..row.len()).map(&mut class).collect()
}

fn equal(a: &Node, b: &Node) -> bool {
    a.symbol == b.symbol && a.children.len() == b.children.len() && a.children.iter().zip(&b.children).all(|(x, y)| equal(x, y))
}

fn fits<'a>(p: &Node, t: &'a Node, chosen: &mut [Option<&'a Node>; 16]) -> bool {
    if p.symbol == BLANK {
        return true;
    }
    if let Some(v) = variable(p.symbol) {
        return match chosen[v] {
            Some(u) => equal(u, t),
            None => {
                chosen[v] = Some(t);
                true
            }
        };
    }
    p.symbol == t.symbol && p.children.len() == t.children.len() && p.children.iter().zip(&t.children).all(|(x, y)| fits(x, y, chosen))
}

fn positions(p: &Node, t: &Node) -> Vec<u16> {
    let mut all = vec![];
    subtrees(t, &mut all);
    (0..all.len()).filter(|&i| fits(p, all[i], &mut [None; 16])).map(|i| i as u16).collect()
}

// The tree with the subtree at position p replaced; `at` counts the nodes that were passed.
fn put(t: &Node, p: usize, u: &Node, at: &mut usize) -> Node {
    let here = *at;
    *at += 1;
    let children = t.children.iter().map(|c| put(c, p, u, at)).collect();
    if here == p {
        u.clone()
    } else {
        Node { symbol: t.symbol, children }
    }
}

fn numbers(bytes: &[u8]) -> Vec<u16> {
    bytes.chunks_exact(2).map(|b| b[0] as u16 + 256 * b[1] as u16).collect()
}

fn bytes(numbers: &[u16]) -> Vec<u8> {
    numbers.iter().flat_map(|n| [(n % 256) as u8, (n / 256) as u8]).collect()
}

fn store(buffer: &mut [u8], from: usize, list: &[u16]) {
    buffer[2 * from..2 * (from + list.len())].copy_from_slice(&bytes(list));
}

fn alphabet_fault(arities: &[u16]) -> Result<(), Refused> {
    if arities.is_empty() || arities.len() > 1024 {
        return Err((1, arities.len() as u64));
    }
    if let Some(k) = arities.iter().position(|&a| a > 15) {
        return Err((2, k as u64));
    }
    if !arities.contains(&0) {
        return Err((3, 0));
    }
    Ok(())
}

// What is lent to a call, and, after it, what the buffers hold.
#[derive(Clone, Default, PartialEq)]
struct Lent {
    arities: Vec<u8>,
    row: Vec<u8>,
    table: Vec<u8>,
    classes: Vec<u8>,
    other: Vec<u8>,   // pattern or replacement, or the patterns of a sheet
    lengths: Vec<u8>, // of a sheet's patterns; or, four bytes each, of a catalogue's rows, which are lent as the row
    out: Vec<u8>,
    results: Vec<u8>,
    numbers: Vec<u8>, // of a catalogue's programmes, four bytes each
    file: Vec<u8>,
    entries: Vec<u8>, // records, three numbers of four bytes each
    bars: Vec<u8>,
    length: u64,
    position: u64,
}

#[derive(Clone, Copy, PartialEq, Debug, Default)]
struct Answer {
    refusal: u32,
    change: i32,
    programme: u32,
    place: u64,
    count: u64,
}

// Refusals 1 to 9, and the tree of the row of the first n numbers.
fn row_tree(x: &Lent, n: u64, room: usize) -> Result<(Vec<u16>, Node), Refused> {
    let arities = numbers(&x.arities);
    alphabet_fault(&arities)?;
    size_fault(n, &ROW)?;
    if (room as u64) < n {
        return Err((6, n));
    }
    let t = tree(&arities, &numbers(&x.row)[..n as usize], &ROW)?;
    Ok((arities, t))
}

// The first place where what is kept beside a row is not the row's, and the refusal for it.
fn differs(refusal: u32, right: &[u16], kept: &[u8]) -> Result<(), Refused> {
    match right.iter().zip(&numbers(kept)).position(|(e, g)| e != g) {
        Some(p) => Err((refusal, p as u64)),
        None => Ok(()),
    }
}

// Refusals 10 and 62.
fn stale(x: &Lent, t: &Node) -> Result<(), Refused> {
    differs(10, &table_of(t), &x.table)?;
    differs(62, &classes_of(t), &x.classes)
}

// How many numbers the shorter list of those beside the row has.
fn room_beside(x: &Lent) -> usize {
    x.table.len().min(x.classes.len()) / 2
}

fn model_build(x: &mut Lent) -> Result<Answer, Refused> {
    let n = x.row.len() / 2;
    let (_, t) = row_tree(x, n as u64, room_beside(x))?;
    store(&mut x.table, 0, &table_of(&t));
    store(&mut x.classes, 0, &classes_of(&t));
    Ok(Answer { count: n as u64, ..Answer::default() })
}

fn model_find(x: &mut Lent) -> Result<Answer, Refused> {
    let (arities, t) = row_tree(x, x.row.len() as u64 / 2, room_beside(x))?;
    stale(x, &t)?;
    let list = numbers(&x.other);
    size_fault(list.len() as u64, &PATTERN)?;
    let found = positions(&tree(&arities, &list, &PATTERN)?, &t);
    if x.out.len() / 2 < found.len() {
        return Err((19, found.len() as u64));
    }
    store(&mut x.out, 0, &found);
    Ok(Answer { count: found.len() as u64, ..Answer::default() })
}

// A sheet: patterns cut from one list by their lengths, each with the positions of its own matches. Numbers are wide here, so that
// no sum is cut off.
fn model_sheet(x: &mut Lent) -> Result<Answer, Refused> {
    let (arities, t) = row_tree(x, x.row.len() as u64 / 2, room_beside(x))?;
    stale(x, &t)?;
    let (mut left, lengths) = (&numbers(&x.other)[..], numbers(&x.lengths));
    if lengths.is_empty() || lengths.len() > 64 {
        return Err((63, lengths.len() as u64));
    }
    if lengths.iter().map(|&n| n as u64).sum::<u64>() != left.len() as u64 {
        return Err((64, left.len() as u64));
    }
    if x.results.len() / 2 < 3 * lengths.len() {
        return Err((19, 3 * lengths.len() as u64));
    }
    let (mut all, mut results) = (vec![], vec![]);
    for n in lengths {
        let (list, rest) = left.split_at(n as usize);
        left = rest;
        match size_fault(n as u64, &PATTERN).and_then(|()| tree(&arities, list, &PATTERN)) {
            Ok(p) => {
                let found = positions(&p, &t);
                results.extend([0, 0, found.len() as u16]);
                all.extend(found);
            }
            Err((refusal, place)) => results.extend([refusal as u16, place as u16, 0]),
        }
    }
    if x.out.len() / 2 < all.len() {
        return Err((19, all.len() as u64));
    }
    store(&mut x.out, 0, &all);
    store(&mut x.results, 0, &results);
    Ok(Answer { count: all.len() as u64, ..Answer::default() })
}

fn model_replace(x: &mut Lent) -> Result<Answer, Refused> {
    let room = (x.row.len() / 2).min(room_beside(x));
    let (arities, t) = row_tree(x, x.length, room)?;
    stale(x, &t)?;
    let list = numbers(&x.other);
    size_fault(list.len() as u64, &REPLACEMENT)?;
    let u = tree(&arities, &list, &REPLACEMENT)?;
    if x.position >= x.length {
        return Err((17, x.position));
    }
    let new = put(&t, x.position as usize, &u, &mut 0);
    let row = row_of(&new);
    let (old, m) = (x.length as usize, row.len());
    if m > MOST || m > room {
        return Err((18, m as u64));
    }
    store(&mut x.row, 0, &row);
    store(&mut x.table, 0, &table_of(&new));
    store(&mut x.classes, 0, &classes_of(&new));
    for free in m..old {
        store(&mut x.row, free, &[65535]);
        store(&mut x.table, free, &[0]);
        store(&mut x.classes, free, &[0]);
    }
    Ok(Answer { change: m as i32 - old as i32, count: m as u64, ..Answer::default() })
}

// ---- the model of catalogue files ------------------------------------------------------------------------------------------

// An alphabet, and programmes over it: number and row. It need not be a right one.
#[derive(Clone)]
struct Catalogue {
    arities: Vec<u16>,
    programmes: Vec<(u32, Vec<u16>)>,
}

// A refusal of a file: number and place, and beside a row's fault the number of the programme, else 0.
type FileRefused = (Refused, u32);

fn of_no_programme(r: Refused) -> FileRefused {
    (r, 0)
}

// A number of any width, the lowest byte first.
fn wide(b: &[u8]) -> u64 {
    b.iter().rev().fold(0, |n, &x| 256 * n + x as u64)
}

fn wides(b: &[u8]) -> Vec<u64> {
    b.chunks_exact(4).map(wide).collect()
}

fn four_bytes(numbers: impl Iterator<Item = u32>) -> Vec<u8> {
    numbers.flat_map(|n| n.to_le_bytes()).collect()
}

// Where the first row starts.
fn rows_at(programmes: usize, symbols: usize) -> usize {
    4 + 12 * programmes + symbols
}

// The file of a catalogue, part by part. An arity that takes more than a byte has none; it gets the byte's most.
fn file_of(c: &Catalogue) -> Vec<u8> {
    let mut f = bytes(&[c.programmes.len() as u16, c.arities.len() as u16]);
    let mut start = rows_at(c.programmes.len(), c.arities.len());
    for (number, row) in &c.programmes {
        f.extend(four_bytes([*number, start as u32, row.len() as u32].into_iter()));
        start += 2 * row.len();
    }
    f.extend(c.arities.iter().map(|&a| a.min(255) as u8));
    c.programmes.iter().for_each(|(_, row)| f.extend(bytes(row)));
    f
}

// 67: where a number stands that is not above the one before it.
fn falls(numbers: &[u64]) -> Option<usize> {
    numbers.windows(2).position(|w| w[1] <= w[0]).map(|i| i + 1)
}

// 4, 5, 7, 8, 9 of one programme's row.
fn row_fault(arities: &[u16], number: u64, row: &[u16]) -> Result<(), FileRefused> {
    size_fault(row.len() as u64, &ROW).and_then(|()| tree(arities, row, &ROW)).map(|_| ()).map_err(|r| (r, number as u32))
}

// What a file says, read from the front. Numbers are wide, so that no sum is cut off.
fn file_says(f: &[u8]) -> Result<(Vec<u16>, Vec<[u64; 3]>), FileRefused> {
    let size = f.len();
    let refuse = |number: u32, place: usize| Err(((number, place as u64), 0));
    if size > 65536 {
        return refuse(66, size);
    }
    if size < 4 {
        return refuse(65, size);
    }
    let (n, s) = (wide(&f[..2]) as usize, wide(&f[2..4]) as usize);
    if size < rows_at(n, s) {
        return refuse(65, size);
    }
    if n > 256 {
        return refuse(88, n);
    }
    let (contents, arities) = f[4..rows_at(n, s)].split_at(12 * n);
    let arities: Vec<u16> = arities.iter().map(|&a| a as u16).collect();
    alphabet_fault(&arities).map_err(of_no_programme)?;
    let entries: Vec<[u64; 3]> = contents.chunks(12).map(|e| [wide(&e[..4]), wide(&e[4..8]), wide(&e[8..])]).collect();
    if let Some(i) = falls(&entries.iter().map(|e| e[0]).collect::<Vec<_>>()) {
        return refuse(67, 4 + 12 * i);
    }
    let mut next = rows_at(n, s) as u64;
    for (i, [_, start, length]) in entries.iter().enumerate() {
        if *start != next || start + 2 * length > size as u64 {
            return refuse(68, 4 + 12 * i);
        }
        next = start + 2 * length;
    }
    if next < size as u64 {
        return refuse(69, next as usize);
    }
    for [number, start, length] in &entries {
        row_fault(&arities, *number, &numbers(&f[*start as usize..(start + 2 * length) as usize]))?;
    }
    Ok((arities, entries))
}

fn model_read(x: &mut Lent) -> Result<Answer, FileRefused> {
    let (_, entries) = file_says(&x.file)?;
    let n = entries.len();
    if x.entries.len() / 12 < n {
        return Err(((19, n as u64), 0));
    }
    x.entries[..12 * n].copy_from_slice(&four_bytes(entries.iter().flatten().map(|&v| v as u32)));
    Ok(Answer { count: n as u64, ..Answer::default() })
}

fn model_write(x: &mut Lent) -> Result<Answer, FileRefused> {
    let (arities, rows, ns, ls) = (numbers(&x.arities), numbers(&x.row), wides(&x.numbers), wides(&x.lengths));
    let refuse = |number: u32, place: usize| Err(((number, place as u64), 0));
    if ns.len() > 256 {
        return refuse(88, ns.len());
    }
    alphabet_fault(&arities).map_err(of_no_programme)?;
    if let Some(i) = falls(&ns) {
        return refuse(67, i);
    }
    if ls.len() != ns.len() || ls.iter().sum::<u64>() != rows.len() as u64 {
        return refuse(68, rows.len());
    }
    let size = rows_at(ns.len(), arities.len()) + 2 * rows.len();
    if size > 65536 {
        return refuse(66, size);
    }
    let (mut left, mut programmes) = (&rows[..], vec![]);
    for (n, l) in ns.iter().zip(ls) {
        let (row, rest) = left.split_at(l as usize);
        row_fault(&arities, *n, row)?;
        programmes.push((*n as u32, row.to_vec()));
        left = rest;
    }
    if x.file.len() < size {
        return refuse(19, size);
    }
    x.file[..size].copy_from_slice(&file_of(&Catalogue { arities, programmes }));
    Ok(Answer { count: size as u64, ..Answer::default() })
}

// Which of the causes of a 68 it was. One stands for each that a sum of 32 bits would have passed over.
const CAUSES: [&str; 6] = ["a start", "an end", "an end over 2^32", "how many lengths", "their sum", "a sum over 2^32"];

fn cause(call: u32, x: &Lent, place: u64) -> usize {
    if call == CATALOGUE_WRITE {
        let (ls, m) = (wides(&x.lengths), x.row.len() as u64 / 2);
        return if ls.len() != x.numbers.len() / 4 { 3 } else if ls.iter().sum::<u64>() % (1 << 32) == m { 5 } else { 4 };
    }
    let f = &x.file;
    let lengths = f[4..place as usize].chunks(12).map(|e| wide(&e[8..]));
    let next = rows_at(wide(&f[..2]) as usize, wide(&f[2..4]) as usize) as u64 + 2 * lengths.sum::<u64>();
    let entry = &f[place as usize..place as usize + 12];
    let end = next + 2 * wide(&entry[8..]);
    if wide(&entry[4..8]) != next { 0 } else if end % (1 << 32) <= f.len() as u64 { 2 } else { 1 }
}

// ---- the model of bar forms ------------------------------------------------------------------------------------------------

const BAR: u16 = 65534;
const MOST_BARS: usize = 2 * MOST;

// A node of a bar form: its symbol, as many nodes as the symbol's arity says, its bar. What stands at `at` may begin a node.
fn barred_node(arities: &[u16], list: &[u16], at: &mut usize) -> Result<Node, Refused> {
    let symbol = list[*at];
    let arity = *arities.get(symbol as usize).ok_or((7, *at as u64))?;
    *at += 1;
    let mut children = vec![];
    for _ in 0..arity {
        match list.get(*at) {
            None => return Err((72, list.len() as u64)),
            Some(&BAR) => return Err((71, *at as u64)),
            Some(_) => children.push(barred_node(arities, list, at)?),
        }
    }
    match list.get(*at) {
        None => Err((72, list.len() as u64)),
        Some(&BAR) => {
            *at += 1;
            Ok(Node { symbol, children })
        }
        Some(_) => Err((71, *at as u64)),
    }
}

fn barred_tree(arities: &[u16], list: &[u16]) -> Result<Node, Refused> {
    if list[0] == BAR {
        return Err((70, 0));
    }
    let mut at = 0;
    let root = barred_node(arities, list, &mut at)?;
    if at < list.len() {
        return Err((70, at as u64));
    }
    Ok(root)
}

fn write_bars(t: &Node, list: &mut Vec<u16>) {
    list.push(t.symbol);
    t.children.iter().for_each(|c| write_bars(c, list));
    list.push(BAR);
}

fn bars_of(t: &Node) -> Vec<u16> {
    let mut list = vec![];
    write_bars(t, &mut list);
    list
}

fn model_bars_read(x: &mut Lent) -> Result<Answer, Refused> {
    let (arities, list) = (numbers(&x.arities), numbers(&x.bars));
    alphabet_fault(&arities)?;
    size_fault(list.len() as u64, &Numbers { most: MOST_BARS, ..ROW })?;
    let row = row_of(&barred_tree(&arities, &list)?);
    if x.row.len() / 2 < row.len() {
        return Err((19, row.len() as u64));
    }
    store(&mut x.row, 0, &row);
    Ok(Answer { count: row.len() as u64, ..Answer::default() })
}

fn model_bars_write(x: &mut Lent) -> Result<Answer, Refused> {
    let (arities, row) = (numbers(&x.arities), numbers(&x.row));
    alphabet_fault(&arities)?;
    size_fault(row.len() as u64, &ROW)?;
    let list = bars_of(&tree(&arities, &row, &ROW)?);
    if x.bars.len() / 2 < list.len() {
        return Err((19, list.len() as u64));
    }
    store(&mut x.bars, 0, &list);
    Ok(Answer { count: list.len() as u64, ..Answer::default() })
}

// Which of the causes of a 70 or a 71 it was: what stands where it may not.
const BAR_CAUSES: [&str; 7] = [
    "70 for a bar at the front",
    "70 for a bar behind the root",
    "70 for a symbol there",
    "70 for another number there",
    "71 for a bar too soon",
    "71 for a child too many",
    "71 for another number there",
];

fn bar_cause(x: &Lent, refusal: u32, place: u64) -> usize {
    let number = numbers(&x.bars)[place as usize];
    let kind = if number == BAR { 0 } else if (number as usize) < x.arities.len() / 2 { 1 } else { 2 };
    match refusal {
        70 if place == 0 => 0,
        70 => 1 + kind,
        _ => 4 + kind,
    }
}

// ---- the archive, behind its server ----------------------------------------------------------------------------------------

const BUILD: u32 = 1;
const FIND: u32 = 2;
const REPLACE: u32 = 3;
const SHEET: u32 = 4;
const CATALOGUE_READ: u32 = 5;
const CATALOGUE_WRITE: u32 = 6;
const BARS_READ: u32 = 7;
const BARS_WRITE: u32 = 8;
const NAMES: [&str; 9] = ["", "build", "find", "replace", "sheet", "catalogue read", "catalogue write", "bars read", "bars write"];

fn on_file(call: u32) -> bool {
    call == CATALOGUE_READ || call == CATALOGUE_WRITE
}

struct Server {
    child: Child,
    to: ChildStdin,
    from: ChildStdout,
}

impl Server {
    fn start(words: &[String]) -> Server {
        let mut child = Command::new(&words[0]).args(&words[1..]).stdin(Stdio::piped()).stdout(Stdio::piped()).spawn().expect("the server starts");
        let to = child.stdin.take().unwrap();
        let from = child.stdout.take().unwrap();
        Server { child, to, from }
    }

    // The answer, and whether a byte changed that no call may change; the buffers are as the call left them.
    fn call(&mut self, call: u32, shift: u32, x: &mut Lent) -> (Answer, bool) {
        let lists = [
            &x.arities, &x.row, &x.table, &x.classes, &x.other, &x.lengths, &x.out, &x.results, &x.numbers, &x.file, &x.entries, &x.bars,
        ];
        let mut q = vec![];
        q.extend(call.to_le_bytes());
        q.extend(shift.to_le_bytes());
        q.extend(x.length.to_le_bytes());
        q.extend(x.position.to_le_bytes());
        lists.iter().for_each(|l| q.extend((l.len() as u32).to_le_bytes()));
        lists.iter().for_each(|l| q.extend(l.iter()));
        self.to.write_all(&q).expect("the server reads");
        let written = [&mut x.row, &mut x.table, &mut x.classes, &mut x.out, &mut x.results, &mut x.file, &mut x.entries, &mut x.bars];
        let mut a = vec![0u8; 28 + written.iter().map(|list| list.len()).sum::<usize>()];
        self.from.read_exact(&mut a).expect("the server answers");
        let word = |i: usize| u32::from_le_bytes([a[i], a[i + 1], a[i + 2], a[i + 3]]);
        let long = |i: usize| word(i) as u64 + ((word(i + 4) as u64) << 32);
        let (change, programme) = if on_file(call) { (0, word(4)) } else { (word(4) as i32, 0) };
        let answer = Answer { refusal: word(0), change, programme, place: long(8), count: long(16) };
        let damage = word(24) != 0;
        let mut left = &a[28..];
        for list in written {
            let (mine, rest) = left.split_at(list.len());
            list.copy_from_slice(mine);
            left = rest;
        }
        (answer, damage)
    }
}

// ---- random inputs ---------------------------------------------------------------------------------------------------------

// How classes are made wrong.
#[derive(Clone, Copy, Debug)]
enum Wrong {
    OneOff,
    BehindRow,
    AllZero,
    AllOwn,
    Shuffled,
    Noise,
    LaterEqual,
    LaterLeads,
    CopyLeads,
}

const WRONGS: [Wrong; 9] = [
    Wrong::OneOff,
    Wrong::BehindRow,
    Wrong::AllZero,
    Wrong::AllOwn,
    Wrong::Shuffled,
    Wrong::Noise,
    Wrong::LaterEqual,
    Wrong::LaterLeads,
    Wrong::CopyLeads,
];

struct Dice(u64);

impl Dice {
    fn next(&mut self) -> u64 {
        self.0 = self.0.wrapping_add(0x9E3779B97F4A7C15);
        let mut z = self.0;
        z = (z ^ (z >> 30)).wrapping_mul(0xBF58476D1CE4E5B9);
        z = (z ^ (z >> 27)).wrapping_mul(0x94D049BB133111EB);
        z ^ (z >> 31)
    }

    fn below(&mut self, n: usize) -> usize {
        (self.next() % n as u64) as usize
    }

    fn one_in(&mut self, n: usize) -> bool {
        self.below(n) == 0
    }

    fn pick<T: Copy>(&mut self, list: &[T]) -> T {
        list[self.below(list.len())]
    }

    // A good alphabet: symbol 0 is a leaf, symbol 1 has one child, the others have few or, now and then, up to 15.
    fn alphabet(&mut self) -> Vec<u16> {
        let n = if self.one_in(60) { 1024 } else { 2 + self.below(5) };
        let most = if self.one_in(8) { 16 } else { 4 };
        (0..n).map(|k| if k < 2 { k as u16 } else { self.below(most) as u16 }).collect()
    }

    // A row of at most n symbols over a good alphabet, of just n where `exact`.
    fn row(&mut self, arities: &[u16], n: usize, exact: bool) -> Vec<u16> {
        let (mut row, mut open) = (vec![], 1);
        while open > 0 {
            let left = n - row.len();
            let mut s = self.below(arities.len());
            if open - 1 + arities[s] as usize + 1 > left || (open == 1 && arities[s] == 0 && left > 1 && !self.one_in(6)) {
                s = if open < left && (exact || self.one_in(2)) { 1 } else { 0 };
            }
            if exact && arities[s] == 0 && open == 1 && left > 1 {
                s = 1;
            }
            row.push(s as u16);
            open += arities[s] as usize;
            open -= 1;
        }
        row
    }

    fn length(&mut self) -> usize {
        match self.below(400) {
            0 => MOST,
            1 => 1 + self.below(MOST),
            2..=20 => 1 + self.below(400),
            _ => 1 + self.below(24),
        }
    }

    // A row in which some leaves have given way to one of a few blocks, so that long subtrees stand there again and again.
    fn repeating_row(&mut self, arities: &[u16], n: usize) -> Vec<u16> {
        let blocks = [(); 3].map(|()| {
            let most = 1 + self.below(9);
            self.row(arities, most, true)
        });
        let frame = self.row(arities, 1 + n / 6, false);
        let mut spare = n - frame.len();
        let mut row = vec![];
        for s in frame {
            let block = &blocks[self.below(3)];
            if arities[s as usize] == 0 && block.len() <= spare && !self.one_in(4) {
                spare -= block.len();
                row.extend(block);
            } else {
                row.push(s);
            }
        }
        row
    }

    fn good_row(&mut self, arities: &[u16]) -> Vec<u16> {
        let n = self.length();
        if n != MOST && self.one_in(3) {
            return self.repeating_row(arities, n);
        }
        let exact = self.one_in(3) || n == MOST;
        self.row(arities, n, exact)
    }

    // Classes that are no longer the row's, or, where the row has no such place, still are.
    fn misclass(&mut self, wrong: Wrong, row: &[u16], table: &[u16], classes: &mut [u16]) {
        let n = row.len();
        // two positions with equal subtrees, the first of their kind and a later one, if the row has such
        let later: Vec<usize> = (0..n).filter(|&p| (classes[p] as usize) < p).collect();
        let pair = if later.is_empty() { None } else { Some(self.pick(&later)).map(|p| (classes[p] as usize, p)) };
        let p = self.below(n);
        match (wrong, pair) {
            (Wrong::OneOff, _) => classes[p] = classes[p].wrapping_add(self.pick(&[1, 65535, 2, 256, 16384, 32768, 49152])),
            (Wrong::BehindRow, _) => classes[p] = self.pick(&[n as u16, n as u16 + 1, 16383, 16384, 65535]),
            (Wrong::AllZero, _) => classes.fill(0),
            (Wrong::AllOwn, _) => (0..n).for_each(|p| classes[p] = p as u16),
            (Wrong::Shuffled, _) => classes.swap(p, self.below(n)),
            (Wrong::Noise, _) => classes.iter_mut().for_each(|c| *c = self.below(n + 1) as u16),
            // one position names another with an equal subtree, maybe itself
            (Wrong::LaterEqual, Some((first, _))) => {
                let same: Vec<usize> = (first..n).filter(|&q| classes[q] as usize == first).collect();
                let (at, named) = (self.pick(&same), self.pick(&same[1..]));
                classes[at] = named as u16;
            }
            // all of a kind name one that is not the first, the first too or only those from there on
            (Wrong::LaterLeads, Some((first, second))) => {
                let from = self.pick(&[first, second]);
                classes[from..].iter_mut().filter(|c| **c as usize == first).for_each(|c| *c = second as u16);
            }
            // a repeated subtree and all below it stand for themselves, as in a row of which they are the first of their kind
            (Wrong::CopyLeads, Some((first, second))) => {
                let end = table[second] as usize;
                let inside = first as u16..(first + end - second) as u16;
                classes[second..end].iter_mut().filter(|c| inside.contains(c)).for_each(|c| *c += (second - first) as u16);
            }
            (_, None) => (),
        }
    }

    // One fault, or none that shows.
    fn damage(&mut self, list: &mut Vec<u16>, symbols: usize) {
        let n = list.len();
        match self.below(6) {
            0 => list.truncate(self.below(n + 1)),
            1 => list.push(self.below(symbols + 2) as u16),
            2 if n > 0 => {
                let k = self.below(n);
                list[k] = self.pick(&[0, 1, symbols as u16, 65279, 65280, 65295, 65296, 65534, 65535, 300]);
            }
            3 if n > 1 => {
                let (i, j) = (self.below(n), self.below(n));
                list.swap(i, j);
            }
            4 if n > 0 => {
                let k = self.below(n);
                list.remove(k);
            }
            _ => list.insert(self.below(n + 1), self.below(symbols + 1) as u16),
        }
    }

    fn bad_alphabet(&mut self, arities: &mut Vec<u16>) {
        match self.below(5) {
            0 => arities.clear(),
            1 => arities.resize(1025 + self.below(3), 16),
            2 | 3 => {
                let k = self.below(arities.len());
                arities[k] = self.pick(&[16, 15, 17, 256, 65535]);
            }
            _ => arities.iter_mut().for_each(|a| *a = (*a).max(1)),
        }
    }

    // The list as bytes, with an odd last byte now and then.
    fn lend(&mut self, list: &[u16]) -> Vec<u8> {
        let mut b = bytes(list);
        if self.one_in(3) {
            b.push(self.below(256) as u8);
        }
        b
    }

    // A buffer that begins with the list, with `more` further bytes.
    fn buffer(&mut self, list: &[u16], more: usize) -> Vec<u8> {
        let mut b = bytes(list);
        b.extend((0..more).map(|_| self.next() as u8));
        b
    }

    // A pattern made of a subtree of the row: some of its subtrees become blanks or variables, equal ones often the same.
    fn pattern(&mut self, arities: &[u16], row: &[u16], table: &[u16]) -> Vec<u16> {
        let p = if row.len() < 300 { self.below(row.len()) } else { row.len() - 1 - self.below(300) };
        let (mut q, mut i, end) = (vec![], p, table[p] as usize);
        let chance = 2 + self.below(8);
        let mut seen: Vec<(&[u16], u16)> = vec![];
        while i < end {
            let part = &row[i..table[i] as usize];
            if self.one_in(chance) {
                let known = seen.iter().find(|(x, _)| *x == part).map(|(_, v)| *v);
                let v = match known {
                    Some(v) if !self.one_in(4) => v,
                    _ => self.pick(&[BLANK, 65280, 65281, 65282, 65295]),
                };
                seen.push((part, v));
                q.push(v);
                i += part.len();
            } else {
                q.push(row[i]);
                i += 1;
            }
        }
        if q.len() > 256 && !self.one_in(4) {
            q = vec![arities.iter().position(|&a| a == 1).unwrap_or(0) as u16, BLANK];
        }
        q
    }

    // One of a sheet's patterns, made of the row where that is `good`: found or not, or faulty, empty, or too long.
    fn sheet_pattern(&mut self, k: &Kept) -> Vec<u16> {
        let mut q = if k.good && !self.one_in(5) { self.pattern(&k.arities, &k.row, &k.table) } else { vec![BLANK] };
        match self.below(40) {
            0..=3 => self.damage(&mut q, k.arities.len()),
            4 | 5 => q.clear(),
            6 => {
                q = vec![1; self.pick(&[254, 255, 256, 257, 300])];
                q.push(BLANK);
            }
            _ => (),
        }
        q
    }

    fn sheet_size(&mut self) -> usize {
        match self.below(40) {
            0 => 0,
            1..=3 => 1,
            4..=6 => self.pick(&[63, 64, 64, 65, 66]),
            7..=9 => self.below(67),
            _ => 2 + self.below(8),
        }
    }

    // Makes the lengths wrong, or the list that they cut: most sums are then no longer right, by a little or by just what 16 bits
    // lose, and some are, with the patterns cut elsewhere.
    fn wrong_lengths(&mut self, patterns: &mut Vec<u16>, lengths: &mut Vec<u16>) {
        if lengths.is_empty() {
            return patterns.push(BLANK);
        }
        let n = lengths.len();
        let (i, j) = (self.below(n), self.below(n));
        match self.below(8) {
            0 => lengths[i] = lengths[i].wrapping_add(self.pick(&[1, 65535, 256, 32768])),
            1 => patterns.push(BLANK),
            2 => drop(patterns.pop()),
            3 => drop(lengths.remove(i)),
            // 65,536 more than is lent, in two lengths
            4 | 5 if i != j && lengths[i] < 65535 => {
                let more = 1 + self.below(65535 - lengths[i] as usize);
                lengths[i] += more as u16;
                lengths[j] = lengths[j].saturating_add((65536 - more) as u16);
            }
            6 => lengths.swap(i, j),
            7 if i != j && lengths[i] > 0 && lengths[j] < 65535 => {
                lengths[i] -= 1;
                lengths[j] += 1;
            }
            _ => patterns.clear(),
        }
    }
}

// ---- random catalogues and files -------------------------------------------------------------------------------------------

impl Dice {
    // As `alphabet`, of more sizes; one may be a leaf alone.
    fn file_alphabet(&mut self) -> Vec<u16> {
        let mut arities = self.alphabet();
        match self.below(40) {
            0 => arities.truncate(1),
            1 => arities.resize(1023 + self.below(2), 0),
            2 => arities.resize(7 + self.below(1000), 3),
            _ => (),
        }
        arities
    }

    // Strictly rising numbers: the least, the greatest, some that are close to where a byte is full, or any.
    fn rising(&mut self, n: usize) -> Vec<u32> {
        let style = self.below(4);
        let base = self.pick(&[0, 250, 65530, 16777210, (1 << 31) - 3, u32::MAX - 2000]);
        let mut set = BTreeSet::new();
        while set.len() < n {
            let k = set.len() as u32;
            set.insert(match style {
                0 => k,
                1 => u32::MAX - k,
                2 => base + self.below(4 * n) as u32,
                _ => self.next() as u32,
            });
        }
        set.into_iter().collect()
    }

    fn programmes(&mut self) -> usize {
        match self.below(60) {
            0 | 1 => 255 + self.below(2),
            2 => self.below(257),
            3..=6 => 0,
            7..=14 => 1,
            _ => 2 + self.below(6),
        }
    }

    // A row of a catalogue; a leaf alone where there is no other symbol.
    fn file_row(&mut self, arities: &[u16], n: usize, exact: bool) -> Vec<u16> {
        if arities.len() == 1 {
            return vec![0];
        }
        self.row(arities, n, exact)
    }

    // A right catalogue; where `full`, one whose file is as long as it can be, or has as long a row.
    fn catalogue(&mut self, full: bool) -> Catalogue {
        let arities = self.file_alphabet();
        let n = if full { self.pick(&[1, 2, 2, 3, 4, 9, 256]) } else { self.programmes() };
        let numbers = self.rising(n);
        let mut left = (65536 - rows_at(numbers.len(), arities.len())) / 2; // symbols that there is still room for
        let mut behind = numbers.len();
        let mut programmes = vec![];
        for number in numbers {
            behind -= 1;
            let most = MOST.min(left - behind);
            let least = left.saturating_sub(MOST * behind).clamp(1, most);
            let n = match self.below(60) {
                _ if full => least + self.below(most - least + 1),
                0 => 1 + self.below(400),
                _ => 1 + self.below(24),
            };
            let exact = full || self.one_in(3);
            let row = self.file_row(&arities, n.min(most), exact);
            left -= row.len();
            programmes.push((number, row));
        }
        Catalogue { arities, programmes }
    }

    fn small_catalogue(&mut self) -> Catalogue {
        loop {
            let c = self.catalogue(false);
            if file_of(&c).len() <= 80 {
                return c;
            }
        }
    }

    // One fault of a catalogue, or none that shows.
    fn damage_catalogue(&mut self, c: &mut Catalogue) {
        let (n, s) = (c.programmes.len(), c.arities.len());
        match self.below(60) {
            0..=3 => {
                let more = self.pick(&[257, 258, 300]);
                let from = c.programmes.last().map_or(0, |p| p.0);
                c.programmes.extend((n..more).map(|k| (from.wrapping_add(k as u32), vec![0])));
            }
            4..=12 if s > 0 => self.bad_alphabet(&mut c.arities),
            // rows that fill the file, or go over it by a byte or more
            13..=14 => {
                let left = (65536 - rows_at(n, s).min(65536)) / 2;
                c.programmes.iter_mut().for_each(|p| p.1.truncate(1));
                let more = left.saturating_sub(n) + self.below(3);
                if let Some(p) = c.programmes.last_mut() {
                    p.1.resize(more, 0);
                }
            }
            _ if n == 0 => (),
            15..=24 => {
                let (i, j) = (self.below(n), self.below(n));
                c.programmes[i].0 = match self.below(3) {
                    0 => c.programmes[j].0,
                    1 => c.programmes[j].0.wrapping_add(self.pick(&[1, u32::MAX, 256, 65536, 1 << 24])),
                    _ => self.pick(&[0, u32::MAX]),
                };
            }
            k => {
                let i = self.below(n);
                let row = &mut c.programmes[i].1;
                match k {
                    25..=29 => row.clear(),
                    30 => *row = vec![(s > 1) as u16; MOST + self.below(3)],
                    _ => self.damage(row, s),
                }
            }
        }
    }

    // One fault of a file with so many programmes and symbols, or none that shows.
    fn damage_file(&mut self, f: &mut Vec<u8>, n: usize, s: usize) {
        fn set(f: &mut [u8], at: usize, width: usize, number: u64) {
            f[at..at + width].copy_from_slice(&number.to_le_bytes()[..width]);
        }
        fn add(f: &mut [u8], at: usize, more: u64) {
            let old = wide(&f[at..at + 4]);
            set(f, at, 4, old.wrapping_add(more));
        }
        let size = f.len();
        let i = self.below(n.max(1));
        let entry = 4 + 12 * i; // of programme i: number, start at 4, length at 8
        match self.below(13) {
            0 if self.one_in(8) => f.resize(65536 + self.below(3), 0),
            0 => f.truncate(self.below(size + 1)),
            1 => f.resize(size + 1 + self.below(3), 0),
            2 => f[self.below(size)] = self.next() as u8,
            3 => {
                let other = self.pick(&[0, n + 1, n.saturating_sub(1), 256, 257, 300, 5461, 65535]);
                set(f, 0, 2, other as u64);
                if self.one_in(2) {
                    f.resize(rows_at(other, s).min(65536).max(size), 0);
                }
            }
            4 => {
                let other = self.pick(&[0, s + 1, s - 1, 1024, 1025, 65535, 65532 - 12 * n]);
                set(f, 2, 2, other as u64);
                if self.one_in(2) {
                    f.resize(rows_at(n, other).min(65536).max(size), 0);
                }
            }
            5 => f[4 + 12 * n + self.below(s)] = self.pick(&[0, 1, 15, 16, 17, 128, 255]),
            _ if n == 0 => f.push(0),
            6 => add(f, entry, self.pick(&[1, u64::MAX, 1 << 8, 1 << 16, 1 << 24, 1 << 31])),
            7 => add(f, entry + 4, self.pick(&[1, 2, u64::MAX, 1 << 8, 1 << 16, 1 << 24, 1 << 31])),
            8 => add(f, entry + 8, self.pick(&[1, 2, u64::MAX, 1 << 8, 1 << 16, 1 << 24])),
            // twice the length, or the start to it, is over 2^32, and the rest is right or fits
            9 => add(f, entry + 8, 1 << 31),
            10 => set(f, entry + 8, 4, (1 << 31) - 1 - self.below(size) as u64 / 2),
            // one row gets symbols of the next, and the start between them is right
            11 => {
                let d = self.pick(&[1, 2, u64::MAX]);
                add(f, entry + 8, d);
                if i + 1 < n {
                    add(f, entry + 16, d.wrapping_mul(2));
                    add(f, entry + 20, d.wrapping_neg());
                }
            }
            // a symbol
            _ => {
                let at = rows_at(n, s) + self.below(size - rows_at(n, s));
                f[at] ^= 1 << self.below(8);
            }
        }
    }

    // One fault of what is given to write beside the alphabet, or none that shows.
    fn damage_given(&mut self, numbers: &mut Vec<u32>, lengths: &mut Vec<u32>, rows: &mut Vec<u16>) {
        let n = lengths.len();
        if n == 0 {
            return match self.below(3) {
                0 => rows.push(0),
                1 => lengths.push(self.pick(&[0, 1, u32::MAX])),
                _ => numbers.push(7),
            };
        }
        let (i, j) = (self.below(n), self.below(n));
        let d = self.pick(&[1, 2, 5]);
        match self.below(10) {
            0 => drop(lengths.remove(i)),
            1 => lengths.insert(i, self.pick(&[0, 0, 1, 3])),
            2 => drop(rows.pop()),
            3 => rows.push(0),
            4 => lengths[i] = lengths[i].wrapping_add(self.pick(&[1, u32::MAX, 256, 65536, 1 << 31])),
            // the sum is over 2^32, and what 32 bits leave of it is right
            5 => {
                lengths[i] = lengths[i].wrapping_sub(d);
                lengths[j] = lengths[j].wrapping_add(d);
            }
            6 if i != j => {
                lengths[i] = lengths[i].wrapping_add(1 << 31);
                lengths[j] = lengths[j].wrapping_add(1 << 31);
            }
            // other rows, with the right sum
            7 | 8 => {
                let d = d.min(lengths[i]);
                lengths[i] -= d;
                lengths[j] += d;
            }
            _ => drop(numbers.remove(self.below(numbers.len()))),
        }
    }
}

// ---- random bar forms ------------------------------------------------------------------------------------------------------

impl Dice {
    // A number that may stand in a bar form: a bar, a symbol, or neither.
    fn bar_or_other(&mut self, symbols: usize) -> u16 {
        match self.below(8) {
            0..=2 => BAR,
            3..=6 => self.below(symbols.max(1)) as u16,
            _ => self.pick(&[symbols as u16, 65533, BLANK, 65280, 256, 32768]),
        }
    }

    // One fault of a bar form, or none that shows.
    fn damage_bars(&mut self, list: &mut Vec<u16>, symbols: usize) {
        let n = list.len();
        if n == 0 {
            return list.push(self.bar_or_other(symbols));
        }
        let (i, j) = (self.below(n), self.below(n));
        match self.below(9) {
            0 | 1 => list[i] = self.bar_or_other(symbols),
            2 => drop(list.remove(i)),
            3 => list.insert(i, self.bar_or_other(symbols)),
            4 => list.swap(i, j),
            5 if i + 1 < n => list.swap(i, i + 1),
            6 => list.truncate(if self.one_in(2) { i } else { n - 1 }),
            7 => list.push(self.bar_or_other(symbols)),
            // as many bars as before, one of them elsewhere
            _ => {
                let bars: Vec<usize> = (0..n).filter(|&k| list[k] == BAR).collect();
                if !bars.is_empty() {
                    let from = self.pick(&bars);
                    let bar = list.remove(from);
                    list.insert(self.below(n), bar);
                }
            }
        }
    }

    // As long as a bar form can be, or longer: all nodes open, or all closed at once.
    fn long_bars(&mut self) -> Vec<u16> {
        let n = self.pick(&[MOST_BARS - 1, MOST_BARS, MOST_BARS, MOST_BARS + 1, MOST_BARS + 2, 65535, 65536, 65537, 70000]);
        let mut list = vec![1; n];
        if self.one_in(2) {
            list[n / 2 - 1] = 0;
            list[n / 2..].fill(BAR);
        }
        list
    }
}

// ---- the test --------------------------------------------------------------------------------------------------------------

struct Test {
    server: Server,
    dice: Dice,
    seed: u64,
    input: u64,
    answered: u64,
    refused: [u64; 89],
    in_sheets: [u64; 16], // patterns of answered sheets, by their refusal or 0
    short: [u64; 2],      // sheets refused with 19: for the results, for the positions
    wrong: Option<Wrong>,             // how the classes of the next input are made wrong
    misclassed: [u64; WRONGS.len()], // inputs refused with 62, by how
    on_files: [[u64; 89]; 2],        // files read and files written, by their refusal or 0
    causes: [u64; CAUSES.len()],     // those refused with 68, by why
    worked: bool,                    // the worked file has been changed at every byte
    on_bars: [[u64; 89]; 2],         // bar forms read and bar forms written, by their refusal or 0
    bar_causes: [u64; BAR_CAUSES.len()], // bar forms refused with 70 or 71, by why
    every_list: bool,                // every short list has been read as a bar form, and written
}

// What a host keeps, mostly right, and whether it is.
struct Kept {
    arities: Vec<u16>,
    row: Vec<u16>,
    table: Vec<u16>,
    classes: Vec<u16>,
    good: bool,
}

fn shown(b: &[u8]) -> String {
    let n = numbers(b);
    let short: Vec<String> = n.iter().take(60).map(|x| x.to_string()).collect();
    format!("{} bytes: {}{}", b.len(), short.join(" "), if n.len() > 60 { " .." } else { "" })
}

fn shown_bytes(b: &[u8]) -> String {
    let short: Vec<String> = b.iter().take(120).map(|x| format!("{x:02x}")).collect();
    format!("{} bytes: {}{}", b.len(), short.join(" "), if b.len() > 120 { " .." } else { "" })
}

impl Test {
    // One input: the archive and the model answer alike and leave the same bytes. The buffers are as the call left them.
    fn hold(&mut self, call: u32, x: &mut Lent) -> Result<Answer, String> {
        self.input += 1;
        let given = x.clone();
        let mut wanted = x.clone();
        let told = match call {
            BUILD => model_build(&mut wanted).map_err(of_no_programme),
            FIND => model_find(&mut wanted).map_err(of_no_programme),
            SHEET => model_sheet(&mut wanted).map_err(of_no_programme),
            CATALOGUE_READ => model_read(&mut wanted),
            CATALOGUE_WRITE => model_write(&mut wanted),
            BARS_READ => model_bars_read(&mut wanted).map_err(of_no_programme),
            BARS_WRITE => model_bars_write(&mut wanted).map_err(of_no_programme),
            _ => model_replace(&mut wanted).map_err(of_no_programme),
        };
        let want = told.unwrap_or_else(|((refusal, place), programme)| Answer { refusal, place, programme, ..Answer::default() });
        let shift = self.dice.below(2) as u32;
        let (got, damage) = self.server.call(call, shift, x);
        if want.refusal == 0 {
            self.answered += 1;
        } else {
            self.refused[want.refusal as usize] += 1;
        }
        if on_file(call) {
            self.on_files[(call - CATALOGUE_READ) as usize][want.refusal as usize] += 1;
            if want.refusal == 68 {
                self.causes[cause(call, &given, want.place)] += 1;
            }
        }
        if call >= BARS_READ {
            self.on_bars[(call - BARS_READ) as usize][want.refusal as usize] += 1;
            if want.refusal == 70 || want.refusal == 71 {
                self.bar_causes[bar_cause(&given, want.refusal, want.place)] += 1;
            }
        }
        if let (62, Some(wrong)) = (want.refusal, self.wrong.take()) {
            self.misclassed[wrong as usize] += 1;
        }
        if got == want && *x == wanted && !damage {
            return Ok(got);
        }
        let mut s = format!("FAILED: seed {}, input {}, call {}\n", self.seed, self.input, NAMES[call as usize]);
        s += &format!("  arities {}\n  row {}\n", shown(&given.arities), shown(&given.row));
        s += &format!("  table {}\n  classes {}\n", shown(&given.table), shown(&given.classes));
        s += &format!("  patterns or replacement {}\n  lengths {}\n", shown(&given.other), shown(&given.lengths));
        s += &format!("  output {}\n  results {}\n", shown(&given.out), shown(&given.results));
        s += &format!("  numbers {}\n  file {}\n  records {}\n", shown(&given.numbers), shown_bytes(&given.file), shown(&given.entries));
        s += &format!("  bar form {}\n", shown(&given.bars));
        s += &format!("  row length {}, position {}\n  wanted {:?}\n  got    {:?}\n", given.length, given.position, want, got);
        s += &format!("  row {}, table {}, classes {}", x.row == wanted.row, x.table == wanted.table, x.classes == wanted.classes);
        s += &format!(", output {}, results {}, file {}", x.out == wanted.out, x.results == wanted.results, x.file == wanted.file);
        s += &format!(", records {}, bar form {}, other bytes {}", x.entries == wanted.entries, x.bars == wanted.bars, !damage);
        Err(s)
    }

    fn builds(&mut self) -> Result<(), String> {
        let d = &mut self.dice;
        let mut arities = d.alphabet();
        let mut row = if d.one_in(300) { vec![1; MOST + d.below(3)] } else { d.good_row(&arities) };
        if d.one_in(3) {
            d.damage(&mut row, arities.len());
        }
        if d.one_in(12) {
            d.bad_alphabet(&mut arities);
        }
        let [table, classes] = [(); 2].map(|()| {
            let more = d.pick(&[0, 0, 1, 2, 3, 40]);
            let mut list = d.buffer(&vec![7; row.len()], more);
            if d.one_in(16) {
                list.truncate(list.len().saturating_sub(1 + more + d.below(4)));
            }
            list
        });
        let mut x = Lent { arities: d.lend(&arities), row: d.lend(&row), table, classes, ..Lent::default() };
        self.hold(BUILD, &mut x).map(|_| ())
    }

    fn kept(&mut self) -> Kept {
        let d = &mut self.dice;
        let mut arities = d.alphabet();
        let mut row = d.good_row(&arities);
        let t = tree(&arities, &row, &ROW).ok().expect("a good row");
        let (mut table, mut classes) = (table_of(&t), classes_of(&t));
        let mut good = true;
        self.wrong = if d.one_in(5) { Some(d.pick(&WRONGS)) } else { None };
        if let Some(wrong) = self.wrong {
            good = false;
            d.misclass(wrong, &row, &table, &mut classes);
        }
        if d.one_in(16) {
            good = false;
            d.damage(&mut row, arities.len());
            table.resize(row.len(), 1);
            classes.resize(row.len(), 0);
        }
        if d.one_in(24) {
            good = false;
            d.bad_alphabet(&mut arities);
        }
        if d.one_in(16) && !table.is_empty() {
            good = false;
            let k = d.below(table.len());
            table[k] = table[k].wrapping_add(d.pick(&[1, 65535, 256, 3]));
        }
        Kept { arities, row, table, classes, good }
    }

    fn finds(&mut self) -> Result<(), String> {
        let Kept { arities, row, table, classes, good } = self.kept();
        let d = &mut self.dice;
        let mut pattern = if good && !d.one_in(6) { d.pattern(&arities, &row, &table) } else { vec![BLANK] };
        if d.one_in(10) {
            d.damage(&mut pattern, arities.len());
        }
        if d.one_in(40) {
            pattern.clear();
        }
        if d.one_in(200) {
            pattern = vec![1; d.pick(&[255, 256, 257, 300])];
            if pattern.len() < 257 {
                pattern.push(BLANK);
            }
        }
        let [table, classes] = [&table, &classes].map(|list| {
            let more = d.pick(&[0, 0, 1, 2, 9]);
            let mut list = d.buffer(list, more);
            if d.one_in(30) {
                list.truncate(list.len().saturating_sub(1 + d.below(3)));
            }
            list
        });
        let mut x = Lent { arities: d.lend(&arities), row: d.lend(&row), table, classes, other: d.lend(&pattern), ..Lent::default() };
        let found = model_find(&mut Lent { out: vec![0; 2 * row.len() + 2], ..x.clone() }).map_or(3, |a| a.count as usize);
        let d = &mut self.dice;
        let places = d.pick(&[2 * found, 2 * found, 2 * found + 1, 2 * found + 8, (2 * found).saturating_sub(1), 2 * MOST + 11, 0]);
        x.out = d.buffer(&[], places);
        self.hold(FIND, &mut x).map(|_| ())
    }

    // What an answered sheet left: each result, and each stretch of positions, is what find gives for that pattern alone, in the model,
    // and for a few of them in the archive. Of long rows only a few are looked at.
    fn as_found_alone(&mut self, x: &Lent) -> Result<(), String> {
        let (patterns, lengths, results) = (numbers(&x.other), numbers(&x.lengths), numbers(&x.results));
        let (mut from, mut at) = (0, 0);
        for (i, &n) in lengths.iter().enumerate() {
            let pattern = bytes(&patterns[from..from + n as usize]);
            let result = &results[3 * i..3 * i + 3];
            let end = at + result[2] as usize;
            let stretch = &x.out[2 * at..2 * end];
            from += n as usize;
            at = end;
            self.in_sheets[(result[0] as usize).min(15)] += 1;
            if x.row.len() > 2000 && !self.dice.one_in(16) {
                continue;
            }
            let mut alone = Lent { other: pattern, lengths: vec![], out: vec![0; x.row.len()], results: vec![], ..x.clone() };
            let found = if self.dice.one_in(16) {
                let a = self.hold(FIND, &mut alone)?;
                if a.refusal == 0 { Ok(a) } else { Err((a.refusal, a.place)) }
            } else {
                model_find(&mut alone)
            };
            let same = match found {
                Ok(a) => *result == [0, 0, a.count as u16] && alone.out.starts_with(stretch),
                Err((refusal, place)) => *result == [refusal as u16, place as u16, 0],
            };
            if !same {
                return Err(format!("FAILED: seed {}, input {}: pattern {i} of a sheet is not answered as find does alone", self.seed, self.input));
            }
        }
        Ok(())
    }

    fn sheets(&mut self) -> Result<(), String> {
        let k = self.kept();
        let d = &mut self.dice;
        let (mut patterns, mut lengths) = (vec![], vec![]);
        for _ in 0..d.sheet_size() {
            let q = d.sheet_pattern(&k);
            lengths.push(q.len() as u16);
            patterns.extend(q);
        }
        match d.below(200) {
            0..=19 => d.wrong_lengths(&mut patterns, &mut lengths),
            // every length 0, and nothing lent
            20..=24 => {
                patterns.clear();
                lengths.fill(0);
            }
            // a pattern that is as long as a length can be, so that the right sum is near the end of 16 bits, or behind it
            25 => {
                let n = 65535 - d.below(patterns.len() + 2).min(65535);
                patterns.resize(patterns.len() + n, 0);
                lengths.push(n as u16);
                if d.one_in(2) {
                    d.wrong_lengths(&mut patterns, &mut lengths);
                }
            }
            // only so many numbers are lent as 16 bits leave of the sum
            26 => {
                lengths.push(d.pick(&[65535, 65534, 32768]));
                lengths.push(d.pick(&[65535, 1, 2, 32768]));
                let sum: usize = lengths.iter().map(|&n| n as usize).sum();
                patterns.resize(sum % 65536, 0);
            }
            _ => (),
        }
        let [table, classes] = [&k.table, &k.classes].map(|list| {
            let more = d.pick(&[0, 0, 1, 2, 9]);
            let mut list = d.buffer(list, more);
            if d.one_in(40) {
                list.truncate(list.len().saturating_sub(1 + d.below(3)));
            }
            list
        });
        let mut x = Lent { arities: d.lend(&k.arities), row: d.lend(&k.row), table, classes, ..Lent::default() };
        x.other = d.lend(&patterns);
        x.lengths = d.lend(&lengths);
        // with room for all: how many positions there are
        let room = 2 * k.row.len() * lengths.len().min(64);
        let count = model_sheet(&mut Lent { out: vec![0; room], results: vec![0; 6 * lengths.len()], ..x.clone() }).map_or(3, |a| a.count as usize);
        // a byte short, just room, an odd byte, or more
        let mut places = |n: usize| {
            let [just, short] = [2 * n, (2 * n).saturating_sub(1 + d.below(2))];
            let room = d.pick(&[just, just, just, just + 1, just + 1, just + 8, just + 331, short]);
            let places = if d.one_in(60) { d.below(room + 1) } else { room };
            d.buffer(&[], places)
        };
        x.out = places(count);
        x.results = places(3 * lengths.len());
        if count > 65535 && self.dice.one_in(2) {
            x.out.truncate(2 * count - 1); // so that the place of a 19 takes more than 16 bits, now and then
        }
        let for_results = x.results.len() / 2 < 3 * lengths.len();
        let a = self.hold(SHEET, &mut x)?;
        match a.refusal {
            0 => self.as_found_alone(&x),
            19 => {
                self.short[!for_results as usize] += 1;
                Ok(())
            }
            _ => Ok(()),
        }
    }

    fn replaces(&mut self) -> Result<(), String> {
        let Kept { arities, row, table, classes, good } = self.kept();
        let d = &mut self.dice;
        let mut v = if good { d.good_row(&arities) } else { vec![0] };
        if d.one_in(12) {
            d.damage(&mut v, arities.len().max(1));
        }
        if d.one_in(40) {
            v.clear();
        }
        if d.one_in(300) {
            v = vec![0; MOST + 1 + d.below(3)];
        }
        let p = if d.one_in(20) { row.len() + d.below(3) } else { d.below(row.len().max(1)) };
        let m = if good && p < row.len() { row.len() + v.len() - (table[p] as usize - p) } else { row.len() };
        // a buffer has just room for the new row, or more, or is a byte short of that
        let mut buffer = |list: &[u16]| {
            let short = d.one_in(8) && m > row.len();
            let more = d.pick(&[0, 0, 1, 2, 3, 500]) + 2 * m.saturating_sub(row.len()) - short as usize;
            d.buffer(list, more)
        };
        let (row_buffer, table, classes) = (buffer(&row), buffer(&table), buffer(&classes));
        let mut length = row.len() as u64;
        if d.one_in(30) {
            length = d.pick(&[0, length + 1, length + 2, 16385, 65536, 1 << 40, u64::MAX, length.saturating_sub(1)]);
        }
        let position = if d.one_in(60) { d.pick(&[65536, 1 << 32, u64::MAX]) } else { p as u64 };
        let mut x = Lent { arities: d.lend(&arities), row: row_buffer, table, classes, other: d.lend(&v), length, position, ..Lent::default() };
        if d.one_in(30) {
            let list = match d.below(3) {
                0 => &mut x.row,
                1 => &mut x.table,
                _ => &mut x.classes,
            };
            list.truncate((2 * row.len()).saturating_sub(1 + d.below(3)));
        }
        self.hold(REPLACE, &mut x).map(|_| ())
    }

    // What is kept after a run is what build gives for the row.
    fn as_built(&mut self, x: &Lent) -> Result<(), String> {
        let n = 2 * x.length as usize;
        let d = &mut self.dice;
        let mut fresh = Lent { arities: x.arities.clone(), row: x.row[..n].to_vec(), table: d.buffer(&[], n), classes: d.buffer(&[], n), ..Lent::default() };
        self.hold(BUILD, &mut fresh)?;
        if fresh.table != x.table[..n] || fresh.classes != x.classes[..n] {
            return Err(format!("FAILED: seed {}, input {}: a run did not leave what build gives", self.seed, self.input));
        }
        Ok(())
    }

    // A run of replacements in the same buffers, refused ones among them, and then all of them put back.
    fn runs(&mut self) -> Result<(), String> {
        let d = &mut self.dice;
        let arities = d.alphabet();
        let row = d.good_row(&arities);
        let t = tree(&arities, &row, &ROW).ok().expect("a good row");
        let (table, classes) = (table_of(&t), classes_of(&t));
        let more = 2 * d.below(200);
        let mut x = Lent {
            arities: d.lend(&arities),
            row: d.buffer(&row, more + 1),
            table: d.buffer(&table, more),
            classes: d.buffer(&classes, more + 3),
            length: row.len() as u64,
            ..Lent::default()
        };
        let mut undo: Vec<(u64, Vec<u16>)> = vec![];
        for _ in 0..1 + self.dice.below(20) {
            let d = &mut self.dice;
            let p = d.below(x.length as usize);
            let (now, ends) = (numbers(&x.row), numbers(&x.table));
            let old = now[p..ends[p] as usize].to_vec();
            let exact = d.one_in(2);
            let n = 1 + d.below(40);
            let v = if d.one_in(15) { vec![d.below(9) as u16] } else { d.row(&arities, n, exact) };
            x.other = d.lend(&v);
            x.position = p as u64;
            let a = self.hold(REPLACE, &mut x)?;
            if a.refusal == 0 {
                undo.push((p as u64, old));
                x.length = a.count;
            }
        }
        self.as_built(&x)?;
        while let Some((p, old)) = undo.pop() {
            x.other = self.dice.lend(&old);
            x.position = p;
            let a = self.hold(REPLACE, &mut x)?;
            if a.refusal != 0 {
                return Err(format!("FAILED: seed {}, input {}: putting back was refused", self.seed, self.input));
            }
            x.length = a.count;
        }
        let brought_back = [(&x.row, &row), (&x.table, &table), (&x.classes, &classes)].into_iter().all(|(now, was)| now.starts_with(&bytes(was)));
        if !brought_back || x.length != row.len() as u64 {
            return Err(format!("FAILED: seed {}, input {}: putting all back did not bring the row back", self.seed, self.input));
        }
        Ok(())
    }

    // A buffer for what takes n elements of so many bytes: with just room, with more, or with less.
    fn room(&mut self, n: usize, width: usize) -> Vec<u8> {
        let d = &mut self.dice;
        let less = if d.one_in(40) { d.below(n + 1) } else { n.saturating_sub(1) };
        let room = d.pick(&[n, n, n, n, n, n, n + 1, n + 1, n + 2, n + 40, less]);
        d.buffer(&[], width * room)
    }

    // A file that was read is written again, from what the records say: the same bytes.
    fn written_again(&mut self, x: &Lent) -> Result<(), String> {
        let (entries, n) = (wides(&x.entries), wide(&x.file[..2]) as usize);
        let field = |k: usize| four_bytes(entries.chunks(3).take(n).map(|e| e[k] as u32));
        let (begin, end) = (4 + 12 * n, rows_at(n, wide(&x.file[2..4]) as usize));
        let arities: Vec<u16> = x.file[begin..end].iter().map(|&a| a as u16).collect();
        let rows: Vec<u8> = entries.chunks(3).take(n).flat_map(|e| x.file[e[1] as usize..(e[1] + 2 * e[2]) as usize].to_vec()).collect();
        let mut y = Lent { arities: self.dice.lend(&arities), row: rows, numbers: field(0), lengths: field(2), ..Lent::default() };
        y.file = self.dice.buffer(&[], x.file.len());
        let a = self.hold(CATALOGUE_WRITE, &mut y)?;
        if a.refusal != 0 || y.file != x.file {
            return Err(format!("FAILED: seed {}, input {}: a file that was read is not written again", self.seed, self.input));
        }
        Ok(())
    }

    // What was written is read: the records are those of the catalogue, and each row stands where its record says.
    fn read_again(&mut self, x: &Lent, size: usize) -> Result<(), String> {
        let mut y = Lent { file: x.file[..size].to_vec(), entries: self.dice.buffer(&[], 3 * x.numbers.len()), ..Lent::default() };
        let a = self.hold(CATALOGUE_READ, &mut y)?;
        let mut left = &x.row[..];
        let said = wides(&x.numbers).into_iter().zip(wides(&x.lengths));
        let same = wides(&y.entries).chunks(3).zip(said).all(|(e, (number, length))| {
            let (row, rest) = left.split_at(2 * length as usize);
            left = rest;
            e[0] == number && e[2] == length && y.file[e[1] as usize..].starts_with(row)
        });
        if a.refusal != 0 || a.count as usize != x.numbers.len() / 4 || !same {
            return Err(format!("FAILED: seed {}, input {}: what was written is not read again", self.seed, self.input));
        }
        Ok(())
    }

    fn files(&mut self) -> Result<(), String> {
        let d = &mut self.dice;
        let full = d.one_in(150);
        let mut c = d.catalogue(full);
        let right = d.one_in(3);
        for _ in 0..if right { 0 } else { d.pick(&[0, 0, 1, 2]) } {
            d.damage_catalogue(&mut c);
        }
        let mut f = file_of(&c);
        let (n, s) = (c.programmes.len(), c.arities.len());
        for _ in 0..if right || s == 0 { 0 } else { d.pick(&[0, 1, 1, 2]) } {
            if f.len() >= rows_at(n, s) + (n > 0) as usize {
                d.damage_file(&mut f, n, s);
            }
        }
        self.reads(f, n)
    }

    fn catalogues(&mut self) -> Result<(), String> {
        let d = &mut self.dice;
        let full = d.one_in(150);
        let mut c = d.catalogue(full);
        let right = d.one_in(3);
        for _ in 0..if right { 0 } else { d.pick(&[0, 1, 1, 2]) } {
            d.damage_catalogue(&mut c);
        }
        let mut numbers: Vec<u32> = c.programmes.iter().map(|p| p.0).collect();
        let mut lengths: Vec<u32> = c.programmes.iter().map(|p| p.1.len() as u32).collect();
        let mut rows: Vec<u16> = c.programmes.iter().flat_map(|p| p.1.clone()).collect();
        if !right && d.one_in(2) {
            d.damage_given(&mut numbers, &mut lengths, &mut rows);
        }
        let size = rows_at(numbers.len(), c.arities.len()) + 2 * rows.len();
        let (arities, row) = (d.lend(&c.arities), d.lend(&rows));
        let (numbers, lengths) = (four_bytes(numbers.into_iter()), four_bytes(lengths.into_iter()));
        let mut x = Lent { arities, row, numbers, lengths, file: self.room(size, 1), ..Lent::default() };
        let a = self.hold(CATALOGUE_WRITE, &mut x)?;
        if a.refusal == 0 { self.read_again(&x, size) } else { Ok(()) }
    }

    // A file is read, and if it was answered, written again.
    fn reads(&mut self, file: Vec<u8>, programmes: usize) -> Result<(), String> {
        let mut x = Lent { file, entries: self.room(programmes, 12), ..Lent::default() };
        let a = self.hold(CATALOGUE_READ, &mut x)?;
        if a.refusal == 0 { self.written_again(&x) } else { Ok(()) }
    }

    // A small file, cut at every byte, and with each byte in turn changed: the worked one first, to every value, then others, to some.
    fn changed_files(&mut self) -> Result<(), String> {
        let every = !self.worked;
        self.worked = true;
        let worked = [(7, vec![4, 3, 0, 0, 2, 1, 3, 0, 0]), (900, vec![1])];
        let c = if every { Catalogue { arities: vec![0, 0, 1, 2, 3], programmes: worked.into() } } else { self.dice.small_catalogue() };
        let (f, n) = (file_of(&c), c.programmes.len());
        for bytes in 0..=f.len() {
            self.reads(f[..bytes].to_vec(), n)?;
        }
        for at in 0..f.len() {
            let mut values: Vec<u8> = if every { (0..=255).collect() } else { (0..8).map(|k| f[at] ^ (1 << k)).collect() };
            values.extend([0, 255, f[at].wrapping_add(1), f[at].wrapping_sub(1), c.arities.len() as u8]);
            for value in values {
                let mut g = f.clone();
                g[at] = value;
                self.reads(g, n)?;
            }
        }
        Ok(())
    }
}

impl Test {
    // A bar form is read. If it was answered, build takes the row at once, and what is written of it is the bar form.
    fn reads_bars(&mut self, arities: &[u16], list: &[u16]) -> Result<(), String> {
        let (row, lent, bars) = (self.room(list.len() / 2, 2), self.dice.lend(arities), self.dice.lend(list));
        let mut x = Lent { arities: lent, row, bars, ..Lent::default() };
        if self.dice.one_in(4) {
            x.row.push(7);
        }
        let a = self.hold(BARS_READ, &mut x)?;
        if a.refusal != 0 {
            return Ok(());
        }
        let n = 2 * a.count as usize;
        let d = &mut self.dice;
        let (row, table, classes) = (x.row[..n].to_vec(), d.buffer(&[], n), d.buffer(&[], n));
        let mut y = Lent { arities: x.arities, row, table, classes, ..Lent::default() };
        let built = self.hold(BUILD, &mut y)?;
        let mut z = Lent { arities: y.arities, row: y.row, bars: self.dice.buffer(&[], 2 * n), ..Lent::default() };
        let again = self.hold(BARS_WRITE, &mut z)?;
        if built.refusal != 0 || again.refusal != 0 || z.bars != bytes(list) {
            let what = "a bar form that was read is not built, or not written again";
            return Err(format!("FAILED: seed {}, input {}: {what}", self.seed, self.input));
        }
        Ok(())
    }

    // A row is written. If it was answered, what is read of the bar form is the row.
    fn writes_bars(&mut self, arities: &[u16], row: &[u16]) -> Result<(), String> {
        let (bars, lent, given) = (self.room(2 * row.len(), 2), self.dice.lend(arities), self.dice.lend(row));
        let mut x = Lent { arities: lent, row: given, bars, ..Lent::default() };
        if self.dice.one_in(4) {
            x.bars.push(7);
        }
        let a = self.hold(BARS_WRITE, &mut x)?;
        if a.refusal != 0 {
            return Ok(());
        }
        let bars = x.bars[..2 * a.count as usize].to_vec();
        let mut y = Lent { arities: x.arities, row: self.dice.buffer(&[], 2 * row.len()), bars, ..Lent::default() };
        let again = self.hold(BARS_READ, &mut y)?;
        if again.refusal != 0 || y.row != bytes(row) {
            return Err(format!("FAILED: seed {}, input {}: a bar form that was written is not read again", self.seed, self.input));
        }
        Ok(())
    }

    fn bar_forms(&mut self) -> Result<(), String> {
        let d = &mut self.dice;
        let mut arities = d.alphabet();
        let row = d.good_row(&arities);
        let mut list = bars_of(&tree(&arities, &row, &ROW).ok().expect("a good row"));
        if d.one_in(200) {
            list = d.long_bars();
        }
        for _ in 0..d.pick(&[0, 0, 1, 1, 1, 2, 3]) {
            d.damage_bars(&mut list, arities.len());
        }
        if d.one_in(12) {
            d.bad_alphabet(&mut arities);
        }
        if d.one_in(60) {
            list.clear();
        }
        self.reads_bars(&arities, &list)
    }

    fn barred_rows(&mut self) -> Result<(), String> {
        let d = &mut self.dice;
        let mut arities = d.alphabet();
        let mut row = d.good_row(&arities);
        if d.one_in(200) {
            row = vec![1; d.pick(&[MOST, MOST + 1, MOST + 2, MOST_BARS, 65536, 65537])];
        }
        for _ in 0..d.pick(&[0, 0, 1, 2]) {
            d.damage(&mut row, arities.len());
        }
        if d.one_in(12) {
            d.bad_alphabet(&mut arities);
        }
        self.writes_bars(&arities, &row)
    }

    // Every list of so few numbers, each a symbol, the first number that is none, or the bar: read as a bar form; and but for the longest
    // ones also written, as a row.
    fn every_list_of(&mut self, arities: &[u16], most: usize) -> Result<(), String> {
        let mut values: Vec<u16> = (0..=arities.len() as u16).collect();
        values.push(BAR);
        let mut lists: Vec<Vec<u16>> = vec![vec![]];
        for n in 0..=most {
            for list in &lists {
                self.reads_bars(arities, list)?;
                if n < most {
                    self.writes_bars(arities, list)?;
                }
            }
            if n < most {
                lists = lists.iter().flat_map(|l| values.iter().map(move |&v| [&l[..], &[v]].concat())).collect();
            }
        }
        Ok(())
    }

    // The worked alphabet first, with lists of up to seven numbers; then others of two or three symbols, with shorter ones.
    fn every_short_list(&mut self) -> Result<(), String> {
        if !self.every_list {
            self.every_list = true;
            return self.every_list_of(&[0, 1, 2], 7);
        }
        let d = &mut self.dice;
        let mut arities: Vec<u16> = (0..2 + d.below(2)).map(|_| d.below(4) as u16).collect();
        let leaf = d.below(arities.len());
        arities[leaf] = 0;
        self.every_list_of(&arities, 4)
    }
}

fn number(words: &mut Vec<String>, flag: &str, default: u64) -> u64 {
    match words.iter().position(|w| w == flag) {
        Some(i) => {
            let n = words[i + 1].parse().expect("a number");
            words.drain(i..i + 2);
            n
        }
        None => default,
    }
}

fn test() -> bool {
    let mut words: Vec<String> = std::env::args().skip(1).collect();
    let seed = number(&mut words, "--seed", 20260101);
    let inputs = number(&mut words, "--inputs", 100_000);
    let mut t = Test {
        server: Server::start(&words),
        dice: Dice(seed),
        seed,
        input: 0,
        answered: 0,
        refused: [0; 89],
        in_sheets: [0; 16],
        short: [0; 2],
        wrong: None,
        misclassed: [0; WRONGS.len()],
        on_files: [[0; 89]; 2],
        causes: [0; CAUSES.len()],
        worked: false,
        on_bars: [[0; 89]; 2],
        bar_causes: [0; BAR_CAUSES.len()],
        every_list: false,
    };
    let kinds: [(&str, fn(&mut Test) -> Result<(), String>); 11] = [
        ("build", Test::builds),
        ("find", Test::finds),
        ("replace", Test::replaces),
        ("runs of replacements, put back", Test::runs),
        ("sheet", Test::sheets),
        ("catalogue read", Test::files),
        ("catalogue write", Test::catalogues),
        ("small files, cut and changed at every byte", Test::changed_files), // may take more than its share
        ("bars read", Test::bar_forms),
        ("bars write", Test::barred_rows),
        ("every short list, read as a bar form and written", Test::every_short_list), // may take more than its share
    ];
    let (mut passed, mut failed) = (0, 0);
    for (name, kind) in kinds {
        let until = t.input + inputs / kinds.len() as u64;
        let mut fault = None;
        while t.input < until && fault.is_none() {
            fault = kind(&mut t).err();
        }
        match fault {
            None => passed += 1,
            Some(s) => {
                println!("{name}\n{s}");
                failed += 1;
            }
        }
    }
    drop(t.server.to);
    if t.server.child.wait().map_or(false, |s| s.success()) {
        passed += 1;
    } else {
        println!("FAILED: the server did not end well");
        failed += 1;
    }
    let all = [1, 2, 3, 4, 5, 6, 7, 8, 9, 10, 11, 12, 13, 14, 15, 17, 18, 19, 24, 25, 27, 28, 29, 62, 63, 64];
    match all.iter().find(|&&r| t.refused[r] == 0) {
        None => passed += 1,
        Some(r) => {
            println!("FAILED: seed {seed}: no input was refused with {r}");
            failed += 1;
        }
    }
    let in_a_sheet = [0, 11, 12, 13, 14, 15];
    match in_a_sheet.iter().find(|&&r| t.in_sheets[r] == 0) {
        None if t.short[0] > 0 && t.short[1] > 0 => passed += 1,
        None => {
            println!("FAILED: seed {seed}: no sheet was refused with 19 for its results, or none for its positions");
            failed += 1;
        }
        Some(r) => {
            println!("FAILED: seed {seed}: no pattern of a sheet has {r} in its result");
            failed += 1;
        }
    }
    let of_files = [vec![0, 66, 65, 88, 1, 2, 3, 67, 68, 69, 4, 5, 7, 8, 9, 19], vec![0, 88, 1, 2, 3, 67, 68, 66, 4, 5, 7, 8, 9, 19]];
    for (of_call, met) in of_files.iter().zip(&t.on_files) {
        match of_call.iter().find(|&&r| met[r] == 0) {
            None if t.causes.iter().all(|&n| n > 0) => passed += 1,
            None => {
                println!("FAILED: seed {seed}: 68 was not given for each of its causes");
                failed += 1;
            }
            Some(r) => {
                println!("FAILED: seed {seed}: no file or catalogue has {r} as its refusal");
                failed += 1;
            }
        }
    }
    let of_bars = [vec![0, 1, 2, 3, 4, 5, 70, 71, 7, 72, 19], vec![0, 1, 2, 3, 4, 5, 7, 8, 9, 19]];
    for (of_call, met) in of_bars.iter().zip(&t.on_bars) {
        match of_call.iter().find(|&&r| met[r] == 0) {
            None => passed += 1,
            Some(r) => {
                println!("FAILED: seed {seed}: no bar form, or no row that is written as one, has {r} as its refusal");
                failed += 1;
            }
        }
    }
    match BAR_CAUSES.iter().zip(t.bar_causes).find(|&(_, n)| n == 0) {
        None => passed += 1,
        Some((why, _)) => {
            println!("FAILED: seed {seed}: no bar form was refused with {why}");
            failed += 1;
        }
    }
    match WRONGS.iter().find(|&&wrong| t.misclassed[wrong as usize] == 0) {
        None => passed += 1,
        Some(wrong) => {
            println!("FAILED: seed {seed}: no input was refused with 62 for {wrong:?}");
            failed += 1;
        }
    }
    let told: Vec<String> = all.iter().map(|&r| format!("{r}: {}", t.refused[r])).collect();
    println!("seed {seed}: {} inputs, {} answered, refused by number {}", t.input, t.answered, told.join(", "));
    let told: Vec<String> = in_a_sheet.iter().map(|&r| format!("{r}: {}", t.in_sheets[r])).collect();
    println!("patterns of answered sheets, by refusal {}; 19 for results {}, for positions {}", told.join(", "), t.short[0], t.short[1]);
    for ((what, of_call), met) in ["read", "written"].iter().zip(&of_files).zip(&t.on_files) {
        let told: Vec<String> = of_call.iter().map(|&r| format!("{r}: {}", met[r])).collect();
        println!("catalogues {what}, by refusal {}", told.join(", "));
    }
    let told: Vec<String> = CAUSES.iter().zip(t.causes).map(|(why, n)| format!("{why} {n}")).collect();
    println!("68 for {}", told.join(", "));
    for ((what, of_call), met) in ["read", "written"].iter().zip(&of_bars).zip(&t.on_bars) {
        let told: Vec<String> = of_call.iter().map(|&r| format!("{r}: {}", met[r])).collect();
        println!("bar forms {what}, by refusal {}", told.join(", "));
    }
    let told: Vec<String> = BAR_CAUSES.iter().zip(t.bar_causes).map(|(why, n)| format!("{why} {n}")).collect();
    println!("{}", told.join(", "));
    println!("{passed} passed, {failed} failed");
    failed == 0
}

fn main() {
    // the longest chain is 16,384 nodes deep, and the model walks it by recursion
    let run = std::thread::Builder::new().stack_size(1 << 28).spawn(test).expect("a thread");
    std::process::exit(if run.join().unwrap_or(false) { 0 } else { 1 });
}
