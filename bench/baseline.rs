//! The calls of the library once more, in plain safe Rust, written from docs/SCOPE.md alone: what they are timed against.
//! A refusal is its number and its place.

pub type Refusal = (u32, u64);

const BLANK: u16 = 65535;

fn variable(s: u16) -> Option<usize> {
    (65280..65296).contains(&s).then(|| (s - 65280) as usize)
}

fn check_alphabet(arities: &[u16]) -> Result<(), Refusal> {
    if arities.is_empty() || arities.len() > 1024 {
        return Err((1, arities.len() as u64));
    }
    if let Some(s) = arities.iter().position(|&a| a > 15) {
        return Err((2, s as u64));
    }
    if !arities.contains(&0) {
        return Err((3, 0));
    }
    Ok(())
}

/// Numbers of the refusals of a list that should be one tree's: empty, too long, bad number, ends early, goes on.
const ROW: [u32; 5] = [4, 5, 7, 8, 9];
const PATTERN: [u32; 5] = [11, 12, 13, 14, 15];
const REPLACEMENT: [u32; 5] = [24, 25, 27, 28, 29];

fn check_size(n: usize, most: usize, number: [u32; 5]) -> Result<(), Refusal> {
    match n {
        0 => Err((number[0], 0)),
        n if n > most => Err((number[1], n as u64)),
        _ => Ok(()),
    }
}

fn check_reading(arities: &[u16], list: &[u16], blanks: bool, number: [u32; 5]) -> Result<(), Refusal> {
    let mut need = 1usize;
    for (i, &s) in list.iter().enumerate() {
        if need == 0 {
            return Err((number[4], i as u64));
        }
        need = match arities.get(s as usize) {
            Some(&a) => need - 1 + a as usize,
            None if blanks && (s == BLANK || variable(s).is_some()) => need - 1,
            None => return Err((number[2], i as u64)),
        };
    }
    if need > 0 {
        return Err((number[3], list.len() as u64));
    }
    Ok(())
}

/// Writes the ends of a row that stands from `at` on: by hops over the children, of whom the first ends where `next` says.
fn fill(arities: &[u16], row: &[u16], table: &mut [u16], at: usize) {
    let mut next = 0;
    for p in (0..row.len()).rev() {
        let children = arities[row[p] as usize];
        let mut e = if children == 0 { at + p + 1 } else { next };
        for _ in 1..children {
            e = table[e] as usize;
        }
        table[at + p] = e as u16;
        next = e;
    }
}

/// The row is accepted: is each entry the row's?
fn check_table(arities: &[u16], row: &[u16], table: &[u16]) -> Result<(), Refusal> {
    for p in (0..row.len()).rev() {
        let mut e = p + 1;
        for _ in 0..arities[row[p] as usize] {
            e = table[e] as usize;
        }
        if e != table[p] as usize {
            let mut right = vec![0; row.len()];
            fill(arities, row, &mut right, 0);
            let first = right.iter().zip(table).position(|(r, t)| r != t);
            return Err((10, first.unwrap_or(p) as u64));
        }
    }
    Ok(())
}

/// Refusals 1 to 10.
pub fn check_ends(arities: &[u16], row: &[u16], table: &[u16]) -> Result<(), Refusal> {
    check_alphabet(arities)?;
    check_size(row.len(), 16384, ROW)?;
    if table.len() < row.len() {
        return Err((6, row.len() as u64));
    }
    check_reading(arities, row, false, ROW)?;
    check_table(arities, row, table)
}

/// No position.
const NONE: u16 = 65535;

/// Positions in chains, by a hash of the symbol and of what stands for each child.
struct Chains {
    heads: Vec<u16>,
    next: Vec<u16>,
}

impl Chains {
    fn new(many: usize) -> Chains {
        Chains { heads: vec![NONE; many.next_power_of_two()], next: vec![NONE; many] }
    }

    /// The chain of a position, where `of` has a number for each child.
    fn of(&self, row: &[u16], table: &[u16], of: &[u16], p: usize) -> usize {
        let mix = |hash: u64, x: u16| (hash.rotate_left(5) ^ x as u64).wrapping_mul(0x9E37_79B9_7F4A_7C15);
        let (mut hash, mut y) = (mix(0, row[p]), p + 1);
        while y < table[p] as usize {
            hash = mix(hash, of[y]);
            y = table[y] as usize;
        }
        (hash >> 32) as usize & (self.heads.len() - 1)
    }

    /// The first in a chain of which that holds.
    fn find(&self, chain: usize, holds: impl Fn(usize) -> bool) -> Option<usize> {
        let mut i = self.heads[chain];
        while i != NONE && !holds(i as usize) {
            i = self.next[i as usize];
        }
        (i != NONE).then_some(i as usize)
    }

    fn put(&mut self, chain: usize, i: usize) {
        self.next[i] = self.heads[chain];
        self.heads[chain] = i as u16;
    }
}

/// Have p and q the same symbol, and their children pairwise the same number in `of`?
fn same_sign(row: &[u16], table: &[u16], of: &[u16], p: usize, q: usize) -> bool {
    if row[p] != row[q] || table[p] as usize - p != table[q] as usize - q {
        return false;
    }
    let mut y = p + 1;
    while y < table[p] as usize {
        if of[y] != of[y - p + q] {
            return false;
        }
        y = table[y] as usize;
    }
    true
}

/// The position that a child of p tells of where the same child stands, in `of`, at the same distance below it: one that is told by
/// itself and has the sign of p.
fn told_by_children(row: &[u16], table: &[u16], of: &[u16], p: usize) -> Option<usize> {
    let mut y = p + 1;
    while y < table[p] as usize {
        let told = (of[y] as usize + p).checked_sub(y).filter(|&q| q != p && of[q] as usize == q);
        if told.is_some_and(|q| same_sign(row, table, of, p, q)) {
            return told;
        }
        y = table[y] as usize;
    }
    None
}

/// Writes the classes of a row whose table is right: from right to left the last position with an equal subtree, and then, from
/// left to right, the first that has this last one. What has a last one below it is a last one too. Others are looked for where
/// their children say, and among those in chains, which have no last one below them.
fn fill_classes(row: &[u16], table: &[u16], classes: &mut [u16]) {
    let mut chains = Chains::new(row.len());
    let (mut last, mut newest) = (vec![NONE; row.len()], row.len());
    for p in (0..row.len()).rev() {
        let mut found = None;
        if newest >= table[p] as usize {
            let chain = chains.of(row, table, &last, p);
            found = told_by_children(row, table, &last, p).or_else(|| chains.find(chain, |q| same_sign(row, table, &last, p, q)));
            if found.is_none() {
                chains.put(chain, p);
            }
        }
        last[p] = found.unwrap_or(p) as u16;
        newest = if found.is_none() { p } else { newest };
    }
    let mut first = vec![NONE; row.len()];
    for p in 0..row.len() {
        let class = &mut first[last[p] as usize];
        if *class == NONE {
            *class = p as u16;
        }
        classes[p] = *class;
    }
}

/// The positions that lead, which is to be their own class, and have no other such below them; if each other position names an
/// earlier leader whose subtree, with the classes in it, is the same, and no two leaves lead for one symbol.
fn bare_leaders(row: &[u16], table: &[u16], classes: &[u16]) -> Option<Vec<usize>> {
    let (mut bare, mut seen) = (Vec::new(), [false; 1024]);
    let mut open = None; // the last leader with children, where no leader has come since
    let mut p = 0;
    while p < row.len() {
        let (q, end) = (classes[p] as usize, table[p] as usize);
        if q < p {
            let by = p - q;
            if classes[q] as usize != q || row[p..end] != row[q..end - by] || classes[p + 1..end] != classes[q + 1..end - by] {
                return None;
            }
            p = end;
            continue;
        }
        if q > p {
            return None;
        }
        bare.extend(open.filter(|&l| table[l] as usize <= p));
        open = (end > p + 1).then_some(p);
        if open.is_none() && std::mem::replace(&mut seen[row[p] as usize], true) {
            return None;
        }
        p += 1;
    }
    bare.extend(open);
    Some(bare)
}

/// Are they the row's, whose table is right? Of two equal leaders the later of the least ones is bare: so bare ones are looked for
/// among the bare ones, and where their children's classes say.
fn are_classes(row: &[u16], table: &[u16], classes: &[u16]) -> bool {
    let Some(bare) = bare_leaders(row, table, classes) else {
        return false;
    };
    let mut chains = Chains::new(bare.len());
    for (i, &p) in bare.iter().enumerate() {
        let chain = chains.of(row, table, classes, p);
        let in_chain = || chains.find(chain, |j| same_sign(row, table, classes, p, bare[j]));
        if told_by_children(row, table, classes, p).or_else(in_chain).is_some() {
            return false;
        }
        chains.put(chain, i);
    }
    true
}

/// Refusal 62, for a row whose table is right.
pub fn check_classes(row: &[u16], table: &[u16], classes: &[u16]) -> Result<(), Refusal> {
    if are_classes(row, table, classes) {
        return Ok(());
    }
    let mut right = vec![0; row.len()];
    fill_classes(row, table, &mut right);
    match right.iter().zip(classes).position(|(r, c)| r != c) {
        Some(first) => Err((62, first as u64)),
        None => Ok(()),
    }
}

/// Refusals 1 to 10, then 62.
fn check_given(arities: &[u16], row: &[u16], table: &[u16], classes: &[u16]) -> Result<(), Refusal> {
    check_ends(arities, row, &table[..table.len().min(classes.len())])?;
    check_classes(row, table, classes)
}

fn check_pattern(arities: &[u16], pattern: &[u16]) -> Result<(), Refusal> {
    check_size(pattern.len(), 256, PATTERN)?;
    check_reading(arities, pattern, true, PATTERN)
}

pub fn build(arities: &[u16], row: &[u16], table: &mut [u16], classes: &mut [u16]) -> Result<(), Refusal> {
    check_alphabet(arities)?;
    check_size(row.len(), 16384, ROW)?;
    if table.len() < row.len() || classes.len() < row.len() {
        return Err((6, row.len() as u64));
    }
    check_reading(arities, row, false, ROW)?;
    fill(arities, row, table, 0);
    fill_classes(row, table, classes);
    Ok(())
}

/// Begin and end of each variable, if the pattern matches at p.
fn match_at(row: &[u16], table: &[u16], classes: &[u16], pattern: &[u16], p: usize) -> Option<[(u16, u16); 16]> {
    if row[p] != pattern[0] && (pattern[0] < 65280) {
        return None;
    }
    let mut spans = [(0u16, 0u16); 16];
    let mut j = p;
    for &s in pattern {
        let end = table[j] as usize;
        if s == BLANK {
            j = end;
        } else if let Some(v) = variable(s) {
            let (b, e) = spans[v];
            if e == 0 {
                spans[v] = (j as u16, end as u16);
            } else if classes[b as usize] != classes[j] {
                return None;
            }
            j = end;
        } else if row[j] == s {
            j += 1;
        } else {
            return None;
        }
    }
    Some(spans)
}

pub fn find(arities: &[u16], row: &[u16], table: &[u16], classes: &[u16], pattern: &[u16], out: &mut [u16]) -> Result<usize, Refusal> {
    check_given(arities, row, table, classes)?;
    check_pattern(arities, pattern)?;
    if out.len() < row.len() {
        let count = (0..row.len()).filter(|&p| match_at(row, table, classes, pattern, p).is_some()).count();
        if count > out.len() {
            return Err((19, count as u64));
        }
    }
    let mut count = 0;
    for p in 0..row.len() {
        if match_at(row, table, classes, pattern, p).is_some() {
            out[count] = p as u16;
            count += 1;
        }
    }
    Ok(count)
}

/// The most patterns of a sheet, the numbers of a result, and how many positions are gathered before they are written.
const MOST_PATTERNS: usize = 64;
const RESULT: usize = 3;
const GATHERED: usize = 32768;

/// Refusals 63, 64, and 19 for the results.
fn check_lengths(patterns: &[u16], lengths: &[u16], result_places: usize) -> Result<(), Refusal> {
    if lengths.is_empty() || lengths.len() > MOST_PATTERNS {
        return Err((63, lengths.len() as u64));
    }
    if lengths.iter().map(|&m| m as usize).sum::<usize>() != patterns.len() {
        return Err((64, patterns.len() as u64));
    }
    if result_places < RESULT * lengths.len() {
        return Err((19, (RESULT * lengths.len()) as u64));
    }
    Ok(())
}

/// A sheet of patterns, laid end to end, over a checked row.
struct Sheet<'a> {
    arities: &'a [u16],
    row: &'a [u16],
    table: &'a [u16],
    classes: &'a [u16],
    patterns: &'a [u16],
    lengths: &'a [u16],
}

impl Sheet<'_> {
    /// Hands each position of each pattern to `put`, and writes the results; how many positions are there?
    fn answer(&self, mut put: impl FnMut(u16), results: &mut [u16]) -> usize {
        let (mut rest, mut all) = (self.patterns, 0);
        for (&m, result) in self.lengths.iter().zip(results.chunks_exact_mut(RESULT)) {
            let (pattern, behind) = rest.split_at(m as usize);
            let mut count = 0;
            let checked = check_pattern(self.arities, pattern);
            if checked.is_ok() {
                for p in 0..self.row.len() {
                    if match_at(self.row, self.table, self.classes, pattern, p).is_some() {
                        put(p as u16);
                        count += 1;
                    }
                }
            }
            let (refusal, place) = checked.err().unwrap_or((0, 0));
            result.copy_from_slice(&[refusal as u16, place as u16, count]);
            all += count as usize;
            rest = behind;
        }
        all
    }

    /// The same, into an output that has room for all positions.
    fn write(&self, positions: &mut [u16], results: &mut [u16]) -> usize {
        let mut places = positions.iter_mut();
        self.answer(|p| *places.next().expect("a place") = p, results)
    }
}

/// Where the positions may not fit they are gathered first; if they are more than that room has, they are looked for once more.
pub fn sheet(
    arities: &[u16],
    row: &[u16],
    table: &[u16],
    classes: &[u16],
    patterns: &[u16],
    lengths: &[u16],
    positions: &mut [u16],
    results: &mut [u16],
) -> Result<usize, Refusal> {
    check_given(arities, row, table, classes)?;
    check_lengths(patterns, lengths, results.len())?;
    let sheet = Sheet { arities, row, table, classes, patterns, lengths };
    let most = row.len() * lengths.len();
    if positions.len() >= most {
        return Ok(sheet.write(positions, results));
    }
    let (mut room, mut kept) = (Vec::with_capacity(most.min(GATHERED)), [0; RESULT * MOST_PATTERNS]);
    let gather = |p| {
        if room.len() < GATHERED {
            room.push(p);
        }
    };
    let count = sheet.answer(gather, &mut kept);
    if count > positions.len() {
        return Err((19, count as u64));
    }
    if count > GATHERED {
        return Ok(sheet.write(positions, results));
    }
    positions[..count].copy_from_slice(&room);
    let written = RESULT * lengths.len();
    results[..written].copy_from_slice(&kept[..written]);
    Ok(count)
}

pub fn variables(
    arities: &[u16],
    row: &[u16],
    table: &[u16],
    classes: &[u16],
    pattern: &[u16],
    position: usize,
    out: &mut [u16],
) -> Result<bool, Refusal> {
    check_given(arities, row, table, classes)?;
    check_pattern(arities, pattern)?;
    if position >= row.len() {
        return Err((17, position as u64));
    }
    if out.len() < 32 {
        return Err((19, 32));
    }
    let Some(spans) = match_at(row, table, classes, pattern, position) else {
        return Ok(false);
    };
    for (place, (b, e)) in out.chunks_exact_mut(2).zip(spans) {
        place[0] = b;
        place[1] = e;
    }
    Ok(true)
}

pub fn replace(
    arities: &[u16],
    row: &mut [u16],
    table: &mut [u16],
    classes: &mut [u16],
    n: usize,
    replacement: &[u16],
    position: usize,
) -> Result<(usize, i32), Refusal> {
    check_alphabet(arities)?;
    check_size(n, 16384, ROW)?;
    let room = row.len().min(table.len()).min(classes.len());
    if room < n {
        return Err((6, n as u64));
    }
    check_reading(arities, &row[..n], false, ROW)?;
    check_table(arities, &row[..n], table)?;
    check_classes(&row[..n], table, classes)?;
    check_size(replacement.len(), 16384, REPLACEMENT)?;
    check_reading(arities, replacement, false, REPLACEMENT)?;
    if position >= n {
        return Err((17, position as u64));
    }
    let end = table[position] as usize;
    let to = position + replacement.len();
    let new = to + (n - end);
    if new > 16384 || new > room {
        return Err((18, new as u64));
    }
    row.copy_within(end..n, to);
    row[position..to].copy_from_slice(replacement);
    table.copy_within(end..n, to);
    for e in &mut table[..position] {
        if *e as usize >= end {
            *e = (*e as usize - end + to) as u16;
        }
    }
    for e in &mut table[to..new] {
        *e = (*e as usize - end + to) as u16;
    }
    fill(arities, replacement, table, position);
    fill_classes(&row[..new], table, classes);
    if new < n {
        row[new..n].fill(65535);
        table[new..n].fill(0);
        classes[new..n].fill(0);
    }
    Ok((new, new as i32 - n as i32))
}

/// The length of the first tree of a list.
fn tree_length(arities: &[u16], list: &[u16]) -> usize {
    let mut need = 1;
    for (i, &s) in list.iter().enumerate() {
        if need == 0 {
            return i;
        }
        need = need - 1 + arities[s as usize] as usize;
    }
    list.len()
}

/// The pattern's first tree against the row's first tree: how much of each it takes, if it fits.
fn node<'a>(arities: &[u16], pattern: &[u16], rest: &'a [u16], bound: &mut [Option<&'a [u16]>; 16]) -> Option<(usize, usize)> {
    let s = pattern[0];
    if s == rest[0] {
        let (p, r) = children(arities, arities[s as usize], &pattern[1..], &rest[1..], bound)?;
        return Some((p + 1, r + 1));
    }
    if s == BLANK {
        return Some((1, tree_length(arities, rest)));
    }
    let v = variable(s)?;
    let tree = &rest[..tree_length(arities, rest)];
    match bound[v] {
        Some(first) if first != tree => None,
        _ => {
            bound[v] = Some(tree);
            Some((1, tree.len()))
        }
    }
}

fn children<'a>(arities: &[u16], k: u16, pattern: &[u16], rest: &'a [u16], bound: &mut [Option<&'a [u16]>; 16]) -> Option<(usize, usize)> {
    let (mut p, mut r) = (0, 0);
    for _ in 0..k {
        let (a, b) = node(arities, &pattern[p..], &rest[r..], bound)?;
        p += a;
        r += b;
    }
    Some((p, r))
}

pub fn plain_match(arities: &[u16], row: &[u16], pattern: &[u16], position: usize) -> Result<bool, Refusal> {
    check_alphabet(arities)?;
    check_size(row.len(), 16384, ROW)?;
    check_reading(arities, row, false, ROW)?;
    check_pattern(arities, pattern)?;
    if position >= row.len() {
        return Err((17, position as u64));
    }
    Ok(node(arities, pattern, &row[position..], &mut [None; 16]).is_some())
}

/// An entry of a catalogue's contents, as include/sparrowhem.h says.
#[repr(C)]
#[derive(Clone, Copy, Debug, PartialEq)]
pub struct Entry {
    pub programme: u32,
    pub start: u32,
    pub length: u32,
}

/// A refusal of a catalogue: its number, the programme whose row is faulty or 0, and its place.
pub type CatalogueRefusal = (u32, u32, u64);

const HEAD: usize = 4;
const ENTRY: usize = 12;
const MOST_PROGRAMMES: usize = 256;
const MOST_FILE: usize = 65536;

fn number(bytes: &[u8]) -> usize {
    u16::from_le_bytes([bytes[0], bytes[1]]) as usize
}

fn wide(bytes: &[u8]) -> u32 {
    u32::from_le_bytes([bytes[0], bytes[1], bytes[2], bytes[3]])
}

fn entry(bytes: &[u8]) -> Entry {
    Entry { programme: wide(bytes), start: wide(&bytes[4..]), length: wide(&bytes[8..]) }
}

/// A refusal that is about no programme.
fn plainly((refusal, place): Refusal) -> CatalogueRefusal {
    (refusal, 0, place)
}

/// Refusals 1 to 3, of arities that are a byte each.
fn check_arities(arities: &[u8]) -> Result<(), Refusal> {
    if arities.is_empty() || arities.len() > 1024 {
        return Err((1, arities.len() as u64));
    }
    if let Some(s) = arities.iter().position(|&a| a > 15) {
        return Err((2, s as u64));
    }
    if !arities.contains(&0) {
        return Err((3, 0));
    }
    Ok(())
}

/// Refusals 4, 5, 7, 8 and 9: so many symbols are due in all, one for the root and as many as each symbol so far has children.
fn check_tree(arities: &[u8], row: &[u8]) -> Result<(), Refusal> {
    check_size(row.len() / 2, 16384, ROW)?;
    let mut due = 1;
    for (i, s) in row.chunks_exact(2).map(number).enumerate() {
        if due == i {
            return Err((9, i as u64));
        }
        match arities.get(s) {
            Some(&arity) => due += arity as usize,
            None => return Err((7, i as u64)),
        }
    }
    if due != row.len() / 2 {
        return Err((8, (row.len() / 2) as u64));
    }
    Ok(())
}

/// Refusals 4, 5, 7, 8 and 9 of rows laid end to end, each with its programme and its length.
fn check_trees(arities: &[u8], mut rows: &[u8], programmes: impl Iterator<Item = (u32, u32)>) -> Result<(), CatalogueRefusal> {
    for (programme, length) in programmes {
        let (row, behind) = rows.split_at(2 * length as usize);
        check_tree(arities, row).map_err(|(refusal, place)| (refusal, programme, place))?;
        rows = behind;
    }
    Ok(())
}

/// Refusals 67 to 69.
fn check_contents(contents: &[u8], first: usize, bytes: usize) -> Result<(), Refusal> {
    let place = |k: usize| (HEAD + ENTRY * k) as u64;
    let entries = || contents.chunks_exact(ENTRY).map(entry).enumerate();
    let mut before = None;
    for (k, e) in entries() {
        if before >= Some(e.programme) {
            return Err((67, place(k)));
        }
        before = Some(e.programme);
    }
    let mut next = first as u64;
    for (k, e) in entries() {
        let end = next + 2 * e.length as u64;
        if e.start as u64 != next || end > bytes as u64 {
            return Err((68, place(k)));
        }
        next = end;
    }
    if next != bytes as u64 {
        return Err((69, next));
    }
    Ok(())
}

pub fn catalogue_read(file: &[u8], entries: &mut [Entry]) -> Result<usize, CatalogueRefusal> {
    if file.len() > MOST_FILE {
        return Err((66, 0, file.len() as u64));
    }
    if file.len() < HEAD {
        return Err((65, 0, file.len() as u64));
    }
    let (n, symbols) = (number(file), number(&file[2..]));
    let first = HEAD + ENTRY * n + symbols;
    if file.len() < first {
        return Err((65, 0, file.len() as u64));
    }
    if n > MOST_PROGRAMMES {
        return Err((88, 0, n as u64));
    }
    let (contents, arities) = file[HEAD..first].split_at(ENTRY * n);
    check_arities(arities).map_err(plainly)?;
    check_contents(contents, first, file.len()).map_err(plainly)?;
    let read = || contents.chunks_exact(ENTRY).map(entry);
    check_trees(arities, &file[first..], read().map(|e| (e.programme, e.length)))?;
    if entries.len() < n {
        return Err((19, 0, n as u64));
    }
    for (to, e) in entries.iter_mut().zip(read()) {
        *to = e;
    }
    Ok(n)
}

/// Arities that are lent as numbers, a byte each. What is above 15 stays so.
fn narrow(list: &[u8]) -> Vec<u8> {
    list.chunks_exact(2).map(|bytes| number(bytes).min(16) as u8).collect()
}

/// Refusals 67, 68 and 66, for rows of m symbols and a file of so many bytes.
fn check_lists(numbers: &[u32], lengths: &[u32], m: usize, bytes: usize) -> Result<(), Refusal> {
    if let Some(k) = numbers.windows(2).position(|pair| pair[1] <= pair[0]) {
        return Err((67, k as u64 + 1));
    }
    if lengths.len() != numbers.len() || lengths.iter().map(|&length| length as u64).sum::<u64>() != m as u64 {
        return Err((68, m as u64));
    }
    if bytes > MOST_FILE {
        return Err((66, bytes as u64));
    }
    Ok(())
}

pub fn catalogue_write(list: &[u8], numbers: &[u32], lengths: &[u32], rows: &[u8], file: &mut [u8]) -> Result<usize, CatalogueRefusal> {
    let (n, m) = (numbers.len(), rows.len() / 2);
    if n > MOST_PROGRAMMES {
        return Err((88, 0, n as u64));
    }
    let arities = narrow(list);
    check_arities(&arities).map_err(plainly)?;
    let first = HEAD + ENTRY * n + arities.len();
    let bytes = first + 2 * m;
    check_lists(numbers, lengths, m, bytes).map_err(plainly)?;
    check_trees(&arities, rows, numbers.iter().copied().zip(lengths.iter().copied()))?;
    if file.len() < bytes {
        return Err((19, 0, bytes as u64));
    }
    let (head, behind) = file[..bytes].split_at_mut(HEAD);
    let (contents, behind) = behind.split_at_mut(ENTRY * n);
    let (alphabet, trees) = behind.split_at_mut(arities.len());
    head[..2].copy_from_slice(&(n as u16).to_le_bytes());
    head[2..].copy_from_slice(&(arities.len() as u16).to_le_bytes());
    let mut next = first as u32;
    for (to, (number, length)) in contents.chunks_exact_mut(ENTRY).zip(numbers.iter().zip(lengths)) {
        to[..4].copy_from_slice(&number.to_le_bytes());
        to[4..8].copy_from_slice(&next.to_le_bytes());
        to[8..].copy_from_slice(&length.to_le_bytes());
        next += 2 * length;
    }
    alphabet.copy_from_slice(&arities);
    trees.copy_from_slice(&rows[..2 * m]);
    Ok(bytes)
}

/// The bar that closes a node in a bar form, and the most numbers of such a form.
const BAR: u16 = 65534;
const MOST_FORM: usize = 32768;

/// Refusals 70, 71, 7 and 72. Of each open node it is kept how many children it lacks.
fn check_form(arities: &[u16], form: &[u16]) -> Result<(), Refusal> {
    let (mut lacks, mut depth) = (vec![0u8; form.len()], 0);
    for (i, &s) in form.iter().enumerate() {
        if depth == 0 && (i > 0 || s == BAR) {
            return Err((70, i as u64));
        }
        if depth > 0 && (s == BAR) != (lacks[depth - 1] == 0) {
            return Err((71, i as u64));
        }
        if s == BAR {
            depth -= 1;
            continue;
        }
        let &arity = arities.get(s as usize).ok_or((7, i as u64))?;
        if depth > 0 {
            lacks[depth - 1] -= 1;
        }
        lacks[depth] = arity as u8;
        depth += 1;
    }
    if depth > 0 {
        return Err((72, form.len() as u64));
    }
    Ok(())
}

pub fn bars_read(arities: &[u16], form: &[u16], row: &mut [u16]) -> Result<usize, Refusal> {
    check_alphabet(arities)?;
    check_size(form.len(), MOST_FORM, ROW)?;
    check_form(arities, form)?;
    let n = form.len() / 2;
    if row.len() < n {
        return Err((19, n as u64));
    }
    // a bar is put into the row too, and the next number over it
    let (row, mut numbers, mut copied) = (&mut row[..n], form.iter(), 0);
    while copied < n {
        let &s = numbers.next().expect("a symbol");
        row[copied] = s;
        copied += (s != BAR) as usize;
    }
    Ok(n)
}

pub fn bars_write(arities: &[u16], row: &[u16], form: &mut [u16]) -> Result<usize, Refusal> {
    check_alphabet(arities)?;
    check_size(row.len(), 16384, ROW)?;
    check_reading(arities, row, false, ROW)?;
    let numbers = 2 * row.len();
    if form.len() < numbers {
        return Err((19, numbers as u64));
    }
    let (mut symbols, mut lacks, mut depth) = (row.iter(), vec![0u8; row.len()], 0);
    for place in &mut form[..numbers] {
        if depth > 0 && lacks[depth - 1] == 0 {
            *place = BAR;
            depth -= 1;
            continue;
        }
        let &s = symbols.next().expect("a symbol");
        *place = s;
        if depth > 0 {
            lacks[depth - 1] -= 1;
        }
        lacks[depth] = arities[s as usize] as u8;
        depth += 1;
    }
    Ok(numbers)
}
