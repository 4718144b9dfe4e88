//! The bar forms of rows, which are read and written.

use crate::rows::Programme;

/// What closes a node.
pub const BAR: u16 = 65534;

/// A row's bar form: behind each symbol as many bars as there are nodes that end there, as the table tells.
pub fn form(p: &Programme) -> Vec<u16> {
    let mut ending = vec![0; p.row.len() + 1];
    p.table.iter().for_each(|&end| ending[end as usize] += 1);
    let mut form = Vec::with_capacity(2 * p.row.len());
    for (&symbol, &bars) in p.row.iter().zip(&ending[1..]) {
        form.push(symbol);
        form.extend(std::iter::repeat(BAR).take(bars));
    }
    form
}

/// The same without the root's bar.
pub fn unclosed(p: &Programme) -> Vec<u16> {
    let mut form = form(p);
    form.pop();
    form
}
