//! Rows of states and their cells.

/// How many cells there are for an arity over `m` states.
pub fn cells(m: usize, arity: usize) -> usize {
    (0..arity).fold(1, |product, _| product * m)
}

/// The cell of a row: the first state weighs most.
pub fn cell(m: usize, row: impl IntoIterator<Item = usize>) -> usize {
    row.into_iter().fold(0, |cell, state| cell * m + state)
}

/// The row of a cell.
pub fn row(m: usize, arity: usize, cell: usize) -> Vec<usize> {
    (0..arity)
        .rev()
        .map(|place| cell / cells(m, place) % m)
        .collect()
}
