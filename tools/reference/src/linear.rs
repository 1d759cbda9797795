//! Dense matrices of codes: one Gauss-Jordan elimination and three questions put to it.

use crate::scale::Scale;

pub type Row = Vec<u8>;

/// Brings the rows into reduced row echelon form, looking for heads in the first `columns`
/// columns only. Answers the columns of the heads; their rows come first, in the same order.
fn gauss_jordan(scale: Scale, rows: &mut [Row], columns: usize) -> Vec<usize> {
    let mut heads = Vec::new();
    for column in 0..columns {
        let next = heads.len();
        let Some(found) = (next..rows.len()).find(|&r| rows[r][column] != 0) else {
            continue;
        };
        rows.swap(next, found);
        let factor = scale.inverse(rows[next][column]);
        for code in &mut rows[next] {
            *code = scale.product(factor, *code);
        }
        let head_row = rows[next].clone();
        for (r, row) in rows.iter_mut().enumerate() {
            if r != next && row[column] != 0 {
                let factor = scale.negative(row[column]);
                add_multiple(scale, row, factor, &head_row);
            }
        }
        heads.push(column);
    }
    heads
}

/// Adds `factor` times `other` to `row`.
pub fn add_multiple(scale: Scale, row: &mut [u8], factor: u8, other: &[u8]) {
    for (code, &addend) in row.iter_mut().zip(other) {
        *code = scale.sum(*code, scale.product(factor, addend));
    }
}

/// The sum of the rows, each times its factor; every row has `width` codes.
pub fn combination(scale: Scale, factors: &[u8], rows: &[Row], width: usize) -> Row {
    let mut sum = vec![0; width];
    for (&factor, row) in factors.iter().zip(rows) {
        add_multiple(scale, &mut sum, factor, row);
    }
    sum
}

/// The reduced rows with the same span: heads rise, are 1 and stand alone in their column.
pub fn reduced(scale: Scale, mut rows: Vec<Row>) -> Vec<Row> {
    let columns = rows.first().map_or(0, Vec::len);
    let rank = gauss_jordan(scale, &mut rows, columns).len();
    rows.truncate(rank);
    rows
}

/// The numbers of the rows that are no combination of the rows before them.
pub fn independent(scale: Scale, rows: &[Row]) -> Vec<usize> {
    gauss_jordan(scale, &mut transposed(rows), rows.len())
}

/// The coefficients of each wanted row over the rows of the basis.
/// The basis must be independent and the wanted rows must lie in its span; otherwise it panics.
pub fn coefficients(scale: Scale, basis: &[Row], wanted: &[Row]) -> Vec<Row> {
    let together: Vec<Row> = basis.iter().chain(wanted).cloned().collect();
    let mut equations = transposed(&together);
    let heads = gauss_jordan(scale, &mut equations, basis.len());
    assert_eq!(heads.len(), basis.len(), "the basis is not independent");
    let rest = &equations[basis.len()..];
    let solved = rest.iter().flatten().all(|&code| code == 0);
    assert!(solved, "a wanted row lies outside the span of the basis");
    let unknowns = 0..basis.len();
    let column = |j: usize| unknowns.clone().map(|i| equations[i][j]).collect();
    (basis.len()..together.len()).map(column).collect()
}

fn transposed(rows: &[Row]) -> Vec<Row> {
    let width = rows.first().map_or(0, Vec::len);
    let column = |j: usize| rows.iter().map(|row| row[j]).collect();
    (0..width).map(column).collect()
}

#[cfg(test)]
mod tests {
    use super::*;

    #[test]
    fn rows_are_reduced() {
        let rows = vec![vec![0, 2, 4], vec![1, 1, 1], vec![1, 2, 3]];
        let expected = vec![vec![1, 0, 126], vec![0, 1, 2]];
        assert_eq!(reduced(Scale::Accents, rows), expected);
    }

    #[test]
    fn the_first_independent_rows_are_named() {
        let rows = vec![vec![0, 0], vec![1, 1], vec![1, 1], vec![0, 1], vec![1, 0]];
        assert_eq!(independent(Scale::Gates, &rows), vec![1, 3]);
    }

    #[test]
    fn coefficients_give_the_wanted_rows() {
        let basis = vec![vec![1, 1, 1], vec![0, 3, 5]];
        let wanted = vec![vec![2, 5, 7]];
        assert_eq!(
            coefficients(Scale::Accents, &basis, &wanted),
            vec![vec![2, 1]]
        );
    }
}
