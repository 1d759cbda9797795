//! Settling by truth tables. The table of a rule has a code for each assignment, with the
//! first position as the highest bit of the index. So the cofactors under the assignments to
//! the positions before p are the blocks of 2^(n - p) neighbouring codes.

use crate::form::{Form, FormCell};
use crate::linear::{self, Row};
use crate::network::Network;
use crate::scale::Scale;

/// The bits of an index in the way the networks want them: bit p is position p.
pub fn assignment(count: usize, index: usize) -> u32 {
    (0..count)
        .map(|p| ((index >> (count - 1 - p) & 1) as u32) << p)
        .sum()
}

/// The index of an assignment.
pub fn index(count: usize, assignment: u32) -> usize {
    (0..count)
        .map(|p| ((assignment >> p & 1) as usize) << (count - 1 - p))
        .sum()
}

pub fn table(scale: Scale, count: usize, network: &Network) -> Row {
    let evaluator = network.evaluator(scale);
    let code = |index: usize| evaluator.rule(assignment(count, index));
    (0..1 << count).map(code).collect()
}

/// The table of the rule with the input at a position read as `value`.
pub fn tied(count: usize, table: &Row, position: usize, value: bool) -> Row {
    let bit = 1 << (count - 1 - position);
    let read = |index: usize| if value { index | bit } else { index & !bit };
    (0..table.len()).map(|index| table[read(index)]).collect()
}

/// Goes from the last position to the first. The rise of a cofactor is what it gives where
/// the position is 1, minus what it gives where the position is 0. The rises of all
/// cofactors, as coefficients over the steady function and the cells of later positions,
/// span a space; its reduced rows are the on arcs of the cells at this position.
pub fn settle(scale: Scale, count: usize, table: &Row) -> Form {
    let mut cells = Vec::new();
    let mut functions: Vec<Row> = vec![vec![1]];
    for position in (0..count).rev() {
        let half = 1 << (count - position - 1);
        let rises = rises(scale, table, half);
        let spanned = linear::coefficients(scale, &functions, &rises);
        let rows = linear::reduced(scale, spanned);
        let fresh = rows.iter().map(|row| {
            let opened = linear::combination(scale, row, &functions, half);
            [vec![0; half], opened].concat()
        });
        let fresh: Vec<Row> = fresh.collect();
        let older = functions.iter().map(|function| function.repeat(2));
        functions = older.chain(fresh).collect();
        cells.extend(rows.into_iter().map(|on| FormCell { position, on }));
    }
    let wanted = std::slice::from_ref(table);
    let outlet = linear::coefficients(scale, &functions, wanted).remove(0);
    Form { cells, outlet }
}

fn rises(scale: Scale, table: &Row, half: usize) -> Vec<Row> {
    let rise = |block: &[u8]| {
        let (off, on) = block.split_at(half);
        let pairs = on.iter().zip(off);
        pairs.map(|(&on, &off)| scale.difference(on, off)).collect()
    };
    table.chunks(2 * half).map(rise).collect()
}

/// The smallest number of cells, straight from its meaning: the cells of any patch of the rule,
/// with the steady cell, span every cofactor, and the settled cells do no more. So it is the
/// dimension of the span of 1 and all cofactors, taken as whole tables, less one.
pub fn fewest_cells(scale: Scale, count: usize, table: &Row) -> usize {
    let mut rows: Vec<Row> = vec![vec![1; table.len()]];
    for position in 0..=count {
        let width = 1 << (count - position);
        rows.extend(table.chunks(width).map(|block| block.repeat(1 << position)));
        rows = linear::reduced(scale, rows);
    }
    rows.len() - 1
}

#[cfg(test)]
mod tests {
    use super::*;

    /// All sets of reduced rows of this width, at gates.
    fn all_reduced(width: usize) -> Vec<Vec<Row>> {
        let mut sets = Vec::new();
        for heads in 0..1usize << width {
            let heads: Vec<usize> = (0..width).filter(|&h| heads >> h & 1 == 1).collect();
            let mut partial: Vec<Vec<Row>> = vec![Vec::new()];
            for &head in &heads {
                let free = (head + 1..width).filter(|place| !heads.contains(place));
                let rows = all_rows(width, head, &free.collect::<Vec<usize>>());
                let longer = |set: &Vec<Row>| {
                    let set = set.clone();
                    let add = move |row: &Row| [set.clone(), vec![row.clone()]].concat();
                    rows.iter().map(add).collect::<Vec<Vec<Row>>>()
                };
                partial = partial.iter().flat_map(longer).collect();
            }
            sets.extend(partial);
        }
        sets
    }

    /// All rows with this head and anything at the free places.
    fn all_rows(width: usize, head: usize, free: &[usize]) -> Vec<Row> {
        let row = |bits: usize| {
            let mut row = vec![0; width];
            row[head] = 1;
            for (k, &place) in free.iter().enumerate() {
                row[place] = (bits >> k & 1) as u8;
            }
            row
        };
        (0..1 << free.len()).map(row).collect()
    }

    /// All forms that keep the conditions, but for the number of cells, with any outlet.
    fn all_forms(count: usize) -> Vec<Form> {
        let mut cells: Vec<Vec<FormCell>> = vec![Vec::new()];
        for position in (0..count).rev() {
            let longer = |made: &Vec<FormCell>| {
                let made = made.clone();
                let sets = all_reduced(made.len() + 1).into_iter();
                sets.map(move |rows| {
                    let fresh = rows.into_iter().map(|on| FormCell { position, on });
                    made.iter().cloned().chain(fresh).collect()
                })
            };
            cells = cells.iter().flat_map(longer).collect();
        }
        let mut forms = Vec::new();
        for cells in cells {
            for bits in 0..2usize << cells.len() {
                let outlet = (0..=cells.len()).map(|t| (bits >> t & 1) as u8).collect();
                forms.push(Form {
                    cells: cells.clone(),
                    outlet,
                });
            }
        }
        forms
    }

    /// Of all forms with a rule, the settled one alone has the fewest cells.
    #[test]
    fn every_rule_of_three_inputs() {
        let count = 3;
        let mut best: Vec<Vec<Form>> = vec![Vec::new(); 256];
        for form in all_forms(count) {
            let table = table(Scale::Gates, count, &form.network());
            let name = table
                .iter()
                .fold(0, |name, &code| 2 * name + usize::from(code));
            let known = best[name]
                .first()
                .map_or(usize::MAX, |form| form.cells.len());
            if form.cells.len() < known {
                best[name].clear();
            }
            if form.cells.len() <= known {
                best[name].push(form);
            }
        }
        for (name, forms) in best.iter().enumerate() {
            let table: Row = (0..8).map(|bit| (name >> (7 - bit) & 1) as u8).collect();
            assert_eq!(*forms, vec![settle(Scale::Gates, count, &table)]);
        }
    }
}
