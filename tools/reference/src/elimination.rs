//! Settling by tests and samples, for rules whose truth table is too long.
//!
//! A test of position p is an assignment to the positions from p on. The tests kept for p are
//! complete: they separate any two combinations of the steady cell and the network's cells at
//! the positions from p on. So a combination is known exactly by its values at these tests,
//! even where some cells are combinations of others.
//!
//! A sample of position p is an assignment to the positions before p. The cofactors of the rule
//! under the samples kept for p span the cofactors under all assignments to these positions.
//!
//! The rule's codes at sample and test joined then take the place of the truth table: they say
//! all about the cofactors, and there are at most as many tests and samples of a position as
//! the network has cells, and one more.

use crate::form::{Form, FormCell};
use crate::linear::{self, Row};
use crate::network::{Evaluator, Network};
use crate::scale::Scale;

pub fn settle(scale: Scale, count: usize, network: &Network) -> Form {
    let rule = network.evaluator(scale);
    let tests = complete_tests(scale, count, network);
    let samples = complete_samples(scale, count, &rule, &tests);
    let mut form = Form::silent();
    for position in (0..count).rev() {
        let later = &tests[position + 1];
        let rise = |sample: &u32| rise_at(scale, &rule, *sample, position, later);
        let rises: Vec<Row> = samples[position].iter().map(rise).collect();
        let basis = functions_at(scale, &form, later);
        let spanned = linear::coefficients(scale, &basis, &rises);
        let rows = linear::reduced(scale, spanned);
        form.cells
            .extend(rows.into_iter().map(|on| FormCell { position, on }));
    }
    let basis = functions_at(scale, &form, &tests[0]);
    let whole: Row = tests[0].iter().map(|&test| rule.rule(test)).collect();
    form.outlet = linear::coefficients(scale, &basis, &[whole]).remove(0);
    form
}

/// The tests of each position, from the last to the first. A value at a position is a
/// combination of later values, one for 0 and one for 1. So both ways to lengthen the
/// complete tests of the next position are enough, and of those the independent ones.
fn complete_tests(scale: Scale, count: usize, network: &Network) -> Vec<Vec<u32>> {
    let evaluator = network.evaluator(scale);
    let mut tests = vec![vec![0]; count + 1];
    for position in (0..count).rev() {
        let lengthened: Vec<u32> = both_ways(&tests[position + 1], position);
        let seen = |values: Row| -> Row {
            let cells = network.cells.iter().zip(&values[1..]);
            let kept = cells.filter(|(cell, _)| cell.position >= position);
            std::iter::once(1)
                .chain(kept.map(|(_, &value)| value))
                .collect()
        };
        let values = lengthened.iter().map(|&test| seen(evaluator.values(test)));
        tests[position] = chosen(scale, &lengthened, &values.collect::<Vec<Row>>());
    }
    tests
}

/// The samples of each position, from the first to the last. A cofactor after one more
/// position is a cofactor of a cofactor, so both ways to lengthen the samples are enough.
fn complete_samples(
    scale: Scale,
    count: usize,
    rule: &Evaluator,
    tests: &[Vec<u32>],
) -> Vec<Vec<u32>> {
    let mut samples = vec![vec![0]; count + 1];
    for position in 0..count {
        let lengthened = both_ways(&samples[position], position);
        let later = &tests[position + 1];
        let codes = |sample: &u32| later.iter().map(|test| rule.rule(sample | test)).collect();
        let rows: Vec<Row> = lengthened.iter().map(codes).collect();
        samples[position + 1] = chosen(scale, &lengthened, &rows);
    }
    samples
}

fn both_ways(assignments: &[u32], position: usize) -> Vec<u32> {
    let ways = |&bits: &u32| [bits, bits | 1 << position];
    assignments.iter().flat_map(ways).collect()
}

/// The assignments whose rows are independent of the rows before them.
fn chosen(scale: Scale, assignments: &[u32], rows: &[Row]) -> Vec<u32> {
    let kept = linear::independent(scale, rows);
    kept.into_iter().map(|index| assignments[index]).collect()
}

/// A sample's cofactor where the position is 1, minus where it is 0, at the later tests.
fn rise_at(scale: Scale, rule: &Evaluator, sample: u32, position: usize, later: &[u32]) -> Row {
    let code = |test: &u32| {
        let off = sample | test;
        scale.difference(rule.rule(off | 1 << position), rule.rule(off))
    };
    later.iter().map(code).collect()
}

/// The values of the steady cell and each cell made so far, at the given tests.
fn functions_at(scale: Scale, form: &Form, tests: &[u32]) -> Vec<Row> {
    let network = form.network();
    let evaluator = network.evaluator(scale);
    let columns: Vec<Row> = tests.iter().map(|&test| evaluator.values(test)).collect();
    let row = |target: usize| columns.iter().map(|column| column[target]).collect();
    (0..=form.cells.len()).map(row).collect()
}
