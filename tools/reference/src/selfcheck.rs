//! Checks of the reference against itself: the two ways of settling against each other, and
//! both against the meaning of a rule, the conditions of the settled form and its size.

use crate::elimination;
use crate::form::Form;
use crate::invent;
use crate::make::{self, Plan};
use crate::network::Network;
use crate::patch::{examine, Order, Record};
use crate::random::Random;
use crate::scale::Scale;
use crate::script;
use crate::truth;

/// Patches up to so many inputs are compared, and scripts up to one less than that.
const MOST_INPUTS: usize = 12;
/// Paths are followed and the smallest number of cells is worked out anew up to so many inputs.
const FEW_INPUTS: usize = 8;
/// Paths are followed one by one as long as a setting has no more than this many steps.
const MOST_STEPS: usize = 500;

#[derive(Default)]
struct Counts {
    patches: usize,
    more_than_31: usize,
    most_cells: usize,
    settings: usize,
    settings_by_paths: usize,
    sizes: usize,
    spread: usize,
    large: usize,
    script_answers: usize,
}

/// Checks `many` random patches, half as many with many inputs, and a script of 100 calls for
/// every 50 of them.
/// Panics at the first thing that is not as it should be.
pub fn run(seed: u64, many: usize) -> Vec<String> {
    let mut random = Random::new(seed);
    let mut counts = Counts::default();
    for _ in 0..many {
        check_patch(&mut random, &mut counts);
    }
    for _ in 0..many.div_ceil(4) {
        check_spread(&mut random, &mut counts);
        check_large(&mut random, &mut counts);
    }
    for number in 0..many.div_ceil(50) as u64 {
        check_script(seed.wrapping_add(number), &mut counts);
    }
    vec![
        format!("patches settled both ways: {}", counts.patches),
        format!("of these with more than 31 cells: {}", counts.more_than_31),
        format!("most cells of a settled form: {}", counts.most_cells),
        format!("settings evaluated: {}", counts.settings),
        format!("of these by single paths too: {}", counts.settings_by_paths),
        format!("smallest sizes worked out anew: {}", counts.sizes),
        format!("patches of few inputs spread over many: {}", counts.spread),
        format!("patches of many inputs: {}", counts.large),
        format!("script answers compared: {}", counts.script_answers),
        "all agree".to_string(),
    ]
}

fn some_order(random: &mut Random, count: usize) -> Order {
    let list = random.scan_list(count);
    Order::arrange(&list).expect("a shuffled list is a scan list")
}

fn check_patch(random: &mut Random, counts: &mut Counts) {
    let count = match random.below(8) {
        0..=5 => random.between(1, 6),
        6 => random.between(7, 8),
        _ => random.between(9, MOST_INPUTS),
    };
    let scale = random.pick(&Scale::ALL);
    let order = some_order(random, count);
    let invented = some_network(random, scale, count);
    let bytes = invent::patch(random, &order, &invented);
    let records = examine(&bytes, &order, scale).expect("an invented patch has no fault");
    let network = Network::of_records(scale, &order, &records);
    let table = truth::table(scale, count, &network);
    let form = truth::settle(scale, count, &table);
    assert_eq!(
        form,
        elimination::settle(scale, count, &network),
        "two forms"
    );
    counts.patches += 1;
    counts.more_than_31 += usize::from(form.cells.len() > 31);
    counts.most_cells = counts.most_cells.max(form.cells.len());
    check_settings(scale, &order, &records, &form, counts);
    check_conditions(&form);
    check_again(random, scale, &order, &form);
    if count <= FEW_INPUTS {
        counts.sizes += 1;
        let fewest = truth::fewest_cells(scale, count, &table);
        assert_eq!(form.cells.len(), fewest, "not the smallest number of cells");
    }
}

fn some_network(random: &mut Random, scale: Scale, count: usize) -> Network {
    let most = match count {
        0..=8 => random.pick(&[2, 4, 8, 16, 30, 60, 127]),
        _ => random.pick(&[16, 30, 60, 90, 127]),
    };
    let cells = random.between(most / 2, most);
    let fan = random.between(1, 6);
    let network = invent::network(random, scale, count, cells, fan);
    match random.below(4) {
        0 => invent::inflated(random, scale, count, &network),
        1 if cells + 2 * count <= invent::MOST_CELLS_OF_A_PATCH => {
            let one = invent::chain(random, scale, count, false);
            let other = invent::chain(random, scale, count, true);
            network.laid(&one).laid(&other)
        }
        _ => network,
    }
}

/// A rule of few inputs, taken as one of many inputs: its cells are the same.
fn check_spread(random: &mut Random, counts: &mut Counts) {
    let scale = random.pick(&Scale::ALL);
    let few = random.between(1, 8);
    let many = random.between(9, 24);
    let mut spots: Vec<usize> = (0..many).collect();
    random.shuffle(&mut spots);
    spots.truncate(few);
    spots.sort_unstable();
    let mut network = some_network(random, scale, few);
    let mut form = truth::settle(scale, few, &truth::table(scale, few, &network));
    for cell in &mut network.cells {
        cell.position = spots[cell.position];
    }
    for cell in &mut form.cells {
        cell.position = spots[cell.position];
    }
    assert_eq!(
        form,
        elimination::settle(scale, many, &network),
        "spread over many inputs"
    );
    let order = some_order(random, many);
    check_again(random, scale, &order, &form);
    counts.spread += 1;
}

/// A rule of many inputs: its form at some settings, its conditions, and other patches of it.
fn check_large(random: &mut Random, counts: &mut Counts) {
    let scale = random.pick(&Scale::ALL);
    let count = random.between(13, 24);
    let order = some_order(random, count);
    let network = some_network(random, scale, count);
    let form = elimination::settle(scale, count, &network);
    let settled = form.network();
    let (before, after) = (network.evaluator(scale), settled.evaluator(scale));
    for _ in 0..200 {
        let assignment = random.below(1 << count) as u32;
        assert_eq!(
            before.rule(assignment),
            after.rule(assignment),
            "another rule"
        );
    }
    check_conditions(&form);
    check_again(random, scale, &order, &form);
    counts.large += 1;
}

/// The settled form has the rule of the patch at every setting.
fn check_settings(
    scale: Scale,
    order: &Order,
    records: &[Record],
    form: &Form,
    counts: &mut Counts,
) {
    let original = Network::of_records(scale, order, records);
    let settled = form.network();
    let (before, after) = (original.evaluator(scale), settled.evaluator(scale));
    for setting in 0..order.settings() {
        let assignment = order.by_positions(setting);
        let code = after.rule(assignment);
        assert_eq!(before.rule(assignment), code, "another rule");
        counts.settings += 1;
        if order.count() > FEW_INPUTS {
            continue;
        }
        if let Some(sum) = sum_of_paths(scale, records, setting) {
            assert_eq!(sum, code, "not the sum of the paths");
            counts.settings_by_paths += 1;
        }
    }
}

/// The sum over the open paths, each followed by itself; none if there are too many steps.
fn sum_of_paths(scale: Scale, records: &[Record], setting: u64) -> Option<u8> {
    let mut sum = 0;
    let mut steps = 0;
    let mut begun = Vec::new();
    for record in records {
        if let Record::Outlet { to, code } = *record {
            begun.push((to, code));
        }
    }
    while let Some((cell, product)) = begun.pop() {
        steps += 1;
        if steps > MOST_STEPS {
            return None;
        }
        if cell == 0 {
            sum = scale.sum(sum, product);
            continue;
        }
        let opened = input_of(records, cell).map(|input| setting >> input & 1 == 1)?;
        for record in records {
            match *record {
                Record::On { from, to, code } if from == cell && opened => {
                    begun.push((to, scale.product(product, code)));
                }
                Record::Off { from, to, code } if from == cell && !opened => {
                    begun.push((to, scale.product(product, code)));
                }
                _ => {}
            }
        }
    }
    Some(sum)
}

fn input_of(records: &[Record], cell: u8) -> Option<u8> {
    let mut inputs = records.iter().filter_map(|record| match *record {
        Record::Cell { input } => Some(input),
        _ => None,
    });
    inputs.nth(usize::from(cell) - 1)
}

/// The conditions of the settled form, but for the smallest number of cells.
fn check_conditions(form: &Form) {
    let head = |on: &[u8]| on.iter().position(|&code| code != 0);
    for (index, cell) in form.cells.iter().enumerate() {
        let head_here = head(&cell.on).expect("a cell without an arc");
        assert_eq!(cell.on[head_here], 1, "a head whose code is not 1");
        for (to, &code) in cell.on.iter().enumerate().skip(1) {
            let later = to <= index && form.cells[to - 1].position > cell.position;
            assert!(code == 0 || later, "an arc that does not lead later");
        }
        for (other_index, other) in form.cells.iter().enumerate() {
            let rising = (other_index > index, other.position <= cell.position);
            assert!(rising != (true, false), "cells in the wrong sequence");
            if other_index != index && other.position == cell.position {
                let head_there = head(&other.on).expect("a cell without an arc");
                assert_eq!(
                    other_index > index,
                    head_there > head_here,
                    "heads do not rise"
                );
                assert_eq!(other.on[head_here], 0, "an arc to the head of another cell");
            }
        }
    }
}

/// The settled bytes, and any other patch of the rule, settle to the same form.
fn check_again(random: &mut Random, scale: Scale, order: &Order, form: &Form) {
    let count = order.count();
    let records = examine(&form.bytes(order), order, scale).expect("settled bytes have no fault");
    let network = Network::of_records(scale, order, &records);
    assert_eq!(
        *form,
        elimination::settle(scale, count, &network),
        "settled twice"
    );
    let other = invent::inflated(random, scale, count, &network);
    assert_eq!(
        *form,
        elimination::settle(scale, count, &other),
        "another patch of the rule"
    );
}

/// The answers to a script are the same whichever way its rules are kept and settled.
fn check_script(seed: u64, counts: &mut Counts) {
    let plan = Plan {
        calls: 100,
        most_inputs: MOST_INPUTS - 1,
    };
    let script = make::script(seed, plan).join("\n");
    let by_tests = script::answers(&script, 0);
    let by_tables = script::answers(&script, MOST_INPUTS);
    assert_eq!(by_tests, by_tables, "two sets of answers to one script");
    counts.script_answers += by_tests.len();
}

#[cfg(test)]
mod tests {
    #[test]
    fn both_ways_agree() {
        assert_eq!(super::run(7, 60).last().unwrap(), "all agree");
    }
}
