//! Patches with faults, made from patches without.

use crate::patch::{Order, LONGEST_PATCH, PLACES};
use crate::random::Random;
use crate::scale::Scale;

/// What a faulty record is made from: the positions of the cells before it, and the rest.
struct Before<'a> {
    positions: Vec<usize>,
    order: &'a Order,
    scale: Scale,
}

/// A patch that has a fault of this number (from 10 to 18), often with others behind it.
pub fn faulty(
    random: &mut Random,
    scale: Scale,
    order: &Order,
    valid: &[u8],
    number: u8,
) -> Vec<u8> {
    match number {
        10 => vec![0; LONGEST_PATCH + random.between(1, 4)],
        11 => broken(random, valid),
        _ => with_faulty_record(random, scale, order, valid, number),
    }
}

/// A length that is no multiple of four.
fn broken(random: &mut Random, valid: &[u8]) -> Vec<u8> {
    let mut bytes = valid.to_vec();
    if random.once_in(2) || bytes.is_empty() {
        let odd = random.between(1, 3);
        bytes.extend((0..odd).map(|_| random.below(256) as u8));
    } else {
        bytes.truncate(bytes.len() - random.between(1, 3));
    }
    if random.once_in(3) {
        bytes[0] = random.between(5, 255) as u8;
    }
    bytes
}

fn with_faulty_record(
    random: &mut Random,
    scale: Scale,
    order: &Order,
    valid: &[u8],
    number: u8,
) -> Vec<u8> {
    let any_input = order.input(random.below(order.count()));
    let mut records: Vec<[u8; 4]> = valid.chunks(4).map(|r| [r[0], r[1], r[2], r[3]]).collect();
    let mut at = random.pick(&[0, records.len() / 2, records.len()]);
    if number == 15 {
        let missing = PLACES - 1 - cells(&records[..at]).min(PLACES - 1);
        records.splice(at..at, vec![[1, any_input, 0, 0]; missing]);
        at += missing;
    } else if number == 17 && cells(&records[..at]) == 0 {
        records.insert(at, [1, any_input, 0, 0]);
        at += 1;
    }
    let earlier = records[..at].iter().filter(|record| record[0] == 1);
    let positions = earlier.map(|record| order.position(record[1])).collect();
    let before = Before {
        positions,
        order,
        scale,
    };
    records.insert(at, before.record(random, number));
    if random.once_in(3) {
        records.insert(random.between(at + 1, records.len()), [9, 9, 9, 9]);
    }
    records.concat()
}

fn cells(records: &[[u8; 4]]) -> usize {
    records.iter().filter(|record| record[0] == 1).count()
}

impl Before<'_> {
    fn record(&self, random: &mut Random, number: u8) -> [u8; 4] {
        let mut any = || random.below(256) as u8;
        let four = [any(), any(), any(), any()];
        match number {
            12 => [random.between(5, 255) as u8, four[1], four[2], four[3]],
            13 => self.not_zero(random),
            14 => [1, self.strange_input(random), 0, 0],
            15 => [1, self.any_input(random), 0, 0],
            16 => self.unknown_cell(random),
            17 => self.not_later(random),
            _ => self.no_code(random),
        }
    }

    /// Filler, cell or outlet with a byte that should be 0, the last two also with a second fault.
    fn not_zero(&self, random: &mut Random) -> [u8; 4] {
        let odd = random.between(1, 255) as u8;
        let mut filler = [0, 0, 0, 0];
        filler[random.between(1, 3)] = odd;
        let mut cell = [1, self.any_input(random), 0, 0];
        cell[random.between(2, 3)] = odd;
        let outlet = [4, odd, 0, 1];
        let strange_cell = [1, self.strange_input(random), cell[2], cell[3]];
        let strange_target = [4, odd, self.strange_cell(random), 1];
        let strange_code = [4, odd, 0, self.strange_code(random)];
        random.pick(&[
            filler,
            cell,
            outlet,
            strange_cell,
            strange_target,
            strange_code,
        ])
    }

    fn unknown_cell(&self, random: &mut Random) -> [u8; 4] {
        let strange = self.strange_cell(random);
        let known = random.below(self.positions.len() + 1) as u8;
        let code = self.maybe_strange_code(random);
        let mark = random.between(2, 3) as u8;
        let from_zero = [mark, 0, known, code];
        let from_strange = [mark, strange, known, code];
        let to_strange = [mark, known.max(1), strange, code];
        let outlet = [4, 0, strange, code];
        random.pick(&[from_zero, from_strange, to_strange, outlet])
    }

    /// An arc to a cell of the same or an earlier position, itself among them.
    fn not_later(&self, random: &mut Random) -> [u8; 4] {
        let from = random.below(self.positions.len());
        let not_later = |&to: &usize| self.positions[to] <= self.positions[from];
        let targets: Vec<usize> = (0..self.positions.len()).filter(not_later).collect();
        let to = random.pick(&targets);
        let mark = random.between(2, 3) as u8;
        let code = self.maybe_strange_code(random);
        [mark, from as u8 + 1, to as u8 + 1, code]
    }

    fn no_code(&self, random: &mut Random) -> [u8; 4] {
        let known = random.below(self.positions.len() + 1) as u8;
        let code = self.strange_code(random);
        if known == 0 || random.once_in(2) {
            [4, 0, known, code]
        } else {
            [random.between(2, 3) as u8, known, 0, code]
        }
    }

    fn any_input(&self, random: &mut Random) -> u8 {
        self.order.input(random.below(self.order.count()))
    }

    fn strange_input(&self, random: &mut Random) -> u8 {
        let first = self.order.count();
        let any = random.between(first, 255);
        random.pick(&[first, 255, any]) as u8
    }

    fn strange_cell(&self, random: &mut Random) -> u8 {
        let first = self.positions.len() + 1;
        let any = random.between(first, 255);
        random.pick(&[first, any]) as u8
    }

    fn strange_code(&self, random: &mut Random) -> u8 {
        let first = usize::from(self.scale.codes());
        let any = random.between(first, 255);
        random.pick(&[first, 255, any]) as u8
    }

    fn maybe_strange_code(&self, random: &mut Random) -> u8 {
        let strange = self.strange_code(random);
        random.pick(&[0, 1, strange])
    }
}

/// A patch with a few bytes changed at random; it may or may not have a fault.
pub fn mangled(random: &mut Random, valid: &[u8]) -> Vec<u8> {
    let mut bytes = valid.to_vec();
    if bytes.is_empty() {
        return vec![0, 0, 0, random.below(2) as u8];
    }
    for _ in 0..random.between(1, 3) {
        let at = random.below(bytes.len());
        let little = random.below(6);
        let any = random.below(256);
        bytes[at] = random.pick(&[little, little, any]) as u8;
    }
    bytes
}
