//! Scan orders, records, the checks of a patch, and its listing.

use crate::scale::Scale;

/// Every strip has this many places, so a patch has one cell less at most.
pub const PLACES: usize = 128;
pub const LONGEST_PATCH: usize = 65_536;
pub const MOST_INPUTS: usize = 24;

#[derive(Clone, Copy, Debug, PartialEq, Eq)]
pub struct Refusal {
    pub number: u8,
    pub place: usize,
}

/// A refusal whose place is 0.
pub fn refused<T>(number: u8) -> Result<T, Refusal> {
    Err(Refusal { number, place: 0 })
}

#[derive(Clone, Debug)]
pub struct Order {
    inputs: Vec<u8>,
    positions: Vec<usize>,
}

impl Order {
    pub fn arrange(list: &[u64]) -> Result<Order, Refusal> {
        let count = list.len();
        if count == 0 || count > MOST_INPUTS {
            return refused(1);
        }
        let place_of = |input: u64| list.iter().position(|&listed| listed == input);
        let positions: Vec<usize> = (0..count as u64).filter_map(place_of).collect();
        if positions.len() < count {
            return refused(2);
        }
        let inputs = list.iter().map(|&input| input as u8).collect();
        Ok(Order { inputs, positions })
    }

    pub fn count(&self) -> usize {
        self.inputs.len()
    }

    pub fn input(&self, position: usize) -> u8 {
        self.inputs[position]
    }

    pub fn position(&self, input: u8) -> usize {
        self.positions[usize::from(input)]
    }

    /// The number of settings.
    pub fn settings(&self) -> u64 {
        1 << self.count()
    }

    /// A setting has input k in bit k; the same by positions has position p in bit p.
    pub fn by_positions(&self, setting: u64) -> u32 {
        let bit = |p: usize| (setting >> self.inputs[p] & 1) as u32;
        (0..self.count()).map(|p| bit(p) << p).sum()
    }
}

#[derive(Clone, Copy, Debug, PartialEq, Eq)]
pub enum Record {
    Filler,
    Cell { input: u8 },
    Off { from: u8, to: u8, code: u8 },
    On { from: u8, to: u8, code: u8 },
    Outlet { to: u8, code: u8 },
}

impl Record {
    pub fn bytes(self) -> [u8; 4] {
        match self {
            Record::Filler => [0, 0, 0, 0],
            Record::Cell { input } => [1, input, 0, 0],
            Record::Off { from, to, code } => [2, from, to, code],
            Record::On { from, to, code } => [3, from, to, code],
            Record::Outlet { to, code } => [4, 0, to, code],
        }
    }

    fn read([mark, from, to, code]: [u8; 4]) -> Record {
        match mark {
            0 => Record::Filler,
            1 => Record::Cell { input: from },
            2 => Record::Off { from, to, code },
            3 => Record::On { from, to, code },
            4 => Record::Outlet { to, code },
            _ => unreachable!("marks above 4 are refused before"),
        }
    }
}

/// The records of a patch that passes all checks, or the first fault.
pub fn examine(bytes: &[u8], order: &Order, scale: Scale) -> Result<Vec<Record>, Refusal> {
    if bytes.len() > LONGEST_PATCH {
        return refused(10);
    }
    if !bytes.len().is_multiple_of(4) {
        return refused(11);
    }
    let mut records = Vec::new();
    let mut positions = Vec::new();
    for (place, chunk) in bytes.chunks(4).enumerate() {
        let four = [chunk[0], chunk[1], chunk[2], chunk[3]];
        if let Some(number) = fault(four, &positions, order, scale) {
            return Err(Refusal { number, place });
        }
        let record = Record::read(four);
        if let Record::Cell { input } = record {
            positions.push(order.position(input));
        }
        records.push(record);
    }
    Ok(records)
}

/// The first fault of a record; `positions` belong to the cells that stand before it.
fn fault(four: [u8; 4], positions: &[usize], order: &Order, scale: Scale) -> Option<u8> {
    let [mark, from, to, code] = four;
    let must_be_zero = match mark {
        0 => [from, to, code],
        1 => [0, to, code],
        4 => [from, 0, 0],
        _ => [0, 0, 0],
    };
    let is_cell = mark == 1;
    let is_arc = mark == 2 || mark == 3;
    let has_target = is_arc || mark == 4;
    let unknown = |cell: u8| usize::from(cell) > positions.len();
    let position = |cell: u8| positions[usize::from(cell) - 1];
    if mark > 4 {
        Some(12)
    } else if must_be_zero != [0, 0, 0] {
        Some(13)
    } else if is_cell && usize::from(from) >= order.count() {
        Some(14)
    } else if is_cell && positions.len() >= PLACES - 1 {
        Some(15)
    } else if is_arc && (from == 0 || unknown(from)) || has_target && unknown(to) {
        Some(16)
    } else if is_arc && to != 0 && position(to) <= position(from) {
        Some(17)
    } else if has_target && code >= scale.codes() {
        Some(18)
    } else {
        None
    }
}

/// A line a record; `silent` where no record gives one.
pub fn listing(records: &[Record]) -> Vec<String> {
    let mut cells = 0;
    let mut lines = Vec::new();
    for record in records {
        match record {
            Record::Filler => {}
            Record::Cell { input } => {
                cells += 1;
                lines.push(format!("cell {cells} input {input}"));
            }
            Record::Off { from, to, code } => lines.push(format!("off {from} {to} {code}")),
            Record::On { from, to, code } => lines.push(format!("on {from} {to} {code}")),
            Record::Outlet { to, code } => lines.push(format!("out {to} {code}")),
        }
    }
    if lines.is_empty() {
        lines.push("silent".to_string());
    }
    lines
}

#[cfg(test)]
mod tests {
    use super::*;

    #[test]
    fn scan_lists() {
        let number = |list: &[u64]| Order::arrange(list).err().map(|refusal| refusal.number);
        assert_eq!(number(&[]), Some(1));
        assert_eq!(number(&[0; 25]), Some(1));
        assert_eq!(number(&[0, 0]), Some(2));
        assert_eq!(number(&[1, 2]), Some(2));
        assert_eq!(number(&[256]), Some(2));
        assert_eq!(number(&[2, 0, 1]), None);
        let order = Order::arrange(&[2, 0, 1]).unwrap();
        assert_eq!(order.position(2), 0);
        assert_eq!(order.by_positions(0b100), 0b001);
    }
}
