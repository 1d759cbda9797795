//! Random networks, other networks with the same rule, and their writing as patches.

use crate::network::{Arc, Cell, Network};
use crate::patch::{Order, Record, PLACES};
use crate::random::Random;
use crate::scale::Scale;

pub const MOST_CELLS_OF_A_PATCH: usize = PLACES - 1;

/// Mostly any code, often 1, now and then 0.
pub fn code(random: &mut Random, scale: Scale) -> u8 {
    match random.below(12) {
        0 => 0,
        1..=4 => 1,
        _ => random.below(scale.codes().into()) as u8,
    }
}

/// Cells at any positions, with up to `fan` arcs each way, and up to as many outlet arcs as cells.
pub fn network(
    random: &mut Random,
    scale: Scale,
    count: usize,
    cells: usize,
    fan: usize,
) -> Network {
    let positions: Vec<usize> = (0..cells).map(|_| random.below(count)).collect();
    let mut network = Network::default();
    for &position in &positions {
        let later = |&target: &usize| target == 0 || positions[target - 1] > position;
        let targets: Vec<usize> = (0..=cells).filter(later).collect();
        let (fewer, more) = (random.below(fan + 1), random.between(1, fan));
        let off = arcs(random, scale, &targets, fewer);
        let on = arcs(random, scale, &targets, more);
        network.cells.push(Cell { position, off, on });
    }
    let targets: Vec<usize> = (0..=cells).collect();
    let many = random.between(1, fan.max(cells));
    network.outlet = arcs(random, scale, &targets, many);
    network
}

fn arcs(random: &mut Random, scale: Scale, targets: &[usize], many: usize) -> Vec<Arc> {
    let arc = |_| Arc {
        to: random.pick(targets),
        code: code(random, scale),
    };
    (0..many).map(arc).collect()
}

/// A product with a factor for some of the positions. Plain factors are the inputs themselves;
/// otherwise a factor has any code for 0 and any code for 1.
pub fn chain(random: &mut Random, scale: Scale, count: usize, plain: bool) -> Network {
    let most = random.between(1, 4);
    let mut network = Network::default();
    let mut target = 0;
    for position in (0..count).rev() {
        if random.below(4) >= most {
            continue;
        }
        let step = |code: u8| vec![Arc { to: target, code }];
        let any = |random: &mut Random| step(1 + random.below(scale.codes() as usize - 1) as u8);
        let (off, on) = match random.below(3) {
            _ if plain => (Vec::new(), step(1)),
            0 => (any(random), Vec::new()),
            1 => (Vec::new(), any(random)),
            _ => (any(random), any(random)),
        };
        network.cells.push(Cell { position, off, on });
        target = network.cells.len();
    }
    network.outlet = vec![Arc {
        to: target,
        code: 1,
    }];
    network
}

/// The product of the inputs at the given positions.
pub fn product(positions: &[usize]) -> Network {
    let mut sorted = positions.to_vec();
    sorted.sort_unstable();
    let mut network = Network::default();
    for (target, &position) in sorted.iter().rev().enumerate() {
        let on = vec![Arc {
            to: target,
            code: 1,
        }];
        network.cells.push(Cell {
            position,
            off: Vec::new(),
            on,
        });
    }
    network.outlet = vec![Arc {
        to: sorted.len(),
        code: 1,
    }];
    network
}

/// The rule that has `code` at one assignment and 0 elsewhere.
pub fn one_setting(count: usize, assignment: u32, code: u8) -> Network {
    let positions: Vec<usize> = (0..count).collect();
    let mut network = product(&positions);
    for cell in &mut network.cells {
        if assignment >> cell.position & 1 == 0 {
            std::mem::swap(&mut cell.off, &mut cell.on);
        }
    }
    network.outlet[0].code = code;
    network
}

/// The first position decides between two networks that do not look at it.
pub fn either(zero: &Network, one: &Network) -> Network {
    let mut network = zero.laid(one);
    let split = zero.outlet.len();
    let on = network.outlet.split_off(split);
    let off = std::mem::take(&mut network.outlet);
    network.cells.push(Cell {
        position: 0,
        off,
        on,
    });
    network.outlet = vec![Arc {
        to: network.cells.len(),
        code: 1,
    }];
    network
}

/// Another network with the same rule and more cells: copies of cells, among which the arcs
/// are split, cells that pass everything on, cells that nothing leads to.
pub fn inflated(random: &mut Random, scale: Scale, count: usize, network: &Network) -> Network {
    let mut copied = with_copies(random, scale, network);
    for _ in 0..random.below(4) {
        if copied.cells.len() < MOST_CELLS_OF_A_PATCH {
            pass_on(random, count, &mut copied);
        }
    }
    let spare = MOST_CELLS_OF_A_PATCH - copied.cells.len();
    for _ in 0..random.below(4).min(spare) {
        let position = random.below(count);
        let on = vec![Arc {
            to: 0,
            code: code(random, scale),
        }];
        copied.cells.push(Cell {
            position,
            off: Vec::new(),
            on,
        });
    }
    copied
}

fn with_copies(random: &mut Random, scale: Scale, network: &Network) -> Network {
    let most = MOST_CELLS_OF_A_PATCH / network.cells.len().max(1);
    let mut copies: Vec<Vec<usize>> = vec![vec![0]];
    let mut made = 0;
    for _ in &network.cells {
        let many = random.between(1, most.min(3));
        copies.push((made + 1..=made + many).collect());
        made += many;
    }
    let mut split = |arcs: &[Arc]| -> Vec<Arc> {
        let divide = |arc: &Arc| divided(random, scale, &copies[arc.to], arc.code);
        arcs.iter().flat_map(divide).collect()
    };
    let mut copied = Network::default();
    for (index, cell) in network.cells.iter().enumerate() {
        for _ in &copies[index + 1] {
            let (off, on) = (split(&cell.off), split(&cell.on));
            copied.cells.push(Cell {
                position: cell.position,
                off,
                on,
            });
        }
    }
    copied.outlet = split(&network.outlet);
    copied
}

/// Arcs to some of the copies; their codes add up to the code.
fn divided(random: &mut Random, scale: Scale, copies: &[usize], whole: u8) -> Vec<Arc> {
    let mut rest = whole;
    let mut arcs = Vec::new();
    for _ in 0..random.below(3) {
        let part = code(random, scale);
        rest = scale.difference(rest, part);
        arcs.push(Arc {
            to: random.pick(copies),
            code: part,
        });
    }
    arcs.push(Arc {
        to: random.pick(copies),
        code: rest,
    });
    arcs
}

/// Puts a cell with equal arcs both ways into an outlet arc, where there is a position left.
fn pass_on(random: &mut Random, count: usize, network: &mut Network) {
    if network.outlet.is_empty() {
        return;
    }
    let chosen = random.below(network.outlet.len());
    let arc = network.outlet[chosen];
    let before = if arc.to == 0 {
        count
    } else {
        network.cells[arc.to - 1].position
    };
    if before > 0 {
        let position = random.below(before);
        let (off, on) = (vec![arc], vec![arc]);
        network.cells.push(Cell { position, off, on });
        network.outlet[chosen] = Arc {
            to: network.cells.len(),
            code: 1,
        };
    }
}

/// The network as a patch: cells renumbered at will, each arc somewhere after its cells,
/// some filler between.
pub fn patch(random: &mut Random, order: &Order, network: &Network) -> Vec<u8> {
    let count = network.cells.len();
    let mut names: Vec<usize> = (1..=count).collect();
    random.shuffle(&mut names);
    names.insert(0, 0);
    let mut parts: Vec<Vec<Record>> = vec![Vec::new(); count + 1];
    for record in renamed_arcs(network, &names) {
        let [_, from, to, _] = record.bytes();
        let first = usize::from(from.max(to));
        parts[random.between(first, count)].push(record);
    }
    for part in &mut parts {
        random.shuffle(part);
        if random.once_in(12) {
            part.push(Record::Filler);
        }
    }
    for (index, cell) in network.cells.iter().enumerate() {
        let input = order.input(cell.position);
        parts[names[index + 1]].insert(0, Record::Cell { input });
    }
    parts
        .into_iter()
        .flatten()
        .flat_map(Record::bytes)
        .collect()
}

fn renamed_arcs(network: &Network, names: &[usize]) -> Vec<Record> {
    let name = |target: usize| names[target] as u8;
    let mut records = Vec::new();
    for (index, cell) in network.cells.iter().enumerate() {
        let from = name(index + 1);
        let off = |arc: &Arc| Record::Off {
            from,
            to: name(arc.to),
            code: arc.code,
        };
        let on = |arc: &Arc| Record::On {
            from,
            to: name(arc.to),
            code: arc.code,
        };
        records.extend(cell.off.iter().map(off));
        records.extend(cell.on.iter().map(on));
    }
    let outlet = |arc: &Arc| Record::Outlet {
        to: name(arc.to),
        code: arc.code,
    };
    records.extend(network.outlet.iter().map(outlet));
    records
}
