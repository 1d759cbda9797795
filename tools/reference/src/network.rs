//! Cells and arcs of a patch, with the cells known by their positions in the scan order.

use crate::patch::{Order, Record};
use crate::scale::Scale;

/// The target 0 is the steady cell, the target k the cell at index k - 1.
#[derive(Clone, Copy, Debug, PartialEq, Eq)]
pub struct Arc {
    pub to: usize,
    pub code: u8,
}

#[derive(Clone, Debug, Default)]
pub struct Cell {
    pub position: usize,
    pub off: Vec<Arc>,
    pub on: Vec<Arc>,
}

#[derive(Clone, Debug, Default)]
pub struct Network {
    pub cells: Vec<Cell>,
    pub outlet: Vec<Arc>,
}

impl Network {
    pub fn of_records(scale: Scale, order: &Order, records: &[Record]) -> Network {
        let mut network = Network::default();
        for &record in records {
            match record {
                Record::Filler => {}
                Record::Cell { input } => {
                    let position = order.position(input);
                    network.cells.push(Cell {
                        position,
                        ..Cell::default()
                    });
                }
                Record::Off { from, to, code } => {
                    let cell = &mut network.cells[usize::from(from) - 1];
                    cell.off.push(Arc {
                        to: to.into(),
                        code,
                    });
                }
                Record::On { from, to, code } => {
                    let cell = &mut network.cells[usize::from(from) - 1];
                    cell.on.push(Arc {
                        to: to.into(),
                        code,
                    });
                }
                Record::Outlet { to, code } => {
                    network.outlet.push(Arc {
                        to: to.into(),
                        code,
                    });
                }
            }
        }
        network.gathered(scale)
    }

    /// Arcs with the same ends become one arc.
    fn gathered(mut self, scale: Scale) -> Network {
        let places = self.cells.len() + 1;
        for cell in &mut self.cells {
            cell.off = gather(scale, places, &cell.off);
            cell.on = gather(scale, places, &cell.on);
        }
        self.outlet = gather(scale, places, &self.outlet);
        self
    }

    /// Both networks side by side; the rules add up.
    pub fn laid(&self, other: &Network) -> Network {
        let shift = self.cells.len();
        let moved = |arcs: &[Arc]| -> Vec<Arc> {
            let shifted = |to: usize| if to == 0 { 0 } else { to + shift };
            let renamed = |arc: &Arc| Arc {
                to: shifted(arc.to),
                ..*arc
            };
            arcs.iter().map(renamed).collect()
        };
        let mut network = self.clone();
        network.cells.extend(other.cells.iter().map(|cell| Cell {
            position: cell.position,
            off: moved(&cell.off),
            on: moved(&cell.on),
        }));
        network.outlet.extend(moved(&other.outlet));
        network
    }

    /// The rule times a code.
    pub fn weighed(&self, scale: Scale, factor: u8) -> Network {
        let mut network = self.clone();
        for arc in &mut network.outlet {
            arc.code = scale.product(factor, arc.code);
        }
        network
    }

    /// The input at a position is read as `value`: its cells take the same arcs both ways.
    pub fn tied(&self, position: usize, value: bool) -> Network {
        let mut network = self.clone();
        for cell in &mut network.cells {
            if cell.position == position && value {
                cell.off = cell.on.clone();
            } else if cell.position == position {
                cell.on = cell.off.clone();
            }
        }
        network
    }

    /// Cell indices, the last position first, so that targets come before their arcs.
    fn last_first(&self) -> Vec<usize> {
        let mut indices: Vec<usize> = (0..self.cells.len()).collect();
        indices.sort_by_key(|&index| std::cmp::Reverse(self.cells[index].position));
        indices
    }

    pub fn evaluator(&self, scale: Scale) -> Evaluator<'_> {
        let sequence = self.last_first();
        Evaluator {
            network: self,
            scale,
            sequence,
        }
    }
}

fn gather(scale: Scale, places: usize, arcs: &[Arc]) -> Vec<Arc> {
    let mut sums = vec![0; places];
    for arc in arcs {
        sums[arc.to] = scale.sum(sums[arc.to], arc.code);
    }
    let filled = sums.into_iter().enumerate().filter(|&(_, code)| code != 0);
    filled.map(|(to, code)| Arc { to, code }).collect()
}

/// Evaluates a network; keeps the sequence in which its cells are to be taken.
pub struct Evaluator<'a> {
    network: &'a Network,
    scale: Scale,
    sequence: Vec<usize>,
}

impl Evaluator<'_> {
    /// The values of the steady cell and of all cells; bit p of `assignment` is position p.
    pub fn values(&self, assignment: u32) -> Vec<u8> {
        let mut values = vec![0; self.network.cells.len() + 1];
        values[0] = 1;
        for &index in &self.sequence {
            let cell = &self.network.cells[index];
            let opened = assignment >> cell.position & 1 == 1;
            let arcs = if opened { &cell.on } else { &cell.off };
            values[index + 1] = self.total(arcs, &values);
        }
        values
    }

    /// The rule's code.
    pub fn rule(&self, assignment: u32) -> u8 {
        self.total(&self.network.outlet, &self.values(assignment))
    }

    fn total(&self, arcs: &[Arc], values: &[u8]) -> u8 {
        arcs.iter().fold(0, |sum, arc| {
            let addend = self.scale.product(arc.code, values[arc.to]);
            self.scale.sum(sum, addend)
        })
    }
}
