//! The settled form: cells from the last position to the first, with on arcs only.

use crate::linear::Row;
use crate::network::{Arc, Cell, Network};
use crate::patch::{Order, Record};

/// `on` and `outlet` hold the code of the arc to each target, the steady cell first.
#[derive(Clone, Debug, PartialEq, Eq)]
pub struct Form {
    pub cells: Vec<FormCell>,
    pub outlet: Row,
}

#[derive(Clone, Debug, PartialEq, Eq)]
pub struct FormCell {
    pub position: usize,
    pub on: Row,
}

impl Form {
    /// No cells and no outlet arcs.
    pub fn silent() -> Form {
        Form {
            cells: Vec::new(),
            outlet: vec![0],
        }
    }

    pub fn is_silent(&self) -> bool {
        *self == Form::silent()
    }

    pub fn network(&self) -> Network {
        let cell = |cell: &FormCell| Cell {
            position: cell.position,
            off: Vec::new(),
            on: arcs(&cell.on).collect(),
        };
        Network {
            cells: self.cells.iter().map(cell).collect(),
            outlet: arcs(&self.outlet).collect(),
        }
    }

    /// Cell records, then on arcs by cell and target, then outlet arcs by target.
    pub fn records(&self, order: &Order) -> Vec<Record> {
        let mut records = Vec::new();
        for cell in &self.cells {
            let input = order.input(cell.position);
            records.push(Record::Cell { input });
        }
        for (index, cell) in self.cells.iter().enumerate() {
            let from = index as u8 + 1;
            let on = |arc: Arc| Record::On {
                from,
                to: arc.to as u8,
                code: arc.code,
            };
            records.extend(arcs(&cell.on).map(on));
        }
        let outlet = |arc: Arc| Record::Outlet {
            to: arc.to as u8,
            code: arc.code,
        };
        records.extend(arcs(&self.outlet).map(outlet));
        records
    }

    pub fn bytes(&self, order: &Order) -> Vec<u8> {
        let records = self.records(order);
        records.into_iter().flat_map(Record::bytes).collect()
    }
}

fn arcs(row: &Row) -> impl Iterator<Item = Arc> + '_ {
    let filled = row.iter().enumerate().filter(|&(_, &code)| code != 0);
    filled.map(|(to, &code)| Arc { to, code })
}
