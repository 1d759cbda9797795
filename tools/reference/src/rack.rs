//! The rack: sixteen slots, each with a rule, and the eight calls on them.

use crate::elimination;
use crate::form::Form;
use crate::linear::{self, Row};
use crate::network::Network;
use crate::patch::{self, examine, refused, Order, Refusal};
use crate::scale::Scale;
use crate::truth;

pub const SLOTS: usize = 16;
pub const STRIPS: u64 = 512;
pub const MOST_CELLS: usize = 31;

/// Rules of so many inputs are kept and settled as truth tables, rules of more as networks.
pub const TABLE_INPUTS: usize = 8;

#[derive(Clone)]
struct Slot {
    rule: Rule,
    form: Form,
}

#[derive(Clone)]
enum Rule {
    Table(Row),
    Network(Network),
}

pub struct Rack {
    pub scale: Scale,
    pub order: Order,
    slots: Vec<Slot>,
}

impl Rack {
    /// A rack over fewer strips than it needs has no slots.
    pub fn open(scale: Scale, order: Order, strips: u64, table_inputs: usize) -> Rack {
        let rule = if order.count() <= table_inputs {
            Rule::Table(vec![0; 1 << order.count()])
        } else {
            Rule::Network(Network::default())
        };
        let slot = Slot {
            rule,
            form: Form::silent(),
        };
        let slots = if strips < STRIPS {
            vec![]
        } else {
            vec![slot; SLOTS]
        };
        Rack {
            scale,
            order,
            slots,
        }
    }

    pub fn load(&mut self, slot: u64, bytes: &[u8], work: u64) -> Result<(), Refusal> {
        let slot = self.find(slot)?;
        enough_work(work)?;
        let records = examine(bytes, &self.order, self.scale)?;
        let network = Network::of_records(self.scale, &self.order, &records);
        let rule = match self.slots[slot].rule {
            Rule::Table(_) => Rule::Table(truth::table(self.scale, self.order.count(), &network)),
            Rule::Network(_) => Rule::Network(network),
        };
        self.enter(slot, rule)
    }

    pub fn lay(&mut self, to: u64, a: u64, b: u64, work: u64) -> Result<(), Refusal> {
        let (to, a, b) = (self.find(to)?, self.find(a)?, self.find(b)?);
        enough_work(work)?;
        let rule = match (&self.slots[a].rule, &self.slots[b].rule) {
            (Rule::Table(a), Rule::Table(b)) => {
                let mut sum = a.clone();
                linear::add_multiple(self.scale, &mut sum, 1, b);
                Rule::Table(sum)
            }
            _ => Rule::Network(self.network(a).laid(&self.network(b))),
        };
        self.enter(to, rule)
    }

    pub fn weigh(&mut self, to: u64, a: u64, code: u64) -> Result<(), Refusal> {
        let (to, a) = (self.find(to)?, self.find(a)?);
        if code >= self.scale.codes().into() {
            return refused(6);
        }
        let factor = code as u8;
        let rule = match &self.slots[a].rule {
            Rule::Table(table) => {
                let times = |&code: &u8| self.scale.product(factor, code);
                Rule::Table(table.iter().map(times).collect())
            }
            Rule::Network(_) => Rule::Network(self.network(a).weighed(self.scale, factor)),
        };
        self.enter(to, rule)
    }

    pub fn tie(&mut self, to: u64, a: u64, input: u64, v: u64, work: u64) -> Result<(), Refusal> {
        let (to, a) = (self.find(to)?, self.find(a)?);
        if input >= self.order.count() as u64 || v > 1 {
            return refused(5);
        }
        enough_work(work)?;
        let position = self.order.position(input as u8);
        let rule = match &self.slots[a].rule {
            Rule::Table(table) => {
                Rule::Table(truth::tied(self.order.count(), table, position, v == 1))
            }
            Rule::Network(_) => Rule::Network(self.network(a).tied(position, v == 1)),
        };
        self.enter(to, rule)
    }

    /// Equal tables, or a difference that settles to silence. The forms must say the same.
    pub fn same(&self, a: u64, b: u64) -> Result<bool, Refusal> {
        let (a, b) = (&self.slots[self.find(a)?], &self.slots[self.find(b)?]);
        let same = match (&a.rule, &b.rule) {
            (Rule::Table(a), Rule::Table(b)) => a == b,
            _ => {
                let minus = self.scale.negative(1);
                let minus_b = b.form.network().weighed(self.scale, minus);
                let difference = a.form.network().laid(&minus_b);
                elimination::settle(self.scale, self.order.count(), &difference).is_silent()
            }
        };
        assert_eq!(same, a.form == b.form, "one rule with two settled forms");
        Ok(same)
    }

    pub fn cells(&self, a: u64) -> Result<usize, Refusal> {
        Ok(self.slots[self.find(a)?].form.cells.len())
    }

    /// The rule's code and its velocity.
    pub fn sound(&self, a: u64, setting: u64) -> Result<(u8, u8), Refusal> {
        let a = self.find(a)?;
        if setting >= self.order.settings() {
            return refused(7);
        }
        let assignment = self.order.by_positions(setting);
        let code = match &self.slots[a].rule {
            Rule::Table(table) => table[truth::index(self.order.count(), assignment)],
            Rule::Network(network) => network.evaluator(self.scale).rule(assignment),
        };
        Ok((code, self.scale.velocity(code)))
    }

    /// The settled bytes; without `room` the output is long enough.
    pub fn write(&self, a: u64, room: Option<u64>) -> Result<Vec<u8>, Refusal> {
        let a = self.find(a)?;
        let bytes = self.slots[a].form.bytes(&self.order);
        match room {
            Some(room) if room < bytes.len() as u64 => refused(9),
            _ => Ok(bytes),
        }
    }

    /// The lines of the settled bytes.
    pub fn list(&self, a: u64) -> Result<Vec<String>, Refusal> {
        let a = self.find(a)?;
        Ok(patch::listing(&self.slots[a].form.records(&self.order)))
    }

    /// The settled form of a slot as a network; none where there is no such slot.
    pub fn settled(&self, a: u64) -> Option<Network> {
        self.find(a).ok().map(|a| self.slots[a].form.network())
    }

    fn find(&self, slot: u64) -> Result<usize, Refusal> {
        if slot < self.slots.len() as u64 {
            Ok(slot as usize)
        } else {
            refused(4)
        }
    }

    fn network(&self, slot: usize) -> Network {
        self.slots[slot].form.network()
    }

    /// Settles a rule and gives it to a slot, unless it needs too many cells.
    fn enter(&mut self, to: usize, rule: Rule) -> Result<(), Refusal> {
        let (scale, count) = (self.scale, self.order.count());
        let form = match &rule {
            Rule::Table(table) => truth::settle(scale, count, table),
            Rule::Network(network) => elimination::settle(scale, count, network),
        };
        if form.cells.len() > MOST_CELLS {
            return refused(19);
        }
        if let Rule::Table(table) = &rule {
            let again = truth::table(scale, count, &form.network());
            assert_eq!(*table, again, "the settled form has another rule");
        }
        self.slots[to] = Slot { rule, form };
        Ok(())
    }
}

fn enough_work(work: u64) -> Result<(), Refusal> {
    if work < STRIPS {
        refused(8)
    } else {
        Ok(())
    }
}
