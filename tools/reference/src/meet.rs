//! Parts of random scripts that aim at something: rules that are reached in two ways, and
//! sums whose number of cells is close to the most a slot can keep.

use crate::elimination;
use crate::invent;
use crate::make::Maker;
use crate::network::Network;
use crate::rack::MOST_CELLS;
use crate::script::hex;

impl Maker {
    /// Two slots come to hold the same rule, or almost the same, and are compared.
    pub fn meet(&mut self) {
        let (a, b, d, e) = self.four_slots();
        match self.random.below(13) {
            0 => self.other_sequence(a, b, d, e),
            1 => self.other_grouping(a, b, d, e),
            2 => self.written_again(a, d),
            3 | 4 => self.other_patch(a, d),
            5 => self.weighed_twice(a, d, e),
            6 => self.taken_away(a, d, e),
            7 => self.tied_twice(a, d, e),
            8 => self.put_together(a, d, e),
            9 | 10 => self.one_setting_apart(a, d, e),
            _ => self.one_code_apart(a, d),
        }
    }

    /// Two slots to read, and two different ones to fill.
    fn four_slots(&mut self) -> (usize, usize, usize, usize) {
        let (a, b) = (self.slot().min(9), self.slot().min(9));
        (
            a,
            b,
            self.random.between(10, 12),
            self.random.between(13, 15),
        )
    }

    fn other_sequence(&mut self, a: usize, b: usize, d: usize, e: usize) {
        self.say(format!("lay {d} {a} {b}"));
        self.say(format!("lay {e} {b} {a}"));
        self.say(format!("same {d} {e}"));
    }

    fn other_grouping(&mut self, a: usize, b: usize, d: usize, e: usize) {
        let c = self.slot().min(9);
        self.say(format!("lay {d} {a} {b}"));
        self.say(format!("lay {d} {d} {c}"));
        self.say(format!("lay {e} {b} {c}"));
        self.say(format!("lay {e} {a} {e}"));
        self.say(format!("same {d} {e}"));
    }

    fn written_again(&mut self, a: usize, d: usize) {
        let bytes = self.settled_bytes(a);
        self.say(format!("load {d} {}", hex(&bytes)));
        self.say(format!("same {a} {d}"));
        self.say(format!("write {d}"));
    }

    /// The settled bytes with another code in one of the arcs.
    fn one_code_apart(&mut self, a: usize, d: usize) {
        let mut bytes = self.settled_bytes(a);
        let arcs = (0..bytes.len()).step_by(4).filter(|&at| bytes[at] > 1);
        let arcs: Vec<usize> = arcs.collect();
        if !arcs.is_empty() {
            let code = self.random.below(self.scale.codes().into()) as u8;
            bytes[self.random.pick(&arcs) + 3] = code;
        }
        self.say(format!("load {d} {}", hex(&bytes)));
        self.say(format!("same {a} {d}"));
        self.say(format!("cells {d}"));
    }

    fn other_patch(&mut self, a: usize, d: usize) {
        let network = self.settled(a);
        let count = self.order.count();
        let other = invent::inflated(&mut self.random, self.scale, count, &network);
        self.load(d, &other);
        self.say(format!("same {d} {a}"));
        self.say(format!("cells {d}"));
    }

    fn weighed_twice(&mut self, a: usize, d: usize, e: usize) {
        let code = 1 + self.random.below(usize::from(self.scale.codes()) - 1) as u8;
        self.say(format!("weigh {d} {a} {code}"));
        self.say(format!("same {a} {d}"));
        self.say(format!("weigh {e} {d} {}", self.scale.inverse(code)));
        self.say(format!("same {a} {e}"));
        self.say(format!("weigh {d} {a} {}", self.scale.sum(1, 1)));
        self.say(format!("lay {e} {a} {a}"));
        self.say(format!("same {e} {d}"));
    }

    fn taken_away(&mut self, a: usize, d: usize, e: usize) {
        self.say(format!("weigh {d} {a} {}", self.scale.negative(1)));
        self.say(format!("lay {e} {d} {a}"));
        self.say(format!("write {e}"));
        self.say(format!("weigh {d} {d} 0"));
        self.say(format!("same {d} {e}"));
    }

    fn tied_twice(&mut self, a: usize, d: usize, e: usize) {
        let (i, j) = (self.any_input(), self.any_input());
        let (v, w) = (self.random.below(2), self.random.below(2));
        self.say(format!("tie {d} {a} {i} {v}"));
        self.say(format!("tie {d} {d} {j} {w}"));
        self.say(format!("tie {e} {a} {j} {w}"));
        self.say(format!("tie {e} {e} {i} {v}"));
        self.say(format!("same {d} {e}"));
        self.say(format!("write {e}"));
    }

    fn any_input(&mut self) -> u8 {
        self.order.input(self.random.below(self.order.count()))
    }

    /// The first input decides between the two rules that are left when it is tied.
    fn put_together(&mut self, a: usize, d: usize, e: usize) {
        let first = self.order.input(0);
        self.say(format!("tie {d} {a} {first} 0"));
        self.say(format!("tie {e} {a} {first} 1"));
        let both = invent::either(&self.settled(d), &self.settled(e));
        self.load(e, &both);
        self.say(format!("same {e} {a}"));
    }

    /// A rule that differs at one setting, then the same once more.
    fn one_setting_apart(&mut self, a: usize, d: usize, e: usize) {
        let count = self.order.count();
        let setting = self.random.below(1 << count) as u64;
        let code = 1 + self.random.below(usize::from(self.scale.codes()) - 1) as u8;
        let assignment = self.order.by_positions(setting);
        let single = invent::one_setting(count, assignment, code);
        self.load(e, &single);
        self.say(format!("lay {d} {a} {e}"));
        self.say(format!("same {d} {a}"));
        self.say(format!("sound {a} {setting}"));
        self.say(format!("sound {d} {setting}"));
        self.say(format!("sound {d} {}", setting ^ 1));
        self.say(format!("weigh {e} {e} {}", self.scale.negative(1)));
        self.say(format!("lay {e} {d} {e}"));
        self.say(format!("same {e} {a}"));
    }

    /// Two rules whose sum needs from 30 to 33 cells.
    pub fn edge(&mut self) {
        let Some((one, other)) = self.close_pair() else {
            return self.meet();
        };
        let (a, b, d, e) = self.four_slots();
        let b = if a == b { (b + 1) % 10 } else { b };
        self.load(a, &one);
        self.load(b, &other);
        self.say(format!("cells {a}"));
        self.say(format!("lay {d} {a} {b}"));
        self.say(format!("cells {d}"));
        self.say(format!("write {d}"));
        let sum = one.laid(&other);
        self.load(e, &sum);
        self.say(format!("same {d} {e}"));
        self.say(format!("lay {a} {b} {a}"));
        let (input, bit) = (self.any_input(), self.random.below(2));
        self.say(format!("tie {d} {a} {input} {bit}"));
        self.say(format!("cells {d}"));
    }

    /// Two rules that fit a slot each; how many cells the sum needs is drawn first.
    fn close_pair(&mut self) -> Option<(Network, Network)> {
        let (scale, count) = (self.scale, self.order.count());
        let cells = |network: &Network| elimination::settle(scale, count, network).cells.len();
        if count < 9 {
            return None;
        }
        let aim = self.random.between(MOST_CELLS - 1, MOST_CELLS + 2);
        for _ in 0..200 {
            let (one, other) = (self.some_chains(), self.some_chains());
            let both_fit = || cells(&one).max(cells(&other)) <= MOST_CELLS;
            if cells(&one.laid(&other)) == aim && both_fit() {
                return Some((one, other));
            }
        }
        None
    }

    /// A sum of a few products, or a random network with many cells.
    fn some_chains(&mut self) -> Network {
        let count = self.order.count();
        if self.random.once_in(4) {
            let cells = self.random.between(20, MOST_CELLS);
            return invent::network(&mut self.random, self.scale, count, cells, 4);
        }
        let plain = self.random.once_in(2);
        let mut sum = Network::default();
        for _ in 0..self.random.between(1, 3) {
            sum = sum.laid(&invent::chain(&mut self.random, self.scale, count, plain));
        }
        sum
    }
}
