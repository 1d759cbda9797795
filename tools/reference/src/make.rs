//! Random scripts. The maker plays its own lines as it goes, so that it knows what the
//! slots hold and can aim: at an output one byte short, at equal rules, at 31 cells.

use crate::damage;
use crate::invent;
use crate::network::Network;
use crate::patch::Order;
use crate::rack::{SLOTS, TABLE_INPUTS};
use crate::random::Random;
use crate::scale::Scale;
use crate::script::{hex, is_passed_over, Player};

/// What a maker may do.
#[derive(Clone, Copy)]
pub struct Plan {
    pub calls: usize,
    pub most_inputs: usize,
}

pub struct Maker {
    pub random: Random,
    pub scale: Scale,
    pub order: Order,
    plan: Plan,
    player: Player,
    lines: Vec<String>,
    calls: usize,
    long_patch_made: bool,
}

/// A script with at least the planned number of calls; error lines count as calls.
pub fn script(seed: u64, plan: Plan) -> Vec<String> {
    let mut maker = Maker {
        random: Random::new(seed),
        scale: Scale::Gates,
        order: Order::arrange(&[0]).expect("one input is a scan list"),
        plan,
        player: Player::new(TABLE_INPUTS),
        lines: Vec::new(),
        calls: 0,
        long_patch_made: false,
    };
    maker.error_lines(2);
    maker.strange_calls(2);
    while maker.calls < plan.calls {
        maker.round();
    }
    maker.lines
}

impl Maker {
    /// Adds a line to the script and plays it.
    pub fn say(&mut self, line: String) -> Vec<String> {
        self.calls += usize::from(!is_passed_over(&line));
        let answer = self.player.answer(&line);
        self.lines.push(line);
        answer
    }

    fn round(&mut self) {
        if self.random.once_in(3) {
            self.refused_opening();
        }
        if self.random.once_in(12) {
            self.rack_without_slots();
        }
        self.open();
        for slot in 0..4 {
            let network = self.network();
            self.load(slot, &network);
        }
        for _ in 0..self.random.between(8, 24) {
            self.act();
        }
        for slot in 0..4 {
            self.say(format!("write {slot}"));
        }
    }

    fn opening(&mut self) -> String {
        let most = self.plan.most_inputs;
        let count = match self.random.below(10) {
            0 => self.random.between(1, 2),
            1..=4 => self.random.between(2, 5),
            5 | 6 => self.random.between(5, 8),
            _ => self.random.between(8.min(most), most),
        };
        self.scale = self.random.pick(&Scale::ALL);
        let list = self.random.scan_list(count.min(most));
        self.order = Order::arrange(&list).expect("a shuffled list is a scan list");
        opening_line(self.scale, &list)
    }

    fn open(&mut self) {
        let line = self.opening();
        let strips = self
            .random
            .pick(&["", "", "", "", " strips 512", " strips 600"]);
        self.say(line + strips);
    }

    /// A scan list that is refused, then a call without a rack.
    fn refused_opening(&mut self) {
        let count = self.random.between(2, 24);
        let mut list = self.random.scan_list(count);
        let spot = self.random.below(count);
        match self.random.below(6) {
            0 => list = Vec::new(),
            1 => list.extend(count as u64..self.random.between(25, 30) as u64),
            2 => list[spot] = list[(spot + 1) % count],
            3 => list[spot] = count as u64,
            4 => list[spot] = self.random.pick(&[255, 256, 1 << 40]),
            _ => list[spot] += 256,
        }
        let line = opening_line(self.random.pick(&Scale::ALL), &list);
        let strips = self.random.pick(&["", " strips 511", " strips 512"]);
        self.say(line + strips);
        self.error_lines(1);
        self.strange_calls(1);
    }

    fn rack_without_slots(&mut self) {
        let line = self.opening();
        let strips = self.random.pick(&["strips 511", "strips 0", "strips 100"]);
        self.say(format!("{line} {strips}"));
        for _ in 0..self.random.between(3, 9) {
            self.simple_call();
        }
    }

    fn act(&mut self) {
        if self.order.count() > 8 && self.random.once_in(8) {
            return self.edge();
        }
        match self.random.below(40) {
            0..=4 => self.load_valid(),
            5..=9 => self.load_faulty(),
            10 | 11 => self.load_mangled(),
            12..=23 => self.simple_call(),
            24..=27 => self.strange_calls(1),
            28 => self.error_lines(1),
            29..=32 => self.meet(),
            33 => self.all_sounds(),
            34 | 35 => self.short_output(),
            36 => {
                self.say(String::new());
                self.say("# a line that is passed over".to_string());
            }
            _ => self.edge(),
        }
    }

    /// A slot, most often one of the first, so that calls meet.
    pub fn slot(&mut self) -> usize {
        let most = self.random.pick(&[2, 3, 3, 3, 3, 3, 5, SLOTS - 1]);
        self.random.between(0, most)
    }

    pub fn network(&mut self) -> Network {
        let count = self.order.count();
        let (cells, fan) = match self.random.below(10) {
            0 => (self.random.below(2), 2),
            1..=4 => (self.random.between(2, 6 + count / 4), 3),
            5..=7 => (self.random.between(5, 12 + count / 2), 4),
            8 => (self.random.between(16, 36), 3),
            _ if count > 8 => (self.random.between(26, 36), self.random.between(2, 5)),
            _ => (self.random.between(6, 20), 2),
        };
        match self.random.below(5) {
            0 => invent::chain(&mut self.random, self.scale, count, false),
            _ => invent::network(&mut self.random, self.scale, count, cells, fan),
        }
    }

    pub fn patch(&mut self, network: &Network) -> Vec<u8> {
        invent::patch(&mut self.random, &self.order, network)
    }

    pub fn load(&mut self, slot: usize, network: &Network) -> Vec<String> {
        let patch = self.patch(network);
        self.say(format!("load {slot} {}", hex(&patch)))
    }

    fn load_valid(&mut self) {
        let slot = self.slot();
        let mut network = self.network();
        if self.random.once_in(4) {
            let count = self.order.count();
            network = invent::inflated(&mut self.random, self.scale, count, &network);
        }
        self.load(slot, &network);
        if self.random.once_in(2) {
            let question = self.random.pick(&["write", "cells", "list"]);
            self.say(format!("{question} {slot}"));
        }
    }

    fn load_faulty(&mut self) {
        let slot = self.slot();
        let mut number = self.random.between(11, 18) as u8;
        if !self.long_patch_made && self.random.once_in(20) {
            number = 10;
            self.long_patch_made = true;
        }
        let network = self.network();
        let valid = self.patch(&network);
        let patch = damage::faulty(&mut self.random, self.scale, &self.order, &valid, number);
        let work = self
            .random
            .pick(&["", "", "", "", "", "", "", "", "", " work 511"]);
        self.say(format!("load {slot} {}{work}", hex(&patch)));
        if self.random.once_in(2) {
            self.say(format!("write {slot}"));
        }
    }

    fn load_mangled(&mut self) {
        let slot = self.slot();
        let network = self.network();
        let valid = self.patch(&network);
        let patch = damage::mangled(&mut self.random, &valid);
        self.say(format!("load {slot} {}", hex(&patch)));
        self.say(format!("write {slot}"));
    }

    /// Any call without a patch; its slots may coincide.
    fn simple_call(&mut self) {
        let (to, a, b) = (self.slot(), self.slot(), self.slot());
        let a = if self.random.once_in(4) { to } else { a };
        let b = if self.random.once_in(8) { a } else { b };
        let input = self.random.below(self.order.count());
        let any = self.random.below(self.scale.codes().into());
        let code = self.random.pick(&[any, any.max(1)]);
        let setting = self.random.below(1 << self.order.count());
        let bit = self.random.below(2);
        match self.random.below(14) {
            0..=3 => self.say(format!("lay {to} {a} {b}")),
            4 | 5 => self.say(format!("weigh {to} {a} {code}")),
            6 | 7 => self.say(format!("tie {to} {a} {input} {bit}")),
            8 => self.say(format!("same {a} {b}")),
            9 => self.say(format!("cells {a}")),
            10 | 11 => self.say(format!("sound {a} {setting}")),
            12 => self.say(format!("write {a}")),
            _ => self.say(format!("list {a}")),
        };
    }

    /// Calls that are refused most of the time, some for two causes.
    fn strange_calls(&mut self, many: usize) {
        for _ in 0..many {
            let (to, a) = (self.slot(), self.slot());
            let line = match self.random.below(3) {
                0 => self.strange_slot(to, a),
                1 => self.strange_value(to, a),
                _ => self.strange_work(to, a),
            };
            self.say(line);
            self.say(format!("write {to}"));
        }
    }

    fn strange_slot(&mut self, to: usize, a: usize) -> String {
        let none: u64 = self.random.pick(&[16, 17, 255, 256, 65_536, u64::MAX]);
        match self.random.below(16) {
            0 => format!("load {none} 04000001"),
            1 => format!("load {none} 0909 work 511"),
            2 => format!("lay {none} {to} {a}"),
            3 => format!("lay {to} {none} {a}"),
            4 => format!("lay {to} {a} {none} work 511"),
            5 => format!("weigh {none} {a} 1"),
            6 => format!("weigh {to} {none} 255"),
            7 => format!("tie {none} {a} 0 1"),
            8 => format!("tie {to} {none} 77 1 work 3"),
            9 => format!("same {none} {a}"),
            10 => format!("same {a} {none}"),
            11 => format!("cells {none}"),
            12 => format!("sound {none} {}", 1u64 << 24),
            13 => format!("sound {none} 0"),
            14 => format!("write {none} room 0"),
            _ => format!("list {none}"),
        }
    }

    fn strange_value(&mut self, to: usize, a: usize) -> String {
        let inputs = self.order.count() as u64;
        let codes = u64::from(self.scale.codes());
        let no_input = self.random.pick(&[inputs, 24, 255, 256, 1 << 32]);
        let no_code = self
            .random
            .pick(&[codes, codes + 1, 255, 256, 257, u64::MAX]);
        let past = self
            .random
            .pick(&[1 << inputs, (1 << inputs) + 1, 1 << 32, u64::MAX]);
        match self.random.below(7) {
            0 => format!("tie {to} {a} {no_input} 0"),
            1 => format!("tie {to} {a} 0 {}", self.random.pick(&[2, 255, 256, 257])),
            2 => format!("tie {to} {a} {no_input} 2 work 511"),
            3 | 4 => format!("weigh {to} {a} {no_code}"),
            _ => format!("sound {a} {past}"),
        }
    }

    fn strange_work(&mut self, to: usize, a: usize) -> String {
        let work = self.random.pick(&[511, 0, 511, 64, 512, 513, 600]);
        match self.random.below(6) {
            0 => format!("load {to} 04000001 work {work}"),
            1 => format!("load {to} 0400 work {work}"),
            2 | 3 => format!("lay {to} {to} {a} work {work}"),
            _ => format!("tie {to} {a} 0 1 work {work}"),
        }
    }

    fn error_lines(&mut self, many: usize) {
        for _ in 0..many {
            let line = self.random.pick(&ERROR_LINES);
            self.say(line.to_string());
        }
    }

    /// Every setting of a rule with few inputs, and the first that is none.
    fn all_sounds(&mut self) {
        if self.order.count() > 4 {
            return self.load_valid();
        }
        let slot = self.slot();
        for setting in 0..=self.order.settings() {
            self.say(format!("sound {slot} {setting}"));
        }
    }

    /// An output that just holds the settled bytes, and one that is a byte short.
    fn short_output(&mut self) {
        let slot = self.slot();
        let length = self.settled_bytes(slot).len();
        self.say(format!("write {slot} room {length}"));
        let short = length.saturating_sub(1);
        self.say(format!("write {slot} room {short}"));
    }

    /// The settled bytes of a slot.
    pub fn settled_bytes(&self, slot: usize) -> Vec<u8> {
        let rack = self.player.rack.as_ref();
        let bytes = rack.and_then(|rack| rack.write(slot as u64, None).ok());
        bytes.unwrap_or_default()
    }

    /// The settled form of a slot.
    pub fn settled(&self, slot: usize) -> Network {
        let rack = self.player.rack.as_ref();
        let network = rack.and_then(|rack| rack.settled(slot as u64));
        network.unwrap_or_default()
    }
}

fn opening_line(scale: Scale, list: &[u64]) -> String {
    let mut line = format!("open {}", scale.name());
    for input in list {
        line += &format!(" {input}");
    }
    line
}

/// Lines that are no calls, whatever the rack.
const ERROR_LINES: [&str; 42] = [
    "play 1",
    "Load 1 -",
    "settle",
    "+ 1",
    "open",
    "open gate 0",
    "open 0 1",
    "open gates 0 x",
    "open gates 0 -1",
    "open gates 0 strips",
    "open gates 0 strips x",
    "open strips 512",
    "open work 0 strips y",
    "load",
    "load 1",
    "load 1 - -",
    "load x -",
    "load x 0g work z",
    "load 1 040",
    "load 1 0400000g",
    "load 1 -00",
    "load 1 0x040000",
    "load 1 - work",
    "load 1 - work 1x",
    "load 1 work 512",
    "load 1 - room 512",
    "lay 1 2",
    "lay 1 2 3 4",
    "lay 1 2 +3",
    "lay 1 2 3 work 18446744073709551616",
    "weigh 1 1 0x1",
    "weigh 1 1 1 work 512",
    "tie 1 1 0",
    "tie 1 1 0 one",
    "same 1",
    "same 1 2 3",
    "cells",
    "cells one",
    "sound 1 18446744073709551616",
    "write 1 room",
    "write 1 room 2.5",
    "list 1 room 9",
];
