//! The script of edge cases: worked cases, limits, and each refusal with its place.

use crate::invent;
use crate::network::Network;
use crate::patch::{Order, LONGEST_PATCH, PLACES};
use crate::random::Random;
use crate::script::hex;

pub fn script() -> Vec<String> {
    let mut lines = Vec::new();
    let mut text = |block: &str| lines.extend(block.lines().map(str::to_string));
    text(OPENING);
    text(WORKED);
    text(TRAPS);
    text(VALUES);
    text(REFUSED_CALLS);
    text(FAULTS);
    text(NO_CALLS);
    lines.extend(many_cells());
    lines.extend(products());
    lines.extend(all_inputs());
    lines.extend(long_patches());
    lines
}

/// The most cells a patch may have, and one more.
fn many_cells() -> Vec<String> {
    let cell = |many: usize| "01000000".repeat(many);
    let full = PLACES - 1;
    let arcs = "037f0001027e000104007f0104007e01";
    vec![
        String::new(),
        "# A patch with as many cells as it may have, and with one more".to_string(),
        "open gates 0 1".to_string(),
        format!("load 0 {}{arcs}", cell(full)),
        "write 0".to_string(),
        format!("load 0 {}", cell(full + 1)),
        format!("load 0 {}{arcs}01010000", cell(full)),
        format!("load 0 {}{arcs}01020000", cell(full)),
        format!("load 0 {}{arcs}01000001", cell(full)),
        format!("load 0 {}03800001", cell(full)),
        "write 0".to_string(),
    ]
}

/// Sums of products over 22 inputs that need 31 and 32 cells.
fn products() -> Vec<String> {
    let list: Vec<u64> = (0..22).collect();
    let order = Order::arrange(&list).expect("a plain scan list");
    let all: Vec<usize> = (0..22).collect();
    let even = |last: usize| -> Vec<usize> { (0..=last).step_by(2).collect() };
    let written = |network: &Network| {
        let mut random = Random::new(22);
        hex(&invent::patch(&mut random, &order, network))
    };
    let whole = invent::product(&all);
    let (fits, too_many) = (invent::product(&even(18)), invent::product(&even(20)));
    let names: Vec<String> = list.iter().map(u64::to_string).collect();
    let mut lines = vec![
        String::new(),
        "# Sums of products that need 31 and 32 cells".to_string(),
        format!("open gates {}", names.join(" ")),
        format!("load 0 {}", written(&whole)),
        format!("load 1 {}", written(&fits)),
        format!("load 2 {}", written(&too_many)),
        format!("load 4 {}", written(&whole.laid(&fits))),
        format!("load 5 {}", written(&whole.laid(&too_many))),
    ];
    let calls =
        "cells 0\ncells 1\ncells 2\ncells 4\ncells 5\nlay 3 0 1\ncells 3\nwrite 3\nsame 3 4\n\
                 list 3\nlay 3 0 2\nlay 3 2 0\nlay 0 0 2\nlay 2 0 2\nsame 3 4\ncells 0\ncells 2\n\
                 lay 3 3 0\nsame 3 1\nlay 6 4 1\nsame 6 0\nlay 6 4 4\nwrite 6\ntie 4 4 21 0\n\
                 cells 4\ntie 4 3 20 0\nsame 4 3\nsound 3 349525\nsound 3 349524\nsound 3 0\n\
                 sound 0 4194303\nsound 0 4194304\nwrite 3 room 0\nlay 3 0 2 work 511";
    lines.extend(calls.lines().map(str::to_string));
    lines
}

/// All 24 inputs, scanned from the last to the first.
fn all_inputs() -> Vec<String> {
    let list: Vec<u64> = (0..24).rev().collect();
    let order = Order::arrange(&list).expect("a plain scan list");
    let all: Vec<usize> = (0..24).collect();
    let names: Vec<String> = list.iter().map(u64::to_string).collect();
    let written = |network: &Network| {
        let mut random = Random::new(24);
        hex(&invent::patch(&mut random, &order, network))
    };
    let (product, single) = (invent::product(&all), invent::one_setting(24, 0, 3));
    let mut lines = vec![
        String::new(),
        "# All inputs, scanned from the last to the first".to_string(),
        format!("open lanes {}", names.join(" ")),
        format!("load 15 {}", written(&product)),
        format!("load 12 {}", written(&single)),
        format!("load 11 {}", written(&product.laid(&single))),
    ];
    let calls = "write 15\nwrite 12\nlay 11 15 12\ncells 11\nsound 12 0\nsound 12 1\n\
                 sound 15 16777215\nsound 15 16777214\ntie 11 12 23 1\nwrite 11\ntie 11 12 23 0\n\
                 cells 11\nsame 11 12\nload 14 011700000100000003020001030102010400010104000010\n\
                 load 14 011700000100000003020001030102010400010104000009\n\
                 write 14\ntie 13 14 23 1\nwrite 13\ntie 13 14 23 0\nwrite 13\ntie 13 13 24 0\n\
                 sound 14 8388609\nsound 14 16777216\nload 14 01180000\nlist 14";
    lines.extend(calls.lines().map(str::to_string));
    lines
}

/// No bytes, the longest patch, and one byte more.
fn long_patches() -> Vec<String> {
    let zeros = |many: usize| "00".repeat(many);
    vec![
        String::new(),
        "# No bytes, the longest patch, and one byte more".to_string(),
        "open accents 0 1".to_string(),
        "load 0 04000003".to_string(),
        "load 0 -".to_string(),
        "write 0".to_string(),
        "load 0 04000005".to_string(),
        format!("load 0 {}", zeros(LONGEST_PATCH + 1)),
        "write 0".to_string(),
        format!("load 0 {}05000000", zeros(LONGEST_PATCH - 4)),
        "write 0".to_string(),
        format!("load 0 {}", zeros(LONGEST_PATCH)),
        "write 0".to_string(),
        "cells 0".to_string(),
        format!("load 1 {}", "04000001".repeat(LONGEST_PATCH / 4)),
        "write 1".to_string(),
    ]
}

const OPENING: &str = "\
# Before a rack is open
cells 0
cells x
load 0 0g
load 0
write 0 room 5
press 0

# Scan lists that are refused; then there is no rack
open gates
open gates 0 1 2 3 4 5 6 7 8 9 10 11 12 13 14 15 16 17 18 19 20 21 22 23 24
open gates 0 0 0 0 0 0 0 0 0 0 0 0 0 0 0 0 0 0 0 0 0 0 0 0 0
open gates 0 0
open gates 0 2
open accents 1
open lanes 256
open lanes 0 1 258
open lanes 0 18446744073709551615
open gates strips 511
open gates 1 1 strips 511
cells 0
open gates 0
cells 0
open gates 1
cells 0

# Too few strips: a rack without slots
open gates 0 1 strips 511
load 0 04000001
load 0 0400 work 511
lay 0 0 0
weigh 0 0 1
tie 0 0 0 1
same 0 0
cells 0
sound 0 0
write 0
list 0
open gates 0 1 strips 0
cells 15
open gates 0 1 strips 512
cells 15
open accents 1 0 strips 600
cells 15
";

const TRAPS: &str = "
# Cells that are independent, yet more than the rule needs: x0, x0 x1 and x1 for x0 + x0 x1
open gates 0 1
load 0 0101000001000000010000000301000103020101030300010400020104000301
cells 0
list 0
# On minus off: 1 where input 0 is 0, and 3 where it is 1
open accents 0
load 0 01000000020100010301000304000101
list 0
sound 0 0
sound 0 1
# Two rules that part only where all inputs are 1
open gates 0 1 2
load 0 0102000001010000010000000301000103020101030302010400030104000001
load 1 04000001
same 0 1
tie 2 0 0 0
same 2 1
sound 0 7
sound 1 7
sound 0 3
sound 1 3
";

const WORKED: &str = "
# Worked cases at gates
open gates 0 1
write 0
list 0
load 0 01000000000000000101000003010001020102010302000104000101
write 0
list 0
cells 0
load 1 010100000100000003010001030200010400010104000201
write 1
list 1
same 0 1
lay 2 0 1
write 2
lay 3 0 0
write 3
list 3
same 3 15
tie 4 0 1 1
write 4
list 4
load 5 0400000104000001
write 5
same 5 3
sound 0 0
sound 0 1
sound 0 2
sound 0 3
sound 1 0
sound 1 1
sound 1 2
sound 1 3
write 0 room 28
write 0 room 27
write 3 room 0

# Slots that coincide
lay 2 2 2
write 2
lay 0 0 1
write 0
tie 0 0 0 1
write 0
weigh 1 1 0
write 1

# Worked cases at accents
open accents 0 1
load 0 0101000001000000030100010302010104000205
write 0
list 0
load 1 0400000104000001
write 1
load 2 01000000020100010301000304000101
write 2
sound 2 0
sound 2 1
lay 3 0 0
write 3
weigh 3 0 126
lay 3 3 0
write 3
same 3 15

# Three independent functions, yet two cells are enough
open accents 0 1
load 0 010000000100000001010000030300010301000103020301040001010400020104000300
write 0
load 1 0101000001000000030100010302000103020101040002010400000004000100
same 0 1
open accents 1 0
load 0 010000000100000001010000020100010301000104000101
write 0
";

const VALUES: &str = "
# Products and sums of codes
open lanes 0
load 0 04000002
weigh 1 0 8
write 1
weigh 1 0 9
write 1
sound 1 1
load 0 0400000f
weigh 1 0 15
sound 1 0
lay 1 0 1
sound 1 0
open accents 0
load 0 0400007e
weigh 1 0 126
sound 1 1
load 2 04000001
lay 2 0 2
write 2
load 0 04000002
weigh 0 0 64
sound 0 0
load 0 0400007e
sound 0 0
lay 0 0 0
sound 0 0
";

const REFUSED_CALLS: &str = "
# Slots, inputs, codes and settings that are none
open lanes 2 0 1
load 0 01020000030100020400010104000003
load 16 -
load 16 00 work 0
load 16 05 work 511
load 18446744073709551615 -
lay 16 0 0
lay 0 16 0
lay 0 0 16
lay 0 0 256 work 0
weigh 16 0 1
weigh 0 16 16
tie 16 0 0 0
tie 0 16 3 2 work 0
same 16 0
same 0 16
cells 16
cells 4294967296
sound 16 8
write 16
write 16 room 0
list 16
list 99
tie 1 0 3 0
tie 1 0 2 2
tie 1 0 256 1
tie 1 0 2 256
tie 1 0 258 1 work 511
weigh 1 0 16
weigh 1 0 255
weigh 1 0 256
weigh 1 0 257
weigh 1 0 18446744073709551615
sound 0 7
sound 0 8
sound 0 18446744073709551615
write 1
same 1 15

# Working strips and outputs
load 1 04000001 work 511
load 1 0405 work 511
load 1 04000010 work 0
lay 1 0 0 work 511
tie 1 0 2 1 work 511
cells 1
load 1 04000001 work 512
lay 1 0 1 work 600
tie 2 0 2 1 work 512
write 0
write 0 room 16
write 0 room 15
write 0 room 0
write 0 room 17
write 15 room 0
write 2
same 0 1
";

const FAULTS: &str = "
# Faults of patches, at the first, a middle and the last record
open lanes 1 2 0
load 0 04000007
load 0 04
load 0 0400000
load 0 040000
load 0 0400000500
load 0 ffffffffff
load 0 05000000
load 0 04000001ff00000004000001
load 0 0400000104000001050000ff
load 0 00000001
load 0 00000100
load 0 00010000
load 0 0400000101000100
load 0 01000001
load 0 0400000104010001
load 0 01030000
load 0 01ff000004000001
load 0 0400000101030000
load 0 02000001
load 0 03000001
load 0 03010001
load 0 0100000003010201
load 0 0100000003020001
load 0 04000101
load 0 010000000400010104000201
load 0 0100000002010101
load 0 010000000101000003010201
load 0 01000000010100000302010103010201
load 0 010200000101000003010201
load 0 0101000001010000030102010400000f
load 0 04000010
load 0 010000000301001004000001
load 0 0100000002010001020100ff
write 0

# Two faults in one record, and in two
load 0 ffffffff
load 0 01030001
load 0 01030100
load 0 04010110
load 0 04ff0010
load 0 03000010
load 0 04000110
load 0 0100000003010110
load 0 000000000100000003010110ffffffff
load 0 04000010ffffffff
load 0 0100000004000001040002010103000005
write 0

# The same records where they have no fault
load 0 01010000010200000301020f0302000102020009040001010400020204000101
write 0
list 0
sound 0 0
sound 0 2
sound 0 4
sound 0 6
";

const NO_CALLS: &str = "
# Lines that are no calls
open gates 0 1
open
open gate 0
open Gates 0
open gates 0 x
open gates x y
open gates 0 -1
open gates 0 strips
open gates 0 strips x
open strips 512
cell 0
LOAD 0 -
load
load 0
load 0 - -
load 0 - work
load 0 - work x
load 0 0
load 0 0g
load 0 --
load 0 0x00
load x y
load 18446744073709551616 -
load 0 work 512
lay 0 1
lay 0 1 2 3
lay 0 a b
lay 0 1 2 room 512
lay 0 1 2 work +512
weigh 0 1
weigh 0 1 1.0
weigh 0 1 1 work 512
tie 0 1 0
tie 0 1 0 on
tie 0 1 0 0 work
same 0
same 0 0 0
same 0 b
cells
cells 0 0
cells -0
sound 0
sound 0 18446744073709551616
sound 0 0b1
write
write 0 0
write 0 room
write 0 room x
write 0 work 512
list
list 0 0
list first
load 007 0400000104000000 work 00512
load 8 04000001
same 07 8
load 9 01000000020100010300000A
load 9 01000000020100010301000A
load 9 010000000201000104000101
write 9
";
