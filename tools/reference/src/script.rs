//! Scripts: one call a line, one answer line each (several for `list`).

use crate::patch::{Order, Refusal};
use crate::rack::{Rack, STRIPS};
use crate::scale::Scale;

#[derive(Debug, PartialEq, Eq)]
enum Call {
    Open {
        scale: Scale,
        inputs: Vec<u64>,
        strips: u64,
    },
    Load {
        slot: u64,
        bytes: Vec<u8>,
        work: u64,
    },
    Lay {
        to: u64,
        a: u64,
        b: u64,
        work: u64,
    },
    Weigh {
        to: u64,
        a: u64,
        code: u64,
    },
    Tie {
        to: u64,
        a: u64,
        input: u64,
        value: u64,
        work: u64,
    },
    Same {
        a: u64,
        b: u64,
    },
    Cells {
        a: u64,
    },
    Sound {
        a: u64,
        setting: u64,
    },
    Write {
        a: u64,
        room: Option<u64>,
    },
    List {
        a: u64,
    },
}

/// The fewest and most words after a call's name, and the keyword of the pair that may follow.
fn shape(name: &str) -> Option<(usize, usize, Option<&'static str>)> {
    Some(match name {
        "open" => (1, usize::MAX, Some("strips")),
        "load" => (2, 2, Some("work")),
        "lay" => (3, 3, Some("work")),
        "weigh" => (3, 3, None),
        "tie" => (4, 4, Some("work")),
        "same" | "sound" => (2, 2, None),
        "cells" | "list" => (1, 1, None),
        "write" => (1, 1, Some("room")),
        _ => return None,
    })
}

/// The call on a line, or what is wrong with it. The line must hold a word.
fn parse(line: &str) -> Result<Call, String> {
    let all: Vec<&str> = line.split_ascii_whitespace().collect();
    let (&name, mut words) = all.split_first().ok_or("no words")?;
    let (fewest, most, keyword) = shape(name).ok_or("unknown call")?;
    let mut pair = None;
    if let [before @ .., last_but_one, last] = words {
        if keyword == Some(*last_but_one) {
            pair = Some(*last);
            words = before;
        }
    }
    if words.len() < fewest || words.len() > most {
        return Err("wrong number of words".to_string());
    }
    match name {
        "open" => parse_open(words, pair),
        "load" => parse_load(words, pair),
        _ => parse_numbers(name, words, pair),
    }
}

fn parse_open(words: &[&str], pair: Option<&str>) -> Result<Call, String> {
    let scale = Scale::named(words[0]).ok_or(format!("{} is no scale", words[0]))?;
    let inputs = numbers(&words[1..])?;
    let strips = optional(pair)?.unwrap_or(STRIPS);
    Ok(Call::Open {
        scale,
        inputs,
        strips,
    })
}

fn parse_load(words: &[&str], pair: Option<&str>) -> Result<Call, String> {
    let slot = number(words[0])?;
    let bytes = hexadecimal(words[1]).ok_or(format!("{} is no hexadecimal", words[1]))?;
    let work = optional(pair)?.unwrap_or(STRIPS);
    Ok(Call::Load { slot, bytes, work })
}

/// The calls that take numbers only.
fn parse_numbers(name: &str, words: &[&str], pair: Option<&str>) -> Result<Call, String> {
    let given = numbers(words)?;
    let room = optional(pair)?;
    let work = room.unwrap_or(STRIPS);
    Ok(match (name, given.as_slice()) {
        ("lay", &[to, a, b]) => Call::Lay { to, a, b, work },
        ("weigh", &[to, a, code]) => Call::Weigh { to, a, code },
        ("tie", &[to, a, input, value]) => Call::Tie {
            to,
            a,
            input,
            value,
            work,
        },
        ("same", &[a, b]) => Call::Same { a, b },
        ("cells", &[a]) => Call::Cells { a },
        ("sound", &[a, setting]) => Call::Sound { a, setting },
        ("write", &[a]) => Call::Write { a, room },
        ("list", &[a]) => Call::List { a },
        _ => unreachable!("the number of words has been checked"),
    })
}

fn numbers(words: &[&str]) -> Result<Vec<u64>, String> {
    words.iter().map(|word| number(word)).collect()
}

fn optional(word: Option<&str>) -> Result<Option<u64>, String> {
    word.map(number).transpose()
}

/// Digits only, and the number fits 64 bits.
fn number(word: &str) -> Result<u64, String> {
    let digits = word.bytes().all(|byte| byte.is_ascii_digit());
    let value = word.parse().ok().filter(|_| digits);
    value.ok_or(format!("{word} is no number"))
}

fn hexadecimal(word: &str) -> Option<Vec<u8>> {
    if word == "-" {
        return Some(Vec::new());
    }
    let digits: Option<Vec<u32>> = word.chars().map(|digit| digit.to_digit(16)).collect();
    let digits = digits.filter(|digits| digits.len() % 2 == 0)?;
    Some(
        digits
            .chunks(2)
            .map(|two| (two[0] * 16 + two[1]) as u8)
            .collect(),
    )
}

/// Bytes as a word of a script.
pub fn hex(bytes: &[u8]) -> String {
    if bytes.is_empty() {
        return "-".to_string();
    }
    bytes.iter().map(|byte| format!("{byte:02x}")).collect()
}

/// Reads a script line by line and keeps the rack between the lines.
pub struct Player {
    pub rack: Option<Rack>,
    table_inputs: usize,
    line_number: usize,
}

impl Player {
    /// Rules of up to `table_inputs` inputs are settled by truth tables.
    pub fn new(table_inputs: usize) -> Player {
        Player {
            rack: None,
            table_inputs,
            line_number: 0,
        }
    }

    /// The answer lines to the next line of the script.
    pub fn answer(&mut self, line: &str) -> Vec<String> {
        self.line_number += 1;
        if is_passed_over(line) {
            return Vec::new();
        }
        match parse(line).and_then(|call| self.play(call)) {
            Ok(Ok(lines)) => lines,
            Ok(Err(Refusal { number, place })) => vec![format!("refused {number} {place}")],
            Err(message) => vec![format!("error {} {message}", self.line_number)],
        }
    }

    fn play(&mut self, call: Call) -> Result<Result<Vec<String>, Refusal>, String> {
        match call {
            Call::Open {
                scale,
                inputs,
                strips,
            } => Ok(self.open(scale, &inputs, strips)),
            call => match &mut self.rack {
                Some(rack) => Ok(press(rack, call)),
                None => Err("no rack is open".to_string()),
            },
        }
    }

    fn open(&mut self, scale: Scale, list: &[u64], strips: u64) -> Result<Vec<String>, Refusal> {
        self.rack = None;
        let order = Order::arrange(list)?;
        self.rack = Some(Rack::open(scale, order, strips, self.table_inputs));
        if strips < STRIPS {
            return Err(Refusal {
                number: 3,
                place: 0,
            });
        }
        Ok(vec!["done".to_string()])
    }
}

/// Blank lines and lines that begin with `#`.
pub fn is_passed_over(line: &str) -> bool {
    line.starts_with('#') || line.split_ascii_whitespace().next().is_none()
}

fn press(rack: &mut Rack, call: Call) -> Result<Vec<String>, Refusal> {
    let done = |()| "done".to_string();
    let line = match call {
        Call::Open { .. } => unreachable!("opening is no call on a rack"),
        Call::Load { slot, bytes, work } => rack.load(slot, &bytes, work).map(done)?,
        Call::Lay { to, a, b, work } => rack.lay(to, a, b, work).map(done)?,
        Call::Weigh { to, a, code } => rack.weigh(to, a, code).map(done)?,
        Call::Tie {
            to,
            a,
            input,
            value,
            work,
        } => rack.tie(to, a, input, value, work).map(done)?,
        Call::Same { a, b } if rack.same(a, b)? => "yes".to_string(),
        Call::Same { .. } => "no".to_string(),
        Call::Cells { a } => format!("cells {}", rack.cells(a)?),
        Call::Sound { a, setting } => {
            let (code, velocity) = rack.sound(a, setting)?;
            format!("sound {code} {velocity}")
        }
        Call::Write { a, room } => format!("bytes {}", hex(&rack.write(a, room)?)),
        Call::List { a } => return rack.list(a),
    };
    Ok(vec![line])
}

/// All answers to a script.
pub fn answers(script: &str, table_inputs: usize) -> Vec<String> {
    let mut player = Player::new(table_inputs);
    script
        .lines()
        .flat_map(|line| player.answer(line))
        .collect()
}

#[cfg(test)]
mod tests {
    use super::answers;
    use crate::rack::TABLE_INPUTS;

    const EITHER: &str = "01000000000000000101000003010001020102010302000104000101";
    const EITHER_SETTLED: &str = "01010000010000000301000103020001030201010400010104000201";
    const EXACTLY_ONE: &str = "010100000100000003010001030200010400010104000201";
    const BOTH: &str = "0101000001000000030100010302010104000201";

    /// Plays a script by both methods and compares the answers.
    fn check(script: &str, expected: &[&str]) {
        for table_inputs in [0, TABLE_INPUTS] {
            assert_eq!(answers(script, table_inputs), expected, "{script}");
        }
    }

    #[test]
    fn either_settles() {
        let script = format!("open gates 0 1\nload 0 {EITHER}\nwrite 0\nlist 0");
        let bytes = format!("bytes {EITHER_SETTLED}");
        let lines =
            "cell 1 input 1\ncell 2 input 0\non 1 0 1\non 2 0 1\non 2 1 1\nout 1 1\nout 2 1";
        let mut expected = vec!["done", "done", &bytes];
        expected.extend(lines.lines());
        check(&script, &expected);
    }

    #[test]
    fn sums_and_ties() {
        let script = format!(
            "open gates 0 1\nload 0 {EITHER}\nload 1 {EXACTLY_ONE}\nwrite 1\nlay 2 0 1\nwrite 2\n\
             lay 0 0 0\nwrite 0\nload 0 {EITHER}\ntie 0 0 1 1\nwrite 0"
        );
        let (one, both) = (format!("bytes {EXACTLY_ONE}"), format!("bytes {BOTH}"));
        let before = ["done", "done", "done", &one, "done", &both];
        let after = ["done", "bytes -", "done", "done", "bytes 04000001"];
        check(&script, &[&before[..], &after[..]].concat());
    }

    #[test]
    fn other_scales() {
        let five = BOTH[..BOTH.len() - 2].to_string() + "05";
        let script = format!(
            "open accents 0 1\nload 0 {five}\nwrite 0\nload 1 0400000104000001\nwrite 1\n\
             open gates 0 1\nload 1 0400000104000001\nwrite 1"
        );
        let five = format!("bytes {five}");
        let accents = ["done", "done", &five, "done", "bytes 04000002"];
        check(
            &script,
            &[&accents[..], &["done", "done", "bytes -"]].concat(),
        );
    }

    #[test]
    fn outputs_and_byte_limits() {
        let zeros = |many: usize| "00".repeat(many);
        let script = format!(
            "open gates 0 1\nload 0 {EITHER}\nwrite 0 room 28\nwrite 0 room 27\nload 0 {}\n\
             cells 0\nload 0 {}\nwrite 0\nload 0 -\nwrite 0",
            zeros(65_537),
            zeros(65_536)
        );
        let bytes = format!("bytes {EITHER_SETTLED}");
        let short = [
            "done",
            "done",
            &bytes,
            "refused 9 0",
            "refused 10 0",
            "cells 2",
        ];
        let silent = ["done", "bytes -", "done", "bytes -"];
        check(&script, &[&short[..], &silent[..]].concat());
    }

    /// A patch for the product of inputs, which must rise.
    fn product(inputs: &[usize]) -> String {
        let mut patch = String::new();
        for input in inputs.iter().rev() {
            patch += &format!("01{input:02x}0000");
        }
        for cell in 1..=inputs.len() {
            patch += &format!("03{cell:02x}{:02x}01", cell - 1);
        }
        patch + &format!("0400{:02x}01", inputs.len())
    }

    #[test]
    fn products_of_22_inputs() {
        let list: Vec<String> = (0..22).map(|input| input.to_string()).collect();
        let even = |last: usize| product(&(0..=last).step_by(2).collect::<Vec<usize>>());
        let script = format!(
            "open gates {}\nload 0 {}\nload 1 {}\nload 2 {}\nlay 3 0 1\ncells 3\nlay 3 0 2\ncells 3",
            list.join(" "),
            product(&(0..22).collect::<Vec<usize>>()),
            even(18),
            even(20)
        );
        let (done, refused) = (["done"; 5], ["cells 31", "refused 19 0", "cells 31"]);
        let expected = [&done[..], &refused[..]].concat();
        assert_eq!(answers(&script, TABLE_INPUTS), expected);
    }

    #[test]
    fn lines_that_are_no_calls() {
        let script = "cells 0\n\n# word\npress\nopen gate\nopen gates 1\nload 0 0\nsame 0 x\nwrite";
        let expected = [
            "error 1 no rack is open",
            "error 4 unknown call",
            "error 5 gate is no scale",
            "refused 2 0",
            "error 7 0 is no hexadecimal",
            "error 8 x is no number",
            "error 9 wrong number of words",
        ];
        check(script, &expected);
    }

    /// The stored answers are those given now.
    #[test]
    fn stored_cases() {
        let pairs = [
            (
                include_str!("../cases/edge.script"),
                include_str!("../cases/edge.answers"),
            ),
            (
                include_str!("../cases/random.script"),
                include_str!("../cases/random.answers"),
            ),
        ];
        for (script, stored) in pairs {
            assert_eq!(answers(script, TABLE_INPUTS).join("\n") + "\n", stored);
            assert_eq!(answers(script, 0).join("\n") + "\n", stored);
        }
    }
}
