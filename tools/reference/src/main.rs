//! A second implementation of the settling rack. It answers the scripts of the program `panel`
//! by methods of its own, makes random scripts, and checks itself.

mod damage;
mod edges;
mod elimination;
mod form;
mod invent;
mod linear;
mod make;
mod meet;
mod network;
mod patch;
mod rack;
mod random;
mod scale;
mod script;
mod selfcheck;
mod truth;

use std::io::{self, Read, Write};
use std::process::ExitCode;

const USAGE: &str = "\
reference answer < SCRIPT       the answers to a script
reference make SEED CALLS       a random script of at least so many calls
reference edges                 the script of edge cases
reference selfcheck SEED MANY   the two methods compared on so many random patches
";

fn main() -> ExitCode {
    let arguments: Vec<String> = std::env::args().skip(1).collect();
    let words: Vec<&str> = arguments.iter().map(String::as_str).collect();
    match run(&words) {
        Ok(Some(lines)) => print(&lines).map_or(ExitCode::FAILURE, |()| ExitCode::SUCCESS),
        Ok(None) => {
            eprint!("{USAGE}");
            ExitCode::from(2)
        }
        Err(error) => {
            eprintln!("{error}");
            ExitCode::FAILURE
        }
    }
}

/// The lines a command prints; none if there is no such command.
fn run(words: &[&str]) -> io::Result<Option<Vec<String>>> {
    Ok(match *words {
        ["answer"] => {
            let mut text = String::new();
            io::stdin().read_to_string(&mut text)?;
            Some(script::answers(&text, rack::TABLE_INPUTS))
        }
        ["make", seed, calls] => numbers(seed, calls).map(|(seed, calls)| {
            let most_inputs = patch::MOST_INPUTS;
            make::script(seed, make::Plan { calls, most_inputs })
        }),
        ["edges"] => Some(edges::script()),
        ["selfcheck", seed, many] => {
            numbers(seed, many).map(|(seed, many)| selfcheck::run(seed, many))
        }
        _ => None,
    })
}

fn numbers(seed: &str, many: &str) -> Option<(u64, usize)> {
    Some((seed.parse().ok()?, many.parse().ok()?))
}

fn print(lines: &[String]) -> io::Result<()> {
    let mut output = io::BufWriter::new(io::stdout().lock());
    for line in lines {
        writeln!(output, "{line}")?;
    }
    output.flush()
}
