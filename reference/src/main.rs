//! A second, literal implementation of the call-list program, from docs/RULES.md alone.

mod boundary;
mod compare;
mod engine;
mod generate;
mod kinds;
mod stores;
mod tasks;
mod text;

use std::io::{Read, Write};
use std::process::ExitCode;

const USAGE: &str = "\
usage: reference                       run the call list on standard input
       reference generate SEED COUNT   print a call list with COUNT call lines
       reference malformed SEED        print a text with one malformed thing
       reference compare PROGRAM FOLDER [LISTS]
                                       compare PROGRAM with this one, by the lists of FOLDER
                                       and LISTS generated ones
";

fn main() -> ExitCode {
    let args: Vec<String> = std::env::args().skip(1).collect();
    let args: Vec<&str> = args.iter().map(String::as_str).collect();
    if let ["compare", program, folder, lists @ ..] = &args[..] {
        let lists = match lists {
            [] => Some(compare::LISTS),
            [lists] => lists.parse().ok(),
            _ => None,
        };
        return match lists.map(|lists| compare::compare(program, folder, lists)) {
            Some(true) => ExitCode::SUCCESS,
            Some(false) => ExitCode::FAILURE,
            None => wrong_arguments(),
        };
    }
    let output = match args[..] {
        [] => Some(text::tasklist(&standard_input()).into_bytes()),
        ["generate", seed, count] => match (seed.parse(), count.parse()) {
            (Ok(seed), Ok(count)) => Some(generate::call_list(seed, count).into_bytes()),
            _ => None,
        },
        ["malformed", seed] => seed.parse().ok().map(|seed| generate::malformed(seed).text),
        _ => None,
    };
    match output {
        Some(bytes) => {
            // Whoever reads may have gone; there is nobody left to tell.
            let mut out = std::io::stdout().lock();
            let _ = out.write_all(&bytes).and_then(|()| out.flush());
            ExitCode::SUCCESS
        }
        None => wrong_arguments(),
    }
}

fn wrong_arguments() -> ExitCode {
    eprint!("{USAGE}");
    ExitCode::from(2)
}

/// Reads to the end, but keeps no more than it takes to know that a text is too long.
fn standard_input() -> Vec<u8> {
    let mut text = Vec::new();
    let mut input = std::io::stdin().lock();
    let _ = input.by_ref().take(text::MOST_BYTES as u64 + 1).read_to_end(&mut text);
    let _ = std::io::copy(&mut input, &mut std::io::sink());
    text
}
