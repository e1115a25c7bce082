//! The yardstick: what `dapnsp` does, written for speed and without proofs. It takes the same commands, and
//! writes the same text for the inputs of the benchmarks; of DAP it knows the messages and requests that
//! these have, and stops where it meets another.
mod ends;
mod link;
mod listing;
mod schedule;
mod text;

use std::io::{Read, Write};
use std::process::exit;

/// The most bytes of an input.
const INPUT_LIMIT: usize = 16_777_216;

/// Why an input has no text.
pub enum Fault {
    BadLine(usize),
    TooLarge,
}

fn main() {
    let command = std::env::args().nth(1).unwrap_or_default();
    let mut input = Vec::with_capacity(1 << 16);
    std::io::stdin().lock().read_to_end(&mut input).unwrap();
    let played = if input.len() > INPUT_LIMIT {
        Err(Fault::TooLarge)
    } else {
        match command.as_str() {
            "show" => listing::list(&input, 4096, listing::packet).map(|text| (text, 0)),
            "msg" => listing::list(&input, 65_535, listing::nsp_message).map(|text| (text, 0)),
            "run" => schedule::play(&input),
            _ => exit(2),
        }
    };
    match played {
        Ok((text, status)) => {
            std::io::stdout().write_all(&text).unwrap();
            exit(status)
        }
        Err(Fault::BadLine(number)) => eprintln!("bad line {number}"),
        Err(Fault::TooLarge) => eprintln!("too large"),
    }
    exit(1)
}
