//! What bench/files.program does, without proofs, over std's tree: for speed alone, and no pages.
// The modules are the yardstick's, and this needs a part of each.
#![allow(dead_code)]

mod ends;
mod link;
mod listing;
mod text;

use ends::Serving;
use link::Link;
use std::collections::BTreeMap;
use std::collections::btree_map::Entry;
use std::time::Instant;

/// Why an input has no text: the listings, which aren't played here, answer it.
pub enum Fault {
    BadLine(usize),
    TooLarge,
}

const START: [&[u8]; 4] = [
    &[1, 2, 10, 0, 16, 7, 3, 5, 6, 0, 0, 0, 0],
    &[2, 2, 11, 0xa6, 4, 16, 2, 0, 0, 4, 0, 0, 0, 0],
    &[3, 2, 8, 2, 0, 1, b'F', 1, 0, 0, 0],
    &[4, 2, 2, 2, 0],
];

const PUT: [u8; 7] = [4, 2, 8, 4, 3, 1, 4];

const RECORD: [u8; 4] = [8, 2, 31, 0];

const BODY: &[u8] = b"a record of some thirty bytes.";

type File = BTreeMap<u32, Box<[u8]>>;

/// A stream over a file: its current record, and its next.
struct Stream {
    current: Option<u32>,
    next: u32,
}

impl Stream {
    fn new() -> Stream {
        Stream { current: None, next: 1 }
    }

    fn put(&mut self, file: &mut File, number: u32, body: &[u8]) -> Option<u32> {
        if number == 0 || number > i32::MAX as u32 {
            return None;
        }
        self.current = None;
        let Entry::Vacant(slot) = file.entry(number) else {
            return None;
        };
        slot.insert(body.into());
        self.next = number + 1;
        Some(number)
    }

    fn found(&mut self, number: Option<u32>) -> Option<u32> {
        self.current = number;
        self.next = number? + 1;
        number
    }

    fn get_key(&mut self, file: &File, number: u32) -> Option<u32> {
        let found = file.get(&number).map(|_| number);
        self.found(found)
    }

    fn get_next(&mut self, file: &File) -> Option<u32> {
        let found = file.range(self.next..).next().map(|(number, _)| *number);
        self.found(found)
    }

    fn delete(&mut self, file: &mut File) {
        if let Some(number) = self.current.take() {
            file.remove(&number);
        }
    }
}

fn numbers(order: &str, count: u32) -> Vec<u32> {
    let range = count.saturating_mul(8).max(1);
    let mut seed = 1u32;
    (0..count)
        .map(|index| {
            seed = seed.wrapping_mul(1664525).wrapping_add(1013904223);
            match order {
                "rising" => index + 1,
                "falling" => count - index,
                "dense" => (seed >> 8) % range + 1,
                _ => (seed >> 1).max(1),
            }
        })
        .collect()
}

fn pages(file: &File) -> usize {
    let mut pages: Vec<u32> = file.keys().map(|number| (number - 1) / 64).collect();
    pages.dedup();
    pages.len()
}

/// Serves what is in an NSP message: how many bytes answer.
fn serve_both(end: &mut Serving, bytes: Vec<u8>) -> usize {
    end.link.inbox.push_back(bytes);
    let mut answered = 0;
    while end.serve().is_ok() {
        answered += end.link.outbox.iter().map(Vec::len).sum::<usize>();
        end.link.outbox.clear();
    }
    answered
}

fn time_served(numbers: &[u32], each: u128) {
    let mut end = Serving::new(Link::new(1, 2, 512, 8), 4096);
    for bytes in START {
        serve_both(&mut end, bytes.to_vec());
    }
    let start = Instant::now();
    let mut answered = 0;
    for number in numbers {
        answered += serve_both(&mut end, [&PUT, &number.to_le_bytes()[..], &RECORD, BODY].concat());
    }
    let put = start.elapsed().as_nanos() / each;
    println!("put {put}\nanswers {answered}");
}

fn time_called(numbers: &[u32], each: u128) {
    let mut file = File::new();
    let start = Instant::now();
    let mut stream = Stream::new();
    for number in numbers {
        let _ = stream.put(&mut file, *number, BODY);
    }
    let put = start.elapsed().as_nanos() / each;
    let kept = pages(&file);
    let start = Instant::now();
    let mut stream = Stream::new();
    let by_key = numbers.iter().fold(0, |answers, number| answers ^ stream.get_key(&file, *number).unwrap_or(0));
    let get = start.elapsed().as_nanos() / each;
    let start = Instant::now();
    let mut stream = Stream::new();
    let in_order = numbers.iter().fold(0, |answers, _| answers ^ stream.get_next(&file).unwrap_or(0));
    let next = start.elapsed().as_nanos() / each;
    let start = Instant::now();
    let mut stream = Stream::new();
    for number in numbers {
        stream.get_key(&file, *number);
        stream.delete(&mut file);
    }
    let delete = start.elapsed().as_nanos() / each;
    println!("put {put}\nget {get}\nnext {next}\ndelete {delete}");
    println!("answers {kept} {by_key} {in_order} {}", pages(&file));
}

fn main() {
    let words: Vec<String> = std::env::args().collect();
    let (way, order, count) = (words[1].as_str(), words[2].as_str(), words[3].parse().unwrap());
    let numbers = numbers(order, count);
    let each = u128::from(count.max(1));
    match way {
        "called" => time_called(&numbers, each),
        _ => time_served(&numbers, each),
    }
}
