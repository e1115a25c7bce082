//! What bench/world.program does, without proofs, over the ends of the yardstick.
// The modules are the yardstick's, and this needs a part of each.
#![allow(dead_code)]

mod ends;
mod link;
mod listing;
mod text;

use ends::{Asking, Request, Serving};
use link::Link;
use std::time::Instant;
use text::Text;

/// Why an input has no text: the listings, which aren't played here, answer it.
pub enum Fault {
    BadLine(usize),
    TooLarge,
}

/// The events of a run, and the parts in which they are timed.
const EVENTS: usize = 1_000_000;

const PARTS: usize = 10;

struct World {
    a: Asking,
    b: Serving,
    text: Text,
}

/// Hands over what waits and brings it to the other end: how many events that were.
fn bring(from: &mut Link, to: &mut Link) -> usize {
    let first = from.wire.len();
    from.post().unwrap();
    let mut events = 1;
    while from.emit().is_ok() {
        events += 1;
    }
    for index in first..from.wire.len() {
        to.deliver(from, index).unwrap();
        events += 1;
    }
    events
}

/// What up to three of these events did.
fn handle<T>(event: impl FnMut() -> Result<T, link::Word>) -> usize {
    std::iter::repeat_with(event).take(3).take_while(Result::is_ok).count()
}

impl World {
    /// A request over a clean network: how many events that were.
    fn turn(&mut self, request: &Request) -> usize {
        let World { a, b, text } = self;
        a.ask(request).unwrap();
        let asked = bring(&mut a.link, &mut b.link);
        let served = handle(|| b.serve());
        let answered = bring(&mut b.link, &mut a.link);
        let read = handle(|| a.read(text));
        text.0.clear();
        1 + asked + served + answered + read
    }

    /// So many events, each a put or a part of one.
    fn play(&mut self, len: usize, events: usize) -> usize {
        let body = vec![b'a'; len];
        let mut done = 0;
        while done < events {
            done += self.turn(&Request::Put { key: None, body: &body });
        }
        done
    }
}

/// The pages of memory that the program has, as Linux tells them.
fn pages() -> u64 {
    let text = std::fs::read_to_string("/proc/self/statm").unwrap();
    text.split(' ').nth(1).unwrap().parse().unwrap()
}

fn main() {
    let words: Vec<usize> = std::env::args().skip(1).map(|word| word.parse().unwrap()).collect();
    let [size, window, len] = words[..] else { panic!("three numbers") };
    let a = Asking::new(Link::new(0x0101, 0x0202, size, window), 4096);
    let b = Serving::new(Link::new(0x0202, 0x0101, size, window), 4096);
    let mut world = World { a, b, text: Text::default() };
    world.turn(&Request::Hello);
    world.turn(&Request::Create { name: b"F".to_vec(), org: 0, rfm: 2, mrs: 0, mrn: 0, fac: 1 });
    world.turn(&Request::Connect);
    let mut all = 0;
    for part in 0..PARTS {
        let (before, clock) = (pages(), Instant::now());
        let done = world.play(len, EVENTS / PARTS);
        let nanos = clock.elapsed().as_nanos();
        println!("time {part} {}", nanos / done as u128);
        println!("bytes {part} {}", pages().wrapping_sub(before) * 4096 / done as u64);
        all += done;
    }
    println!("answers {all}");
}
