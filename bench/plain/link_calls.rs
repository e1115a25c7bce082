//! What bench/link.program does, without proofs, over the link of the yardstick.
// The modules are the yardstick's, and this needs a part of each.
#![allow(dead_code)]

mod link;

use link::Link;
use std::time::Instant;

/// The bytes of a segment.
const SEGMENT: usize = 512;

/// The segments of a message.
const IN_MESSAGE: usize = 64;

/// One packet in so many is lost.
const LOST: u64 = 10;

/// Fills the window: each new segment is written, and handed over unless it is lost.
fn fill_window(from: &mut Link, to: &mut Link) {
    while let Ok(index) = from.emit() {
        if from.sent % LOST != 0 {
            to.deliver(from, index).unwrap();
        }
        from.wire.clear();
    }
}

/// Hands over an acknowledgement, and the oldest segment again as long as one isn't acknowledged.
fn settle(from: &mut Link, to: &mut Link) {
    loop {
        let index = to.ack();
        from.deliver(to, index).unwrap();
        to.wire.clear();
        let Ok(index) = from.resend(0) else {
            return;
        };
        to.deliver(from, index).unwrap();
        from.wire.clear();
    }
}

fn main() {
    let words: Vec<String> = std::env::args().collect();
    let (window, messages): (usize, usize) = (words[1].parse().unwrap(), words[2].parse().unwrap());
    let start = Instant::now();
    let mut from = Link::new(1, 2, SEGMENT, window);
    let mut to = Link::new(2, 1, SEGMENT, window);
    let message = [0x41; SEGMENT * IN_MESSAGE];
    let batch = window.div_ceil(IN_MESSAGE).max(1);
    let mut bytes = 0;
    for sent in 0..messages {
        from.outbox.push(message.to_vec());
        from.post().unwrap();
        if (sent + 1) % batch == 0 || sent + 1 == messages {
            // A batch may have a segment more than the window.
            for _ in 0..2 {
                fill_window(&mut from, &mut to);
                settle(&mut from, &mut to);
            }
            bytes += to.inbox.drain(..).map(|message| message.len()).sum::<usize>();
        }
    }
    let segments = bytes / SEGMENT;
    println!("segment {}\nanswers {segments}", start.elapsed().as_nanos() / segments.max(1) as u128);
}
