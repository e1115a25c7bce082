//! An end of a link: segments with their numbers, held and sent again.
use std::collections::VecDeque;
use std::ops::Range;
use std::rc::Rc;

/// Why an event has no step.
pub type Word = &'static str;

const NOTHING: Word = "nothing-to-do";

/// A packet that was written: its bytes, the number of its segment, and how many it acknowledges.
pub struct Wired {
    pub packet: Box<[u8]>,
    segment: Option<u64>,
    acks: u64,
}

struct Queued {
    marks: u8,
    message: Rc<[u8]>,
    range: Range<usize>,
}

struct Held {
    marks: u8,
    payload: Box<[u8]>,
}

pub struct Link {
    local: u16,
    remote: u16,
    size: usize,
    window: usize,
    queue: VecDeque<Queued>,
    pub sent: u64,
    acked: u64,
    received: u64,
    begun: Vec<u8>,
    held: Vec<Option<Held>>,
    pub inbox: VecDeque<Vec<u8>>,
    pub wire: Vec<Wired>,
    pub outbox: Vec<Vec<u8>>,
    /// Where the next DAP message begins in the oldest NSP message.
    offset: usize,
}

const FIRST: u8 = 0x20;
const LAST: u8 = 0x40;

fn is_old(number: u64, now: u64) -> bool {
    now > 2047 && number < now - 2047
}

impl Link {
    pub fn new(local: u16, remote: u16, size: usize, window: usize) -> Link {
        Link {
            local,
            remote,
            size,
            window,
            queue: VecDeque::new(),
            sent: 0,
            acked: 0,
            received: 0,
            begun: Vec::new(),
            held: (0..window).map(|_| None).collect(),
            inbox: VecDeque::new(),
            wire: Vec::new(),
            outbox: Vec::new(),
            offset: 0,
        }
    }

    /// Hands over what waits.
    pub fn post(&mut self) -> Result<usize, Word> {
        if self.outbox.is_empty() {
            return Err(NOTHING);
        }
        let count = self.outbox.len();
        for message in self.outbox.drain(..) {
            let message: Rc<[u8]> = message.into();
            let parts = message.len().div_ceil(self.size).max(1);
            for part in 0..parts {
                let first = if part == 0 { FIRST } else { 0 };
                let last = if part + 1 == parts { LAST } else { 0 };
                let range = part * self.size..message.len().min((part + 1) * self.size);
                self.queue.push_back(Queued { marks: first | last, message: message.clone(), range });
            }
        }
        Ok(count)
    }

    fn unacked(&self) -> usize {
        (self.sent - self.acked) as usize
    }

    fn head(&self, marks: u8, payload: usize) -> Vec<u8> {
        let mut packet = Vec::with_capacity(9 + payload);
        packet.push(marks);
        packet.extend_from_slice(&self.remote.to_le_bytes());
        packet.extend_from_slice(&self.local.to_le_bytes());
        packet.extend_from_slice(&((self.received & 0xfff) as u16 | 0x8000).to_le_bytes());
        packet
    }

    fn wired(&mut self, packet: Vec<u8>, segment: Option<u64>) -> usize {
        self.wire.push(Wired { packet: packet.into(), segment, acks: self.received });
        self.wire.len() - 1
    }

    fn write(&mut self, index: usize) -> usize {
        let segment = &self.queue[index];
        let number = self.acked + 1 + index as u64;
        let mut packet = self.head(segment.marks, 2 + segment.range.len());
        packet.extend_from_slice(&((number & 0xfff) as u16).to_le_bytes());
        packet.extend_from_slice(&segment.message[segment.range.clone()]);
        self.wired(packet, Some(number))
    }

    pub fn emit(&mut self) -> Result<usize, Word> {
        let index = self.unacked();
        if index >= self.queue.len() || index >= self.window {
            return Err(NOTHING);
        }
        self.sent += 1;
        Ok(self.write(index))
    }

    pub fn resend(&mut self, index: usize) -> Result<usize, Word> {
        if index >= self.unacked() {
            return Err(NOTHING);
        }
        Ok(self.write(index))
    }

    pub fn ack(&mut self) -> usize {
        let packet = self.head(4, 0);
        self.wired(packet, None)
    }

    fn take(&mut self, marks: u8, payload: &[u8]) {
        self.begun.extend_from_slice(payload);
        self.received += 1;
        if marks & LAST != 0 {
            self.inbox.push_back(std::mem::take(&mut self.begun));
        }
    }

    fn hold(&mut self, number: u64) -> &mut Option<Held> {
        let slot = number as usize % self.window;
        &mut self.held[slot]
    }

    fn take_segment(&mut self, packet: &[u8]) -> Word {
        let number = u16::from_le_bytes([packet[7], packet[8]]);
        let next = (self.received + 1 & 0xfff) as u16;
        let ahead = usize::from(number.wrapping_sub(next) & 0xfff);
        let (marks, payload) = (packet[0], &packet[9..]);
        if ahead >= 2048 {
            return "repeat";
        }
        if ahead > 0 {
            let number = self.received + 1 + ahead as u64;
            if ahead < self.window && self.hold(number).is_none() {
                *self.hold(number) = Some(Held { marks, payload: payload.into() });
            }
            return "early";
        }
        self.take(marks, payload);
        loop {
            let next = self.received + 1;
            match self.hold(next).take() {
                Some(held) => self.take(held.marks, &held.payload),
                None => return "accepted",
            }
        }
    }

    /// Takes the packet of this index that the other end wrote.
    pub fn deliver(&mut self, from: &Link, index: usize) -> Result<Word, Word> {
        let wired = from.wire.get(index).ok_or("no-such-packet")?;
        if wired.segment.is_some_and(|number| is_old(number, self.received + 1)) || is_old(wired.acks, self.acked) {
            return Err("stale");
        }
        let packet = &wired.packet;
        let word = |at: usize| u16::from_le_bytes([packet[at], packet[at + 1]]);
        assert!(word(1) == self.local && word(3) == self.remote && word(5) & 0x8000 != 0);
        let acked = word(5).wrapping_sub((self.acked & 0xfff) as u16) & 0xfff;
        let got = if packet[0] == 4 { "ack-only" } else { self.take_segment(packet) };
        if acked < 2048 {
            self.acked += u64::from(acked);
            self.queue.drain(..usize::from(acked));
        }
        Ok(got)
    }

    /// The bytes from the next DAP message on.
    pub fn coming(&self) -> Result<&[u8], Word> {
        Ok(&self.inbox.front().ok_or(NOTHING)?[self.offset..])
    }

    /// So many bytes were handled.
    pub fn handled(&mut self, count: usize) {
        self.offset += count;
        if self.offset == self.inbox[0].len() {
            self.inbox.pop_front();
            self.offset = 0;
        }
    }
}
