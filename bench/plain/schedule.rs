//! Schedules: their lines, and what their events come to.
use crate::Fault;
use crate::ends::{Asking, Request, Serving};
use crate::link::{Link, Word};
use crate::text::{Text, decode, find, next_line};

#[derive(Clone, Copy)]
enum End {
    A,
    B,
}

/// An event, whose names and bodies are still the digits of a line.
enum Event<'a> {
    Hello,
    Create(&'a [u8], [u32; 5]),
    Connect,
    Put(Option<u32>, &'a [u8]),
    Store(Words<'a>),
    Close,
    Post(End),
    Emit(End),
    Resend(End, usize),
    Ack(End),
    Deliver(End, usize),
    Serve,
    Read,
}

/// The words of a line that are left.
#[derive(Clone, Copy)]
struct Words<'a>(Option<&'a [u8]>);

impl<'a> Words<'a> {
    fn next(&mut self) -> Option<&'a [u8]> {
        let rest = self.0?;
        match find(b' ', rest) {
            None => self.0 = None,
            Some(end) => {
                self.0 = Some(&rest[end + 1..]);
                return Some(&rest[..end]);
            }
        }
        Some(rest)
    }

    fn number(&mut self, most: u32) -> Option<u32> {
        let word = self.next()?;
        if word.is_empty() || word.len() > 10 {
            return None;
        }
        let mut number = 0u64;
        for digit in word {
            if !digit.is_ascii_digit() {
                return None;
            }
            number = 10 * number + u64::from(digit - b'0');
        }
        u32::try_from(number).ok().filter(|number| *number <= most)
    }

    fn end(&mut self) -> Option<End> {
        match self.next()? {
            b"a" => Some(End::A),
            b"b" => Some(End::B),
            _ => None,
        }
    }
}

/// Whether it is the text of a name or of a record.
fn checked(word: &[u8]) -> Option<&[u8]> {
    let good = word == b"-"
        || !word.is_empty() && word.len() % 2 == 0 && word.iter().fold(true, |good, byte| good & byte.is_ascii_hexdigit());
    good.then_some(word)
}

fn read_ask<'a>(words: &mut Words<'a>) -> Option<Event<'a>> {
    Some(match words.next()? {
        b"hello" => Event::Hello,
        b"create" => {
            let name = checked(words.next()?)?;
            let (org, rfm, mrs) = (words.number(255)?, words.number(255)?, words.number(65_535)?);
            Event::Create(name, [org, rfm, mrs, words.number(u32::MAX)?, words.number(15)?])
        }
        b"connect" => Event::Connect,
        b"put" => match words.next()? {
            b"key" => Event::Put(Some(words.number(u32::MAX)?), checked(words.next()?)?),
            word => Event::Put(None, checked(word)?),
        },
        b"store" => {
            let bodies = *words;
            while words.0.is_some() {
                checked(words.next()?)?;
            }
            Event::Store(bodies)
        }
        b"close" => Event::Close,
        _ => return None,
    })
}

/// The bytes that the digits of a name or of a record spell.
fn decoded(digits: &[u8]) -> Vec<u8> {
    let mut bytes = Vec::with_capacity(digits.len() / 2);
    decode(digits, &mut bytes);
    bytes
}

fn read_event(line: &[u8]) -> Option<Event<'_>> {
    let mut words = Words(Some(line));
    let event = match words.next()? {
        b"ask" => read_ask(&mut words)?,
        b"post" => Event::Post(words.end()?),
        b"emit" => Event::Emit(words.end()?),
        b"resend" => Event::Resend(words.end()?, words.number(u32::MAX)? as usize),
        b"ack" => Event::Ack(words.end()?),
        b"deliver" => Event::Deliver(words.end()?, words.number(u32::MAX)? as usize),
        b"serve" => Event::Serve,
        b"read" => Event::Read,
        _ => return None,
    };
    if words.0.is_none() { Some(event) } else { None }
}

fn read_setup(line: &[u8]) -> Option<[u32; 4]> {
    let mut words = Words(Some(line));
    if words.next()? != b"setup" {
        return None;
    }
    let (size, window) = (words.number(u32::MAX)?, words.number(u32::MAX)?);
    let setup = [size, window, words.number(65_535)?, words.number(65_535)?];
    if words.0.is_none() { Some(setup) } else { None }
}

/// The lines that say something, with their numbers.
fn said(input: &[u8]) -> impl Iterator<Item = (usize, &[u8])> {
    let mut rest = input;
    (1..).map_while(move |number| Some((number, next_line(&mut rest)?))).filter(|(_, line)| !matches!(line, [] | [b'#', ..]))
}

/// Both ends, and the requests that were asked.
struct World {
    a: Asking,
    b: Serving,
    requests: Vec<Request>,
}

impl World {
    fn link(&mut self, end: End) -> &mut Link {
        match end {
            End::A => &mut self.a.link,
            End::B => &mut self.b.link,
        }
    }

    fn say_packet(&mut self, text: &mut Text, end: End, index: usize) {
        text.word(match end {
            End::A => "packet a ",
            End::B => "packet b ",
        });
        text.number(index as u64);
        text.byte(b' ');
        text.hex(&self.link(end).wire[index].packet);
    }

    fn ask(&mut self, text: &mut Text, request: Request) -> Result<(), Word> {
        let count = self.a.ask(&request)?;
        self.requests.push(request);
        text.word("asked ");
        text.number(count as u64);
        Ok(())
    }

    /// An event, and what came of it.
    fn apply(&mut self, text: &mut Text, event: &Event) -> Result<(), Word> {
        match *event {
            Event::Hello => self.ask(text, Request::Hello)?,
            Event::Create(name, [org, rfm, mrs, mrn, fac]) => {
                let (org, rfm, mrs, fac) = (org as u8, rfm as u8, mrs as u16, fac as u8);
                self.ask(text, Request::Create { name: decoded(name), org, rfm, mrs, mrn, fac })?;
            }
            Event::Connect => self.ask(text, Request::Connect)?,
            Event::Put(key, body) => self.ask(text, Request::Put { key, body: decoded(body) })?,
            Event::Store(mut bodies) => {
                let bodies = std::iter::from_fn(|| bodies.next().map(decoded));
                self.ask(text, Request::Store(bodies.collect()))?;
            }
            Event::Close => self.ask(text, Request::Close)?,
            Event::Post(end) => {
                let count = match end {
                    End::A => self.a.post()?,
                    End::B => self.b.link.post()?,
                };
                text.word("posted ");
                text.number(count as u64);
            }
            Event::Emit(end) => {
                let index = self.link(end).emit()?;
                self.say_packet(text, end, index);
            }
            Event::Resend(end, index) => {
                let index = self.link(end).resend(index)?;
                self.say_packet(text, end, index);
            }
            Event::Ack(end) => {
                let index = self.link(end).ack();
                self.say_packet(text, end, index);
            }
            Event::Deliver(end, index) => {
                text.word(match end {
                    End::A => self.a.link.deliver(&self.b.link, index)?,
                    End::B => self.b.link.deliver(&self.a.link, index)?,
                });
            }
            Event::Serve => {
                let count = self.b.serve()?;
                text.word("served ");
                text.number(count as u64);
            }
            Event::Read => self.a.read(text)?,
        }
        Ok(())
    }
}

/// What the schedule comes to, and the exit status.
pub fn play(input: &[u8]) -> Result<(Vec<u8>, i32), Fault> {
    let mut text = Text::default();
    let mut lines = said(input);
    let Some((first, setup)) = lines.next() else {
        return Ok((text.0, 0));
    };
    let [size, window, own_a, own_b] = read_setup(setup).ok_or(Fault::BadLine(first))?;
    if !(1..=1400).contains(&size) || !(1..=2047).contains(&window) || own_a < 64 || own_b < 64 {
        for (line_number, line) in lines {
            read_event(line).ok_or(Fault::BadLine(line_number))?;
        }
        text.word("0 refused bad-setup\n");
        return Ok((text.0, 1));
    }
    let (size, window) = (size as usize, window as usize);
    let a = Asking::new(Link::new(0x0101, 0x0202, size, window), own_a as u16);
    let b = Serving::new(Link::new(0x0202, 0x0101, size, window), own_b as u16);
    let mut world = World { a, b, requests: Vec::new() };
    let mut status = 0;
    for (number, (line_number, line)) in (1u64..).zip(lines) {
        let event = read_event(line).ok_or(Fault::BadLine(line_number))?;
        if status == 1 {
            continue;
        }
        text.number(number);
        text.byte(b' ');
        if let Err(word) = world.apply(&mut text, &event) {
            text.word("refused ");
            text.word(word);
            status = 1;
        }
        text.byte(b'\n');
    }
    for file in &world.b.files {
        file.list(&mut text);
    }
    Ok((text.0, status))
}
