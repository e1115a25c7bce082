//! What both ends of the file access do, of what the benchmarks ask for.
use crate::link::{Link, Word};
use crate::listing::Fields;
use crate::text::Text;
use std::collections::BTreeMap;

/// A request.
pub enum Request {
    Hello,
    Create { name: Vec<u8>, org: u8, rfm: u8, mrs: u16, mrn: u32, fac: u8 },
    Connect,
    Put { key: Option<u32>, body: Vec<u8> },
    Store(Vec<Vec<u8>>),
    Close,
}

/// What came of a request.
#[derive(Clone, Copy)]
pub enum Report {
    Ready(u16),
    Opened(u8, u8, u16, u32),
    Connected,
    Done(u32),
    Refused(u16, u8),
    Closed,
}

impl Report {
    fn say(self, text: &mut Text) {
        match self {
            Report::Ready(bufsiz) => {
                text.word("report ready ");
                text.number(bufsiz);
            }
            Report::Opened(org, rfm, mrs, mrn) => {
                text.word("report opened");
                for number in [u32::from(org), u32::from(rfm), u32::from(mrs), mrn] {
                    text.byte(b' ');
                    text.number(number);
                }
            }
            Report::Connected => text.word("report connected"),
            Report::Done(number) => {
                text.word("report done ");
                text.number(number);
            }
            Report::Refused(code, reason) => {
                text.word("report refused ");
                text.four_digits(code);
                text.byte(b' ');
                text.number(reason);
            }
            Report::Closed => text.word("report closed"),
        }
    }
}

/// What is due.
#[derive(Clone, Copy, PartialEq)]
enum Due {
    Nothing,
    Ready,
    Attributes,
    Opened,
    Connected,
    Done,
    Stored,
    Closed,
}

#[derive(Clone, Copy, PartialEq)]
enum Phase {
    Fresh,
    Ready,
    Opened,
    Connected,
}

/// The end that asks.
pub struct Asking {
    pub link: Link,
    own: u16,
    limit: usize,
    phase: Phase,
    due: Due,
    opened: Report,
    /// The messages that wait, and those that were handed to the link.
    waiting: Vec<Vec<u8>>,
    pub sent: Vec<Vec<u8>>,
    pub reports: Vec<Report>,
}

fn message(kind: u8, operand: &[u8]) -> Vec<u8> {
    let count = operand.len();
    let mut bytes = Vec::with_capacity(count + 4);
    if count < 256 {
        bytes.extend_from_slice(&[kind, 2, count as u8]);
    } else {
        bytes.extend_from_slice(&[kind, 6, count as u8, (count >> 8) as u8]);
    }
    bytes.extend_from_slice(operand);
    bytes
}

fn filedata(body: &[u8]) -> Vec<u8> {
    let mut operand = Vec::with_capacity(body.len() + 1);
    operand.push(0);
    operand.extend_from_slice(body);
    message(8, &operand)
}

fn config(own: u16) -> Vec<u8> {
    let [low, high] = own.to_le_bytes();
    message(1, &[low, high, 7, 3, 5, 6, 0, 0, 0, 0])
}

fn attributes(org: u8, rfm: u8, mrs: u16, mrn: u32) -> Vec<u8> {
    let mut operand = vec![0xa6, 0x04, org, rfm];
    operand.extend_from_slice(&mrs.to_le_bytes());
    operand.push(4);
    operand.extend_from_slice(&mrn.to_le_bytes());
    message(2, &operand)
}

fn limit_of(bufsiz: u16) -> usize {
    match bufsiz {
        0 | 4096.. => 4096,
        _ => usize::from(bufsiz),
    }
}

/// Puts messages into as few NSP messages as the limit lets; how many.
fn wait(outbox: &mut Vec<Vec<u8>>, limit: usize, messages: &[Vec<u8>]) -> usize {
    let before = outbox.len();
    for message in messages.iter().filter(|message| !message.is_empty()) {
        match outbox[before..].last_mut() {
            Some(last) if last.len() + message.len() <= limit => last.extend_from_slice(message),
            _ => outbox.push(message.clone()),
        }
    }
    outbox.len() - before
}

impl Asking {
    pub fn new(link: Link, own: u16) -> Asking {
        let (phase, due, opened) = (Phase::Fresh, Due::Nothing, Report::Closed);
        let (waiting, sent, reports) = (Vec::new(), Vec::new(), Vec::new());
        Asking { link, own, limit: 4096, phase, due, opened, waiting, sent, reports }
    }

    pub fn post(&mut self) -> Result<usize, Word> {
        let count = self.link.post()?;
        self.sent.append(&mut self.waiting);
        Ok(count)
    }

    pub fn ask(&mut self, request: &Request) -> Result<usize, Word> {
        if self.due != Due::Nothing {
            return Err("ask-busy");
        }
        let (phase, due) = match request {
            Request::Hello => (Phase::Fresh, Due::Ready),
            Request::Create { .. } => (Phase::Ready, Due::Attributes),
            Request::Connect => (Phase::Opened, Due::Connected),
            Request::Put { .. } => (Phase::Connected, Due::Done),
            Request::Store(_) => (Phase::Connected, Due::Stored),
            Request::Close => (Phase::Connected, Due::Closed),
        };
        if phase != self.phase {
            return Err("ask-phase");
        }
        let before = self.waiting.len();
        match request {
            Request::Hello => self.waiting.push(config(self.own)),
            Request::Create { name, org, rfm, mrs, mrn, fac } => {
                let mut operand = vec![2, 0, name.len() as u8];
                operand.extend_from_slice(name);
                operand.extend_from_slice(&[*fac, 0, 0, 0]);
                self.waiting.extend([attributes(*org, *rfm, *mrs, *mrn), message(3, &operand)]);
            }
            Request::Connect => self.waiting.push(message(4, &[2, 0])),
            Request::Put { key: None, body } => self.waiting.extend([message(4, &[4, 1, 0]), filedata(body)]),
            Request::Put { key: Some(key), body } => {
                let [a, b, c, d] = key.to_le_bytes();
                self.waiting.extend([message(4, &[4, 3, 1, 4, a, b, c, d]), filedata(body)]);
            }
            Request::Store(bodies) => {
                self.waiting.push(message(4, &[4, 1, 3]));
                self.waiting.extend(bodies.iter().map(|body| filedata(body)));
                self.waiting.push(message(7, &[4, 0]));
            }
            Request::Close => self.waiting.push(message(7, &[1, 0])),
        }
        if self.waiting[before..].iter().any(|message| message.len() > self.limit) {
            self.waiting.truncate(before);
            return Err("ask-too-large");
        }
        self.due = due;
        Ok(wait(&mut self.link.outbox, self.limit, &self.waiting[before..]))
    }

    /// Reads an answer, and says what came of it.
    pub fn read(&mut self, text: &mut Text) -> Result<(), Word> {
        let mut rest = Fields(self.link.coming()?);
        let before = rest.0.len();
        let (kind, mut fields) = rest.message();
        let handled = before - rest.0.len();
        let due = std::mem::replace(&mut self.due, Due::Nothing);
        let report = match (due, kind) {
            (Due::Ready, 1) => {
                let bufsiz = fields.number(2) as u16;
                self.limit = limit_of(bufsiz);
                self.phase = Phase::Ready;
                Some(Report::Ready(bufsiz))
            }
            (Due::Attributes, 2) => {
                fields.take(2);
                let (org, rfm, mrs) = (fields.byte(), fields.byte(), fields.number(2) as u16);
                self.opened = Report::Opened(org, rfm, mrs, Fields(fields.image()).number(4));
                self.due = Due::Opened;
                None
            }
            (Due::Opened, 6) => {
                self.phase = Phase::Opened;
                Some(self.opened)
            }
            (Due::Connected, 6) => {
                self.phase = Phase::Connected;
                Some(Report::Connected)
            }
            (Due::Done, 9) => {
                let code = fields.number(2);
                let (_rfa, number, reason) = (fields.image(), fields.image(), fields.image());
                Some(if code >> 12 == 1 {
                    Report::Done(Fields(number).number(number.len()))
                } else {
                    Report::Refused(code as u16, if reason.len() == 1 { reason[0] } else { 0 })
                })
            }
            (Due::Closed, 7) => {
                self.phase = Phase::Ready;
                Some(Report::Closed)
            }
            _ => panic!("an answer that no benchmark has: {kind}"),
        };
        match report {
            Some(report) => {
                report.say(text);
                self.reports.push(report);
            }
            None => text.word("read"),
        }
        self.link.handled(handled);
        Ok(())
    }
}

/// The records of a file.
enum Records {
    Sequential(Vec<Box<[u8]>>),
    Relative(BTreeMap<u32, Box<[u8]>>),
}

/// A file.
pub struct File {
    name: Vec<u8>,
    rfm: u8,
    mrs: u16,
    mrn: u32,
    records: Records,
}

/// The end that holds the files.
pub struct Serving {
    pub link: Link,
    own: u16,
    limit: usize,
    /// The attributes that came for the next file.
    wanted: (u8, u8, u16, u32),
    pub files: Vec<File>,
    /// The key of a Put whose record is to come.
    key: Option<u32>,
}

fn status(code: u16, number: &[u8], reason: &[u8]) -> Vec<u8> {
    let mut operand = code.to_le_bytes().to_vec();
    for image in [number, number, reason] {
        operand.push(image.len() as u8);
        operand.extend_from_slice(image);
    }
    message(9, &operand)
}

impl File {
    /// Puts a record: its number, or the reason why not.
    fn put(&mut self, key: Option<u32>, body: &[u8]) -> Result<u32, u8> {
        match &mut self.records {
            Records::Sequential(records) => {
                check_length(self.rfm, self.mrs, body)?;
                records.push(body.into());
                Ok(records.len() as u32)
            }
            Records::Relative(records) => {
                let number = key.unwrap_or_else(|| records.last_key_value().map_or(1, |(last, _)| last + 1));
                let most = if self.mrn == 0 { 2_147_483_647 } else { self.mrn };
                if number == 0 || number > most {
                    return Err(6);
                }
                check_length(self.rfm, self.mrs, body)?;
                let std::collections::btree_map::Entry::Vacant(slot) = records.entry(number) else {
                    return Err(5);
                };
                slot.insert(body.into());
                Ok(number)
            }
        }
    }

    /// Appends the lines of the file.
    pub fn list(&self, text: &mut Text) {
        text.word("file ");
        text.image(&self.name);
        text.word(match self.records {
            Records::Sequential(_) => " seq",
            Records::Relative(_) => " rel",
        });
        text.word(if self.rfm == 1 { " fixed " } else { " variable " });
        text.number(self.mrs);
        text.byte(b' ');
        text.number(self.mrn);
        text.byte(b'\n');
        match &self.records {
            Records::Sequential(records) => {
                for (number, body) in (1..).zip(records) {
                    list_record(text, number, body);
                }
            }
            Records::Relative(records) => {
                for (number, body) in records {
                    list_record(text, *number, body);
                }
            }
        }
    }
}

fn list_record(text: &mut Text, number: u32, body: &[u8]) {
    text.word("  ");
    text.number(number);
    text.byte(b' ');
    text.image(body);
    text.byte(b'\n');
}

fn check_length(rfm: u8, mrs: u16, body: &[u8]) -> Result<(), u8> {
    let most = if mrs == 0 { 65_535 } else { usize::from(mrs) };
    if body.len() > most || rfm == 1 && body.len() != most { Err(7) } else { Ok(()) }
}

impl Serving {
    pub fn new(link: Link, own: u16) -> Serving {
        Serving { link, own, limit: 4096, wanted: (0, 2, 0, 0), files: Vec::new(), key: None }
    }

    fn create(&mut self, name: &[u8]) -> [Vec<u8>; 2] {
        let (org, rfm, mrs, mrn) = self.wanted;
        assert!(self.files.iter().all(|file| file.name != name));
        let records = match org {
            0 => Records::Sequential(Vec::new()),
            _ => Records::Relative(BTreeMap::new()),
        };
        self.files.push(File { name: name.to_vec(), rfm, mrs, mrn, records });
        [attributes(org, rfm, mrs, mrn), message(6, &[])]
    }

    /// Acts on a message; how many NSP messages answer.
    pub fn serve(&mut self) -> Result<usize, Word> {
        if !self.link.outbox.is_empty() {
            return Err("nothing-to-do");
        }
        let mut rest = Fields(self.link.coming()?);
        let before = rest.0.len();
        let (kind, mut fields) = rest.message();
        let handled = before - rest.0.len();
        let answers = match kind {
            1 => {
                self.limit = limit_of(fields.number(2) as u16);
                [config(self.own), Vec::new()]
            }
            2 => {
                fields.take(2);
                let (org, rfm, mrs) = (fields.byte(), fields.byte(), fields.number(2) as u16);
                self.wanted = (org, rfm, mrs, Fields(fields.image()).number(4));
                [Vec::new(), Vec::new()]
            }
            3 => {
                fields.take(2);
                let name = fields.image().to_vec();
                self.create(&name)
            }
            4 => match fields.byte() {
                2 => [message(6, &[]), Vec::new()],
                4 => {
                    let menu = fields.byte();
                    fields.take(1);
                    self.key = (menu & 2 != 0).then(|| Fields(fields.image()).number(4));
                    [Vec::new(), Vec::new()]
                }
                func => panic!("a control that no benchmark has: {func}"),
            },
            7 => [message(7, &[2, 0]), Vec::new()],
            8 => {
                fields.image();
                let file = self.files.last_mut().unwrap();
                let answer = match file.put(self.key, fields.0) {
                    Ok(number) => status(0x1000, &number.to_le_bytes(), &[]),
                    Err(reason) => status(0x5000, &[], &[reason]),
                };
                [answer, Vec::new()]
            }
            _ => panic!("a message that no benchmark has: {kind}"),
        };
        self.link.handled(handled);
        Ok(wait(&mut self.link.outbox, self.limit, &answers))
    }
}
