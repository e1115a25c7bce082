//! The listings of packets and of messages.
use crate::Fault;
use crate::text::{Text, decode, next_line};

/// The listing of an input, where each line has its text by `list_one`.
pub fn list(input: &[u8], limit: usize, list_one: fn(&mut Text, &[u8])) -> Result<Vec<u8>, Fault> {
    let mut text = Text(Vec::with_capacity(input.len() + 64));
    let mut bytes = Vec::with_capacity(limit);
    let (mut rest, mut number, mut line_number) = (input, 0u64, 0);
    while let Some(line) = next_line(&mut rest) {
        line_number += 1;
        let (sign, digits) = match line {
            [] | [b'#', ..] => continue,
            [sign @ (b'>' | b'<'), b' ', digits @ ..] => (*sign, digits),
            _ => return Err(Fault::BadLine(line_number)),
        };
        bytes.clear();
        decode(digits, &mut bytes).ok_or(Fault::BadLine(line_number))?;
        if bytes.len() > limit {
            return Err(Fault::TooLarge);
        }
        number += 1;
        text.number(number);
        text.byte(b' ');
        text.byte(sign);
        text.byte(b' ');
        list_one(&mut text, &bytes);
    }
    Ok(text.0)
}

fn word(bytes: &[u8], at: usize) -> u16 {
    u16::from_le_bytes([bytes[at], bytes[at + 1]])
}

fn ack(text: &mut Text, word: u16) {
    text.number(word >> 12 & 7);
    text.byte(b':');
    text.number(word & 0xfff);
}

/// The acknowledgement fields at an offset, and where they end.
fn acks(text: &mut Text, bytes: &[u8], at: usize) -> usize {
    let is_field = |at: usize| at + 2 <= bytes.len() && bytes[at + 1] >= 0x80;
    if !is_field(at) {
        text.byte(b'-');
        return at;
    }
    ack(text, word(bytes, at));
    if !is_field(at + 2) {
        return at + 2;
    }
    text.byte(b',');
    ack(text, word(bytes, at + 2));
    at + 4
}

fn addresses(text: &mut Text, bytes: &[u8]) {
    text.word(" dst=");
    text.four_digits(word(bytes, 1));
    text.word(" src=");
    text.four_digits(word(bytes, 3));
}

/// The lines of a packet.
pub fn packet(text: &mut Text, bytes: &[u8]) {
    match bytes[0] {
        0x04 => {
            text.word("ack");
            addresses(text, bytes);
            text.word(" acks=");
            acks(text, bytes, 5);
            text.byte(b'\n');
        }
        flags @ (0 | 0x20 | 0x40 | 0x60) => {
            text.word("segment ");
            text.word(["middle", "first", "last", "only"][usize::from(flags >> 5)]);
            addresses(text, bytes);
            text.word(" seg=");
            let fields = bytes[5..9].chunks(2).take_while(|field| field[1] >= 0x80).count();
            text.number(word(bytes, 5 + 2 * fields) & 0xfff);
            text.word(" acks=");
            let payload = &bytes[acks(text, bytes, 5) + 2..];
            text.word(" len=");
            text.number(payload.len() as u64);
            text.byte(b'\n');
            if flags == 0x60 {
                messages(text, payload);
            }
        }
        flags => panic!("a packet that no benchmark has: {flags:02x}"),
    }
}

/// The lines of an NSP message.
pub fn nsp_message(text: &mut Text, bytes: &[u8]) {
    text.word("message len=");
    text.number(bytes.len() as u64);
    text.byte(b'\n');
    messages(text, bytes);
}

/// The fields of a message that are left.
pub struct Fields<'a>(pub &'a [u8]);

impl<'a> Fields<'a> {
    pub fn take(&mut self, count: usize) -> &'a [u8] {
        let (front, rest) = self.0.split_at(count);
        self.0 = rest;
        front
    }

    pub fn number(&mut self, count: usize) -> u32 {
        self.take(count).iter().rev().fold(0, |number, byte| number << 8 | u32::from(*byte))
    }

    pub fn byte(&mut self) -> u8 {
        self.take(1)[0]
    }

    pub fn extensible(&mut self) -> u128 {
        let (mut number, mut shift) = (0, 0);
        loop {
            let byte = self.byte();
            number |= u128::from(byte & 0x7f) << shift;
            shift += 7;
            if byte < 0x80 {
                return number;
            }
        }
    }

    pub fn image(&mut self) -> &'a [u8] {
        let count = usize::from(self.byte());
        self.take(count)
    }

    /// The next message: its type and its operand.
    pub fn message(&mut self) -> (u8, Fields<'a>) {
        let (kind, flags) = (self.byte(), self.byte());
        let count = match flags {
            0 => self.0.len(),
            2 => usize::from(self.byte()),
            6 => self.number(2) as usize,
            _ => panic!("flags that no benchmark has: {flags:02x}"),
        };
        (kind, Fields(self.take(count)))
    }
}

/// How a field is read.
#[derive(Clone, Copy)]
enum Kind {
    Fixed(usize),
    Extensible,
    Image,
}
use Kind::{Extensible, Fixed, Image};

const ATTRIBUTES: [(&str, Kind); 21] = [
    ("datatype", Extensible), ("org", Fixed(1)), ("rfm", Fixed(1)), ("rat", Extensible), ("bls", Fixed(2)),
    ("mrs", Fixed(2)), ("alq", Image), ("bks", Fixed(1)), ("fsz", Fixed(1)), ("mrn", Image), ("runsys", Image),
    ("deq", Fixed(2)), ("fop", Extensible), ("bsz", Fixed(1)), ("dev", Extensible), ("sdc", Extensible),
    ("lrl", Fixed(2)), ("hbk", Image), ("ebk", Image), ("ffb", Fixed(2)), ("sbn", Image),
];

const CONTROL: [(&str, Kind); 6] = [
    ("rac", Fixed(1)), ("key", Image), ("krf", Fixed(1)), ("rop", Extensible), ("hsh", Image), ("display", Extensible),
];

fn menu(text: &mut Text, fields: &mut Fields, names: &[(&str, Kind)]) {
    let mut menu = fields.extensible();
    while menu > 0 {
        let (name, kind) = names[menu.trailing_zeros() as usize];
        menu &= menu - 1;
        text.byte(b' ');
        text.word(name);
        text.byte(b'=');
        match kind {
            Fixed(count) => text.number(fields.number(count)),
            Extensible => text.number(fields.extensible()),
            Image => text.image(fields.image()),
        }
    }
}

fn named_images(text: &mut Text, fields: &mut Fields, names: &[&str]) {
    for name in names {
        text.word(name);
        text.image(if fields.0.is_empty() { &[] } else { fields.image() });
    }
}

fn config(text: &mut Text, fields: &mut Fields) {
    text.word("  config bufsiz=");
    text.number(fields.number(2));
    text.word(" ostype=");
    text.number(fields.byte());
    text.word(" filesys=");
    text.number(fields.byte());
    text.word(" version=");
    for sign in *b"...." {
        text.number(fields.byte());
        text.byte(sign);
    }
    text.number(fields.byte());
    text.word(" syscap=");
    text.number(fields.extensible());
}

fn message(text: &mut Text, kind: u8, fields: &mut Fields) {
    match kind {
        1 => config(text, fields),
        2 => {
            text.word("  attributes");
            menu(text, fields, &ATTRIBUTES);
        }
        4 => {
            text.word("  control func=");
            text.number(fields.byte());
            menu(text, fields, &CONTROL);
        }
        5 => {
            text.word("  continue func=");
            text.number(fields.byte());
        }
        6 => text.word("  ack"),
        8 => {
            named_images(text, fields, &["  data recnum="]);
            text.word(" body=");
            text.image(fields.0);
        }
        9 => {
            text.word("  status ");
            text.four_digits(fields.number(2) as u16);
            named_images(text, fields, &[" rfa=", " recnum=", " stv="]);
        }
        10..=16 => {
            text.word("  other type=");
            text.number(kind);
            text.word(" body=");
            text.image(fields.0);
        }
        _ => panic!("a message that no benchmark has: {kind}"),
    }
    text.byte(b'\n');
}

fn messages(text: &mut Text, payload: &[u8]) {
    let mut rest = Fields(payload);
    while !rest.0.is_empty() {
        let (kind, mut fields) = rest.message();
        message(text, kind, &mut fields);
    }
}
