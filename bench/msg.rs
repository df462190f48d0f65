//! The yardstick of bench_msg: the same call read and the same return written by code made by hand.

const CALL: &[u8; 212] = b"l\x01\0\x01\x1c\0\0\0\x07\0\0\0\xa1\0\0\0\x01\x01o\0\x1d\0\0\0/org/fedoraproject/FirewallD1\0\0\0\x02\x01s\0!\0\0\0org.fedoraproject.FirewallD1.zone\0\0\0\0\0\0\0\x03\x01s\0\x09\0\0\0queryPort\0\0\0\0\0\0\0\x06\x01s\0\x1c\0\0\0org.fedoraproject.FirewallD1\0\0\0\0\x08\x01g\0\x03sss\0\0\0\0\0\0\0\0\x06\0\0\0public\0\0\x02\0\0\080\0\0\x03\0\0\0tcp\0";

/// The known header fields.
#[derive(Default)]
struct Fields {
    path: Option<String>,
    interface: Option<String>,
    member: Option<String>,
    error: Option<String>,
    reply_serial: Option<u32>,
    destination: Option<String>,
    sender: Option<String>,
    signature: Option<String>,
    fds: Option<u32>,
}

struct Message {
    kind: u8,
    serial: u32,
    fields: Fields,
    body: Vec<String>,
}

/// The bytes and the offset of what is read next.
struct Reader<'a> {
    bytes: &'a [u8],
    at: usize,
}

impl<'a> Reader<'a> {
    fn take(&mut self, count: usize) -> Option<&'a [u8]> {
        let end = self.at.checked_add(count)?;
        let taken = self.bytes.get(self.at..end)?;
        self.at = end;
        Some(taken)
    }

    fn byte(&mut self) -> Option<u8> {
        Some(self.take(1)?[0])
    }

    fn padding(&mut self, align: usize) -> Option<()> {
        let gap = (align - self.at % align) % align;
        self.take(gap)?.iter().all(|byte| *byte == 0).then_some(())
    }

    fn u32(&mut self) -> Option<u32> {
        self.padding(4)?;
        Some(u32::from_le_bytes(*self.take(4)?.first_chunk()?))
    }

    fn closed(&mut self, count: usize) -> Option<String> {
        let text = std::str::from_utf8(self.take(count)?).ok()?;
        if text.as_bytes().contains(&0) || self.byte()? != 0 {
            return None;
        }
        Some(text.to_string())
    }

    fn text(&mut self) -> Option<String> {
        let count = self.u32()? as usize;
        self.closed(count)
    }

    fn signature(&mut self) -> Option<String> {
        let count = self.byte()? as usize;
        self.closed(count)
    }
}

fn is_element(text: &str) -> bool {
    let mut bytes = text.bytes();
    bytes.next().is_some_and(|c| c.is_ascii_alphabetic() || c == b'_')
        && bytes.all(|c| c.is_ascii_alphanumeric() || c == b'_')
}

fn is_interface(text: &str) -> bool {
    text.len() <= 255 && text.contains('.') && text.split('.').all(is_element)
}

fn is_bus_name(text: &str) -> bool {
    let (unique, parts) = match text.strip_prefix(':') {
        Some(parts) => (true, parts),
        None => (false, text),
    };
    text.len() <= 255
        && parts.contains('.')
        && parts.split('.').all(|part| {
            part.bytes().next().is_some_and(|c| unique || !c.is_ascii_digit())
                && part.bytes().all(|c| c.is_ascii_alphanumeric() || c == b'_' || c == b'-')
        })
}

fn is_path(text: &str) -> bool {
    text == "/"
        || text.strip_prefix('/').is_some_and(|parts| {
            parts
                .split('/')
                .all(|part| !part.is_empty() && part.bytes().all(|c| c.is_ascii_alphanumeric() || c == b'_'))
        })
}

/// Puts a value into a field that is not there yet.
fn put<T>(field: &mut Option<T>, value: T) -> Option<()> {
    if field.is_some() {
        return None;
    }
    *field = Some(value);
    Some(())
}

fn read_field(reader: &mut Reader, fields: &mut Fields) -> Option<()> {
    reader.padding(8)?;
    let code = reader.byte()?;
    let signature = reader.signature()?;
    match (code, signature.as_str()) {
        (1, "o") => put(&mut fields.path, reader.text().filter(|text| is_path(text))?),
        (2, "s") => put(&mut fields.interface, reader.text().filter(|text| is_interface(text))?),
        (3, "s") => put(&mut fields.member, reader.text().filter(|text| is_element(text))?),
        (4, "s") => put(&mut fields.error, reader.text().filter(|text| is_interface(text))?),
        (5, "u") => put(&mut fields.reply_serial, reader.u32()?),
        (6, "s") => put(&mut fields.destination, reader.text().filter(|text| is_bus_name(text))?),
        (7, "s") => put(&mut fields.sender, reader.text().filter(|text| is_bus_name(text))?),
        (8, "g") => put(&mut fields.signature, reader.signature()?),
        (9, "u") => put(&mut fields.fds, reader.u32()?),
        _ => None,
    }
}

fn read_message(bytes: &[u8]) -> Option<Message> {
    let mut reader = Reader { bytes, at: 0 };
    let &[b'l', kind, _, 1] = reader.take(4)? else {
        return None;
    };
    let body_len = reader.u32()? as usize;
    let serial = reader.u32()?;
    let fields_len = reader.u32()? as usize;
    let end = 16 + fields_len;
    let mut inner = Reader { bytes: bytes.get(..end)?, at: 16 };
    let mut fields = Fields::default();
    while inner.at < end {
        read_field(&mut inner, &mut fields)?;
    }
    reader.at = end;
    reader.padding(8)?;
    if reader.at + body_len != bytes.len() || kind == 0 || serial == 0 {
        return None;
    }
    if kind == 1 && (fields.path.is_none() || fields.member.is_none()) {
        return None;
    }
    let mut body = Vec::new();
    for letter in fields.signature.as_deref().unwrap_or("").bytes() {
        if letter != b's' {
            return None;
        }
        body.push(reader.text()?);
    }
    (reader.at == bytes.len()).then_some(Message { kind, serial, fields, body })
}

/// Messages out of a stream in pieces.
#[derive(Default)]
struct Decoder {
    kept: Vec<u8>,
}

impl Decoder {
    fn feed(&mut self, piece: &[u8]) -> Option<Vec<Message>> {
        self.kept.extend_from_slice(piece);
        let mut messages = Vec::new();
        let mut at = 0;
        loop {
            let rest = &self.kept[at..];
            if rest.len() < 16 {
                break;
            }
            let body_len = u32::from_le_bytes(*rest[4..].first_chunk()?) as usize;
            let fields_len = u32::from_le_bytes(*rest[12..].first_chunk()?) as usize;
            let len = (16 + fields_len).next_multiple_of(8) + body_len;
            if rest.len() < len {
                break;
            }
            messages.push(read_message(&rest[..len])?);
            at += len;
        }
        self.kept.drain(..at);
        Some(messages)
    }
}

/// The return of a call, with a boolean.
fn push_return(out: &mut Vec<u8>, serial: u32, reply: u32, truth: bool) {
    out.extend_from_slice(&[b'l', 2, 1, 1, 4, 0, 0, 0]);
    out.extend_from_slice(&serial.to_le_bytes());
    out.extend_from_slice(&[15, 0, 0, 0, 5, 1, b'u', 0]);
    out.extend_from_slice(&reply.to_le_bytes());
    out.extend_from_slice(&[8, 1, b'g', 0, 1, b'b', 0, 0]);
    out.extend_from_slice(&u32::from(truth).to_le_bytes());
}

fn mixed(mut sum: u64, bytes: &[u8]) -> u64 {
    for byte in bytes {
        sum = sum.wrapping_mul(31).wrapping_add(u64::from(*byte));
    }
    sum
}

fn checksum(count: u32) -> u64 {
    let mut decoder = Decoder::default();
    let mut out = Vec::new();
    let mut sum = 0;
    for serial in 1..=count {
        let Some(messages) = decoder.feed(CALL) else {
            return 0;
        };
        out.clear();
        for message in &messages {
            let is_tcp = message.body.get(2).is_some_and(|word| word == "tcp");
            if message.kind != 1 || message.fields.member.as_deref() != Some("queryPort") {
                return 0;
            }
            push_return(&mut out, serial, message.serial, is_tcp);
        }
        sum = mixed(sum, &out);
    }
    sum
}

fn main() {
    let count = std::env::args().nth(1).and_then(|word| word.parse().ok());
    println!("{}", checksum(count.expect("how many calls are answered?")));
}
