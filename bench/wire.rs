//! The yardstick of bench_wire: the same dict by a reader and a writer made by hand.

/// A value that a variant holds.
enum Value {
    Byte(u8),
    Bool(bool),
    I16(i16),
    U16(u16),
    I32(i32),
    U32(u32),
    I64(i64),
    U64(u64),
    Str(String),
}

/// The bytes and the offset of what is read next.
struct Reader<'a> {
    bytes: &'a [u8],
    at: usize,
}

impl<'a> Reader<'a> {
    fn take(&mut self, count: usize) -> Option<&'a [u8]> {
        let end = self.at.checked_add(count)?;
        let taken = self.bytes.get(self.at..end)?;
        self.at = end;
        Some(taken)
    }

    fn padding(&mut self, align: usize) -> Option<()> {
        let gap = (align - self.at % align) % align;
        self.take(gap)?.iter().all(|byte| *byte == 0).then_some(())
    }

    fn array<const SIZE: usize>(&mut self) -> Option<[u8; SIZE]> {
        self.take(SIZE)?.first_chunk().copied()
    }

    fn number<const SIZE: usize>(&mut self) -> Option<[u8; SIZE]> {
        self.padding(SIZE)?;
        self.array()
    }

    fn u32(&mut self) -> Option<u32> {
        Some(u32::from_le_bytes(self.number()?))
    }

    fn bool(&mut self) -> Option<bool> {
        match self.u32()? {
            0 => Some(false),
            1 => Some(true),
            _ => None,
        }
    }

    fn text(&mut self) -> Option<String> {
        let count = self.u32()? as usize;
        let text = std::str::from_utf8(self.take(count)?).ok()?;
        if text.as_bytes().contains(&0) || self.take(1)? != [0] {
            return None;
        }
        Some(text.to_string())
    }

    fn variant(&mut self) -> Option<Value> {
        let [count, letter, end] = self.array()?;
        if count != 1 || end != 0 {
            return None;
        }
        Some(match letter {
            b'y' => Value::Byte(self.take(1)?[0]),
            b'b' => Value::Bool(self.bool()?),
            b'n' => Value::I16(i16::from_le_bytes(self.number()?)),
            b'q' => Value::U16(u16::from_le_bytes(self.number()?)),
            b'i' => Value::I32(i32::from_le_bytes(self.number()?)),
            b'u' => Value::U32(self.u32()?),
            b'x' => Value::I64(i64::from_le_bytes(self.number()?)),
            b't' => Value::U64(u64::from_le_bytes(self.number()?)),
            b's' => Value::Str(self.text()?),
            _ => return None,
        })
    }

    fn dict(&mut self) -> Option<Vec<(String, Value)>> {
        let count = self.u32()? as usize;
        if count > 1 << 26 {
            return None;
        }
        self.padding(8)?;
        let end = self.at.checked_add(count)?;
        let mut contents = Reader {
            bytes: self.bytes.get(..end)?,
            at: self.at,
        };
        let mut entries = Vec::new();
        while contents.at < end {
            contents.padding(8)?;
            let key = contents.text()?;
            entries.push((key, contents.variant()?));
        }
        self.at = end;
        Some(entries)
    }
}

fn push_padding(out: &mut Vec<u8>, align: usize) {
    out.resize(out.len().next_multiple_of(align), 0);
}

fn push_number<const SIZE: usize>(out: &mut Vec<u8>, bytes: [u8; SIZE]) {
    push_padding(out, SIZE);
    out.extend_from_slice(&bytes);
}

fn push_text(out: &mut Vec<u8>, text: &str) {
    push_number(out, (text.len() as u32).to_le_bytes());
    out.extend_from_slice(text.as_bytes());
    out.push(0);
}

fn push_variant(out: &mut Vec<u8>, value: &Value) {
    let letter = match value {
        Value::Byte(_) => b'y',
        Value::Bool(_) => b'b',
        Value::I16(_) => b'n',
        Value::U16(_) => b'q',
        Value::I32(_) => b'i',
        Value::U32(_) => b'u',
        Value::I64(_) => b'x',
        Value::U64(_) => b't',
        Value::Str(_) => b's',
    };
    out.extend_from_slice(&[1, letter, 0]);
    match value {
        Value::Byte(byte) => out.push(*byte),
        Value::Bool(truth) => push_number(out, u32::from(*truth).to_le_bytes()),
        Value::I16(number) => push_number(out, number.to_le_bytes()),
        Value::U16(number) => push_number(out, number.to_le_bytes()),
        Value::I32(number) => push_number(out, number.to_le_bytes()),
        Value::U32(number) => push_number(out, number.to_le_bytes()),
        Value::I64(number) => push_number(out, number.to_le_bytes()),
        Value::U64(number) => push_number(out, number.to_le_bytes()),
        Value::Str(text) => push_text(out, text),
    }
}

fn push_dict(out: &mut Vec<u8>, entries: &[(String, Value)]) {
    push_padding(out, 4);
    let place = out.len();
    out.extend_from_slice(&[0; 4]);
    push_padding(out, 8);
    let start = out.len();
    for (key, value) in entries {
        push_padding(out, 8);
        push_text(out, key);
        push_variant(out, value);
    }
    let count = (out.len() - start) as u32;
    out[place..place + 4].copy_from_slice(&count.to_le_bytes());
}

fn push_entry(out: &mut Vec<u8>, digit: u8, letter: u8, value: &[u8]) {
    push_padding(out, 8);
    out.extend_from_slice(&[4, 0, 0, 0, b'k', b'e', b'y', digit, 0, 1, letter, 0]);
    out.extend_from_slice(value);
}

fn dict_bytes() -> Vec<u8> {
    let rows: [(u8, u8, &[u8]); 10] = [
        (b'0', b's', b"\x08\0\0\0external\0"),
        (b'1', b'u', &[0x44, 0x33, 0x22, 0x11]),
        (b'2', b'b', &[1, 0, 0, 0]),
        (b'3', b't', &[0, 0, 0, 0, 8, 7, 6, 5, 4, 3, 2, 1]),
        (b'4', b'y', &[200]),
        (b'5', b'q', &[0xbb, 0x01]),
        (b'6', b'i', &[0xfe, 0xff, 0xff, 0xff]),
        (b'7', b'x', &[0, 0, 0, 0, 0xfd, 255, 255, 255, 255, 255, 255, 255]),
        (b'8', b's', b"\x04\0\0\0eth0\0"),
        (b'9', b'n', &[0xff, 0xff]),
    ];
    let mut entries = Vec::new();
    for (digit, letter, value) in rows {
        push_entry(&mut entries, digit, letter, value);
    }
    let mut out = (entries.len() as u64).to_le_bytes().to_vec();
    out.extend_from_slice(&entries);
    out
}

fn mixed(mut sum: u64, bytes: &[u8]) -> u64 {
    for byte in bytes {
        sum = sum.wrapping_mul(31).wrapping_add(u64::from(*byte));
    }
    sum
}

/// Reads a dict and writes it again.
fn both(bytes: &[u8], count: u64) -> u64 {
    let mut out = Vec::new();
    let mut sum = 0;
    for _ in 0..count {
        let mut reader = Reader { bytes, at: 0 };
        let Some(entries) = reader.dict() else {
            return 0;
        };
        out.clear();
        push_dict(&mut out, &entries);
        if out != bytes {
            return 0;
        }
        sum = mixed(sum, &out);
    }
    sum
}

/// Reads a dict alone.
fn read(bytes: &[u8], count: u64) -> u64 {
    let mut sum = 0;
    for _ in 0..count {
        let mut reader = Reader { bytes, at: 0 };
        let Some(entries) = reader.dict() else {
            return 0;
        };
        std::hint::black_box(&entries);
        sum = mixed(sum, &(reader.at as u64).to_le_bytes());
    }
    sum
}

/// Writes a dict that was read once.
fn write(bytes: &[u8], count: u64) -> u64 {
    let mut reader = Reader { bytes, at: 0 };
    let Some(entries) = reader.dict() else {
        return 0;
    };
    let mut out = Vec::new();
    let mut sum = 0;
    for _ in 0..count {
        out.clear();
        push_dict(&mut out, &entries);
        sum = mixed(sum, &out);
    }
    sum
}

fn main() {
    let mut words = std::env::args().skip(1);
    let count = words.next().and_then(|word| word.parse().ok()).expect("how often?");
    let bytes = dict_bytes();
    let sum = match words.next().as_deref() {
        Some("both") => both(&bytes, count),
        Some("read") => read(&bytes, count),
        Some("write") => write(&bytes, count),
        _ => panic!("read, write or both?"),
    };
    println!("{sum}");
}
