//! The yardstick of bench_addr: the same texts by the standard library of Rust.
use std::net::{Ipv4Addr, Ipv6Addr};

struct Generator {
    state: u64,
}

impl Generator {
    fn draw(&mut self) -> u32 {
        self.state = self
            .state
            .wrapping_mul(6364136223846793005)
            .wrapping_add(1442695040888963407);
        (self.state >> 32) as u32
    }

    fn v4(&mut self) -> Ipv4Addr {
        Ipv4Addr::from(self.draw())
    }

    fn v6(&mut self) -> Ipv6Addr {
        let first = u128::from(self.draw()) << 96;
        let second = u128::from(self.draw()) << 64;
        let third = u128::from(self.draw()) << 32;
        let last = u128::from(self.draw());
        if last % 2 == 0 {
            Ipv6Addr::from(first | last)
        } else {
            Ipv6Addr::from(first | second | third | last)
        }
    }
}

fn mixed(mut sum: u64, text: &str) -> u64 {
    for byte in text.bytes() {
        sum = sum.wrapping_mul(31).wrapping_add(u64::from(byte));
    }
    sum
}

fn with_addr<A: std::fmt::Display + std::str::FromStr + PartialEq>(sum: u64, addr: A) -> u64 {
    let text = addr.to_string();
    match text.parse::<A>() {
        Ok(read) if read == addr => mixed(sum, &text),
        _ => 0,
    }
}

fn read_net<A: std::str::FromStr>(text: &str) -> Option<(A, u8)> {
    let (addr, prefix) = text.split_once('/')?;
    Some((addr.parse().ok()?, prefix.parse().ok()?))
}

fn with_net<A: std::fmt::Display + std::str::FromStr + PartialEq>(sum: u64, addr: A, prefix: u8) -> u64 {
    let text = format!("{addr}/{prefix}");
    match read_net::<A>(&text) {
        Some(read) if read == (addr, prefix) => mixed(sum, &text),
        _ => 0,
    }
}

/// The prefix length of a mask of ones and then zeros.
fn mask_length(text: &str) -> Option<u8> {
    let mask = u32::from(text.parse::<Ipv4Addr>().ok()?);
    let ones = mask.leading_ones();
    (mask == u32::MAX.checked_shl(32 - ones).unwrap_or(0)).then_some(ones as u8)
}

/// A decimal number without a sign or a leading zero, up to a bound.
fn number(text: &str, most: u8) -> Option<u8> {
    let digits = text.as_bytes();
    if !digits.iter().all(u8::is_ascii_digit) || (digits.len() > 1 && digits[0] == b'0') {
        return None;
    }
    text.parse().ok().filter(|number| *number <= most)
}

/// The canonical text of a net.
fn canonical(text: &str) -> Option<String> {
    let (addr, prefix) = match text.split_once('/') {
        Some((addr, prefix)) => (addr, Some(prefix)),
        None => (text, None),
    };
    if let Ok(v4) = addr.parse::<Ipv4Addr>() {
        let prefix = match prefix {
            Some(prefix) => number(prefix, 32).or_else(|| mask_length(prefix))?,
            None => 32,
        };
        let first = u32::from(v4) & u32::MAX.checked_shl(32 - u32::from(prefix)).unwrap_or(0);
        let first = Ipv4Addr::from(first);
        return Some(if prefix == 32 { first.to_string() } else { format!("{first}/{prefix}") });
    }
    let v6 = addr.parse::<Ipv6Addr>().ok()?;
    let prefix = match prefix {
        Some(prefix) => number(prefix, 128)?,
        None => 128,
    };
    let first = u128::from(v6) & u128::MAX.checked_shl(128 - u32::from(prefix)).unwrap_or(0);
    let first = plain(Ipv6Addr::from(first));
    Some(if prefix == 128 { first } else { format!("{first}/{prefix}") })
}

/// The text without an IPv4 part, which std writes where an address is mapped.
fn plain(addr: Ipv6Addr) -> String {
    match addr.to_ipv4_mapped() {
        Some(v4) => {
            let [a, b, c, d] = v4.octets();
            let (high, low) = (u16::from_be_bytes([a, b]), u16::from_be_bytes([c, d]));
            format!("::ffff:{high:x}:{low:x}")
        }
        None => addr.to_string(),
    }
}

const TEXTS: [&str; 16] = [
    "256.1.1.1",
    "1.2.3",
    "01.2.3.4",
    "10.0.0.0/33",
    "::/129",
    "1:2:3:4:5:6:7:8:9",
    "1::2::3",
    "fe80::1%eth0",
    "12345::",
    "10.1.2.3/8",
    "10.0.0.0/255.255.255.0",
    "10.0.0.0/255.0.255.0",
    "2001:0DB8:0000:0000:0000:0000:0000:0001",
    "::ffff:1.2.3.4/120",
    "2001:db8:aaaa:bbbb:cccc:dddd:eeee:1/127",
    "1.2.3.4/31",
];

fn with_texts(mut sum: u64) -> u64 {
    for text in TEXTS {
        match canonical(text) {
            Some(canonical) => sum = mixed(sum, &canonical),
            None => sum = sum.wrapping_add(1),
        }
    }
    sum
}

fn checksum(count: u64) -> u64 {
    let mut generator = Generator { state: 1 };
    let mut sum = 0;
    for _ in 0..count {
        sum = with_addr(sum, generator.v4());
        sum = with_addr(sum, generator.v6());
        let prefix = 8 + (generator.draw() % 24) as u8;
        let v4 = u32::from(generator.v4()) & (u32::MAX << (32 - u32::from(prefix)));
        sum = with_net(sum, Ipv4Addr::from(v4), prefix);
        let v6 = u128::from(generator.v6()) & (u128::MAX << (128 - u32::from(prefix)));
        sum = with_net(sum, Ipv6Addr::from(v6), prefix);
        let long = 64 + (generator.draw() % 65) as u8;
        let v6 = u128::from(generator.v6()) & u128::MAX.checked_shl(128 - u32::from(long)).unwrap_or(0);
        sum = if long == 128 { with_addr(sum, Ipv6Addr::from(v6)) } else { with_net(sum, Ipv6Addr::from(v6), long) };
        sum = with_texts(sum);
    }
    sum
}

fn main() {
    let count = std::env::args().nth(1).and_then(|word| word.parse().ok());
    println!("{}", checksum(count.expect("how many addresses and nets of each family?")));
}
