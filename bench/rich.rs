//! The yardstick of bench_rich: a reader and a printer of the same rules, written by hand with the standard library.
use std::fmt::Write;
use std::net::{IpAddr, Ipv4Addr, Ipv6Addr};

#[derive(Clone, Copy, PartialEq)]
enum Family {
    V4,
    V6,
}

enum Binding {
    Net(IpAddr, u8),
    Mac([u8; 6]),
    Set(String),
}

struct Side {
    not: bool,
    what: Binding,
}

struct Port {
    first: u16,
    last: u16,
    proto: &'static str,
}

enum Element {
    Service(String),
    Port(Port),
    Protocol(u8),
    IcmpBlock(String),
    IcmpType(String),
    Masquerade,
    SourcePort(Port),
    Forward(Port, Option<u16>, Option<IpAddr>),
}

struct Limit {
    count: u16,
    unit: char,
}

struct Log {
    prefix: String,
    level: &'static str,
    limit: Option<Limit>,
}

enum Act {
    Accept,
    Reject(Option<&'static str>),
    Drop,
    Mark(u32, u32),
}

struct Rule {
    priority: i32,
    family: Option<Family>,
    source: Option<Side>,
    dest: Option<Side>,
    element: Option<Element>,
    log: Option<Log>,
    audit: Option<Option<Limit>>,
    action: Option<(Act, Option<Limit>)>,
}

enum Refusal {
    Rule(usize),
    Part(&'static str, usize),
    MissingFamily,
}

#[derive(Clone, Copy)]
struct Value<'a> {
    place: usize,
    text: &'a str,
}

#[derive(Clone, Copy)]
struct Token<'a> {
    offset: usize,
    key: &'a str,
    value: Option<Value<'a>>,
}

fn is_gap(byte: u8) -> bool {
    byte == b' ' || byte == b'\t'
}

fn is_plain(byte: u8) -> bool {
    byte >= 32 && byte != 127 && byte != b'"'
}

struct Parser<'a> {
    text: &'a str,
    at: usize,
    next: Option<Token<'a>>,
    bad: Option<(&'static str, usize)>,
}

type Step<T> = Result<T, Refusal>;

impl<'a> Parser<'a> {
    fn new(text: &'a str) -> Parser<'a> {
        let mut parser = Parser {
            text,
            at: 0,
            next: None,
            bad: None,
        };
        parser.advance();
        parser
    }

    fn advance(&mut self) {
        let bytes = self.text.as_bytes();
        while self.at < bytes.len() && is_gap(bytes[self.at]) {
            self.at += 1;
        }
        if self.at == bytes.len() {
            self.next = None;
            return;
        }
        let offset = self.at;
        self.next = Some(match self.token() {
            Some(token) => token,
            None => Token {
                offset,
                key: "",
                value: None,
            },
        });
    }

    fn token(&mut self) -> Option<Token<'a>> {
        let bytes = self.text.as_bytes();
        let offset = self.at;
        let mut end = offset;
        while end < bytes.len() && !is_gap(bytes[end]) && !matches!(bytes[end], b'"' | b'\'' | b'=') {
            end += 1;
        }
        let key = &self.text[offset..end];
        self.at = end;
        if end == bytes.len() || is_gap(bytes[end]) {
            return Some(Token {
                offset,
                key,
                value: None,
            });
        }
        if bytes[end] != b'=' {
            return None;
        }
        let place = end + 1;
        let quote = *bytes.get(place)?;
        let text = if quote == b'"' || quote == b'\'' {
            let first = place + 1;
            let last = first + bytes[first..].iter().position(|byte| *byte == quote)?;
            self.at = last + 1;
            if self.at < bytes.len() && !is_gap(bytes[self.at]) {
                return None;
            }
            &self.text[first..last]
        } else {
            let mut last = place;
            while last < bytes.len() && !is_gap(bytes[last]) {
                last += 1;
            }
            self.at = last;
            let text = &self.text[place..last];
            if text.is_empty() || text.bytes().any(|byte| byte == b'\'') {
                return None;
            }
            text
        };
        if !text.bytes().all(is_plain) {
            return None;
        }
        Some(Token {
            offset,
            key,
            value: Some(Value { place, text }),
        })
    }

    fn stop(&self) -> Refusal {
        Refusal::Rule(self.next.map_or(self.text.len(), |token| token.offset))
    }

    fn word(&mut self, word: &str) -> bool {
        match self.next {
            Some(token) if token.key == word && token.value.is_none() => {
                self.advance();
                true
            }
            _ => false,
        }
    }

    fn pair(&mut self, key: &str) -> Option<Value<'a>> {
        match self.next {
            Some(Token {
                key: found,
                value: Some(value),
                ..
            }) if found == key => {
                self.advance();
                Some(value)
            }
            _ => None,
        }
    }

    fn value(&mut self, key: &str) -> Step<Value<'a>> {
        self.pair(key).ok_or_else(|| self.stop())
    }

    /// What a value says; of the bad ones the first in the text is kept.
    fn read<T>(&mut self, value: Value<'a>, code: &'static str, read: impl FnOnce(&'a str) -> Option<T>) -> Option<T> {
        let found = read(value.text);
        if found.is_none() && self.bad.map_or(true, |(_, place)| value.place < place) {
            self.bad = Some((code, value.place));
        }
        found
    }

    fn family(&mut self) -> Step<Option<Family>> {
        let stop = self.stop();
        match self.pair("family") {
            None => Ok(None),
            Some(value) => match value.text {
                "ipv4" => Ok(Some(Family::V4)),
                "ipv6" => Ok(Some(Family::V6)),
                _ => Err(stop),
            },
        }
    }

    fn side(&mut self, word: &str, with_mac: bool) -> Step<Option<(Option<Side>, usize, bool)>> {
        if !self.word(word) {
            return Ok(None);
        }
        let not = self.word("not") || self.word("NOT");
        let (what, place, is_address) = if let Some(value) = self.pair("address") {
            let net = self.read(value, "INVALID_ADDR", read_net);
            (net.map(|(addr, prefix)| Binding::Net(addr, prefix)), value.place, true)
        } else if let Some(value) = if with_mac { self.pair("mac") } else { None } {
            let mac = self.read(value, "INVALID_ADDR", read_mac);
            (mac.map(Binding::Mac), value.place, false)
        } else {
            let value = self.value("ipset")?;
            let name = self.read(value, "INVALID_IPSET", read_name);
            (name.map(Binding::Set), value.place, false)
        };
        Ok(Some((what.map(|what| Side { not, what }), place, is_address)))
    }

    fn port(&mut self) -> Step<Option<Port>> {
        let mut port = self.pair("port");
        let protocol = self.pair("protocol");
        if port.is_none() {
            port = self.pair("port");
        }
        match (port, protocol) {
            (Some(port), Some(protocol)) => {
                let range = self.read(port, "INVALID_PORT", read_ports);
                let proto = self.read(protocol, "INVALID_PROTOCOL", read_port_proto);
                Ok(range.zip(proto).map(|((first, last), proto)| Port { first, last, proto }))
            }
            _ => Err(self.stop()),
        }
    }

    fn limit(&mut self) -> Step<Option<Limit>> {
        if !self.word("limit") {
            return Ok(None);
        }
        let value = self.value("value")?;
        Ok(self.read(value, "INVALID_VALUE", read_limit))
    }
}

fn read_number(text: &str, most: u64) -> Option<u64> {
    let bytes = text.as_bytes();
    if bytes.is_empty() || bytes.len() > 19 || (bytes[0] == b'0' && bytes.len() > 1) {
        return None;
    }
    let mut number = 0;
    for byte in bytes {
        if !byte.is_ascii_digit() {
            return None;
        }
        number = number * 10 + u64::from(byte - b'0');
    }
    if number <= most { Some(number) } else { None }
}

fn read_priority(text: &str) -> Option<i32> {
    match text.strip_prefix('-') {
        Some(digits) => match read_number(digits, 32768)? {
            0 => None,
            number => Some(-(number as i32)),
        },
        None => Some(read_number(text, 32767)? as i32),
    }
}

fn read_net(text: &str) -> Option<(IpAddr, u8)> {
    let Some((addr, prefix)) = text.split_once('/') else {
        let addr: IpAddr = text.parse().ok()?;
        return Some((addr, if addr.is_ipv4() { 32 } else { 128 }));
    };
    match addr.parse().ok()? {
        IpAddr::V4(addr) => {
            let prefix = match read_number(prefix, 32) {
                Some(prefix) => prefix as u8,
                None => {
                    let mask = u32::from(prefix.parse::<Ipv4Addr>().ok()?);
                    if mask.leading_ones() + mask.trailing_zeros() < 32 {
                        return None;
                    }
                    mask.leading_ones() as u8
                }
            };
            let mask = u32::MAX.checked_shl(32 - u32::from(prefix)).unwrap_or(0);
            Some((IpAddr::V4(Ipv4Addr::from(u32::from(addr) & mask)), prefix))
        }
        IpAddr::V6(addr) => {
            let prefix = read_number(prefix, 128)? as u8;
            let mask = u128::MAX.checked_shl(128 - u32::from(prefix)).unwrap_or(0);
            Some((IpAddr::V6(Ipv6Addr::from(u128::from(addr) & mask)), prefix))
        }
    }
}

fn read_mac(text: &str) -> Option<[u8; 6]> {
    let mut octets = [0; 6];
    let mut pieces = text.split(':');
    for octet in &mut octets {
        let piece = pieces.next()?;
        if piece.len() != 2 || !piece.bytes().all(|byte| byte.is_ascii_hexdigit()) {
            return None;
        }
        *octet = u8::from_str_radix(piece, 16).ok()?;
    }
    if pieces.next().is_none() { Some(octets) } else { None }
}

fn read_name(text: &str) -> Option<String> {
    let is_name = (1..=64).contains(&text.len())
        && text.bytes().all(|byte| byte.is_ascii_alphanumeric() || matches!(byte, b'-' | b'.' | b'_'));
    if is_name { Some(text.to_string()) } else { None }
}

fn read_port(text: &str) -> Option<u16> {
    Some(read_number(text, 65535)? as u16)
}

fn read_ports(text: &str) -> Option<(u16, u16)> {
    match text.split_once('-') {
        None => {
            let port = read_port(text)?;
            Some((port, port))
        }
        Some((first, last)) => {
            let (first, last) = (read_port(first)?, read_port(last)?);
            if first <= last { Some((first, last)) } else { None }
        }
    }
}

fn read_port_proto(text: &str) -> Option<&'static str> {
    ["tcp", "udp", "sctp", "dccp"].iter().copied().find(|name| *name == text)
}

const PROTOCOLS: [(&str, u8); 10] = [
    ("icmp", 1),
    ("igmp", 2),
    ("tcp", 6),
    ("udp", 17),
    ("dccp", 33),
    ("gre", 47),
    ("esp", 50),
    ("ah", 51),
    ("ipv6-icmp", 58),
    ("sctp", 132),
];

fn read_protocol(text: &str) -> Option<u8> {
    match PROTOCOLS.iter().find(|(name, _)| *name == text) {
        Some((_, number)) => Some(*number),
        None => Some(read_number(text, 255)? as u8),
    }
}

/// The names of ICMP types, and whether ICMP and ICMPv6 have them.
const ICMP_TYPES: [(&str, bool, bool); 11] = [
    ("destination-unreachable", true, true),
    ("echo-reply", true, true),
    ("echo-request", true, true),
    ("neighbour-advertisement", false, true),
    ("neighbour-solicitation", false, true),
    ("packet-too-big", false, true),
    ("parameter-problem", true, true),
    ("redirect", true, true),
    ("router-advertisement", true, true),
    ("router-solicitation", true, true),
    ("time-exceeded", true, true),
];

fn icmp_type(name: &str) -> Option<(bool, bool)> {
    let (_, v4, v6) = ICMP_TYPES.iter().find(|(known, _, _)| *known == name)?;
    Some((*v4, *v6))
}

fn read_icmp(text: &str) -> Option<String> {
    icmp_type(text).map(|_| text.to_string())
}

fn read_level(text: &str) -> Option<&'static str> {
    ["emerg", "alert", "crit", "error", "warning", "notice", "info", "debug"]
        .iter()
        .copied()
        .find(|name| *name == text)
}

fn read_limit(text: &str) -> Option<Limit> {
    let (count, unit) = text.split_once('/')?;
    let count = read_number(count, 10_000)? as u16;
    let unit = match unit {
        "s" | "second" => 's',
        "m" | "minute" => 'm',
        "h" | "hour" => 'h',
        "d" | "day" => 'd',
        _ => return None,
    };
    if count == 0 { None } else { Some(Limit { count, unit }) }
}

/// The types of rejects, and whether IPv4 and IPv6 have them.
const REJECTS: [(&str, bool, bool); 12] = [
    ("icmp-net-unreachable", true, false),
    ("icmp-host-unreachable", true, false),
    ("icmp-port-unreachable", true, false),
    ("icmp-proto-unreachable", true, false),
    ("icmp-net-prohibited", true, false),
    ("icmp-host-prohibited", true, false),
    ("icmp-admin-prohibited", true, false),
    ("icmp6-no-route", false, true),
    ("icmp6-addr-unreachable", false, true),
    ("icmp6-port-unreachable", false, true),
    ("icmp6-adm-prohibited", false, true),
    ("tcp-reset", true, true),
];

fn read_bits(text: &str) -> Option<u32> {
    match text.strip_prefix("0x") {
        Some(digits) => {
            let fits = (1..=8).contains(&digits.len()) && digits.bytes().all(|byte| byte.is_ascii_hexdigit());
            if fits { u32::from_str_radix(digits, 16).ok() } else { None }
        }
        None => Some(read_number(text, u64::from(u32::MAX))? as u32),
    }
}

fn read_mark(text: &str) -> Option<(u32, u32)> {
    match text.split_once('/') {
        Some((value, mask)) => Some((read_bits(value)?, read_bits(mask)?)),
        None => Some((read_bits(text)?, u32::MAX)),
    }
}

fn is_of(family: Family, addr: &IpAddr) -> bool {
    addr.is_ipv4() == (family == Family::V4)
}

fn read_element(parser: &mut Parser, checks: &mut Checks) -> Step<Option<Element>> {
    let offset = parser.next.map_or(0, |token| token.offset);
    Ok(if parser.word("service") {
        let value = parser.value("name")?;
        parser.read(value, "INVALID_SERVICE", read_name).map(Element::Service)
    } else if parser.word("port") {
        parser.port()?.map(Element::Port)
    } else if parser.word("protocol") {
        let value = parser.value("value")?;
        parser.read(value, "INVALID_PROTOCOL", read_protocol).map(Element::Protocol)
    } else if parser.word("icmp-block") {
        let value = parser.value("name")?;
        checks.icmp = Some(value.place);
        parser.read(value, "INVALID_ICMPTYPE", read_icmp).map(Element::IcmpBlock)
    } else if parser.word("icmp-type") {
        let value = parser.value("name")?;
        checks.icmp = Some(value.place);
        parser.read(value, "INVALID_ICMPTYPE", read_icmp).map(Element::IcmpType)
    } else if parser.word("masquerade") {
        Some(Element::Masquerade)
    } else if parser.word("source-port") {
        parser.port()?.map(Element::SourcePort)
    } else if parser.word("forward-port") {
        checks.forward = Some(offset);
        read_forward(parser, checks)?
    } else {
        None
    })
}

fn read_forward(parser: &mut Parser, checks: &mut Checks) -> Step<Option<Element>> {
    let (mut port, mut protocol, mut to_port, mut to_addr) = (None, None, None, None);
    for _ in 0..4 {
        for (key, found) in [
            ("port", &mut port),
            ("protocol", &mut protocol),
            ("to-port", &mut to_port),
            ("to-addr", &mut to_addr),
        ] {
            if found.is_none() {
                *found = parser.pair(key);
            }
        }
    }
    let (Some(port), Some(protocol)) = (port, protocol) else {
        return Err(parser.stop());
    };
    let range = parser.read(port, "INVALID_PORT", read_ports);
    let proto = parser.read(protocol, "INVALID_PROTOCOL", read_port_proto);
    let to_port = to_port.and_then(|value| parser.read(value, "INVALID_FORWARD", read_port));
    checks.to_addr = to_addr.map(|value| value.place);
    let to_addr = to_addr.and_then(|value| parser.read(value, "INVALID_ADDR", |text| text.parse().ok()));
    Ok(range
        .zip(proto)
        .map(|((first, last), proto)| Element::Forward(Port { first, last, proto }, to_port, to_addr)))
}

fn read_log(parser: &mut Parser) -> Step<Option<Log>> {
    if !parser.word("log") {
        return Ok(None);
    }
    let mut prefix = parser.pair("prefix");
    let level = parser.pair("level");
    if prefix.is_none() {
        prefix = parser.pair("prefix");
    }
    let prefix = match prefix {
        Some(value) => parser.read(value, "INVALID_VALUE", |text| {
            if text.len() <= 127 { Some(text.to_string()) } else { None }
        }),
        None => Some(String::new()),
    };
    let level = match level {
        Some(value) => parser.read(value, "INVALID_VALUE", read_level),
        None => Some("warning"),
    };
    let limit = parser.limit()?;
    Ok(Some(Log {
        prefix: prefix.unwrap_or_default(),
        level: level.unwrap_or("warning"),
        limit,
    }))
}

fn read_action(parser: &mut Parser) -> Step<Option<(Act, Option<Limit>)>> {
    let act = if parser.word("accept") {
        Act::Accept
    } else if parser.word("reject") {
        Act::Reject(match parser.pair("type") {
            Some(value) => parser.read(value, "INVALID_VALUE", |text| {
                REJECTS.iter().map(|(name, _, _)| *name).find(|name| *name == text)
            }),
            None => None,
        })
    } else if parser.word("drop") {
        Act::Drop
    } else if parser.word("mark") {
        let value = parser.value("set")?;
        let (bits, mask) = parser.read(value, "INVALID_VALUE", read_mark).unwrap_or((0, 0));
        Act::Mark(bits, mask)
    } else {
        return Ok(None);
    };
    let limit = parser.limit()?;
    Ok(Some((act, limit)))
}

/// Where what the rule's family decides about stands.
#[derive(Default)]
struct Checks {
    source: Option<usize>,
    dest: Option<usize>,
    to_addr: Option<usize>,
    icmp: Option<usize>,
    forward: Option<usize>,
}

fn read_rule(text: &str) -> Step<Rule> {
    let mut parser = Parser::new(text);
    if !parser.word("rule") {
        return Err(parser.stop());
    }
    let mut checks = Checks::default();
    let mut family = parser.family()?;
    let priority = match parser.pair("priority") {
        Some(value) => parser.read(value, "INVALID_PRIORITY", read_priority).unwrap_or(0),
        None => 0,
    };
    if family.is_none() {
        family = parser.family()?;
    }
    let source = parser.side("source", true)?;
    let dest = parser.side("destination", false)?;
    let element = read_element(&mut parser, &mut checks)?;
    let log = read_log(&mut parser)?;
    let audit = if parser.word("audit") { Some(parser.limit()?) } else { None };
    let action = read_action(&mut parser)?;
    if parser.next.is_some() {
        return Err(parser.stop());
    }
    if let Some((code, place)) = parser.bad {
        return Err(Refusal::Part(code, place));
    }
    let place = |side: &Option<(Option<Side>, usize, bool)>| match side {
        Some((_, place, true)) => Some(*place),
        _ => None,
    };
    checks.source = place(&source);
    checks.dest = place(&dest);
    let rule = Rule {
        priority,
        family,
        source: source.and_then(|(side, _, _)| side),
        dest: dest.and_then(|(side, _, _)| side),
        element,
        log,
        audit,
        action,
    };
    refuse(&rule, &checks)?;
    Ok(rule)
}

fn refuse(rule: &Rule, checks: &Checks) -> Step<()> {
    let Some(family) = rule.family else {
        if checks.source.is_some() || checks.dest.is_some() || checks.forward.is_some() {
            return Err(Refusal::MissingFamily);
        }
        return combined(rule);
    };
    for (side, place) in [(&rule.source, checks.source), (&rule.dest, checks.dest)] {
        if let (Some(Side { what: Binding::Net(addr, _), .. }), Some(place)) = (side, place) {
            if !is_of(family, addr) {
                return Err(Refusal::Part("INVALID_ADDR", place));
            }
        }
    }
    if let (Some(Element::Forward(_, to_port, to_addr)), Some(offset)) = (&rule.element, checks.forward) {
        if let (Some(addr), Some(place)) = (to_addr, checks.to_addr) {
            if !is_of(family, addr) {
                return Err(Refusal::Part("INVALID_ADDR", place));
            }
        }
        if to_port.is_none() && to_addr.is_none() {
            return Err(Refusal::Part("INVALID_FORWARD", offset));
        }
    }
    if let (Some(Element::IcmpBlock(name) | Element::IcmpType(name)), Some(place)) = (&rule.element, checks.icmp) {
        let (v4, v6) = icmp_type(name).unwrap_or((true, true));
        if !(if family == Family::V4 { v4 } else { v6 }) {
            return Err(Refusal::Part("INVALID_ICMPTYPE", place));
        }
    }
    combined(rule)
}

fn combined(rule: &Rule) -> Step<()> {
    let whole = matches!(
        rule.element,
        Some(Element::IcmpBlock(_) | Element::Masquerade | Element::Forward(..))
    );
    let does = if whole {
        rule.action.is_none()
    } else {
        rule.action.is_some() || rule.log.is_some() || rule.audit.is_some()
    };
    let audits = rule.audit.is_none() || matches!(rule.action, Some((Act::Accept | Act::Reject(_) | Act::Drop, _)));
    let fits = match rule.action {
        Some((Act::Reject(Some(kind)), _)) => REJECTS.iter().any(|(name, v4, v6)| {
            *name == kind
                && match rule.family {
                    Some(Family::V4) => *v4,
                    Some(Family::V6) => *v6,
                    None => false,
                }
        }),
        _ => true,
    };
    let named = rule.element.is_some() || rule.source.is_some() || rule.dest.is_some() || rule.priority != 0;
    if does && audits && fits && named { Ok(()) } else { Err(Refusal::Rule(0)) }
}

fn print_side(out: &mut String, word: &str, side: &Option<Side>) -> std::fmt::Result {
    let Some(Side { not, what }) = side else {
        return Ok(());
    };
    write!(out, " {word}")?;
    if *not {
        out.push_str(" NOT");
    }
    match what {
        Binding::Net(addr, prefix) if *prefix == if addr.is_ipv4() { 32 } else { 128 } => write!(out, " address=\"{addr}\""),
        Binding::Net(addr, prefix) => write!(out, " address=\"{addr}/{prefix}\""),
        Binding::Mac([a, b, c, d, e, f]) => write!(out, " mac=\"{a:02x}:{b:02x}:{c:02x}:{d:02x}:{e:02x}:{f:02x}\""),
        Binding::Set(name) => write!(out, " ipset=\"{name}\""),
    }
}

fn print_port(out: &mut String, word: &str, port: &Port) -> std::fmt::Result {
    let Port { first, last, proto } = port;
    if first == last {
        write!(out, " {word} port=\"{first}\" protocol=\"{proto}\"")
    } else {
        write!(out, " {word} port=\"{first}-{last}\" protocol=\"{proto}\"")
    }
}

fn print_element(out: &mut String, element: &Element) -> std::fmt::Result {
    match element {
        Element::Service(name) => write!(out, " service name=\"{name}\""),
        Element::Port(port) => print_port(out, "port", port),
        Element::Protocol(number) => match PROTOCOLS.iter().find(|(_, known)| known == number) {
            Some((name, _)) => write!(out, " protocol value=\"{name}\""),
            None => write!(out, " protocol value=\"{number}\""),
        },
        Element::IcmpBlock(name) => write!(out, " icmp-block name=\"{name}\""),
        Element::IcmpType(name) => write!(out, " icmp-type name=\"{name}\""),
        Element::Masquerade => write!(out, " masquerade"),
        Element::SourcePort(port) => print_port(out, "source-port", port),
        Element::Forward(port, to_port, to_addr) => {
            print_port(out, "forward-port", port)?;
            if let Some(port) = to_port {
                write!(out, " to-port=\"{port}\"")?;
            }
            if let Some(addr) = to_addr {
                write!(out, " to-addr=\"{addr}\"")?;
            }
            Ok(())
        }
    }
}

fn print_limit(out: &mut String, limit: &Option<Limit>) -> std::fmt::Result {
    match limit {
        Some(Limit { count, unit }) => write!(out, " limit value=\"{count}/{unit}\""),
        None => Ok(()),
    }
}

fn print_rule(rule: &Rule) -> Result<String, std::fmt::Error> {
    let mut text = String::new();
    let out = &mut text;
    out.push_str("rule");
    if rule.priority != 0 {
        write!(out, " priority=\"{}\"", rule.priority)?;
    }
    match rule.family {
        Some(Family::V4) => out.push_str(" family=\"ipv4\""),
        Some(Family::V6) => out.push_str(" family=\"ipv6\""),
        None => {}
    }
    print_side(out, "source", &rule.source)?;
    print_side(out, "destination", &rule.dest)?;
    if let Some(element) = &rule.element {
        print_element(out, element)?;
    }
    if let Some(log) = &rule.log {
        out.push_str(" log");
        if !log.prefix.is_empty() {
            write!(out, " prefix=\"{}\"", log.prefix)?;
        }
        if log.level != "warning" {
            write!(out, " level=\"{}\"", log.level)?;
        }
        print_limit(out, &log.limit)?;
    }
    if let Some(limit) = &rule.audit {
        out.push_str(" audit");
        print_limit(out, limit)?;
    }
    if let Some((act, limit)) = &rule.action {
        match act {
            Act::Accept => out.push_str(" accept"),
            Act::Reject(None) => out.push_str(" reject"),
            Act::Reject(Some(kind)) => write!(out, " reject type=\"{kind}\"")?,
            Act::Drop => out.push_str(" drop"),
            Act::Mark(bits, u32::MAX) => write!(out, " mark set=\"0x{bits:x}\"")?,
            Act::Mark(bits, mask) => write!(out, " mark set=\"0x{bits:x}/0x{mask:x}\"")?,
        }
        print_limit(out, limit)?;
    }
    Ok(text)
}

const TEXTS: [&str; 20] = [
    "rule family=\"ipv4\" source address=\"10.0.0.0/8\" accept",
    "rule family=\"ipv4\" source NOT address=\"192.168.1.0/24\" service name=\"ssh\" drop",
    "rule family='ipv6' source address='2001:db8::/32' destination address='2001:db8:1::5' port port=443 protocol=tcp accept",
    "rule service name=\"http\" log prefix=\"web \" level=\"info\" limit value=\"3/m\" accept",
    "rule family=ipv4 priority=-5 source not address=\"10.0.0.0/8\" port port=80 protocol=tcp log level=info limit value=3/m reject type=\"tcp-reset\"",
    "rule priority=\"100\" source ipset=\"blocked\" drop",
    "rule source mac=\"00:1B:21:00:00:0A\" destination NOT ipset=\"inside\" audit limit value=\"1/h\" reject",
    "rule family=\"ipv4\" forward-port port=\"80\" protocol=\"tcp\" to-port=\"8080\" to-addr=\"10.0.0.5\"",
    "rule family=\"ipv4\" source address=\"172.16.0.0/255.240.0.0\" masquerade",
    "rule protocol value=\"gre\" log prefix=\"tunnel: \" level=\"debug\" audit accept limit value=\"100/minute\"",
    "rule icmp-block name=\"redirect\" log",
    "rule family=\"ipv6\" icmp-type name=\"echo-request\" accept limit value=\"10/s\"",
    "rule source-port port=\"1024-65535\" protocol=\"udp\" drop",
    "rule family=\"ipv4\" source address=\"192.0.2.0/24\" mark set=\"0x10/0xf0\"",
    "rule priority=\"-32768\" log prefix=all limit value=1/d",
    "rule family=\"ipv6\" destination address=\"fe80::1\" protocol value=\"ipv6-icmp\" reject type=\"icmp6-adm-prohibited\"",
    "rule   family=\"ipv4\"   destination   address=\"198.51.100.7\"   port   protocol=\"sctp\"   port=\"5000-5010\"   accept",
    "rule service name=\"samba-client\" audit drop",
    "rule family=\"ipv4\" source address=\"203.0.113.9\" destination address=\"10.1.2.3\" service name=\"dns\" log audit reject type=\"icmp-host-prohibited\" limit value=\"5/h\"",
    "rule port port=\"53\" protocol=\"udp\" mark set=\"7\" limit value=\"9999/day\"",
];

fn mixed(mut sum: u64, text: &str) -> u64 {
    for byte in text.bytes() {
        sum = sum.wrapping_mul(31).wrapping_add(u64::from(byte));
    }
    sum
}

/// Reads the lines of standard input in place of the rules, and prints what becomes of each.
fn print_lines() {
    for line in std::io::stdin().lines().map_while(Result::ok) {
        match read_rule(&line) {
            Ok(rule) => println!("{}", print_rule(&rule).unwrap_or_default()),
            Err(Refusal::Rule(offset)) => println!("INVALID_RULE {offset}"),
            Err(Refusal::Part(code, offset)) => println!("{code} {offset}"),
            Err(Refusal::MissingFamily) => println!("MISSING_FAMILY"),
        }
    }
}

fn main() {
    let word = std::env::args().nth(1).expect("how many rules?");
    if word == "lines" {
        return print_lines();
    }
    let count: usize = word.parse().expect("how many rules?");
    let mut sum: u64 = 0;
    for text in TEXTS.iter().cycle().take(count) {
        match read_rule(text) {
            Ok(rule) => sum = mixed(sum, &print_rule(&rule).unwrap_or_default()),
            Err(_) => sum = sum.wrapping_add(1),
        }
    }
    println!("{sum}");
}
