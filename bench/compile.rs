// Builds the chains of the settings that bench_compile makes, as plain records, again and again, and prints how many chains and rules
// there are. The arguments say how often, `compile`, how many settings, and which: `ports`, so many ports and rich rules and a tenth as
// many policies, or `forwards`, so many forward ports over five zones that masquerade.
use std::net::Ipv4Addr;

#[derive(Clone, Copy)]
enum Proto {
    Tcp,
    Udp,
    Sctp,
}

#[allow(dead_code)]
enum Test {
    State(u8),
    Dnat,
    In(String),
    Out(String),
    Family(u8),
    Source(Ipv4Addr, u8),
    Destination(std::net::IpAddr, u8),
    Protocol(u8),
    Port(Proto, u16, u16),
}

struct Match {
    #[allow(dead_code)]
    not: bool,
    #[allow(dead_code)]
    test: Test,
}

#[allow(dead_code)]
enum Stmt {
    Accept,
    Drop,
    Reject(u8),
    Jump(String),
    Goto(String),
    Dnat(Ipv4Addr, u16),
    Masquerade,
}

struct Rule {
    #[allow(dead_code)]
    matches: Vec<Match>,
    #[allow(dead_code)]
    stmts: Vec<Stmt>,
}

struct Chain {
    name: String,
    #[allow(dead_code)]
    base: Option<(u8, i32)>,
    rules: Vec<Rule>,
}

struct RichRule {
    address: Ipv4Addr,
    prefix: u8,
    port: u16,
    accepts: bool,
}

struct Policy {
    name: String,
    priority: i32,
    port: u16,
}

struct Settings {
    ports: Vec<u16>,
    rich: Vec<RichRule>,
    policies: Vec<Policy>,
}

fn settings(count: u64) -> Settings {
    let mut settings = Settings { ports: Vec::new(), rich: Vec::new(), policies: Vec::new() };
    for number in 0..count {
        let port = (number % 60_000 + 1_000) as u16;
        settings.ports.push(port);
        let address = Ipv4Addr::new(10, (number / 256 % 256) as u8, (number % 256) as u8, 0);
        settings.rich.push(RichRule { address, prefix: 24, port, accepts: number % 2 == 0 });
        if number % 10 == 0 {
            settings.policies.push(Policy { name: format!("p{number}"), priority: (number % 30_000 + 1) as i32, port });
        }
    }
    settings
}

fn plain(test: Test) -> Match {
    Match { not: false, test }
}

fn rule(matches: Vec<Match>, stmt: Stmt) -> Rule {
    Rule { matches, stmts: vec![stmt] }
}

fn early() -> Vec<Rule> {
    vec![
        rule(vec![plain(Test::State(1))], Stmt::Accept),
        rule(vec![plain(Test::State(2))], Stmt::Accept),
        rule(vec![plain(Test::Dnat)], Stmt::Accept),
        rule(vec![plain(Test::In("lo".to_string()))], Stmt::Accept),
        rule(vec![plain(Test::State(3))], Stmt::Drop),
    ]
}

fn rich_matches(rich: &RichRule) -> Vec<Match> {
    vec![
        plain(Test::Family(4)),
        plain(Test::Source(rich.address, rich.prefix)),
        plain(Test::Port(Proto::Tcp, rich.port, rich.port)),
    ]
}

fn zone_block(settings: &Settings, chains: &mut Vec<Chain>) {
    let deny = settings.rich.iter().filter(|rich| !rich.accepts).map(|rich| rule(rich_matches(rich), Stmt::Drop)).collect();
    let mut allow: Vec<Rule> =
        settings.rich.iter().filter(|rich| rich.accepts).map(|rich| rule(rich_matches(rich), Stmt::Accept)).collect();
    allow.push(rule(vec![plain(Test::Port(Proto::Tcp, 22, 22))], Stmt::Accept));
    allow.push(rule(
        vec![plain(Test::Port(Proto::Udp, 546, 546)), plain(Test::Destination("fe80::".parse().unwrap(), 64))],
        Stmt::Accept,
    ));
    allow.extend(settings.ports.iter().map(|port| rule(vec![plain(Test::Port(Proto::Udp, *port, *port))], Stmt::Accept)));
    chains.push(Chain { name: "filter_deny_IN_public".to_string(), base: None, rules: deny });
    chains.push(Chain { name: "filter_allow_IN_public".to_string(), base: None, rules: allow });
    let jumps = ["filter_deny_IN_public", "filter_allow_IN_public"];
    let rules = jumps.iter().map(|name| rule(Vec::new(), Stmt::Jump(name.to_string()))).collect();
    chains.push(Chain { name: "filter_IN_public".to_string(), base: None, rules });
}

fn policy_block(policy: &Policy, chains: &mut Vec<Chain>) {
    let allow = format!("filter_allow_POLICY_{}", policy.name);
    let rules = vec![rule(Vec::new(), Stmt::Jump(allow.clone()))];
    chains.push(Chain { name: format!("filter_POLICY_{}", policy.name), base: None, rules });
    let rules = vec![rule(vec![plain(Test::Port(Proto::Sctp, policy.port, policy.port))], Stmt::Accept)];
    chains.push(Chain { name: allow, base: None, rules });
}

fn always(stmt: Stmt) -> Rule {
    rule(Vec::new(), stmt)
}

fn compile(settings: &Settings) -> Vec<Chain> {
    let mut chains = Vec::new();
    let mut input = early();
    input.push(always(Stmt::Goto("filter_INPUT_public".to_string())));
    chains.push(Chain { name: "filter_INPUT".to_string(), base: Some((1, 10)), rules: input });
    let mut policies: Vec<&Policy> = settings.policies.iter().collect();
    policies.sort_by(|one, other| one.priority.cmp(&other.priority).then_with(|| one.name.cmp(&other.name)));
    let mut to_host = vec![always(Stmt::Jump("filter_IN_public".to_string()))];
    to_host.extend(policies.iter().map(|policy| always(Stmt::Jump(format!("filter_POLICY_{}", policy.name)))));
    to_host.push(rule(vec![plain(Test::Protocol(1))], Stmt::Accept));
    to_host.push(rule(vec![plain(Test::Protocol(58))], Stmt::Accept));
    to_host.push(always(Stmt::Reject(0)));
    chains.push(Chain { name: "filter_INPUT_public".to_string(), base: None, rules: to_host });
    let mut forward = early();
    forward.push(always(Stmt::Goto("filter_FORWARD_public".to_string())));
    chains.push(Chain { name: "filter_FORWARD".to_string(), base: Some((2, 10)), rules: forward });
    let rules = vec![always(Stmt::Goto("filter_FORWARD_public/public".to_string()))];
    chains.push(Chain { name: "filter_FORWARD_public".to_string(), base: None, rules });
    let rules = vec![always(Stmt::Accept), always(Stmt::Reject(0))];
    chains.push(Chain { name: "filter_FORWARD_public/public".to_string(), base: None, rules });
    let output = vec![
        rule(vec![plain(Test::State(1))], Stmt::Accept),
        rule(vec![plain(Test::State(2))], Stmt::Accept),
        rule(vec![plain(Test::Out("lo".to_string()))], Stmt::Accept),
        always(Stmt::Goto("filter_OUTPUT_public".to_string())),
    ];
    chains.push(Chain { name: "filter_OUTPUT".to_string(), base: Some((3, 10)), rules: output });
    chains.push(Chain { name: "filter_OUTPUT_public".to_string(), base: None, rules: vec![always(Stmt::Accept)] });
    zone_block(settings, &mut chains);
    for policy in &settings.policies {
        policy_block(policy, &mut chains);
    }
    chains.sort_by(|one, other| one.name.cmp(&other.name));
    chains
}

struct Forward {
    port: u16,
    address: Ipv4Addr,
    to_port: u16,
}

struct Zone {
    name: String,
    interface: Option<String>,
    services: Vec<(Proto, u16, Option<std::net::IpAddr>)>,
    masquerade: bool,
    forwards: Vec<Forward>,
}

fn services(name: &str) -> Vec<(Proto, u16, Option<std::net::IpAddr>)> {
    let ssh = (Proto::Tcp, 22, None);
    let dhcp = (Proto::Udp, 546, Some("fe80::".parse().unwrap()));
    match name {
        "external" | "dmz" => vec![ssh],
        "home" | "internal" => vec![
            ssh,
            (Proto::Udp, 5353, Some("224.0.0.251".parse().unwrap())),
            (Proto::Udp, 5353, Some("ff02::fb".parse().unwrap())),
            (Proto::Udp, 137, None),
            (Proto::Udp, 138, None),
            dhcp,
        ],
        _ => vec![ssh, dhcp],
    }
}

fn zones(count: u64) -> Vec<Zone> {
    let names = ["external", "home", "internal", "work", "dmz"];
    let mut zones = Vec::new();
    for (place, name) in names.iter().enumerate() {
        let numbers = (0..count).filter(|number| *number % 5 == place as u64);
        let forwards = numbers.map(|number| Forward {
            port: (number % 60_000 + 1_000) as u16,
            address: Ipv4Addr::new(10, 0, (number / 256 % 256) as u8, (number % 256) as u8),
            to_port: 8080,
        });
        zones.push(Zone {
            name: name.to_string(),
            interface: Some(format!("eth{place}")),
            services: services(name),
            masquerade: true,
            forwards: forwards.collect(),
        });
    }
    zones.push(Zone {
        name: "public".to_string(),
        interface: None,
        services: services("public"),
        masquerade: false,
        forwards: Vec::new(),
    });
    zones
}

// The rules that lead to the chains of zones, the default zone last.
fn leads(zones: &[Zone], start: &str, test: fn(String) -> Test, rules: &mut Vec<Rule>) {
    let mut bound: Vec<&Zone> = zones.iter().filter(|zone| zone.interface.is_some()).collect();
    bound.sort_by(|one, other| one.name.cmp(&other.name));
    for zone in bound {
        let interface = zone.interface.as_ref().unwrap().clone();
        rules.push(rule(vec![plain(test(interface))], Stmt::Goto(format!("{start}{}", zone.name))));
    }
    rules.push(always(Stmt::Goto(format!("{start}public"))));
}

fn chain(name: String, base: Option<(u8, i32)>, rules: Vec<Rule>) -> Chain {
    Chain { name, base, rules }
}

fn filter_chains(zones: &[Zone], chains: &mut Vec<Chain>) {
    let mut input = early();
    leads(zones, "filter_INPUT_", Test::In, &mut input);
    chains.push(chain("filter_INPUT".to_string(), Some((1, 10)), input));
    let mut forward = early();
    leads(zones, "filter_FORWARD_", Test::In, &mut forward);
    chains.push(chain("filter_FORWARD".to_string(), Some((2, 10)), forward));
    let mut output = vec![
        rule(vec![plain(Test::State(1))], Stmt::Accept),
        rule(vec![plain(Test::State(2))], Stmt::Accept),
        rule(vec![plain(Test::Out("lo".to_string()))], Stmt::Accept),
    ];
    leads(zones, "filter_OUTPUT_", Test::Out, &mut output);
    chains.push(chain("filter_OUTPUT".to_string(), Some((3, 10)), output));
    for zone in zones {
        let name = &zone.name;
        let to_host = vec![
            always(Stmt::Jump(format!("filter_IN_{name}"))),
            rule(vec![plain(Test::Protocol(1))], Stmt::Accept),
            rule(vec![plain(Test::Protocol(58))], Stmt::Accept),
            always(Stmt::Reject(0)),
        ];
        chains.push(chain(format!("filter_INPUT_{name}"), None, to_host));
        let mut onwards = Vec::new();
        leads(zones, &format!("filter_FORWARD_{name}/"), Test::Out, &mut onwards);
        chains.push(chain(format!("filter_FORWARD_{name}"), None, onwards));
        for to in zones {
            let mut rules = Vec::new();
            if to.name == *name {
                rules.push(always(Stmt::Accept));
            }
            rules.push(always(Stmt::Accept));
            rules.push(always(Stmt::Reject(0)));
            chains.push(chain(format!("filter_FORWARD_{name}/{}", to.name), None, rules));
        }
        chains.push(chain(format!("filter_OUTPUT_{name}"), None, vec![always(Stmt::Accept)]));
        let allow = format!("filter_allow_IN_{name}");
        chains.push(chain(format!("filter_IN_{name}"), None, vec![always(Stmt::Jump(allow.clone()))]));
        let allowed = zone.services.iter().map(|(proto, port, destination)| {
            let mut matches = vec![plain(Test::Port(*proto, *port, *port))];
            if let Some(address) = destination {
                matches.push(plain(Test::Destination(*address, 64)));
            }
            rule(matches, Stmt::Accept)
        });
        chains.push(chain(allow, None, allowed.collect()));
    }
}

fn nat_chains(zones: &[Zone], chains: &mut Vec<Chain>) {
    let mut before = Vec::new();
    leads(zones, "nat_PRE_", Test::In, &mut before);
    chains.push(chain("nat_PREROUTING".to_string(), Some((0, -90)), before));
    let mut behind = vec![rule(vec![plain(Test::Out("lo".to_string()))], Stmt::Accept)];
    leads(zones, "nat_POST_", Test::Out, &mut behind);
    chains.push(chain("nat_POSTROUTING".to_string(), Some((4, 110)), behind));
    for zone in zones {
        let name = &zone.name;
        let (mut to_targets, mut to_masks) = (Vec::new(), Vec::new());
        if !zone.forwards.is_empty() {
            let targets = format!("nat_DNAT_ZONE_{name}");
            to_targets.push(always(Stmt::Jump(targets.clone())));
            let rules = zone.forwards.iter().map(|forward| {
                let matches = vec![plain(Test::Family(4)), plain(Test::Port(Proto::Tcp, forward.port, forward.port))];
                rule(matches, Stmt::Dnat(forward.address, forward.to_port))
            });
            chains.push(chain(targets, None, rules.collect()));
        }
        if zone.masquerade {
            let masks = format!("nat_MASQ_ZONE_{name}");
            to_masks.push(always(Stmt::Jump(masks.clone())));
            chains.push(chain(masks, None, vec![rule(vec![plain(Test::Family(4))], Stmt::Masquerade)]));
        }
        chains.push(chain(format!("nat_PRE_{name}"), None, to_targets));
        chains.push(chain(format!("nat_POST_{name}"), None, to_masks));
    }
}

fn compile_zones(zones: &[Zone]) -> Vec<Chain> {
    let mut chains = Vec::new();
    filter_chains(zones, &mut chains);
    nat_chains(zones, &mut chains);
    chains.sort_by(|one, other| one.name.cmp(&other.name));
    chains
}

fn main() {
    let words: Vec<String> = std::env::args().skip(1).collect();
    let count: u64 = words[0].parse().unwrap();
    let size: u64 = words[2].parse().unwrap();
    let build: Box<dyn Fn() -> Vec<Chain>> = if words[3] == "ports" {
        let settings = settings(size);
        Box::new(move || compile(&settings))
    } else {
        let zones = zones(size);
        Box::new(move || compile_zones(&zones))
    };
    let (mut chains, mut rules) = (0, 0);
    for _ in 0..count {
        let built = build();
        chains = built.len();
        rules = built.iter().map(|chain| chain.rules.len()).sum();
    }
    println!("{chains} chains, {rules} rules");
}
