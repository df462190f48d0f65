//! The yardstick of bench_ipset: the same set as a Vec, with a HashSet of the standard library where all items come anew.
use std::collections::HashSet;

const HELD: u32 = 10_000;

#[derive(Clone, Copy, PartialEq, Eq, Hash)]
enum Addr {
    V4(u32),
    #[allow(dead_code)]
    V6(u128),
}

#[derive(Clone, Copy, PartialEq, Eq, Hash)]
struct Net {
    addr: Addr,
    prefix: u8,
}

#[derive(Clone, Copy, PartialEq, Eq, Hash)]
enum Item {
    Net(Net),
    #[allow(dead_code)]
    Mac(u64),
}

fn item(number: u32) -> Item {
    Item::Net(Net { addr: Addr::V4(number.wrapping_mul(2654435761)), prefix: 32 })
}

fn items() -> Vec<Item> {
    let mut items = Vec::new();
    for number in 0..HELD {
        items.push(item(number));
        if number >= HELD / 2 {
            items.push(item(number));
        }
    }
    items
}

fn once(items: Vec<Item>) -> Vec<Item> {
    let mut seen = HashSet::new();
    items.into_iter().filter(|item| seen.insert(*item)).collect()
}

fn main() {
    let mut words = std::env::args().skip(1);
    let count: u32 = words.next().unwrap().parse().unwrap();
    let work = words.next().unwrap();
    let mut set = once(items());
    let mut done = 0;
    for turn in 0..count {
        let was_done = match work.as_str() {
            "add" => {
                let new = item(HELD.wrapping_add(turn));
                let absent = !set.contains(&new);
                if absent {
                    set.push(new);
                }
                absent
            }
            "query" => set.contains(&item(turn % (2 * HELD))),
            _ => {
                set = once(items());
                true
            }
        };
        done += u64::from(was_done);
    }
    println!("{}", done + set.len() as u64);
}
