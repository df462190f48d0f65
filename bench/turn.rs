//! The yardstick of bench_turn: the same journal under a Mutex of the standard library of Rust.
use std::sync::Mutex;
use std::thread;

struct Entry {
    session: u64,
    number: u64,
}

fn work(journal: &Mutex<Vec<Entry>>, commits: u64) {
    let mut session = 0;
    for number in 0..commits {
        let mut entries = journal.lock().unwrap();
        if number == 0 {
            session = entries.len() as u64;
        }
        entries.push(Entry { session, number });
    }
}

fn main() {
    let mut words = std::env::args().skip(1).map(|word| word.parse::<u64>().unwrap());
    let count = words.next().unwrap();
    let threads = words.next().unwrap();
    let journal = Mutex::new(Vec::new());
    thread::scope(|scope| {
        for _ in 0..threads {
            scope.spawn(|| work(&journal, count / threads));
        }
    });
    let entries = journal.into_inner().unwrap();
    let sessions = entries.iter().filter(|entry| entry.number == 0).count();
    let known = entries.iter().all(|entry| entry.session < entries.len() as u64);
    assert!(known);
    println!("{threads} threads: {sessions} sessions, {} entries", entries.len());
}
