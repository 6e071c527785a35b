// The probing of `bench rows` and `bench tree` over plain atomics; the scripts `bench/rows` and
// `bench/tree` build it and run it beside them, the latter with the word `tree`.
use std::sync::atomic::{AtomicU64, Ordering::SeqCst};
use std::time::Instant;

const RECORDS: u32 = 1_000_000;
const SLOTS: u64 = 1 << 21;
const DEEPEST: u64 = 128;

enum Value {
    Int(i128),
    Uint(u64),
    Bool(bool),
    Text(String),
}

struct Rec<'a> {
    parent: u32,
    depth: u32,
    attr: u32,
    value: &'a Value,
}

impl Rec<'_> {
    fn len(&self) -> u64 {
        4 + match self.value {
            Value::Int(_) => 2,
            Value::Text(t) => (t.len() as u64 + 7) / 8,
            _ => 1,
        }
    }

    fn word(&self, i: u64) -> u64 {
        match i {
            0 => self.parent as u64,
            1 => self.depth as u64,
            2 => self.attr as u64,
            3 => match self.value {
                Value::Int(_) => 1 << 32,
                Value::Uint(_) => 2 << 32,
                Value::Bool(_) => 6 << 32,
                Value::Text(t) => (3 << 32) + t.len() as u64,
            },
            _ => match self.value {
                Value::Int(n) => (*n as u128 >> (64 * (i - 4))) as u64,
                Value::Uint(n) => *n,
                Value::Bool(b) => *b as u64,
                Value::Text(t) => {
                    let start = 8 * (i - 4) as usize;
                    let end = t.len().min(start + 8);
                    t.as_bytes()[start..end].iter().rev().fold(0, |w, b| w * 256 + *b as u64)
                }
            },
        }
    }

    fn home(&self, homes: u64) -> u64 {
        let mut hash = 14695981039346656037u64;
        for i in 0..self.len() {
            hash = (hash ^ self.word(i)).wrapping_mul(1099511628211);
        }
        hash % homes
    }
}

struct Rows {
    words: Vec<AtomicU64>,
    slots: u64,
    homes: u64,
    arena: u64,
}

struct Seat {
    number: u64,
    used: u64,
}

impl Rows {
    fn new(slots: u64, homes: u64, arena: u64, arenas: u64) -> Rows {
        let words = (0..1 + slots + arena * arenas).map(|_| AtomicU64::new(0)).collect();
        Rows { words, slots, homes, arena }
    }

    fn same(&self, rec: &Rec, slot: u64) -> bool {
        let size = rec.len();
        slot >> 32 == size && (0..size).all(|i| self.words[((slot & 0xffff_ffff) + i) as usize].load(SeqCst) == rec.word(i))
    }

    fn put(&self, seat: &mut Seat, rec: &Rec) -> Option<u64> {
        let home = rec.home(self.homes);
        let start = 1 + self.slots + seat.number * self.arena + seat.used;
        let mut drafted = false;
        for distance in 0..self.slots {
            let place = (home + distance) % self.slots;
            let mut slot = self.words[place as usize + 1].load(SeqCst);
            if slot == 0 {
                if seat.used + rec.len() > self.arena {
                    return None;
                }
                if !drafted {
                    for i in 0..rec.len() {
                        self.words[(start + i) as usize].store(rec.word(i), SeqCst);
                    }
                    drafted = true;
                }
                match self.words[place as usize + 1].compare_exchange(0, (rec.len() << 32) + start, SeqCst, SeqCst) {
                    Ok(_) => {
                        seat.used += rec.len();
                        return Some(place);
                    }
                    Err(found) => slot = found,
                }
            }
            if self.same(rec, slot) {
                return Some(place);
            }
        }
        None
    }

    fn child(&self, seat: &mut Seat, parent: u32, attr: u32, value: &Value) -> Option<u32> {
        let depth = match parent {
            0 => 0,
            _ => {
                let slot = self.words[parent as usize].load(SeqCst);
                self.words[(slot & 0xffff_ffff) as usize + 1].load(SeqCst)
            }
        };
        if depth >= DEEPEST {
            return None;
        }
        let rec = Rec { parent, depth: depth as u32 + 1, attr, value };
        self.put(seat, &rec).map(|place| place as u32 + 1)
    }
}

fn fill(rows: &Rows, seat: &mut Seat, from: u32, count: u32, value: &Value) {
    for attr in from..from + count {
        let rec = Rec { parent: 0, depth: 1, attr, value };
        std::hint::black_box(rows.put(seat, &rec));
    }
}

fn grow(rows: &Rows, seat: &mut Seat, values: &[Value]) {
    let (mut parent, mut count) = (0, 0);
    for value in values {
        let Some(node) = rows.child(seat, parent, 7, value) else { return };
        count += 1;
        parent = if count % 4 == 0 { 0 } else { node };
    }
}

fn time_all(rows: &Rows, workers: &mut [(Seat, Vec<Value>)]) -> u128 {
    let begun = Instant::now();
    std::thread::scope(|scope| {
        for (seat, values) in workers {
            scope.spawn(move || grow(rows, seat, values));
        }
    });
    begun.elapsed().as_millis()
}

fn time_tree(name: &str, front: &str, layout: &str, homes: u64, slots: u64, seats: u32, shared: bool) {
    let rows = Rows::new(slots, homes, 10_000_000 / seats as u64, seats as u64 + 1);
    let share = RECORDS / seats;
    let mut workers = Vec::new();
    for number in 0..seats {
        let from = if shared { 0 } else { number * share };
        let values = (from..from + share).map(|n| Value::Text(format!("{front}{n}"))).collect::<Vec<_>>();
        workers.push((Seat { number: number as u64 + 1, used: 0 }, values));
    }
    let new = time_all(&rows, &mut workers);
    let known = time_all(&rows, &mut workers);
    let nodes = rows.words[1..=slots as usize].iter().filter(|word| word.load(SeqCst) != 0).count();
    let whose = if shared { "the same nodes" } else { "own nodes" };
    println!("{name}; {layout}; {seats}; {whose}; {nodes}; {new}; {known}");
}

fn trees() {
    for (name, front) in [("names", "main"), ("texts", "solver/src/of/a/long/path/main.cpp, line ")] {
        for (slots, seats, shared) in [(5_000_001, 1, false), (3_750_001, 2, false), (3_125_001, 4, false), (3_750_001, 2, true)] {
            time_tree(name, front, "a run's shape", slots, slots, seats, shared);
            time_tree(name, front, "odd homes", SLOTS - 1, SLOTS, seats, shared);
        }
    }
}

fn main() {
    if std::env::args().nth(1).as_deref() == Some("tree") {
        return trees();
    }
    let value = match std::env::args().count() {
        1 => Value::Bool(true),
        2 => Value::Uint(1),
        3 => Value::Int(1),
        _ => Value::Text(String::new()),
    };
    let rows = Rows::new(SLOTS, SLOTS, 5_000_000, 1);
    let mut seat = Seat { number: 0, used: 0 };
    let begun = Instant::now();
    fill(&rows, &mut seat, 0, RECORDS, &value);
    let new = begun.elapsed();
    let begun = Instant::now();
    fill(&rows, &mut seat, 0, RECORDS, &value);
    println!("one seat: {} ms for new records, {} ms for known ones", new.as_millis(), begun.elapsed().as_millis());
    let rows = Rows::new(SLOTS, SLOTS, 2_500_000, 3);
    let begun = Instant::now();
    std::thread::scope(|scope| {
        for number in 1..3 {
            let (rows, value) = (&rows, &value);
            scope.spawn(move || fill(rows, &mut Seat { number, used: 0 }, RECORDS / 2 * (number as u32 - 1), RECORDS / 2, value));
        }
    });
    println!("two seats: {} ms for new records", begun.elapsed().as_millis());
}
