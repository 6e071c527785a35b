// The running threads of a script in plain Rust, written for speed: `bench/crew` builds it and runs
// it beside `crates/bench_crew`. It reads scripts without `key`, `value` and `global` lines.
//
// Its words: `crew` runs the threads and prints how long that took and how many nodes there are,
// `hire` does all but run them, and `count` runs them and prints what they have taken.
use std::collections::HashMap;
use std::io::Read;
use std::sync::atomic::{AtomicU32, AtomicU64, AtomicUsize, Ordering::*};
use std::sync::Mutex;
use std::time::Instant;

const MOST_OPEN: usize = 128;
const MOST_SLOTS: usize = 64;

struct Attribute {
    as_value: bool,
    process: bool,
    silent: bool,
    slot: u16,
}

#[derive(Default)]
struct Channel {
    event: bool,
    timer: bool,
    trace: bool,
    aggregate: bool,
    probes: Vec<Probe>,
}

#[derive(Clone, Copy)]
enum Probe {
    Depth,
    Count,
}

#[derive(Clone, Copy, PartialEq)]
enum Code {
    Begin,
    End,
    Set,
}

// A value is told by its attribute and its number there.
#[derive(Clone, Copy)]
struct Operation {
    code: Code,
    attribute: u16,
    pair: u32,
}

#[derive(Clone, Copy)]
enum Line {
    Operation(Operation),
    Snapshot,
    Flush(u16),
    Tick(u64),
}

#[derive(Default)]
struct Script {
    attributes: Vec<Attribute>,
    channels: Vec<Channel>,
    values: Vec<u64>,
    threads: Vec<Vec<Line>>,
    some_event: bool,
    some_timer: bool,
    event_timer: bool,
}

// The numbers by which a script's names and values are found.
#[derive(Default)]
struct Names<'a> {
    attributes: HashMap<&'a str, u16>,
    channels: HashMap<&'a str, u16>,
    pairs: HashMap<(u16, &'a str), u32>,
}

impl Script {
    fn read(text: &str) -> Script {
        let mut script = Script::default();
        let mut names = Names::default();
        for line in text
            .lines()
            .filter(|line| !line.is_empty() && !line.starts_with('#'))
        {
            script.read_line(&mut names, line);
        }
        script.some_event = script.channels.iter().any(|channel| channel.event);
        script.some_timer = script.channels.iter().any(|channel| channel.timer);
        script.event_timer = script.channels.iter().any(|it| it.event && it.timer);
        script
    }

    fn read_line<'a>(&mut self, names: &mut Names<'a>, line: &'a str) {
        let (word, rest) = line.split_once(' ').unwrap_or((line, ""));
        let (name, value) = rest.split_once(' ').unwrap_or((rest, ""));
        let read = match word {
            "attribute" => return self.declare(names, name, value),
            "channel" => {
                names.channels.insert(name, self.channels.len() as u16);
                return self.channels.push(channel_of(value));
            }
            "thread" => return self.threads.push(Vec::new()),
            "begin" => self.operation(names, Code::Begin, name, value),
            "end" => self.operation(names, Code::End, name, ""),
            "set" => self.operation(names, Code::Set, name, value),
            "snapshot" => Line::Snapshot,
            "flush" => Line::Flush(names.channels[name]),
            "tick" => Line::Tick(name.parse().unwrap()),
            _ => panic!("a line of another kind: {}", line),
        };
        self.threads.last_mut().unwrap().push(read);
    }

    fn declare<'a>(&mut self, names: &mut Names<'a>, name: &'a str, value: &'a str) {
        let bits: u32 = value.split_once(' ').unwrap().1.parse().unwrap();
        let number = self.attributes.len() as u16;
        let nested = bits & 257 == 256;
        names.attributes.insert(name, number);
        self.attributes.push(Attribute {
            as_value: bits & 1 == 1,
            process: bits & 60 == 12,
            silent: bits & 64 == 64,
            slot: if nested { 0 } else { 1 + number },
        });
    }

    fn operation<'a>(
        &mut self,
        names: &mut Names<'a>,
        code: Code,
        name: &str,
        value: &'a str,
    ) -> Line {
        let attribute = names.attributes[name];
        let mut pair = 0;
        if code != Code::End {
            pair = *names
                .pairs
                .entry((attribute, value))
                .or_insert(self.values.len() as u32);
            if pair as usize == self.values.len() {
                self.values.push(value.parse().unwrap_or(pair as u64));
            }
        }
        Line::Operation(Operation {
            code,
            attribute,
            pair,
        })
    }

    // How many nodes the lines can make.
    fn most_nodes(&self) -> usize {
        let opens = |line: &&Line| matches!(line, Line::Operation(it) if it.code != Code::End);
        self.threads.iter().flatten().filter(opens).count()
    }
}

fn channel_of(services: &str) -> Channel {
    let mut channel = Channel::default();
    for service in services.split(',') {
        match service {
            "event" => channel.event = true,
            "timer" => channel.timer = true,
            "trace" => channel.trace = true,
            "aggregate" => channel.aggregate = true,
            "region.depth" => channel.probes.push(Probe::Depth),
            _ => channel.probes.push(Probe::Count),
        }
    }
    channel
}

// The nodes of all threads by their parents, attributes and values. A node is a place, from 1.
struct Tree {
    nodes: Vec<AtomicU64>,
}

impl Tree {
    fn new(most: usize) -> Tree {
        let size = (2 * most + 2).next_power_of_two();
        Tree {
            nodes: (0..size).map(|_| AtomicU64::new(0)).collect(),
        }
    }

    fn child(&self, parent: u32, pair: u32) -> u32 {
        let key = (parent as u64) << 32 | (pair as u64 + 1);
        let last = self.nodes.len() - 1;
        let mut place = (key.wrapping_mul(0x9e37_79b9_7f4a_7c15) >> 32) as usize & last;
        loop {
            let mut found = self.nodes[place].load(Acquire);
            if found == 0 {
                match self.nodes[place].compare_exchange(0, key, AcqRel, Acquire) {
                    Ok(_) => found = key,
                    Err(other) => found = other,
                }
            }
            if found == key {
                return place as u32 + 1;
            }
            place = (place + 1) & last;
        }
    }

    fn count(&self) -> usize {
        self.nodes
            .iter()
            .filter(|node| node.load(Acquire) != 0)
            .count()
    }
}

#[derive(Clone, Copy)]
struct Opened {
    node: u32,
    attribute: u16,
    pair: u32,
    reading: u64,
}

#[derive(Default)]
struct Slot {
    number: u16,
    as_value: bool,
    opened: Vec<Opened>,
}

#[derive(Clone, Copy, PartialEq)]
enum Reply {
    Done,
    Mismatch(u16),
    NotOpen,
    TooDeep,
    SlotsFull,
    Merged,
    Busy(u32),
}

// The slots that were ever used, by their numbers; empty ones stay.
#[derive(Default)]
struct Board {
    slots: Vec<Slot>,
    filled: usize,
}

impl Board {
    fn place(&self, number: u16) -> Result<usize, usize> {
        self.slots.binary_search_by_key(&number, |slot| slot.number)
    }

    fn last(&self, attribute: &Attribute) -> Option<&Opened> {
        self.slots[self.place(attribute.slot).ok()?].opened.last()
    }

    fn reply(&self, attribute: &Attribute, op: Operation) -> Reply {
        let opened = self
            .place(attribute.slot)
            .map_or(&[][..], |at| &self.slots[at].opened);
        match (op.code, opened.last()) {
            (Code::End, None) => Reply::NotOpen,
            (Code::End, Some(it)) if it.attribute == op.attribute => Reply::Done,
            (Code::End, Some(it)) => Reply::Mismatch(it.attribute),
            (Code::Set, Some(it)) if it.attribute == op.attribute => Reply::Done,
            (_, None) if self.filled == MOST_SLOTS => Reply::SlotsFull,
            (_, Some(_)) if opened.len() == MOST_OPEN => Reply::TooDeep,
            _ => Reply::Done,
        }
    }

    fn slot(&mut self, attribute: &Attribute) -> &mut Slot {
        let place = self.place(attribute.slot).unwrap_or_else(|place| {
            let (number, as_value) = (attribute.slot, attribute.as_value);
            self.slots.insert(
                place,
                Slot {
                    number,
                    as_value,
                    opened: Vec::new(),
                },
            );
            place
        });
        &mut self.slots[place]
    }

    fn change(&mut self, tree: &Tree, attribute: &Attribute, op: Operation, reading: u64) {
        let opened = &mut self.slot(attribute).opened;
        let before = opened.len();
        if op.code != Code::Begin
            && opened
                .last()
                .map_or(false, |it| it.attribute == op.attribute)
        {
            opened.pop();
        }
        if op.code != Code::End {
            let parent = opened.last().map_or(0, |it| it.node);
            let node = if attribute.as_value {
                0
            } else {
                tree.child(parent, op.pair)
            };
            opened.push(Opened {
                node,
                attribute: op.attribute,
                pair: op.pair,
                reading,
            });
        }
        let is_open = !opened.is_empty();
        self.filled = self.filled + is_open as usize - (before > 0) as usize;
    }
}

// An attribute's number, or one of those that services add behind all of the script.
#[derive(Clone, Copy)]
struct Entry {
    attribute: u32,
    value: u64,
}

#[derive(Default)]
struct Trace {
    ends: Vec<(u32, u32)>,
    nodes: Vec<u32>,
    entries: Vec<Entry>,
}

#[derive(Clone, Copy)]
struct Row {
    start: u32,
    len: u32,
    count: u64,
    sum: u128,
    least: u64,
    most: u64,
}

// Rows by their nodes, of which each has some in one list.
#[derive(Default)]
struct Table {
    homes: Vec<u32>,
    rows: Vec<Row>,
    nodes: Vec<u32>,
}

impl Table {
    fn home(&self, nodes: &[u32]) -> usize {
        let mix = |hash: u64, node: &u32| {
            (hash.rotate_left(5) ^ *node as u64).wrapping_mul(0x517c_c1b7_2722_0a95)
        };
        (nodes.iter().fold(0, mix) >> 32) as usize & (self.homes.len() - 1)
    }

    fn grow(&mut self) {
        self.homes = vec![0; (2 * self.homes.len()).max(1024)];
        for place in 0..self.rows.len() {
            let mut home = self.home(self.key(&self.rows[place]));
            while self.homes[home] != 0 {
                home = (home + 1) & (self.homes.len() - 1);
            }
            self.homes[home] = place as u32 + 1;
        }
    }

    fn key(&self, row: &Row) -> &[u32] {
        &self.nodes[row.start as usize..(row.start + row.len) as usize]
    }

    fn add(&mut self, nodes: &[u32], part: Row) {
        if 2 * self.rows.len() >= self.homes.len() {
            self.grow();
        }
        let mut home = self.home(nodes);
        while self.homes[home] != 0 {
            let place = self.homes[home] as usize - 1;
            if self.key(&self.rows[place]) == nodes {
                let row = &mut self.rows[place];
                row.count += part.count;
                row.sum += part.sum;
                row.least = row.least.min(part.least);
                row.most = row.most.max(part.most);
                return;
            }
            home = (home + 1) & (self.homes.len() - 1);
        }
        self.homes[home] = self.rows.len() as u32 + 1;
        let (start, len) = (self.nodes.len() as u32, nodes.len() as u32);
        self.rows.push(Row { start, len, ..part });
        self.nodes.extend_from_slice(nodes);
    }

    fn merge(&mut self, part: &Table) {
        for row in &part.rows {
            self.add(part.key(row), *row);
        }
    }

    fn clear(&mut self) {
        self.homes.fill(0);
        self.rows.clear();
        self.nodes.clear();
    }
}

#[derive(Default)]
struct Book {
    holder: AtomicU32,
    table: Mutex<Table>,
}

impl Book {
    fn flush(&self, thread: u32, part: &mut Table) -> Reply {
        if let Err(holder) = self.holder.compare_exchange(0, thread + 1, AcqRel, Acquire) {
            return Reply::Busy(holder - 1);
        }
        self.table.lock().unwrap().merge(part);
        self.holder.store(0, Release);
        part.clear();
        Reply::Merged
    }
}

// What all threads share.
struct Shared<'a> {
    script: &'a Script,
    tree: Tree,
    history: Mutex<Vec<Operation>>,
    length: AtomicUsize,
    books: Vec<Book>,
}

#[derive(Default)]
struct Kept {
    previous: u64,
    trace: Trace,
    table: Table,
}

#[derive(Clone, Copy)]
#[allow(dead_code)]
struct Note {
    reply: Reply,
    seen: u32,
    reading: Option<u64>,
}

// A thread with what it keeps; its memory stands apart from that of others.
#[repr(align(128))]
#[derive(Default)]
struct Runner {
    number: u32,
    board: Board,
    process: Board,
    seen: usize,
    clock: u64,
    channels: Vec<Kept>,
    notes: Vec<Note>,
    nodes: Vec<u32>,
    entries: Vec<Entry>,
}

impl Runner {
    fn hire(script: &Script, number: usize) -> Runner {
        Runner {
            number: number as u32,
            channels: script.channels.iter().map(|_| Kept::default()).collect(),
            notes: Vec::with_capacity(script.threads[number].len()),
            ..Runner::default()
        }
    }

    fn run(&mut self, shared: &Shared) {
        for line in &shared.script.threads[self.number as usize] {
            let (reply, reading) = match *line {
                Line::Operation(op) => self.operate(shared, op),
                Line::Snapshot => {
                    self.look(shared);
                    let reading = shared.script.some_timer.then_some(self.clock);
                    self.take_all(shared, None);
                    (Reply::Done, reading)
                }
                Line::Flush(channel) => {
                    let table = &mut self.channels[channel as usize].table;
                    (
                        shared.books[channel as usize].flush(self.number, table),
                        None,
                    )
                }
                Line::Tick(n) => {
                    self.clock = self.clock.saturating_add(n);
                    (Reply::Done, None)
                }
            };
            self.notes.push(Note {
                reply,
                seen: self.seen as u32,
                reading,
            });
        }
    }

    fn operate(&mut self, shared: &Shared, op: Operation) -> (Reply, Option<u64>) {
        let attribute = &shared.script.attributes[op.attribute as usize];
        if attribute.process {
            self.append(shared, op);
        }
        let board = if attribute.process {
            &self.process
        } else {
            &self.board
        };
        let reply = board.reply(attribute, op);
        let mut reading = None;
        if reply == Reply::Done {
            if shared.script.some_event && !attribute.silent {
                if !attribute.process {
                    self.look(shared);
                }
                reading = shared.script.event_timer.then_some(self.clock);
                self.take_all(shared, Some(op));
            }
            let board = if attribute.process {
                &mut self.process
            } else {
                &mut self.board
            };
            board.change(&shared.tree, attribute, op, self.clock);
        }
        self.seen += attribute.process as usize;
        (reply, reading)
    }

    fn append(&mut self, shared: &Shared, op: Operation) {
        let mut history = shared.history.lock().unwrap();
        self.take_in(shared, &history);
        history.push(op);
        shared.length.store(history.len(), Release);
    }

    fn look(&mut self, shared: &Shared) {
        if shared.length.load(Acquire) > self.seen {
            let history = shared.history.lock().unwrap();
            self.take_in(shared, &history);
        }
    }

    fn take_in(&mut self, shared: &Shared, history: &[Operation]) {
        for op in &history[self.seen..] {
            let attribute = &shared.script.attributes[op.attribute as usize];
            if self.process.reply(attribute, *op) == Reply::Done {
                self.process.change(&shared.tree, attribute, *op, 0);
            }
        }
        self.seen = history.len();
    }

    fn take_all(&mut self, shared: &Shared, op: Option<Operation>) {
        for place in 0..self.channels.len() {
            if op.is_none() || shared.script.channels[place].event {
                self.take(shared, place, op);
            }
        }
    }

    fn take(&mut self, shared: &Shared, place: usize, op: Option<Operation>) {
        let channel = &shared.script.channels[place];
        let duration = self.clock.saturating_sub(self.channels[place].previous);
        self.fill(shared, channel, op, duration);
        let kept = &mut self.channels[place];
        if channel.trace {
            kept.trace.nodes.extend_from_slice(&self.nodes);
            kept.trace.entries.extend_from_slice(&self.entries);
            let end = (
                kept.trace.nodes.len() as u32,
                kept.trace.entries.len() as u32,
            );
            kept.trace.ends.push(end);
        }
        if channel.aggregate {
            let sum = duration as u128;
            let row = Row {
                start: 0,
                len: 0,
                count: 1,
                sum,
                least: duration,
                most: duration,
            };
            kept.table.add(&self.nodes, row);
        }
        if channel.timer {
            kept.previous = self.clock;
        }
    }

    // The draft of a snapshot: its nodes and its entries.
    fn fill(&mut self, shared: &Shared, channel: &Channel, op: Option<Operation>, duration: u64) {
        let script = shared.script;
        let services = 4 * script.attributes.len() as u32;
        self.nodes.clear();
        self.entries.clear();
        if let Some(op) = op {
            let attribute = &script.attributes[op.attribute as usize];
            let board = if attribute.process {
                &self.process
            } else {
                &self.board
            };
            let ends = (op.code == Code::End).then(|| board.last(attribute).unwrap());
            let pair = ends.map_or(op.pair, |it| it.pair);
            self.entries.push(Entry {
                attribute: 4 * op.attribute as u32 + 1 + op.code as u32,
                value: script.values[pair as usize],
            });
            if channel.timer {
                self.entries.push(Entry {
                    attribute: services,
                    value: duration,
                });
                if let (Some(it), false) = (ends, attribute.process) {
                    let value = self.clock.saturating_sub(it.reading);
                    self.entries.push(Entry {
                        attribute: services + 1,
                        value,
                    });
                }
            }
        } else if channel.timer {
            self.entries.push(Entry {
                attribute: services,
                value: duration,
            });
        }
        for probe in &channel.probes {
            let opened = |slot: &Slot| slot.opened.len() as u64;
            let value = match probe {
                Probe::Depth => self
                    .board
                    .slots
                    .first()
                    .filter(|it| it.number == 0)
                    .map_or(0, opened),
                Probe::Count => self.board.slots.iter().map(opened).sum(),
            };
            self.entries.push(Entry {
                attribute: services + 2 + *probe as u32,
                value,
            });
        }
        for slot in self.board.slots.iter().chain(&self.process.slots) {
            match slot.opened.last() {
                Some(it) if slot.as_value => self.entries.push(Entry {
                    attribute: 4 * it.attribute as u32,
                    value: script.values[it.pair as usize],
                }),
                Some(it) => self.nodes.push(it.node),
                None => {}
            }
        }
    }
}

fn main() {
    let word = std::env::args().nth(1).unwrap_or_default();
    let mut text = String::new();
    std::io::stdin().read_to_string(&mut text).unwrap();
    let script = Script::read(&text);
    drop(text);
    let shared = Shared {
        tree: Tree::new(script.most_nodes()),
        script: &script,
        history: Mutex::default(),
        length: AtomicUsize::new(0),
        books: script.channels.iter().map(|_| Book::default()).collect(),
    };
    let hired = 0..script.threads.len();
    let mut runners: Vec<Runner> = hired.map(|number| Runner::hire(&script, number)).collect();
    if word == "hire" {
        return;
    }
    let begun = Instant::now();
    std::thread::scope(|scope| {
        for runner in &mut runners {
            let shared = &shared;
            scope.spawn(move || runner.run(shared));
        }
    });
    let took = begun.elapsed();
    println!("{} ns, {} nodes", took.as_nanos(), shared.tree.count());
    if word == "count" {
        print_counts(&shared, &runners);
    }
}

// What the threads have taken: snapshots of traces with the sums of both times, and groups with the
// sums of their counts and times.
fn print_counts(shared: &Shared, runners: &[Runner]) {
    let services = 4 * shared.script.attributes.len() as u32;
    let kept = || runners.iter().flat_map(|runner| &runner.channels);
    let sum_of = |attribute: u32| -> u64 {
        let entries = kept().flat_map(|it| &it.trace.entries);
        entries
            .filter(|it| it.attribute == attribute)
            .map(|it| it.value)
            .sum()
    };
    println!(
        "traces: {} snapshots, {} nodes, {} entries, {} ns, {} ns inclusive",
        kept().map(|it| it.trace.ends.len()).sum::<usize>(),
        kept().map(|it| it.trace.nodes.len()).sum::<usize>(),
        kept().map(|it| it.trace.entries.len()).sum::<usize>(),
        sum_of(services),
        sum_of(services + 1),
    );
    for (place, book) in shared.books.iter().enumerate() {
        let mut table = book.table.lock().unwrap();
        runners
            .iter()
            .for_each(|runner| table.merge(&runner.channels[place].table));
        let count: u64 = table.rows.iter().map(|row| row.count).sum();
        let sum: u128 = table.rows.iter().map(|row| row.sum).sum();
        let (least, most) = table.rows.iter().fold((0, 0), |(least, most), row| {
            (least + row.least, most + row.most)
        });
        let groups = table.rows.len();
        println!(
            "table: {groups} groups of {count}, {sum} ns, sums of least {least} and most {most}"
        );
    }
    let notes = || runners.iter().flat_map(|runner| &runner.notes);
    println!(
        "notes: {}, {} refused, {} busy, {} readings",
        notes().count(),
        notes()
            .filter(|it| !matches!(it.reply, Reply::Done | Reply::Merged | Reply::Busy(_)))
            .count(),
        notes()
            .filter(|it| matches!(it.reply, Reply::Busy(_)))
            .count(),
        notes().filter(|it| it.reading.is_some()).count(),
    );
}
