//! A plain Rust program for the rules of docs/MODEL.md, written for speed, with which bench/run compares the proved one:
//! contiguous arrays in the order of chains, links apart from junctions, no checks in the loop. It reads a network file of
//! docs/FORMAT.md without faults, and writes the report's line `total`. Its word is a number of threads, which meet at a
//! barrier twice in a step; by default 1.
//!
//! Amounts are whole numbers of parts in doubles. All are below 2^53, and a quotient of such a number by one up to 1,000 is at
//! least 1/1,000 from the whole number above it, farther than it is rounded, so each floor is exact.

use std::sync::atomic::{AtomicUsize, Ordering::{AcqRel, Acquire, Relaxed, Release}};
use std::{collections::HashMap, env, hint, io, io::Read, ops::Range, thread};

const UNBOUNDED: f64 = 4e15; // the room of gates and exits
const FLUSH: u32 = 512; // steps in which what has waited in a gate stays below 2^53

enum Junction {
    Far(usize, usize),
    Merge([usize; 3], [f64; 2]),
    Diverge([usize; 3], [f64; 2]),
}

/// What a record says of a place for a range of steps.
enum What {
    Limit(f64),
    Speed(f64, f64),
    Demand(f64),
    Turn([f64; 2]),
}

#[derive(Default)]
struct Network {
    steps: u32,
    names: HashMap<String, usize>,
    kinds: Vec<u8>,
    own: Vec<f64>, // capacities
    room: Vec<f64>,
    a: Vec<f64>,
    b: Vec<f64>,
    n: Vec<f64>,
    links: Vec<(usize, usize)>,
    junctions: Vec<Junction>,
    diverges: HashMap<usize, usize>, // the numbers of those junctions, by their first cell
    signals: Vec<(usize, [u32; 4])>,
    timed: Vec<(usize, Range<u32>, What)>,
}

fn whole(text: &str) -> u32 {
    text.parse().expect("a whole number")
}

fn amount(text: &str) -> f64 {
    let (vehicles, decimals) = text.split_once('.').unwrap_or((text, "0"));
    (vehicles.parse::<u64>().unwrap() * 1_000_000 + decimals.parse::<u64>().unwrap() * 10u64.pow(6 - decimals.len() as u32)) as f64
}

impl Network {
    fn add(&mut self, name: &str, kind: u8, capacity: f64, shape: [f64; 3], n: f64) {
        self.names.insert(name.to_string(), self.kinds.len());
        self.kinds.push(kind);
        self.own.push(capacity);
        self.room.push(shape[0]);
        self.a.push(shape[1]);
        self.b.push(shape[2]);
        self.n.push(n);
    }

    fn take(&mut self, fields: &[&str]) {
        let number = |text: &str| f64::from(whole(text));
        let at = |name: &str| self.names[name];
        match *fields {
            [""] | ["ctm", _] | ["region", _, _] => {}
            ["steps", steps] => self.steps = whole(steps),
            ["road", name, room, q, a, b, n] => self.add(name, b'r', amount(q), [amount(room), number(a), number(b)], amount(n)),
            ["gate", name, q, n] => self.add(name, b'g', amount(q), [UNBOUNDED, 1.0, 1.0], amount(n)),
            ["exit", name, q] => self.add(name, b'x', amount(q), [UNBOUNDED, 1.0, 1.0], 0.0),
            ["link", a, b] => self.links.push((at(a), at(b))),
            ["merge", a, b, c, p1, p2] => self.junctions.push(Junction::Merge([a, b, c].map(at), [p1, p2].map(number))),
            ["diverge", a, b, c, b1, b2] => self.junctions.push(Junction::Diverge([a, b, c].map(at), [b1, b2].map(number))),
            ["signal", name, cycle, offset, from, to] => self.signals.push((at(name), [cycle, offset, from, to].map(whole))),
            [kind, name, t0, t1, ref values @ ..] => {
                let what = match (kind, values) {
                    ("limit", [q]) => What::Limit(amount(q)),
                    ("demand", [n]) => What::Demand(amount(n)),
                    ("speed", [num, den]) => What::Speed(number(num), number(den)),
                    ("turn", [b1, b2]) => What::Turn([number(b1), number(b2)]),
                    _ => panic!("no record: {fields:?}"),
                };
                self.timed.push((at(name), whole(t0)..whole(t1), what));
            }
            _ => panic!("no record: {fields:?}"),
        }
    }

    /// The cells in an order in which those that links join in a row lie side by side, and links that lead farther as junctions.
    fn ordered(mut self) -> (Self, Vec<f64>) {
        let count = self.kinds.len();
        let (mut next, mut is_next) = (vec![usize::MAX; count], vec![false; count]);
        for &(a, b) in &self.links {
            (next[a], is_next[b]) = (b, true);
        }
        let mut place = vec![usize::MAX; count];
        let mut order = Vec::with_capacity(count);
        for begin in (0..count).filter(|&cell| !is_next[cell]).chain(0..count) {
            let mut cell = begin;
            while cell != usize::MAX && place[cell] == usize::MAX {
                place[cell] = order.len();
                order.push(cell);
                cell = next[cell];
            }
        }
        let moved = |values: &[f64]| order.iter().map(|&cell| values[cell]).collect::<Vec<_>>();
        (self.own, self.room, self.a, self.b, self.n) = (moved(&self.own), moved(&self.room), moved(&self.a), moved(&self.b), moved(&self.n));
        self.kinds = order.iter().map(|&cell| self.kinds[cell]).collect();
        let mut linked = vec![0.0; count];
        for junction in &mut self.junctions {
            match junction {
                Junction::Far(..) => {}
                Junction::Merge(cells, _) | Junction::Diverge(cells, _) => *cells = cells.map(|cell| place[cell]),
            }
        }
        for (a, b) in self.links.drain(..).map(|(a, b)| (place[a], place[b])) {
            if b == a + 1 { linked[a] = 1.0 } else { self.junctions.push(Junction::Far(a, b)) }
        }
        self.signals.iter_mut().for_each(|(cell, _)| *cell = place[*cell]);
        self.timed.iter_mut().for_each(|(cell, ..)| *cell = place[*cell]);
        self.diverges = self.junctions.iter().enumerate()
            .filter_map(|(k, it)| if let Junction::Diverge([from, ..], _) = it { Some((*from, k)) } else { None }).collect();
        (self, linked)
    }

    /// The steps at which something of a cell changes, each with the numbers of its timed records, in order.
    fn changes(&self) -> Vec<(u32, usize, Vec<usize>)> {
        let mut of_cell: HashMap<usize, Vec<usize>> = HashMap::new();
        for (k, (cell, ..)) in self.timed.iter().enumerate() {
            of_cell.entry(*cell).or_default().push(k);
        }
        let mut found = vec![];
        for (cell, records) in of_cell {
            let mut steps: Vec<u32> = records.iter().flat_map(|&k| [self.timed[k].1.start, self.timed[k].1.end]).collect();
            steps.sort_unstable();
            steps.dedup();
            found.extend(steps.into_iter().filter(|&t| t < self.steps).map(|t| {
                (t, cell, records.iter().copied().filter(|&k| self.timed[k].1.contains(&t)).collect())
            }));
        }
        found.sort_unstable_by_key(|&(t, cell, _)| (t, cell));
        found
    }
}

/// What threads share: of the arrays each writes its own places, and what its junctions touch.
struct Shared<'a> {
    net: &'a Network,
    linked: Vec<f64>, // 1 where a link leads to the next place, else 0
    changes: Vec<(u32, usize, Vec<usize>)>,
    arrays: [*mut f64; 10],
    shares: *mut [f64; 2],
    waited: *mut u128,
    barrier: Barrier,
}

unsafe impl Sync for Shared<'_> {}

struct Barrier {
    members: usize,
    count: AtomicUsize,
    round: AtomicUsize,
}

impl Barrier {
    fn wait(&self) {
        if self.members == 1 {
            return;
        }
        let round = self.round.load(Relaxed);
        if self.count.fetch_add(1, AcqRel) + 1 == self.members {
            self.count.store(0, Relaxed);
            self.round.store(round + 1, Release);
            return;
        }
        let mut tries = 0u32;
        while self.round.load(Acquire) == round {
            tries += 1;
            if tries % 4096 == 0 { thread::yield_now() } else { hint::spin_loop() }
        }
    }
}

fn middle(x: f64, y: f64, z: f64) -> f64 {
    x.max(y).min(x.min(y).max(z))
}

/// The runs of places of a range that links join to the next ones.
fn runs(linked: &[f64], places: Range<usize>) -> Vec<Range<usize>> {
    let mut found: Vec<Range<usize>> = vec![];
    for i in places.filter(|&i| linked[i] == 1.0) {
        match found.last_mut() {
            Some(run) if run.end == i => run.end += 1,
            _ => found.push(i..i + 1),
        }
    }
    found
}

/// Takes the places of a range through all steps, with the junctions whose first cell is among them.
unsafe fn member(shared: &Shared, places: Range<usize>) {
    let (net, linked) = (shared.net, &shared.linked);
    let own: Vec<usize> = (0..net.junctions.len()).filter(|&k| places.contains(&match net.junctions[k] {
        Junction::Far(a, _) => a,
        Junction::Merge([a, ..], _) | Junction::Diverge([a, ..], _) => a,
    })).collect();
    let signals: Vec<_> = net.signals.iter().filter(|(cell, _)| places.contains(cell)).copied().collect();
    let mut changes = shared.changes.iter().filter(|(_, cell, _)| places.contains(cell)).peekable();
    let mut slowed: Vec<(usize, f64, f64)> = vec![];
    let runs = runs(linked, places.clone());
    let [n, send, take, out, into, gone, wait, capacity, green, demand] = shared.arrays;
    let (room, a, b, linked) = (net.room.as_ptr(), net.a.as_ptr(), net.b.as_ptr(), linked.as_ptr());
    for t in 0..net.steps {
        unsafe {
            while let Some((_, cell, records)) = changes.next_if(|change| change.0 == t) {
                (*capacity.add(*cell), *demand.add(*cell)) = (net.own[*cell], 0.0);
                slowed.retain(|it| it.0 != *cell);
                let mut turned = None;
                for &k in records {
                    match net.timed[k].2 {
                        What::Limit(q) => *capacity.add(*cell) = q,
                        What::Demand(more) => *demand.add(*cell) += more,
                        What::Speed(num, den) => {
                            slowed.retain(|it| it.0 != *cell);
                            slowed.push((*cell, num, den));
                        }
                        What::Turn(shares) => turned = Some(shares),
                    }
                }
                if let Some(&k) = net.diverges.get(cell) {
                    if let Junction::Diverge(_, shares) = net.junctions[k] {
                        *shared.shares.add(k) = turned.unwrap_or(shares);
                    }
                }
            }
            for &(cell, [cycle, offset, from, to]) in &signals {
                *green.add(cell) = if (from..to).contains(&((t + offset) % cycle)) { 1.0 } else { 0.0 };
            }
            for i in places.clone() {
                let held = *n.add(i);
                *send.add(i) = held.min(*capacity.add(i)) * *green.add(i);
                *take.add(i) = (*a.add(i) * (*room.add(i) - held) / *b.add(i)).floor().min(*capacity.add(i));
            }
            for &(cell, num, den) in &slowed {
                *send.add(cell) = (*n.add(cell) * num / den).floor().min(*capacity.add(cell)) * *green.add(cell);
            }
            shared.barrier.wait();
            for i in runs.iter().cloned().flatten() {
                *out.add(i) = (*send.add(i)).min(*take.add(i + 1));
            }
            for &k in &own {
                match net.junctions[k] {
                    Junction::Far(from, to) => {
                        let y = (*send.add(from)).min(*take.add(to));
                        (*out.add(from), *into.add(to)) = (y, y);
                    }
                    Junction::Merge([one, two, to], [p1, p2]) => {
                        let (s1, s2, r) = (*send.add(one), *send.add(two), *take.add(to));
                        let part = (p1 * r / (p1 + p2)).floor();
                        let [y1, y2] = if r >= s1 + s2 { [s1, s2] } else { [middle(s1, r - s2, part), middle(s2, r - s1, r - part)] };
                        (*out.add(one), *out.add(two), *into.add(to)) = (y1, y2, y1 + y2);
                    }
                    Junction::Diverge([from, one, two], _) => {
                        let [b1, b2] = *shared.shares.add(k);
                        let k = (*send.add(from) / (b1 + b2)).floor().min((*take.add(one) / b1).floor()).min((*take.add(two) / b2).floor());
                        (*out.add(from), *into.add(one), *into.add(two)) = (k * (b1 + b2), k * b1, k * b2);
                    }
                }
            }
            shared.barrier.wait();
            let mut brought = if places.start > 0 { *out.add(places.start - 1) * *linked.add(places.start - 1) } else { 0.0 };
            for i in places.clone() {
                let (held, leaves) = (*n.add(i), *out.add(i));
                *wait.add(i) += held - leaves;
                *gone.add(i) += leaves;
                *n.add(i) = held - leaves + brought + *into.add(i) + *demand.add(i);
                brought = leaves * *linked.add(i);
            }
            if t % FLUSH == FLUSH - 1 || t + 1 == net.steps {
                for i in places.clone() {
                    *shared.waited.add(i) += *wait.add(i) as u128;
                    *wait.add(i) = 0.0;
                }
            }
        }
    }
}

fn main() -> io::Result<()> {
    let threads = env::args().nth(1).map_or(1, |word| whole(&word) as usize);
    let mut text = String::new();
    io::stdin().read_to_string(&mut text)?;
    let mut net = Network::default();
    for record in text.lines().filter(|line| !line.starts_with('#')) {
        net.take(&record.split(',').collect::<Vec<_>>());
    }
    let (net, linked) = net.ordered();
    let count = net.kinds.len();
    let zeros = || vec![0.0; count];
    let mut arrays = [net.n.clone(), zeros(), zeros(), zeros(), zeros(), zeros(), zeros(), net.own.clone(), vec![1.0; count], zeros()];
    let mut shares: Vec<_> = net.junctions.iter().map(|it| if let Junction::Diverge(_, shares) = it { *shares } else { [0.0; 2] }).collect();
    let mut waited = vec![0u128; count];
    let shared = Shared {
        net: &net,
        linked,
        changes: net.changes(),
        arrays: arrays.each_mut().map(|array| array.as_mut_ptr()),
        shares: shares.as_mut_ptr(),
        waited: waited.as_mut_ptr(),
        barrier: Barrier { members: threads, count: AtomicUsize::new(0), round: AtomicUsize::new(0) },
    };
    thread::scope(|scope| {
        for k in 0..threads {
            let shared = &shared;
            scope.spawn(move || unsafe { member(shared, k * count / threads..(k + 1) * count / threads) });
        }
    });
    let total = |kinds: &[u8], of: &dyn Fn(usize) -> u128| {
        let parts: u128 = (0..count).filter(|&i| kinds.contains(&net.kinds[i])).map(of).sum();
        format!("{}.{:06}", parts / 1_000_000, parts % 1_000_000)
    };
    let [n, _, _, _, _, gone, ..] = &arrays;
    let (inside, entered) = (total(b"rg", &|i| n[i] as u128), total(b"g", &|i| (n[i] + gone[i] - net.n[i]) as u128));
    println!("total,{inside},{entered},{},{}", total(b"x", &|i| n[i] as u128), total(b"rg", &|i| waited[i]));
    Ok(())
}
