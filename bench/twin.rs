//! A plain Rust program for the rules of docs/MODEL.md, with which scripts of bench compare the proved one. It reads a
//! network file of docs/FORMAT.md and writes the report of its run, recorded every so many steps where its first word
//! says how many. It names no faults: a file that has one ends it by a panic, or is run all the same.

use Connector::{Diverge, Link, Merge};
use std::io::{self, BufWriter, Read, Write};
use std::{collections::HashMap, env, fmt, ops::Range, str::FromStr};

/// An amount, which is a whole number of parts, millionths of a vehicle.
struct Vehicles<T>(T);

impl<T: Copy + Into<u128>> fmt::Display for Vehicles<T> {
    fn fmt(&self, out: &mut fmt::Formatter) -> fmt::Result {
        let parts = self.0.into();
        write!(out, "{}.{:06}", parts / 1_000_000, parts % 1_000_000)
    }
}

/// What the records of one kind say of a cell, each for a range of steps.
type Timed<T> = Vec<(Range<u32>, T)>;

fn at<T: Copy>(timed: &Timed<T>, t: u32) -> impl DoubleEndedIterator<Item = T> {
    timed.iter().filter(move |(steps, _)| steps.contains(&t)).map(|&(_, value)| value)
}

#[derive(PartialEq)]
enum Kind {
    Road { room: u64, a: u64, b: u64 },
    Gate,
    Exit,
}

struct Cell<'a> {
    name: &'a str,
    kind: Kind,
    capacity: u64,
    signal: Option<[u32; 4]>,
    limits: Timed<u64>,
    demands: Timed<u64>,
    turns: Timed<[u64; 2]>,
    speeds: Timed<[u64; 2]>,
    n: u64,
    come: u64,
    gone: u64,
    wait: u64,
}

impl Cell<'_> {
    fn capacity(&self, t: u32) -> u64 {
        at(&self.limits, t).next_back().unwrap_or(self.capacity)
    }

    /// What comes to the end of the cell in a step.
    fn arriving(&self, t: u32) -> u64 {
        let [num, den] = at(&self.speeds, t).next_back().unwrap_or([1, 1]);
        self.n * num / den
    }

    fn sending(&self, t: u32) -> u64 {
        let is_green = |[cycle, offset, from, to]: [u32; 4]| (from..to).contains(&((t + offset) % cycle));
        if self.signal.is_none_or(is_green) { self.capacity(t).min(self.arriving(t)) } else { 0 }
    }

    fn receiving(&self, t: u32) -> u64 {
        let Kind::Road { room, a, b } = self.kind else { return self.capacity(t) };
        self.capacity(t).min(a * (room - self.n) / b)
    }
}

/// A connector of the cells at these places, with its priorities or shares.
enum Connector {
    Link([usize; 2]),
    Merge([usize; 3], [u64; 2]),
    Diverge([usize; 3], [u64; 2]),
}

/// What passes a merge of two cells that send `s1` and `s2` into a cell that receives `r`.
fn merge(s1: u64, s2: u64, r: u64, [p1, p2]: [u64; 2]) -> [u64; 2] {
    let a = p1 * r / (p1 + p2);
    // The middle of three, of which the second is 0 where the model has less: the least of them all the same.
    let mid = |x: u64, y: u64, z: u64| x.max(y).min(x.min(y).max(z));
    if r >= s1 + s2 { [s1, s2] } else { [mid(s1, r.saturating_sub(s2), a), mid(s2, r.saturating_sub(s1), r - a)] }
}

#[derive(Default)]
struct Network<'a> {
    steps: u32,
    cells: Vec<Cell<'a>>,
    connectors: Vec<Connector>,
    places: HashMap<&'a str, usize>,
}

impl<'a> Network<'a> {
    fn read(text: &'a str) -> Self {
        let mut network = Network::default();
        // A carriage return ends a record too, but no comment.
        for record in text.lines().flat_map(|line| line.split('\r').take_while(|record| !record.starts_with('#'))) {
            network.take(&record.split(',').collect::<Vec<_>>());
        }
        network
    }

    fn take(&mut self, fields: &[&'a str]) {
        let place = |name| self.places[name];
        match *fields {
            [""] | ["ctm", _] | ["region", _, _] => {}
            ["steps", steps] => self.steps = whole(steps),
            ["road", name, room, q, a, b, n] => {
                self.add(name, Kind::Road { room: amount(room), a: whole(a), b: whole(b) }, amount(q), amount(n))
            }
            ["gate", name, q, n] => self.add(name, Kind::Gate, amount(q), amount(n)),
            ["exit", name, q] => self.add(name, Kind::Exit, amount(q), 0),
            ["link", a, b] => self.connectors.push(Link([a, b].map(place))),
            ["merge", a, b, c, p1, p2] => self.connectors.push(Merge([a, b, c].map(place), [p1, p2].map(whole))),
            ["diverge", a, b, c, b1, b2] => self.connectors.push(Diverge([a, b, c].map(place), [b1, b2].map(whole))),
            ["signal", name, cycle, offset, from, to] => {
                self.cell(name).signal = Some([cycle, offset, from, to].map(whole))
            }
            ["limit", name, t0, t1, q] => self.cell(name).limits.push((whole(t0)..whole(t1), amount(q))),
            ["demand", name, t0, t1, n] => self.cell(name).demands.push((whole(t0)..whole(t1), amount(n))),
            ["turn", name, t0, t1, b1, b2] => self.cell(name).turns.push((whole(t0)..whole(t1), [b1, b2].map(whole))),
            ["speed", name, t0, t1, num, den] => {
                self.cell(name).speeds.push((whole(t0)..whole(t1), [num, den].map(whole)))
            }
            _ => panic!("no record: {fields:?}"),
        }
    }

    fn add(&mut self, name: &'a str, kind: Kind, capacity: u64, n: u64) {
        let (signal, limits, demands, turns, speeds) = (None, vec![], vec![], vec![], vec![]);
        let (come, gone, wait) = (0, 0, 0);
        self.places.insert(name, self.cells.len());
        self.cells.push(Cell { name, kind, capacity, signal, limits, demands, turns, speeds, n, come, gone, wait });
    }

    fn cell(&mut self, name: &str) -> &mut Cell<'a> {
        &mut self.cells[self.places[name]]
    }

    fn step(&mut self, t: u32) {
        let (s, r) = (|place: usize| self.cells[place].sending(t), |place: usize| self.cells[place].receiving(t));
        let (mut enters, mut leaves) = (vec![0; self.cells.len()], vec![0; self.cells.len()]);
        for connector in &self.connectors {
            match *connector {
                Link([from, to]) => {
                    let y = s(from).min(r(to));
                    (leaves[from], enters[to]) = (y, y);
                }
                Merge([from1, from2, to], priorities) => {
                    let [y1, y2] = merge(s(from1), s(from2), r(to), priorities);
                    (leaves[from1], leaves[from2], enters[to]) = (y1, y2, y1 + y2);
                }
                Diverge([from, to1, to2], shares) => {
                    let [b1, b2] = at(&self.cells[from].turns, t).next_back().unwrap_or(shares);
                    let k = (s(from) / (b1 + b2)).min(r(to1) / b1).min(r(to2) / b2);
                    (leaves[from], enters[to1], enters[to2]) = (k * (b1 + b2), k * b1, k * b2);
                }
            }
        }
        for ((cell, enters), leaves) in self.cells.iter_mut().zip(enters).zip(leaves) {
            let enters = enters + at(&cell.demands, t).sum::<u64>();
            cell.wait += if cell.kind == Kind::Exit { 0 } else { cell.n - leaves };
            cell.n = cell.n + enters - leaves;
            cell.come += enters;
            cell.gone += leaves;
        }
    }

    fn run(&mut self, every: u32, out: &mut impl Write) -> io::Result<()> {
        writeln!(out, "report,{},{}", self.steps, self.cells.len())?;
        for t in 0..=self.steps {
            if every > 0 && (t % every == 0 || t == self.steps) {
                for Cell { name, n, gone, .. } in &self.cells {
                    writeln!(out, "at,{t},{name},{},{}", Vehicles(*n), Vehicles(*gone))?;
                }
            }
            if t < self.steps {
                self.step(t);
            }
        }
        for Cell { name, n, come, gone, wait, .. } in &self.cells {
            writeln!(out, "cell,{name},{},{},{},{}", Vehicles(*n), Vehicles(*come), Vehicles(*gone), Vehicles(*wait))?;
        }
        let total = |of: fn(&Cell) -> u64| Vehicles(self.cells.iter().map(|cell| u128::from(of(cell))).sum::<u128>());
        let inside = total(|cell| if cell.kind == Kind::Exit { 0 } else { cell.n });
        let entered = total(|cell| if cell.kind == Kind::Gate { cell.come } else { 0 });
        let left = total(|cell| if cell.kind == Kind::Exit { cell.n } else { 0 });
        writeln!(out, "total,{inside},{entered},{left},{}", total(|cell| cell.wait))
    }
}

fn whole<T: FromStr<Err: fmt::Debug>>(text: &str) -> T {
    text.parse().expect("a whole number")
}

fn amount(text: &str) -> u64 {
    let (vehicles, decimals) = text.split_once('.').unwrap_or((text, "0"));
    whole::<u64>(vehicles) * 1_000_000 + whole::<u64>(decimals) * 10u64.pow(6 - decimals.len() as u32)
}

fn main() -> io::Result<()> {
    let every = env::args().nth(1).map_or(0, |word| whole(&word));
    let mut bytes = vec![];
    io::stdin().read_to_end(&mut bytes)?;
    // Where there is no fault, quotes stand round fields that need none, and other bytes than ASCII in comments.
    let text = String::from_utf8_lossy(&bytes).replace('"', "");
    let mut out = BufWriter::new(io::stdout().lock());
    Network::read(text.trim_start_matches('\u{feff}')).run(every, &mut out)?;
    out.flush()
}
