//! How long it takes to compare two saves that are read: along an order of each scene's names, the making of both orders included, and
//! key by key with no table, on the same scenes in one run. Each time is the median of several rounds.

use kribbelsteen::raw::{self, Ordered};
use kribbelsteen::{Mode, MOST_PRIMITIVES, PAIR, RECORD};
use std::hint::black_box;
use std::time::Instant;

const ROUNDS: usize = 11;

/// So many lights, whose names of `width` bytes differ in the last five; every seventh is changed.
fn save(primitives: usize, width: usize, changed: bool) -> String {
    let line = |n: usize| {
        let blue = if changed && n % 7 == 0 { 2 } else { 1 };
        format!("void light {}{n:05} 0 0 3 1 1 {blue}\n", "x".repeat(width - 5))
    };
    (0..primitives).map(line).collect()
}

/// A save that is read, with room for its order.
struct Read {
    text: Vec<u8>,
    records: Vec<u32>,
    reals: Vec<f64>,
    order: Vec<u32>,
    scratch: Vec<u32>,
}

impl Read {
    fn new(text: String) -> Self {
        let text = text.into_bytes();
        let (mut records, mut reals) = (vec![0; RECORD * MOST_PRIMITIVES], vec![0.0; 3 * MOST_PRIMITIVES]);
        let mut pairs = vec![0; PAIR * MOST_PRIMITIVES];
        let (reason, [_, primitives, used]) =
            raw::read(Mode::New.number(), &text, &mut records, &mut reals, &mut pairs);
        assert_eq!(reason, 0, "the save is accepted");
        records.truncate(RECORD * primitives);
        reals.truncate(used);
        Read { text, records, reals, order: vec![0; 2 * primitives], scratch: vec![0; primitives] }
    }

    fn sort(&mut self) {
        raw::order_names(&self.text, &self.records, &mut self.order, &mut self.scratch);
    }

    fn ordered(&self) -> Ordered<'_> {
        Ordered { text: &self.text, records: &self.records, reals: &self.reals, order: &self.order }
    }
}

/// How many lines there are, along an order of each.
fn by_orders(left: &mut Read, right: &mut Read) -> usize {
    left.sort();
    right.sort();
    let (mut line, mut lines) = ([0; 6], 0);
    while raw::next_ordered(left.ordered(), right.ordered(), &mut line) != 0 {
        lines += 1;
    }
    lines
}

/// The same, key by key.
fn by_keys(left: &Read, right: &Read) -> usize {
    let (mut line, mut lines) = ([0; 4], 0);
    let next = |line: &mut [usize; 4]| {
        raw::next_line(&left.text, &left.records, &left.reals, &right.text, &right.records, &right.reals, line)
    };
    while next(&mut line) != 0 {
        lines += 1;
    }
    lines
}

/// Milliseconds of the median round.
fn milliseconds(mut work: impl FnMut() -> usize) -> f64 {
    let time = |_| {
        let start = Instant::now();
        black_box(work());
        start.elapsed().as_secs_f64() * 1e3
    };
    let mut times: Vec<f64> = (0..ROUNDS).map(time).collect();
    times.sort_by(f64::total_cmp);
    times[ROUNDS / 2]
}

fn main() {
    println!("{:>10} {:>6} {:>5} | {:>9} {:>9}", "primitives", "bytes", "lines", "by orders", "by keys");
    println!("{:>10} {:>6} {:>5} | {:>9} {:>9}", "in each", "a name", "", "ms", "ms");
    for (primitives, width) in [(10, 35), (100, 35), (1_000, 35), (1_024, 35), (700, 64)] {
        let mut left = Read::new(save(primitives, width, false));
        let mut right = Read::new(save(primitives, width, true));
        let lines = by_keys(&left, &right);
        assert_eq!(by_orders(&mut left, &mut right), lines, "both calls hand out the same lines");
        let ordered = milliseconds(|| by_orders(&mut left, &mut right));
        let keyed = milliseconds(|| by_keys(&left, &right));
        println!("{primitives:>10} {width:>6} {lines:>5} | {ordered:>9.3} {keyed:>9.3}");
    }
}
