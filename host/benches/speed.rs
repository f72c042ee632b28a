//! How fast the library reads, plainly and with an index, beside two readers in Rust, one of the usual kind and one tuned for speed,
//! and a bare scan of the bytes, on the same texts in one run.
//!
//! Each time is the median of several rounds; in each round the five take turns, so that all meet the same state of the machine.
//! All readers clear the whole of their tables first, the index too. The bench `mixtures` has the scenes that are worst for mixtures.

#[path = "../reference/mod.rs"]
mod reference;

use kribbelsteen::{raw, Mode, INDEX, MOST_BYTES, MOST_PRIMITIVES, MOST_REALS, PAIR, RECORD};
use reference::{scene, tuned};
use std::hint::black_box;
use std::time::{Duration, Instant};

const ROUNDS: usize = 21;
const ROUND: Duration = Duration::from_millis(15);

// ---- texts

/// A control room of so many primitives: materials, surfaces that have them, aliases and comments.
fn room(primitives: usize) -> String {
    let mut text = String::from("# Control room\n");
    for n in 0..primitives {
        let finish = format!("finish_{}", n / 10);
        text += &match n % 10 {
            0 => format!("\n# Panels of rack {0}\nvoid plastic {finish}\n0 0 5 .52 .36 .2 .03 .1\n", n / 10),
            1 => format!("void light lamp_{n}\n0 0 3 40 40 38.5\n"),
            2 => format!("void alias trim_{n} {finish}\n"),
            3 => format!("trim_{} sphere knob_{n} 0 0 4 {n} 1.25 -2 .06\n", n - 1),
            4 => format!("{finish} ring rim_{n} 0 0 8 1 2 {n} 0 0 1 .5 .75\n"),
            5 => format!("{finish} alias edge_{n} {finish}\n"),
            6 => format!("lamp_{} sphere bulb_{n} 0 0 4 1.2 1 {n}.5 6e-2\n", n - 5),
            7 => format!("edge_{} bubble dome_{n}\n0\n0\n4 3 4 5 {n}.125\n", n - 2),
            8 => format!("void glass pane_{n} 0 0 3 .96 .96 .96\n"),
            _ => format!("pane_{} sphere lens_{n} 0 0 4 -1 0 {n} .002\n", n - 1),
        };
    }
    text
}

/// A full file of small primitives whose names differ at the end and whose modifiers all lead to the first: the longest way for a
/// search from the latest name back.
fn far_back() -> String {
    let name = |n: usize| format!("panel_of_the_desk_{n:04}");
    let line = |modifier: &str, n: usize| format!("{modifier} light {} 0 0 3 1 1 1\n", name(n));
    let mut text = line("void", 0);
    (1..MOST_PRIMITIVES).for_each(|n| text += &line(&name(0), n));
    text.extend(std::iter::repeat_n('#', MOST_BYTES - text.len()));
    text
}

/// As many reals as there may be, most of them corners of polygons.
fn many_reals() -> String {
    let corner = |n: usize| format!(" {}.{:03} -{}e-3 .{:04}\n", n % 7, n % 1000, n % 977, n % 10_000);
    let mut text = String::from("void glow shine 0 0 4 1 1 1 0\n");
    for n in 0..(MOST_REALS - 4) / 12 {
        text += &format!("shine polygon panel_{n} 0 0 12");
        (4 * n..4 * n + 4).for_each(|n| text += &corner(n));
    }
    text
}

/// A full file whose names all have one hash, each under the one before it: the longest way for every search of the index.
fn colliding() -> String {
    let pair = |n: usize, bit: usize| if n >> bit & 1 == 0 { "Aa" } else { "BB" };
    let name = |n: usize| (0..10).map(|bit| pair(n, bit)).collect::<String>();
    let line = |modifier: &str, n: usize| format!("{modifier} light {} 0 0 3 1 1 1\n", name(n));
    let mut text = line("void", 0);
    (1..MOST_PRIMITIVES).for_each(|n| text += &line(&name(n - 1), n));
    text
}

// ---- what is timed

/// 0 blank, 1 good in a word, 2 bad.
const CLASSES: [u8; 256] = {
    let mut classes = [2; 256];
    let mut byte = 0;
    while byte < 256 {
        classes[byte] = match byte {
            9..=13 | 32 => 0,
            33..=126 => 1,
            _ => 2,
        };
        byte += 1;
    }
    classes
};

/// The least that any reader does: looks up the class of each byte. Counts where the class changes, so that the work is not
/// dropped.
fn scan(text: &[u8]) -> usize {
    let (mut last, mut changes) = (0, 0);
    for &byte in text {
        let class = CLASSES[usize::from(byte)];
        changes += usize::from(class != last);
        last = class;
    }
    changes
}

fn scan_bytes(text: &[u8]) {
    black_box(scan(black_box(text)));
}

/// Lent tables, which hold something before they are read into.
struct Tables {
    records: Vec<u32>,
    reals: Vec<f64>,
    pairs: Vec<u32>,
    index: Vec<u32>,
}

impl Tables {
    fn new() -> Self {
        Tables {
            records: vec![9; RECORD * MOST_PRIMITIVES],
            reals: vec![9.0; MOST_REALS],
            pairs: vec![9; PAIR * MOST_PRIMITIVES],
            index: vec![9; INDEX],
        }
    }

    fn read_plainly(&mut self, text: &[u8]) {
        let Tables { records, reals, pairs, .. } = self;
        black_box(raw::read(Mode::New.number(), black_box(text), records, reals, pairs));
    }

    fn read_indexed(&mut self, text: &[u8]) {
        let Tables { records, reals, pairs, index } = self;
        black_box(raw::read_indexed(Mode::New.number(), black_box(text), records, reals, pairs, index));
    }

    fn read_by_reference(&mut self, text: &[u8]) {
        let Tables { records, reals, pairs, .. } = self;
        let _ = black_box(scene::read(false, black_box(text), records, reals, pairs));
    }

    fn read_tuned(&mut self, text: &[u8]) {
        let Tables { records, reals, pairs, .. } = self;
        let _ = black_box(tuned::read(false, black_box(text), records, reals, pairs));
    }

    fn holds_what(&self, other: &Tables) -> bool {
        self.records == other.records && self.reals == other.reals && self.pairs == other.pairs
    }
}

/// Seconds for one call, over so many.
fn time(calls: usize, mut work: impl FnMut()) -> f64 {
    let start = Instant::now();
    (0..calls).for_each(|_| work());
    start.elapsed().as_secs_f64() / calls as f64
}

/// So many calls that they take about a round.
fn calls_of(mut work: impl FnMut()) -> usize {
    let mut calls = 1;
    loop {
        let taken = time(calls, &mut work) * calls as f64;
        if taken >= ROUND.as_secs_f64() {
            return calls;
        }
        calls *= 2;
    }
}

fn median(mut times: Vec<f64>) -> f64 {
    times.sort_by(f64::total_cmp);
    times[times.len() / 2]
}

/// Seconds per text: plain, indexed, the usual reader, the tuned one, scan.
fn measure(text: &[u8]) -> [f64; 5] {
    let [mut plain, mut indexed, mut usual, mut tuned] = [(); 4].map(|()| Tables::new());
    let calls = [
        calls_of(|| plain.read_plainly(text)),
        calls_of(|| indexed.read_indexed(text)),
        calls_of(|| usual.read_by_reference(text)),
        calls_of(|| tuned.read_tuned(text)),
        calls_of(|| scan_bytes(text)),
    ];
    let all_alike = [&plain, &indexed, &tuned].iter().all(|tables| tables.holds_what(&usual));
    assert!(all_alike, "all readers fill the same tables");
    let mut times = [(); 5].map(|()| Vec::with_capacity(ROUNDS));
    for _ in 0..ROUNDS {
        times[0].push(time(calls[0], || plain.read_plainly(text)));
        times[1].push(time(calls[1], || indexed.read_indexed(text)));
        times[2].push(time(calls[2], || usual.read_by_reference(text)));
        times[3].push(time(calls[3], || tuned.read_tuned(text)));
        times[4].push(time(calls[4], || scan_bytes(text)));
    }
    times.map(median)
}

fn report(what: &str, text: &str) {
    let text = text.as_bytes();
    let Tables { mut records, mut reals, mut pairs, mut index } = Tables::new();
    let (reason, [_, primitives, used, looked]) =
        raw::read_indexed(Mode::New.number(), text, &mut records, &mut reals, &mut pairs, &mut index);
    assert_eq!(reason, 0, "{what} is accepted");
    let times = measure(text);
    let [plain, indexed, usual, tuned, floor] = times.map(|seconds| seconds * 1e6);
    println!(
        "{what:<15} {:>5} {primitives:>6} {used:>5} {looked:>7} | {plain:>8.2} {indexed:>8.2} {usual:>8.2} {tuned:>8.2} {floor:>6.2} | {:>8.2} {:>8.2}",
        text.len(),
        indexed / usual,
        indexed / tuned,
    );
}

fn main() {
    println!(
        "{:<15} {:>5} {:>6} {:>5} {:>7} | {:>8} {:>8} {:>8} {:>8} {:>6} | {:>8} {:>8}",
        "", "", "primi-", "", "", "plain", "indexed", "Rust", "tuned", "scan", "indexed/", "indexed/",
    );
    println!(
        "{:<15} {:>5} {:>6} {:>5} {:>7} | {:>8} {:>8} {:>8} {:>8} {:>6} | {:>8} {:>8}",
        "scene", "bytes", "tives", "reals", "looked", "us", "us", "us", "us", "us", "Rust", "tuned",
    );
    report("10 mixed", &room(10));
    report("100 mixed", &room(100));
    report("1,000 mixed", &room(1_000));
    report("1,024 tiny ones", &far_back());
    report("4,096 reals", &many_reals());
    report("1,024 colliding", &colliding());
}
