//! How long the scenes take that are worst for mixtures: to read, plainly and with an index, beside two readers in Rust, and to list what
//! their first and their last primitive may show, beside a list in Rust. Each scene has as many primitives as there may be. Each time
//! is the median of several rounds, in which all take turns.

#[path = "../reference/mod.rs"]
mod reference;

use kribbelsteen::{raw, Mode, INDEX, MOST_PRIMITIVES, MOST_REALS, PAIR, RECORD};
use reference::{mixtures, scene, tuned};
use std::hint::black_box;
use std::time::Instant;

const ROUNDS: usize = 21;

// ---- scenes

/// Mixtures under modifiers, each with sides, all by their numbers from 1, and a light as the last primitive. Sides that there are not
/// lead to the light.
fn scene_of(modifier: impl Fn(usize) -> usize, sides: impl Fn(usize) -> [usize; 2]) -> String {
    let last = MOST_PRIMITIVES;
    let name = |n: usize| if n == 0 { "void".to_owned() } else { format!("m{}", n.min(last)) };
    let line = |n: usize| {
        let [foreground, background] = sides(n).map(name);
        format!("{} mixfunc m{n} 4 {foreground} {background} v f.cal 0 0\n", name(modifier(n)))
    };
    (1..last).map(line).collect::<String>() + &format!("void light m{last} 0 0 3 1 1 1\n")
}

/// All sides lead to the next mixture, and the last one's to the light.
fn chain_down() -> String {
    scene_of(|_| 0, |n| [n + 1; 2])
}

/// All sides lead to the mixture before, and the first one's to the light.
fn chain_up() -> String {
    scene_of(|_| 0, |n| [if n == 1 { MOST_PRIMITIVES } else { n - 1 }; 2])
}

/// Each leads to the three before it: the number of ways grows with the power of the primitives.
fn three_links() -> String {
    scene_of(|n| n - 1, |n| [n.saturating_sub(2), n.saturating_sub(3)])
}

/// Each leads to two of its own, and half of them to the light.
fn tree() -> String {
    scene_of(|_| 0, |n| [2 * n, 2 * n + 1])
}

/// As many lights as mixtures, each mixture of a light and the one before.
fn many_materials() -> String {
    let half = MOST_PRIMITIVES / 2;
    let light = |n: usize| format!("void light l{n} 0 0 3 1 1 1\n");
    let mixture = |n: usize| {
        let before = if n == 1 { "void".to_owned() } else { format!("m{}", n - 1) };
        format!("void mixfunc m{n} 4 l{n} {before} v f.cal 0 0\n")
    };
    (1..=half).map(light).chain((1..=half).map(mixture)).collect()
}

/// A chain whose last mixture leads to itself: the loop is found last.
fn loop_at_the_end() -> String {
    scene_of(|_| 0, |n| [(n + 1).min(MOST_PRIMITIVES - 1); 2])
}

/// A chain that ends where it begins: the loop of all mixtures.
fn loop_of_all() -> String {
    scene_of(|_| 0, |n| [n % (MOST_PRIMITIVES - 1) + 1; 2])
}

// ---- what is timed

struct Tables {
    records: Vec<u32>,
    reals: Vec<f64>,
    pairs: Vec<u32>,
    index: Vec<u32>,
    list: Vec<u32>,
}

impl Tables {
    fn new() -> Self {
        Tables {
            records: vec![9; RECORD * MOST_PRIMITIVES],
            reals: vec![9.0; MOST_REALS],
            pairs: vec![9; PAIR * MOST_PRIMITIVES],
            index: vec![9; INDEX],
            list: vec![9; MOST_PRIMITIVES],
        }
    }

    fn read_plainly(&mut self, text: &[u8]) -> u32 {
        raw::read(Mode::New.number(), black_box(text), &mut self.records, &mut self.reals, &mut self.pairs).0
    }

    fn read_indexed(&mut self, text: &[u8]) -> u32 {
        let Tables { records, reals, pairs, index, .. } = self;
        raw::read_indexed(Mode::New.number(), black_box(text), records, reals, pairs, index).0
    }

    fn read_by_reference(&mut self, text: &[u8]) -> u32 {
        let answer = scene::read(false, black_box(text), &mut self.records, &mut self.reals, &mut self.pairs);
        answer.map_or_else(|refused| refused.reason, |_| 0)
    }

    fn read_tuned(&mut self, text: &[u8]) -> u32 {
        let answer = tuned::read(false, black_box(text), &mut self.records, &mut self.reals, &mut self.pairs);
        answer.map_or_else(|refused| refused.reason, |_| 0)
    }

    /// How many materials a primitive may show.
    fn list(&mut self, number: usize) -> usize {
        let (reason, listed) = raw::shown(&self.records, &self.pairs, MOST_PRIMITIVES, number, &mut self.list);
        assert_eq!(reason, 0, "the tables are those of a reading");
        listed
    }

    fn list_by_reference(&self, number: usize) -> usize {
        let shown = mixtures::shown(&self.records, &self.pairs, MOST_PRIMITIVES, number, MOST_PRIMITIVES);
        shown.expect("the tables are those of a reading").len()
    }
}

/// Microseconds of one call.
fn time<T>(work: impl FnOnce() -> T) -> f64 {
    let start = Instant::now();
    black_box(work());
    start.elapsed().as_secs_f64() * 1e6
}

fn median(mut times: Vec<f64>) -> f64 {
    times.sort_by(f64::total_cmp);
    times[times.len() / 2]
}

/// Microseconds to read: plain, indexed, the usual reader, the tuned one.
fn measure_reading(tables: &mut Tables, text: &[u8]) -> [f64; 4] {
    let mut times = [(); 4].map(|()| Vec::with_capacity(ROUNDS));
    for _ in 0..ROUNDS {
        times[0].push(time(|| tables.read_plainly(text)));
        times[1].push(time(|| tables.read_indexed(text)));
        times[2].push(time(|| tables.read_by_reference(text)));
        times[3].push(time(|| tables.read_tuned(text)));
    }
    times.map(median)
}

/// Microseconds to list what the first and the last but one may show, the list in Rust of the longer one behind them.
fn measure_lists(tables: &mut Tables) -> [f64; 3] {
    let (first, last) = (1, MOST_PRIMITIVES - 1);
    let mut times = [(); 3].map(|()| Vec::with_capacity(ROUNDS));
    for _ in 0..ROUNDS {
        times[0].push(time(|| tables.list(first)));
        times[1].push(time(|| tables.list(last)));
        let ours = [first, last].map(|number| time(|| tables.list_by_reference(number)));
        times[2].push(ours[0].max(ours[1]));
    }
    times.map(median)
}

fn report(what: &str, text: &str, reason: u32) {
    let text = text.as_bytes();
    let mut tables = Tables::new();
    let reasons =
        [tables.read_by_reference(text), tables.read_tuned(text), tables.read_indexed(text), tables.read_plainly(text)];
    assert_eq!(reasons, [reason; 4], "{what}");
    let [plain, indexed, usual, tuned] = measure_reading(&mut tables, text);
    print!("{what:<16} {:>5} | {plain:>9.1} {indexed:>9.1} {usual:>9.1} {tuned:>9.1} |", text.len());
    if reason == 0 {
        assert!([1, MOST_PRIMITIVES - 1].iter().all(|&n| tables.list(n) == tables.list_by_reference(n)), "{what}");
        let [first, last, usual] = measure_lists(&mut tables);
        println!(" {first:>9.1} {last:>9.1} {usual:>9.1}");
    } else {
        println!(" refused by {reason}");
    }
}

fn main() {
    println!("{:<16} {:>5} | {:^39} | {:^29}", "", "", "reading", "lists");
    println!(
        "{:<16} {:>5} | {:>9} {:>9} {:>9} {:>9} | {:>9} {:>9} {:>9}",
        "", "", "plain", "indexed", "Rust", "tuned", "first", "last", "Rust",
    );
    println!(
        "{:<16} {:>5} | {:>9} {:>9} {:>9} {:>9} | {:>9} {:>9} {:>9}",
        "1,024 primitives", "bytes", "us", "us", "us", "us", "us", "us", "us",
    );
    report("chain down", &chain_down(), 0);
    report("chain up", &chain_up(), 0);
    report("three links each", &three_links(), 0);
    report("tree", &tree(), 0);
    report("512 materials", &many_materials(), 0);
    report("loop at the end", &loop_at_the_end(), 26);
    report("loop of all", &loop_of_all(), 26);
}
