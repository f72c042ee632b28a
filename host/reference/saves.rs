//! Two saves read, and compared by name, as one would write it in Rust: what each key has is kept in a sorted map for each save, and all lines are
//! worked out at once. The tables may hold anything.

use super::scene::{self, next_word, Counts, Refused, RECORD};
use std::collections::{BTreeMap, BTreeSet};

const LEFT: usize = 0;
const RIGHT: usize = 1;
const ONLY_LEFT: usize = 1;
const ONLY_RIGHT: usize = 2;
const CHANGED: usize = 3;

/// Reads two scenes, left and right, in one mode. If one is refused the first of these is given with its side, and all tables are zero.
pub fn read_both(
    archive: bool,
    texts: [&[u8]; 2],
    records: &mut [Vec<u32>; 2],
    reals: &mut [Vec<f64>; 2],
) -> Result<[Counts; 2], (usize, Refused)> {
    let mut read = |side: usize| scene::read_without_pairs(archive, texts[side], &mut records[side], &mut reals[side]);
    let refused = match (read(LEFT), read(RIGHT)) {
        (Ok(left), Ok(right)) => return Ok([left, right]),
        (Err(refused), _) => (LEFT, refused),
        (_, Err(refused)) => (RIGHT, refused),
    };
    records.iter_mut().for_each(|table| table.fill(0));
    reals.iter_mut().for_each(|table| table.fill(0.0));
    Err(refused)
}

/// A text and both tables, of which each whole record counts.
#[derive(Clone, Copy)]
pub struct Save<'s> {
    pub text: &'s [u8],
    pub records: &'s [u32],
    pub reals: &'s [f64],
}

/// A name, and which definition of it, from 1.
pub type Key<'s> = (&'s [u8], usize);

/// What makes two primitives the same.
#[derive(PartialEq)]
struct Content<'s> {
    kind: usize,
    string_count: usize,
    /// Those that are not empty: once the text has no more words, all are.
    strings: Vec<&'s [u8]>,
    reals: Vec<u64>,
    target: Option<Key<'s>>,
    modifier: Option<Key<'s>>,
}

/// As much of a part as there is.
fn part<T>(all: &[T], first: usize, count: usize) -> &[T] {
    let rest = all.get(first..).unwrap_or_default();
    &rest[..count.min(rest.len())]
}

/// All NaNs are one.
fn bits(x: f64) -> u64 {
    if x.is_nan() {
        f64::NAN.to_bits()
    } else {
        x.to_bits()
    }
}

impl<'s> Save<'s> {
    /// The key of each number.
    pub fn keys(self) -> Vec<Key<'s>> {
        let mut times = BTreeMap::new();
        let names = self.records.chunks_exact(RECORD).map(|r| part(self.text, r[3] as usize, r[4] as usize));
        names
            .map(|name| {
                let nth = times.entry(name).or_insert(0);
                *nth += 1;
                (name, *nth)
            })
            .collect()
    }

    /// The numbers of the first records in the order of their keys, and the nth of each, in a table of so many entries with so much scratch.
    pub fn order(self, entries: usize, scratch: usize) -> Vec<u32> {
        let (keys, half) = (self.keys(), entries / 2);
        let count = keys.len().min(scene::MOST_RECORDS).min(half).min(scratch);
        let mut numbers: Vec<usize> = (1..=count).collect();
        numbers.sort_by_key(|number| keys[number - 1]);
        let mut order = vec![0; entries];
        for (at, number) in numbers.into_iter().enumerate() {
            order[at] = number as u32;
            order[half + number - 1] = keys[number - 1].1 as u32;
        }
        order
    }

    fn strings(self, place: usize, count: usize) -> Vec<&'s [u8]> {
        let mut at = place;
        let words = std::iter::from_fn(|| {
            let (place, len) = next_word(self.text, at);
            at = place + len;
            (len > 0).then(|| &self.text[place..at])
        });
        words.take(count).collect()
    }

    /// Each key's number and content.
    fn contents(self) -> BTreeMap<Key<'s>, (usize, Content<'s>)> {
        let keys = self.keys();
        let key_of = |link: usize| keys.get(link.checked_sub(1)?).copied();
        let contents = self.records.chunks_exact(RECORD).map(|record| {
            let number = |at: usize| record[at] as usize;
            Content {
                kind: number(0),
                string_count: number(6),
                strings: self.strings(number(5), number(6)),
                reals: part(self.reals, number(7), number(8)).iter().map(|&x| bits(x)).collect(),
                target: key_of(number(2)),
                modifier: key_of(number(1)),
            }
        });
        keys.iter().copied().zip((1..).zip(contents)).collect()
    }
}

/// All lines of a comparison.
pub struct Comparison<'s> {
    keys: [Vec<Key<'s>>; 2],
    /// In the order of keys: side, number, nth and state.
    lines: Vec<(Key<'s>, [usize; 4])>,
}

impl<'s> Comparison<'s> {
    pub fn new(left: Save<'s>, right: Save<'s>) -> Self {
        let (ours, theirs) = (left.contents(), right.contents());
        let all: BTreeSet<Key> = ours.keys().chain(theirs.keys()).copied().collect();
        let line = |key: &Key<'s>| {
            let (side, number, state) = match (ours.get(key), theirs.get(key)) {
                (Some((_, a)), Some((_, b))) if a == b => return None,
                (Some((number, _)), Some(_)) => (LEFT, *number, CHANGED),
                (Some((number, _)), None) => (LEFT, *number, ONLY_LEFT),
                (None, Some((number, _))) => (RIGHT, *number, ONLY_RIGHT),
                (None, None) => unreachable!("a key is one of either save"),
            };
            Some((*key, [side, number, key.1, state]))
        };
        Comparison { keys: [left.keys(), right.keys()], lines: all.iter().filter_map(line).collect() }
    }

    pub fn len(&self) -> usize {
        self.lines.len()
    }

    /// The first line after the key of a number, after none where no primitive of that side has it.
    pub fn after(&self, side: usize, number: usize) -> Option<[usize; 4]> {
        let keys = &self.keys[side.min(RIGHT)];
        let held = number.checked_sub(1).and_then(|at| keys.get(at));
        let passed = self.lines.partition_point(|(key, _)| held.is_some_and(|held| key <= held));
        self.lines.get(passed).map(|&(_, line)| line)
    }
}
