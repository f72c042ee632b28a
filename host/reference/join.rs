//! Two hands' edits of a base joined, as one would write it in Rust: the definitions of each scene are kept by name in a sorted map, one is
//! chosen for each name, and each waits until as many as it needs have come. What a definition refers to is taken from the tables of a
//! reading, and its spelling from the lines of the tidy text.

use super::scene::{self, is_surface, next_word, Counts, Refused, MODIFIER, RECORD, TARGET, TYPE};
use super::tidy::{self, Line};
use std::collections::{BTreeMap, BTreeSet};

/// Of no text, of the base, the left and the right one, and of the joined or typed one.
pub const NO_TEXT: usize = 0;
pub const JOINED_TEXT: usize = 4;

const OUTPUT_TOO_SMALL: u32 = 23;
const NAME_TWICE: u32 = 29;
const BOTH_CHANGED: u32 = 30;
const NO_ORDER: u32 = 31;
const OTHER_DEFINITIONS: u32 = 32;

/// Why texts are not joined, with the number of the text that is refused.
#[derive(Clone, Copy, Debug, PartialEq, Eq)]
pub struct NotJoined {
    pub text: usize,
    pub refused: Refused,
}

fn refusal(reason: u32) -> NotJoined {
    NotJoined { text: NO_TEXT, refused: Refused { reason, place: 0 } }
}

/// An accepted text and its tables.
pub struct Joined {
    pub text: Vec<u8>,
    pub records: Vec<u32>,
    pub reals: Vec<f64>,
    pub counts: Counts,
}

/// How texts are read: the mode, and the lengths of the tables.
#[derive(Clone, Copy)]
pub struct Reading {
    pub archive: bool,
    pub records: usize,
    pub reals: usize,
}

impl Reading {
    /// Reads the text of a number.
    fn read(self, number: usize, text: &[u8]) -> Result<Joined, NotJoined> {
        let (mut records, mut reals) = (vec![0; self.records], vec![0.0; self.reals]);
        let counts = scene::read_without_pairs(self.archive, text, &mut records, &mut reals)
            .map_err(|refused| NotJoined { text: number, refused })?;
        Ok(Joined { text: text.to_vec(), records, reals, counts })
    }
}

#[derive(Clone, Debug, PartialEq)]
enum Body<'s> {
    Alias { target: &'s [u8] },
    Primitive { kind: u32, strings: Vec<&'s [u8]>, reals: Vec<u64> },
}

#[derive(Clone, Debug, PartialEq)]
struct Definition<'s> {
    /// None for `void`.
    modifier: Option<&'s [u8]>,
    body: Body<'s>,
}

impl<'s> Definition<'s> {
    fn needs(&self) -> BTreeSet<&'s [u8]> {
        let target = match self.body {
            Body::Alias { target } => Some(target),
            Body::Primitive { .. } => None,
        };
        self.modifier.into_iter().chain(target).collect()
    }

    fn gives(&self) -> bool {
        !matches!(self.body, Body::Primitive { kind, .. } if is_surface(kind))
    }
}

/// Definitions by name, each with its number from 0.
type Definitions<'s> = BTreeMap<&'s [u8], (usize, Definition<'s>)>;

impl Joined {
    fn name(&self, number: usize) -> &[u8] {
        let record = &self.records[RECORD * (number - 1)..];
        &self.text[record[3] as usize..][..record[4] as usize]
    }

    fn strings(&self, place: usize, count: usize) -> Vec<&[u8]> {
        let mut at = place;
        let mut next = || {
            let (place, len) = next_word(&self.text, at);
            at = place + len;
            &self.text[place..at]
        };
        (0..count).map(|_| next()).collect()
    }

    fn definition(&self, number: usize) -> Definition<'_> {
        let record: Vec<usize> = self.records[RECORD * (number - 1)..][..RECORD].iter().map(|&n| n as usize).collect();
        let name = |link: usize| (link > 0).then(|| self.name(link));
        let body = match name(record[TARGET]) {
            Some(target) => Body::Alias { target },
            None => Body::Primitive {
                kind: record[TYPE] as u32,
                strings: self.strings(record[5], record[6]),
                reals: self.reals[record[7]..][..record[8]].iter().map(|real| real.to_bits()).collect(),
            },
        };
        Definition { modifier: name(record[MODIFIER]), body }
    }

    /// None where a name stands twice.
    fn definitions(&self) -> Option<Definitions<'_>> {
        let count = self.counts.primitives;
        let all: Definitions =
            (1..=count).map(|number| (self.name(number), (number - 1, self.definition(number)))).collect();
        (all.len() == count).then_some(all)
    }
}

/// Which hand.
#[derive(Clone, Copy)]
enum Hand {
    Left,
    Right,
}

/// What is to be held: of each name the hand, the number there and the definition.
type Plan<'s> = BTreeMap<&'s [u8], (Hand, usize, Definition<'s>)>;

/// Whose definition of a name is taken, none where both hands changed it differently. No definition counts as one.
fn choose<'s>(
    base: Option<&Definition<'s>>,
    left: Option<&Definition<'s>>,
    right: Option<&Definition<'s>>,
) -> Option<Hand> {
    match (left == right, left == base, right == base) {
        (true, _, _) | (false, false, true) => Some(Hand::Left),
        (false, true, _) => Some(Hand::Right),
        (false, false, false) => None,
    }
}

fn pick<'s>([base, left, right]: &[Definitions<'s>; 3]) -> Result<Plan<'s>, NotJoined> {
    let mut plan = Plan::new();
    for &name in left.keys().chain(right.keys()) {
        let [old, ours, theirs] = [base, left, right].map(|all| all.get(name).map(|(_, definition)| definition));
        let hand = choose(old, ours, theirs).ok_or(refusal(BOTH_CHANGED))?;
        let taken = match hand {
            Hand::Left => left.get(name),
            Hand::Right => right.get(name),
        };
        if let Some((number, definition)) = taken {
            plan.insert(name, (hand, *number, definition.clone()));
        }
    }
    Ok(plan)
}

/// The names in their order.
fn arrange<'s>(plan: &Plan<'s>) -> Result<Vec<&'s [u8]>, NotJoined> {
    let mut waiting: BTreeMap<&[u8], Vec<&[u8]>> = BTreeMap::new();
    let mut awaited: BTreeMap<&[u8], usize> = BTreeMap::new();
    let mut ready = BTreeSet::new();
    for (&name, (_, _, definition)) in plan {
        let needs = definition.needs();
        awaited.insert(name, needs.len());
        if needs.is_empty() {
            ready.insert(name);
        }
        needs.into_iter().for_each(|need| waiting.entry(need).or_default().push(name));
    }
    let mut order = Vec::new();
    while let Some(name) = ready.pop_first() {
        order.push(name);
        if !plan[name].2.gives() {
            continue;
        }
        for &later in waiting.get(name).into_iter().flatten() {
            let missing = awaited.get_mut(later).expect("each name waits");
            *missing -= 1;
            if *missing == 0 {
                ready.insert(later);
            }
        }
    }
    Some(order).filter(|order| order.len() == plan.len()).ok_or(refusal(NO_ORDER))
}

/// Reads the three texts, and calls with what is to be held, the order of its names and the lines of both hands' statements.
fn planned<T>(
    reading: Reading,
    texts: [&[u8]; 3],
    and_then: impl FnOnce(&Plan, &[&[u8]], [Vec<Vec<Line>>; 2]) -> Result<T, NotJoined>,
) -> Result<T, NotJoined> {
    let [base, left, right] = texts;
    let scenes = [reading.read(1, base)?, reading.read(2, left)?, reading.read(3, right)?];
    let [Some(base), Some(ours), Some(theirs)] = scenes.each_ref().map(Joined::definitions) else {
        return Err(refusal(NAME_TWICE));
    };
    let plan = pick(&[base, ours, theirs])?;
    let order = arrange(&plan)?;
    and_then(&plan, &order, [left, right].map(tidy::statements))
}

fn within(room: usize, joined: Joined) -> Result<Joined, NotJoined> {
    Some(joined).filter(|joined| joined.text.len() <= room).ok_or(refusal(OUTPUT_TOO_SMALL))
}

/// The joined text of a base, a left and a right text for an output of so many bytes, or why there is none.
pub fn join(reading: Reading, texts: [&[u8]; 3], room: usize) -> Result<Joined, NotJoined> {
    planned(reading, texts, |plan, order, [left, right]| {
        let statement = |name: &&[u8]| match plan[*name] {
            (Hand::Left, number, _) => left[number].clone(),
            (Hand::Right, number, _) => right[number].clone(),
        };
        let text = tidy::joined(&order.iter().map(statement).collect::<Vec<_>>());
        within(room, reading.read(JOINED_TEXT, &text)?)
    })
}

/// A typed text, if it is a join of the three, for an output of so many bytes, or why it is none.
pub fn check(reading: Reading, texts: [&[u8]; 3], typed: &[u8], room: usize) -> Result<Joined, NotJoined> {
    planned(reading, texts, |plan, _, _| {
        let scene = reading.read(JOINED_TEXT, typed)?;
        let same = scene.definitions().is_some_and(|held| {
            let both = held.iter().zip(plan);
            held.len() == plan.len() && both.into_iter().all(|((a, (_, x)), (b, (_, _, y)))| a == b && x == y)
        });
        if !same {
            return Err(refusal(OTHER_DEFINITIONS));
        }
        within(room, scene)
    })
}
