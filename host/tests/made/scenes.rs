//! Scene texts, short and long, well-formed and damaged, and the lengths of the tables that are lent for them.

use super::numerals;
use crate::reference::index::{hash, INDEX};
use crate::reference::mixtures::MIXFUNC;
use crate::reference::random::Random;
use crate::reference::scene::{self, pairs_needed, MOST_BYTES, MOST_REALS, MOST_RECORDS, RECORD};

/// A mode by its number, a text, and how many entries are lent.
pub struct Case {
    pub mode: u32,
    pub text: Vec<u8>,
    pub records: usize,
    pub reals: usize,
    pub pairs: usize,
}

impl Case {
    /// With as many pairs as the records need.
    pub fn new(mode: u32, text: Vec<u8>, records: usize, reals: usize) -> Case {
        Case { mode, text, records, reals, pairs: pairs_needed(records) }
    }

    pub fn is_archive(&self) -> bool {
        self.mode == ARCHIVE
    }
}

const ARCHIVE: u32 = 1;

/// Any number but that of the archive reading is the new one's.
fn mode(random: &mut Random) -> u32 {
    *random.pick(&[0, 0, 0, ARCHIVE, ARCHIVE, ARCHIVE, 2, u32::MAX])
}

/// The words of a statement.
pub type Words = Vec<Vec<u8>>;

/// Type, how many strings and how many reals it may have.
const TYPES: [(&str, &[usize], &[usize]); 25] = [
    ("source", &[0], &[4]),
    ("sphere", &[0], &[4]),
    ("bubble", &[0], &[4]),
    ("polygon", &[0], &[9, 12, 15]),
    ("cone", &[0], &[8]),
    ("cup", &[0], &[8]),
    ("cylinder", &[0], &[7]),
    ("tube", &[0], &[7]),
    ("ring", &[0], &[8]),
    ("light", &[0], &[3]),
    ("illum", &[1], &[3]),
    ("glow", &[0], &[4]),
    ("spotlight", &[0], &[7]),
    ("mirror", &[1], &[3]),
    ("plastic", &[0], &[5]),
    ("metal", &[0], &[5]),
    ("trans", &[0], &[7]),
    ("plastic2", &[4, 5, 7], &[6]),
    ("metal2", &[4, 6], &[6]),
    ("trans2", &[4], &[8]),
    ("dielectric", &[0], &[5]),
    ("interface", &[0], &[8]),
    ("glass", &[0], &[3, 4]),
    ("antimatter", &[1, 2, 5], &[0]),
    ("mixfunc", &[4, 5], &[0, 1, 3, 11]),
];
const FIRST_MATERIAL: usize = 9;
/// Types whose reals are under a house rule.
const RULED: [&str; 13] = [
    "source",
    "sphere",
    "bubble",
    "cone",
    "cup",
    "cylinder",
    "tube",
    "ring",
    "plastic2",
    "metal2",
    "trans2",
    "dielectric",
    "interface",
];
/// Fourth reals of glass: the one that three reals stand for, others of its value, and some near its spelling.
const INDICES: [&str; 12] =
    ["1.52", "1.52", "1.52", "1.52", "1.52", "1.520", "1.5", "+1.52", "01.52", "1.52e0", "1.521", "1.53"];
const NAMES: [&str; 15] =
    ["wall", "desk", "deskfront", "lamp", "trim", "a", "b", "x#y", "q!", "#h", "void2", "alias", "sphere", "voi", "0"];
const BLANKS: [&str; 12] = [" ", " ", " ", " ", " ", " ", "\n", "\t", "  ", "\r\n", "\x0b", "\x0c"];
const SPOILERS: [&str; 18] = [
    "void",
    "alias",
    "sphere",
    "light",
    "nowhere",
    "0",
    "1",
    "3",
    "4",
    "5",
    "00000",
    "000000",
    "65536",
    "99999",
    "-1",
    "!",
    "#",
    "caf\u{e9}",
];

fn name(random: &mut Random) -> Vec<u8> {
    match random.below(20) {
        0 => vec![b'n'; 64],
        1 => [vec![b'n'; 63], vec![b'm']].concat(),
        2 => vec![random.within(33, 126) as u8],
        _ => random.pick(&NAMES).as_bytes().to_vec(),
    }
}

fn real(random: &mut Random, kind: &str, at: usize) -> String {
    if random.below(300) == 0 {
        numerals::any(random)
    } else if kind == "ring" && at == 7 {
        "1e3".to_owned()
    } else if kind == "glass" && at == 3 && random.percent(80) {
        (*random.pick(&INDICES)).to_owned()
    } else if RULED.contains(&kind) || kind == "glass" && at == 3 {
        numerals::positive(random)
    } else {
        numerals::good(random)
    }
}

fn count_word(random: &mut Random, n: usize) -> Vec<u8> {
    let width = if random.percent(10) { random.within(1, 5) } else { 1 };
    format!("{n:0width$}").into_bytes()
}

/// The names that stand above a statement: all of them, and those that can be looked up, which surfaces' cannot.
#[derive(Default)]
struct Given {
    all: Words,
    definitions: Words,
}

/// A type by its place in the list. Antimatter, which ends a new reading, is rare there.
fn kind(random: &mut Random, mode: u32) -> usize {
    let number = random.below(TYPES.len());
    if TYPES[number].0 == "antimatter" && mode != ARCHIVE && random.percent(90) {
        return FIRST_MATERIAL;
    }
    number
}

/// A statement that is likely to be accepted.
fn statement(random: &mut Random, mode: u32, given: &mut Given) -> Words {
    statement_of(random, given, |random| kind(random, mode))
}

/// The same of a chosen type, or an alias.
fn statement_of(random: &mut Random, given: &mut Given, kind: impl FnOnce(&mut Random) -> usize) -> Words {
    let modifier = given.modifier(random);
    let name = name(random);
    if !given.definitions.is_empty() && random.percent(20) {
        let target = random.pick(&given.definitions).clone();
        given.give(&name, false);
        return vec![modifier, b"alias".to_vec(), name, target];
    }
    let number = kind(random);
    let (kind, strings, reals) = TYPES[number];
    given.give(&name, number < FIRST_MATERIAL);
    let mut words = vec![modifier, kind.as_bytes().to_vec(), name];
    let strings = *random.pick(strings);
    words.push(count_word(random, strings));
    words.extend((0..strings).map(|_| random.pick(&NAMES).as_bytes().to_vec()));
    if kind == "mixfunc" && random.percent(92) {
        words[SIDES].fill_with(|| given.side(random));
    }
    words.push(count_word(random, 0));
    let reals = *random.pick(reals);
    words.push(count_word(random, reals));
    words.extend((0..reals).map(|at| real(random, kind, at).into_bytes()));
    words
}

/// Where the sides of a mixture stand in its statement.
const SIDES: std::ops::Range<usize> = 4..6;

fn sides(words: &mut Words) -> Option<&mut [Vec<u8>]> {
    let is_mixture = words.get(1).is_some_and(|kind| kind == b"mixfunc");
    words.get_mut(SIDES).filter(|_| is_mixture)
}

impl Given {
    fn give(&mut self, name: &[u8], surface: bool) {
        // A modifier that begins with # would be a comment: it is used now and then, by a spoiled word
        if !name.starts_with(b"#") && !name.starts_with(b"!") {
            self.all.push(name.to_vec());
        }
        if !surface {
            self.definitions.push(name.to_vec());
        }
    }

    /// A side that is defined above, or void.
    fn side(&self, random: &mut Random) -> Vec<u8> {
        if self.definitions.is_empty() || random.percent(20) {
            return b"void".to_vec();
        }
        random.pick(&self.definitions).clone()
    }

    /// A modifier that is likely to be accepted: now and then it has a surface's name.
    fn modifier(&self, random: &mut Random) -> Vec<u8> {
        let names = if random.percent(3) { &self.all } else { &self.definitions };
        if names.is_empty() || random.percent(30) {
            return b"void".to_vec();
        }
        let name = random.pick(names).clone();
        if self.all.contains(&name) {
            name
        } else {
            b"void".to_vec()
        }
    }
}

/// One word changed, put in or taken out.
fn spoil(random: &mut Random, statements: &mut [Words]) {
    if statements.is_empty() {
        return;
    }
    let which = random.below(statements.len());
    let other = random.below(statements.len());
    let other_name = statements[other][2].clone();
    let words = &mut statements[which];
    let at = random.below(words.len());
    match random.below(20) {
        0 => drop(words.remove(at)),
        1 => words.insert(at, words[at].clone()),
        2..=3 => words[at] = random.pick(&SPOILERS).as_bytes().to_vec(),
        4 => words[at] = vec![b'y'; *random.pick(&[64, 65, 66, 200])],
        5 => {
            let byte = random.below(words[at].len());
            words[at][byte] = *random.pick(&[0, 8, 14, 31, 127, 128, 255]);
        }
        6 => words[2] = b"void".to_vec(),
        7 => *words = [b"void".as_slice(), b"alias", b"trim", b"nowhere"].map(<[u8]>::to_vec).to_vec(),
        8 => words[0] = [b"!", words[0].as_slice()].concat(),
        9 => words[0] = [b"#", words[0].as_slice()].concat(),
        10 => *words.last_mut().expect("a statement has words") = numerals::malformed(random).into_bytes(),
        11 => words[at] = numerals::large(random).into_bytes(),
        12 => words[at] = b"-0".to_vec(),
        13 => nudge(random, words),
        14 => statements.swap(which, other),
        15..=16 => *words = [b"void".as_slice(), b"alias", b"trim", other_name.as_slice()].map(<[u8]>::to_vec).to_vec(),
        _ => break_a_rule(random, words),
    }
}

/// Some or all reals from one on become 0, or one of them negative.
fn break_a_rule(random: &mut Random, words: &mut [Vec<u8>]) {
    let first = random.below(words.len().saturating_sub(6) + 1) + 6;
    let count = *random.pick(&[1, 1, 2, 3, 8]);
    let value = *random.pick(&["0", "-0", "0e9", "-1", "1e3"]);
    words.iter_mut().skip(first).take(count).for_each(|word| *word = value.as_bytes().to_vec());
}

/// A number among the words becomes one more or one less.
fn nudge(random: &mut Random, words: &mut Words) {
    let number = |word: &Vec<u8>| std::str::from_utf8(word).ok()?.parse::<u32>().ok();
    let places: Vec<usize> = (0..words.len()).filter(|&k| number(&words[k]).is_some()).collect();
    if places.is_empty() {
        return;
    }
    let at = *random.pick(&places);
    let value = number(&words[at]).expect("chosen as a number");
    let changed = if random.percent(50) { value.saturating_add(1) } else { value.saturating_sub(1) };
    words[at] = changed.to_string().into_bytes();
}

const COMMENTS: [&[u8]; 6] =
    [b"# note \xff!\n", b"\n", b"  \t\n", b"#\n", b" # trailing\r\n", b"#void sphere s 0 0 4\x00\n"];
const ENDS: [&[u8]; 8] = [b"!run it\n", b"# the end", b"!", b"void", b"void sphere", b"#", b" ", b"\x00"];

/// A text of statements, with spacing and comments of its own.
pub fn in_words(random: &mut Random, statements: &[Words]) -> Vec<u8> {
    let mut out = Vec::new();
    for words in statements {
        if random.percent(15) {
            out.extend_from_slice(COMMENTS[random.below(COMMENTS.len())]);
        }
        for word in words {
            out.extend_from_slice(word);
            out.extend_from_slice(random.pick(&BLANKS).as_bytes());
        }
        if random.percent(60) {
            out.push(b'\n');
        }
    }
    out
}

/// The same, now and then with an end that is refused.
fn joined(random: &mut Random, statements: &[Words]) -> Vec<u8> {
    let mut out = in_words(random, statements);
    if random.percent(5) {
        out.extend_from_slice(ENDS[random.below(ENDS.len())]);
    }
    out
}

/// Bytes changed, put in, taken out or doubled.
fn damage(random: &mut Random, text: &mut Vec<u8>) {
    if text.is_empty() {
        return;
    }
    let at = random.below(text.len());
    let end = (at + random.below(30)).min(text.len());
    match random.below(6) {
        0 => text.truncate(at),
        1 => text[at] ^= 1 << random.below(8),
        2 => text[at] = *random.pick(&[0, 9, 10, 32, 33, 35, 48, 65, 126, 127, 200, 255]),
        3 => text.insert(at, *random.pick(&[0, 10, 32, 35, 48, 46, 101, 120, 255])),
        4 => drop(text.drain(at..end)),
        _ => {
            let part = text[at..end].to_vec();
            text.splice(at..at, part);
        }
    }
}

fn lent(random: &mut Random, most: usize, needed: usize) -> usize {
    match random.below(60) {
        0..=1 => (needed + random.below(12)).saturating_sub(12),
        2 => random.below(needed + 1),
        3 => random.below(11),
        4 => 0,
        5..=20 => needed + random.below(12),
        21..=24 => most + random.below(40),
        _ => most,
    }
}

/// Pairs for a table of so many numbers of records: mostly as many as it needs.
fn lent_pairs(random: &mut Random, records: usize) -> usize {
    let needed = pairs_needed(records);
    match random.below(80) {
        0 => needed.saturating_sub(1),
        1 => random.below(needed + 1),
        2..=20 => needed + random.below(12),
        _ => needed,
    }
}

const MOST_RECORD_NUMBERS: usize = RECORD * MOST_RECORDS;

/// Up to some hundred statements, and what they give.
fn statements(random: &mut Random, mode: u32) -> (Vec<Words>, Given) {
    let size = match random.below(100) {
        0..=79 => random.below(13),
        80..=96 => random.within(13, 50),
        _ => random.within(51, 250),
    };
    let mut given = Given::default();
    let mut statements: Vec<_> = (0..size).map(|_| statement(random, mode, &mut given)).collect();
    // A side that is defined below may close a loop
    for sides in statements.iter_mut().filter_map(sides) {
        if random.percent(8) {
            sides[random.below(2)] = given.side(random);
        }
    }
    (statements, given)
}

/// A text of statements, and tables for it.
fn laid_out(random: &mut Random, mode: u32, statements: &[Words], damages: usize) -> Case {
    let text = joined(random, statements);
    lent_for(random, mode, text, statements, damages)
}

/// A text, after so many damages, and tables for its statements.
fn lent_for(random: &mut Random, mode: u32, mut text: Vec<u8>, statements: &[Words], damages: usize) -> Case {
    (0..damages).for_each(|_| damage(random, &mut text));
    let size = statements.len();
    let words: usize = statements.iter().map(Vec::len).sum();
    let records = lent(random, MOST_RECORD_NUMBERS, RECORD * size);
    let reals = lent(random, MOST_REALS, words.saturating_sub(6 * size));
    Case { mode, text, records, reals, pairs: lent_pairs(random, records) }
}

/// A scene of up to some hundred statements.
fn ordinary(random: &mut Random, mode: u32) -> Case {
    let (mut statements, _) = statements(random, mode);
    if random.percent(40) {
        for _ in 0..random.within(1, 2) {
            spoil(random, &mut statements);
        }
    }
    let damages = usize::from(random.percent(20));
    laid_out(random, mode, &statements, damages)
}

/// Bytes with no plan behind them, or few of a scene's words.
fn noise(random: &mut Random, mode: u32) -> Case {
    let mut text = Vec::new();
    let plain = random.percent(30);
    for _ in 0..random.below(60) {
        if plain {
            text.push(random.bits() as u8);
        } else {
            text.extend_from_slice(random.pick(&SPOILERS).as_bytes());
            text.extend_from_slice(random.pick(&BLANKS).as_bytes());
        }
    }
    let records = lent(random, MOST_RECORD_NUMBERS, 20);
    Case { mode, text, records, reals: lent(random, MOST_REALS, 4), pairs: lent_pairs(random, records) }
}

/// A scene at or around one of the limits.
fn at_a_limit(random: &mut Random, mode: u32) -> Case {
    let primitives = *random.pick(&[2, 10, 1023, 1024, 1025, 1030]);
    let reals = *random.pick(&[0, 1, 4095, 4096, 4097, 5000]);
    let name = vec![b'n'; *random.pick(&[1, 63, 64, 65])];
    let mut text = [b"void mixfunc ", name.as_slice(), format!(" 4 void void c d 0 {reals}").as_bytes()].concat();
    (0..reals).for_each(|_| text.extend_from_slice(b" 1"));
    text.extend_from_slice(&[b"\nvoid alias a ", name.as_slice(), b"\n"].concat());
    // In the last of these the sides lead to the last lines, which make a loop
    let line = *random.pick(&[
        &b"a alias a a\n"[..],
        b"a alias b a\n",
        b"void mixfunc b 4 a void c d 0 0\na alias c b\n",
        b"void mixfunc b 4 c a c d 0 0\nb alias c b\n",
    ]);
    let lines = line.iter().filter(|&&b| b == b'\n').count();
    (0..(primitives - 2) / lines).for_each(|_| text.extend_from_slice(line));
    if random.percent(60) {
        pad(random, &mut text);
    }
    if random.percent(10) {
        damage(random, &mut text);
    }
    let most = MOST_RECORD_NUMBERS;
    let records = *random.pick(&[
        most,
        most,
        most,
        most - 1,
        most + 1,
        most + RECORD - 1,
        most + RECORD,
        most + 2 * RECORD,
        most + 1_760,
        most - RECORD,
    ]);
    let reals = *random.pick(&[4096, 4096, 4096, 4095, 4097, 6000]);
    Case { mode, text, records, reals, pairs: lent_pairs(random, records) }
}

/// Fills a text up to about the most bytes, before or behind its statements.
fn pad(random: &mut Random, text: &mut Vec<u8>) {
    let size: usize = *random.pick(&[65_535, 65_536, 65_536, 65_537, 65_600]);
    let missing = size.saturating_sub(text.len());
    let byte = *random.pick(b"#  \n");
    let filling = vec![byte; missing];
    if random.percent(50) {
        text.extend_from_slice(&filling);
    } else {
        text.splice(0..0, filling);
        if byte == b'#' && missing > 0 {
            text[missing - 1] = b'\n';
        }
    }
}

/// Any of the above, in a mode.
fn case_in(random: &mut Random, mode: u32) -> Case {
    match random.below(200) {
        0 => at_a_limit(random, mode),
        1..=8 => noise(random, mode),
        9..=28 => mixed(random, mode),
        _ => ordinary(random, mode),
    }
}

/// And in any mode.
pub fn case(random: &mut Random) -> Case {
    let mode = mode(random);
    case_in(random, mode)
}

// ---- mixtures

/// What mixtures may lead to without a loop: each to what has a lower rank, above and below it in the text.
struct Ranks {
    of: Vec<usize>,
    /// How much lower: few make long chains.
    near: usize,
}

impl Ranks {
    fn new(random: &mut Random, count: usize) -> Ranks {
        let mut of: Vec<usize> = (0..count).collect();
        match random.below(3) {
            0 => {}
            1 => of.reverse(),
            _ => (1..count).for_each(|at| of.swap(at, random.below(at + 1))),
        }
        Ranks { of, near: *random.pick(&[1, 2, count]) }
    }

    /// Any of the first so many that a number, from 1, may lead to; 0 for none.
    fn below(&self, random: &mut Random, number: usize, among: usize) -> usize {
        let own = self.of[number - 1];
        let lower = |other: &usize| self.of[other - 1] < own && own - self.of[other - 1] <= self.near;
        let found: Vec<usize> = (1..=among).filter(lower).collect();
        if found.is_empty() || random.percent(10) {
            return 0;
        }
        *random.pick(&found)
    }
}

fn numbered(number: usize) -> Vec<u8> {
    if number == 0 {
        return b"void".to_vec();
    }
    format!("m{number}").into_bytes()
}

/// A statement of words, of which one stands for a name each.
fn spelled(pattern: &str, names: &[usize]) -> Words {
    let mut names = names.iter();
    let word = |word: &str| match word {
        "_" => numbered(*names.next().expect("a name for each")),
        _ => word.as_bytes().to_vec(),
    };
    pattern.split(' ').map(word).collect()
}

/// Statements of which most are mixtures and aliases of mixtures, and some surfaces under them.
fn mixture_statements(random: &mut Random, count: usize) -> Vec<Words> {
    let ranks = Ranks::new(random, count);
    let mut statements: Vec<Words> = (1..=count)
        .map(|number| {
            let above = number - 1;
            let modifier = if random.percent(30) { ranks.below(random, number, above) } else { 0 };
            let target = ranks.below(random, number, above);
            match random.below(14) {
                0..=7 => {
                    let sides = [(); 2].map(|()| ranks.below(random, number, count));
                    spelled("_ mixfunc _ 4 _ _ v f.cal 0 0", &[modifier, number, sides[0], sides[1]])
                }
                8..=10 if target != 0 => spelled("_ alias _ _", &[modifier, number, target]),
                _ => spelled("_ light _ 0 0 3 1 1 1", &[modifier, number]),
            }
        })
        .collect();
    let mut mixtures: Vec<_> = statements.iter_mut().filter_map(sides).collect();
    if !mixtures.is_empty() {
        let mixture = random.below(mixtures.len());
        let side = &mut mixtures[mixture][random.below(2)];
        match random.below(20) {
            0..=5 => *side = numbered(random.within(1, count)), // most likely a loop
            6 => *side = b"nowhere".to_vec(),
            _ => {}
        }
    }
    for _ in 0..random.below(4) {
        // A surface of the name hides no mixture
        let names = [random.below(count + 1), random.within(1, count + 3)];
        statements.push(spelled("_ sphere _ 0 0 4 0 0 0 1", &names));
    }
    statements
}

/// A scene of mixtures, few or many.
fn mixed(random: &mut Random, mode: u32) -> Case {
    let count = match random.below(100) {
        0..=79 => random.within(1, 12),
        80..=98 => random.within(13, 60),
        _ => random.within(61, 400),
    };
    let statements = mixture_statements(random, count);
    laid_out(random, mode, &statements, 0)
}

/// And in any mode.
pub fn mixtures(random: &mut Random) -> Case {
    let mode = mode(random);
    mixed(random, mode)
}

/// Records and pairs of mixtures that can be walked; then mostly one number is changed, so that either may hold anything.
pub fn mixture_tables(random: &mut Random) -> (Vec<u32>, Vec<u32>) {
    let rows = random.within(1, 12);
    let ranks = Ranks::new(random, rows);
    let kinds: Vec<u32> = (0..rows).map(|_| *random.pick(&[1, 9, 10, 15, 24, 25, 25, 25, 25, 25])).collect();
    let link = |random: &mut Random, number: usize, among: usize| match ranks.below(random, number, among) {
        0 => 0,
        link if kinds[link - 1] < 10 => 0,
        link => link as u32,
    };
    let (mut records, mut pairs) = (Vec::new(), Vec::new());
    for number in 1..=rows {
        let kind = kinds[number - 1];
        let modifier = link(random, number, number - 1);
        records.extend([kind, modifier, 0, 0, 1, 0, 0, 0, 0, 0, 1]);
        pairs.extend([(); 2].map(|()| if kind == MIXFUNC { link(random, number, rows) } else { 0 }));
    }
    if random.percent(60) {
        let at = random.below(rows);
        let near = random.below(rows + 3) as u32;
        match random.below(5) {
            0 => records[RECORD * at] = *random.pick(&[0, 1, 9, 10, 24, 25, 26, u32::MAX]),
            1 => records[RECORD * at + 1] = *random.pick(&[near, near, at as u32, at as u32 + 1, u32::MAX]),
            2 | 3 => pairs[2 * at + random.below(2)] = *random.pick(&[near, near, near, at as u32 + 1, u32::MAX]),
            _ => pairs.truncate(pairs.len() - random.within(1, 2)),
        }
    }
    (records, pairs)
}

/// Pairs for records of any kind: some lead to a record.
pub fn pair_table(random: &mut Random, records: &[u32]) -> Vec<u32> {
    let rows = records.len() / RECORD;
    let mut pairs: Vec<u32> = (0..2 * rows)
        .map(|at| match records[RECORD * (at / 2)] {
            MIXFUNC => random.below(rows + 1) as u32,
            _ => random.percent(1) as u32,
        })
        .collect();
    pairs.truncate(pairs.len().saturating_sub(random.below(40).saturating_sub(37)));
    pairs
}

// ---- names that bind

/// A text and a table over it that can be asked about order: names of few bytes, the same ones at several places, and links to any records
/// above. Then mostly one number is changed, so that the table may hold anything.
pub fn bound_table(random: &mut Random) -> (Vec<u8>, Vec<u32>) {
    let letters = &b"abcdefgh"[..random.within(2, 8)];
    let text: Vec<u8> = (0..random.within(1, 40)).map(|_| *random.pick(letters)).collect();
    let rows = random.within(1, 12);
    let mut records = Vec::new();
    for number in 1..=rows {
        let kind = *random.pick(&[0, 1, 9, 9, 10, 10, 10, 15, 24, 25, 25, 26, u32::MAX]);
        let [modifier, target] =
            [60, 25].map(|often| if random.percent(often) { random.below(number) as u32 } else { 0 });
        let len = random.within(1, 2).min(text.len());
        let place = random.below(text.len() - len + 1);
        records.extend([kind, modifier, target, place as u32, len as u32, 0, 0, 0, 0, 0, 1]);
    }
    if random.percent(60) {
        let (at, len) = (random.below(rows), text.len() as u32);
        let near = random.below(rows + 3) as u32;
        let record = &mut records[RECORD * at..];
        match random.below(6) {
            0 => record[0] = *random.pick(&[0, 1, 9, 10, 25, 26, u32::MAX]),
            1 | 2 => record[random.within(1, 2)] = *random.pick(&[near, near, at as u32, at as u32 + 1, u32::MAX]),
            3 => record[3] = *random.pick(&[0, len - 1, len, len + 1, u32::MAX]),
            4 => record[4] = *random.pick(&[0, 1, len, len + 1, u32::MAX]),
            _ => records.truncate(records.len() - random.within(1, RECORD)),
        }
    }
    (text, records)
}

// ---- glass

/// A statement of glass, of three reals or four.
fn pane(random: &mut Random, given: &mut Given) -> Words {
    let (modifier, name) = (given.modifier(random), name(random));
    given.give(&name, false);
    let reals = random.within(3, 4);
    let counts = [0, 0, reals].map(|count| count_word(random, count));
    let mut words = vec![modifier, b"glass".to_vec(), name];
    words.extend(counts);
    words.extend((0..reals).map(|at| real(random, "glass", at).into_bytes()));
    words
}

/// A scene of which much is glass and aliases of glass.
pub fn glass(random: &mut Random) -> Case {
    let mode = mode(random);
    let mut given = Given::default();
    let size = if random.percent(95) { random.below(16) } else { random.within(16, 300) };
    let mut statements: Vec<Words> = (0..size)
        .map(|_| if random.percent(60) { pane(random, &mut given) } else { statement(random, mode, &mut given) })
        .collect();
    if random.percent(15) {
        spoil(random, &mut statements);
    }
    let damages = usize::from(random.percent(5));
    laid_out(random, mode, &statements, damages)
}

/// An accepted text in its tidy form, of so many bytes: these statements, and strings of a mixture that make up the rest.
pub fn of_size(statements: &str, size: usize) -> Vec<u8> {
    let (strings, words) = (1_500, 1_498);
    let front = format!("{statements}void mixfunc m\n{strings} void void");
    let back = "\n0\n0\n";
    let letters = size - front.len() - back.len() - words;
    let string = |at: usize| format!(" {}", "s".repeat(letters / words + usize::from(at < letters % words)));
    let text = format!("{front}{}{back}", (0..words).map(string).collect::<String>()).into_bytes();
    assert_eq!(text.len(), size);
    text
}

// ---- statements on lines of their own

/// What may follow a statement's last word on its line.
const LINE_ENDS: [&[u8]; 8] = [b"\n", b"\n", b"\n", b" \t\n", b"\r\n", b" # behind\n", b"\t#void light\xff\n", b"\n\n"];
/// Blanks and a comment that end no line.
const NO_LINE_ENDS: [&[u8]; 4] = [b" ", b"\r", b"\x0b\x0c", b" # behind\r"];

/// A text with each statement on lines of its own, below comments and blank lines; now and then a line is not ended.
fn in_lines(random: &mut Random, statements: &[Words]) -> Vec<u8> {
    let crowded = if random.percent(15) { random.below(statements.len() + 1) } else { statements.len() };
    let mut out = Vec::new();
    for (at, words) in statements.iter().enumerate() {
        while random.percent(30) {
            out.extend_from_slice(COMMENTS[random.below(COMMENTS.len())]);
        }
        for (before, word) in words.iter().enumerate() {
            if before > 0 {
                out.extend_from_slice(random.pick(&BLANKS).as_bytes());
            }
            out.extend_from_slice(word);
        }
        let ends = if at == crowded { &NO_LINE_ENDS[..] } else { &LINE_ENDS };
        out.extend_from_slice(ends[random.below(ends.len())]);
    }
    while random.percent(20) {
        out.extend_from_slice(COMMENTS[random.below(COMMENTS.len())]);
    }
    if random.percent(5) {
        out.extend_from_slice(ENDS[random.below(ENDS.len())]);
    } else if random.percent(5) {
        out.pop();
    }
    out
}

/// A scene of few types, or of mixtures, most of which can be cut into blocks of lines.
pub fn lined(random: &mut Random) -> Case {
    let mode = mode(random);
    let size = match random.below(100) {
        0..=89 => random.below(14),
        90..=98 => random.within(14, 60),
        _ => random.within(61, 300),
    };
    let mut statements: Vec<Words> = if size > 0 && random.percent(20) {
        mixture_statements(random, size)
    } else {
        let kinds: Vec<usize> = (0..random.within(1, 6)).map(|_| kind(random, mode)).collect();
        let mut given = Given::default();
        (0..size).map(|_| statement_of(random, &mut given, |random| *random.pick(&kinds))).collect()
    };
    if random.percent(12) {
        spoil(random, &mut statements);
    }
    let text = in_lines(random, &statements);
    let damages = usize::from(random.percent(5));
    lent_for(random, mode, text, &statements, damages)
}

// ---- two hands' edits

/// A base and both hands' texts, read in a mode.
pub struct Edits {
    pub mode: u32,
    pub texts: [Vec<u8>; 3],
}

fn words(statement: &str) -> Words {
    statement.split(' ').map(|word| word.as_bytes().to_vec()).collect()
}

fn is_given_by(words: &Words) -> bool {
    !TYPES[..FIRST_MATERIAL].iter().any(|(surface, ..)| words[1] == surface.as_bytes())
}

fn stands(name: &[u8], statements: &[Words]) -> bool {
    statements.iter().any(|words| words[2] == name)
}

/// A name that none of these statements has.
fn new_name(random: &mut Random, statements: &[Words]) -> Vec<u8> {
    let mut found = name(random);
    while stands(&found, statements) {
        found = format!("{}{}", random.pick(&["n", "N", "~", "0"]), random.below(1_000)).into_bytes();
    }
    found
}

/// A statement with a name of its own that is likely to be accepted below the others.
pub fn statement_below(random: &mut Random, mode: u32, statements: &[Words]) -> Words {
    let mut given = Given::default();
    statements.iter().for_each(|words| given.give(&words[2], !is_given_by(words)));
    let mut words = statement(random, mode, &mut given);
    words[2] = new_name(random, statements);
    words
}

fn is_accepted(mode: u32, statements: &[Words]) -> bool {
    let text = statements.iter().map(|words| words.join(&b' ')).collect::<Vec<_>>().join(&b'\n');
    let (mut records, mut reals) = (vec![0; RECORD * statements.len()], vec![0.0; MOST_REALS]);
    scene::read_without_pairs(mode == ARCHIVE, &text, &mut records, &mut reals).is_ok()
}

/// An accepted scene, each name once.
fn each_name_once(random: &mut Random, mode: u32, size: usize) -> Vec<Words> {
    let mut statements = Vec::new();
    for _ in 0..size {
        statements.push(statement_below(random, mode, &statements));
        if !is_accepted(mode, &statements) {
            statements.pop();
        }
    }
    statements
}

/// The reals of a primitive; an alias has none.
fn reals(words: &mut Words) -> &mut [Vec<u8>] {
    if words[1] == b"alias" {
        return &mut [];
    }
    let strings = std::str::from_utf8(&words[3]).ok().and_then(|count| count.parse::<usize>().ok());
    &mut words[strings.expect("a count is a number") + 6..]
}

/// Numerals of the same value, where one is spelled with no sign.
pub fn respell(random: &mut Random, words: &mut Words) {
    for real in reals(words).iter_mut().filter(|real| real[0].is_ascii_digit()) {
        let whole = real.iter().all(u8::is_ascii_digit);
        match random.below(4) {
            0 => real.insert(0, b'+'),
            1 if real.len() < 60 => real.insert(0, b'0'),
            2 if whole => real.push(b'.'),
            3 if whole => real.extend(b"e0"),
            _ => {}
        }
    }
}

/// One statement changed, added or dropped, or the order of two; the scene may be refused then.
pub fn edit(random: &mut Random, mode: u32, statements: &mut Vec<Words>) {
    let size = statements.len();
    if size == 0 || random.percent(15) {
        return statements.push(statement_below(random, mode, statements));
    }
    let (at, other) = (random.below(size), random.below(size));
    let other_name = statements[other][2].clone();
    let changed = &mut statements[at];
    match random.below(10) {
        0 | 1 => {
            if let Some(real) = reals(changed).last_mut() {
                *real = numerals::positive(random).into_bytes();
            }
        }
        2 => reals(changed).iter_mut().filter(|real| *real == b"0").for_each(|real| *real = b"-0".to_vec()),
        3 => respell(random, changed),
        4 => changed[0] = if random.percent(50) { b"void".to_vec() } else { other_name },
        5 => *changed = [&changed[0], &b"alias".to_vec(), &changed[2], &other_name].map(Vec::clone).to_vec(),
        6 => {
            let body = random.pick(&["light _ 0 0 3 1 1 1", "sphere _ 0 0 4 0 0 0 1", "mixfunc _ 4 void void v f 0 0"]);
            let name = changed[2].clone();
            changed.splice(1.., words(body));
            changed[2] = name;
        }
        7 => drop(statements.pop()),
        8 => drop(statements.remove(at)),
        _ => statements.swap(at, other),
    }
}

/// What a hand makes of a scene: most edits after which it is refused are taken back.
fn edited(random: &mut Random, mode: u32, statements: &[Words]) -> Vec<Words> {
    let mut statements = statements.to_vec();
    for _ in 0..random.below(4) {
        let mut changed = statements.clone();
        edit(random, mode, &mut changed);
        if is_accepted(mode, &changed) || random.percent(2) {
            statements = changed;
        }
    }
    statements
}

/// How names of three scenes meet, _ for one and & for another: what is put into the base, the left and the right one.
const MEETINGS: [[&[&str]; 3]; 22] = [
    // Changed, added and dropped alike
    [&["void light _ 0 0 3 1 1 1"], &["void light _ 0 0 3 1 2 1"], &["void light _ 0 0 3 1 2. 1"]],
    [&[], &["void light _ 0 0 3 1 2 1"], &["void light _ 0 0 3 1 +2 1"]],
    [&["void light _ 0 0 3 1 1 1"], &[], &[]],
    // By one hand alone
    [&["void light _ 0 0 3 1 1 1"], &["void light _ 0 0 3 1. 1 1"], &["void light _ 0 0 3 1 0 1"]],
    [&["void light _ 0 0 3 1 1 1"], &["void light _ 0 0 3 1. 1 1"], &[]],
    [&[], &["void light _ 0 0 3 1 1 1"], &["void light & 0 0 3 1 1 1"]],
    // Differently
    [&["void light _ 0 0 3 1 1 1"], &["void light _ 0 0 3 1 0 1"], &["void light _ 0 0 3 1 -0 1"]],
    [&["void light _ 0 0 3 1 1 1"], &["void glow _ 0 0 4 1 1 1 1"], &[]],
    [&[], &["void light _ 0 0 3 1 1 1"], &["void sphere _ 0 0 4 1 1 1 1"]],
    [
        &["void light _ 0 0 3 1 1 1", "void light & 0 0 3 1 1 1"],
        &["void light _ 0 0 3 1 1 1", "void alias & _"],
        &["void light _ 0 0 3 1 1 1", "_ light & 0 0 3 1 1 1"],
    ],
    // Needed by one hand, and dropped or made a surface by the other
    [&["void light _ 0 0 3 1 1 1"], &[], &["void light _ 0 0 3 1 1 1", "_ sphere & 0 0 4 0 0 0 1"]],
    [&["void light _ 0 0 3 1 1 1"], &[], &["void light _ 0 0 3 1 1 1", "void alias & _"]],
    [&["void light _ 0 0 3 1 1 1"], &["void sphere _ 0 0 4 0 0 0 1"], &["void light _ 0 0 3 1 1 1", "void alias & _"]],
    // Each needed by the other
    [
        &["void light _ 0 0 3 1 1 1", "void light & 0 0 3 1 1 1"],
        &["void light & 0 0 3 1 1 1", "& light _ 0 0 3 1 1 1"],
        &["void light _ 0 0 3 1 1 1", "void alias & _"],
    ],
    // Turned round by one hand
    [
        &["void light _ 0 0 3 1 1 1", "_ light & 0 0 3 1 1 1"],
        &["void light & 0 0 3 1 1 1", "& light _ 0 0 3 1 1 1"],
        &["void light _ 0 0 3 1 1 1", "_ light & 0 0 3 1 1 1"],
    ],
    // Mixed by one hand, and dropped by the other; and each mixed by the other
    [&["void light _ 0 0 3 1 1 1"], &[], &["void light _ 0 0 3 1 1 1", "void mixfunc & 4 void _ v f 0 0"]],
    [
        &["void mixfunc _ 4 void void v f 0 0", "void light & 0 0 3 1 1 1"],
        &["void mixfunc _ 4 & void v f 0 0", "void light & 0 0 3 1 1 1"],
        &["void mixfunc _ 4 void void v f 0 0", "_ light & 0 0 3 1 1 1"],
    ],
    [
        &["void mixfunc _ 4 void void v f 0 0", "void mixfunc & 4 void void v f 0 0"],
        &["void mixfunc _ 4 & void v f 0 0", "void mixfunc & 4 void void v f 0 0"],
        &["void mixfunc _ 4 void void v f 0 0", "void mixfunc & 4 void _ v f 0 0"],
    ],
    // Defined below the mixture, which is no need
    [&[], &["void mixfunc & 4 _ void v f 0 0", "void light _ 0 0 3 1 1 1"], &[]],
    // Twice in one
    [&["void light _ 0 0 3 1 1 1", "void light _ 0 0 3 1 1 1"], &[], &[]],
    [&[], &["void sphere _ 0 0 4 0 0 0 1", "void light _ 0 0 3 1 1 1"], &[]],
    [&[], &[], &["void sphere _ 0 0 4 0 0 0 1", "void sphere _ 0 0 4 0 0 0 1"]],
];

/// Statements that are refused, by 2 to 16, 25, 26 and 28, but for 6 and 13, which need short tables; and two that are no statements.
const FAULTS: [&[u8]; 17] = [
    b"void light caf\xe9 0 0 3 1 1 1",
    b"void light nnnnnnnnnnnnnnnnnnnnnnnnnnnnnnnnnnnnnnnnnnnnnnnnnnnnnnnnnnnnnnnnn 0 0 3 1 1 1",
    b"!run it",
    b"void light",
    b"nowhere light new 0 0 3 1 1 1",
    b"void plane new 0 0 0",
    b"void light void 0 0 3 1 1 1",
    b"void alias new nowhere",
    b"void light new 0 0 4 1 1 1 1",
    b"void light new 0 0 3 1 1..1 1",
    b"void light new 0 0 3 1 1e23 1",
    b"void sphere new 0 0 4 0 0 0 0",
    b"void mixfunc new 4 nowhere void v f.cal 0 0",
    b"void mixfunc new 4 void new v f.cal 0 0",
    b"void antimatter new 1 void 0 0",
    b"",
    b"",
];

/// The one of these that stands last.
const UNENDED: usize = 3;

/// A text of statements with a fault among them or behind them, with too many bytes, or damaged.
pub fn faulty(random: &mut Random, statements: &[Words]) -> Vec<u8> {
    let fault = random.below(FAULTS.len());
    let last = fault == UNENDED || random.percent(30);
    let at = if last { statements.len() } else { random.below(statements.len() + 1) };
    let mut text = in_words(random, &statements[..at]);
    text.extend_from_slice(FAULTS[fault]);
    if at < statements.len() || random.percent(50) {
        text.push(b'\n');
    }
    text.extend(in_words(random, &statements[at..]));
    match fault {
        15 => damage(random, &mut text),
        16 => text.resize(MOST_BYTES + 1, b'#'),
        _ => {}
    }
    text
}

/// A base and what two hands made of it; now and then one of the texts has a fault, or is any other.
pub fn edits(random: &mut Random) -> Edits {
    let mode = mode(random);
    let size = if random.percent(97) { random.below(8) } else { random.within(8, 80) };
    let base = each_name_once(random, mode, size);
    let [left, right] = [(); 2].map(|()| edited(random, mode, &base));
    let mut scenes = [base, left, right];
    for _ in 0..*random.pick(&[0, 0, 1, 1, 2]) {
        let all = scenes.concat();
        let one = new_name(random, &all);
        let other = new_name(random, &[all, vec![vec![Vec::new(), Vec::new(), one.clone()]]].concat());
        let meeting = *random.pick(&MEETINGS);
        // A modifier may not begin as a comment or a command does
        if [&one, &other].iter().all(|name| !name.starts_with(b"#") && !name.starts_with(b"!")) {
            for (statements, added) in scenes.iter_mut().zip(meeting) {
                statements.extend(added.iter().map(|statement| {
                    let named = |word: Vec<u8>| match word.as_slice() {
                        b"_" => one.clone(),
                        b"&" => other.clone(),
                        _ => word,
                    };
                    words(statement).into_iter().map(named).collect::<Words>()
                }));
            }
        }
        if random.percent(50) {
            scenes.swap(1, 2);
        }
    }
    let faulty_one = if random.percent(25) { random.below(3) } else { 3 };
    let mut number = 0;
    let texts = scenes.map(|statements| {
        let has_fault = number == faulty_one;
        number += 1;
        if has_fault {
            faulty(random, &statements)
        } else if random.percent(1) {
            case_in(random, mode).text
        } else {
            in_words(random, &statements)
        }
    });
    Edits { mode, texts }
}

// ---- names that collide

/// A name of a chosen hash: pairs of letters by the bits of a number, which all have one hash, and two bytes that make up the rest.
pub fn name_of_hash(wanted: usize, number: usize, pairs: usize) -> Vec<u8> {
    let pairs = (0..pairs).map(|bit| if number >> bit & 1 == 0 { b"Aa" } else { b"BB" });
    let mut name: Vec<u8> = pairs.flatten().copied().collect();
    let stem = 31 * 31 * hash(&name);
    let mut ends = (33..=126).flat_map(|a| (33..=126).map(move |b| [a, b]));
    let fits = |&[a, b]: &[u8; 2]| (stem + 31 * usize::from(a) + usize::from(b)) % INDEX == wanted;
    name.extend(ends.find(fits).expect("two bytes reach every hash"));
    name
}

/// A scene in which most names have the same hash or its neighbour, which may be the index's last entry.
pub fn colliding(random: &mut Random) -> Case {
    let mode = mode(random);
    let (mut statements, _) = statements(random, mode);
    let first = *random.pick(&[0, 1_000, INDEX - 3, INDEX - 2, INDEX - 1]);
    let names: Vec<_> = (0..16).map(|n| name_of_hash((first + n % 2) % INDEX, n / 2, 3)).collect();
    let rename = |word: &mut Vec<u8>| {
        if word != b"void" {
            *word = names[hash(word) % names.len()].clone();
        }
    };
    for words in &mut statements {
        let alias = words[1] == b"alias";
        rename(&mut words[0]);
        rename(&mut words[2]);
        if alias {
            rename(&mut words[3]);
        }
        if let Some(sides) = sides(words) {
            sides.iter_mut().for_each(rename);
        }
    }
    if random.percent(20) {
        spoil(random, &mut statements);
    }
    laid_out(random, mode, &statements, 0)
}

/// Statements changed as between two saves: mostly so that they are accepted still.
fn change(random: &mut Random, mode: u32, statements: &mut Vec<Words>, given: &mut Given) {
    let size = statements.len();
    let at = random.below(size.max(1));
    match random.below(10) {
        _ if size < 2 => statements.push(statement(random, mode, given)),
        0..=2 => {
            let last = statements[at].last_mut().expect("a statement has words");
            if last != b"0" {
                *last = numerals::positive(random).into_bytes();
            }
        }
        3 => statements.insert(at, statements[at].clone()),
        4 => drop(statements.pop()),
        5 => drop(statements.remove(at)),
        6 => statements.swap(at, (at + 1) % size),
        7 => statements[at][0] = b"void".to_vec(),
        8 => spoil(random, statements),
        _ => statements.push(statement(random, mode, given)),
    }
}

/// Two saves of a scene, in one mode; now and then two scenes.
pub fn saves(random: &mut Random) -> [Case; 2] {
    let mode = mode(random);
    if random.percent(10) {
        return [case_in(random, mode), case_in(random, mode)];
    }
    let (left, mut given) = statements(random, mode);
    let mut right = left.clone();
    for _ in 0..random.below(6) {
        change(random, mode, &mut right, &mut given);
    }
    let mut saves = [left, right];
    if random.percent(50) {
        saves.swap(0, 1);
    }
    saves.map(|statements| {
        let damages = usize::from(random.percent(5));
        laid_out(random, mode, &statements, damages)
    })
}

/// A table that no reading gave: small numbers, so that links and types are often in order and often not.
pub fn table(random: &mut Random, text_len: usize) -> Vec<u32> {
    let rows = random.below(12);
    let mut records: Vec<u32> = (0..RECORD * rows + random.below(RECORD))
        .map(|at| match at % RECORD {
            0 => random.below(28) as u32,
            1 if random.percent(70) => random.below(at / RECORD + 1) as u32,
            1 | 2 | 9 => random.below(rows + 3) as u32,
            3 => random.below(text_len + 3) as u32,
            _ => random.below(20) as u32,
        })
        .collect();
    spoil_table(random, &mut records);
    records
}

/// Reals that no reading gives among the others.
pub fn spoil_reals(random: &mut Random, reals: &mut [f64]) {
    if reals.is_empty() {
        return;
    }
    for _ in 0..random.below(4) {
        let at = random.below(reals.len());
        let other_nan = f64::from_bits(0xfff0_0000_0000_0001);
        reals[at] = *random.pick(&[0.0, -0.0, -reals[at], f64::NAN, other_nan, f64::INFINITY, 5e-324]);
    }
}

/// A few numbers of a table changed.
pub fn spoil_table(random: &mut Random, records: &mut [u32]) {
    if records.is_empty() {
        return;
    }
    for _ in 0..random.below(6) {
        let at = random.below(records.len());
        let near = (at / RECORD + random.below(3)) as u32;
        let any = random.bits() as u32;
        records[at] = *random.pick(&[0, 1, 9, 10, 24, 25, 26, near, near, 1024, 65_536, u32::MAX, u32::MAX - 1, any]);
    }
}
