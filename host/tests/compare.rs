//! Compares the library with implementations of their own (`reference/`) on inputs made from a seed: whole tables, by bits.
//!
//! KRIBBELSTEEN_SCENES and KRIBBELSTEEN_FLOATS say how many scenes, and how many cases of each kind of float work; KRIBBELSTEEN_SEED
//! is the seed. What was run is written to standard error.

#[path = "../reference/mod.rs"]
mod reference;

mod made;

use kribbelsteen::raw;
use made::{floats, numerals, scenes};
use reference::index::{self, INDEX};
use reference::random::Random;
use reference::saves::{Comparison, Key, Save};
use reference::scene::{pairs_needed, Counts, Refused, PAIR, RECORD};
use reference::{glass, join, mixtures, order, rays, saves, scene, sort, tidy, tuned};
use std::collections::BTreeMap;
use std::fmt::Debug;
use std::io::Write;

fn setting(name: &str, default: usize) -> usize {
    match std::env::var(name) {
        Ok(value) => value.parse().unwrap_or_else(|_| panic!("{name} is a whole number")),
        Err(_) => default,
    }
}

fn scene_count() -> usize {
    setting("KRIBBELSTEEN_SCENES", 20_000)
}

fn float_count() -> usize {
    setting("KRIBBELSTEEN_FLOATS", 200_000)
}

fn random(stream: u64) -> Random {
    Random::new(setting("KRIBBELSTEEN_SEED", 20_261_115) as u64 + (stream << 32))
}

/// Straight to standard error, which the test runner does not hold back.
fn say(line: &str) {
    let _ = std::io::stderr().write_all(format!("{line}\n").as_bytes());
}

/// How often each answer was given.
struct Tally {
    what: &'static str,
    answers: BTreeMap<u32, usize>,
}

impl Tally {
    fn new(what: &'static str) -> Self {
        Tally { what, answers: BTreeMap::new() }
    }

    fn add(&mut self, answer: u32) {
        *self.answers.entry(answer).or_default() += 1;
    }

    /// Says what was run. With so many cases that each answer must have turned up, all of them have to.
    fn report(&self, all: impl IntoIterator<Item = u32>, enough: usize) {
        let cases: usize = self.answers.values().sum();
        let counts: Vec<String> = self.answers.iter().map(|(answer, n)| format!("{answer}: {n}")).collect();
        say(&format!("{}: {cases} cases, no difference. By answer: {}", self.what, counts.join(", ")));
        if cases >= enough {
            let missing: Vec<u32> = all.into_iter().filter(|answer| !self.answers.contains_key(answer)).collect();
            assert!(missing.is_empty(), "{}: no case for {missing:?}", self.what);
        }
    }
}

/// What a reading with pairs enough answers: 0 for accepted, or a reason. 11 is given no more.
fn reasons() -> impl Iterator<Item = u32> {
    (0..=16).filter(|reason| *reason != 11).chain([25, 26, 28])
}

/// A lent table with entries before and behind it that must stay as they are.
struct Lent<T> {
    all: Vec<T>,
    len: usize,
}

const MARGIN: usize = 16;

impl<T: Copy + PartialEq + Debug> Lent<T> {
    fn new(len: usize, filling: T) -> Self {
        Lent { all: vec![filling; len + 2 * MARGIN], len }
    }

    fn table(&mut self) -> &mut [T] {
        &mut self.all[MARGIN..MARGIN + self.len]
    }

    fn margins_are(&self, filling: T) -> bool {
        let (before, behind) = (&self.all[..MARGIN], &self.all[MARGIN + self.len..]);
        before.iter().chain(behind).all(|&x| x == filling)
    }
}

fn bits(reals: &[f64]) -> impl Iterator<Item = u64> + '_ {
    reals.iter().map(|x| x.to_bits())
}

// ---- scenes

#[derive(Debug, PartialEq)]
struct Read {
    reason: u32,
    answer: [usize; 3],
}

fn expected_read(archive: bool, text: &[u8], records: &mut [u32], reals: &mut [f64], pairs: &mut [u32]) -> Read {
    match scene::read(archive, text, records, reals, pairs) {
        Ok(counts) => Read { reason: 0, answer: [0, counts.primitives, counts.reals] },
        Err(refused) => Read { reason: refused.reason, answer: [refused.place, 0, 0] },
    }
}

fn shown(case: &scenes::Case) -> String {
    let scenes::Case { mode, text, records, reals, pairs } = case;
    format!("mode {mode}, text {:?}, lent {records}, {reals} and {pairs}", String::from_utf8_lossy(text))
}

/// Reads a scene both ways, compares all that comes of it, and gives the answer, the records and the pairs.
fn compare_reading(case: &scenes::Case) -> (Read, Vec<u32>, Vec<u32>) {
    let (record_filling, real_filling) = (0xdead_beef, -1234.5);
    let mut records = Lent::new(case.records, record_filling);
    let mut reals = Lent::new(case.reals, real_filling);
    let mut pairs = Lent::new(case.pairs, record_filling);
    let text = case.text.clone();
    let (reason, answer) = raw::read(case.mode, &text, records.table(), reals.table(), pairs.table());
    let ours = Read { reason, answer };

    let mut expected_records = vec![1; case.records];
    let mut expected_reals = vec![1.0; case.reals];
    let mut expected_pairs = vec![1; case.pairs];
    let expected =
        expected_read(case.is_archive(), &case.text, &mut expected_records, &mut expected_reals, &mut expected_pairs);

    let shown = || shown(case);
    assert_eq!(ours, expected, "{}", shown());
    assert!(records.table() == expected_records, "records of {}", shown());
    assert!(bits(reals.table()).eq(bits(&expected_reals)), "reals of {}", shown());
    assert!(pairs.table() == expected_pairs, "pairs of {}", shown());
    assert!(text == case.text, "the text was written: {}", shown());
    assert!(records.margins_are(record_filling), "written outside the records: {}", shown());
    assert!(reals.margins_are(real_filling), "written outside the reals: {}", shown());
    assert!(pairs.margins_are(record_filling), "written outside the pairs: {}", shown());
    (ours, expected_records, expected_pairs)
}

/// How many questions of each kind were asked.
struct Questions {
    names: Tally,
    finishes: Tally,
    lists: Tally,
}

impl Questions {
    fn new(names: &'static str, finishes: &'static str, lists: &'static str) -> Self {
        Questions { names: Tally::new(names), finishes: Tally::new(finishes), lists: Tally::new(lists) }
    }

    fn name(&mut self, text: &[u8], records: &[u32], count: usize, number: usize) {
        let ours = raw::name(text, records, count, number);
        let expected = match scene::name(text, records, count, number) {
            Ok((place, len)) => (0, [place, len]),
            Err(reason) => (reason, [0, 0]),
        };
        assert_eq!(ours, expected, "name {number} of {count} in {records:?}, text of {}", text.len());
        self.names.add(ours.0);
    }

    /// Asks for a finish and gives how many links lead there.
    fn finish(&mut self, records: &[u32], count: usize, number: usize, allowance: usize) -> usize {
        let ours = raw::finish(records, count, number, allowance);
        let expected = match scene::finish(records, count, number, allowance) {
            Ok((material, links)) => (0, [material, links]),
            Err((reason, links)) => (reason, [0, links]),
        };
        assert_eq!(ours, expected, "finish {number} of {count}, {allowance} links, in {records:?}");
        self.finishes.add(ours.0);
        ours.1[1]
    }

    /// Asks for the materials that may be shown, in a list of so many entries, and gives how many they are.
    fn shown(&mut self, records: &[u32], pairs: &[u32], count: usize, number: usize, room: usize) -> usize {
        let filling = 0xdead_beef;
        let mut list = Lent::new(room, filling);
        let ours = raw::shown(records, pairs, count, number, list.table());
        let found = mixtures::shown(records, pairs, count, number, room);
        let shown = || format!("{number} of {count} shows, {room} listed, in {records:?} and {pairs:?}");
        let expected = found.as_ref().map_or_else(|&reason| (reason, 0), |materials| (0, materials.len()));
        assert_eq!(ours, expected, "{}", shown());
        let mut whole = found.unwrap_or_default();
        whole.resize(room, 0);
        assert!(list.table() == whole, "list: {}", shown());
        assert!(list.margins_are(filling), "written outside the list: {}", shown());
        self.lists.add(ours.0);
        ours.1
    }

    /// The materials in a list that is long enough, just so, and too short.
    fn list(&mut self, records: &[u32], pairs: &[u32], count: usize, number: usize) {
        let listed = self.shown(records, pairs, count, number, records.len() / RECORD);
        for room in [listed + 3, listed, listed.saturating_sub(1), 0] {
            self.shown(records, pairs, count, number, room);
        }
    }

    /// All about one number but the list.
    fn ask(&mut self, text: &[u8], records: &[u32], count: usize, number: usize) {
        self.name(text, records, count, number);
        let links = self.finish(records, count, number, usize::MAX);
        for allowance in [0, 1, 2, links.saturating_sub(1), links, links + 1] {
            self.finish(records, count, number, allowance);
        }
    }

    /// All numbers of a table, and some that it has not. In a long table fewer lists are asked for: each takes a walk from every
    /// primitive.
    fn ask_all(&mut self, text: &[u8], records: &[u32], pairs: &[u32], count: usize) {
        let before = (records.to_vec(), pairs.to_vec());
        let rows = records.len() / RECORD;
        let numbers = || (0..=count.min(rows) + 1).chain([count, usize::MAX, usize::MAX / RECORD + 2]);
        numbers().for_each(|number| self.ask(text, records, count, number));
        let step = 1 + count.min(rows).pow(2) / 20_000;
        numbers().step_by(step).for_each(|number| self.list(records, pairs, count, number));
        assert!((records, pairs) == (&before.0, &before.1), "a question wrote a table");
    }
}

/// Counts that a caller may state of a table.
fn stated_count(random: &mut Random, rows: usize) -> usize {
    let near = [rows, rows, rows, rows + 1, rows.saturating_sub(1), 0];
    let far = [1024, 1025, usize::MAX, usize::MAX / RECORD, usize::MAX / RECORD + 1, 1 << 32];
    *if random.percent(80) { random.pick(&near) } else { random.pick(&far) }
}

#[test]
fn scenes_are_read_alike() {
    let mut random = random(1);
    let mut read = Tally::new("scenes");
    let mut asked = Questions::new("names in read tables", "finishes in read tables", "lists in read tables");
    let mut damaged =
        Questions::new("names in damaged tables", "finishes in damaged tables", "lists in damaged tables");
    let mut words = 0;
    for _ in 0..scene_count() {
        let case = scenes::case(&mut random);
        let (answer, records, pairs) = compare_reading(&case);
        read.add(answer.reason);
        if !case.is_archive() && answer.reason == 0 {
            let archive = compare_reading(&scenes::Case { mode: 1, text: case.text.clone(), ..case });
            let same = (&archive.0, &archive.1, &archive.2) == (&answer, &records, &pairs);
            assert!(same, "the archive reading of {}", shown(&case));
        }
        let count = answer.answer[1];
        asked.ask_all(&case.text, &records, &pairs, count);
        damaged_tables(&mut random, &mut damaged, &case.text, &records[..RECORD * count], &pairs[..PAIR * count]);
        words += compare_words(&mut random, &case.text);
    }
    read.report(reasons().chain([27]), 10_000);
    asked.names.report([0, 17], 10_000);
    asked.finishes.report([0, 17, 19], 10_000);
    asked.lists.report([0, 17, 23], 10_000);
    damaged.names.report([0, 17, 18], 10_000);
    damaged.finishes.report([0, 17, 18, 19], 10_000);
    damaged.lists.report([0, 17, 18, 23], 10_000);
    say(&format!("words: {words} look-ups, no difference"));
}

/// Questions to a table that was spoiled after reading, and to one that no reading gave.
fn damaged_tables(random: &mut Random, asked: &mut Questions, text: &[u8], records: &[u32], pairs: &[u32]) {
    // A long table is spoiled now and then: its questions take long
    if records.len() < 1000 || random.percent(5) {
        let mut spoiled = records.to_vec();
        spoiled.truncate(records.len().saturating_sub(random.below(3)));
        scenes::spoil_table(random, &mut spoiled);
        let text = &text[..text.len() - random.below(text.len().min(20) + 1)];
        let count = stated_count(random, records.len() / RECORD);
        let pairs = &pairs[..pairs.len() - usize::from(!pairs.is_empty() && random.percent(5))];
        asked.ask_all(text, &spoiled, pairs, count);
    }
    let made = scenes::table(random, text.len().min(50));
    let pairs = scenes::pair_table(random, &made);
    let count = stated_count(random, made.len() / RECORD);
    asked.ask_all(&text[..text.len().min(50)], &made, &pairs, count);
}

/// A text of so many primitives.
fn full(primitives: usize) -> Vec<u8> {
    format!("void mixfunc a 4 void void c d 0 0\n{}", "a alias a a\n".repeat(primitives - 1)).into_bytes()
}

/// A text with the largest tables that a reading can use.
fn with_most(text: Vec<u8>) -> scenes::Case {
    scenes::Case::new(0, text, RECORD * scene::MOST_RECORDS, scene::MOST_REALS)
}

#[test]
fn limits_are_met_alike() {
    let reason = |text: Vec<u8>| compare_reading(&with_most(text)).0.reason;
    assert_eq!(reason(full(1_024)), 0);
    assert_eq!(reason(full(1_025)), 6);
    assert_eq!(reason(vec![b'#'; 65_536]), 0);
    assert_eq!(reason(vec![b'#'; 65_537]), 1);
    assert_eq!(reason(vec![b' '; 65_536]), 0);
    assert_eq!(reason([vec![b' '; 65_532], b"void".to_vec()].concat()), 5);
    for (len, expected) in [(64, 0), (65, 3)] {
        assert_eq!(reason(format!("void light {} 0 0 3 1 1 1", "n".repeat(len)).into_bytes()), expected);
    }
    for (reals, expected) in [(4_096, 0), (4_097, 13)] {
        let text = format!("void mixfunc m 4 void void c d 0 {reals}{}", " 1".repeat(reals));
        assert_eq!(reason(text.into_bytes()), expected);
    }
    // Every small table, for a scene of three records and eleven reals
    let text = b"void glow g 0 0 4 1 1 1 0\nvoid light l 0 0 3 1 2 3\ng sphere s 0 0 4 0 0 0 1\n";
    for records in 0..=50 {
        for reals in 0..=15 {
            compare_reading(&scenes::Case::new(0, text.to_vec(), records, reals));
        }
    }
    // Every beginning of a scene, and every byte in it changed
    for end in 0..=text.len() {
        compare_reading(&scenes::Case::new(0, text[..end].to_vec(), 3 * RECORD, 11));
    }
    for at in 0..text.len() {
        for byte in 0..=255 {
            let mut text = text.to_vec();
            text[at] = byte;
            compare_reading(&scenes::Case::new(0, text, 3 * RECORD, 11));
        }
    }
}

/// A short pair table is refused after a long text alone, at every size of the records.
#[test]
fn short_pairs_are_refused_alike() {
    let reason = |text: &[u8], records, pairs| {
        let case = scenes::Case { mode: 0, text: text.to_vec(), records, reals: 3, pairs };
        compare_reading(&case).0.reason
    };
    for records in 0..=4 * RECORD {
        for pairs in 0..=10 {
            let short = pairs < 2 * (records / RECORD);
            assert_eq!(reason(b"!", records, pairs), if short { 27 } else { 4 });
            assert_eq!(reason(&[b' '; scene::MOST_BYTES + 1], records, pairs), 1);
            reason(&light(b"void", b"a"), records, pairs);
        }
    }
    for records in [1_023, 1_024, 1_025, 1_100].map(|rows| RECORD * rows) {
        for pairs in [2_045, 2_046, 2_047, 2_048, 2_049, 2_200] {
            let short = pairs < 2 * (records / RECORD).min(scene::MOST_RECORDS);
            assert_eq!(reason(b"", records, pairs), if short { 27 } else { 0 });
        }
    }
    // An index that is short too is refused first
    let case = |text: &[u8], pairs| scenes::Case { pairs, ..scenes::Case::new(0, text.to_vec(), RECORD, 3) };
    let reasons = |pairs, entries| [&b"!"[..], b""].map(|text| compare_indexed(&case(text, pairs), entries).reason);
    assert_eq!(
        [(1, INDEX - 1), (1, INDEX), (2, INDEX)].map(|(pairs, entries)| reasons(pairs, entries)),
        [[24, 24], [27, 27], [4, 0]]
    );
}

// ---- mixtures

#[test]
fn mixtures_are_resolved_alike() {
    let mut random = random(17);
    let mut read = Tally::new("scenes of mixtures");
    let mut indexed = Tally::new("scenes of mixtures indexed");
    let mut asked = Questions::new("names", "finishes", "lists in scenes of mixtures");
    for _ in 0..scene_count() / 4 {
        let case = scenes::mixtures(&mut random);
        let (answer, records, pairs) = compare_reading(&case);
        read.add(answer.reason);
        asked.ask_all(&case.text, &records, &pairs, answer.answer[1]);
        indexed.add(compare_indexed(&case, INDEX).reason);
    }
    read.report([0, 6, 13, 25, 26, 27], 4_000);
    indexed.report([0, 6, 13, 25, 26, 27], 4_000);
    asked.lists.report([0, 17, 23], 10_000);
}

/// Tables that no reading gave, of which most can be walked but for one number.
#[test]
fn tables_are_listed_alike() {
    let mut random = random(18);
    let mut asked = Questions::new("names", "finishes", "lists in made tables");
    for _ in 0..scene_count() / 2 {
        let (records, pairs) = scenes::mixture_tables(&mut random);
        let rows = records.len() / RECORD;
        let count = if random.percent(80) { rows } else { stated_count(&mut random, rows) };
        asked.ask_all(b"n", &records, &pairs, count);
    }
    asked.lists.report([0, 17, 18, 23], 10_000);
}

/// Two materials, a mixture of both under a third, and a surface under that.
const MIXED: &[u8] = b"void plastic a 0 0 5 1 1 1 0 0\nvoid light b 0 0 3 1 1 1\nvoid glow c 0 0 4 1 1 1 0\n\
    c mixfunc m 4 a n v f 0 0\nm sphere s 0 0 4 0 0 0 1\nvoid mixfunc n 4 void b v f 0 0\n";

#[test]
fn each_fault_of_a_table_is_found_alike() {
    let case = scenes::Case::new(0, MIXED.to_vec(), 6 * RECORD, 20);
    let (read, records, pairs) = compare_reading(&case);
    assert_eq!((read.reason, read.answer), (0, [0, 6, 16]));
    assert_eq!(pairs, [0, 0, 0, 0, 0, 0, 1, 6, 0, 0, 0, 2]);
    let list = |records: &[u32], pairs: &[u32], count, number, room| {
        let mut asked = Questions::new("", "", "");
        asked.shown(records, pairs, count, number, room);
        mixtures::shown(records, pairs, count, number, room)
    };
    for (number, materials) in [(1, &[][..]), (4, &[1, 2, 3]), (5, &[1, 2, 3]), (6, &[2])] {
        assert_eq!(list(&records, &pairs, 6, number, 3), Ok(materials.to_vec()));
    }
    assert_eq!(list(&records, &pairs, 6, 5, 2), Err(23));
    assert_eq!([0, 7, usize::MAX].map(|number| list(&records, &pairs, 6, number, 3)), [(); 3].map(|()| Err(17)));
    assert_eq!([7, 1_025, usize::MAX].map(|count| list(&records, &pairs, count, 5, 3)), [(); 3].map(|()| Err(18)));
    assert_eq!(list(&records, &pairs[..11], 6, 0, 3), Err(18));
    assert_eq!(list(&records, &pairs[..11], 5, 5, 3), Err(18)); // a side above the count
    assert_eq!(list(&records, &pairs[..6], 3, 3, 0), Ok(Vec::new()));
    // A type of none, or a surface's where a modifier or a side leads to; then a modifier to itself, above, and to a surface
    let types = [(0, 0), (0, 26), (2 * RECORD, 1), (0, 9)];
    let modifiers = [(1, 1), (RECORD + 1, 3), (5 * RECORD + 1, 5), (5 * RECORD + 1, u32::MAX)];
    for (at, number) in types.into_iter().chain(modifiers) {
        let mut spoiled = records.clone();
        spoiled[at] = number;
        assert_eq!(list(&spoiled, &pairs, 6, 5, 0), Err(18), "{number} at {at}");
    }
    // Sides: of a material, of a surface, above the count, to a surface, to itself, to what leads back, by a material's modifier too
    for (at, number) in [(0, 2), (9, 1), (6, 7), (7, u32::MAX), (6, 5), (6, 4), (10, 4), (11, 6)] {
        let mut spoiled = pairs.clone();
        spoiled[at] = number;
        assert_eq!(list(&records, &spoiled, 6, 5, 0), Err(18), "{number} at {at}");
    }
    let (mut under, mut over) = (records.clone(), pairs.clone());
    under[5 * RECORD] = 15;
    under[5 * RECORD + 1] = 4;
    over[11] = 0;
    assert_eq!(list(&under, &over, 6, 1, 0), Err(18));
}

/// Sides that lead from each mixture to the next one, and from the last elsewhere.
fn chain(count: usize, last: &str) -> Vec<u8> {
    let line = |n: usize| {
        let side = if n == count { last.to_owned() } else { format!("m{}", n + 1) };
        format!("void mixfunc m{n} 4 {side} {side} v f 0 0\n")
    };
    (1..=count).map(line).collect::<String>().into_bytes()
}

#[test]
fn long_chains_of_mixtures_are_alike() {
    let most = scene::MOST_RECORDS;
    let mut asked = Questions::new("", "", "lists at the ends of long chains");
    let (read, records, pairs) = compare_reading(&with_most([chain(most - 1, "end"), light(b"void", b"end")].concat()));
    assert_eq!((read.reason, read.answer), (0, [0, most, 3]));
    for number in [1, 2, most - 1, most] {
        asked.list(&records, &pairs, most, number);
    }
    asked.lists.report([0, 23], 1);
    // Refused at the name of the lowest on the loop: the whole chain, its end, or its last alone
    for lowest in ["m1", "m700", "m1024"] {
        let case = with_most(chain(most, lowest));
        let name = format!("mixfunc {lowest} ");
        let place = case.text.windows(name.len()).position(|words| words == name.as_bytes()).expect("it is there");
        let (read, ..) = compare_reading(&case);
        assert_eq!((read.reason, read.answer), (26, [place + "mixfunc ".len(), 0, 0]), "{lowest}");
        assert_eq!(compare_indexed(&case, INDEX).reason, 26);
        assert_eq!(reason_of(compare_tuned(&case)), 26);
    }
    // A name that no one has is found first
    let (read, ..) = compare_reading(&with_most([chain(700, "m1"), chain(1, "nowhere")].concat()));
    assert_eq!(read.reason, 25);
}

// ---- scenes read with an index

fn expected_indexed(
    archive: bool,
    text: &[u8],
    records: &mut [u32],
    reals: &mut [f64],
    pairs: &mut [u32],
    index: &mut [u32],
) -> (u32, [usize; 4]) {
    match index::read_indexed(archive, text, records, reals, pairs, index) {
        Ok((counts, looked)) => (0, [0, counts.primitives, counts.reals, looked]),
        Err(refused) => (refused.reason, [refused.place, 0, 0, 0]),
    }
}

struct IndexedRead {
    reason: u32,
    answer: [usize; 4],
    index: Vec<u32>,
}

/// Reads a scene with an index of so many entries both ways, and without one, compares all that comes of it, and gives answer and
/// index.
fn compare_indexed(case: &scenes::Case, entries: usize) -> IndexedRead {
    let (filling, real_filling) = (0xdead_beef, -1234.5);
    let mut records = Lent::new(case.records, filling);
    let mut reals = Lent::new(case.reals, real_filling);
    let mut pairs = Lent::new(case.pairs, filling);
    let mut index = Lent::new(entries, filling);
    // Of the entries' numbers some are such as a reading gives
    index.table().iter_mut().step_by(2).zip(1..).for_each(|(entry, number)| *entry = number);
    let text = case.text.clone();
    let (reason, answer) =
        raw::read_indexed(case.mode, &text, records.table(), reals.table(), pairs.table(), index.table());

    let mut expected_records = vec![1; case.records];
    let mut expected_reals = vec![1.0; case.reals];
    let mut expected_pairs = vec![1; case.pairs];
    let mut expected_index = vec![1; entries];
    let expected = expected_indexed(
        case.is_archive(),
        &case.text,
        &mut expected_records,
        &mut expected_reals,
        &mut expected_pairs,
        &mut expected_index,
    );

    let shown = || format!("{}, an index of {entries}", shown(case));
    assert_eq!((reason, answer), expected, "{}", shown());
    assert!(records.table() == expected_records, "records of {}", shown());
    assert!(bits(reals.table()).eq(bits(&expected_reals)), "reals of {}", shown());
    assert!(pairs.table() == expected_pairs, "pairs of {}", shown());
    assert!(index.table() == expected_index, "index of {}", shown());
    assert!(text == case.text, "the text was written: {}", shown());
    assert!(records.margins_are(filling), "written outside the records: {}", shown());
    assert!(reals.margins_are(real_filling), "written outside the reals: {}", shown());
    assert!(pairs.margins_are(filling), "written outside the pairs: {}", shown());
    assert!(index.margins_are(filling), "written outside the index: {}", shown());
    if entries >= INDEX {
        let (mut plain_records, mut plain_reals) = (vec![1; case.records], vec![1.0; case.reals]);
        let mut plain_pairs = vec![1; case.pairs];
        let plain = raw::read(case.mode, &text, &mut plain_records, &mut plain_reals, &mut plain_pairs);
        assert_eq!((reason, [answer[0], answer[1], answer[2]]), plain, "{}", shown());
        assert!(records.table() == plain_records, "records of both calls for {}", shown());
        assert!(bits(reals.table()).eq(bits(&plain_reals)), "reals of both calls for {}", shown());
        assert!(pairs.table() == plain_pairs, "pairs of both calls for {}", shown());
    }
    IndexedRead { reason, answer, index: expected_index }
}

/// A scene in both modes, with indexes just large enough, longer and too short.
fn compare_indexes(tally: &mut Tally, case: scenes::Case) {
    let other = scenes::Case { mode: u32::from(!case.is_archive()), text: case.text.clone(), ..case };
    for case in [case, other] {
        for entries in [0, INDEX - 1, INDEX, INDEX + 12] {
            tally.add(compare_indexed(&case, entries).reason);
        }
    }
}

#[test]
fn scenes_are_indexed_alike() {
    let mut random = random(10);
    let mut any = Tally::new("scenes indexed");
    let mut colliding = Tally::new("scenes indexed whose names collide");
    for _ in 0..scene_count() / 8 {
        compare_indexes(&mut any, scenes::case(&mut random));
        compare_indexes(&mut colliding, scenes::colliding(&mut random));
    }
    any.report(reasons().chain([24, 27]), 40_000);
    colliding.report([0, 24, 26, 27], 10_000);
}

/// A light of a name, under a modifier.
fn light(modifier: &[u8], name: &[u8]) -> Vec<u8> {
    [modifier, b" light ", name, b" 0 0 3 1 1 1\n"].concat()
}

#[test]
fn an_index_goes_round() {
    let names: Vec<_> = (0..4).map(|n| scenes::name_of_hash(INDEX - 1, n, 2)).collect();
    let [a, b, c, d] = [0, 1, 2, 3].map(|n| names[n].as_slice());
    let next = scenes::name_of_hash(0, 0, 2);
    let lights = [light(b"void", a), light(a, b), light(b, c), light(b"void", &next), light(c, a)].concat();
    let others = [b"void alias ".as_slice(), d, b" ", &next, b"\n", d, b" sphere ", a, b" 0 0 4 0 0 0 1\n"].concat();
    for entries in [INDEX, INDEX + 12] {
        let read = compare_indexed(&with_most([lights.clone(), others.clone()].concat()), entries);
        // By statement: the modifier, an alias's target, the name
        let looked = 1 + (1 + 2) + (2 + 3) + 3 + (3 + 1) + (3 + 5) + 5;
        assert_eq!((read.reason, read.answer), (0, [0, 7, 19, looked]));
        assert_eq!((read.index[INDEX - 1], &read.index[..5]), (5, [2, 3, 4, 6, 0].as_slice()));
        assert_eq!(read.index.iter().filter(|&&number| number != 0).count(), 5);
    }
}

/// As many names of one hash as there may be primitives, each looked for from the first entry on.
#[test]
fn a_full_index_of_colliding_names_is_alike() {
    let most = scene::MOST_RECORDS;
    for hash in [0, 1_500, INDEX - 1] {
        let names: Vec<_> = (0..most).map(|n| scenes::name_of_hash(hash, n, 10)).collect();
        let modifiers = [b"void".as_slice()].into_iter().chain(names.iter().map(Vec::as_slice));
        let text = modifiers.zip(&names).map(|(modifier, name)| light(modifier, name)).collect::<Vec<_>>().concat();
        let read = compare_indexed(&with_most(text.clone()), INDEX);
        assert_eq!((read.reason, read.answer), (0, [0, most, 3 * most, most * most]));
        // One more has no room, and what was indexed goes
        let refused = compare_indexed(&with_most([text.as_slice(), b"void"].concat()), INDEX);
        assert_eq!((refused.reason, refused.answer), (6, [text.len(), 0, 0, 0]));
    }
}

#[test]
fn a_short_index_is_refused_after_a_long_text_alone() {
    for entries in [0, 1, INDEX - 1] {
        let reason = |text: Vec<u8>| compare_indexed(&with_most(text), entries).reason;
        assert_eq!(reason(vec![b'!'; scene::MOST_BYTES]), 24);
        assert_eq!(reason(vec![b'!'; scene::MOST_BYTES + 1]), 1);
        assert_eq!(reason(full(1_025)), 24);
        assert_eq!(reason(Vec::new()), 24);
    }
    for (records, reals) in [(0, 0), (1, 0), (RECORD, 3), (RECORD + 1, 2)] {
        for entries in [0, INDEX - 1, INDEX, 3 * INDEX] {
            compare_indexed(&scenes::Case::new(0, light(b"void", b"a"), records, reals), entries);
        }
    }
}

// ---- the tuned reader

/// Reads a scene by both readers of the reference, into tables that hold something, and compares all that comes of it.
fn compare_tuned(case: &scenes::Case) -> Result<Counts, Refused> {
    let (mut records, mut reals) = (vec![0xdead_beef; case.records], vec![f64::NAN; case.reals]);
    let (mut pairs, mut expected_pairs) = (vec![0xdead_beef; case.pairs], vec![1; case.pairs]);
    let tuned = tuned::read(case.is_archive(), &case.text, &mut records, &mut reals, &mut pairs);
    let (mut expected_records, mut expected_reals) = (vec![1; case.records], vec![1.0; case.reals]);
    let expected =
        scene::read(case.is_archive(), &case.text, &mut expected_records, &mut expected_reals, &mut expected_pairs);
    assert_eq!(tuned, expected, "{}", shown(case));
    assert!(records == expected_records, "records of {}", shown(case));
    assert!(bits(&reals).eq(bits(&expected_reals)), "reals of {}", shown(case));
    assert!(pairs == expected_pairs, "pairs of {}", shown(case));
    expected
}

fn reason_of(answer: Result<Counts, Refused>) -> u32 {
    answer.map_or_else(|refused| refused.reason, |_| 0)
}

/// A scene in both modes, in the lent tables; if it is accepted, also in tables just large enough, one entry too short, and empty.
fn compare_tuned_in_tables(tally: &mut Tally, case: scenes::Case) {
    let scenes::Case { text, records, reals, pairs, .. } = case;
    for mode in [0, 1] {
        let mut compare = |records, reals, pairs| {
            let answer = compare_tuned(&scenes::Case { mode, text: text.clone(), records, reals, pairs });
            tally.add(reason_of(answer));
            answer
        };
        if let Ok(used) = compare(records, reals, pairs) {
            let (records, reals) = (RECORD * used.primitives, used.reals);
            assert_eq!(compare(records, reals, pairs_needed(records)), Ok(used), "the room is enough");
            for (records, reals) in [(records.saturating_sub(1), reals), (records, reals.saturating_sub(1)), (0, 0)] {
                let _ = compare(records, reals, pairs);
            }
        }
    }
}

#[test]
fn the_tuned_reader_reads_alike() {
    let mut random = random(11);
    let mut any = Tally::new("scenes by the tuned reader");
    let mut mixed = Tally::new("scenes of mixtures by the tuned reader");
    let mut colliding = Tally::new("scenes by the tuned reader whose names collide");
    for _ in 0..scene_count() / 2 {
        compare_tuned_in_tables(&mut any, scenes::case(&mut random));
    }
    for _ in 0..scene_count() / 8 {
        compare_tuned_in_tables(&mut mixed, scenes::mixtures(&mut random));
    }
    for _ in 0..scene_count() / 8 {
        compare_tuned_in_tables(&mut colliding, scenes::colliding(&mut random));
    }
    any.report(reasons().chain([27]), 10_000);
    mixed.report([0, 6, 13, 25, 26, 27], 10_000);
    colliding.report([0, 6, 13], 10_000);
}

/// All types, an alias and a comment.
const ALL_TYPES: &[u8] = b"# all\nvoid mixfunc m 4 l p c d 0 1 .5\nm alias t m\n\
    t source s 0 0 4 0 0 -1 .5\nt sphere s 0 0 4 0 0 0 1\nt bubble s 0 0 4 0 0 0 1e0\nt polygon s 0 0 9 1 2 3 4 5 6 7 8 9\n\
    t cone s 0 0 8 0 0 0 0 0 1 0 1\nt cup s 0 0 8 0 0 0 0 0 1 1 0\nt cylinder s 0 0 7 0 0 0 0 0 1 .5\n\
    t tube s 0 0 7 0 0 0 0 0 1 .5\nt ring s 0 0 8 0 0 0 0 0 1 0 1\nvoid light l 0 0 3 1 1 1\nvoid illum i 1 m 0 3 1 1 1\n\
    void glow g 0 0 4 1 1 1 0\nvoid spotlight l 0 0 7 1 1 1 9 0 0 -1\nvoid mirror r 1 m 0 3 1 1 1\n\
    void plastic p 0 0 5 .5 .5 .5 0 0\nvoid metal q 0 0 5 .5 .5 .5 0 0\nvoid trans u 0 0 7 1 1 1 0 0 0 0\n\
    void plastic2 p 4 a b c d 0 6 1 1 1 0 1 2\nvoid metal2 q 4 a b c d 0 6 1 1 1 0 1 2\n\
    void trans2 u 4 a b c d 0 8 1 1 1 0 1 2 0 0\nvoid dielectric d 0 0 5 1 1 1 1.5 0\n\
    void interface f 0 0 8 1 1 1 1 1 1 1 1.5\nvoid glass w 0 0 4 1 1 1 1.52\nvoid antimatter x 1 p 0 0\n";

#[test]
fn the_tuned_reader_meets_limits_alike() {
    let reason = |text: Vec<u8>| reason_of(compare_tuned(&with_most(text)));
    assert_eq!([full(1_024), full(1_025)].map(reason), [0, 6]);
    assert_eq!([65_536, 65_537].map(|len| reason(vec![b'#'; len])), [0, 1]);
    assert_eq!([64, 65].map(|len| reason(light(b"void", &vec![b'n'; len]))), [0, 3]);
    let compare = |text: &[u8]| reason_of(compare_tuned(&scenes::Case::new(1, text.to_vec(), 28 * RECORD, 150)));
    assert_eq!(compare(ALL_TYPES), 0);
    // Every beginning, and every byte changed
    for end in 0..ALL_TYPES.len() {
        compare(&ALL_TYPES[..end]);
    }
    let mut text = ALL_TYPES.to_vec();
    for at in 0..text.len() {
        for byte in 0..=255 {
            text[at] = byte;
            compare(&text);
        }
        text[at] = ALL_TYPES[at];
    }
}

/// Types under a house rule, and one that is not, with their strings and how many reals they have.
const RULED: [(&str, &str, usize); 13] = [
    ("source", "0", 4),
    ("sphere", "0", 4),
    ("cone", "0", 8),
    ("cup", "0", 8),
    ("tube", "0", 7),
    ("ring", "0", 8),
    ("plastic2", "4 a b c d", 6),
    ("metal2", "4 a b c d", 6),
    ("trans2", "4 a b c d", 8),
    ("dielectric", "0", 5),
    ("interface", "0", 8),
    ("glass", "0", 4),
    ("polygon", "0", 9),
];

/// A breach goes before every fault behind it, whenever the reader looks for it.
#[test]
fn the_tuned_reader_finds_breaches_alike() {
    let mut random = random(12);
    let mut tally = Tally::new("house rules by the tuned reader");
    for _ in 0..scene_count() {
        let (kind, strings, reals) = *random.pick(&RULED);
        let mut text = format!("void {kind} n {strings} 0 {reals}");
        for _ in 0..reals {
            let fault = random.percent(4);
            let words = if fault { ["1e23", "1..2", "\u{e9}", "1e5e", "x"] } else { ["0", "1", "2", "-0", "-1"] };
            text = [&text, *random.pick(&words)].join(" ");
        }
        let mut text = text.into_bytes();
        if random.percent(10) {
            text.truncate(text.len() - random.below(6));
        }
        tally.add(reason_of(compare_tuned(&with_most(text))));
    }
    tally.report([0, 2, 5, 14, 15, 16], 10_000);
}

#[test]
fn the_tuned_reader_reads_numerals_alike() {
    let mut random = random(13);
    let mut tally = Tally::new("numerals by the tuned reader");
    for _ in 0..float_count() / 2 {
        let mut word = numerals::any(&mut random).into_bytes();
        if random.percent(10) {
            let zeros = 66_usize.saturating_sub(word.len() + random.below(4));
            word.splice(0..0, vec![b'0'; zeros]);
        }
        if random.percent(5) {
            word.push(*random.pick(b" \n.e0x\x7f"));
        }
        let text = [b"void mixfunc m 4 void void c d 0 1 ", word.as_slice()].concat();
        tally.add(reason_of(compare_tuned(&scenes::Case::new(0, text, RECORD, 1))));
    }
    tally.report([0, 2, 3, 14, 15], 10_000);
}

// ---- two saves

struct BothRead {
    reason: u32,
    answer: [usize; 6],
    records: [Vec<u32>; 2],
    reals: [Vec<f64>; 2],
}

/// Reads two scenes both ways, compares all that comes of it, and gives the answer and the tables.
fn compare_reading_both(cases: &[scenes::Case; 2]) -> BothRead {
    let (record_filling, real_filling) = (0xdead_beef, -1234.5);
    let [left, right] = cases;
    let [mut a, mut b] = [left, right].map(|case| Lent::new(case.records, record_filling));
    let [mut x, mut y] = [left, right].map(|case| Lent::new(case.reals, real_filling));
    let (reason, answer) =
        raw::read_both(left.mode, &left.text, a.table(), x.table(), &right.text, b.table(), y.table());

    let mut records = [left, right].map(|case| vec![1; case.records]);
    let mut reals = [left, right].map(|case| vec![1.0; case.reals]);
    let expected = match saves::read_both(left.is_archive(), [&left.text, &right.text], &mut records, &mut reals) {
        Ok([m, n]) => (0, [0, 0, m.primitives, m.reals, n.primitives, n.reals]),
        Err((side, refused)) => (refused.reason, [side, refused.place, 0, 0, 0, 0]),
    };

    let shown = || cases.each_ref().map(shown);
    assert_eq!((reason, answer), expected, "{:?}", shown());
    assert!([a.table(), b.table()].into_iter().eq(&records), "records of {:?}", shown());
    let ours = [x.table(), y.table()];
    assert!(ours.iter().zip(&reals).all(|(ours, theirs)| bits(ours).eq(bits(theirs))), "reals of {:?}", shown());
    assert!(a.margins_are(record_filling) && b.margins_are(record_filling), "outside the records: {:?}", shown());
    assert!(x.margins_are(real_filling) && y.margins_are(real_filling), "outside the reals: {:?}", shown());
    BothRead { reason, answer, records, reals }
}

/// Puts the names of a save in order both ways, compares all that comes of it, and gives the order.
fn compare_order(save: Save, entries: usize, scratch: usize) -> Vec<u32> {
    let filling = 0xdead_beef;
    let (mut order, mut lent) = (Lent::new(entries, filling), Lent::new(scratch, filling));
    raw::order_names(save.text, save.records, order.table(), lent.table());
    let shown = || format!("{entries} entries and {scratch} for {:?}", save.records);
    assert!(order.table() == save.order(entries, scratch), "order: {}", shown());
    assert!(lent.table().iter().all(|&entry| entry == 0), "scratch: {}", shown());
    assert!(order.margins_are(filling) && lent.margins_are(filling), "outside of both: {}", shown());
    order.table().to_vec()
}

/// All lines along two orders, whatever these hold, from a line on. Each is of a number of its order and goes on behind it.
fn walk(left: Save, right: Save, orders: &[Vec<u32>; 2], from: [usize; 6]) -> Vec<[usize; 6]> {
    let [a, b] = [(left, &orders[0]), (right, &orders[1])].map(|(save, order)| raw::Ordered {
        text: save.text,
        records: save.records,
        reals: save.reals,
        order,
    });
    let halves = orders.each_ref().map(|order| order.len() / 2);
    let mut lines = Vec::new();
    let mut line = from;
    loop {
        let passed = [line[0], line[1]];
        let found = raw::next_ordered(a, b, &mut line);
        if found == 0 {
            assert_eq!(line, [0; 6]);
            return lines;
        }
        let [i, j, side, number, nth, state] = line;
        assert!(found == 1 && matches!((side, state), (0, 1 | 3) | (1, 2)), "{found}, {line:?}");
        let cursors = [i, j];
        // The order of a number's side is passed up to it, and in no order is less passed than before
        assert!(passed[side] < cursors[side] && cursors[side] <= halves[side], "from {passed:?} to {line:?}");
        assert!(passed[1 - side] <= cursors[1 - side], "from {passed:?} to {line:?}");
        assert_eq!(orders[side][cursors[side] - 1] as usize, number);
        let nths = &orders[side][halves[side]..];
        assert_eq!(number.checked_sub(1).and_then(|at| nths.get(at)).map_or(0, |&nth| nth as usize), nth);
        lines.push(line);
    }
}

/// All lines one after the other, by keys and along an order of each save, and the line after some keys; counts the lines by state, 0
/// for the end.
fn compare_lines(random: &mut Random, states: &mut Tally, left: Save, right: Save) {
    let expected = Comparison::new(left, right);
    let mut next = |mut line: [usize; 4]| {
        let after = expected.after(line[0], line[1]);
        let found =
            raw::next_line(left.text, left.records, left.reals, right.text, right.records, right.reals, &mut line);
        let shown = || format!("{:?} and {:?}", left.records, right.records);
        assert_eq!((found, line), after.map_or((0, [0; 4]), |line| (1, line)), "{}", shown());
        states.add(line[3] as u32);
        (found == 1).then_some(line)
    };
    let mut lines = Vec::new();
    let mut line = next([0; 4]);
    while let Some(held) = line {
        lines.push(held);
        line = next(held);
    }
    assert_eq!(lines.len(), expected.len());
    let orders = [left, right].map(|save| {
        let primitives = save.records.len() / RECORD;
        compare_order(save, 2 * primitives, primitives + random.below(2))
    });
    let ordered = walk(left, right, &orders, [0; 6]);
    let told = |[_, _, side, number, nth, state]: [usize; 6]| [side, number, nth, state];
    assert!(ordered.iter().copied().map(told).eq(lines.iter().copied()), "{ordered:?} and {lines:?}");
    // From a line's cursors on the later ones; what else the line holds is not looked at
    if !ordered.is_empty() {
        let passed = random.below(ordered.len());
        let [i, j, ..] = ordered[passed];
        let later = walk(left, right, &orders, [i, j, usize::MAX, 7, usize::MAX, random.below(5)]);
        assert_eq!(later, ordered[passed + 1..]);
    }
    let most = left.records.len().max(right.records.len()) / RECORD;
    for number in [random.below(most + 1), random.below(most + 1), most + 1, usize::MAX] {
        for side in [0, 1, 2, usize::MAX] {
            // What else the line holds is not looked at
            next([side, number, usize::MAX, random.below(5)]);
        }
    }
}

/// The first records of a table with some numbers changed.
fn spoiled(random: &mut Random, records: &[u32]) -> Vec<u32> {
    let mut spoiled = records[..records.len() - random.below(records.len().min(25) + 1)].to_vec();
    scenes::spoil_table(random, &mut spoiled);
    limit_strings(spoiled)
}

/// Strings that both tables state are gone through one by one: so no record states many.
fn limit_strings(mut records: Vec<u32>) -> Vec<u32> {
    records.iter_mut().skip(6).step_by(RECORD).for_each(|strings| *strings = (*strings).min(1_000));
    records
}

#[test]
fn saves_are_compared_alike() {
    let mut random = random(7);
    let mut read = Tally::new("two scenes read");
    let mut lines = Tally::new("lines of read tables (0 the end, then by state)");
    let mut others = Tally::new("lines of other tables (0 the end, then by state)");
    for _ in 0..scene_count() / 4 {
        let cases = scenes::saves(&mut random);
        let BothRead { reason, answer, records, reals } = compare_reading_both(&cases);
        read.add(reason);
        let ([left, right], [_, _, m, j, n, k]) = (&cases, answer);
        let (a, b) = (&records[0][..RECORD * m], &records[1][..RECORD * n]);
        let (x, y) = (&reals[0][..j], &reals[1][..k]);
        let left = Save { text: &left.text, records: a, reals: x };
        let right = Save { text: &right.text, records: b, reals: y };
        compare_lines(&mut random, &mut lines, left, right);
        // Long tables take long
        if a.len() + b.len() > 2_000 {
            continue;
        }
        let (a, mut x) = (spoiled(&mut random, a), x.to_vec());
        scenes::spoil_reals(&mut random, &mut x);
        let odd = Save { text: left.text, records: &a, reals: &x };
        compare_lines(&mut random, &mut others, odd, left);
        compare_lines(&mut random, &mut others, right, odd);
        // All NaNs are one
        let alike: Vec<f64> = x.iter().map(|&x| if x.is_nan() { f64::from_bits(!0) } else { x }).collect();
        let alike = Save { reals: &alike, ..odd };
        assert_eq!(Comparison::new(odd, alike).len(), 0);
        compare_lines(&mut random, &mut others, odd, alike);
        let text = &left.text[..left.text.len().min(50)];
        let [made, other] = [(); 2].map(|()| limit_strings(scenes::table(&mut random, text.len())));
        let made = Save { text, records: &made, reals: &x };
        compare_lines(&mut random, &mut others, made, Save { text, records: &other, reals: y });
        compare_lines(&mut random, &mut others, made, odd);
    }
    read.report(reasons(), 40_000);
    lines.report(0..=3, 10_000);
    others.report(0..=3, 10_000);
}

#[test]
fn large_saves_are_compared_alike() {
    let cases = [full(1_024), full(1_023)].map(with_most);
    let BothRead { reason, answer, records, .. } = compare_reading_both(&cases);
    assert_eq!((reason, answer), (0, [0, 0, 1_024, 0, 1_023, 0]));
    let [left, right] = [(0, 1_024), (1, 1_023)].map(|(side, primitives): (usize, usize)| Save {
        text: &cases[side].text,
        records: &records[side][..RECORD * primitives],
        reals: &[],
    });
    let mut lines = Tally::new("lines of large tables (0 the end, then by state)");
    compare_lines(&mut random(9), &mut lines, left, right);
    lines.report([0, 1], 1);
    let refused = compare_reading_both(&[full(1_024), full(1_025)].map(with_most));
    assert_eq!((refused.reason, refused.answer), (6, [1, full(1_024).len(), 0, 0, 0, 0]));
}

/// A text of so many lights, with few names and few values.
fn few_names(random: &mut Random, lights: usize) -> Vec<u8> {
    let line =
        |_| format!("void light {} 0 0 3 1 1 {}\n", random.pick(&["b", "a", "ab", "lamp"]), random.pick(&["1", "2"]));
    (0..lights).map(line).collect::<String>().into_bytes()
}

#[test]
fn saves_with_one_name_many_times_are_compared_alike() {
    let mut random = random(14);
    let mut lines = Tally::new("lines of names given many times (0 the end, then by state)");
    for lights in [1, 2, 3, 30, 300] {
        let cases = [lights, lights + random.below(9)].map(|lights| with_most(few_names(&mut random, lights)));
        let BothRead { answer, records, reals, .. } = compare_reading_both(&cases);
        let [left, right] = [(0, answer[2]), (1, answer[4])].map(|(side, primitives): (usize, usize)| Save {
            text: &cases[side].text,
            records: &records[side][..RECORD * primitives],
            reals: &reals[side],
        });
        compare_lines(&mut random, &mut lines, left, right);
        compare_lines(&mut random, &mut lines, right, left);
    }
    lines.report(0..=3, 1);
}

/// Orders in less and in more room than the records need, and over the most that are put in order.
#[test]
fn names_are_put_in_order_alike() {
    let mut random = random(15);
    for _ in 0..scene_count() / 20 {
        let text = few_names(&mut random, 5);
        let records = scenes::table(&mut random, text.len());
        let save = Save { text: &text, records: &records, reals: &[] };
        let most = records.len() / RECORD + 3;
        compare_order(save, random.below(2 * most), random.below(most));
    }
    let text = few_names(&mut random, 5);
    let records: Vec<u32> = (0..1_030).flat_map(|n| [0, 0, 0, n % 70, n % 3, 0, 0, 0, 0, 0, 0]).collect();
    let save = Save { text: &text, records: &records, reals: &[] };
    for entries in [2_046, 2_047, 2_048, 2_060, 2_061] {
        compare_order(save, entries, 1_030);
    }
}

/// Tables that are no order: the numbers of any records and of none, more than once or never, from any cursors on.
#[test]
fn lines_along_any_tables_end() {
    let mut random = random(16);
    let mut lines = 0;
    for _ in 0..scene_count() / 4 {
        let text = few_names(&mut random, 5);
        let [a, b] = [(); 2].map(|()| limit_strings(scenes::table(&mut random, text.len())));
        let [left, right] = [&a, &b].map(|records| Save { text: &text, records, reals: &[1.0, f64::NAN, -0.0] });
        let orders = [(); 2].map(|()| -> Vec<u32> {
            let any = |random: &mut Random| {
                let (near, any) = (random.below(14) as u32, random.bits() as u32);
                *random.pick(&[near, near, near, near, 0, 1, u32::MAX, any])
            };
            (0..random.below(30)).map(|_| any(&mut random)).collect()
        });
        let most: usize = orders.iter().map(|order| order.len() / 2).sum();
        for from in [[0, 0], [random.below(20), random.below(20)], [usize::MAX, 0], [usize::MAX; 2]] {
            let walked = walk(left, right, &orders, [from[0], from[1], 9, 9, 9, 9]).len();
            assert!(walked <= most);
            lines += walked;
        }
    }
    say(&format!("lines along tables that are no order: {lines}, each of a number there"));
}

// ---- scenes written out

/// What is written out: a text and its tables, read in a mode.
#[derive(Clone, Copy)]
struct Source<'s> {
    mode: u32,
    text: &'s [u8],
    records: &'s [u32],
    reals: &'s [f64],
}

/// Has a call write into an output of so many bytes, compares all that comes of it, and gives the reason and the text.
fn compare_output(
    what: &str,
    source: Source,
    room: usize,
    call: impl Fn(&[u32], &[f64], &mut [u8]) -> (u32, [usize; 2]),
    expected: Result<Vec<u8>, Refused>,
) -> (u32, Vec<u8>) {
    let Source { mode, text, records, reals } = source;
    let filling = 0xa5;
    let mut out = Lent::new(room, filling);
    let (lent_records, lent_reals) = (records.to_vec(), reals.to_vec());
    let ours = call(&lent_records, &lent_reals, out.table());
    let (expected, written) = match expected {
        Ok(written) => ((0, [0, written.len()]), written),
        Err(refused) => ((refused.reason, [refused.place, 0]), Vec::new()),
    };
    let shown = || {
        let text = String::from_utf8_lossy(text);
        format!("{what}, mode {mode}, {room} bytes for {text:?}, tables of {} and {}", records.len(), reals.len())
    };
    assert_eq!(ours, expected, "{}", shown());
    let mut output = written.clone();
    output.resize(room, 0);
    assert!(out.table() == output, "output of {}", shown());
    assert!(out.margins_are(filling), "written outside the output: {}", shown());
    assert!(lent_records == records && bits(&lent_reals).eq(bits(reals)), "a table was written: {}", shown());
    (ours.0, written)
}

/// Writes a scene out both ways, and gives the reason and the tidy text.
fn compare_writing(mode: u32, text: &[u8], records: &[u32], reals: &[f64], room: usize) -> (u32, Vec<u8>) {
    let call = |records: &[u32], reals: &[f64], out: &mut [u8]| raw::write(mode, text, records, reals, out);
    let expected = tidy::write(mode == 1, text, records, reals, room);
    compare_output("written", Source { mode, text, records, reals }, room, call, expected)
}

/// Tables that are not quite those of a reading.
fn tampered(random: &mut Random, records: &[u32], reals: &[f64]) -> (Vec<u32>, Vec<f64>) {
    let (mut records, mut reals) = (records.to_vec(), reals.to_vec());
    match random.below(4) {
        0 => scenes::spoil_reals(random, &mut reals),
        1 => scenes::spoil_table(random, &mut records),
        2 => records.extend((0..random.within(1, 12)).map(|at| (at == 11) as u32)),
        _ => reals.extend((0..random.within(1, 3)).map(|at| if at == 2 { -0.0 } else { 0.0 })),
    }
    (records, reals)
}

/// The tidy text of a scene reads back as the same tables but for places and lines, and is its own tidy text.
fn read_back(mode: u32, tidy: &[u8], records: &[u32], reals: &[f64], pairs: &[u32]) {
    let (mut again, mut doubles) = (vec![1; records.len()], vec![1.0; reals.len()]);
    let mut sides = vec![1; pairs.len()];
    let (reason, _) = raw::read(mode, tidy, &mut again, &mut doubles, &mut sides);
    assert!(reason == 0 && sides == pairs, "{reason}: {:?}", String::from_utf8_lossy(tidy));
    let but_places = |records: &[u32]| -> Vec<u32> {
        records
            .iter()
            .enumerate()
            .map(|(at, &number)| if matches!(at % RECORD, 3 | 5 | 10) { 0 } else { number })
            .collect()
    };
    assert!(but_places(&again) == but_places(records) && bits(&doubles).eq(bits(reals)));
    assert_eq!(compare_writing(mode, tidy, &again, &doubles, tidy.len()), (0, tidy.to_vec()));
}

#[test]
fn scenes_are_written_alike() {
    let mut random = random(8);
    let mut tally = Tally::new("scenes written");
    for _ in 0..scene_count() / 4 {
        let case = scenes::case(&mut random);
        let (mut records, mut reals) = (vec![1; case.records], vec![1.0; case.reals]);
        let mut pairs = vec![1; pairs_needed(case.records)];
        let read = expected_read(case.is_archive(), &case.text, &mut records, &mut reals, &mut pairs);
        let enough = case.text.len() + 1 + random.below(40);
        let (reason, tidy) = compare_writing(case.mode, &case.text, &records, &reals, enough);
        tally.add(reason);
        assert!(reason == read.reason, "an output one byte longer than the text is enough");
        if reason == 0 {
            let [_, primitives, used] = read.answer;
            let whole = (&records[..RECORD * primitives], &reals[..used]);
            assert_eq!(compare_writing(case.mode, &case.text, whole.0, whole.1, tidy.len()), (0, tidy.clone()));
            if tidy.len() <= scene::MOST_BYTES {
                read_back(case.mode, &tidy, &records, &reals, &pairs);
            }
            for room in [tidy.len().saturating_sub(1), random.below(tidy.len() + 1), 0] {
                tally.add(compare_writing(case.mode, &case.text, &records, &reals, room).0);
            }
        }
        let (records, reals) = tampered(&mut random, &records, &reals);
        tally.add(compare_writing(case.mode, &case.text, &records, &reals, enough).0);
    }
    tally.report(reasons().chain([22, 23]), 10_000);
}

/// The longest tidy text: words with one blank between them up to the last byte of the longest text, and a line end more.
#[test]
fn the_longest_tidy_text_is_written_alike() {
    let strings = 32_753;
    let text = format!("void mixfunc m {strings} void void{} 0 0", " s".repeat(strings - 2)).into_bytes();
    assert_eq!(text.len(), scene::MOST_BYTES);
    let (mut records, mut reals) = ([1; RECORD], [1.0; 1]);
    assert_eq!(raw::read(0, &text, &mut records, &mut reals, &mut [1; PAIR]).0, 0);
    for (room, expected) in [(scene::MOST_BYTES, 23), (scene::MOST_BYTES + 1, 0), (scene::MOST_BYTES + 2, 0)] {
        assert_eq!(compare_writing(0, &text, &records, &reals, room).0, expected);
    }
}

// ---- glass moved

const FORTH: u32 = 0;
const BACK: u32 = 1;

/// Moves the glass of a scene both ways, and gives the reason and the moved text.
fn compare_moving(direction: u32, source: Source, room: usize) -> (u32, Vec<u8>) {
    let Source { mode, text, records, reals } = source;
    let call =
        |records: &[u32], reals: &[f64], out: &mut [u8]| raw::move_glass(mode, direction, text, records, reals, out);
    let expected = glass::write(mode == 1, direction == BACK, text, records, reals, room);
    compare_output(&format!("moved by {direction}"), source, room, call, expected)
}

/// The tables of an accepted text, with room for so many reals more.
fn tables_of(mode: u32, text: &[u8], more: usize) -> (Vec<u32>, Vec<f64>) {
    let (mut records, mut reals) = (vec![1; RECORD * scene::MOST_RECORDS], vec![1.0; scene::MOST_REALS]);
    let counts = scene::read_without_pairs(mode == 1, text, &mut records, &mut reals).expect("an accepted text");
    records.truncate(RECORD * counts.primitives);
    reals.truncate(counts.reals);
    reals.resize(counts.reals + more, 0.0);
    (records, reals)
}

/// The moved text of an accepted text.
fn moved_whole(direction: u32, mode: u32, text: &[u8]) -> (u32, Vec<u8>) {
    let (records, reals) = tables_of(mode, text, scene::MOST_REALS);
    let source = Source { mode, text, records: &records, reals: &reals };
    compare_moving(direction, source, scene::MOST_BYTES)
}

/// An accepted scene at all rooms that matter: for no real more, for as many as are added, and about the length of the moved text.
fn move_accepted(random: &mut Random, tally: &mut Tally, direction: u32, mode: u32, text: &[u8]) {
    let (reason, moved) = moved_whole(direction, mode, text);
    tally.add(reason);
    let tidy = tidy::tidy(text);
    let added = moved.len().saturating_sub(tidy.len()) / 5;
    for more in [0, added.saturating_sub(1), added, added + 1, random.below(added + 1)] {
        let (records, reals) = tables_of(mode, text, more);
        let source = Source { mode, text, records: &records, reals: &reals };
        for room in [moved.len(), moved.len().saturating_sub(1), random.below(moved.len() + 1), moved.len() + 7] {
            tally.add(compare_moving(direction, source, room).0);
        }
    }
}

/// Forth and back is the tidy text where no fourth real is spelled as it would be written; and moved twice is moved once.
fn move_there_and_back(mode: u32, text: &[u8]) -> bool {
    let tidy = tidy::tidy(text);
    let ((forth_reason, forth), (back_reason, back)) = (moved_whole(FORTH, mode, text), moved_whole(BACK, mode, text));
    if forth_reason != 0 || back_reason != 0 {
        return false;
    }
    let again = |direction, text: &[u8]| moved_whole(direction, mode, text).1;
    assert!(again(FORTH, &forth) == forth && again(BACK, &back) == back && again(FORTH, &back) == forth);
    let came_back = again(BACK, &forth) == tidy;
    assert_eq!(came_back, back == tidy, "{:?}", String::from_utf8_lossy(text));
    came_back
}

#[test]
fn glass_is_moved_alike() {
    let mut random = random(19);
    let mut tally = Tally::new("scenes with glass moved");
    let (mut back_again, mut accepted) = (0, 0);
    for _ in 0..scene_count() / 4 {
        let case = if random.percent(80) { scenes::glass(&mut random) } else { scenes::case(&mut random) };
        let (mut records, mut reals) = (vec![1; case.records], vec![1.0; case.reals]);
        let mut pairs = vec![1; pairs_needed(case.records)];
        let read = expected_read(case.is_archive(), &case.text, &mut records, &mut reals, &mut pairs);
        let direction = *random.pick(&[FORTH, FORTH, FORTH, BACK, BACK, BACK, 2, u32::MAX]);
        let (mode, text) = (case.mode, case.text.as_slice());
        let enough = text.len() + 5 * (read.answer[1] + 1);
        tally.add(compare_moving(direction, Source { mode, text, records: &records, reals: &reals }, enough).0);
        if read.reason == 0 {
            move_accepted(&mut random, &mut tally, direction, mode, text);
            accepted += 1;
            back_again += usize::from(move_there_and_back(mode, text));
        }
        let (records, reals) = tampered(&mut random, &records, &reals);
        tally.add(compare_moving(direction, Source { mode, text, records: &records, reals: &reals }, enough).0);
    }
    tally.report(reasons().filter(|&reason| reason != 1).chain([22, 23]), 10_000);
    say(&format!("scenes moved forth and back: {accepted}, of which {back_again} came back"));
}

/// A moved text is as long as a reading can take, or a byte longer; the output is as long, or a byte shorter.
#[test]
fn long_texts_are_moved_alike() {
    let most = scene::MOST_BYTES;
    for panes in 0..4 {
        let three = "void glass g\n0\n0\n3 1 1 1\n".repeat(panes);
        for (size, expected) in [(most - 5 * panes - 1, 0), (most - 5 * panes, 0), (most - 5 * panes + 1, 1)] {
            // The last line end is not needed, and a text without it may still be read
            let tidy = scenes::of_size(&three, size);
            let text = &tidy[..size - 1];
            let (records, reals) = tables_of(0, text, panes);
            let source = Source { mode: 0, text, records: &records, reals: &reals };
            let len = size + 5 * panes;
            for (room, small) in [(len, 0), (len + 1, 0), (len - 1, 23), (0, 23)] {
                let found = compare_moving(FORTH, source, room).0;
                assert_eq!(found, if expected == 1 { 1 } else { small }, "{panes} panes, {size} bytes, {room}");
            }
            // Too long is said before too many reals
            let short = Source { reals: &reals[..3 * panes], ..source };
            let found = compare_moving(FORTH, short, 0).0;
            assert_eq!(
                found,
                if expected == 1 {
                    1
                } else if panes > 0 {
                    13
                } else {
                    23
                }
            );
        }
        let four = "void glass g\n0\n0\n4 1 1 1 1.52\n".repeat(panes);
        let tidy = scenes::of_size(&four, most + 1);
        let found = moved_whole(BACK, 0, &tidy[..most]).0;
        assert_eq!(found, if panes == 0 { 1 } else { 0 });
        assert_eq!(moved_whole(FORTH, 0, &tidy[..most]).0, 1);
    }
}

/// No table has room for over 4,096 reals, however long it is.
#[test]
fn no_more_reals_than_a_scene_has_are_moved() {
    for (others, expected) in [(4_092, 0), (4_093, 13)] {
        let text =
            format!("void glass g 0 0 3 1 1 1\nvoid mixfunc m 4 void void c d 0 {others}{}", " 1".repeat(others));
        let (records, reals) = tables_of(0, text.as_bytes(), 9_000);
        let source = Source { mode: 0, text: text.as_bytes(), records: &records, reals: &reals };
        assert_eq!(compare_moving(FORTH, source, scene::MOST_BYTES).0, expected);
        assert_eq!(compare_moving(BACK, source, scene::MOST_BYTES).0, 0);
    }
}

// ---- scenes sorted

/// Sorts a scene both ways, and gives the reason and the sorted text.
fn compare_sorting(source: Source, room: usize) -> (u32, Vec<u8>) {
    let Source { mode, text, records, reals } = source;
    let call = |records: &[u32], reals: &[f64], out: &mut [u8]| raw::sort(mode, text, records, reals, out);
    let expected = sort::write(mode == 1, text, records, reals, room);
    compare_output("sorted", source, room, call, expected)
}

/// What each key leads to: the keys of its finish and of its sides.
fn led_to<'s>(save: Save<'s>, pairs: &[u32]) -> BTreeMap<Key<'s>, [Option<Key<'s>>; 3]> {
    let keys = save.keys();
    let key = |number: usize| number.checked_sub(1).map(|at| keys[at]);
    let led_to = |number: usize| {
        let (reason, [material, _]) = raw::finish(save.records, keys.len(), number, number);
        assert_eq!(reason, 0, "the finish of {number} in {:?}", save.records);
        let [foreground, background] = [0, 1].map(|side| pairs[PAIR * (number - 1) + side] as usize);
        [material, foreground, background].map(key)
    };
    keys.iter().copied().zip((1..).map(led_to)).collect()
}

/// A text in another order is read into tables of the same lengths, with the same counts; no line tells it from the text, and finishes and
/// sides are the same but for numbers. Gives its tables.
fn read_reordered(
    source: Source,
    pairs: &[u32],
    [primitives, used]: [usize; 2],
    reordered: &[u8],
) -> (Vec<u32>, Vec<f64>) {
    let Source { mode, text, records, reals } = source;
    let shown = || format!("{:?}, in order {:?}", String::from_utf8_lossy(text), String::from_utf8_lossy(reordered));
    let (mut again, mut doubles) = (vec![1; records.len()], vec![1.0; reals.len()]);
    let mut sides = vec![1; pairs.len()];
    let read = raw::read(mode, reordered, &mut again, &mut doubles, &mut sides);
    assert_eq!(read, (0, [0, primitives, used]), "{}", shown());
    let left = Save { text, records: &records[..RECORD * primitives], reals: &reals[..used] };
    let right = Save { text: reordered, records: &again[..RECORD * primitives], reals: &doubles[..used] };
    let mut line = [0; 4];
    let found = raw::next_line(left.text, left.records, left.reals, right.text, right.records, right.reals, &mut line);
    assert_eq!((found, line, Comparison::new(left, right).len()), (0, [0; 4], 0), "{}", shown());
    assert_eq!(led_to(left, pairs), led_to(right, &sides), "{}", shown());
    (again, doubles)
}

/// A sorted text is read as the text is, and is its own sorted text.
fn read_sorted(source: Source, pairs: &[u32], counts: [usize; 2], sorted: &[u8]) {
    let (records, reals) = read_reordered(source, pairs, counts, sorted);
    let own = Source { mode: source.mode, text: sorted, records: &records, reals: &reals };
    let text = String::from_utf8_lossy(source.text);
    assert_eq!(compare_sorting(own, sorted.len()), (0, sorted.to_vec()), "sorted from {text:?}");
}

#[test]
fn scenes_are_sorted_alike() {
    let mut random = random(22);
    let mut tally = Tally::new("scenes sorted");
    let (mut accepted, mut cut, mut changed) = (0, 0, 0);
    for _ in 0..scene_count() / 4 {
        let case = if random.percent(75) { scenes::lined(&mut random) } else { scenes::case(&mut random) };
        let (mut records, mut reals) = (vec![1; case.records], vec![1.0; case.reals]);
        let mut pairs = vec![1; pairs_needed(case.records)];
        let read = expected_read(case.is_archive(), &case.text, &mut records, &mut reals, &mut pairs);
        let (mode, text) = (case.mode, case.text.as_slice());
        let source = Source { mode, text, records: &records, reals: &reals };
        let (reason, sorted) = compare_sorting(source, text.len());
        tally.add(reason);
        let [_, primitives, used] = read.answer;
        if read.reason == 0 {
            accepted += 1;
            let whole = Source { records: &records[..RECORD * primitives], reals: &reals[..used], ..source };
            assert_eq!(compare_sorting(whole, text.len()), (reason, sorted.clone()));
            let len = text.len();
            for room in [len + 1 + random.below(40), len.saturating_sub(1), random.below(len + 1), 0] {
                tally.add(compare_sorting(source, room).0);
            }
        }
        if reason == 0 {
            read_sorted(source, &pairs, [primitives, used], &sorted);
            cut += 1;
            changed += usize::from(sorted != text);
        }
        let (records, reals) = tampered(&mut random, &records, &reals);
        tally.add(compare_sorting(Source { mode, text, records: &records, reals: &reals }, text.len()).0);
    }
    tally.report(reasons().filter(|&reason| reason != 1).chain([22, 23, 33, 34]), 10_000);
    say(&format!(
        "scenes accepted that were to be sorted: {accepted}, of which {cut} were, {changed} into another text"
    ));
    assert!(accepted < 1_000 || 3 * cut > accepted && 3 * changed > cut, "too few texts are sorted");
}

/// The sorted text of an accepted text, or the refusal, in an output as long as the text.
fn sorted_whole(text: &[u8]) -> Result<Vec<u8>, Refused> {
    let (records, reals) = tables_of(0, text, 0);
    let source = Source { mode: 0, text, records: &records, reals: &reals };
    compare_sorting(source, text.len());
    sort::write(false, text, &records, &reals, text.len())
}

/// Statements, one on a line, and by their numbers the order in which they come.
const ORDERS: [(&[&str], &[usize]); 13] = [
    // The least type comes first, and of one type the first in the text
    (&["void light l 0 0 3 1 1 1", "void sphere s 0 0 4 0 0 0 1", "void light m 0 0 3 1 1 1"], &[2, 1, 3]),
    // A modifier stays above what it is the modifier of, and a type goes on before a lesser one comes
    (&["void light l 0 0 3 1 1 1", "l sphere s 0 0 4 0 0 0 1", "void light m 0 0 3 1 1 1"], &[1, 3, 2]),
    (
        &[
            "void plastic p 0 0 5 1 1 1 0 0",
            "p sphere s 0 0 4 0 0 0 1",
            "void light l 0 0 3 1 1 1",
            "l sphere t 0 0 4 0 0 0 1",
        ],
        &[3, 4, 1, 2],
    ),
    // A definition stays between what refers to the one before it and what refers to it
    (
        &[
            "void plastic a 0 0 5 1 1 1 0 0",
            "a sphere s 0 0 4 0 0 0 1",
            "void plastic a 0 0 5 1 1 1 0 0",
            "a sphere t 0 0 4 0 0 0 1",
        ],
        &[1, 2, 3, 4],
    ),
    // Statements of one name stay in order, surfaces too; but a surface is not held with what has its name as a modifier
    (&["void ring a 0 0 8 0 0 0 0 0 1 0 1", "void sphere a 0 0 4 0 0 0 1"], &[1, 2]),
    (&["void light a 0 0 3 1 1 1", "void ring a 0 0 8 0 0 0 0 0 1 0 1", "a sphere s 0 0 4 0 0 0 1"], &[1, 3, 2]),
    (&["void ring a 0 0 8 0 0 0 0 0 1 0 1", "void sphere s 0 0 4 0 0 0 1", "void light a 0 0 3 1 1 1"], &[2, 1, 3]),
    // An alias has its target's type and stays below it, and what refers to the alias below that
    (
        &[
            "void plastic p 0 0 5 1 1 1 0 0",
            "void light l 0 0 3 1 1 1",
            "void alias q p",
            "void alias k l",
            "k sphere s 0 0 4 0 0 0 1",
        ],
        &[2, 4, 5, 1, 3],
    ),
    (&["void plastic p 0 0 5 1 1 1 0 0", "p light l 0 0 3 1 1 1", "void alias k l"], &[1, 2, 3]),
    // And above a later definition of its target's name
    (
        &["void light l 0 0 3 1 1 1", "void plastic p 0 0 5 1 1 1 0 0", "p alias k l", "void light l 0 0 3 1 1 1"],
        &[1, 2, 3, 4],
    ),
    (&["void light p 0 0 3 1 1 1", "p alias p p", "p alias p p", "void sphere s 0 0 4 0 0 0 1"], &[4, 1, 2, 3]),
    // Sides of mixtures hold nothing, and neither do other strings
    (&["void mixfunc m 4 p void v f 0 0", "void plastic p 0 0 5 1 1 1 0 0"], &[2, 1]),
    (&["void mirror m 1 p 0 3 1 1 1", "void light p 0 0 3 1 1 1", "void light v 0 0 3 1 1 1"], &[2, 3, 1]),
];

#[test]
fn statements_come_in_order_alike() {
    for (lines, order) in ORDERS {
        // With a comment above and one behind, which go along
        let block = |number: usize| format!("# {number}\n\n {} # behind {number}\n", lines[number - 1]);
        let text: String = (1..=lines.len()).map(block).chain(["#\n".to_owned()]).collect();
        let sorted: String = order.iter().copied().map(block).chain(["#\n".to_owned()]).collect();
        assert_eq!(sorted_whole(text.as_bytes()), Ok(sorted.into_bytes()), "{text:?}");
    }
}

/// Where lines end decides which texts can be cut.
#[test]
fn texts_are_cut_alike() {
    let refused = |reason, place| Err(Refused { reason, place });
    for text in ["", "\n", "# note\n", "void light l 0 0 3 1 1 1\n", "\n\nvoid\nlight\nl\n0\n0\n3\n1 1 1 #\n \n"] {
        assert_eq!(sorted_whole(text.as_bytes()), Ok(text.as_bytes().to_vec()), "{text:?}");
    }
    for text in [" ", "\n#", "\n\r", "void light l 0 0 3 1 1 1", "void alias a l\n# note"] {
        let text = ["void light l 0 0 3 1 1 1\n", text].concat();
        assert_eq!(sorted_whole(text.as_bytes()), refused(33, text.len()), "{text:?}");
    }
    // Only byte 10 ends a line. The first crowded line is told, wherever on it its statements begin and end
    for between in [" ", "\t", "\r", "\x0b", "\x0c", " \r "] {
        let text = ["void light l 0 0 3 1 1 1", between, "void light m 0 0 3 1 1 1 l alias k l\n"].concat();
        assert_eq!(sorted_whole(text.as_bytes()), refused(34, 24 + between.len()), "{text:?}");
        assert_eq!(sorted_whole(text.trim_end().as_bytes()), refused(33, text.len() - 1), "{text:?}");
    }
    let above = "void light l 0 0 3 1 1 1 # one\nvoid light\nm 0 0 3 1 1\n1 ";
    let text = [above, "void\nalias k m\n"].concat();
    assert_eq!(sorted_whole(text.as_bytes()), refused(34, above.len()));
}

/// Of several reasons the first in the order of the header is given.
#[test]
fn refusals_of_sorting_come_in_order() {
    let ended = b"void light l 0 0 3 1 1 1\nvoid alias k l\n".as_slice();
    let crowded = b"void light l 0 0 3 1 1 1 void alias k l\n".as_slice();
    let all = b"void light l 0 0 3 1 1 1 void alias k l".as_slice();
    for (text, cut) in [(ended, 0), (crowded, 34), (all, 33)] {
        let (records, reals) = tables_of(0, text, 1);
        let source = Source { mode: 0, text, records: &records, reals: &reals };
        let reason = |source, room| compare_sorting(source, room).0;
        assert_eq!([text.len() + 1, text.len()].map(|room| reason(source, room)), [cut; 2]);
        assert_eq!([text.len() - 1, 0].map(|room| reason(source, room)), [if cut == 0 { 23 } else { cut }; 2]);
        let mut other = reals.clone();
        other[3] = -0.0;
        assert_eq!(reason(Source { reals: &other, ..source }, 0), 22);
        assert_eq!(reason(Source { reals: &other[..2], ..source }, 0), 13);
        assert_eq!(reason(Source { text: &text[..text.len() - 2], reals: &other, ..source }, 0), 5);
    }
}

/// The longest text and the most primitives, lights and spheres by turns; and as many that all stay where they are.
#[test]
fn large_texts_are_sorted_alike() {
    let most = scene::MOST_RECORDS;
    let lamp = |n: usize| format!("void light l{n} 0 0 3 1 1 1\n");
    let bulb = |n: usize| format!("l{n} sphere s{n} 0 0 4 0 0 0 1\n");
    let numbers = || 1..=most / 2;
    let text: String = numbers().flat_map(|n| [lamp(n), bulb(n)]).collect();
    let sorted: String = numbers().map(lamp).chain(numbers().map(bulb)).collect();
    let note = format!("#{}\n", "-".repeat(scene::MOST_BYTES - text.len() - 2));
    let [text, sorted] = [text, sorted].map(|text| [text, note.clone()].concat().into_bytes());
    assert_eq!((text.len(), tables_of(0, &text, 0).0.len()), (scene::MOST_BYTES, RECORD * most));
    assert_eq!(sorted_whole(&text), Ok(sorted));
    assert_eq!(sorted_whole(&full(most)), Ok(full(most)));
    let (records, reals) = (vec![0; RECORD * most], vec![0.0; scene::MOST_REALS]);
    let long = [text.as_slice(), b"\n"].concat();
    let source = Source { mode: 0, text: &long, records: &records, reals: &reals };
    assert_eq!(compare_sorting(source, long.len()).0, 1);
}

// ---- whether order mattered

/// The outcome for two primitives whose order is held over several bonds.
const FURTHER: u32 = 2;

/// Asks about two numbers in either order, compares, and gives the outcome.
fn compare_mattered(text: &[u8], records: &[u32], count: usize, first: usize, second: usize) -> u32 {
    let found = order::mattered(text, records, count, first, second);
    let expected = match found {
        Ok(None) => (0, [0, 0]),
        Ok(Some(held)) => (1, [held.by, held.giver]),
        Err(reason) => (reason, [0, 0]),
    };
    let ours = [[first, second], [second, first]].map(|[a, b]| raw::mattered(text, records, count, a, b));
    let text = String::from_utf8_lossy(text);
    assert_eq!(ours, [expected; 2], "order of {first} and {second} of {count} in {records:?}, text {text:?}");
    match found {
        Ok(Some(held)) if held.bonds > 1 => FURTHER,
        _ => expected.0,
    }
}

/// Numbers of a table to ask about: all of a small one, and some, with the next ones, of a large one.
fn some_numbers(random: &mut Random, rows: usize) -> Vec<usize> {
    if rows <= 13 {
        return (1..=rows).collect();
    }
    let mut numbers: Vec<usize> = (0..6).map(|_| random.within(1, rows - 1)).flat_map(|n| [n, n + 1]).collect();
    numbers.sort();
    numbers.dedup();
    numbers
}

/// Every two of a table's numbers, or some, and numbers that it has not.
fn compare_orders(random: &mut Random, tally: &mut Tally, text: &[u8], records: &[u32], count: usize) {
    let before = (text.to_vec(), records.to_vec());
    let rows = count.min(records.len() / RECORD);
    let mut numbers = some_numbers(random, rows);
    numbers.extend([0, count, count.wrapping_add(1), usize::MAX / RECORD + 2]);
    for (at, &first) in numbers.iter().enumerate() {
        for &second in &numbers[at..] {
            tally.add(compare_mattered(text, records, count, first, second));
        }
    }
    assert!((text, records) == (before.0.as_slice(), before.1.as_slice()), "a question wrote text or table");
}

/// A text that is accepted in a mode, with its tables.
struct Accepted {
    mode: u32,
    text: Vec<u8>,
    records: Vec<u32>,
    reals: Vec<f64>,
    pairs: Vec<u32>,
}

impl Accepted {
    /// Of most of these the text can be cut.
    fn any(random: &mut Random) -> Accepted {
        loop {
            let case = if random.percent(75) { scenes::lined(random) } else { scenes::case(random) };
            let (mut records, mut reals) = (vec![1; RECORD * scene::MOST_RECORDS], vec![1.0; scene::MOST_REALS]);
            let mut pairs = vec![1; pairs_needed(records.len())];
            if let Ok(counts) = scene::read(case.is_archive(), &case.text, &mut records, &mut reals, &mut pairs) {
                records.truncate(RECORD * counts.primitives);
                reals.truncate(counts.reals);
                pairs.truncate(PAIR * counts.primitives);
                return Accepted { mode: case.mode, text: case.text, records, reals, pairs };
            }
        }
    }

    fn count(&self) -> usize {
        self.records.len() / RECORD
    }

    fn source(&self) -> Source<'_> {
        Source { mode: self.mode, text: &self.text, records: &self.records, reals: &self.reals }
    }

    fn keys(&self) -> Vec<Key<'_>> {
        Save { text: &self.text, records: &self.records, reals: &self.reals }.keys()
    }

    fn is_held(&self, first: usize, second: usize) -> bool {
        let (outcome, _) = raw::mattered(&self.text, &self.records, self.count(), first, second);
        assert!(outcome <= 1, "{outcome} for {first} and {second} in {:?}", String::from_utf8_lossy(&self.text));
        outcome == 1
    }

    /// Every two of its numbers, or some.
    fn every_two(&self, random: &mut Random) -> Vec<(usize, usize)> {
        let numbers = some_numbers(random, self.count());
        let below = |first: usize| numbers.iter().copied().filter(move |&second| second > first);
        numbers.iter().flat_map(|&first| below(first).map(move |second| (first, second))).collect()
    }
}

#[test]
fn order_mattered_alike() {
    let mut random = random(23);
    let mut read = Tally::new("orders in read tables (0 free, 1 held by a bond, 2 over several)");
    let mut damaged = Tally::new("orders in damaged tables (0 free, 1 held by a bond, 2 over several)");
    for _ in 0..scene_count() / 8 {
        let scene = Accepted::any(&mut random);
        let (text, count) = (scene.text.as_slice(), scene.count());
        compare_orders(&mut random, &mut read, text, &scene.records, count);
        let mut spoiled = scene.records.clone();
        spoiled.truncate(spoiled.len().saturating_sub(random.below(3)));
        scenes::spoil_table(&mut random, &mut spoiled);
        let text = &text[..text.len() - random.below(text.len().min(3) + 1)];
        let count = stated_count(&mut random, count);
        compare_orders(&mut random, &mut damaged, text, &spoiled, count);
    }
    read.report([0, 1, FURTHER, 17], 10_000);
    damaged.report([0, 1, FURTHER, 17, 18], 10_000);
}

/// Tables that no reading gave, of which most can be asked about but for one number.
#[test]
fn order_in_any_table_mattered_alike() {
    let mut random = random(24);
    let mut tally = Tally::new("orders in made tables (0 free, 1 held by a bond, 2 over several)");
    for _ in 0..scene_count() / 4 {
        let (text, records) = scenes::bound_table(&mut random);
        let rows = records.len() / RECORD;
        let count = if random.percent(80) { rows } else { stated_count(&mut random, rows) };
        compare_orders(&mut random, &mut tally, &text, &records, count);
        let any = scenes::table(&mut random, text.len());
        let count = stated_count(&mut random, any.len() / RECORD);
        compare_orders(&mut random, &mut tally, &text, &any, count);
    }
    tally.report([0, 1, FURTHER, 17, 18], 10_000);
}

/// A pair is held exactly where the closure of the bonds says so, which are found in the words of the text and not in its tables.
#[test]
fn order_is_held_by_chains_alone() {
    let mut random = random(25);
    let mut tally = Tally::new("orders by the closure (0 free, 1 held)");
    for _ in 0..scene_count() / 8 {
        let scene = Accepted::any(&mut random);
        let holds = order::closure(&scene.text);
        assert_eq!(holds.len(), scene.count());
        for (first, second) in scene.every_two(&mut random) {
            let (held, text) = (holds[first - 1][second - 1], String::from_utf8_lossy(&scene.text));
            assert_eq!(scene.is_held(first, second), held, "{first} and {second} in {text:?}");
            tally.add(u32::from(held));
        }
    }
    tally.report([0, 1], 10_000);
}

#[test]
fn sorting_keeps_what_is_held() {
    let mut random = random(26);
    let mut tally = Tally::new("orders in sorted texts (0 free and kept, 1 held, 2 free and turned)");
    for _ in 0..scene_count() / 8 {
        let scene = Accepted::any(&mut random);
        let mut sorted = vec![0; scene.text.len()];
        if raw::sort(scene.mode, &scene.text, &scene.records, &scene.reals, &mut sorted).0 != 0 {
            continue;
        }
        let (records, reals) = tables_of(scene.mode, &sorted, 0);
        // Statements of one name keep their order, so a key has the same statement in both texts
        let keys = Save { text: &sorted, records: &records, reals: &reals }.keys();
        let numbers: BTreeMap<Key, usize> = keys.into_iter().zip(1..).collect();
        let moved: Vec<usize> = scene.keys().iter().map(|key| numbers[key]).collect();
        for (first, second) in scene.every_two(&mut random) {
            let (held, turned) = (scene.is_held(first, second), moved[first - 1] > moved[second - 1]);
            let shown = || [&scene.text, &sorted].map(|text| String::from_utf8_lossy(text).into_owned());
            assert!(!(held && turned), "{first} and {second} in {:?}", shown());
            tally.add(if turned { 2 } else { u32::from(held) });
        }
    }
    tally.report(0..=2, 10_000);
}

/// Two neighbours whose order is free are exchanged, and nothing tells the text from the other. Their names differ, as keys would tell two
/// surfaces of one name.
#[test]
fn free_neighbours_can_be_exchanged() {
    let mut random = random(27);
    let (mut texts, mut exchanged) = (0, 0);
    for _ in 0..scene_count() / 8 {
        let scene = Accepted::any(&mut random);
        let Ok(mut blocks) = sort::blocks(&scene.text) else { continue };
        texts += 1;
        let keys = scene.keys();
        for (upper, lower) in scene.every_two(&mut random) {
            let name = |number: usize| keys[number - 1].0;
            if lower > upper + 1 || name(upper) == name(lower) || scene.is_held(upper, lower) {
                continue;
            }
            blocks.swap(upper - 1, lower - 1);
            read_reordered(scene.source(), &scene.pairs, [scene.count(), scene.reals.len()], &blocks.concat());
            blocks.swap(upper - 1, lower - 1);
            exchanged += 1;
        }
    }
    say(&format!("free neighbours exchanged: {exchanged} in {texts} texts, no line"));
    assert!(texts < 1_000 || exchanged > texts, "too few neighbours are exchanged");
}

/// What the order of two of a text's primitives is held by, with the giver of the name and how many bonds there are.
fn held_in(text: &[u8], first: usize, second: usize) -> Result<Option<order::Held>, u32> {
    let (records, _) = tables_of(0, text, 0);
    let count = records.len() / RECORD;
    compare_mattered(text, &records, count, first, second);
    order::mattered(text, &records, count, first, second)
}

/// Two primitives, and by, giver and bonds if their order is held.
type Verdict = ([usize; 2], Option<[usize; 3]>);

/// Statements, one on a line, and verdicts on them.
const VERDICTS: [(&[&str], &[Verdict]); 9] = [
    // Two finishes of one name and a panel of each: every two are held, the panels by the second finish
    (
        &[
            "void plastic a 0 0 5 1 1 1 0 0",
            "a sphere s 0 0 4 0 0 0 1",
            "void plastic a 0 0 5 1 1 1 0 0",
            "a sphere t 0 0 4 0 0 0 1",
        ],
        &[
            ([1, 2], Some([2, 1, 1])),
            ([1, 3], Some([3, 1, 1])),
            ([1, 4], Some([4, 1, 1])),
            ([2, 3], Some([3, 3, 1])),
            ([2, 4], Some([3, 3, 2])),
            ([3, 4], Some([4, 3, 1])),
        ],
    ),
    // Surfaces give no name: not to one another, not to a finish of that name, and not to what refers to it
    (&["void ring a 0 0 8 0 0 0 0 0 1 0 1", "void sphere a 0 0 4 0 0 0 1"], &[([1, 2], None)]),
    (
        &["void light a 0 0 3 1 1 1", "void ring a 0 0 8 0 0 0 0 0 1 0 1", "a sphere s 0 0 4 0 0 0 1"],
        &[([1, 2], None), ([2, 3], None), ([1, 3], Some([3, 1, 1]))],
    ),
    // Two that refer to one name are not bound by it; and of two shortest chains the one with the lower first step counts
    (
        &["void light a 0 0 3 1 1 1", "a light b 0 0 3 1 1 1", "a light c 0 0 3 1 1 1", "b alias d c"],
        &[([2, 3], None), ([1, 4], Some([2, 1, 2])), ([2, 4], Some([4, 2, 1])), ([3, 4], Some([4, 3, 1]))],
    ),
    // A shorter chain goes before one with a lower first step
    (
        &[
            "void light a 0 0 3 1 1 1",
            "a light b 0 0 3 1 1 1",
            "a light c 0 0 3 1 1 1",
            "b light e 0 0 3 1 1 1",
            "c alias d e",
        ],
        &[([1, 5], Some([3, 1, 2])), ([2, 5], Some([4, 2, 2])), ([3, 4], None)],
    ),
    // An alias refers to its modifier and to its target, whose name may be given again below
    (
        &["void light l 0 0 3 1 1 1", "void plastic p 0 0 5 1 1 1 0 0", "p alias k l", "void light l 0 0 3 1 1 1"],
        &[
            ([1, 2], None),
            ([1, 3], Some([3, 1, 1])),
            ([2, 3], Some([3, 2, 1])),
            ([2, 4], Some([3, 2, 2])),
            ([3, 4], Some([4, 4, 1])),
        ],
    ),
    // Where both names bind, the upper one's is told
    (
        &["void light b 0 0 3 1 1 1", "b light a 0 0 3 1 1 1", "a light b 0 0 3 1 1 1"],
        &[([2, 3], Some([3, 2, 1])), ([1, 3], Some([3, 1, 1]))],
    ),
    // Sides of mixtures and other strings bind nothing, above and below
    (
        &["void light q 0 0 3 1 1 1", "void mixfunc m 4 p q v f 0 0", "void plastic p 0 0 5 1 1 1 0 0"],
        &[([1, 2], None), ([2, 3], None), ([1, 3], None)],
    ),
    (&["void mirror m 1 p 0 3 1 1 1", "void light p 0 0 3 1 1 1"], &[([1, 2], None)]),
];

#[test]
fn verdicts_on_order_are_alike() {
    for (lines, verdicts) in VERDICTS {
        let text = [&lines.join("\n"), "\n"].concat();
        for ([first, second], expected) in verdicts {
            let held = expected.map(|[by, giver, bonds]| order::Held { by, giver, bonds });
            assert_eq!(held_in(text.as_bytes(), *first, *second), Ok(held), "{first} and {second} in {text:?}");
        }
    }
}

/// The count is looked at first, then both numbers, and then every primitive up to the count, whichever two are asked about.
#[test]
fn refusals_of_order_come_in_order() {
    let text = b"void light l 0 0 3 1 1 1\nl light m 0 0 3 1 1 1\nm alias k l\n";
    let (records, _) = tables_of(0, text, 0);
    let outcome = |records: &[u32], count, first, second| compare_mattered(text, records, count, first, second);
    assert_eq!(outcome(&records, 3, 1, 2), 1);
    assert_eq!([4, 1_025, usize::MAX].map(|count| outcome(&records, count, 0, 0)), [18; 3]);
    assert_eq!(outcome(&records[..3 * RECORD - 1], 3, 1, 2), 18);
    assert_eq!([[0, 1], [1, 4], [4, 5], [usize::MAX, 1], [2, 2]].map(|[a, b]| outcome(&records, 3, a, b)), [17; 5]);
    let name = records[2 * RECORD + 3];
    let len = text.len() as u32;
    // Of the third: its modifier or target is itself, or far above; its name is empty, ends a byte too late, or begins past the end
    let faults =
        [(1, 3), (1, u32::MAX), (2, 3), (2, 4), (4, 0), (4, len - name + 1), (4, u32::MAX), (3, len), (3, u32::MAX)];
    for (at, number) in faults {
        let mut spoiled = records.clone();
        spoiled[2 * RECORD + at] = number;
        assert_eq!(outcome(&spoiled, 3, 1, 2), 18, "{number} at {at}");
        assert_eq!([[0, 1], [2, 2], [3, 4]].map(|[a, b]| outcome(&spoiled, 3, a, b)), [17; 3], "{number} at {at}");
        assert_eq!(outcome(&spoiled, 2, 1, 2), 1, "{number} at {at}");
    }
    let mut last = records.clone();
    last[2 * RECORD + 4] = len - name;
    assert_eq!(outcome(&last, 3, 1, 2), 1);
    // Names are told apart by their bytes: the second's, when its modifier is gone, is put where the first's is, and then made longer
    let mut same = records.clone();
    same[RECORD + 1] = 0;
    assert_eq!(outcome(&same, 3, 1, 2), 0);
    same[RECORD + 3] = records[3];
    assert_eq!(outcome(&same, 3, 1, 2), 1);
    same[RECORD + 4] = 2;
    assert_eq!(outcome(&same, 3, 1, 2), 0);
}

/// As many primitives as there may be: each under the one above it, all of one name, and with no name in common.
#[test]
fn order_of_most_primitives_mattered_alike() {
    let most = scene::MOST_RECORDS;
    let names: Vec<_> = (1..=most).map(|number| format!("l{number}").into_bytes()).collect();
    let above = [b"void".as_slice()].into_iter().chain(names.iter().map(Vec::as_slice));
    let chained = above.zip(&names).map(|(modifier, name)| light(modifier, name)).collect::<Vec<_>>().concat();
    let apart = names.iter().map(|name| light(b"void", name)).collect::<Vec<_>>().concat();
    let held = |by, giver, bonds| Ok(Some(order::Held { by, giver, bonds }));
    assert_eq!(held_in(&chained, 1, most), held(2, 1, most - 1));
    assert_eq!(held_in(&chained, most, most - 1), held(most, most - 1, 1));
    assert_eq!(held_in(&full(most), 1, most), held(most, 1, 1));
    assert_eq!(held_in(&apart, 1, most), Ok(None));
    assert_eq!(held_in(&chained, most, most + 1), Err(17));
    let (records, _) = tables_of(0, &chained, 0);
    let longer = [records.as_slice(), &records[records.len() - RECORD..]].concat();
    assert_eq!(compare_mattered(&chained, &longer, most, most, 1), FURTHER);
    assert_eq!(compare_mattered(&chained, &longer, most + 1, most, 1), 18);
}

// ---- two hands' edits joined

/// A base and both hands' texts, a text typed as their join if one is to be checked, and the lengths of the tables.
#[derive(Clone, Copy)]
struct Hands<'t> {
    mode: u32,
    texts: [&'t [u8]; 3],
    typed: Option<&'t [u8]>,
    records: usize,
    reals: usize,
}

/// What a text holds, if it is accepted with the most room.
fn counts_of(mode: u32, text: &[u8]) -> Option<Counts> {
    let (mut records, mut reals) = (vec![1; RECORD * scene::MOST_RECORDS], vec![1.0; scene::MOST_REALS]);
    scene::read_without_pairs(mode == 1, text, &mut records, &mut reals).ok()
}

/// A reason, and in hundreds the text that it names.
fn told_of(text: usize, reason: u32) -> u32 {
    100 * text as u32 + reason
}

impl<'t> Hands<'t> {
    fn with_most(texts: [&'t [u8]; 3]) -> Self {
        Hands { mode: 0, texts, typed: None, records: RECORD * scene::MOST_RECORDS, reals: scene::MOST_REALS }
    }

    fn expected(self, room: usize) -> Result<join::Joined, join::NotJoined> {
        let reading = join::Reading { archive: self.mode == 1, records: self.records, reals: self.reals };
        match self.typed {
            None => join::join(reading, self.texts, room),
            Some(typed) => join::check(reading, self.texts, typed, room),
        }
    }

    fn shown(self, room: usize) -> String {
        let texts: Vec<_> = self.texts.iter().chain(&self.typed).map(|text| String::from_utf8_lossy(text)).collect();
        format!("mode {}, lent {}, {} and {room}, texts {texts:?}", self.mode, self.records, self.reals)
    }

    /// Joins or checks both ways, with so many bytes of output, compares all that comes of it, and gives the answer and the accepted text.
    fn compare(self, room: usize) -> (u32, Vec<u8>) {
        let (filling, real_filling, byte_filling) = (0xdead_beef, -1234.5, 0xa5);
        let mut records = Lent::new(self.records, filling);
        let mut reals = Lent::new(self.reals, real_filling);
        let mut out = Lent::new(room, byte_filling);
        let texts = self.texts.map(<[u8]>::to_vec);
        let [base, left, right] = texts.each_ref().map(Vec::as_slice);
        let typed = self.typed.map(<[u8]>::to_vec);
        let (tables, output) = ((records.table(), reals.table()), out.table());
        let ours = match &typed {
            None => raw::join(self.mode, [base, left, right], tables.0, tables.1, output),
            Some(typed) => raw::check_join(self.mode, [base, left, right], typed, tables.0, tables.1, output),
        };

        let (expected, text, expected_records, expected_reals) = match self.expected(room) {
            Ok(join::Joined { text, records, reals, counts }) => {
                ((0, [0, 0, text.len(), counts.primitives, counts.reals]), text, records, reals)
            }
            Err(join::NotJoined { text, refused }) => {
                let answer = (refused.reason, [text, refused.place, 0, 0, 0]);
                (answer, Vec::new(), vec![0; self.records], vec![0.0; self.reals])
            }
        };
        let shown = || self.shown(room);
        assert_eq!(ours, expected, "{}", shown());
        assert!(records.table() == expected_records, "records of {}", shown());
        assert!(bits(reals.table()).eq(bits(&expected_reals)), "reals of {}", shown());
        let mut output = text.clone();
        output.resize(room, 0);
        assert!(out.table() == output, "output of {}", shown());
        assert!(self.texts.iter().zip(&texts).all(|(lent, kept)| lent == kept), "a text was written: {}", shown());
        assert!(typed.as_deref() == self.typed, "the typed text was written: {}", shown());
        assert!(records.margins_are(filling), "written outside the records: {}", shown());
        assert!(reals.margins_are(real_filling), "written outside the reals: {}", shown());
        assert!(out.margins_are(byte_filling), "written outside the output: {}", shown());
        (told_of(ours.1[0], ours.0), text)
    }

    /// The same with output enough.
    fn compare_whole(self) -> (u32, Vec<u8>) {
        self.compare(scene::MOST_BYTES)
    }

    /// The most primitives and the most reals of the three texts, of those that are accepted.
    fn most(self) -> [usize; 2] {
        let counts: Vec<Counts> = self.texts.iter().filter_map(|text| counts_of(self.mode, text)).collect();
        let most = |part: fn(&Counts) -> usize| counts.iter().map(part).max().unwrap_or(0);
        [most(|counts| counts.primitives), most(|counts| counts.reals)]
    }
}

/// The statements of an accepted text, each with all its words.
fn statements_of(text: &[u8]) -> Vec<scenes::Words> {
    tidy::statements(text).into_iter().map(|lines| lines.concat()).collect()
}

/// A text to check: one that was accepted or another one, as it is or changed.
fn typed(random: &mut Random, mode: u32, accepted: &[u8]) -> Vec<u8> {
    let mut statements = statements_of(accepted);
    let size = statements.len();
    match random.below(12) {
        0..=2 => return scenes::faulty(random, &statements),
        3 => return accepted.to_vec(),
        4 => statements.push(scenes::statement_below(random, mode, &statements)),
        5 => drop(statements.pop()),
        6 if size > 0 => {
            let again = statements[random.below(size)].clone();
            statements.push(again);
        }
        7 if size > 1 => statements[size - 1] = statements[random.below(size - 1)].clone(),
        8 | 9 if size > 1 => (0..2).for_each(|_| statements.swap(random.below(size), random.below(size))),
        10 => scenes::edit(random, mode, &mut statements),
        _ => statements.iter_mut().for_each(|words| scenes::respell(random, words)),
    }
    scenes::in_words(random, &statements)
}

/// Rooms for a table whose used entries are so many at most: enough, just enough, or too few.
fn some_room(random: &mut Random, most: usize, used: usize, each: usize) -> usize {
    match random.below(10) {
        0..=3 => each * used + random.below(each),
        4 => (each * used).saturating_sub(1 + random.below(2 * each)),
        5 => each * (used + 1),
        6 => each * most + random.below(30),
        _ => each * most,
    }
}

/// A joined text is accepted when it is typed, with the hands exchanged too; and joined with an unchanged hand, or with itself, it stays, but
/// for the spelling of an unchanged left hand.
fn compare_joined_again(hands: Hands, joined: &[u8]) {
    let [base, left, right] = hands.texts;
    for texts in [[base, left, right], [base, right, left], [base, base, joined], [base, joined, base]] {
        let again = Hands { texts, typed: Some(joined), ..hands };
        assert_eq!(again.compare(joined.len()).0, 0, "{}", again.shown(joined.len()));
    }
    for texts in [[base, joined, base], [base, joined, joined]] {
        let again = Hands { texts, ..hands };
        assert!(again.compare(joined.len()) == (0, joined.to_vec()), "{}", again.shown(joined.len()));
    }
}

#[test]
fn joins_are_alike() {
    let mut random = random(28);
    let mut joins = Tally::new("edits joined (in hundreds 1 base, 2 left, 3 right, 4 joined)");
    let mut checks = Tally::new("typed joins checked (in hundreds 1 base, 2 left, 3 right, 4 typed)");
    for _ in 0..scene_count() / 8 {
        let scenes::Edits { mode, texts } = scenes::edits(&mut random);
        let whole = Hands { mode, ..Hands::with_most(texts.each_ref().map(Vec::as_slice)) };
        let [primitives, reals] = whole.most();
        let records = some_room(&mut random, scene::MOST_RECORDS, primitives, RECORD);
        let reals = some_room(&mut random, scene::MOST_REALS, reals, 1);
        let lent = Hands { records, reals, ..whole };
        joins.add(lent.compare(scene::MOST_BYTES + random.below(3)).0);
        let (answer, joined) = whole.compare_whole();
        joins.add(answer);
        if answer == 0 {
            compare_joined_again(whole, &joined);
            let len = joined.len();
            for room in [len, len + random.below(9), len.saturating_sub(1), random.below(len + 1)] {
                joins.add(whole.compare(room).0);
            }
        }
        // What is typed comes of the joined text, or of another that is accepted
        let other = texts.iter().rev().find(|text| counts_of(mode, text).is_some());
        let source = Some(&joined).filter(|_| answer == 0).or(other);
        let typed = typed(&mut random, mode, source.map_or(&[], Vec::as_slice));
        let len = typed.len();
        for hands in [lent, whole] {
            let checked = Hands { typed: Some(&typed), ..hands };
            for room in [len, len + 5, len.saturating_sub(1), random.below(len + 1)] {
                checks.add(checked.compare(room).0);
            }
        }
    }
    let named = |text: usize| reasons().filter(|&reason| reason > 0).map(move |reason| told_of(text, reason));
    let of_hands = || (1..=3).flat_map(named).chain([0, 23, 29, 30, 31]);
    joins.report(of_hands().chain([6, 13, 25, 26].map(|reason| told_of(4, reason))), 8_000);
    checks.report(of_hands().chain(named(4)).chain([32]), 10_000);
}

/// What joining gives in the new reading: the text, or the answer that is no acceptance.
fn joined(texts: [&str; 3]) -> Result<String, u32> {
    let (answer, text) = Hands::with_most(texts.map(str::as_bytes)).compare_whole();
    if answer == 0 {
        Ok(String::from_utf8(text).expect("these are plain"))
    } else {
        Err(answer)
    }
}

/// A base and what two hands made of it, and the statements of their join in order, or the answer that is none; by the shorthands of
/// [`written`].
type Join = ([&'static str; 3], Result<&'static str, u32>);

const JOINS: [Join; 23] = [
    (["", "", ""], Ok("")),
    // One hand changes, adds or drops; the other leaves the base's, in another spelling too
    (["l1", "l2", "l1"], Ok("l2")),
    (["l1", "l01", "l2"], Ok("l2")),
    (["l1", "l2", "l+1"], Ok("l2")),
    (["l1", "l1", ""], Ok("")),
    (["", "b1", "a1"], Ok("a1 b1")),
    // Both alike: the left spelling stays
    (["l1", "l2", "l2."], Ok("l2")),
    (["l1", "l2.", "l2"], Ok("l2.")),
    (["l1", "", ""], Ok("")),
    // Both differently; one of them drops it; 0 and -0 are two
    (["l1", "l2", "l3"], Err(30)),
    (["l1", "", "l3"], Err(30)),
    (["", "l0", "l-0"], Err(30)),
    (["l1", "l0", "l1.0"], Ok("l0")),
    // The name of a modifier counts, not what it leads to; and so with an alias and its target
    (["a1 b<a", "a2 b<a", "a1 b<a"], Ok("a2 b<a")),
    (["a1 b1 c=a", "a1 b1 c=b", "a2 b1 c=a"], Ok("a2 b1 c=b")),
    (["a1 b1 c=a", "a1 b1 c=b", "a1 b1 c1"], Err(30)),
    // The least of the names whose needs stand, by bytes
    (["", "b1 a<b", "B1 ab1"], Ok("B1 ab1 b1 a<b")),
    (["", "z1 y<z x=y", "w1"], Ok("w1 z1 y<z x=y")),
    // A need that is missing, that is a surface, and needs in a loop
    (["a1 b1", "b1", "a1 b<a"], Err(31)),
    (["a1 b1", "a* b1", "a1 b<a"], Err(31)),
    (["a1 b1", "b1 a<b", "a1 b=a"], Err(31)),
    // A name twice, surfaces counted, comes before names changed differently
    (["l1", "l2 a1 a*", "l3"], Err(29)),
    (["l1 l1", "l2", "l3"], Err(29)),
];

/// Statements by their shorthands: `l1` a light of that value, `l<m` one under a modifier, `l=m` an alias and `l*` a sphere.
fn written(shorthands: &str) -> String {
    let statement = |word: &str| {
        let at = word.find(|c: char| !c.is_ascii_alphabetic()).expect("a sign or a value");
        let (name, rest) = word.split_at(at);
        match rest.split_at(1) {
            ("<", modifier) => format!("{modifier} light {name}\n0\n0\n3 1 1 1\n"),
            ("=", target) => format!("void alias {name} {target}\n"),
            ("*", _) => format!("void sphere {name}\n0\n0\n4 0 0 0 1\n"),
            _ => format!("void light {name}\n0\n0\n3 {rest} 1 1\n"),
        }
    };
    shorthands.split_whitespace().map(statement).collect()
}

#[test]
fn definitions_are_joined_alike() {
    for (shorthands, expected) in JOINS {
        let texts = shorthands.map(written);
        let found = joined(texts.each_ref().map(String::as_str));
        assert_eq!(found, expected.map(written), "{shorthands:?}");
    }
}

/// Sides of mixtures are not waited for, but have to be there in the end.
#[test]
fn mixtures_are_joined_alike() {
    let mix = |name: &str, side: &str| format!("void mixfunc {name}\n4 {side} void v f\n0\n0\n");
    let lamp = |name: &str| written(&format!("{name}1"));
    let [m_n, n_m] = [mix("m", "n"), mix("n", "m")];
    let [m, n] = ["m", "n"].map(|name| mix(name, "void"));
    let base = [m.as_str(), &n].concat();
    assert_eq!(joined(["", &[mix("a", "b"), lamp("b")].concat(), ""]), Ok([mix("a", "b"), lamp("b")].concat()));
    assert_eq!(joined([&lamp("b"), "", &[mix("a", "b"), lamp("b")].concat()]), Err(425));
    assert_eq!(joined([&base, &[m_n.as_str(), &n].concat(), &base]), Ok([m_n.as_str(), &n].concat()));
    assert_eq!(joined([&base, &[m_n.as_str(), &n].concat(), &[m.as_str(), &n_m].concat()]), Err(426));
}

/// Of several reasons the first in the order of the header is given.
#[test]
fn refusals_of_joining_come_in_order() {
    let light = |value: &str| written(&format!("l{value}")).into_bytes();
    let (one, two, three, twice) = (light("1"), light("2"), light("3"), [light("1"), light("1")].concat());
    let typed = written("l4").into_bytes();
    let answer = |texts: [&[u8]; 3], typed: Option<&[u8]>, records, reals, room| {
        Hands { mode: 0, texts, typed, records, reals }.compare(room).0
    };
    let check = |texts, typed, room| answer(texts, Some(typed), RECORD * 2, 6, room);
    for typed in [None, Some(&b"!"[..]), Some(&typed)] {
        let answer = |texts| answer(texts, typed, RECORD * 3, 9, 0);
        assert_eq!(answer([b"!", b"!", b"!"]), 104);
        assert_eq!(answer([&twice, b"!", b"void"]), 204);
        assert_eq!(answer([&twice, &two, b"void"]), 305);
        assert_eq!(answer([&twice, &two, &three]), 29);
        assert_eq!(
            [[&one, &twice, &three], [&one, &two, &twice]].map(|texts| answer(texts.map(Vec::as_slice))),
            [29; 2]
        );
        assert_eq!(answer([&one, &two, &three]), 30);
        // A name that is changed differently comes before a need that is missing
        let [base, left, right] = ["k1 l1", "k2", "k3 l1 n<l"].map(|shorthands| written(shorthands).into_bytes());
        assert_eq!(answer([&base, &left, &right]), 30);
        assert_eq!(answer([&one, b"", &written("l1 n<l").into_bytes()]), 31);
    }
    let texts: [&[u8]; 3] = [&one, &two, &one];
    assert_eq!(check(texts, b"!", 0), 404);
    assert_eq!(check(texts, &typed, 0), 32);
    assert_eq!([two.len() - 1, two.len()].map(|room| check(texts, &two, room)), [23, 0]);
    assert_eq!([two.len() - 1, two.len()].map(|room| answer(texts, None, RECORD, 3, room)), [23, 0]);
    // All texts are read with the same room
    assert_eq!(answer(texts, None, RECORD - 1, 3, 0), 106);
    assert_eq!(answer(texts, None, RECORD, 2, 0), 113);
    assert_eq!(answer([b"", &one, b""], None, RECORD - 1, 3, 0), 206);
    assert_eq!(answer([b"", b"", &one], None, RECORD, 2, 0), 313);
    let other = written("m1").into_bytes();
    assert_eq!(answer([b"", &one, &other], None, RECORD * 2 - 1, 6, 0), 406);
    assert_eq!(answer([b"", &one, &other], None, RECORD * 2, 5, 0), 413);
    assert_eq!(answer([b"", &one, &other], Some(&[other.as_slice(), &one].concat()), RECORD * 2, 5, 0), 413);
}

/// Joins that just meet a limit or are just past it: of bytes, of primitives and of reals.
#[test]
fn large_joins_are_alike() {
    let most = scene::MOST_BYTES;
    for (size, expected) in [(most - 1, 0), (most, 0), (most + 1, 401)] {
        // The last line end is not needed, and a text without it may still be read
        let tidy = scenes::of_size(&written("l1"), size);
        let left = &tidy[..size - 1];
        let hands = Hands::with_most([b"", left, b""]);
        assert_eq!(hands.compare(most).0, expected, "{size} bytes");
        assert_eq!([size - 1, 0].map(|room| hands.compare(room).0), [if expected == 0 { 23 } else { expected }; 2]);
        // What is typed need not be tidy
        assert_eq!(Hands { typed: Some(left), ..hands }.compare(size - 1).0, 0);
    }
    let [left, right] = ["l1", "r1"].map(|lamp| scenes::of_size(&written(lamp), 40_000));
    let other = String::from_utf8(right.clone()).expect("plain").replace("mixfunc m", "mixfunc n").into_bytes();
    assert_eq!(Hands::with_most([b"", &left, &right]).compare_whole().0, 0);
    assert_eq!(Hands::with_most([b"", &left, &other]).compare_whole().0, 401);

    let lamps = |name: char, count: usize| -> Vec<u8> {
        (0..count).flat_map(|n| format!("void light {name}{n} 0 0 3 1 1 1\n").into_bytes()).collect()
    };
    for (more, expected) in [(512, 0), (513, 406)] {
        assert_eq!(Hands::with_most([b"", &lamps('l', 512), &lamps('r', more)]).compare_whole().0, expected);
    }
    let [all, others] = ['l', 'r'].map(|name| lamps(name, scene::MOST_RECORDS));
    assert_eq!(Hands::with_most([&all, &all, &others]).compare_whole().0, 0);
    for (more, expected) in [(2_048, 0), (2_049, 413)] {
        let reals = |name: &str, count: usize| {
            format!("void mixfunc {name} 4 void void c d 0 {count}{}", " 1".repeat(count)).into_bytes()
        };
        assert_eq!(Hands::with_most([b"", &reals("l", 2_048), &reals("r", more)]).compare_whole().0, expected);
    }
    // Each waits for the one of the next larger name
    let chain: Vec<u8> = (0..1_024)
        .rev()
        .flat_map(|n| {
            let modifier = if n == 1_023 { "void".to_owned() } else { format!("l{:04}", n + 1) };
            format!("{modifier} light l{n:04}\n0\n0\n3 1 1 1\n").into_bytes()
        })
        .collect();
    for texts in [[b"", chain.as_slice(), b""], [b"", b"", chain.as_slice()], [chain.as_slice(); 3]] {
        assert!(Hands::with_most(texts).compare_whole() == (0, chain.clone()));
    }
}

// ---- words

fn compare_word(text: &[u8], at: usize) -> usize {
    let [place, len] = raw::next_word(text, at);
    assert_eq!((place, len), scene::next_word(text, at), "word at {at} of {:?}", String::from_utf8_lossy(text));
    place + len
}

/// All words one after the other, and the word at some places; gives how many look-ups these were.
fn compare_words(random: &mut Random, text: &[u8]) -> usize {
    let mut lookups = 0;
    let mut at = 0;
    loop {
        let end = compare_word(text, at);
        lookups += 1;
        if end == text.len() {
            break;
        }
        at = end;
    }
    let anywhere: Vec<usize> = (0..8).map(|_| random.below(text.len() + 3)).collect();
    for at in anywhere.into_iter().chain([text.len(), text.len() + 1, usize::MAX]) {
        compare_word(text, at);
        lookups += 1;
    }
    lookups
}

// ---- floats

/// The reals of a scene are the nearest doubles: the standard library's reading of a number is a third opinion.
#[test]
fn numerals_are_read_alike() {
    let mut random = random(2);
    let mut tally = Tally::new("numerals");
    for _ in 0..float_count() {
        let word = numerals::any(&mut random);
        let text = format!("void mixfunc m 4 void void c d 0 1 {word}");
        let (mut records, mut reals) = ([7; RECORD], [7.0]);
        let (reason, _) = raw::read(0, text.as_bytes(), &mut records, &mut reals, &mut [7; PAIR]);
        match scene::numeral(word.as_bytes()) {
            Ok(value) => {
                assert_eq!((reason, reals[0].to_bits()), (0, value.to_bits()), "{word}");
                let standard: f64 = word.parse().expect("a numeral is a number to the standard library too");
                assert_eq!(reals[0].to_bits(), standard.to_bits(), "{word}");
            }
            Err(expected) => assert_eq!((reason, reals[0].to_bits()), (expected, 0), "{word}"),
        }
        tally.add(reason);
    }
    tally.report([0, 14, 15], 10_000);
}

fn expected_hit(hit: rays::Hit) -> (u32, f64) {
    match hit {
        Ok(Some(distance)) => (0, distance),
        Ok(None) => (1, 0.0),
        Err(reason) => (reason, 0.0),
    }
}

fn told((outcome, distance): (u32, f64)) -> (u32, u64) {
    (outcome, distance.to_bits())
}

fn same_hit(ours: (u32, f64), expected: rays::Hit, shown: impl Debug) {
    assert_eq!(told(ours), told(expected_hit(expected)), "{shown:?}");
}

/// A ray at a shape, by both routines: the old answers, which are those above 0; the default; and a least distance at, beside or
/// between its distances, or any.
fn compare_hits(
    random: &mut Random,
    tallies: &mut [Tally; 3],
    default: (u32, f64),
    above: impl Fn(f64) -> (u32, f64),
    expected: impl Fn(f64) -> rays::Hit,
    shown: impl Debug,
) {
    let old = above(0.0);
    same_hit(old, expected(0.0), &shown);
    same_hit(default, expected(rays::LEAST), &shown);
    let distances: Vec<f64> = match old {
        (0, near) => [Some(near), expected(near).ok().flatten()].into_iter().flatten().collect(),
        _ => Vec::new(),
    };
    let least = floats::least(random, &distances);
    let ours = above(least);
    same_hit(ours, expected(least), (&shown, least));
    // A larger least distance never turns a miss into a hit
    if old.0 == 1 {
        assert!(default.0 != 0 && ours.0 != 0, "{shown:?}, {least}");
    }
    for (tally, (outcome, _)) in tallies.iter_mut().zip([old, default, ours]) {
        tally.add(outcome);
    }
}

fn hit_tallies(names: [&'static str; 3]) -> [Tally; 3] {
    names.map(Tally::new)
}

fn report_hits(tallies: &[Tally; 3]) {
    tallies.iter().for_each(|tally| tally.report([0, 1, 20, 21], 10_000));
}

#[test]
fn spheres_are_hit_alike() {
    let mut random = random(3);
    let mut tallies = hit_tallies(["spheres (0 hit, 1 miss)", "spheres, default", "spheres above a distance"]);
    for _ in 0..float_count() {
        let (ray, sphere) = floats::sphere(&mut random);
        let above = |least| raw::sphere_above(&ray, &sphere, least);
        let expected = |least| rays::sphere(&ray, &sphere, least);
        compare_hits(&mut random, &mut tallies, raw::sphere(&ray, &sphere), above, expected, (ray, sphere));
    }
    report_hits(&tallies);
}

#[test]
fn rings_are_hit_alike() {
    let mut random = random(4);
    let mut tallies = hit_tallies(["rings (0 hit, 1 miss)", "rings, default", "rings above a distance"]);
    for _ in 0..float_count() {
        let (ray, ring) = floats::ring(&mut random);
        let above = |least| raw::ring_above(&ray, &ring, least);
        let expected = |least| rays::ring(&ray, &ring, least);
        compare_hits(&mut random, &mut tallies, raw::ring(&ray, &ring), above, expected, (ray, ring));
    }
    report_hits(&tallies);
}

#[test]
fn polygons_are_hit_alike() {
    let mut random = random(12);
    let mut tallies = hit_tallies(["polygons (0 hit, 1 miss)", "polygons, default", "polygons above a distance"]);
    for _ in 0..float_count() {
        let (ray, corners) = floats::polygon(&mut random);
        let above = |least| raw::polygon_above(&ray, &corners, least);
        let expected = |least| rays::polygon(&ray, &corners, least);
        compare_hits(&mut random, &mut tallies, raw::polygon(&ray, &corners), above, expected, (ray, &corners));
    }
    report_hits(&tallies);
}

/// A polygon put into a table among others, some numbers of which are spoiled: asked about by its number and others.
#[test]
fn polygons_in_tables_are_hit_alike() {
    let mut random = random(13);
    let mut tally = Tally::new("polygons in tables (0 hit, 1 miss)");
    for _ in 0..float_count() / 4 {
        let (ray, corners) = floats::polygon(&mut random);
        let mut records = scenes::table(&mut random, 50);
        let rows = records.len() / RECORD;
        let at = random.below(rows + 1);
        let mut reals = vec![1.5; random.below(6)];
        records.splice(RECORD * at..RECORD * at, [4, 0, 0, 0, 1, 0, 0, reals.len() as u32, corners.len() as u32, 0, 1]);
        reals.extend(&corners);
        if random.percent(30) {
            scenes::spoil_table(&mut random, &mut records[RECORD * at..RECORD * (at + 1)]);
        }
        if random.percent(10) {
            reals.truncate(reals.len().saturating_sub(random.below(3)));
        }
        let count = if random.percent(80) { rows + 1 } else { stated_count(&mut random, rows + 1) };
        for number in [at + 1, at + 1, random.below(rows + 4), usize::MAX] {
            let found = scene::corners(&records, count, number, &reals);
            let least = floats::least(&mut random, &[]);
            let default = raw::polygon_in_table(&ray, &records, count, number, &reals);
            let above = raw::polygon_in_table_above(&ray, &records, count, number, &reals, least);
            let shown = (number, count, &records, ray, &reals, least);
            same_hit(default, found.and_then(|corners| rays::polygon(&ray, corners, rays::LEAST)), shown);
            same_hit(above, found.and_then(|corners| rays::polygon(&ray, corners, least)), shown);
            tally.add(default.0);
            tally.add(above.0);
        }
    }
    tally.report([0, 1, 17, 18, 20, 21], 10_000);
}

#[test]
fn light_is_reflected_alike() {
    let mut random = random(5);
    let mut tally = Tally::new("Fresnel (0 coefficients, 1 total reflection)");
    for _ in 0..float_count() {
        let [cos1, n1, n2] = floats::fresnel(&mut random);
        let (outcome, values) = raw::fresnel(cos1, n1, n2);
        let (expected, coefficients) = match rays::fresnel(cos1, n1, n2) {
            Ok(Some(coefficients)) => (0, coefficients),
            Ok(None) => (1, [0.0; 3]),
            Err(reason) => (reason, [0.0; 3]),
        };
        let shown = (cos1, n1, n2);
        assert_eq!((outcome, values.map(f64::to_bits)), (expected, coefficients.map(f64::to_bits)), "{shown:?}");
        assert!(values.iter().all(|x| (0.0..=1.0).contains(x)), "{shown:?} gives {values:?}");
        tally.add(outcome);
    }
    tally.report([0, 1, 20, 21], 10_000);
}

fn told_factors(factors: Result<[f64; 2], u32>) -> (u32, [u64; 2]) {
    factors.map_or_else(|reason| (reason, [0; 2]), |factors| (0, factors.map(f64::to_bits)))
}

#[test]
fn panes_are_alike() {
    let mut random = random(20);
    let mut tally = Tally::new("factors of panes");
    let edges = [0.0, -0.0, 5e-324, 1e-200, 0.25, 1.0_f64.next_down(), 1.0, 1.0_f64.next_up(), -5e-324, f64::NAN];
    let any = (0..float_count()).map(|_| floats::pane(&mut random));
    let ends = edges.iter().flat_map(|&te| edges.iter().flat_map(move |&tm| edges.map(|ct| [te, tm, ct])));
    for [te, tm, ct] in ends.chain(any) {
        let (outcome, factors) = raw::pane_factors(te, tm, ct);
        let ours = (outcome, factors.map(f64::to_bits));
        assert_eq!(ours, told_factors(rays::pane_factors(te, tm, ct)), "{te:e}, {tm:e}, {ct:e}");
        let fractions = [te, tm, ct].iter().all(|x| (0.0..=1.0).contains(x));
        assert_eq!(outcome == 0, fractions && (ct < 1.0 || te < 1.0 && tm < 1.0), "{te:e}, {tm:e}, {ct:e}");
        tally.add(outcome);
    }
    tally.report([0, 20, 21], 10_000);
}

#[test]
fn transmissivities_are_alike() {
    let mut random = random(21);
    let mut tally = Tally::new("transmissivities (1 is one below 0)");
    let edges = [0.0, -0.0, 5e-324, 1e-310, 1e-4, 1.1e-4, 1.0_f64.next_down(), 1.0, 1.0_f64.next_up(), f64::INFINITY];
    let any = (0..float_count()).map(|_| floats::transmittance(&mut random));
    for transmittance in edges.into_iter().chain(any) {
        let ours = raw::transmissivity(transmittance);
        let expected = rays::transmissivity(transmittance).map_or_else(|reason| (reason, 0.0), |value| (0, value));
        assert_eq!(told(ours), told(expected), "{transmittance:e}");
        tally.add(ours.0 + u32::from(ours.1 < 0.0));
    }
    tally.report([0, 1, 20, 21], 10_000);
}

#[test]
fn roots_are_alike() {
    let mut random = random(6);
    let mut tally = Tally::new("roots (0 a root, 1 none)");
    for _ in 0..float_count() {
        let x = floats::root(&mut random);
        let (ours, expected) = (raw::root(x), rays::root(x));
        assert!(
            ours.to_bits() == expected.to_bits() || ours.is_nan() && expected.is_nan(),
            "{x:e}: {ours:e}, {expected:e}"
        );
        if ours > 0.0 {
            // The definition itself: the largest double whose square is at most x
            assert!(rays::square_is_at_most(ours, x), "{x:e}: {ours:e} is too large");
            assert!(!rays::square_is_at_most(ours.next_up(), x), "{x:e}: {ours:e} is not the largest");
        }
        tally.add(u32::from(ours.is_nan()));
    }
    tally.report([0, 1], 10_000);
}
