//! A reader of scene texts, as one would write it in Rust: names are looked up in a hash map, and `?` ends the reading at the first
//! word that is refused. It fills the same three tables as the library, and gives the same reasons and places.

use super::mixtures::{Tables, MIXFUNC};
use std::collections::HashMap;

pub const MOST_BYTES: usize = 65_536;
pub const LONGEST_WORD: usize = 64;
pub const MOST_RECORDS: usize = 1_024;
pub const MOST_REALS: usize = 4_096;
/// How many numbers a record has.
pub const RECORD: usize = 11;
/// How many numbers a pair has.
pub const PAIR: usize = 2;

pub const TYPE: usize = 0;
pub const MODIFIER: usize = 1;
pub const TARGET: usize = 2;
const NAME: usize = 3;
const NAME_LENGTH: usize = 4;
const STRING: usize = 5;
const REAL: usize = 7;
const REALS: usize = 8;
const NEXT: usize = 9;
const LINE: usize = 10;

/// Why a scene is refused, and where.
#[derive(Clone, Copy, Debug, PartialEq, Eq)]
pub struct Refused {
    pub reason: u32,
    pub place: usize,
}

/// What an accepted scene holds.
#[derive(Clone, Copy, Debug, PartialEq, Eq)]
pub struct Counts {
    pub primitives: usize,
    pub reals: usize,
}

fn refuse<T>(reason: u32, place: usize) -> Result<T, Refused> {
    Err(Refused { reason, place })
}

/// Reads a scene into three tables, which are all zero after a refusal. Only the archive reading accepts antimatter.
pub fn read(
    archive: bool,
    text: &[u8],
    records: &mut [u32],
    reals: &mut [f64],
    pairs: &mut [u32],
) -> Result<Counts, Refused> {
    records.fill(0);
    reals.fill(0.0);
    pairs.fill(0);
    let answer = read_into_cleared(archive, text, records, reals, pairs);
    if answer.is_err() {
        records.fill(0);
        reals.fill(0.0);
        pairs.fill(0);
    }
    answer
}

fn read_into_cleared(
    archive: bool,
    text: &[u8],
    records: &mut [u32],
    reals: &mut [f64],
    pairs: &mut [u32],
) -> Result<Counts, Refused> {
    if text.len() > MOST_BYTES {
        return refuse(1, 0);
    }
    if pairs.len() < pairs_needed(records.len()) {
        return refuse(27, 0);
    }
    Reader::new(archive, text, records, reals).scene(pairs)
}

/// How many numbers a pair table has to have, for a table of so many numbers of records.
pub fn pairs_needed(records: usize) -> usize {
    PAIR * MOST_RECORDS.min(records / RECORD)
}

/// Reads a scene into two tables, with pairs of its own.
pub fn read_without_pairs(
    archive: bool,
    text: &[u8],
    records: &mut [u32],
    reals: &mut [f64],
) -> Result<Counts, Refused> {
    let mut pairs = vec![0; pairs_needed(records.len())];
    read(archive, text, records, reals, &mut pairs)
}

// ---- words

pub fn is_blank(byte: u8) -> bool {
    matches!(byte, 9..=13 | 32)
}

/// A part of the text that is a word.
#[derive(Clone, Copy)]
struct Word<'t> {
    place: usize,
    bytes: &'t [u8],
}

/// Place and length of the word at or after a place.
pub fn next_word(text: &[u8], at: usize) -> (usize, usize) {
    let rest = text.get(at..).unwrap_or_default();
    match rest.iter().position(|&b| !is_blank(b)) {
        None => (text.len(), 0),
        Some(skipped) => {
            let word = &rest[skipped..];
            let len = word.iter().position(|&b| is_blank(b)).unwrap_or(word.len());
            (at + skipped, len)
        }
    }
}

// ---- types

#[derive(Clone, Copy, PartialEq, Eq)]
#[repr(u32)]
enum Kind {
    Source = 1,
    Sphere,
    Bubble,
    Polygon,
    Cone,
    Cup,
    Cylinder,
    Tube,
    Ring,
    Light,
    Illum,
    Glow,
    Spotlight,
    Mirror,
    Plastic,
    Metal,
    Trans,
    Plastic2,
    Metal2,
    Trans2,
    Dielectric,
    Interface,
    Glass,
    Antimatter,
    Mixfunc,
}

/// The number of a type's word.
pub fn type_number(word: &[u8]) -> Option<u32> {
    Kind::from_word(word).map(|kind| kind as u32)
}

pub fn is_surface(kind: u32) -> bool {
    (1..=9).contains(&kind)
}

pub fn is_material(kind: u32) -> bool {
    (10..=24).contains(&kind)
}

use Kind::*;

impl Kind {
    fn from_word(word: &[u8]) -> Option<Kind> {
        Some(match word {
            b"source" => Source,
            b"sphere" => Sphere,
            b"bubble" => Bubble,
            b"polygon" => Polygon,
            b"cone" => Cone,
            b"cup" => Cup,
            b"cylinder" => Cylinder,
            b"tube" => Tube,
            b"ring" => Ring,
            b"light" => Light,
            b"illum" => Illum,
            b"glow" => Glow,
            b"spotlight" => Spotlight,
            b"mirror" => Mirror,
            b"plastic" => Plastic,
            b"metal" => Metal,
            b"trans" => Trans,
            b"plastic2" => Plastic2,
            b"metal2" => Metal2,
            b"trans2" => Trans2,
            b"dielectric" => Dielectric,
            b"interface" => Interface,
            b"glass" => Glass,
            b"antimatter" => Antimatter,
            b"mixfunc" => Mixfunc,
            _ => return None,
        })
    }

    fn takes_strings(self, n: usize) -> bool {
        match self {
            Illum | Mirror => n == 1,
            Plastic2 | Metal2 | Trans2 | Mixfunc => n >= 4,
            Antimatter => n >= 1,
            _ => n == 0,
        }
    }

    fn takes_reals(self, n: usize) -> bool {
        match self {
            Antimatter => n == 0,
            Light | Illum | Mirror => n == 3,
            Source | Sphere | Bubble | Glow => n == 4,
            Plastic | Metal | Dielectric => n == 5,
            Plastic2 | Metal2 => n == 6,
            Cylinder | Tube | Spotlight | Trans => n == 7,
            Cone | Cup | Ring | Trans2 | Interface => n == 8,
            Glass => n == 3 || n == 4,
            Polygon => n >= 9 && n.is_multiple_of(3),
            Mixfunc => true,
        }
    }

    /// Whether the last of the reals so far completes the breach of a house rule.
    fn is_broken_by(self, reals: &[f64]) -> bool {
        let all_zero = |part: &[f64]| part.iter().all(|&x| x == 0.0);
        let last = reals[reals.len() - 1];
        match (self, reals.len()) {
            (Sphere | Bubble | Dielectric | Interface | Glass, 4) => last <= 0.0,
            (Plastic2 | Metal2 | Trans2, 5 | 6) => last <= 0.0,
            (Cylinder | Tube, 7) | (Interface, 8) => last <= 0.0,
            (Cone | Cup | Ring, 7) => last < 0.0,
            (Cone | Cup, 8) => last < 0.0 || all_zero(&reals[6..]),
            (Ring, 8) => last <= reals[6],
            (Ring, 6) => all_zero(&reals[3..]),
            (Source, 3) => all_zero(reals),
            _ => false,
        }
    }
}

// ---- counts and numerals

/// 1 to 5 decimal digits.
fn count(word: &[u8]) -> Option<usize> {
    if word.len() > 5 || !word.iter().all(u8::is_ascii_digit) {
        return None;
    }
    let value = word.iter().fold(0, |n, &b| n * 10 + usize::from(b - b'0'));
    (!word.is_empty()).then_some(value)
}

const MALFORMED: u32 = 14;
const TOO_LARGE: u32 = 15;
const COEFFICIENT_LIMIT: u64 = 1_000_000_000_000_000;

/// The powers of ten that a double holds exactly, up to the largest that a numeral may have.
const POWERS: [f64; 23] = [
    1e0, 1e1, 1e2, 1e3, 1e4, 1e5, 1e6, 1e7, 1e8, 1e9, 1e10, 1e11, 1e12, 1e13, 1e14, 1e15, 1e16, 1e17, 1e18, 1e19, 1e20,
    1e21, 1e22,
];

/// A numeral's parts, as they are written.
struct Numeral {
    negative: bool,
    coefficient: u64,
    power: i32,
}

impl Numeral {
    fn from_word(word: &[u8]) -> Option<Numeral> {
        let (negative, word) = sign(word);
        let (mut coefficient, mut digits, mut behind_point, mut point) = (0_u64, 0, 0, false);
        let mut rest = word;
        while let Some((&byte, tail)) = rest.split_first() {
            match byte {
                b'0'..=b'9' => {
                    // A saturated coefficient stays too large
                    coefficient = coefficient.saturating_mul(10).saturating_add(u64::from(byte - b'0'));
                    digits += 1;
                    behind_point += i32::from(point);
                }
                b'.' if !point => point = true,
                _ => break,
            }
            rest = tail;
        }
        if digits == 0 {
            return None;
        }
        let exponent = match rest.split_first() {
            None => 0,
            Some((b'e' | b'E', tail)) => exponent(tail)?,
            Some(_) => return None,
        };
        Some(Numeral { negative, coefficient, power: exponent - behind_point })
    }

    /// The nearest double: coefficient and power of ten are exact, so there is one rounding.
    fn value(&self) -> Option<f64> {
        if self.coefficient >= COEFFICIENT_LIMIT {
            return None;
        }
        let size = match self.power {
            _ if self.coefficient == 0 => 0.0,
            0..=22 => self.coefficient as f64 * POWERS[self.power as usize],
            -22..=-1 => self.coefficient as f64 / POWERS[-self.power as usize],
            _ => return None,
        };
        Some(if self.negative { -size } else { size })
    }
}

fn sign(word: &[u8]) -> (bool, &[u8]) {
    match word.split_first() {
        Some((b'-', rest)) => (true, rest),
        Some((b'+', rest)) => (false, rest),
        _ => (false, word),
    }
}

/// Optional sign, 1 to 3 digits.
fn exponent(word: &[u8]) -> Option<i32> {
    let (negative, digits) = sign(word);
    if digits.len() > 3 {
        return None;
    }
    let size = count(digits)? as i32;
    Some(if negative { -size } else { size })
}

/// The value of a numeral, or the reason for refusing it.
pub fn numeral(word: &[u8]) -> Result<f64, u32> {
    Numeral::from_word(word).ok_or(MALFORMED)?.value().ok_or(TOO_LARGE)
}

// ---- the reader

struct Reader<'t, 'm> {
    archive: bool,
    text: &'t [u8],
    at: usize,
    records: &'m mut [u32],
    record_room: usize,
    primitives: usize,
    reals: &'m mut [f64],
    real_room: usize,
    reals_used: usize,
    /// The line of a place up to which line ends are counted.
    line: u32,
    counted: usize,
    /// The number of the latest primitive of each name.
    latest: HashMap<&'t [u8], usize>,
}

impl<'t, 'm> Reader<'t, 'm> {
    fn new(archive: bool, text: &'t [u8], records: &'m mut [u32], reals: &'m mut [f64]) -> Self {
        Reader {
            archive,
            text,
            at: 0,
            record_room: MOST_RECORDS.min(records.len() / RECORD),
            records,
            primitives: 0,
            real_room: MOST_REALS.min(reals.len()),
            reals,
            reals_used: 0,
            line: 1,
            counted: 0,
            latest: HashMap::new(),
        }
    }

    fn scene(mut self, pairs: &mut [u32]) -> Result<Counts, Refused> {
        loop {
            self.skip_blanks();
            match self.text.get(self.at) {
                None => break,
                Some(b'#') => self.skip_line(),
                Some(b'!') => return refuse(4, self.at),
                Some(_) => self.statement()?,
            }
        }
        self.resolve(pairs)?;
        Ok(Counts { primitives: self.primitives, reals: self.reals_used })
    }

    fn skip_blanks(&mut self) {
        let rest = &self.text[self.at..];
        self.at += rest.iter().position(|&b| !is_blank(b)).unwrap_or(rest.len());
    }

    fn skip_line(&mut self) {
        let rest = &self.text[self.at..];
        self.at += rest.iter().position(|&b| b == b'\n').unwrap_or(rest.len());
    }

    /// The next word of a statement.
    fn word(&mut self) -> Result<Word<'t>, Refused> {
        let (place, len) = next_word(self.text, self.at);
        if len == 0 {
            return refuse(5, place);
        }
        self.at = place + len;
        let bytes = &self.text[place..self.at];
        if !bytes.iter().all(u8::is_ascii_graphic) {
            return refuse(2, place);
        }
        if len > LONGEST_WORD {
            return refuse(3, place);
        }
        Ok(Word { place, bytes })
    }

    fn statement(&mut self) -> Result<(), Refused> {
        let modifier = self.modifier()?;
        let word = self.word()?;
        let (name, mut record) = if word.bytes == b"alias" {
            let name = self.name()?;
            (name, self.target()?)
        } else {
            let kind = match Kind::from_word(word.bytes) {
                None => return refuse(8, word.place),
                Some(Antimatter) if !self.archive => return refuse(28, word.place),
                Some(kind) => kind,
            };
            let name = self.name()?;
            (name, self.arguments(kind)?)
        };
        record[MODIFIER] = modifier as u32;
        record[NAME] = name.place as u32;
        record[NAME_LENGTH] = name.bytes.len() as u32;
        record[LINE] = self.line(name.place);
        self.enter(name, &record);
        Ok(())
    }

    /// The line of a place, from 1: one more than the line ends before it, of which those before the last name are counted.
    fn line(&mut self, place: usize) -> u32 {
        let passed = &self.text[self.counted..place];
        self.line += passed.iter().filter(|&&b| b == b'\n').count() as u32;
        self.counted = place;
        self.line
    }

    fn modifier(&mut self) -> Result<usize, Refused> {
        let word = self.word()?;
        if self.primitives == self.record_room {
            return refuse(6, word.place);
        }
        if word.bytes == b"void" {
            return Ok(0);
        }
        self.lookup(word, 7)
    }

    fn lookup(&self, word: Word, reason: u32) -> Result<usize, Refused> {
        match self.latest.get(word.bytes) {
            Some(&number) => Ok(number),
            None => refuse(reason, word.place),
        }
    }

    fn name(&mut self) -> Result<Word<'t>, Refused> {
        let name = self.word()?;
        if name.bytes == b"void" {
            return refuse(9, name.place);
        }
        Ok(name)
    }

    /// An alias's target: type, strings and reals are those of the primitive that it leads to.
    fn target(&mut self) -> Result<[u32; RECORD], Refused> {
        let word = self.word()?;
        let number = self.lookup(word, 10)?;
        let at = RECORD * (number - 1);
        let found = &self.records[at..at + RECORD];
        Ok([found[TYPE], 0, number as u32, 0, 0, found[5], found[6], found[7], found[8], 0, 0])
    }

    /// A primitive's strings, integers and reals.
    fn arguments(&mut self, kind: Kind) -> Result<[u32; RECORD], Refused> {
        let (strings, _) = self.count(|n| kind.takes_strings(n))?;
        let mut first_string = 0;
        for k in 0..strings {
            let string = self.word()?;
            if k == 0 {
                first_string = string.place;
            }
        }
        self.count(|n| n == 0)?;
        let (reals, place) = self.count(|n| kind.takes_reals(n))?;
        if reals > self.real_room - self.reals_used {
            return refuse(13, place);
        }
        let first_real = if reals == 0 { 0 } else { self.reals_used };
        self.reals(kind, reals)?;
        let [string, strings, real, reals] = [first_string, strings, first_real, reals].map(|n| n as u32);
        Ok([kind as u32, 0, 0, 0, 0, string, strings, real, reals, 0, 0])
    }

    /// A count that is allowed, and its place.
    fn count(&mut self, allowed: impl Fn(usize) -> bool) -> Result<(usize, usize), Refused> {
        let word = self.word()?;
        match count(word.bytes) {
            Some(n) if allowed(n) => Ok((n, word.place)),
            _ => refuse(12, word.place),
        }
    }

    fn reals(&mut self, kind: Kind, count: usize) -> Result<(), Refused> {
        let first = self.reals_used;
        for at in first..first + count {
            let word = self.word()?;
            match numeral(word.bytes) {
                Ok(value) => self.reals[at] = value,
                Err(reason) => return refuse(reason, word.place),
            }
            if kind.is_broken_by(&self.reals[first..=at]) {
                return refuse(16, word.place);
            }
        }
        self.reals_used += count;
        Ok(())
    }

    fn enter(&mut self, name: Word<'t>, record: &[u32; RECORD]) {
        let at = RECORD * self.primitives;
        self.records[at..at + RECORD].copy_from_slice(record);
        self.primitives += 1;
        if is_surface(record[TYPE]) {
            return; // a surface is no definition
        }
        if let Some(earlier) = self.latest.insert(name.bytes, self.primitives) {
            self.records[RECORD * (earlier - 1) + NEXT] = self.primitives as u32;
        }
    }

    /// The sides of all mixtures, once the latest primitive of each name is the last in the whole text.
    fn resolve(&self, pairs: &mut [u32]) -> Result<(), Refused> {
        let mut mixtures = false;
        for (record, at) in self.records.chunks_exact(RECORD).take(self.primitives).zip((0..).step_by(PAIR)) {
            if record[TYPE] == MIXFUNC {
                let pair = match record[TARGET] as usize {
                    0 => self.sides(record[STRING] as usize)?,
                    target => [0, 1].map(|side| pairs[PAIR * (target - 1) + side]),
                };
                pairs[at..at + PAIR].copy_from_slice(&pair);
                mixtures = true;
            }
        }
        // Modifiers alone lead to no loop
        let on_loop = if mixtures { Tables::new(self.records, pairs, self.primitives).lowest_on_loop() } else { None };
        match on_loop {
            None => Ok(()),
            Some(number) => refuse(26, self.records[RECORD * (number - 1) + NAME] as usize),
        }
    }

    /// What the two words at a place lead to.
    fn sides(&self, place: usize) -> Result<[u32; 2], Refused> {
        let (place, len) = next_word(self.text, place);
        let foreground = self.side(place, len)?;
        let (place, len) = next_word(self.text, place + len);
        Ok([foreground, self.side(place, len)?])
    }

    fn side(&self, place: usize, len: usize) -> Result<u32, Refused> {
        match &self.text[place..place + len] {
            b"void" => Ok(0),
            bytes => self.lookup(Word { place, bytes }, 25).map(|number| number as u32),
        }
    }
}

// ---- questions to a table, which may hold anything

pub const NO_SUCH_PRIMITIVE: u32 = 17;
pub const BAD_TABLE: u32 = 18;
const USED_UP: u32 = 19;

const POLYGON: u32 = 4;

/// The records that a count states, from number 1 on, if the number is one of them.
pub fn stated(records: &[u32], count: usize, number: usize) -> Result<&[u32], u32> {
    if count > MOST_RECORDS || count > records.len() / RECORD {
        Err(BAD_TABLE)
    } else if number == 0 || number > count {
        Err(NO_SUCH_PRIMITIVE)
    } else {
        Ok(&records[..RECORD * count])
    }
}

/// Place and length of a primitive's name, or a refusal's number.
pub fn name(text: &[u8], records: &[u32], count: usize, number: usize) -> Result<(usize, usize), u32> {
    let record = &stated(records, count, number)?[RECORD * (number - 1)..];
    let (place, len) = (record[NAME] as usize, record[NAME_LENGTH] as usize);
    match text.get(place..).and_then(|rest| rest.get(..len)) {
        Some(name) if !name.is_empty() => Ok((place, len)),
        _ => Err(BAD_TABLE),
    }
}

/// The reals of a polygon of a table, or a refusal's number.
pub fn corners<'r>(records: &[u32], count: usize, number: usize, reals: &'r [f64]) -> Result<&'r [f64], u32> {
    let record = &stated(records, count, number)?[RECORD * (number - 1)..];
    let own = reals.get(record[REAL] as usize..).and_then(|rest| rest.get(..record[REALS] as usize));
    own.filter(|_| record[TYPE] == POLYGON).ok_or(BAD_TABLE)
}

/// The first material that a primitive's modifiers lead to, and the links to it; or a refusal's number and its count.
pub fn finish(records: &[u32], count: usize, number: usize, allowance: usize) -> Result<(usize, usize), (u32, usize)> {
    let records = stated(records, count, number).map_err(|reason| (reason, 0))?;
    let mut at = number;
    for links in 0.. {
        let link = records[RECORD * (at - 1) + MODIFIER] as usize;
        if link == 0 {
            return Ok((0, links));
        }
        if link >= at {
            return Err((BAD_TABLE, 0));
        }
        if links == allowance {
            return Err((USED_UP, links));
        }
        match records[RECORD * (link - 1) + TYPE] {
            kind if is_material(kind) => return Ok((link, links + 1)),
            10..=25 => at = link,
            _ => return Err((BAD_TABLE, 0)),
        }
    }
    unreachable!("links fall, so the walk ends")
}
