//! The scene reader once more, as one would write it for speed: in safe Rust, with no memory but the stack. Byte classes are in a
//! table, each word and each numeral is gone over once, and names are in an index with open addressing. It gives what the first
//! reader gives.
//!
//! All steps of an accepted text are inlined into one function, and no call is lent the cursor: so the place in the text stays in a
//! register. What only a refusal needs is worked out once more, behind calls, and so are the sides of mixtures, for scenes that have any.

use super::index::INDEX;
use super::mixtures::Tables;
use super::scene::{pairs_needed, Counts, Refused};
use super::scene::{LONGEST_WORD, MODIFIER, MOST_BYTES, MOST_REALS, MOST_RECORDS, PAIR, RECORD};

const NAME: usize = 3;
const STRING: usize = 5;
const NEXT: usize = 9;

type Answer<T> = Result<T, Refused>;

#[cold]
fn refuse<T>(reason: u32, place: usize) -> Answer<T> {
    Err(Refused { reason, place })
}

/// Reads a scene into three tables, which are all zero after a refusal. Only the archive reading accepts antimatter.
pub fn read(archive: bool, text: &[u8], records: &mut [u32], reals: &mut [f64], pairs: &mut [u32]) -> Answer<Counts> {
    records.fill(0);
    reals.fill(0.0);
    pairs.fill(0);
    if text.len() > MOST_BYTES {
        return refuse(1, 0);
    }
    if pairs.len() < pairs_needed(records.len()) {
        return refuse(27, 0);
    }
    let answer = Reader::new(archive, text, records, reals).scene(pairs);
    if answer.is_err() {
        records.fill(0);
        reals.fill(0.0);
        pairs.fill(0);
    }
    answer
}

// ---- words

const BLANK: u8 = 0;
const GOOD: u8 = 1;
const BAD: u8 = 2;

static CLASSES: [u8; 256] = {
    let mut classes = [BAD; 256];
    let mut byte = 0;
    while byte < 256 {
        classes[byte] = match byte {
            9..=13 | 32 => BLANK,
            33..=126 => GOOD,
            _ => BAD,
        };
        byte += 1;
    }
    classes
};

fn class(byte: u8) -> u8 {
    CLASSES[usize::from(byte)]
}

#[derive(Clone, Copy)]
struct Word<'t> {
    place: usize,
    bytes: &'t [u8],
    /// 31 times itself plus the byte, for each byte. The index takes it modulo its size.
    hash: u32,
}

/// A place in the text, and the line that it is on.
struct Cursor<'t> {
    text: &'t [u8],
    at: usize,
    line: u32,
}

impl<'t> Cursor<'t> {
    fn byte(&self) -> Option<u8> {
        self.text.get(self.at).copied()
    }

    /// Whether a word that is good so far ends here.
    fn is_at_end(&self) -> bool {
        self.byte().is_none_or(|byte| class(byte) == BLANK)
    }

    /// Goes to the next byte that is not blank. All line ends are passed here.
    #[inline(always)]
    fn skip_blanks(&mut self) -> Option<u8> {
        while let Some(byte) = self.byte() {
            if class(byte) != BLANK {
                return Some(byte);
            }
            self.line += u32::from(byte == b'\n');
            self.at += 1;
        }
        None
    }

    /// Goes to the line end behind a comment.
    fn skip_comment(&mut self) {
        let rest = &self.text[self.at..];
        self.at += rest.iter().position(|&byte| byte == b'\n').unwrap_or(rest.len());
    }

    /// Goes to the next word of a statement, and gives its place.
    #[inline(always)]
    fn begin(&mut self) -> Answer<usize> {
        match self.skip_blanks() {
            Some(_) => Ok(self.at),
            None => refuse(5, self.at),
        }
    }

    /// The next word of a statement: end, classes and hash in one pass.
    #[inline(always)]
    fn word(&mut self) -> Answer<Word<'t>> {
        let place = self.begin()?;
        let mut hash = 0_u32;
        while let Some(byte) = self.byte() {
            match class(byte) {
                GOOD => hash = hash.wrapping_mul(31).wrapping_add(u32::from(byte)),
                BLANK => break,
                _ => return refuse(2, place),
            }
            self.at += 1;
        }
        let bytes = &self.text[place..self.at];
        if bytes.len() > LONGEST_WORD {
            return refuse(3, place);
        }
        Ok(Word { place, bytes, hash })
    }

    /// A count that is allowed, and its place.
    #[inline(always)]
    fn count(&mut self, allowed: impl Fn(usize) -> bool) -> Answer<(usize, usize)> {
        let place = self.begin()?;
        let mut number = 0;
        let digits = self.digits(&mut number);
        if !(1..=5).contains(&digits) || !self.is_at_end() || !allowed(number) {
            return refuse_word(self.text, place, 12);
        }
        Ok((number, place))
    }

    /// Passes digits and gives how many; the number is right if it has room for them.
    #[inline(always)]
    fn digits(&mut self, number: &mut usize) -> usize {
        let first = self.at;
        while let Some(byte @ b'0'..=b'9') = self.byte() {
            *number = number.wrapping_mul(10).wrapping_add(usize::from(byte - b'0'));
            self.at += 1;
        }
        self.at - first
    }

    /// The value of the next numeral.
    #[inline(always)]
    fn real(&mut self) -> Answer<f64> {
        let place = self.begin()?;
        let negative = self.sign();
        let Some((coefficient, power)) = self.numeral() else {
            return refuse_word(self.text, place, 14);
        };
        if self.at - place > LONGEST_WORD {
            return refuse(3, place);
        }
        match scaled(coefficient, power) {
            Some(size) => Ok(if negative { -size } else { size }),
            None => refuse(15, place),
        }
    }

    /// Whether there is a minus sign; a plus sign is passed too.
    #[inline(always)]
    fn sign(&mut self) -> bool {
        let byte = self.byte();
        // A branch is foreseen; with a sum every later step would wait for the byte
        if let Some(b'-' | b'+') = byte {
            self.at += 1;
        }
        byte == Some(b'-')
    }

    /// Coefficient and power of a numeral whose sign is passed, if it is well formed.
    #[inline(always)]
    fn numeral(&mut self) -> Option<(u64, i32)> {
        let (coefficient, behind_point) = self.coefficient()?;
        let exponent = match self.byte() {
            Some(b'e' | b'E') => self.exponent()?,
            _ => 0,
        };
        self.is_at_end().then_some((coefficient, exponent - behind_point))
    }

    /// The coefficient, and how many of its digits are behind the point.
    #[inline(always)]
    fn coefficient(&mut self) -> Option<(u64, i32)> {
        let first = self.at;
        let (mut coefficient, mut point) = (0_u64, None);
        while let Some(byte) = self.byte() {
            match byte {
                b'0'..=b'9' => coefficient = coefficient.wrapping_mul(10).wrapping_add(u64::from(byte - b'0')),
                b'.' if point.is_none() => point = Some(self.at),
                _ => break,
            }
            self.at += 1;
        }
        let written = &self.text[first..self.at];
        let digits = written.len() - usize::from(point.is_some());
        if digits > SAFE_DIGITS {
            coefficient = long_coefficient(written);
        }
        let behind_point = point.map_or(0, |point| self.at - point - 1);
        (digits > 0).then_some((coefficient, behind_point as i32))
    }

    #[inline(always)]
    fn exponent(&mut self) -> Option<i32> {
        self.at += 1;
        let negative = self.sign();
        let mut size = 0;
        let digits = self.digits(&mut size);
        let exponent = if negative { -(size as i32) } else { size as i32 };
        (1..=3).contains(&digits).then_some(exponent)
    }
}

/// Refuses the word at a place for what every word is refused for, else for a reason of its own.
#[cold]
fn refuse_word<T>(text: &[u8], place: usize, reason: u32) -> Answer<T> {
    Cursor { text, at: place, line: 0 }.word()?;
    refuse(reason, place)
}

/// Refuses one of the reals behind a place, counted from 0, by a house rule. All before it are good words.
#[cold]
fn refuse_real<T>(text: &[u8], start: usize, number: usize) -> Answer<T> {
    let mut cursor = Cursor { text, at: start, line: 0 };
    for _ in 0..number {
        cursor.word()?;
    }
    refuse(16, cursor.begin()?)
}

// ---- numerals

const COEFFICIENT_LIMIT: u64 = 1_000_000_000_000_000;
/// So many digits always have room in 64 bits.
const SAFE_DIGITS: usize = 19;

/// The powers of ten that a double holds exactly, up to the largest that a numeral may have.
static POWERS: [f64; 23] = [
    1e0, 1e1, 1e2, 1e3, 1e4, 1e5, 1e6, 1e7, 1e8, 1e9, 1e10, 1e11, 1e12, 1e13, 1e14, 1e15, 1e16, 1e17, 1e18, 1e19, 1e20,
    1e21, 1e22,
];

/// The number that many digits have, with a point or without, or the limit if it is above that: leading zeros are allowed.
#[cold]
fn long_coefficient(written: &[u8]) -> u64 {
    let digits = written.iter().filter(|byte| byte.is_ascii_digit());
    digits.fold(0, |number, digit| (10 * number + u64::from(digit - b'0')).min(COEFFICIENT_LIMIT))
}

/// The nearest double: coefficient and power of ten are exact, so there is one rounding.
#[inline(always)]
fn scaled(coefficient: u64, power: i32) -> Option<f64> {
    if coefficient == 0 {
        return Some(0.0);
    }
    if coefficient >= COEFFICIENT_LIMIT {
        return None;
    }
    let ten = POWERS.get(power.unsigned_abs() as usize)?;
    let size = coefficient as i64 as f64; // from a signed number it is one instruction
    Some(if power < 0 { size / ten } else { size * ten })
}

// ---- types

#[derive(Clone, Copy, PartialEq, Eq)]
#[repr(u8)]
enum Kind {
    Source = 1,
    Sphere,
    Bubble,
    Polygon,
    Cone,
    Cup,
    Cylinder,
    Tube,
    Ring,
    Light,
    Illum,
    Glow,
    Spotlight,
    Mirror,
    Plastic,
    Metal,
    Trans,
    Plastic2,
    Metal2,
    Trans2,
    Dielectric,
    Interface,
    Glass,
    Antimatter,
    Mixfunc,
}

use Kind::*;

impl Kind {
    fn of(word: &[u8]) -> Option<Kind> {
        Some(match word {
            b"source" => Source,
            b"sphere" => Sphere,
            b"bubble" => Bubble,
            b"polygon" => Polygon,
            b"cone" => Cone,
            b"cup" => Cup,
            b"cylinder" => Cylinder,
            b"tube" => Tube,
            b"ring" => Ring,
            b"light" => Light,
            b"illum" => Illum,
            b"glow" => Glow,
            b"spotlight" => Spotlight,
            b"mirror" => Mirror,
            b"plastic" => Plastic,
            b"metal" => Metal,
            b"trans" => Trans,
            b"plastic2" => Plastic2,
            b"metal2" => Metal2,
            b"trans2" => Trans2,
            b"dielectric" => Dielectric,
            b"interface" => Interface,
            b"glass" => Glass,
            b"antimatter" => Antimatter,
            b"mixfunc" => Mixfunc,
            _ => return None,
        })
    }

    fn is_surface(self) -> bool {
        self as u8 <= Ring as u8
    }

    fn takes_strings(self, n: usize) -> bool {
        match self {
            Illum | Mirror => n == 1,
            Plastic2 | Metal2 | Trans2 | Mixfunc => n >= 4,
            Antimatter => n >= 1,
            _ => n == 0,
        }
    }

    fn takes_reals(self, n: usize) -> bool {
        match self {
            Antimatter => n == 0,
            Light | Illum | Mirror => n == 3,
            Source | Sphere | Bubble | Glow => n == 4,
            Plastic | Metal | Dielectric => n == 5,
            Plastic2 | Metal2 => n == 6,
            Cylinder | Tube | Spotlight | Trans => n == 7,
            Cone | Cup | Ring | Trans2 | Interface => n == 8,
            Glass => n == 3 || n == 4,
            Polygon => n >= 9 && n.is_multiple_of(3),
            Mixfunc => true,
        }
    }

    /// The first of the reals, from 0, that completes the breach of a house rule.
    #[inline(always)]
    fn breach(self, reals: &[f64]) -> Option<usize> {
        let breaks = |at: usize, rule: fn(f64) -> bool| reals.get(at).is_some_and(|&x| rule(x)).then_some(at);
        let not_above = |at| breaks(at, |x| x <= 0.0);
        let below = |at| breaks(at, |x| x < 0.0);
        let no_direction = |first: usize| match reals.get(first..first + 3) {
            Some([x, y, z]) if *x == 0.0 && *y == 0.0 && *z == 0.0 => Some(first + 2),
            _ => None,
        };
        match self {
            Source => no_direction(0),
            Sphere | Bubble | Dielectric | Glass => not_above(3),
            Interface => not_above(3).or_else(|| not_above(7)),
            Plastic2 | Metal2 | Trans2 => not_above(4).or_else(|| not_above(5)),
            Cylinder | Tube => not_above(6),
            Cone | Cup => below(6).or_else(|| match reals.get(6..8) {
                Some([a, b]) if *b < 0.0 || *a == 0.0 && *b == 0.0 => Some(7),
                _ => None,
            }),
            Ring => no_direction(3).or_else(|| below(6)).or_else(|| match reals.get(6..8) {
                Some([inner, outer]) if outer <= inner => Some(7),
                _ => None,
            }),
            _ => None,
        }
    }
}

// ---- the reader

type Record = [u32; RECORD];

/// An entry of the index is a primitive's number, below this, and above it what its name's hash has beyond the place of an entry. So
/// most other names are told apart by the entry, and their bytes are not looked at.
const NUMBERS: u32 = INDEX as u32;

fn number(entry: u32) -> usize {
    (entry % NUMBERS) as usize
}

struct Reader<'t, 'm> {
    archive: bool,
    cursor: Cursor<'t>,
    /// As many as there is room for.
    records: &'m mut [Record],
    primitives: usize,
    reals: &'m mut [f64],
    reals_used: usize,
    /// Whether there is a mixture so far.
    mixtures: bool,
    /// The latest primitive of each name; 0 where there is none.
    index: [u32; INDEX],
}

impl<'t, 'm> Reader<'t, 'm> {
    #[inline(always)]
    fn new(archive: bool, text: &'t [u8], records: &'m mut [u32], reals: &'m mut [f64]) -> Self {
        let records = records.as_chunks_mut().0;
        let (record_room, real_room) = (records.len().min(MOST_RECORDS), reals.len().min(MOST_REALS));
        Reader {
            archive,
            cursor: Cursor { text, at: 0, line: 1 },
            records: &mut records[..record_room],
            primitives: 0,
            reals: &mut reals[..real_room],
            reals_used: 0,
            mixtures: false,
            index: [0; INDEX],
        }
    }

    #[inline(always)]
    fn scene(mut self, pairs: &mut [u32]) -> Answer<Counts> {
        loop {
            match self.cursor.skip_blanks() {
                None => break,
                Some(b'#') => self.cursor.skip_comment(),
                Some(b'!') => return refuse(4, self.cursor.at),
                Some(_) => self.statement()?,
            }
        }
        if self.mixtures {
            resolve(self.cursor.text, &self.records[..self.primitives], &self.index, pairs)?;
        }
        Ok(Counts { primitives: self.primitives, reals: self.reals_used })
    }

    #[inline(always)]
    fn statement(&mut self) -> Answer<()> {
        let modifier = self.modifier()?;
        let word = self.cursor.word()?;
        if word.bytes == b"alias" {
            return self.alias(modifier);
        }
        match Kind::of(word.bytes) {
            None => refuse(8, word.place),
            Some(Antimatter) if !self.archive => refuse(28, word.place),
            Some(kind) => self.primitive(modifier, kind),
        }
    }

    #[inline(always)]
    fn modifier(&mut self) -> Answer<u32> {
        let word = self.cursor.word()?;
        if self.primitives == self.records.len() {
            return refuse(6, word.place);
        }
        if word.bytes == b"void" {
            return Ok(0);
        }
        self.lookup(word, 7)
    }

    /// A name, and its line.
    #[inline(always)]
    fn name(&mut self) -> Answer<(Word<'t>, u32)> {
        let word = self.cursor.word()?;
        if word.bytes == b"void" {
            return refuse(9, word.place);
        }
        Ok((word, self.cursor.line))
    }

    /// An alias: type, strings and reals are those of the primitive that it leads to.
    #[inline(always)]
    fn alias(&mut self, modifier: u32) -> Answer<()> {
        let (name, line) = self.name()?;
        let word = self.cursor.word()?;
        let target = self.lookup(word, 10)?;
        let [kind, _, _, _, _, string, strings, real, reals, _, _] = self.records[target as usize - 1];
        let (place, len) = (name.place as u32, name.bytes.len() as u32);
        self.enter([kind, modifier, target, place, len, string, strings, real, reals, 0, line]);
        self.give(name);
        Ok(())
    }

    #[inline(always)]
    fn primitive(&mut self, modifier: u32, kind: Kind) -> Answer<()> {
        let (name, line) = self.name()?;
        let (string, strings) = self.strings(kind)?;
        self.cursor.count(|integers| integers == 0)?;
        let (real, reals) = self.reals(kind)?;
        let (place, len) = (name.place as u32, name.bytes.len() as u32);
        self.enter([kind as u32, modifier, 0, place, len, string, strings, real, reals, 0, line]);
        if !kind.is_surface() {
            self.give(name);
            self.mixtures |= kind == Mixfunc;
        }
        Ok(())
    }

    /// Place of the first string, and how many there are.
    #[inline(always)]
    fn strings(&mut self, kind: Kind) -> Answer<(u32, u32)> {
        let (count, _) = self.cursor.count(|n| kind.takes_strings(n))?;
        if count == 0 {
            return Ok((0, 0));
        }
        let first = self.cursor.word()?.place;
        for _ in 1..count {
            self.cursor.word()?;
        }
        Ok((first as u32, count as u32))
    }

    /// Where the reals begin in their table, and how many there are.
    #[inline(always)]
    fn reals(&mut self, kind: Kind) -> Answer<(u32, u32)> {
        let (count, place) = self.cursor.count(|n| kind.takes_reals(n))?;
        if count == 0 {
            return Ok((0, 0));
        }
        let Some(reals) = self.reals[self.reals_used..].get_mut(..count) else {
            return refuse(13, place);
        };
        let start = self.cursor.at;
        let (mut read, mut fault) = (0, None);
        for real in reals.iter_mut() {
            match self.cursor.real() {
                Ok(value) => *real = value,
                Err(refused) => {
                    fault = Some(refused);
                    break;
                }
            }
            read += 1;
        }
        // Rules are looked at once, over all that was read: a breach stands before the fault, and goes first
        if let Some(breach) = kind.breach(&reals[..read]) {
            return refuse_real(self.cursor.text, start, breach);
        }
        if let Some(refused) = fault {
            return Err(refused);
        }
        let first = self.reals_used;
        self.reals_used += count;
        Ok((first as u32, count as u32))
    }

    #[inline(always)]
    fn enter(&mut self, record: Record) {
        self.records[self.primitives] = record;
        self.primitives += 1;
    }

    /// From now on the name leads to the latest primitive.
    #[inline(always)]
    fn give(&mut self, name: Word) {
        let at = search(self.cursor.text, self.records, &self.index, name);
        let (earlier, latest) = (number(self.index[at]), self.primitives as u32);
        if earlier != 0 {
            self.records[earlier - 1][NEXT] = latest;
        }
        self.index[at] = name.hash / NUMBERS * NUMBERS + latest;
    }

    #[inline(always)]
    fn lookup(&self, word: Word, reason: u32) -> Answer<u32> {
        found(self.cursor.text, self.records, &self.index, word, reason)
    }
}

/// The latest primitive of a name.
#[inline(always)]
fn found(text: &[u8], records: &[Record], index: &[u32; INDEX], word: Word, reason: u32) -> Answer<u32> {
    match number(index[search(text, records, index, word)]) {
        0 => refuse(reason, word.place),
        number => Ok(number as u32),
    }
}

/// The entry of a name, or the empty one where it would be. Half of the entries stay empty, so there is one.
#[inline(always)]
fn search(text: &[u8], records: &[Record], index: &[u32; INDEX], word: Word) -> usize {
    let mut at = word.hash as usize % INDEX;
    loop {
        let entry = index[at];
        if entry == 0 || entry / NUMBERS == word.hash / NUMBERS && name_of(text, records, number(entry)) == word.bytes {
            return at;
        }
        at = (at + 1) % INDEX;
    }
}

fn name_of<'t>(text: &'t [u8], records: &[Record], number: usize) -> &'t [u8] {
    let [_, _, _, place, len, ..] = records[number - 1];
    &text[place as usize..][..len as usize]
}

// ---- mixtures

type Pair = [u32; PAIR];

/// The sides of all mixtures, when all is read. All links that lead down lead to no loop, so it is looked for where a side leads up.
#[inline(never)]
fn resolve(text: &[u8], records: &[Record], index: &[u32; INDEX], pairs: &mut [u32]) -> Answer<()> {
    let pairs = &mut pairs.as_chunks_mut::<PAIR>().0[..records.len()];
    let mut leads_up = false;
    for (at, &[kind, _, target, ..]) in records.iter().enumerate() {
        if kind == Mixfunc as u32 {
            let pair = if target == 0 {
                let mut strings = Cursor { text, at: records[at][STRING] as usize, line: 0 };
                [side(text, records, index, strings.word()?)?, side(text, records, index, strings.word()?)?]
            } else {
                pairs[target as usize - 1]
            };
            pairs[at] = pair;
            leads_up |= pair.iter().any(|&side| side as usize > at);
        }
    }
    if leads_up && has_loop(records, pairs) {
        return refuse_loop(records, pairs);
    }
    Ok(())
}

fn side(text: &[u8], records: &[Record], index: &[u32; INDEX], word: Word) -> Answer<u32> {
    if word.bytes == b"void" {
        return Ok(0);
    }
    found(text, records, index, word, 25)
}

const NEW: u8 = 0;
const OPEN: u8 = 1;
const DONE: u8 = 2;

/// Whether a walk from any primitive comes to one that it has not left yet.
fn has_loop(records: &[Record], pairs: &[Pair]) -> bool {
    let mut states = [NEW; MOST_RECORDS];
    // A primitive, by its place, and how many of its three links are followed
    let mut way = [(0_u16, 0_u8); MOST_RECORDS];
    for start in 0..records.len() {
        if states[start] != NEW {
            continue;
        }
        (way[0], states[start]) = ((start as u16, 0), OPEN);
        let mut depth = 1;
        while depth > 0 {
            let (at, followed) = way[depth - 1];
            let at = usize::from(at);
            let link = match followed {
                0 => records[at][MODIFIER],
                1 => pairs[at][0],
                2 => pairs[at][1],
                _ => {
                    states[at] = DONE;
                    depth -= 1;
                    continue;
                }
            };
            way[depth - 1].1 += 1;
            if link == 0 {
                continue;
            }
            let next = link as usize - 1;
            match states[next] {
                NEW => {
                    (way[depth], states[next]) = ((next as u16, 0), OPEN);
                    depth += 1;
                }
                OPEN => return true,
                _ => {}
            }
        }
    }
    false
}

/// Refuses a loop at the name of the lowest primitive on any.
#[cold]
fn refuse_loop<T>(records: &[Record], pairs: &[Pair]) -> Answer<T> {
    let tables = Tables::new(records.as_flattened(), pairs.as_flattened(), records.len());
    let number = tables.lowest_on_loop().expect("there is a loop");
    refuse(26, records[number - 1][NAME] as usize)
}
