//! Scene texts, read into lent tables.

use crate::{polygon_in_table, polygon_in_table_above, questions, raw, writing};
use crate::{Direction, Finish, Order, PolygonRefusal, Question, Ray, Type, Unwritten, Word, Words};
use crate::{INDEX, PAIR, RECORD};
use std::error::Error;
use std::fmt;

/// How a text is read. Every text that the new reading accepts has the same tables in the archive one.
#[derive(Clone, Copy, Debug, PartialEq, Eq, Hash)]
#[repr(u32)]
pub enum Mode {
    /// The reading of new scenes, which may have no antimatter.
    New = 0,
    /// The reading of old scenes, which accepts it.
    Archive = 1,
}

impl Mode {
    /// The mode's number.
    pub fn number(self) -> u32 {
        self as u32
    }
}

/// Why a scene is refused.
#[derive(Clone, Copy, Debug, PartialEq, Eq, Hash)]
#[repr(u32)]
pub enum Reason {
    /// The text has over 65,536 bytes.
    TextTooLong = 1,
    /// A word has a byte outside 33 to 126.
    BadByte = 2,
    /// A word has over 64 bytes.
    WordTooLong = 3,
    /// A command, which is never run.
    Command = 4,
    /// The text ends inside a statement.
    TextEnds = 5,
    /// The lent table has no room for a record.
    NoRecordRoom = 6,
    /// The modifier is not defined above.
    NoModifier = 7,
    /// The type is unknown.
    UnknownType = 8,
    /// The name is `void`.
    NameIsVoid = 9,
    /// The alias target is not defined above.
    NoTarget = 10,
    /// A count is badly formed or not allowed.
    BadCount = 12,
    /// The lent table has no room for the reals.
    NoRealRoom = 13,
    /// A real breaks the numeral rule.
    BadNumeral = 14,
    /// A numeral's coefficient or power is too large.
    NumeralRange = 15,
    /// A real breaks a house rule.
    HouseRule = 16,
    /// The lent index has under 2,048 entries.
    IndexTooSmall = 24,
    /// The foreground or the background of a mixfunc is not defined anywhere.
    SideNotDefined = 25,
    /// Modifiers and sides of mixtures lead from a primitive back to itself.
    Loop = 26,
    /// The lent pair table has under two entries for each record of room.
    PairsTooSmall = 27,
    /// The type is antimatter, which the new reading refuses.
    RetiredType = 28,
}

impl Reason {
    /// The reason's number.
    pub fn number(self) -> u32 {
        self as u32
    }

    /// The reason of a number; none outside 1 to 16 and 24 to 28, and none for 11, which is given no more.
    pub fn from_number(number: u32) -> Option<Reason> {
        Some(match number {
            1 => Reason::TextTooLong,
            2 => Reason::BadByte,
            3 => Reason::WordTooLong,
            4 => Reason::Command,
            5 => Reason::TextEnds,
            6 => Reason::NoRecordRoom,
            7 => Reason::NoModifier,
            8 => Reason::UnknownType,
            9 => Reason::NameIsVoid,
            10 => Reason::NoTarget,
            12 => Reason::BadCount,
            13 => Reason::NoRealRoom,
            14 => Reason::BadNumeral,
            15 => Reason::NumeralRange,
            16 => Reason::HouseRule,
            24 => Reason::IndexTooSmall,
            25 => Reason::SideNotDefined,
            26 => Reason::Loop,
            27 => Reason::PairsTooSmall,
            28 => Reason::RetiredType,
            _ => return None,
        })
    }
}

impl fmt::Display for Reason {
    fn fmt(&self, f: &mut fmt::Formatter<'_>) -> fmt::Result {
        f.write_str(match self {
            Reason::TextTooLong => "text over 65,536 bytes",
            Reason::BadByte => "bad byte in a word",
            Reason::WordTooLong => "word over 64 bytes",
            Reason::Command => "command",
            Reason::TextEnds => "text ends inside a statement",
            Reason::NoRecordRoom => "no room for a record",
            Reason::NoModifier => "modifier not defined above",
            Reason::UnknownType => "unknown type",
            Reason::NameIsVoid => "name is `void`",
            Reason::NoTarget => "alias target not defined above",
            Reason::BadCount => "count badly formed or not allowed",
            Reason::NoRealRoom => "no room for the reals",
            Reason::BadNumeral => "not a numeral",
            Reason::NumeralRange => "coefficient or power too large",
            Reason::HouseRule => "real breaks a house rule",
            Reason::IndexTooSmall => "index under 2,048 entries",
            Reason::SideNotDefined => "side of a mixture not defined",
            Reason::Loop => "modifiers and sides lead in a loop",
            Reason::PairsTooSmall => "pair table under two entries per record",
            Reason::RetiredType => "antimatter in a new scene",
        })
    }
}

/// Why a scene is refused, and where. All lent tables are all zero then.
#[derive(Clone, Copy, Debug, PartialEq, Eq, Hash)]
pub struct Refusal {
    /// The reason; of several at one place the one with the lowest number. Sides that are not defined come after all others, and loops
    /// after these.
    pub reason: Reason,
    /// The earliest place with a reason, in bytes from the text's start; for a loop the name of the lowest primitive on any.
    pub place: usize,
}

impl Refusal {
    /// The refusal of a reader's number.
    pub(crate) fn from_number(number: u32, place: usize) -> Refusal {
        let reason = Reason::from_number(number).expect("the library refuses scenes by 1 to 16 and 24 to 28");
        Refusal { reason, place }
    }
}

impl fmt::Display for Refusal {
    fn fmt(&self, f: &mut fmt::Formatter<'_>) -> fmt::Result {
        write!(f, "{} (reason {}), at byte {}", self.reason, self.reason.number(), self.place)
    }
}

impl Error for Refusal {}

/// How much an accepted scene holds.
#[derive(Clone, Copy, Debug, PartialEq, Eq, Hash)]
pub struct Counts {
    /// Primitives, aliases included.
    pub primitives: usize,
    /// Reals of all primitives.
    pub reals: usize,
}

/// Reads a scene, in a mode, into three tables. There is room for a record in each eleven numbers, at most 1,024 of them, and for at
/// most 4,096 reals; the pair table is to have two entries for each record of room. Entries beyond those used become 0, and all of them
/// if the scene is refused.
///
/// Take this call where no more memory is to be lent, else [`read_indexed`].
pub fn read(
    mode: Mode,
    text: &[u8],
    records: &mut [u32],
    reals: &mut [f64],
    pairs: &mut [u32],
) -> Result<Counts, Refusal> {
    let (number, [place, primitives, reals]) = raw::read(mode.number(), text, records, reals, pairs);
    match number {
        0 => Ok(Counts { primitives, reals }),
        _ => Err(Refusal::from_number(number, place)),
    }
}

/// How much an accepted scene holds, and what its index cost.
#[derive(Clone, Copy, Debug, PartialEq, Eq, Hash)]
pub struct Indexed {
    /// As [`read`] gives them.
    pub counts: Counts,
    /// How many entries of the index were looked at, over all searches.
    pub looked: usize,
}

/// Reads a scene as [`read`] does, with a lent index of names; [`INDEX`] entries are enough, and with fewer the scene is refused.
/// With as many, refusal, counts and the other tables are those of [`read`], for every text. Entries of the index beyond those become
/// 0, and all of them if the scene is refused.
///
/// Take this call wherever 8 KiB can be lent: it is as fast up to about a hundred primitives and faster beyond, as with usual names
/// its time does not grow with the square of their number. Names made to collide cost more looks, so that it may take longer than
/// [`read`], but never change the answer.
///
/// ```
/// use kribbelsteen::{read_indexed, Mode, INDEX, PAIR, RECORD};
///
/// let text = b"void light lamp 0 0 3 1 1 1\nlamp sphere bulb 0 0 4 0 0 0 1\n";
/// let (mut records, mut reals, mut pairs, mut index) = ([0; RECORD * 2], [0.0; 7], [0; PAIR * 2], [0; INDEX]);
/// let read = read_indexed(Mode::New, text, &mut records, &mut reals, &mut pairs, &mut index)?;
/// assert_eq!((read.counts.primitives, read.looked), (2, 2));
/// # Ok::<(), Box<dyn std::error::Error>>(())
/// ```
pub fn read_indexed(
    mode: Mode,
    text: &[u8],
    records: &mut [u32],
    reals: &mut [f64],
    pairs: &mut [u32],
    index: &mut [u32],
) -> Result<Indexed, Refusal> {
    let (number, [place, primitives, reals, looked]) =
        raw::read_indexed(mode.number(), text, records, reals, pairs, index);
    match number {
        0 => Ok(Indexed { counts: Counts { primitives, reals }, looked }),
        _ => Err(Refusal::from_number(number, place)),
    }
}

/// The sides of a mixture, by the numbers of their primitives; none for `void`.
#[derive(Clone, Copy, Debug, PartialEq, Eq, Hash)]
pub struct Pair {
    /// What the first string leads to.
    pub foreground: Option<usize>,
    /// What the second string leads to.
    pub background: Option<usize>,
}

/// An accepted scene: the mode of its reading, its text and its tables.
#[derive(Clone, Copy, Debug)]
pub struct Scene<'s> {
    pub(crate) mode: Mode,
    pub(crate) text: &'s [u8],
    pub(crate) records: &'s [u32],
    pub(crate) reals: &'s [f64],
    /// With the room behind those used.
    lent_reals: &'s [f64],
    /// Empty where the reading takes no pair table.
    pairs: &'s [u32],
}

impl<'s> Scene<'s> {
    /// Reads a scene and keeps its parts together. This is the fast call: it lends [`read_indexed`] an index of its own, 8 KiB on the
    /// stack. Only [`read`] does without one.
    pub fn read(
        mode: Mode,
        text: &'s [u8],
        records: &'s mut [u32],
        reals: &'s mut [f64],
        pairs: &'s mut [u32],
    ) -> Result<Scene<'s>, Refusal> {
        Scene::read_indexed(mode, text, records, reals, pairs, &mut [0; INDEX])
    }

    /// Reads a scene, as [`read_indexed`] does, and keeps its parts together. Take this call where the index is not to be on the
    /// stack, else [`Scene::read`].
    pub fn read_indexed(
        mode: Mode,
        text: &'s [u8],
        records: &'s mut [u32],
        reals: &'s mut [f64],
        pairs: &'s mut [u32],
        index: &mut [u32],
    ) -> Result<Scene<'s>, Refusal> {
        let Indexed { counts, .. } = read_indexed(mode, text, records, reals, pairs, index)?;
        let pairs = &pairs[..PAIR * counts.primitives];
        Ok(Scene { pairs, ..Scene::of(mode, text, records, reals, counts) })
    }

    /// The used parts of the tables of an accepted scene, with no pairs.
    pub(crate) fn of(mode: Mode, text: &'s [u8], records: &'s [u32], reals: &'s [f64], counts: Counts) -> Scene<'s> {
        let (records, used) = (&records[..RECORD * counts.primitives], &reals[..counts.reals]);
        Scene { mode, text, records, reals: used, lent_reals: reals, pairs: &[] }
    }

    /// How the scene was read.
    pub fn mode(&self) -> Mode {
        self.mode
    }

    /// How much the scene holds.
    pub fn counts(&self) -> Counts {
        Counts { primitives: self.records.len() / RECORD, reals: self.reals.len() }
    }

    /// The name of the primitive of a number, from 1.
    pub fn name(&self, number: usize) -> Result<&'s [u8], Question> {
        questions::name(self.text, self.records, self.counts().primitives, number)
    }

    /// The finish of the primitive of a number, however many links away.
    pub fn finish(&self, number: usize) -> Result<Finish, Question> {
        self.finish_within(number, number)
    }

    /// The finish of the primitive of a number, with no more links followed than allowed.
    pub fn finish_within(&self, number: usize, allowance: usize) -> Result<Finish, Question> {
        questions::finish(self.records, self.counts().primitives, number, allowance)
    }

    /// The sides of the primitive of a number: none where it is no mixture, and throughout [two saves](crate::Saves) and a
    /// [join](crate::Joined), which are read with no pair table.
    pub fn pair(&self, number: usize) -> Option<Pair> {
        let pair = self.pairs.chunks_exact(PAIR).nth(number.checked_sub(1)?)?;
        let side = |at: usize| Some(pair[at] as usize).filter(|&number| number != 0);
        let is_mixture = self.primitive(number)?.kind() == Type::Mixfunc;
        is_mixture.then(|| Pair { foreground: side(0), background: side(1) })
    }

    /// The materials that the primitive of a number may show, in a lent list, as [`shown`](crate::shown) gives them; one entry for each
    /// primitive is enough. [Two saves](crate::Saves) and a [join](crate::Joined) are read with no pair table, and refused by
    /// [`Question::BadTable`].
    ///
    /// ```
    /// use kribbelsteen::{Mode, Scene, PAIR, RECORD};
    ///
    /// let text = b"void mixfunc mix 4 oak void v f.cal 0 0\nmix sphere knob 0 0 4 0 0 0 1\nvoid plastic oak 0 0 5 .5 .4 .2 0 0\n";
    /// let (mut records, mut reals, mut pairs, mut list) = ([0; RECORD * 3], [0.0; 9], [0; PAIR * 3], [0; 3]);
    /// let scene = Scene::read(Mode::New, text, &mut records, &mut reals, &mut pairs)?;
    /// assert_eq!(scene.shown(2, &mut list)?, [3]);
    /// # Ok::<(), Box<dyn std::error::Error>>(())
    /// ```
    pub fn shown<'l>(&self, number: usize, list: &'l mut [u32]) -> Result<&'l [u32], Question> {
        questions::shown(self.records, self.pairs, self.counts().primitives, number, list)
    }

    /// Whether the order of the primitives of two numbers mattered, as [`mattered`](crate::mattered) tells it.
    pub fn mattered(&self, first: usize, second: usize) -> Result<Order<'s>, Question> {
        questions::mattered(self.text, self.records, self.counts().primitives, first, second)
    }

    /// The distance at which a ray hits the polygon of a number, none if it misses. What is not above [`LEAST`](crate::LEAST) is no
    /// hit.
    pub fn polygon(&self, ray: &Ray, number: usize) -> Result<Option<f64>, PolygonRefusal> {
        polygon_in_table(ray, self.records, self.counts().primitives, number, self.reals)
    }

    /// The same for hits above a least distance, which is at least 0.
    pub fn polygon_above(&self, ray: &Ray, number: usize, least: f64) -> Result<Option<f64>, PolygonRefusal> {
        polygon_in_table_above(ray, self.records, self.counts().primitives, number, self.reals, least)
    }

    /// Writes the scene's tidy text into a lent output, as [`write`](crate::write) does in the mode of its reading.
    pub fn write<'o>(&self, out: &'o mut [u8]) -> Result<&'o [u8], Unwritten> {
        writing::write(self.mode, self.text, self.records, self.reals, out)
    }

    /// Writes the scene with its glass moved into a lent output, as [`move_glass`](crate::move_glass) does in the mode of its reading.
    /// There is as much room for reals as the reading was lent.
    pub fn move_glass<'o>(&self, direction: Direction, out: &'o mut [u8]) -> Result<&'o [u8], Unwritten> {
        writing::move_glass(self.mode, direction, self.text, self.records, self.lent_reals, out)
    }

    /// Writes the scene's own bytes with its statements sorted into a lent output, as [`sort`](crate::sort) does in the mode of its
    /// reading.
    pub fn sort<'o>(&self, out: &'o mut [u8]) -> Result<&'o [u8], Unwritten> {
        writing::sort(self.mode, self.text, self.records, self.reals, out)
    }

    /// The primitive of a number, from 1.
    pub fn primitive(&self, number: usize) -> Option<Primitive<'s>> {
        let record = self.records.chunks_exact(RECORD).nth(number.checked_sub(1)?)?;
        Some(Primitive { text: self.text, reals: self.reals, record, number })
    }

    /// All primitives, in the text's order.
    pub fn primitives(&self) -> impl Iterator<Item = Primitive<'s>> {
        let Scene { text, records, reals, .. } = *self;
        let numbered = records.chunks_exact(RECORD).zip(1..);
        numbered.map(move |(record, number)| Primitive { text, reals, record, number })
    }
}

/// A primitive or an alias of an accepted scene.
#[derive(Clone, Copy, Debug)]
pub struct Primitive<'s> {
    text: &'s [u8],
    reals: &'s [f64],
    record: &'s [u32],
    number: usize,
}

impl<'s> Primitive<'s> {
    fn field(&self, at: usize) -> usize {
        self.record[at] as usize
    }

    fn link(&self, at: usize) -> Option<usize> {
        Some(self.field(at)).filter(|&number| number != 0)
    }

    /// Its number, from 1.
    pub fn number(&self) -> usize {
        self.number
    }

    /// Its type; an alias has its target's.
    pub fn kind(&self) -> Type {
        Type::from_number(self.record[0]).expect("accepted scenes have types from 1 to 25")
    }

    /// The primitive that its modifier leads to; none for `void`.
    pub fn modifier(&self) -> Option<usize> {
        self.link(1)
    }

    /// The primitive that an alias leads to; none if it is no alias.
    pub fn target(&self) -> Option<usize> {
        self.link(2)
    }

    /// Its name.
    pub fn name(&self) -> Word<'s> {
        let (place, len) = (self.field(3), self.field(4));
        Word { place, bytes: &self.text[place..place + len] }
    }

    /// Its string arguments; an alias has its target's.
    pub fn strings(&self) -> impl Iterator<Item = Word<'s>> {
        Words::starting_at(self.text, self.field(5)).take(self.field(6))
    }

    /// Its reals; an alias has its target's.
    pub fn reals(&self) -> &'s [f64] {
        let (first, count) = (self.field(7), self.field(8));
        &self.reals[first..first + count]
    }

    /// The line on which its name stands, from 1.
    pub fn line(&self) -> usize {
        self.field(10)
    }

    /// The next primitive of the same name, which hides this one from what stands below.
    pub fn next_of_name(&self) -> Option<usize> {
        self.link(9)
    }
}
