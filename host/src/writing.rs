//! Scenes written out: tidy, as they are or with their glass moved, or in their own words with their statements sorted.

use crate::{raw, Mode, Refusal};
use std::error::Error;
use std::fmt;

/// Why a scene is not written. The output is all zero then.
#[derive(Clone, Copy, Debug, PartialEq, Eq, Hash)]
pub enum Unwritten {
    /// 1 to 16, 25, 26 or 28: the text, read into tables of these sizes, is refused; or 1 or 13, at place 0: the moved text would be.
    Refused(Refusal),
    /// 22: the tables are not those that reading the text gives.
    TablesDiffer,
    /// 23: the output is too small for the text.
    OutputTooSmall,
    /// 33: the last line of a scene that is to be sorted is not ended by a byte 10.
    LastLineNotEnded {
        /// The text's length.
        place: usize,
    },
    /// 34: a scene that is to be sorted has words of two statements on one line.
    TwoOnALine {
        /// The first word of the second of them, on the first such line.
        place: usize,
    },
}

impl Unwritten {
    /// The refusal's number.
    pub fn number(self) -> u32 {
        match self {
            Unwritten::Refused(refusal) => refusal.reason.number(),
            Unwritten::TablesDiffer => 22,
            Unwritten::OutputTooSmall => 23,
            Unwritten::LastLineNotEnded { .. } => 33,
            Unwritten::TwoOnALine { .. } => 34,
        }
    }
}

impl fmt::Display for Unwritten {
    fn fmt(&self, f: &mut fmt::Formatter<'_>) -> fmt::Result {
        match self {
            Unwritten::Refused(refusal) => refusal.fmt(f),
            Unwritten::TablesDiffer => f.write_str("the tables differ from the text (reason 22)"),
            Unwritten::OutputTooSmall => f.write_str("the output is too small (reason 23)"),
            Unwritten::LastLineNotEnded { place } => write!(f, "last line not ended (reason 33), at byte {place}"),
            Unwritten::TwoOnALine { place } => write!(f, "two statements on a line (reason 34), at byte {place}"),
        }
    }
}

impl Error for Unwritten {}

/// Writes a scene's tidy text into a lent output, and gives that part of it; the rest becomes 0. The tables have to be what reading
/// the text, in the mode, into tables of these lengths gives, as the used parts of longer ones are. An output one byte longer than the text is
/// enough.
///
/// ```
/// use kribbelsteen::{Mode, Scene, PAIR, RECORD};
///
/// let text = b"# a lamp\nvoid light   lamp 0 0 03 1 1 1";
/// let (mut records, mut reals, mut pairs, mut out) = ([0; RECORD], [0.0; 3], [0; PAIR], [0; 64]);
/// let scene = Scene::read(Mode::New, text, &mut records, &mut reals, &mut pairs)?;
/// assert_eq!(scene.write(&mut out)?, b"void light lamp\n0\n0\n3 1 1 1\n");
/// # Ok::<(), Box<dyn std::error::Error>>(())
/// ```
pub fn write<'o>(
    mode: Mode,
    text: &[u8],
    records: &[u32],
    reals: &[f64],
    out: &'o mut [u8],
) -> Result<&'o [u8], Unwritten> {
    let answer = raw::write(mode.number(), text, records, reals, out);
    written(answer, out)
}

fn written((number, [place, len]): (u32, [usize; 2]), out: &[u8]) -> Result<&[u8], Unwritten> {
    match number {
        0 => Ok(&out[..len]),
        22 => Err(Unwritten::TablesDiffer),
        23 => Err(Unwritten::OutputTooSmall),
        33 => Err(Unwritten::LastLineNotEnded { place }),
        34 => Err(Unwritten::TwoOnALine { place }),
        _ => Err(Unwritten::Refused(Refusal::from_number(number, place))),
    }
}

/// Where glass is moved to. Three reals stand for the index 1.52.
#[derive(Clone, Copy, Debug, PartialEq, Eq, Hash)]
#[repr(u32)]
pub enum Direction {
    /// To four reals: glass of three gets `1.52` as the fourth.
    Forth = 0,
    /// To three reals: glass of four loses the fourth if it is spelled exactly `1.52`.
    Back = 1,
}

impl Direction {
    /// The direction's number.
    pub fn number(self) -> u32 {
        self as u32
    }
}

/// Writes a scene as [`write`](fn@write) does, with its glass moved; other glass and aliases stay. Forth and then back gives the tidy
/// text again where no glass of it has a fourth real spelled `1.52`. The moved text is refused, at place 0, where reading it into
/// tables of these lengths would be: by [`TextTooLong`](crate::Reason::TextTooLong) or [`NoRealRoom`](crate::Reason::NoRealRoom). An
/// output of [`MOST_BYTES`](crate::MOST_BYTES) is enough.
///
/// ```
/// use kribbelsteen::{Direction, Mode, Scene, PAIR, RECORD};
///
/// let text = b"void glass pane 0 0 4 .96 .96 .96 1.52\n";
/// let (mut records, mut reals, mut pairs, mut out) = ([0; RECORD], [0.0; 4], [0; PAIR], [0; 64]);
/// let scene = Scene::read(Mode::New, text, &mut records, &mut reals, &mut pairs)?;
/// assert_eq!(scene.move_glass(Direction::Back, &mut out)?, b"void glass pane\n0\n0\n3 .96 .96 .96\n");
/// assert_eq!(scene.move_glass(Direction::Forth, &mut out)?, b"void glass pane\n0\n0\n4 .96 .96 .96 1.52\n");
/// # Ok::<(), Box<dyn std::error::Error>>(())
/// ```
pub fn move_glass<'o>(
    mode: Mode,
    direction: Direction,
    text: &[u8],
    records: &[u32],
    reals: &[f64],
    out: &'o mut [u8],
) -> Result<&'o [u8], Unwritten> {
    let answer = raw::move_glass(mode.number(), direction.number(), text, records, reals, out);
    written(answer, out)
}

/// Writes a scene's own bytes into a lent output with its statements in another order, grouped by type as far as names allow, and gives
/// that part of it; the rest becomes 0. The tables are to be as for [`write`](fn@write), and an output as long as the text is enough.
///
/// Each statement moves as a block of whole lines, which ends with the line of its last word and starts where the block before it ends:
/// with the comments and blank lines above it, and a comment behind it. What stands behind the last statement stays at the end. So the
/// last line has to be [ended](Unwritten::LastLineNotEnded), and [no line](Unwritten::TwoOnALine) may have words of two statements.
///
/// Two statements keep their order where they have the same name, or where one of them, which is no surface, has the name that the other
/// refers to as its modifier or alias target; sides of mixtures do not count. Of those that may come by that, the next one is of the
/// type that came last, as long as there is one, else of the least [type](crate::Type); of one type the first in the text comes first.
/// The sorted text is accepted at the same lengths of tables, every panel has the finish it had, and [`compare`](crate::compare) shows
/// no line between both texts. Sorting it gives it again.
///
/// ```
/// use kribbelsteen::{Mode, Scene, PAIR, RECORD};
///
/// let text = b"void plastic oak 0 0 5 .5 .4 .2 0 0\n# warm\nvoid light lamp 0 0 3 1 1 1\nlamp sphere bulb 0 0 4 0 0 0 1\n";
/// let sorted = b"# warm\nvoid light lamp 0 0 3 1 1 1\nlamp sphere bulb 0 0 4 0 0 0 1\nvoid plastic oak 0 0 5 .5 .4 .2 0 0\n";
/// let (mut records, mut reals, mut pairs, mut out) = ([0; RECORD * 3], [0.0; 12], [0; PAIR * 3], [0; 128]);
/// let scene = Scene::read(Mode::New, text, &mut records, &mut reals, &mut pairs)?;
/// assert_eq!(scene.sort(&mut out)?, sorted);
/// # Ok::<(), Box<dyn std::error::Error>>(())
/// ```
pub fn sort<'o>(
    mode: Mode,
    text: &[u8],
    records: &[u32],
    reals: &[f64],
    out: &'o mut [u8],
) -> Result<&'o [u8], Unwritten> {
    let answer = raw::sort(mode.number(), text, records, reals, out);
    written(answer, out)
}
