//! Two hands' edits of a scene, joined by name; and a typed join, checked.

use crate::{raw, Counts, Mode, Refusal, Scene};
use std::error::Error;
use std::fmt;

/// A scene and what two hands made of it.
#[derive(Clone, Copy, Debug)]
pub struct Edits<'t> {
    /// The scene that both began with.
    pub base: &'t [u8],
    /// The left hand's.
    pub left: &'t [u8],
    /// The right hand's.
    pub right: &'t [u8],
}

/// Which text of a join.
#[derive(Clone, Copy, Debug, PartialEq, Eq, Hash)]
#[repr(usize)]
pub enum JoinText {
    /// The base.
    Base = 1,
    /// The left hand's.
    Left = 2,
    /// The right hand's.
    Right = 3,
    /// The joined one, or the one that was typed for it.
    Joined = 4,
}

impl JoinText {
    fn from_number(number: usize) -> JoinText {
        match number {
            1 => JoinText::Base,
            2 => JoinText::Left,
            3 => JoinText::Right,
            4 => JoinText::Joined,
            _ => unreachable!("the library numbers the texts of a join by 1 to 4"),
        }
    }
}

impl fmt::Display for JoinText {
    fn fmt(&self, f: &mut fmt::Formatter<'_>) -> fmt::Result {
        f.write_str(match self {
            JoinText::Base => "base",
            JoinText::Left => "left",
            JoinText::Right => "right",
            JoinText::Joined => "joined",
        })
    }
}

/// Why edits are not joined, or a typed text is no join of them. Both tables and the output are all zero then.
#[derive(Clone, Copy, Debug, PartialEq, Eq, Hash)]
pub enum Unjoined {
    /// 1 to 16, 25, 26 or 28: a text, read into tables of these sizes, is refused: the base, then the left one, then the right one; and
    /// after [`NoOrder`](Unjoined::NoOrder) the joined or typed one.
    Refused {
        /// Which text.
        text: JoinText,
        /// Why, and where in that text.
        refusal: Refusal,
    },
    /// 29: a name stands twice in one of the three texts, surfaces counted.
    NameTwice,
    /// 30: both hands changed one name, and differently.
    BothChanged,
    /// 31: no order puts each definition after those it needs; what it needs may be missing, or a surface.
    NoOrder,
    /// 32: the typed text does not hold exactly these definitions.
    OtherDefinitions,
    /// 23: the output is too small for the text.
    OutputTooSmall,
}

impl Unjoined {
    /// The refusal's number.
    pub fn number(self) -> u32 {
        match self {
            Unjoined::Refused { refusal, .. } => refusal.reason.number(),
            Unjoined::NameTwice => 29,
            Unjoined::BothChanged => 30,
            Unjoined::NoOrder => 31,
            Unjoined::OtherDefinitions => 32,
            Unjoined::OutputTooSmall => 23,
        }
    }
}

impl fmt::Display for Unjoined {
    fn fmt(&self, f: &mut fmt::Formatter<'_>) -> fmt::Result {
        f.write_str(match self {
            Unjoined::Refused { text, refusal } => return write!(f, "{text} scene: {refusal}"),
            Unjoined::NameTwice => "a name stands twice in one scene (reason 29)",
            Unjoined::BothChanged => "both hands changed one name differently (reason 30)",
            Unjoined::NoOrder => "no order puts each definition after those it needs (reason 31)",
            Unjoined::OtherDefinitions => "the typed scene holds other definitions (reason 32)",
            Unjoined::OutputTooSmall => "the output is too small (reason 23)",
        })
    }
}

impl Error for Unjoined {
    fn source(&self) -> Option<&(dyn Error + 'static)> {
        match self {
            Unjoined::Refused { refusal, .. } => Some(refusal),
            _ => None,
        }
    }
}

/// An accepted join.
#[derive(Clone, Copy, Debug)]
pub struct Joined<'l> {
    /// Its text, in the lent output.
    pub text: &'l [u8],
    /// What reading it leaves in the lent tables, with no pair table.
    pub scene: Scene<'l>,
}

/// Joins two hands' edits of a scene. All texts are read in the mode, into tables of these lengths; the joined text goes into the lent
/// output, with 0 behind it, and both tables are left as reading it leaves them. An output of [`MOST_BYTES`](crate::MOST_BYTES) is
/// enough.
///
/// Each name may stand once in each text, surfaces counted, and for each name one definition is taken, where having none counts as one:
/// the left hand's if both hands have the same, else that of the hand that changed it. Two definitions are the same if the names of
/// their modifiers are, and both are aliases of one name, or primitives of the same type, strings and bits of the reals. The joined text
/// is tidy. Of the names whose modifier and alias target stand already, the least by bytes comes next; sides of mixtures are not waited
/// for.
///
/// ```
/// use kribbelsteen::{join, Edits, Mode, RECORD};
///
/// let base = b"void light lamp 0 0 3 1 1 1\nlamp sphere bulb 0 0 4 0 0 0 1\n";
/// let left = b"void light lamp 0 0 3 2 2 2\nlamp sphere bulb 0 0 4 0 0 0 1\n"; // brighter
/// let right = b"void light lamp 0 0 3 1. 1. 1.\n"; // the bulb taken out
/// let (mut records, mut reals, mut out) = ([0; RECORD * 2], [0.0; 7], [0; 64]);
/// let joined = join(Mode::New, Edits { base, left, right }, &mut records, &mut reals, &mut out)?;
/// assert_eq!(joined.text, b"void light lamp\n0\n0\n3 2 2 2\n");
/// assert_eq!(joined.scene.name(1)?, b"lamp");
/// # Ok::<(), Box<dyn std::error::Error>>(())
/// ```
///
/// What both hands changed differently is left to them:
///
/// ```
/// use kribbelsteen::{join, Edits, Mode, Unjoined, RECORD};
///
/// let base = b"void light lamp 0 0 3 1 1 1\n";
/// let left = b"void light lamp 0 0 3 2 2 2\n";
/// let right = b"void light lamp 0 0 3 3 3 3\n";
/// let (mut records, mut reals, mut out) = ([0; RECORD], [0.0; 3], [0; 64]);
/// let refused = join(Mode::New, Edits { base, left, right }, &mut records, &mut reals, &mut out);
/// assert_eq!(refused.unwrap_err(), Unjoined::BothChanged);
/// ```
pub fn join<'l>(
    mode: Mode,
    edits: Edits,
    records: &'l mut [u32],
    reals: &'l mut [f64],
    out: &'l mut [u8],
) -> Result<Joined<'l>, Unjoined> {
    let answer = raw::join(mode.number(), [edits.base, edits.left, edits.right], records, reals, out);
    joined(mode, answer, records, reals, out)
}

/// Checks a text that was typed as a join of two hands' edits: it is accepted exactly if the reader accepts it and it holds the
/// definitions that [`join`] takes and no more, each name once, in whatever order and spelling. An accepted text goes into the lent
/// output as it is, and the tables are left as reading it leaves them. An output as long as the text is enough. Every text that [`join`]
/// gives is accepted.
///
/// ```
/// use kribbelsteen::{check_join, Edits, Mode, Unjoined, RECORD};
///
/// let base = b"";
/// let left = b"void light lamp 0 0 3 1 1 1\n";
/// let right = b"void glow sign 0 0 4 1 1 1 0\n";
/// let typed = b"# the sign first\nvoid glow sign 0 0 4 1 1 1 0\nvoid light lamp 0 0 3 1 1.0 1\n";
/// let (mut records, mut reals, mut out) = ([0; RECORD * 2], [0.0; 7], [0; 128]);
/// let edits = Edits { base, left, right };
/// let checked = check_join(Mode::New, edits, typed, &mut records, &mut reals, &mut out)?;
/// assert_eq!((checked.text, checked.scene.counts().primitives), (&typed[..], 2));
/// let refused = check_join(Mode::New, edits, left, &mut records, &mut reals, &mut out);
/// assert_eq!(refused.unwrap_err(), Unjoined::OtherDefinitions);
/// # Ok::<(), Box<dyn std::error::Error>>(())
/// ```
pub fn check_join<'l>(
    mode: Mode,
    edits: Edits,
    typed: &[u8],
    records: &'l mut [u32],
    reals: &'l mut [f64],
    out: &'l mut [u8],
) -> Result<Joined<'l>, Unjoined> {
    let answer = raw::check_join(mode.number(), [edits.base, edits.left, edits.right], typed, records, reals, out);
    joined(mode, answer, records, reals, out)
}

fn joined<'l>(
    mode: Mode,
    (number, [text, place, len, primitives, used]): (u32, [usize; 5]),
    records: &'l [u32],
    reals: &'l [f64],
    out: &'l [u8],
) -> Result<Joined<'l>, Unjoined> {
    match number {
        0 => {
            let text = &out[..len];
            let counts = Counts { primitives, reals: used };
            Ok(Joined { text, scene: Scene::of(mode, text, records, reals, counts) })
        }
        23 => Err(Unjoined::OutputTooSmall),
        29 => Err(Unjoined::NameTwice),
        30 => Err(Unjoined::BothChanged),
        31 => Err(Unjoined::NoOrder),
        32 => Err(Unjoined::OtherDefinitions),
        _ => Err(Unjoined::Refused { text: JoinText::from_number(text), refusal: Refusal::from_number(number, place) }),
    }
}
