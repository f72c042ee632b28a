//! Questions to a table, which may hold anything: a primitive's name, its finish, the materials that it may show, and whether the order of
//! two primitives mattered.

use crate::raw;
use std::error::Error;
use std::fmt;

/// Why a question to a table is refused.
#[derive(Clone, Copy, Debug, PartialEq, Eq, Hash)]
pub enum Question {
    /// 17: a number is 0 or above the stated count, or both numbers are the same.
    NoSuchPrimitive,
    /// 18: the stated count is over 1,024 or more than a table holds, or the tables are not those that a reading gives.
    BadTable,
    /// 19: another link is needed, and the allowance is used up.
    UsedUp {
        /// The links that were followed: the allowance.
        links: usize,
    },
    /// 23: the lent list has fewer entries than there are materials.
    ListTooShort,
}

impl Question {
    /// The refusal's number.
    pub fn number(self) -> u32 {
        match self {
            Question::NoSuchPrimitive => 17,
            Question::BadTable => 18,
            Question::UsedUp { .. } => 19,
            Question::ListTooShort => 23,
        }
    }

    fn from_number(number: u32, links: usize) -> Option<Question> {
        match number {
            0 => None,
            17 => Some(Question::NoSuchPrimitive),
            18 => Some(Question::BadTable),
            19 => Some(Question::UsedUp { links }),
            23 => Some(Question::ListTooShort),
            _ => unreachable!("the library refuses questions by 17 to 19 and 23"),
        }
    }
}

impl fmt::Display for Question {
    fn fmt(&self, f: &mut fmt::Formatter<'_>) -> fmt::Result {
        match self {
            Question::NoSuchPrimitive => f.write_str("no primitive has this number, or it is given twice (reason 17)"),
            Question::BadTable => f.write_str("the table is not one that a reading gives (reason 18)"),
            Question::UsedUp { links } => write!(f, "the allowance of {links} links is used up (reason 19)"),
            Question::ListTooShort => f.write_str("the list is too short (reason 23)"),
        }
    }
}

impl Error for Question {}

/// Where a finish walk ends.
#[derive(Clone, Copy, Debug, PartialEq, Eq, Hash)]
pub struct Finish {
    /// The number of the first material reached; none if a modifier `void` came first.
    pub material: Option<usize>,
    /// How many modifier links were followed.
    pub links: usize,
}

/// The name of a primitive, as a part of the text, in a table of so many records.
pub fn name<'t>(text: &'t [u8], records: &[u32], count: usize, number: usize) -> Result<&'t [u8], Question> {
    let (reason, [place, len]) = raw::name(text, records, count, number);
    match Question::from_number(reason, 0) {
        None => Ok(&text[place..place + len]),
        Some(refusal) => Err(refusal),
    }
}

/// The first material that a primitive's modifiers lead to, in a table of so many records. Surfaces and mixfuncs on the way are
/// passed through; no more links are followed than allowed.
pub fn finish(records: &[u32], count: usize, number: usize, allowance: usize) -> Result<Finish, Question> {
    let (reason, [material, links]) = raw::finish(records, count, number, allowance);
    match Question::from_number(reason, links) {
        None => Ok(Finish { material: (material != 0).then_some(material), links }),
        Some(refusal) => Err(refusal),
    }
}

/// The materials that a primitive may show, in tables of so many records and pairs: those that modifiers and both sides of mixtures
/// lead to, stopping at each material reached. They are listed in the lent list, each once and the smallest number first, and that part
/// of it is given; the rest becomes 0, and all of it on a refusal. As many entries as there are records are enough.
pub fn shown<'l>(
    records: &[u32],
    pairs: &[u32],
    count: usize,
    number: usize,
    list: &'l mut [u32],
) -> Result<&'l [u32], Question> {
    let (reason, listed) = raw::shown(records, pairs, count, number, list);
    match Question::from_number(reason, 0) {
        None => Ok(&list[..listed]),
        Some(refusal) => Err(refusal),
    }
}

/// Whether the order of two primitives mattered.
#[derive(Clone, Copy, Debug, PartialEq, Eq, Hash)]
pub enum Order<'t> {
    /// Nothing holds it.
    Free,
    /// A chain of names holds it.
    Held {
        /// The number of the primitive that a shortest chain from the upper one goes to first; of several the lowest.
        by: usize,
        /// The number of the primitive, the upper one or that, whose name binds both.
        giver: usize,
        /// That name.
        name: &'t [u8],
    },
}

/// Whether the order of two primitives mattered, in a table of so many records. The numbers may be given in either order; the upper
/// primitive is the one of the lower number.
///
/// Two primitives are bound where one gives a name that the other gives or refers to: all but surfaces give their names, and what a
/// primitive refers to is its modifier and its alias target; sides of mixtures do not count. Their order is held where a chain of
/// primitives leads from the upper one down to the lower one, each bound to the next. So where it is free, the statements can be put in an
/// order that has these two the other way round and each two that are bound as they were. [`sort`](crate::sort) keeps whatever is held.
///
/// ```
/// use kribbelsteen::{Mode, Order, Scene, PAIR, RECORD};
///
/// let text = b"void plastic deskfront 0 0 5 .52 .36 .2 .03 .1\n\
///     deskfront sphere left_knob 0 0 4 0 0 0 .02\n\
///     void metal deskfront 0 0 5 .5 .5 .52 .8 .05\n\
///     deskfront sphere right_knob 0 0 4 1 0 0 .02\n\
///     void light lamp 0 0 3 40 40 38\n";
/// let (mut records, mut reals, mut pairs) = ([0; RECORD * 5], [0.0; 21], [0; PAIR * 5]);
/// let scene = Scene::read(Mode::New, text, &mut records, &mut reals, &mut pairs)?;
/// // Two finishes of one name, of which a knob has the last one above it
/// assert_eq!(scene.mattered(1, 3)?, Order::Held { by: 3, giver: 1, name: b"deskfront" });
/// // The left knob would have the second one below that
/// assert_eq!(scene.mattered(2, 3)?, Order::Held { by: 3, giver: 3, name: b"deskfront" });
/// // No name binds the knobs, but the second finish stays between them
/// assert_eq!(scene.mattered(4, 2)?, Order::Held { by: 3, giver: 3, name: b"deskfront" });
/// assert_eq!(scene.mattered(1, 5)?, Order::Free);
/// # Ok::<(), Box<dyn std::error::Error>>(())
/// ```
pub fn mattered<'t>(
    text: &'t [u8],
    records: &[u32],
    count: usize,
    first: usize,
    second: usize,
) -> Result<Order<'t>, Question> {
    let (outcome, [by, giver]) = raw::mattered(text, records, count, first, second);
    match outcome {
        0 => Ok(Order::Free),
        1 => name(text, records, count, giver).map(|name| Order::Held { by, giver, name }),
        _ => Err(Question::from_number(outcome, 0).expect("the library refuses this question by 17 or 18")),
    }
}
