//! Two saves of a scene, read and compared by name.

use crate::raw::Ordered;
use crate::{raw, Counts, Mode, Refusal, Scene};
use std::error::Error;
use std::fmt;

/// Which of two saves.
#[derive(Clone, Copy, Debug, PartialEq, Eq, Hash)]
#[repr(usize)]
pub enum Side {
    /// The left one.
    Left = 0,
    /// The right one.
    Right = 1,
}

impl Side {
    fn from_number(number: usize) -> Side {
        match number {
            0 => Side::Left,
            1 => Side::Right,
            _ => unreachable!("the library numbers the saves by 0 and 1"),
        }
    }
}

impl fmt::Display for Side {
    fn fmt(&self, f: &mut fmt::Formatter<'_>) -> fmt::Result {
        f.write_str(match self {
            Side::Left => "left",
            Side::Right => "right",
        })
    }
}

/// The save that is refused, and why. All four tables are all zero then.
#[derive(Clone, Copy, Debug, PartialEq, Eq, Hash)]
pub struct SaveRefusal {
    /// Which save: the left one if both could be refused.
    pub side: Side,
    /// Why, and where in that save.
    pub refusal: Refusal,
}

impl fmt::Display for SaveRefusal {
    fn fmt(&self, f: &mut fmt::Formatter<'_>) -> fmt::Result {
        write!(f, "{} scene: {}", self.side, self.refusal)
    }
}

impl Error for SaveRefusal {
    fn source(&self) -> Option<&(dyn Error + 'static)> {
        Some(&self.refusal)
    }
}

/// Reads two scenes in one mode, the left one first, each as [`read`](crate::read) does with pairs enough. If one is refused the tables of both become 0.
pub fn read_both(
    mode: Mode,
    left: &[u8],
    left_records: &mut [u32],
    left_reals: &mut [f64],
    right: &[u8],
    right_records: &mut [u32],
    right_reals: &mut [f64],
) -> Result<[Counts; 2], SaveRefusal> {
    let (number, [side, place, m, j, n, k]) =
        raw::read_both(mode.number(), left, left_records, left_reals, right, right_records, right_reals);
    match number {
        0 => Ok([Counts { primitives: m, reals: j }, Counts { primitives: n, reals: k }]),
        _ => Err(SaveRefusal { side: Side::from_number(side), refusal: Refusal::from_number(number, place) }),
    }
}

/// Two accepted saves.
#[derive(Clone, Copy, Debug)]
pub struct Saves<'s> {
    /// The left one.
    pub left: Scene<'s>,
    /// The right one.
    pub right: Scene<'s>,
}

impl<'s> Saves<'s> {
    /// Reads two scenes, as [`read_both`] does, and keeps their parts together.
    pub fn read(
        mode: Mode,
        left: &'s [u8],
        left_records: &'s mut [u32],
        left_reals: &'s mut [f64],
        right: &'s [u8],
        right_records: &'s mut [u32],
        right_reals: &'s mut [f64],
    ) -> Result<Saves<'s>, SaveRefusal> {
        let [m, n] = read_both(mode, left, left_records, left_reals, right, right_records, right_reals)?;
        Ok(Saves {
            left: Scene::of(mode, left, left_records, left_reals, m),
            right: Scene::of(mode, right, right_records, right_reals, n),
        })
    }

    /// What is not the same in both, as [`compare`] gives it.
    pub fn lines(&self) -> Lines<'s> {
        compare(self.left, self.right)
    }
}

/// How a key of two saves stands.
#[derive(Clone, Copy, Debug, PartialEq, Eq, Hash)]
#[repr(usize)]
pub enum State {
    /// Only the left save has it.
    OnlyLeft = 1,
    /// Only the right save has it.
    OnlyRight = 2,
    /// Both have it, and it is not the same.
    Changed = 3,
}

impl State {
    fn from_number(number: usize) -> State {
        match number {
            1 => State::OnlyLeft,
            2 => State::OnlyRight,
            3 => State::Changed,
            _ => unreachable!("the library numbers the states by 1 to 3"),
        }
    }
}

impl fmt::Display for State {
    fn fmt(&self, f: &mut fmt::Formatter<'_>) -> fmt::Result {
        f.write_str(match self {
            State::OnlyLeft => "left",
            State::OnlyRight => "right",
            State::Changed => "changed",
        })
    }
}

/// A key that is not the same in both saves: a name, and which definition of that name.
#[derive(Clone, Copy, Debug, PartialEq, Eq, Hash)]
pub struct Line<'s> {
    /// The name.
    pub name: &'s [u8],
    /// Which definition of the name, from 1.
    pub nth: usize,
    /// How it stands.
    pub state: State,
    /// The save that the number is of: the left one if that has the key.
    pub side: Side,
    /// The number of its primitive there.
    pub number: usize,
}

/// Compares two saves by name: a line for each key that is not the same in both, in the order of names by bytes, then of
/// definitions. A key is the same if type, strings, bits of the reals, and the keys of alias target and modifier are.
///
/// The names of both are put in order first, in tables of its own: two numbers for each primitive. Where no more memory is to be
/// taken, [`raw::next_line`] finds the same lines one by one, in a time that grows with the square of the number of primitives.
///
/// ```
/// use kribbelsteen::{Mode, Saves, State, RECORD};
///
/// let (mut records, mut reals) = ([[0; RECORD]; 2], [[0.0; 3]; 2]);
/// let ([a, b], [x, y]) = (&mut records, &mut reals);
/// let (left, right) = (b"void light lamp 0 0 3 1 1 1", b"void light lamp 0 0 3 2 2 2");
/// let saves = Saves::read(Mode::New, left, a, x, right, b, y)?;
/// let lines: Vec<_> = saves.lines().map(|line| (line.name, line.nth, line.state)).collect();
/// assert_eq!(lines, [(&b"lamp"[..], 1, State::Changed)]);
/// # Ok::<(), Box<dyn std::error::Error>>(())
/// ```
pub fn compare<'s>(left: Scene<'s>, right: Scene<'s>) -> Lines<'s> {
    Lines { saves: Saves { left, right }, orders: [left, right].map(order), line: [0; 6], ended: false }
}

/// The order of a scene's names: two entries for each primitive.
fn order(scene: Scene) -> Vec<u32> {
    let primitives = scene.counts().primitives;
    let (mut order, mut scratch) = (vec![0; 2 * primitives], vec![0; primitives]);
    raw::order_names(scene.text, scene.records, &mut order, &mut scratch);
    order
}

fn ordered<'s>(scene: Scene<'s>, order: &'s [u32]) -> Ordered<'s> {
    Ordered { text: scene.text, records: scene.records, reals: scene.reals, order }
}

/// An iterator over what is not the same in two saves.
#[derive(Clone, Debug)]
pub struct Lines<'s> {
    saves: Saves<'s>,
    orders: [Vec<u32>; 2],
    line: [usize; 6],
    /// The line of the end is all 0, and would start again.
    ended: bool,
}

impl<'s> Iterator for Lines<'s> {
    type Item = Line<'s>;

    fn next(&mut self) -> Option<Line<'s>> {
        if self.ended {
            return None;
        }
        let Saves { left, right } = self.saves;
        let [a, b] = &self.orders;
        let found = raw::next_ordered(ordered(left, a), ordered(right, b), &mut self.line);
        self.ended = found == 0;
        if self.ended {
            return None;
        }
        let [_, _, side, number, nth, state] = self.line;
        let (side, state) = (Side::from_number(side), State::from_number(state));
        let scene = match side {
            Side::Left => left,
            Side::Right => right,
        };
        let name = scene.name(number).expect("a line is of a primitive of an accepted scene");
        Some(Line { name, nth, state, side, number })
    }
}

impl std::iter::FusedIterator for Lines<'_> {}
