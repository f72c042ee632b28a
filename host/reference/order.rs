//! Whether the order of two primitives mattered, as one would write it in Rust: what gives a name and what refers to it is kept by name,
//! and from the upper primitive one goes down along names, breadth first, until the lower one is reached. The tables may hold anything.
//! Beside it, for accepted texts, what holds what by their words alone.

use super::scene::{self, is_surface, BAD_TABLE, MODIFIER, NO_SUCH_PRIMITIVE, RECORD, TARGET, TYPE};
use super::sort::{self, Statement};
use std::collections::{BTreeMap, BTreeSet, HashMap};

/// What holds the order of two primitives.
#[derive(Clone, Copy, Debug, PartialEq, Eq)]
pub struct Held {
    /// What a shortest chain from the upper primitive goes to first, of several the lowest number.
    pub by: usize,
    /// Whose name binds both.
    pub giver: usize,
    /// How many bonds a shortest chain has.
    pub bonds: usize,
}

/// The primitives that have to do with a name, by their numbers.
#[derive(Default)]
struct Uses {
    given_by: BTreeSet<usize>,
    referred_to_by: BTreeSet<usize>,
}

/// The names of a table, and what each primitive has to do with them.
struct Names<'t> {
    uses: HashMap<&'t [u8], Uses>,
    /// What each number gives; 0 is none.
    gives: Vec<Option<&'t [u8]>>,
    refers_to: Vec<Vec<&'t [u8]>>,
}

fn gives_its_name(kind: u32) -> bool {
    (10..=25).contains(&kind)
}

impl<'t> Names<'t> {
    fn new(text: &'t [u8], records: &[u32], count: usize) -> Result<Self, u32> {
        let name = |number| scene::name(text, records, count, number).map(|(place, len)| &text[place..place + len]);
        let mut names = Names { uses: HashMap::new(), gives: vec![None], refers_to: vec![Vec::new()] };
        for (record, number) in records.chunks_exact(RECORD).take(count).zip(1..) {
            let own = name(number)?;
            let gives = gives_its_name(record[TYPE]).then_some(own);
            if let Some(name) = gives {
                names.uses.entry(name).or_default().given_by.insert(number);
            }
            let mut refers_to = Vec::new();
            for link in [record[MODIFIER], record[TARGET]].map(|link| link as usize) {
                if link >= number {
                    return Err(BAD_TABLE);
                }
                if link > 0 {
                    let name = name(link)?;
                    names.uses.entry(name).or_default().referred_to_by.insert(number);
                    refers_to.push(name);
                }
            }
            names.gives.push(gives);
            names.refers_to.push(refers_to);
        }
        Ok(names)
    }

    /// What a number is bound to by its own name, itself included.
    fn by_own_name(&self, number: usize) -> impl Iterator<Item = usize> + '_ {
        let uses = self.gives[number].map(|name| &self.uses[name]);
        uses.into_iter().flat_map(|uses| uses.given_by.iter().chain(&uses.referred_to_by)).copied()
    }

    /// What a number is bound to and stands below it.
    fn below(&self, number: usize) -> BTreeSet<usize> {
        let givers = self.refers_to[number].iter().flat_map(|name| &self.uses[name].given_by).copied();
        self.by_own_name(number).chain(givers).filter(|&other| other > number).collect()
    }

    fn held(&self, upper: usize, lower: usize) -> Option<Held> {
        // What so many bonds lead to and fewer do not, each with the lowest first step of the ways there
        let mut level: BTreeMap<usize, usize> = self.below(upper).into_iter().map(|number| (number, number)).collect();
        let mut reached: BTreeSet<usize> = level.keys().copied().collect();
        let mut bonds = 1;
        while !level.is_empty() {
            if let Some(&by) = level.get(&lower) {
                let own = self.by_own_name(upper).any(|other| other == by);
                return Some(Held { by, giver: if own { upper } else { by }, bonds });
            }
            let mut next = BTreeMap::new();
            for (&number, &by) in &level {
                for other in self.below(number).difference(&reached) {
                    let least = next.entry(*other).or_insert(by);
                    *least = by.min(*least);
                }
            }
            reached.extend(next.keys());
            level = next;
            bonds += 1;
        }
        None
    }
}

/// What holds the order of two primitives, given in either order, none if nothing does; or a refusal's number.
pub fn mattered(text: &[u8], records: &[u32], count: usize, first: usize, second: usize) -> Result<Option<Held>, u32> {
    scene::stated(records, count, first)?;
    scene::stated(records, count, second)?;
    if first == second {
        return Err(NO_SUCH_PRIMITIVE);
    }
    Ok(Names::new(text, records, count)?.held(first.min(second), first.max(second)))
}

fn are_bound(one: &Statement, other: &Statement) -> bool {
    let both_give = !is_surface(one.kind) && !is_surface(other.kind);
    both_give && one.name == other.name || one.gives_to(other) || other.gives_to(one)
}

/// For each statement of an accepted text, from 0, whether it holds each of them: the closure of the bonds that go down.
pub fn closure(text: &[u8]) -> Vec<Vec<bool>> {
    let statements = sort::statements(text);
    let size = statements.len();
    let bond = |from: usize, to: usize| from < to && are_bound(&statements[from], &statements[to]);
    let mut holds: Vec<Vec<bool>> = (0..size).map(|from| (0..size).map(|to| bond(from, to)).collect()).collect();
    for between in 0..size {
        let beyond = holds[between].clone();
        for row in holds.iter_mut().filter(|row| row[between]) {
            row.iter_mut().zip(&beyond).for_each(|(holds, &beyond)| *holds |= beyond);
        }
    }
    holds
}
