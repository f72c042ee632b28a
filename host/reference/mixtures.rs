//! What mixtures lead to, as one would write it in Rust: loops by taking away whatever leads to none, and lists of materials by recursion.
//! The tables may hold anything.

use super::scene::{self, is_material, is_surface, BAD_TABLE, MODIFIER, PAIR, RECORD, TYPE};
use std::collections::BTreeSet;

pub const MIXFUNC: u32 = 25;
const LIST_TOO_SHORT: u32 = 23;

/// Records and pairs of the same primitives, numbered from 1.
#[derive(Clone, Copy)]
pub struct Tables<'s> {
    records: &'s [u32],
    pairs: &'s [u32],
}

impl<'s> Tables<'s> {
    /// The first so many primitives of both tables.
    pub fn new(records: &'s [u32], pairs: &'s [u32], count: usize) -> Self {
        Tables { records: &records[..RECORD * count], pairs: &pairs[..PAIR * count] }
    }

    fn numbers(self) -> std::ops::RangeInclusive<usize> {
        1..=self.records.len() / RECORD
    }

    fn kind(self, number: usize) -> u32 {
        self.records[RECORD * (number - 1) + TYPE]
    }

    fn modifier(self, number: usize) -> usize {
        self.records[RECORD * (number - 1) + MODIFIER] as usize
    }

    fn sides(self, number: usize) -> [usize; 2] {
        [0, 1].map(|side| self.pairs[PAIR * (number - 1) + side] as usize)
    }

    /// Where modifier and sides lead, all in the tables.
    fn links(self, number: usize) -> impl Iterator<Item = usize> {
        let [foreground, background] = self.sides(number);
        [self.modifier(number), foreground, background].into_iter().filter(|&link| link != 0)
    }

    /// The lowest primitive that leads back to itself: one that leads to a loop, and to which a loop leads.
    pub fn lowest_on_loop(self) -> Option<usize> {
        let size = self.records.len() / RECORD + 1;
        let (mut ahead, mut behind) = (vec![Vec::new(); size], vec![Vec::new(); size]);
        for number in self.numbers() {
            for link in self.links(number) {
                ahead[number].push(link);
                behind[link].push(number);
            }
        }
        let endless = left_over(&ahead, &behind);
        if endless.is_empty() {
            return None;
        }
        let startless = left_over(&behind, &ahead);
        endless.intersection(&startless).copied().find(|&number| self.reaches(number, number))
    }

    fn reaches(self, from: usize, to: usize) -> bool {
        let mut reached = BTreeSet::new();
        let mut ahead = vec![from];
        while let Some(number) = ahead.pop() {
            ahead.extend(self.links(number).filter(|&link| reached.insert(link)));
        }
        reached.contains(&to)
    }

    /// Whether a reading may give this primitive, loops aside.
    fn fits(self, number: usize) -> bool {
        let is_known = |link: usize| link == 0 || self.numbers().contains(&link) && !is_surface(self.kind(link));
        let (kind, modifier, sides) = (self.kind(number), self.modifier(number), self.sides(number));
        (1..=MIXFUNC).contains(&kind)
            && modifier < number
            && is_known(modifier)
            && sides.iter().all(|&side| side == 0 || kind == MIXFUNC && is_known(side))
    }

    fn collect(self, number: usize, passed: &mut BTreeSet<usize>, materials: &mut BTreeSet<u32>) {
        for link in self.links(number) {
            if is_material(self.kind(link)) {
                materials.insert(link as u32);
            } else if passed.insert(link) {
                self.collect(link, passed, materials);
            }
        }
    }
}

/// What is left when all those are taken away, again and again, that lead to none that is left.
fn left_over(ahead: &[Vec<usize>], behind: &[Vec<usize>]) -> BTreeSet<usize> {
    let mut links: Vec<usize> = ahead.iter().map(Vec::len).collect();
    let mut ended: Vec<usize> = (0..links.len()).filter(|&number| links[number] == 0).collect();
    while let Some(number) = ended.pop() {
        for &from in &behind[number] {
            links[from] -= 1;
            if links[from] == 0 {
                ended.push(from);
            }
        }
    }
    (0..links.len()).filter(|&number| links[number] > 0).collect()
}

/// The materials that a primitive may show, smallest number first, for a list of so many entries; or a refusal's number.
pub fn shown(records: &[u32], pairs: &[u32], count: usize, number: usize, room: usize) -> Result<Vec<u32>, u32> {
    if count > pairs.len() / PAIR {
        return Err(BAD_TABLE);
    }
    scene::stated(records, count, number)?;
    let tables = Tables::new(records, pairs, count);
    if !tables.numbers().all(|number| tables.fits(number)) || tables.lowest_on_loop().is_some() {
        return Err(BAD_TABLE);
    }
    let mut materials = BTreeSet::new();
    tables.collect(number, &mut BTreeSet::new(), &mut materials);
    if materials.len() > room {
        return Err(LIST_TOO_SHORT);
    }
    Ok(materials.into_iter().collect())
}
