//! The index of names that a reading leaves, and how many of its entries are looked at, worked out from the records after the
//! reading.

use super::scene::{self, Counts, Refused, MOST_BYTES, RECORD};

/// How many entries are used.
pub const INDEX: usize = 2_048;

const INDEX_TOO_SMALL: Refused = Refused { reason: 24, place: 0 };

/// Reads a scene into three tables and an index; all four are all zero after a refusal. Gives how many entries were looked at too.
pub fn read_indexed(
    archive: bool,
    text: &[u8],
    records: &mut [u32],
    reals: &mut [f64],
    pairs: &mut [u32],
    index: &mut [u32],
) -> Result<(Counts, usize), Refused> {
    index.fill(0);
    if text.len() <= MOST_BYTES && index.len() < INDEX {
        records.fill(0);
        reals.fill(0.0);
        pairs.fill(0);
        return Err(INDEX_TOO_SMALL);
    }
    let counts = scene::read(archive, text, records, reals, pairs)?;
    let found = Index::of(text, &records[..RECORD * counts.primitives]);
    index[..INDEX].copy_from_slice(&found.entries);
    Ok((counts, found.looked))
}

/// Starts at 0, and with each byte becomes 31 times itself plus the byte, modulo 2,048.
pub fn hash(name: &[u8]) -> usize {
    name.iter().fold(0, |hash, &byte| (31 * hash + usize::from(byte)) % INDEX)
}

struct Index<'t> {
    /// The names of all primitives, surfaces too.
    names: Vec<&'t [u8]>,
    entries: [u32; INDEX],
    looked: usize,
}

impl<'t> Index<'t> {
    /// The index of an accepted scene.
    fn of(text: &'t [u8], records: &[u32]) -> Self {
        let records: Vec<_> = records.chunks_exact(RECORD).collect();
        let name = |record: &&[u32]| &text[record[3] as usize..][..record[4] as usize];
        let mut index = Index { names: records.iter().map(name).collect(), entries: [0; INDEX], looked: 0 };
        for (record, number) in records.iter().zip(1..) {
            let [kind, modifier, target] = [record[0], record[1], record[2]];
            index.look_up(modifier);
            index.look_up(target);
            if kind >= 10 {
                let at = index.search(index.name(number));
                index.entries[at] = number;
            }
        }
        index
    }

    fn name(&self, number: u32) -> &'t [u8] {
        self.names[number as usize - 1]
    }

    /// A look-up that led to a number; for 0 there was none. The word was the name of what it led to.
    fn look_up(&mut self, number: u32) {
        if number != 0 {
            let at = self.search(self.name(number));
            assert_eq!(self.entries[at], number, "the index leads where the reader's map does");
        }
    }

    /// The entry at which a search for a name ends.
    fn search(&mut self, name: &[u8]) -> usize {
        let way = (hash(name)..INDEX).chain(0..hash(name));
        for at in way {
            self.looked += 1;
            let held = self.entries[at];
            if held == 0 || self.name(held) == name {
                return at;
            }
        }
        unreachable!("half of the entries stay 0")
    }
}
