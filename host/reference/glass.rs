//! A scene written out with its glass moved: the lines of the tidy text are changed, and the outcome is read to say how it is refused.

use super::scene::{self, Refused};
use super::tidy::{self, Line};

/// The index that three reals stand for, as it is spelled out.
const INDEX: &[u8] = b"1.52";

fn move_reals(back: bool, line: &mut Line) {
    let count = line.len() - 1;
    if back && count == 4 && line[4] == INDEX {
        line.pop();
        line[0] = b"3".to_vec();
    } else if !back && count == 3 {
        line.push(INDEX.to_vec());
        line[0] = b"4".to_vec();
    }
}

/// The moved text of an accepted text.
pub fn moved(back: bool, text: &[u8]) -> Vec<u8> {
    let mut statements = tidy::statements(text);
    for statement in &mut statements {
        if let [heading, _, _, reals] = statement.as_mut_slice() {
            if heading[1] == b"glass" {
                move_reals(back, reals);
            }
        }
    }
    tidy::joined(&statements)
}

/// The moved text for an output of so many bytes, or why there is none.
pub fn write(
    archive: bool,
    back: bool,
    text: &[u8],
    records: &[u32],
    reals: &[f64],
    room: usize,
) -> Result<Vec<u8>, Refused> {
    tidy::compare_tables(archive, text, records, reals)?;
    let moved = moved(back, text);
    let (mut records, mut reals) = (vec![0; records.len()], vec![0.0; reals.len()]);
    scene::read_without_pairs(archive, &moved, &mut records, &mut reals)
        .map_err(|refused| Refused { place: 0, ..refused })?;
    tidy::within(room, moved)
}
