//! A scene sorted, as one would write it in Rust: a statement waits for those that have to stay before it, and those that wait for none
//! are kept in a set, by type and then by where they stand.

use super::scene::{is_surface, type_number, Refused};
use super::tidy::{self, Words};
use std::collections::{BTreeSet, HashMap};

const LAST_LINE_NOT_ENDED: u32 = 33;
const TWO_ON_A_LINE: u32 = 34;

/// Where a statement stands, and what its order depends on.
pub struct Statement<'t> {
    /// The place of its first word.
    start: usize,
    /// The place behind its last one.
    end: usize,
    pub kind: u32,
    pub name: &'t [u8],
    /// Its modifier, unless that is `void`, and its alias target.
    references: Vec<&'t [u8]>,
}

impl Statement<'_> {
    /// Whether it gives a name that the other refers to.
    pub fn gives_to(&self, other: &Statement) -> bool {
        !is_surface(self.kind) && other.references.contains(&self.name)
    }

    fn is_held_with(&self, other: &Statement) -> bool {
        self.name == other.name || self.gives_to(other) || other.gives_to(self)
    }
}

/// The statements of an accepted text.
pub fn statements(text: &[u8]) -> Vec<Statement<'_>> {
    let mut words = Words::new(text);
    let (mut statements, mut kinds) = (Vec::new(), HashMap::new());
    loop {
        let modifier = words.opening();
        if modifier.is_empty() {
            return statements;
        }
        let start = words.at - modifier.len();
        let (word, name) = (words.next(), words.next());
        let mut references = vec![modifier];
        references.retain(|&name| name != b"void");
        let kind = if word == b"alias" {
            let target = words.next();
            references.push(target);
            kinds[target]
        } else {
            (0..3).for_each(|_| drop(words.counted()));
            type_number(word).expect("an accepted type")
        };
        if !is_surface(kind) {
            kinds.insert(name, kind);
        }
        statements.push(Statement { start, end: words.at, kind, name, references });
    }
}

fn line_end(part: &[u8]) -> Option<usize> {
    part.iter().position(|&byte| byte == b'\n')
}

/// The text in parts, one up to the end of the line on which each statement ends, and the rest.
fn cut<'t>(text: &'t [u8], statements: &[Statement]) -> Result<Vec<&'t [u8]>, Refused> {
    if !text.is_empty() && !text.ends_with(b"\n") {
        return Err(Refused { reason: LAST_LINE_NOT_ENDED, place: text.len() });
    }
    let crowded = statements.windows(2).find(|pair| line_end(&text[pair[0].end..pair[1].start]).is_none());
    if let Some(pair) = crowded {
        return Err(Refused { reason: TWO_ON_A_LINE, place: pair[1].start });
    }
    let end = |statement: &Statement| {
        let behind = line_end(&text[statement.end..]).expect("the last line is ended");
        statement.end + behind + 1
    };
    let (mut parts, mut from) = (Vec::new(), 0);
    for end in statements.iter().map(end).chain([text.len()]) {
        parts.push(&text[from..end]);
        from = end;
    }
    Ok(parts)
}

/// The statements, from 0, as they come.
fn order(statements: &[Statement]) -> Vec<usize> {
    let mut waiting = vec![Vec::new(); statements.len()];
    let mut awaited = vec![0; statements.len()];
    for (at, statement) in statements.iter().enumerate() {
        for (before, _) in statements[..at].iter().enumerate().filter(|(_, before)| before.is_held_with(statement)) {
            waiting[before].push(at);
            awaited[at] += 1;
        }
    }
    let entry = |at: usize| (statements[at].kind, at);
    let mut ready: BTreeSet<_> = (0..statements.len()).filter(|&at| awaited[at] == 0).map(entry).collect();
    let (mut order, mut last) = (Vec::new(), 0);
    while let Some(&next) = ready.range((last, 0)..(last + 1, 0)).next().or(ready.first()) {
        ready.remove(&next);
        let (kind, at) = next;
        for &later in &waiting[at] {
            awaited[later] -= 1;
            if awaited[later] == 0 {
                ready.insert(entry(later));
            }
        }
        order.push(at);
        last = kind;
    }
    order
}

/// The blocks of an accepted text and what stands behind them, or why it cannot be cut.
pub fn blocks(text: &[u8]) -> Result<Vec<&[u8]>, Refused> {
    cut(text, &statements(text))
}

/// The sorted text of an accepted text, or why it cannot be cut.
pub fn sorted(text: &[u8]) -> Result<Vec<u8>, Refused> {
    let statements = statements(text);
    let parts = cut(text, &statements)?;
    let numbers = order(&statements).into_iter().chain([statements.len()]);
    Ok(numbers.flat_map(|at| parts[at]).copied().collect())
}

/// The sorted text for an output of so many bytes, or why there is none.
pub fn write(archive: bool, text: &[u8], records: &[u32], reals: &[f64], room: usize) -> Result<Vec<u8>, Refused> {
    tidy::compare_tables(archive, text, records, reals)?;
    tidy::within(room, sorted(text)?)
}
