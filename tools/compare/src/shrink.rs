//! Making the example of a mismatch small: pieces are cut away while the
//! mismatch stays in its class. All cuts of a round are asked in one run of
//! the reader.

use batch::{Entry, Record};

/// Rounds are runs of the reader's command, which may be slow to start.
const ROUNDS: usize = 120;
/// Cuts asked about in one round.
const WIDTH: usize = 300;

/// `keeps` tells which of some records are still in the class.
pub fn shrink(
    start: &Record,
    mut keeps: impl FnMut(&[Record]) -> Result<Vec<bool>, String>,
) -> Result<Record, String> {
    let mut best = plainer(start, &mut keeps)?;
    let mut piece = best.text.len().div_ceil(2);
    for _ in 0..ROUNDS {
        if piece == 0 {
            break;
        }
        let cuts = cuts(&best, piece);
        let kept = keeps(&cuts)?;
        match cuts.into_iter().zip(kept).find(|(_, kept)| *kept) {
            Some((smaller, _)) => best = smaller,
            None => piece = if piece == 1 { 0 } else { piece.div_ceil(2) },
        }
        piece = piece.min(best.text.len());
    }
    Ok(best)
}

/// The same text under lp64 and as a unit, if that is still in the class.
fn plainer(
    start: &Record,
    keeps: &mut impl FnMut(&[Record]) -> Result<Vec<bool>, String>,
) -> Result<Record, String> {
    let with = |model, entry| Record { model, entry, text: start.text.clone() };
    let options = [with(0, Entry::Unit), with(start.model, Entry::Unit), with(0, start.entry)];
    let kept = keeps(&options)?;
    let plainest = options.into_iter().zip(kept).find(|(_, kept)| *kept);
    Ok(plainest.map_or_else(|| start.clone(), |(record, _)| record))
}

/// The text without one piece, for pieces all along it.
fn cuts(record: &Record, piece: usize) -> Vec<Record> {
    let length = record.text.len();
    let step = piece.div_ceil(2).max(length.div_ceil(WIDTH));
    (0..length)
        .step_by(step)
        .map(|at| {
            let mut text = record.text.clone();
            text.drain(at..(at + piece).min(length));
            Record { text, ..record.clone() }
        })
        .collect()
}

#[cfg(test)]
mod tests {
    use super::*;

    #[test]
    fn what_matters_is_left() {
        let start = Record { model: 2, entry: Entry::Decl, text: b"abcdefXghijkYlmnop".to_vec() };
        let found = shrink(&start, |records| {
            Ok(records.iter().map(|r| r.text.contains(&b'X') && r.text.contains(&b'Y')).collect())
        });
        assert_eq!(found.unwrap(), Record { model: 0, entry: Entry::Unit, text: b"XY".to_vec() });
    }
}
