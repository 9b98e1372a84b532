//! Texts to ask readers about, made from a seed.

pub mod damaged;
pub mod examples;
pub mod grammar;
pub mod limits;
pub mod rng;
pub mod short;

use batch::{Entry, Record};
use rng::Rng;

/// All families, in the order in which `compare` runs them.
pub const FAMILIES: [&str; 5] = ["examples", "limits", "short", "grammar", "damaged"];

/// The records of one family.
///
/// `examples` and `limits` are fixed lists and ignore the seed and the count.
pub fn make(family: &str, seed: u64, count: usize) -> Result<Vec<Record>, String> {
    let mut rng = Rng::new(seed);
    match family {
        "examples" => Ok(examples::records()),
        "limits" => Ok(limits::records()),
        "short" => Ok(short::records(&mut rng, count)),
        "grammar" => Ok(random(&mut rng, count, |rng| grammar::header(rng).into_bytes())),
        "damaged" => Ok(random(&mut rng, count, damaged::header)),
        _ => Err(format!("no family is called `{family}`; there are {}", FAMILIES.join(", "))),
    }
}

fn random(rng: &mut Rng, count: usize, mut text: impl FnMut(&mut Rng) -> Vec<u8>) -> Vec<Record> {
    (0..count)
        .map(|_| Record {
            model: rng.below(3) as u64,
            // Most made headers hold several declarations, which `declaration`
            // refuses early: it is asked less often.
            entry: if rng.one_in(5) { Entry::Decl } else { Entry::Unit },
            text: text(rng),
        })
        .collect()
}

/// One text under all three models and both entries.
fn everywhere(text: &[u8]) -> Vec<Record> {
    let mut records = Vec::new();
    for model in 0..3 {
        for entry in Entry::ALL {
            records.push(Record { model, entry, text: text.to_vec() });
        }
    }
    records
}

#[cfg(test)]
mod tests {
    use super::*;

    #[test]
    fn the_same_seed_makes_the_same_cases() {
        for family in FAMILIES {
            let first = make(family, 7, 50).unwrap();
            assert!(!first.is_empty());
            assert!(first == make(family, 7, 50).unwrap(), "{family}");
        }
        assert!(make("grammar", 7, 50) != make("grammar", 8, 50));
        assert!(make("other", 0, 1).is_err());
    }

    #[test]
    fn enough_room_gives_all_short_strings_once() {
        let all = make("short", 1, 40_000).unwrap();
        let some: std::collections::HashSet<_> = all.iter().collect();
        assert_eq!(all.len(), some.len());
    }
}
