//! One call, for callgrind.

use crate::readers::{Readers, Who};
use crate::texts::Text;

/// Callgrind is told to count inside this function only, so its name is kept.
#[no_mangle]
#[inline(never)]
pub fn bench_once(readers: &mut Readers, who: Who, text: &str) -> bool {
    readers.read(who, text)
}

/// A call that warms up, then the one that counts.
pub fn run(text: &Text, who: Who) -> Result<(), String> {
    let mut readers = Readers::ready();
    readers.read(who, &text.text);
    let accepted = bench_once(&mut readers, who, &text.text);
    println!("{}: {}", text.name, if accepted { "accepted" } else { "refused" });
    Ok(())
}
