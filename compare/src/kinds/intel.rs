//! Intel's rules: the library's table against errata.rs as published.

use crate::case::{Call, Case, Source};
use crate::expected::good_rules;
use crate::inputs::rule_tables::flags_of;
use crate::library::Library;
use crate::rust::published;
use crate::tally::Tally;
use std::rc::Rc;

const KIND: &str = "intel rules";
const WORDS: usize = 120;

/// The table, in room that is just enough.
pub fn table(library: &mut Library) -> Rc<[u32]> {
    let room = Case { room: WORDS, written: vec![0; 4 * WORDS], ..asked() };
    let replies = library.ask(&room).expect("the program that calls the library runs");
    replies[0].written.chunks_exact(4).map(|word| u32::from_le_bytes(word.try_into().unwrap())).collect()
}

fn asked() -> Case {
    Case::new(Call::IntelRules, Source::Rust, &Rc::from([])).tell(&[WORDS as u64])
}

pub fn fixed(tally: &mut Tally) {
    let rules = table(&mut tally.library);
    tally.note(KIND, good_rules(&rules), || format!("table {rules:x?}"));
    rooms(tally, &rules);
    for combination in 0..1 << 22 {
        // The table asks for no revision; 1 keeps the word from reading as an end.
        let word = combination << 8 | 1;
        let (table, published) = (flags_of(&rules, word), published::flags_of_word(word));
        tally.note(KIND, table == published, || format!("word {word:08x}: {table} by the table, {published} published"));
    }
}

/// It tells its length in every room, and is written where it fits.
fn rooms(tally: &mut Tally, rules: &[u32]) {
    let table: Vec<u8> = rules.iter().flat_map(|word| word.to_le_bytes()).collect();
    for room in (0..4).chain(WORDS - 3..WORDS + 4) {
        let written = if room >= WORDS { table.clone() } else { Vec::new() };
        tally.check(KIND, Case { room, written, ..asked() });
    }
}
