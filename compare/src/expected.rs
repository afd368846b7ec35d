//! What each call must answer: the Rust's reading, with document 01's refusals, limits and rooms around it.

use crate::case::{Call, Case, Source, table_bytes};
use crate::inputs::cper_regions::CRASH_LOG;
use crate::inputs::cpers;
use crate::rust::standin;
use crate::span::{self, Span};
use crate::stops;
use crate::text;
use crate::told::{Container, Outcome, Tried, Walk};
use std::rc::Rc;

pub const DONE: u64 = 0;
pub const TOO_LONG: u64 = 1;
pub const BAD_RULES: u64 = 2;
pub const BAD_HEADER: u64 = 3;
pub const BAD_TYPE: u64 = 4;
pub const EMPTY_REGION: u64 = 5;
pub const SPANS_FULL: u64 = 6;
pub const TRIES_SPENT: u64 = 7;
pub const NOT_CPER: u64 = 8;
pub const SECTIONS_FULL: u64 = 9;
pub const OUTPUT_SHORT: u64 = 10;
pub const BAD_FIELD: u64 = 11;
pub const BAD_PIECE: u64 = 12;
pub const NOT_RECEIVING: u64 = 13;
pub const ENDED: u64 = 254;
pub const NONE: u64 = 255;

pub const MOST_BYTES: usize = 1_048_576;
pub const MOST_PIECE: usize = 64;
pub const LEAST_ROOM: usize = 600;

/// Whole rows, at most 64 of them, no flag number above 15.
pub fn good_rules(rules: &[u32]) -> bool {
    rules.len() % 3 == 0 && rules.len() <= 3 * 64 && rules.chunks_exact(3).all(|row| row[2] <= 15)
}

pub fn header(rules: &Rc<[u32]>, bytes: &Rc<[u8]>) -> Case {
    let case = Case { rules: rules.clone(), ..Case::new(Call::Headers, Source::Rust, bytes) };
    if !good_rules(rules) {
        return Case { source: Source::Paper, ..case.tell(&[BAD_RULES]) };
    }
    standin::set_rules(rules);
    decoded(case, standin::header(bytes))
}

/// A header case to which is told what the Rust tried.
pub fn decoded(case: Case, tried: Tried) -> Case {
    match tried {
        Tried::Ended => {
            let ending = stops::ending(&case.input);
            case.tell(&[ENDED, 0, 0, 0, 0, ending])
        }
        Tried::BadHeader => case.tell(&[BAD_HEADER]),
        Tried::BadType(header_type) => case.tell(&[BAD_TYPE, 0, 0, 0, header_type as u64]),
        Tried::Good(good) => {
            let told = [DONE, good.declared as u64, good.size as u64, good.flags as u64];
            Case { written: good.header.to_bytes(), ..case.tell(&told) }
        }
    }
}

/// The whole walk of a region within the comparison's domain.
pub fn walk(rules: &[u32], region: &[u8]) -> Option<Walk> {
    if region.len() > MOST_BYTES || !good_rules(rules) {
        return None;
    }
    standin::set_rules(rules);
    Some(standin::walk(region))
}

/// A listing under a limit, in a table of `room` numbers, cut from the whole walk; without one it is refused.
pub fn listing(rules: &Rc<[u32]>, region: &Rc<[u8]>, walk: &Option<Walk>, limit: u64, room: usize) -> Case {
    let case = Case { rules: rules.clone(), number: limit, room, ..Case::new(Call::Listings, Source::Paper, region) };
    let Some(walk) = walk else {
        return case.tell(&[if region.len() > MOST_BYTES { TOO_LONG } else { BAD_RULES }]);
    };
    listed(case, &cut(walk, limit, room / span::WORDS))
}

/// A listing to which is told what is left of the walk.
fn listed(case: Case, cut: &Cut) -> Case {
    let source = if cut.answer == SPANS_FULL || cut.answer == TRIES_SPENT { Source::CutFromListing } else { Source::Rust };
    let told = [cut.answer, cut.rows.len() as u64, cut.tries, cut.bad_type, cut.whole as u64, cut.stop];
    Case { source, written: span_bytes(&cut.rows), ..case.tell(&told) }
}

/// The whole walk of a CPER's regions that have that identifier, within the comparison's domain.
pub fn cper_walk(rules: &[u32], cper: &[u8], record_id: [u8; 16]) -> Option<Walk> {
    assert!(cpers::normal_length(cper) <= cpers::MOST_COPIED);
    if cper.len() > MOST_BYTES || !good_rules(rules) {
        return None;
    }
    standin::set_rules(rules);
    standin::walk_cper(cper, record_id)
}

/// A listing of a CPER's regions (document 02, C-15) under a limit, in a table of `room` numbers, cut from the whole walk;
/// without one it is refused. No region's stop is told.
pub fn cper_listing(
    rules: &Rc<[u32]>,
    cper: &Rc<[u8]>,
    record_id: [u8; 16],
    walk: &Option<Walk>,
    limit: u64,
    room: usize,
) -> Case {
    let case = Case {
        rules: rules.clone(),
        record_id: Some(record_id),
        number: limit,
        room,
        ..Case::new(Call::CperListings, Source::Paper, cper)
    };
    let refused = |answer| Case { source: source(answer), ..case.clone().tell(&[answer]) };
    match walk {
        _ if cper.len() > MOST_BYTES => refused(TOO_LONG),
        _ if !good_rules(rules) => refused(BAD_RULES),
        None => refused(NOT_CPER),
        Some(walk) => {
            let region_ends = walk.ends.iter().map(|[_, rows]| *rows).collect();
            listed(Case { region_ends, ..case }, &Cut { stop: stops::UNTOLD, ..cut(walk, limit, room / span::WORDS) })
        }
    }
}

/// Rows as the bytes of a span table.
pub fn span_bytes(rows: &[Span]) -> Vec<u8> {
    table_bytes(&rows.iter().map(Span::numbers).collect::<Vec<_>>())
}

pub struct Cut {
    pub answer: u64,
    pub rows: Vec<Span>,
    pub tries: u64,
    pub bad_type: u64,
    pub whole: bool,
    pub stop: u64,
}

/// The part of a walk that a limit of tries and a room of rows allow: the limit is tested before a try, the room after it.
pub fn cut(walk: &Walk, limit: u64, room: usize) -> Cut {
    let mut cut = Cut { answer: DONE, rows: Vec::new(), tries: 0, bad_type: 0, whole: false, stop: stops::UNTOLD };
    for step in &walk.steps {
        if cut.tries == limit {
            return Cut { answer: TRIES_SPENT, ..cut };
        }
        cut.tries += 1;
        if let Some(row) = step {
            if cut.rows.len() == room {
                return Cut { answer: SPANS_FULL, ..cut };
            }
            cut.rows.push(*row);
        }
    }
    cut.stop = *walk.stops.first().unwrap_or(&stops::UNTOLD);
    match walk.outcome {
        Outcome::BadHeader => Cut { answer: BAD_HEADER, ..cut },
        Outcome::BadType(header_type) => Cut { answer: BAD_TYPE, bad_type: header_type as u64, ..cut },
        Outcome::Empty => Cut { answer: EMPTY_REGION, ..cut },
        Outcome::Records => Cut { whole: is_whole(walk), ..cut },
    }
}

/// Of a walk that found records (document 02, C-14): each row holds what it declares, each region stopped at its end or at a
/// word that is an ending, and no Box was left unopened for its header.
fn is_whole(walk: &Walk) -> bool {
    let full = walk.steps.iter().flatten().all(|row| row.held == row.declared);
    let clean = |stop: &u64| matches!(*stop, stops::END_OF_INPUT | stops::ZERO_WORD | stops::DEADBEEF_WORD);
    full && walk.stops.iter().all(clean) && walk.unopened == 0
}

/// What a reception's answer has added for a refusal that ended its pieces.
pub fn ended_by(refusal: u64) -> u64 {
    256 * refusal
}

/// A region received in pieces of these lengths, again and again, with a table of `room` numbers (document 02, C-11): its rows,
/// as the Rust finds them in the bytes that are taken, each told once it and its header, and all before it, are in.
pub fn reception(rules: &Rc<[u32]>, region: &Rc<[u8]>, lengths: [u8; 8], room: usize) -> Case {
    let number = u64::from_le_bytes(lengths);
    let case = Case { rules: rules.clone(), number, room, ..Case::new(Call::Receptions, Source::Paper, region) };
    if !good_rules(rules) {
        return case.tell(&[NOT_RECEIVING + ended_by(BAD_RULES)]);
    }
    if room / span::WORDS < LEAST_ROOM {
        return case.tell(&[BAD_PIECE + if region.is_empty() { 0 } else { ended_by(BAD_PIECE) }]);
    }
    let (taken, too_long) = taken_after(region.len(), lengths);
    let end = *taken.last().unwrap();
    standin::set_rules(rules);
    let cut = cut(&standin::level_0(&region[..end]), u64::MAX, usize::MAX);
    let full = cut.rows.iter().filter(|row| row.held == row.declared).count();
    let mut written = received(&cut.rows[..full], &taken);
    if too_long {
        return Case { written: table_bytes(&written), ..case.tell(&[NOT_RECEIVING + ended_by(TOO_LONG)]) };
    }
    written.extend(cut.rows[full..].iter().map(|row| told_row(end, row)));
    let short = (cut.rows.len() - full) as u64;
    let told = [cut.answer, short, cut.tries, cut.bad_type, cut.whole as u64, cut.stop];
    Case { source: Source::Rust, written: table_bytes(&written), ..case.tell(&told) }
}

/// The bytes taken at the start and after each piece that is taken; and whether one made the region too long, which ends it.
fn taken_after(length: usize, lengths: [u8; 8]) -> (Vec<usize>, bool) {
    assert!(lengths.iter().any(|length| (1..=MOST_PIECE).contains(&(*length as usize))));
    let mut taken = vec![0];
    for asked in lengths.into_iter().cycle() {
        let at = *taken.last().unwrap();
        let piece = (asked as usize).min(length - at);
        if at == length {
            break;
        }
        if piece <= MOST_PIECE && at + piece > MOST_BYTES {
            return (taken, true);
        }
        if piece <= MOST_PIECE {
            taken.push(at + piece);
        }
    }
    (taken, false)
}

fn told_row(taken: usize, row: &Span) -> [u32; 1 + span::WORDS] {
    let mut numbers = [taken as u32; 1 + span::WORDS];
    numbers[1..].copy_from_slice(&row.numbers());
    numbers
}

/// Rows that hold all that they declare, each with the bytes taken when it is told.
fn received(rows: &[Span], taken: &[usize]) -> Vec<[u32; 1 + span::WORDS]> {
    let mut due = 0;
    let told = rows.iter().map(|row| {
        due = due.max((row.offset + row.declared.max(row.header_size)) as usize);
        told_row(taken[taken.partition_point(|taken| *taken < due)], row)
    });
    told.collect()
}

/// The dump's text: no rules, 512 rows, 81,920 tries, at most 65,535 bytes.
pub fn text(region: &Rc<[u8]>) -> Case {
    if region.len() > text::MOST_BYTES {
        return printed(Call::Texts, &Case::new(Call::Listings, Source::Paper, region).tell(&[TOO_LONG]));
    }
    let walk = walk(&[], region);
    printed(Call::Texts, &listing(&Rc::from([]), region, &walk, text::TRIES, span::WORDS * text::ROWS))
}

/// The dump's text of a CPER's Crash Logs: no rules, 4,096 rows, 1,310,720 tries.
pub fn cper_text(cper: &Rc<[u8]>) -> Case {
    let (walk, room) = (cper_walk(&[], cper, CRASH_LOG), span::WORDS * text::CPER_ROWS);
    printed(Call::CperTexts, &cper_listing(&Rc::from([]), cper, CRASH_LOG, &walk, text::CPER_TRIES, room))
}

/// The text of a listing. What is too long is not the Rust's to say.
fn printed(call: Call, listing: &Case) -> Case {
    let name = |record_type| standin::name_of(record_type).unwrap_or("UNKNOWN").to_string();
    let [answer, _, tries, _, whole, _] = listing.told;
    let written = text::format(&span::rows_in(&listing.written), tries, whole == 1, answer, name).into_bytes();
    let source = if answer == TOO_LONG { Source::Paper } else { Source::Rust };
    let case = Case::new(call, source, &listing.input).tell(&[written.len() as u64]);
    Case { written, ..case }
}

/// What stands in the way of a CPER's being read: its length, or what the Rust says.
fn refusal<'a>(cper: &[u8], read: &'a Option<Container>) -> Result<&'a Container, u64> {
    match read {
        _ if cper.len() > MOST_BYTES => Err(TOO_LONG),
        None => Err(NOT_CPER),
        Some(container) => Ok(container),
    }
}

fn source(refused: u64) -> Source {
    if refused == NOT_CPER { Source::Rust } else { Source::Paper }
}

/// The section table, in room for `room` numbers.
pub fn table(cper: &Rc<[u8]>, read: &Option<Container>, room: usize) -> Case {
    let case = Case { room, ..Case::new(Call::Tables, Source::Rust, cper) };
    let kept = match refusal(cper, read) {
        Ok(container) => &container.kept,
        Err(answer) => return Case { source: source(answer), ..case.tell(&[answer]) },
    };
    let rows = kept.len().min(room / 3);
    let (answer, source) = if rows < kept.len() { (SECTIONS_FULL, Source::CutFromListing) } else { (DONE, Source::Rust) };
    Case { source, written: table_bytes(&kept[..rows]), ..case.tell(&[answer, rows as u64]) }
}

/// One section, by its row.
pub fn section(cper: &Rc<[u8]>, read: &Option<Container>, row: u32) -> Case {
    let case = Case { number: row as u64, ..Case::new(Call::Sections, Source::Rust, cper) };
    match refusal(cper, read) {
        Err(answer) => Case { source: source(answer), ..case.tell(&[answer]) },
        Ok(container) => match container.kept.get(row as usize) {
            None => case.tell(&[NONE]),
            Some([_, offset, length]) => case.tell(&[DONE, *offset as u64, *length as u64]),
        },
    }
}

/// The normal form, in room for `room` bytes.
pub fn normal_form(cper: &Rc<[u8]>, read: &Option<Container>, room: usize) -> Case {
    let case = Case { room, ..Case::new(Call::NormalForms, Source::Rust, cper) };
    match refusal(cper, read) {
        Err(answer) => Case { source: source(answer), ..case.tell(&[answer]) },
        Ok(container) if container.normal.len() > room => output_short(cper, room),
        Ok(container) => {
            let length = container.normal.len() as u64;
            Case { written: container.normal.clone(), ..case.tell(&[DONE, length]) }
        }
    }
}

/// A normal form that is too long for the room, or for a 32-bit length.
pub fn output_short(cper: &Rc<[u8]>, room: usize) -> Case {
    Case { room, ..Case::new(Call::NormalForms, Source::Paper, cper) }.tell(&[OUTPUT_SHORT])
}

/// A record type's name, in room for `room` bytes.
pub fn name(record_type: u32, room: usize) -> Case {
    let known = u8::try_from(record_type).ok();
    let source = if known.is_some() { Source::Rust } else { Source::Paper };
    let name = known.and_then(standin::name_of).unwrap_or("UNKNOWN").as_bytes();
    let written = if name.len() <= room { name.to_vec() } else { Vec::new() };
    let case = Case { number: record_type as u64, room, ..Case::new(Call::Names, source, &Rc::from([])) };
    Case { written, ..case.tell(&[name.len() as u64]) }
}
