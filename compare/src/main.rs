//! Compares this library with the published Rust: see compare/README.md.

mod case;
mod differences;
mod dump;
mod encoder;
mod expected;
mod header;
mod inputs;
mod kinds;
mod library;
mod nesting;
mod random;
mod replay;
mod rust;
mod smallest;
mod span;
mod stops;
mod tally;
mod text;
mod told;
mod vectors;
mod x86;

use dump::Dumps;
use kinds::published::Published;
use kinds::{containers, cper_listings, crossings, encodes, headers, intel, listings, names, origins, receptions};
use library::Library;
use random::Random;
use std::path::Path;
use std::process::ExitCode;
use std::{env, process};
use tally::Tally;

fn main() -> ExitCode {
    let arguments: Vec<String> = env::args().skip(1).collect();
    match arguments.iter().map(String::as_str).collect::<Vec<_>>()[..] {
        [caller, dump, dump_cper, "run", seed, count] => match (seed.parse(), count.parse()) {
            (Ok(seed), Ok(count)) => run(start(caller), &dumps(dump, dump_cper), seed, count),
            _ => stop("the seed and the count are numbers"),
        },
        [caller, dump, dump_cper, "vectors", folder] => {
            write_vectors(start(caller), &dumps(dump, dump_cper), Path::new(folder))
        }
        _ => stop("usage: compare CALLER DUMP DUMP_CPER run SEED COUNT, or compare CALLER DUMP DUMP_CPER vectors FOLDER"),
    }
}

fn start(caller: &str) -> Tally {
    Tally::new(Library::start(caller).unwrap_or_else(|error| stop(&format!("{caller}: {error}"))))
}

fn dumps(region: &str, cper: &str) -> Dumps {
    Dumps { region: region.to_string(), cper: cper.to_string() }
}

fn stop(why: &str) -> ! {
    eprintln!("compare: {why}");
    process::exit(2)
}

/// The fixed cases, then `count` rounds of random ones; by a seed that is told.
fn run(mut tally: Tally, dumps: &Dumps, seed: u64, count: u64) -> ExitCode {
    let mut published = Published::new(&mut tally.library);
    let fixed: [(&str, fn(&mut Tally)); 10] = [
        ("names", names::fixed),
        ("headers", headers::fixed),
        ("encodes", encodes::fixed),
        ("listings", listings::fixed),
        ("crossings", crossings::fixed),
        ("sockets and dies", origins::fixed),
        ("receptions", receptions::fixed),
        ("CPERs", containers::fixed),
        ("CPER listings", cper_listings::fixed),
        ("Intel's rules", intel::fixed),
    ];
    for (name, cases) in fixed {
        cases(&mut tally);
        tally.check_waiting();
        eprintln!("{name} tried out, {} cases so far", tally.cases());
    }
    published.fixed(&mut tally);
    vectors::check(&mut tally, dumps, &vectors::list());

    let mut random = Random::new(seed);
    for round in 0..count {
        headers::round(&mut tally, &mut random);
        encodes::round(&mut tally, &mut random);
        listings::round(&mut tally, &mut random);
        receptions::round(&mut tally, &mut random);
        containers::round(&mut tally, &mut random);
        cper_listings::round(&mut tally, &mut random);
        published.round(&mut tally, &mut random);
        if (round + 1) % count.div_ceil(10) == 0 {
            eprintln!("round {} of {count}, {} cases so far", round + 1, tally.cases());
        }
    }
    tally.check_waiting();
    report(&tally, &published, seed, count)
}

/// Writes the replay's fixed list, after the library was tried on it.
fn write_vectors(mut tally: Tally, dumps: &Dumps, folder: &Path) -> ExitCode {
    let cases = vectors::list();
    vectors::check(&mut tally, dumps, &cases);
    if let Err(error) = vectors::write(folder, &cases) {
        stop(&format!("{}: {error}", folder.display()));
    }
    tally.print();
    if tally.differing() == 0 { ExitCode::SUCCESS } else { ExitCode::FAILURE }
}

fn report(tally: &Tally, published: &Published, seed: u64, count: u64) -> ExitCode {
    smallest::print();
    for (difference, seen) in &published.seen {
        println!("predicted and seen: {difference:?} in {seen} CPERs");
    }
    println!("seed {seed}, {count} rounds");
    tally.print();
    if tally.differing() == 0 { ExitCode::SUCCESS } else { ExitCode::FAILURE }
}
