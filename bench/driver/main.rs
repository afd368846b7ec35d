//! Times the library beside plain C and, with `--cfg oracle`, beside the published Rust, on the same inputs. What they give is
//! compared before they are timed. Prints the tables of bench/RESULTS.md. With the name of a folder it writes inputs there for
//! bench/count instead.
mod counting;
mod cper_listing;
mod growth;
#[allow(dead_code)]
#[path = "../../compare/src/header.rs"]
mod header;
mod headers;
mod inputs;
mod library;
mod listing;
mod normalising;
mod receiving;
#[cfg_attr(not(oracle), path = "no_rust.rs")]
mod rust;
mod sample;
#[allow(dead_code)]
#[path = "../../compare/src/span.rs"]
mod span;
mod table;
mod targets;

fn main() {
    listing::check_stops();
    listing::check_whole();
    receiving::check_stops();
    headers::check_endings();
    let rules = library::intel_rules();
    let tables = [Vec::new(), rules.clone(), inputs::padded(&rules, 64)];
    listing::check_origins(&tables);
    if let Some(folder) = std::env::args().nth(1) {
        return counting::write_inputs(folder.as_ref(), &tables);
    }
    let listings = listing::report(&tables);
    let flat_listings = listing::report_flat(&tables);
    let cper_listings = cper_listing::report(&tables[..2]);
    let receptions = receiving::report(&tables[..2]);
    let normal_forms = normalising::report();
    headers::report_decoding(&tables);
    headers::report_encoding(&tables);
    growth::report(&rules);
    targets::report(&listings, &flat_listings, &cper_listings, &receptions, &normal_forms);
}
