//! Tables in Markdown, and how figures are shown in them.
use crate::rust;
use crate::sample::{C, LIBRARY, PUBLISHED, STANDIN, Spread, Times};

pub fn heading(title: &str, columns: &[&str]) {
    println!("\n## {title}\n");
    println!("| {} |", columns.join(" | "));
    println!("|{}", "---|".repeat(columns.len()));
}

pub fn row(cells: &[String]) {
    println!("| {} |", cells.join(" | "));
}

/// A median, and its quartiles.
pub fn shown(spread: Option<Spread>) -> String {
    spread.map_or(String::new(), |s| format!("{:.2} ({:.2} to {:.2})", s.median, s.low, s.high))
}

/// The columns that most tables end with.
pub fn compared(first: &[&'static str]) -> Vec<&'static str> {
    let mut columns = first.to_vec();
    columns.push("library / C");
    if rust::PRESENT {
        columns.extend(["Rust / library", "published Rust / library"]);
    }
    columns
}

/// Their figures.
pub fn ratios(times: &Times) -> Vec<String> {
    let mut cells = vec![shown(times.ratio(LIBRARY, C))];
    if rust::PRESENT {
        cells.extend([shown(times.ratio(STANDIN, LIBRARY)), shown(times.ratio(PUBLISHED, LIBRARY))]);
    }
    cells
}
