//! change LIST FORM DIR: makes the changes of a list to the files below DIR; the list says what a change is. A text that does
//! not stand in its file exactly once stops it.

use std::path::PathBuf;
use std::{env, fs, process};

struct Change {
    form: String,
    file: String,
    old: Vec<String>,
    new: Vec<String>,
}

fn main() {
    let [_, list, form, dir] = &env::args().collect::<Vec<_>>()[..] else {
        stop("usage: change LIST FORM DIR");
    };
    let list = fs::read_to_string(list).unwrap_or_else(|error| stop(&format!("{list}: {error}")));
    for change in parse(&list) {
        if change.form == "both" || change.form == *form {
            make(&change, &PathBuf::from(dir).join(&change.file));
        }
    }
}

fn parse(list: &str) -> Vec<Change> {
    let mut changes: Vec<Change> = Vec::new();
    for line in list.lines().filter(|line| !line.is_empty() && !line.starts_with('#')) {
        let (mark, text) = line.split_at(1);
        match (mark, changes.last_mut()) {
            ("@", _) => changes.push(opened(text)),
            ("-", Some(change)) => change.old.push(text.to_string()),
            ("+", Some(change)) => change.new.push(text.to_string()),
            _ => stop(&format!("no part of a change: {line}")),
        }
    }
    changes
}

fn opened(heading: &str) -> Change {
    let [form, file] = heading.split_whitespace().collect::<Vec<_>>()[..] else {
        stop(&format!("not 'FORM FILE': {heading}"));
    };
    Change { form: form.to_string(), file: file.to_string(), old: Vec::new(), new: Vec::new() }
}

fn make(change: &Change, path: &PathBuf) {
    let name = path.display();
    let text = fs::read_to_string(path).unwrap_or_else(|error| stop(&format!("{name}: {error}")));
    let old = change.old.join("\n");
    let count = text.matches(&old).count();
    if old.is_empty() || count != 1 {
        stop(&format!("{name}: found {count} times, not once: {old}"));
    }
    let changed = text.replacen(&old, &change.new.join("\n"), 1);
    fs::write(path, changed).unwrap_or_else(|error| stop(&format!("{name}: {error}")));
}

fn stop(why: &str) -> ! {
    eprintln!("change: {why}");
    process::exit(1)
}
