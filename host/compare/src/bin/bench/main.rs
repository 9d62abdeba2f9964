//! The CPU time of the proved library beside the independent program's, and the library's size and stack, as the tables of docs/BENCHMARKS.md.

mod archive;
mod checking;
mod cpu;
mod night;
mod playing;
mod reading;
mod stack;
mod steps;
mod table;
mod writing;

/// The tables, by the names with which they can be asked for.
const TABLES: [(&str, fn()); 8] = [
    ("reading", reading::print),
    ("writing", writing::print),
    ("checking", checking::print),
    ("steps", steps::print),
    ("playing", playing::print),
    ("night", night::print),
    ("archive", archive::print),
    ("stack", stack::print),
];

/// Prints the tables that are named, or all. `counted` alone is for `host/counted`.
fn main() {
    let asked: Vec<String> = std::env::args().skip(1).collect();
    if asked == ["counted"] {
        return reading::count();
    }
    for (name, print) in TABLES {
        if asked.is_empty() || asked.iter().any(|word| word == name) {
            print();
        }
    }
}
