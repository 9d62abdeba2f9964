//! Tables as docs/BENCHMARKS.md has them.

/// A whole number with a comma between thousands.
pub fn number(value: f64) -> String {
    let digits = format!("{value:.0}");
    let mut text = String::new();
    for (index, digit) in digits.chars().enumerate() {
        if index > 0 && (digits.len() - index).is_multiple_of(3) {
            text.push(',');
        }
        text.push(digit);
    }
    text
}

/// A title and the head of a table.
pub fn head(title: &str, columns: &[&str]) {
    println!("\n## {title}\n");
    row(columns);
    println!("|{}", "---|".repeat(columns.len()));
}

/// A row; a cell without text has one space.
pub fn row(cells: &[&str]) {
    let shown: String =
        cells.iter().map(|cell| if cell.is_empty() { " |".into() } else { format!(" {cell} |") }).collect();
    println!("|{shown}");
}

/// A row of two times of one call, in nanoseconds, and their ratio.
pub fn times(what: &str, (ours, theirs): (f64, f64)) {
    let [ours_shown, theirs_shown] = [ours, theirs].map(|time| number(time) + " ns");
    row(&[what, &ours_shown, &theirs_shown, &format!("{:.2}", ours / theirs)]);
}

/// Two times of one call, in nanoseconds, as one cell: the first, and its ratio to the second.
pub fn cell((ours, theirs): (f64, f64)) -> String {
    format!("{} ns ({:.2})", number(ours), ours / theirs)
}

/// A row's name, and its cells.
pub fn wide<'a>(name: &'a str, cells: &'a [String]) -> Vec<&'a str> {
    std::iter::once(name).chain(cells.iter().map(String::as_str)).collect()
}
