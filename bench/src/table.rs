//! Tables in markdown, on standard output.

/// Nanoseconds: with hundredths below a hundred, whole ones from there on.
pub fn nanoseconds(time: f64) -> String {
    format!("{time:.*}", if time < 100.0 { 2 } else { 0 })
}

/// Times in a row: each but the first with its ratio to the first.
pub fn beside_the_first(times: &[f64]) -> Vec<String> {
    let first = times[0];
    let beside = |time: &f64| format!("{} ({:.2})", nanoseconds(*time), time / first);
    let others = times[1..].iter().map(beside);
    std::iter::once(nanoseconds(first)).chain(others).collect()
}

fn print_row<T: AsRef<str>>(cells: &[T]) {
    let cells: Vec<&str> = cells.iter().map(AsRef::as_ref).collect();
    println!("| {} |", cells.join(" | "));
}

pub fn print(
    heading: &str,
    words: &str,
    columns: &[&str],
    rows: impl Iterator<Item = Vec<String>>,
) {
    println!("\n## {heading}\n\n{words}\n");
    print_row(columns);
    println!("|{}", "---|".repeat(columns.len()));
    for row in rows {
        print_row(&row);
    }
}
