//! Tables in Markdown, with columns that stand below each other where they are only printed.

use std::time::Duration;

use crate::clock::Spread;

/// Prints a table between empty lines, its first column to the left.
pub fn print(head: &[&str], rows: &[Vec<String>]) {
    let head: Vec<String> = head.iter().map(|cell| cell.to_string()).collect();
    let width = |column: usize| [&head].into_iter().chain(rows).map(|row| row[column].chars().count()).max();
    let widths: Vec<usize> = (0..head.len()).filter_map(width).collect();
    let line = |cells: &Vec<String>| {
        let others = cells.iter().zip(&widths).skip(1).map(|(cell, width)| format!(" {cell:>width$} |"));
        println!("| {:width$} |{}", cells[0], others.collect::<String>(), width = widths[0]);
    };
    println!();
    line(&head);
    println!("|---{}|", "|---:".repeat(head.len() - 1));
    rows.iter().for_each(line);
    println!();
}

/// A time in milliseconds, three digits of it.
pub fn time(time: Duration) -> String {
    let milliseconds = time.as_secs_f64() * 1e3;
    match milliseconds {
        1000.0.. => grouped(milliseconds.round() as usize),
        100.0.. => format!("{milliseconds:.0}"),
        10.0.. => format!("{milliseconds:.1}"),
        1.0.. => format!("{milliseconds:.2}"),
        0.1.. => format!("{milliseconds:.3}"),
        0.01.. => format!("{milliseconds:.4}"),
        _ => format!("{milliseconds:.5}"),
    }
}

/// The median and the quartiles in brackets.
pub fn spread(spread: &Spread) -> String {
    format!("{} ({} to {})", time(spread.median), time(spread.low), time(spread.high))
}

pub fn ratio(ratio: f64) -> String {
    format!("{ratio:.2}")
}

/// A number with a comma after each thousand.
pub fn grouped(number: usize) -> String {
    let digits = number.to_string();
    let groups: Vec<&[u8]> = digits.as_bytes().rchunks(3).rev().collect();
    String::from_utf8(groups.join(&b',')).expect("digits")
}

#[cfg(test)]
mod tests {
    use super::*;

    #[test]
    fn numbers() {
        assert_eq!(
            [0, 56, 999, 1000, 65_536, 1_234_567].map(grouped),
            ["0", "56", "999", "1,000", "65,536", "1,234,567"]
        );
        let shown = [3_821_000, 165_432, 16_590, 1_987, 742, 61, 7]
            .map(|microseconds| time(Duration::from_micros(microseconds)));
        assert_eq!(shown, ["3,821", "165", "16.6", "1.99", "0.742", "0.0610", "0.00700"]);
    }

    #[test]
    fn quartiles() {
        let times: Vec<Duration> = (1..=101).map(Duration::from_millis).collect();
        assert_eq!(spread(&Spread::of(&times)), "51.0 (26.0 to 76.0)");
        assert_eq!(spread(&Spread::of(&times[..3])), "2.00 (1.00 to 3.00)");
    }
}
