//! Tables in Markdown.

use std::fmt;

/// The longest line of the text above a table.
const WIDTH: usize = 120;

pub struct Table {
    title: String,
    columns: Vec<&'static str>,
    rows: Vec<Vec<String>>,
}

impl Table {
    pub fn new(title: &str, columns: &[&'static str]) -> Table {
        Table { title: title.to_string(), columns: columns.to_vec(), rows: Vec::new() }
    }

    pub fn row(&mut self, cells: &[String]) {
        self.rows.push(cells.to_vec());
    }
}

impl fmt::Display for Table {
    fn fmt(&self, f: &mut fmt::Formatter<'_>) -> fmt::Result {
        for line in self.title.lines() {
            writeln!(f, "{}", wrapped(line))?;
        }
        writeln!(f, "\n| {} |", self.columns.join(" | "))?;
        writeln!(f, "|{}", "---|".repeat(self.columns.len()))?;
        for row in &self.rows {
            writeln!(f, "| {} |", row.join(" | "))?;
        }
        Ok(())
    }
}

/// A text in lines of at most so many characters.
fn wrapped(text: &str) -> String {
    let (mut lines, mut width) = (String::new(), 0);
    for word in text.split_whitespace() {
        let length = word.chars().count();
        let (gap, before) = match width {
            0 => ("", 0),
            width if width + 1 + length <= WIDTH => (" ", width + 1),
            _ => ("\n", 0),
        };
        lines += gap;
        lines += word;
        width = before + length;
    }
    lines
}

/// Nanoseconds, with a digit more where they are few.
pub fn ns(time: f64) -> String {
    match time {
        time if time < 1_000.0 => format!("{time:.1}"),
        time => format!("{time:.0}"),
    }
}

/// The columns of three sides, and what they hold.
pub const SIDES: [&str; 5] =
    ["proved, ns", "plain, ns", "tuned, ns", "proved/plain", "proved/tuned"];

pub fn sides([proved, plain, tuned]: [f64; 3]) -> [String; 5] {
    [ns(proved), ns(plain), ns(tuned), ratio(proved, plain), ratio(proved, tuned)]
}

pub fn ratio(time: f64, to: f64) -> String {
    format!("{:.2}", time / to)
}
