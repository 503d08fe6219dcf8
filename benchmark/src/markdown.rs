//! Tables and numbers in Markdown.

/// A table whose first columns hold words, the others numbers.
pub struct Table {
    pub text: String,
}

impl Table {
    pub fn new<T: AsRef<str>>(titles: &[T], words: usize) -> Table {
        let mut table = Table {
            text: String::new(),
        };
        table.row(titles);
        let ruled = |at: usize| if at < words { "---" } else { "---:" };
        let rule: Vec<&str> = (0..titles.len()).map(ruled).collect();
        table.row(&rule);
        table
    }

    pub fn row<T: AsRef<str>>(&mut self, cells: &[T]) {
        let cells: Vec<&str> = cells.iter().map(AsRef::as_ref).collect();
        self.text += &format!("| {} |\n", cells.join(" | "));
    }
}

/// A number with three digits that count, or with all before the point.
pub fn figure(number: f64) -> String {
    match number {
        99.95.. => grouped(number.round() as usize),
        9.995.. => format!("{number:.1}"),
        _ => format!("{number:.2}"),
    }
}

/// A number with commas between thousands.
pub fn grouped(number: usize) -> String {
    let digits = number.to_string();
    let mut text = String::new();
    for (at, digit) in digits.chars().enumerate() {
        if at > 0 && (digits.len() - at) % 3 == 0 {
            text.push(',');
        }
        text.push(digit);
    }
    text
}

#[cfg(test)]
mod tests {
    use super::*;

    #[test]
    fn numbers() {
        let figures = [0.126, 12.34, 1234.6].map(figure);
        assert_eq!(figures, ["0.13", "12.3", "1,235"]);
        let counts = [0, 999, 1_000, 1_048_576].map(grouped);
        assert_eq!(counts, ["0", "999", "1,000", "1,048,576"]);
    }

    #[test]
    fn tables() {
        let mut table = Table::new(&["a", "b"], 1);
        table.row(&["c", "1"]);
        assert_eq!(table.text, "| a | b |\n| --- | ---: |\n| c | 1 |\n");
    }
}
