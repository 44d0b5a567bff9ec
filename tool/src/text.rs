//! Small things of texts: numbers with their thousands parted, and tables.

/// A number in plain decimal digits: no sign, nothing else.
pub fn digits<N: std::str::FromStr>(word: &str) -> Option<N> {
    word.bytes().all(|digit| digit.is_ascii_digit()).then(|| word.parse().ok()).flatten()
}

/// A number with a comma between thousands, as the papers write it.
pub fn thousands(number: u64) -> String {
    let digits = number.to_string();
    let mut said = String::new();
    for (i, digit) in digits.chars().enumerate() {
        if i > 0 && (digits.len() - i) % 3 == 0 {
            said.push(',');
        }
        said.push(digit);
    }
    said
}

/// The same of a number with a sign.
pub fn signed(number: i64) -> String {
    let sign = if number < 0 { "-" } else { "" };
    format!("{sign}{}", thousands(number.unsigned_abs()))
}

/// `1 lane`, `2 lanes`.
pub fn count(number: u64, what: &str) -> String {
    let s = if number == 1 { "" } else { "s" };
    format!("{} {what}{s}", thousands(number))
}

/// Rows under a head, two spaces between columns; `<` sets a column to the left, `>` to the right.
pub fn table(sides: &str, rows: &[Vec<String>]) -> String {
    let columns = sides.chars().count();
    let width = |i: usize| {
        rows.iter().filter_map(|row| row.get(i)).map(|cell| cell.chars().count()).max().unwrap_or(0)
    };
    let widths: Vec<usize> = (0..columns).map(width).collect();
    let mut text = String::new();
    for row in rows {
        let cells = row.iter().zip(&widths).zip(sides.chars()).map(|((cell, width), side)| match side {
            '<' => format!("{cell:<width$}"),
            _ => format!("{cell:>width$}"),
        });
        text.push_str(cells.collect::<Vec<_>>().join("  ").trim_end());
        text.push('\n');
    }
    text
}

#[cfg(test)]
mod tests {
    use super::*;

    #[test]
    fn numbers() {
        assert_eq!(thousands(0), "0");
        assert_eq!(thousands(999), "999");
        assert_eq!(thousands(1_048_576), "1,048,576");
        assert_eq!(signed(-512_000), "-512,000");
        assert_eq!(signed(i64::MIN), "-9,223,372,036,854,775,808");
    }

    #[test]
    fn plain_digits() {
        assert_eq!(digits::<u8>("255"), Some(255));
        for word in ["", "+5", "-1", "256", "1,024", "0x1"] {
            assert_eq!(digits::<u8>(word), None, "{word}");
        }
    }

    #[test]
    fn columns() {
        let rows = [vec!["a".into(), "b".into()], vec!["10".into(), "c".into()]];
        assert_eq!(table("><", &rows), " a  b\n10  c\n");
    }
}
