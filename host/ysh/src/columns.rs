//! Text in columns.

/// Which side of its column a text stands on.
#[derive(Clone, Copy, Debug, PartialEq, Eq)]
pub enum Side {
    Left,
    Right,
}

/// Rows under heads, each column as wide as its widest text, two spaces between; nothing follows the last column.
pub fn columns(heads: &[(&str, Side)], rows: &[Vec<String>]) -> Vec<String> {
    let width = |column: usize| {
        let texts = rows.iter().map(|row| row[column].chars().count());
        texts.chain([heads[column].0.chars().count()]).max().unwrap_or(0)
    };
    let widths: Vec<usize> = (0..heads.len()).map(width).collect();
    let line = |texts: Vec<&str>| {
        let cell = |(column, text): (usize, &str)| match heads[column].1 {
            Side::Left => format!("{text:<w$}", w = widths[column]),
            Side::Right => format!("{text:>w$}", w = widths[column]),
        };
        let cells: Vec<String> = texts.into_iter().enumerate().map(cell).collect();
        cells.join("  ").trim_end().to_owned()
    };
    let head = line(heads.iter().map(|(text, _)| *text).collect());
    let rest = rows.iter().map(|row| line(row.iter().map(String::as_str).collect()));
    std::iter::once(head).chain(rest).collect()
}

/// A whole number with a comma before every three digits.
pub fn grouped(n: u64) -> String {
    let digits = n.to_string();
    let mut text = String::new();
    for (place, digit) in digits.chars().enumerate() {
        if place > 0 && (digits.len() - place) % 3 == 0 {
            text.push(',');
        }
        text.push(digit);
    }
    text
}

/// `1 row`, `2 rows`.
pub fn counted(n: u64, one: &str, more: &str) -> String {
    format!("{} {}", grouped(n), if n == 1 { one } else { more })
}

#[cfg(test)]
mod tests {
    use super::*;

    #[test]
    fn aligned() {
        let rows = [vec!["a".to_owned(), "1".to_owned()], vec!["longer".to_owned(), "1,234".to_owned()]];
        assert_eq!(
            columns(&[("file", Side::Left), ("D", Side::Right)], &rows),
            ["file        D", "a           1", "longer  1,234"]
        );
    }

    #[test]
    fn numbers() {
        assert_eq!(
            (grouped(0), grouped(999), grouped(1264), grouped(1234567)),
            ("0".into(), "999".into(), "1,264".into(), "1,234,567".into())
        );
        assert_eq!((counted(1, "row", "rows"), counted(0, "row", "rows")), ("1 row".into(), "0 rows".into()));
    }
}
