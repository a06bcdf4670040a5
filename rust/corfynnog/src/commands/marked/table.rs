//! The table of cases, row by row.

/// A row: what is asked, and what the documents say.
#[derive(Debug, PartialEq, Eq)]
pub struct Row<'a> {
    /// Document 01 has an asterisk there.
    pub marked: bool,
    pub asked: &'a str,
    pub expected: &'a str,
}

/// The rows of a table; empty lines and lines that start with # are passed over.
pub fn rows(table: &str) -> impl Iterator<Item = Row<'_>> {
    let lines = table.lines().map(str::trim);
    lines
        .filter(|line| !line.is_empty() && !line.starts_with('#'))
        .map(row)
}

/// One row; without an equals sign nothing is expected.
fn row(line: &str) -> Row<'_> {
    let unmarked = line.strip_prefix('*');
    let body = unmarked.unwrap_or(line);
    let (asked, expected) = body.split_once('=').unwrap_or((body, ""));
    Row {
        marked: unmarked.is_some(),
        asked: asked.trim(),
        expected: expected.trim(),
    }
}

#[cfg(test)]
mod tests {
    use super::*;

    #[test]
    fn rows_with_and_without_an_asterisk() {
        let table = "# none\n\n* judge p card = 7\n  compare p q bound 3 = no difference\nodd\n";
        let found: Vec<Row> = rows(table).collect();
        let row = |marked, asked, expected| Row {
            marked,
            asked,
            expected,
        };
        let expected = [
            row(true, "judge p card", "7"),
            row(false, "compare p q bound 3", "no difference"),
            row(false, "odd", ""),
        ];
        assert_eq!(found, expected);
    }
}
