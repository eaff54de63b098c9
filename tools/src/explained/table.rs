//! Columns for people: each as wide as its widest line, numbers on the right.

use std::iter;

use crate::width;

#[derive(Clone, Copy, Debug, PartialEq, Eq)]
pub enum Side {
    Left,
    Right,
}

/// A cell may have several lines.
pub struct Table {
    heads: Vec<(&'static str, Side)>,
    rows: Vec<Vec<String>>,
}

const GAP: &str = "  ";

impl Table {
    pub fn new(heads: &[(&'static str, Side)]) -> Table {
        Table { heads: heads.to_vec(), rows: Vec::new() }
    }

    pub fn add<const COLUMNS: usize>(&mut self, cells: [String; COLUMNS]) {
        self.rows.push(cells.to_vec());
    }

    pub fn print(&self) -> String {
        let heads = self.heads.iter().map(|(head, _)| head.to_string()).collect();
        let rows: Vec<&Vec<String>> = iter::once(&heads).chain(&self.rows).collect();
        let width = |column: usize| {
            let lines = rows.iter().filter_map(|row| row.get(column)).flat_map(|cell| cell.lines());
            lines.map(width::width).max().unwrap_or(0)
        };
        let widths: Vec<usize> = (0..self.heads.len()).map(width).collect();
        rows.into_iter().map(|row| self.row(row, &widths)).collect()
    }

    fn row(&self, cells: &[String], widths: &[usize]) -> String {
        let height = cells.iter().map(|cell| cell.lines().count()).max().unwrap_or(0);
        let line = |number: usize| {
            let columns = cells.iter().zip(&self.heads).zip(widths);
            let padded = columns.map(|((cell, &(_, side)), &width)| {
                let text = cell.lines().nth(number).unwrap_or_default();
                let blanks = " ".repeat(width - width::width(text));
                match side {
                    Side::Left => text.to_string() + &blanks,
                    Side::Right => blanks + text,
                }
            });
            let line = padded.collect::<Vec<_>>().join(GAP);
            format!("{}\n", line.trim_end())
        };
        (0..height).map(line).collect()
    }
}

/// The text in lines of so many columns, broken at blanks only.
pub fn wrapped(text: &str, columns: usize) -> String {
    let mut lines: Vec<String> = Vec::new();
    for word in text.split(' ') {
        match lines.last_mut() {
            Some(line) if width::width(line) + 1 + width::width(word) <= columns => {
                line.push(' ');
                line.push_str(word);
            }
            _ => lines.push(word.to_string()),
        }
    }
    lines.join("\n")
}

#[cfg(test)]
mod tests {
    use super::{Side, Table};

    #[test]
    fn wide_letters_keep_the_columns() {
        let mut table = Table::new(&[("site", Side::Left), ("sum", Side::Right)]);
        table.add(["東京".into(), "1".into()]);
        table.add(["north".into(), "22".into()]);
        assert_eq!(table.print(), "site   sum\n東京     1\nnorth   22\n");
    }
}
