//! Text in aligned columns.

use crate::output::Paint;
use std::fmt::Display;

/// Rows below a head, each column as wide as its widest cell.
pub struct Table {
    head: Vec<String>,
    /// The columns that are aligned at the right.
    right: Vec<usize>,
    rows: Vec<Vec<String>>,
}

impl Table {
    pub fn new<const N: usize>(head: [&str; N]) -> Table {
        Table { head: head.map(String::from).to_vec(), right: Vec::new(), rows: Vec::new() }
    }

    /// The same with these columns, counted from 0, aligned at the right, as numbers are.
    pub fn right<const N: usize>(self, columns: [usize; N]) -> Table {
        Table { right: columns.to_vec(), ..self }
    }

    pub fn row<const N: usize>(&mut self, cells: [String; N]) {
        assert_eq!(cells.len(), self.head.len(), "a cell for each column");
        self.rows.push(cells.to_vec());
    }

    /// The lines, the head in bold.
    pub fn print(&self, paint: Paint) -> String {
        let columns: Vec<Column> = (0..self.head.len()).map(|index| self.column(index)).collect();
        let mut text = paint.bold(line(&columns, &self.head)) + "\n";
        for row in &self.rows {
            text += &line(&columns, row);
            text.push('\n');
        }
        text
    }

    fn column(&self, index: usize) -> Column {
        let cells = self.rows.iter().chain([&self.head]).map(|row| row[index].chars().count());
        Column { width: cells.max().unwrap_or(0), right: self.right.contains(&index) }
    }
}

struct Column {
    width: usize,
    right: bool,
}

fn line(columns: &[Column], cells: &[String]) -> String {
    let aligned = columns.iter().zip(cells).map(|(column, cell)| match column.right {
        true => format!("{cell:>0$}", column.width),
        false => format!("{cell:<0$}", column.width),
    });
    let line = aligned.collect::<Vec<String>>().join("  ");
    line.trim_end().to_string()
}

/// Parts as one text, with the same between any two.
pub fn joined<T: Display>(parts: impl IntoIterator<Item = T>, between: &str) -> String {
    let parts: Vec<String> = parts.into_iter().map(|part| part.to_string()).collect();
    parts.join(between)
}
