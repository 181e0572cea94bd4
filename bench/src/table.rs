//! Markdown tables: a row of heads, then rows of cells; and numbers of three digits.

/// A table under making.
pub struct Table {
    heads: Vec<String>,
    rows: Vec<Vec<String>>,
}

/// Cells out of anything that can be written.
#[macro_export]
macro_rules! cells {
    ($($cell:expr),* $(,)?) => { vec![$($cell.to_string()),*] };
}

impl Table {
    /// A table with these heads.
    pub fn new(heads: &[&str]) -> Table {
        Table { heads: heads.iter().map(|head| head.to_string()).collect(), rows: vec![] }
    }

    /// Adds a row.
    pub fn row(&mut self, cells: Vec<String>) {
        assert_eq!(cells.len(), self.heads.len(), "a row has as many cells as there are heads");
        self.rows.push(cells);
    }

    /// Prints the table under a title.
    pub fn print(&self, title: &str) {
        println!("\n### {title}\n");
        println!("| {} |", self.heads.join(" | "));
        println!("|{}", "---|".repeat(self.heads.len()));
        for row in &self.rows {
            println!("| {} |", row.join(" | "));
        }
    }
}

/// A number with about three digits.
pub fn short(number: f64) -> String {
    match number.abs() {
        size if size >= 99.95 => format!("{number:.0}"),
        size if size >= 9.995 => format!("{number:.1}"),
        _ => format!("{number:.2}"),
    }
}

/// A text as code in a cell; a bar would end the cell.
pub fn code(text: &[u8]) -> String {
    format!("`{}`", String::from_utf8_lossy(text).replace('|', "\\|"))
}
