//! Tables of counts.

use std::fmt::Write;

/// A table of counts.
pub struct Grid {
    pub title: &'static str,
    rows: Vec<&'static str>,
    columns: Vec<&'static str>,
    allowed: Vec<bool>,
    counts: Vec<u64>,
}

impl Grid {
    pub fn new(
        title: &'static str,
        rows: &[&'static str],
        columns: &[&'static str],
        allowed: impl Fn(usize, usize) -> bool,
    ) -> Grid {
        let cells = (0..rows.len()).flat_map(|row| (0..columns.len()).map(move |column| (row, column)));
        let allowed: Vec<bool> = cells.map(|(row, column)| allowed(row, column)).collect();
        let counts = vec![0; allowed.len()];
        Grid { title, rows: rows.to_vec(), columns: columns.to_vec(), allowed, counts }
    }

    pub fn hit(&mut self, row: usize, column: usize) {
        self.counts[row * self.columns.len() + column] += 1;
    }

    pub fn count(&self, row: usize, column: usize) -> u64 {
        self.counts[row * self.columns.len() + column]
    }

    pub fn allowed(&self, row: usize, column: usize) -> bool {
        self.allowed[row * self.columns.len() + column]
    }

    /// The allowed cells, the least touched of them first.
    pub fn rarest(&self) -> Vec<(usize, usize)> {
        let cells = (0..self.counts.len()).filter(|&cell| self.allowed[cell]);
        let mut cells: Vec<usize> = cells.collect();
        cells.sort_by_key(|&cell| self.counts[cell]);
        cells.into_iter().map(|cell| (cell / self.columns.len(), cell % self.columns.len())).collect()
    }

    /// How many cells are allowed, how often the least touched of them was touched, and which it is.
    pub fn least(&self) -> (usize, u64, String) {
        let cells = self.rarest();
        let (row, column) = cells[0];
        (cells.len(), self.count(row, column), format!("{} x {}", self.rows[row], self.columns[column]))
    }

    pub fn empty(&self) -> Vec<String> {
        self.cells(|allowed, count| allowed && count == 0)
    }

    pub fn impossible(&self) -> Vec<String> {
        self.cells(|allowed, count| !allowed && count > 0)
    }

    fn cells(&self, wanted: impl Fn(bool, u64) -> bool) -> Vec<String> {
        let mut names = Vec::new();
        for (row, row_name) in self.rows.iter().enumerate() {
            for (column, column_name) in self.columns.iter().enumerate() {
                if wanted(self.allowed(row, column), self.count(row, column)) {
                    names.push(format!("{}: {row_name} x {column_name}", self.title));
                }
            }
        }
        names
    }

    pub fn print(&self, text: &mut String) {
        let label = self.rows.iter().map(|row| row.len()).max().unwrap_or(0);
        let widths: Vec<usize> = (0..self.columns.len())
            .map(|column| {
                let counts = (0..self.rows.len()).map(|row| self.count(row, column).to_string().len());
                counts.max().unwrap_or(0).max(self.columns[column].len()).max(3)
            })
            .collect();
        let _ = writeln!(text, "\n{}", self.title);
        let _ = write!(text, "  {:label$}", "");
        for (column, width) in widths.iter().enumerate() {
            let _ = write!(text, "  {:>width$}", self.columns[column]);
        }
        text.push('\n');
        for (row, name) in self.rows.iter().enumerate() {
            let _ = write!(text, "  {name:label$}");
            for (column, width) in widths.iter().enumerate() {
                let shown = match (self.allowed(row, column), self.count(row, column)) {
                    (true, 0) => "EMPTY".to_string(),
                    (false, 0) => ".".to_string(),
                    (true, count) => count.to_string(),
                    (false, count) => format!("!{count}"),
                };
                let _ = write!(text, "  {shown:>width$}");
            }
            text.push('\n');
        }
    }
}
