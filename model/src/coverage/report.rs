//! What the coverage comes to: the empty cells, the impossible ones, and the text of all.

use super::grid::Grid;
use super::sweep::Sweep;
use super::Coverage;
use std::fmt::Write;

impl Coverage {
    fn grids(&self) -> [&Grid; 14] {
        [
            &self.numbers,
            &self.setup_rows,
            &self.splits,
            &self.out_points,
            &self.in_points,
            &self.interrupt_points,
            &self.interrupt_events,
            &self.poll_refusals,
            &self.remote,
            &self.header_faults,
            &self.continuing_faults,
            &self.reserved,
            &self.boundaries,
            &self.lines,
        ]
    }

    fn sweeps(&self) -> Vec<&Sweep> {
        let pairs = [&self.messages, &self.too_long, &self.replies, &self.closings, &self.out_counts, &self.in_counts];
        let mut sweeps: Vec<&Sweep> = pairs.into_iter().flatten().collect();
        sweeps.extend(self.interrupted.iter().flatten());
        sweeps.extend(&self.alignment);
        sweeps.extend([
            &self.replies_refused,
            &self.bits_too_long,
            &self.bits_asked,
            &self.bits_of_no_row,
            &self.tags,
            &self.ids_refused,
            &self.status_tags,
            &self.status_tags_busy,
            &self.bytes_read,
            &self.bytes_requested,
            &self.bytes_kept,
            &self.term_chars,
        ]);
        sweeps
    }

    /// The allowed cells that are empty.
    pub fn empty(&self) -> Vec<String> {
        let mut names: Vec<String> = self.grids().into_iter().flat_map(Grid::empty).collect();
        for sweep in self.sweeps() {
            if !sweep.complete() {
                names.push(format!("{}: {} of {}", sweep.title, sweep.count(), sweep.len()));
            }
        }
        names
    }

    /// The cells that were touched although the papers do not allow them: the model or a table here is wrong.
    pub fn impossible(&self) -> Vec<String> {
        self.grids().into_iter().flat_map(Grid::impossible).collect()
    }

    /// Of each grid how many cells it has, and its emptiest. The columns are parted by two spaces at least.
    pub fn summary(&self) -> String {
        let label = self.grids().iter().map(|grid| grid.title.len()).max().unwrap_or(0);
        let mut text = format!("CELLS\n  {:label$}  cells  least  in\n", "grid");
        for grid in self.grids() {
            let (cells, least, name) = grid.least();
            let _ = writeln!(text, "  {:label$}  {cells:>5}  {least:>5}  {name}", grid.title);
        }
        let (sweeps, values): (usize, usize) =
            self.sweeps().iter().fold((0, 0), |(sweeps, values), sweep| (sweeps + 1, values + sweep.len()));
        let seen: usize = self.sweeps().iter().map(|sweep| sweep.count()).sum();
        let _ = writeln!(text, "{sweeps} ranges of values: {seen} of {values} seen.");
        text
    }

    /// Every cell.
    pub fn print(&self) -> String {
        let mut text = String::from("COVERAGE (`.` cannot be, `EMPTY` can be and was not)\n");
        for grid in self.grids() {
            grid.print(&mut text);
        }
        let _ = writeln!(text, "\nranges");
        let label = self.sweeps().iter().map(|sweep| sweep.title.len()).max().unwrap_or(0);
        for sweep in self.sweeps() {
            let _ = writeln!(text, "  {:label$}  {} of {}", sweep.title, sweep.count(), sweep.len());
        }
        text.push('\n');
        text
    }
}
