//! Tables of figures, and the worst row of each.

use crate::measure::Both;

/// A table whose rows are printed as they are measured.
pub struct Table {
    name: &'static str,
    worst_row: String,
    worst: f64,
}

/// What is measured for a row, in the units that the table's title says.
pub struct Figures {
    /// The best times.
    pub times: Both<f64>,
    /// The instructions, if they are counted.
    pub instructions: Option<Both<f64>>,
}

impl Table {
    /// A table without rows.
    pub fn new(name: &'static str) -> Table {
        Table { name, worst_row: String::new(), worst: 0.0 }
    }

    /// The worst of the rows' quotients `proved / Rust`.
    pub fn worst(&self) -> f64 {
        self.worst
    }

    /// Prints which row is the worst.
    pub fn print_worst(&self) {
        println!("{}: worst proved / Rust: {:.2} ({})", self.name, self.worst, self.worst_row);
    }

    /// Prints the columns of figures in a row's line.
    pub fn print(&mut self, row: &str, figures: &Figures) {
        let Both { proved, rust } = figures.times;
        let quotient = proved / rust;
        if quotient > self.worst {
            (self.worst, self.worst_row) = (quotient, row.to_string());
        }
        let counted = |number: f64| format!("{number:.1}");
        let instructions = figures.instructions.map(|both| both.map(counted));
        let Both { proved: ours, rust: theirs } =
            instructions.unwrap_or_else(|| Both { proved: "-".to_string(), rust: "-".to_string() });
        print!("{proved:>10.2}{rust:>10.2}{quotient:>15.2}{ours:>22}{theirs:>10}");
    }
}

/// Prints the headings of the columns of figures.
pub fn print_headings() {
    print!(
        "{:>10}{:>10}{:>15}{:>22}{:>10}",
        "proved", "Rust", "proved / Rust", "instructions: proved", "Rust"
    );
}
