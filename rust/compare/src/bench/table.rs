/// A Markdown table.
pub struct Table {
    rows: Vec<Vec<String>>,
}

impl Table {
    pub fn new(head: &[&str]) -> Table {
        Table {
            rows: vec![head.iter().map(|cell| cell.to_string()).collect()],
        }
    }

    pub fn row(&mut self, cells: Vec<String>) {
        self.rows.push(cells);
    }

    /// The first column to the left, the others to the right.
    pub fn print(&self, title: &str) {
        println!("\n{title}\n");
        let width = |at: usize| self.rows.iter().map(|row| row[at].len()).max().unwrap_or(0);
        let widths: Vec<usize> = (0..self.rows[0].len()).map(width).collect();
        for (k, row) in self.rows.iter().enumerate() {
            let cells = row.iter().zip(&widths).enumerate();
            let line: Vec<String> = cells
                .map(|(at, (cell, &width))| {
                    if at == 0 {
                        format!("{cell:<width$}")
                    } else {
                        format!("{cell:>width$}")
                    }
                })
                .collect();
            println!("| {} |", line.join(" | "));
            if k == 0 {
                let line: Vec<String> = widths
                    .iter()
                    .enumerate()
                    .map(|(at, &width)| {
                        let end = if at == 0 { "-" } else { ":" };
                        format!("{}{end}", "-".repeat(width + 1))
                    })
                    .collect();
                println!("|{}|", line.join("|"));
            }
        }
    }
}

/// A ratio, marked where it misses its goal.
pub fn ratio(value: f64, meets: bool) -> String {
    let mark = if meets { "" } else { " !" };
    format!("{value:.2}{mark}")
}

/// Nanoseconds for each of so many.
pub fn per(nanos: f64, count: usize) -> String {
    format!("{:.2}", nanos / count as f64)
}
