//! A table in Markdown, printed line by line as the figures come.

pub struct Table {
    widths: Vec<usize>,
}

impl Table {
    /// Prints the heads. The first column holds names of up to this width, the others numbers.
    pub fn begin(names: usize, heads: &[&str]) -> Self {
        let mut widths: Vec<usize> = heads.iter().map(|head| head.len()).collect();
        widths[0] = names;
        let table = Table { widths };
        println!();
        table.line(heads);
        let rule = |(column, &width): (usize, &usize)| {
            let end = if column == 0 { '-' } else { ':' };
            format!("|{}{end}", "-".repeat(width + 1))
        };
        let rules: String = table.widths.iter().enumerate().map(rule).collect();
        println!("{rules}|");
        table
    }

    pub fn line<C: AsRef<str>>(&self, cells: &[C]) {
        assert_eq!(cells.len(), self.widths.len(), "a cell for each head");
        let cell = |(column, (&width, cell)): (usize, (&usize, &C))| match column {
            0 => format!("| {:<width$} ", cell.as_ref()),
            _ => format!("| {:>width$} ", cell.as_ref()),
        };
        let cells: String = self
            .widths
            .iter()
            .zip(cells)
            .enumerate()
            .map(cell)
            .collect();
        println!("{cells}|");
    }
}
