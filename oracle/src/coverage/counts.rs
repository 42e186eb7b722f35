//! Named counts in rows and columns.

#[derive(Debug, Default)]
pub struct Counts {
    rows: Vec<Row>,
}

#[derive(Debug)]
struct Row {
    name: String,
    columns: Vec<(String, u64)>,
}

impl Counts {
    /// Lists counts, all at zero.
    pub fn list(&mut self, rows: Vec<(String, Vec<String>)>) {
        for (name, columns) in rows {
            let columns = columns.into_iter().map(|column| (column, 0)).collect();
            self.rows.push(Row { name, columns });
        }
    }

    /// Adds one to a count, which must be listed.
    pub fn add(&mut self, row: &str, column: &str) {
        let count = self
            .rows
            .iter_mut()
            .find(|listed| listed.name == row)
            .and_then(|listed| listed.columns.iter_mut().find(|(name, _)| name == column))
            .unwrap_or_else(|| panic!("the count `{row}: {column}` is not listed"));
        count.1 += 1;
    }

    /// A count, which must be listed.
    pub fn count(&self, row: &str, column: &str) -> u64 {
        self.rows
            .iter()
            .find(|listed| listed.name == row)
            .and_then(|listed| listed.columns.iter().find(|(name, _)| name == column))
            .unwrap_or_else(|| panic!("the count `{row}: {column}` is not listed"))
            .1
    }

    /// Adds the counts of another, which lists the same.
    pub fn absorb(&mut self, other: &Self) {
        for (row, added) in self.rows.iter_mut().zip(&other.rows) {
            for (count, more) in row.columns.iter_mut().zip(&added.columns) {
                count.1 += more.1;
            }
        }
    }

    pub fn report(&self) -> String {
        let width = self.rows.iter().map(|row| row.name.len()).max();
        let width = width.unwrap_or(0);
        let mut text = String::new();
        for row in &self.rows {
            let columns: Vec<String> = row
                .columns
                .iter()
                .map(|(name, count)| format!("{name} {count}"))
                .collect();
            text += &format!("{:width$}  {}\n", row.name, columns.join(", "));
        }
        text
    }

    pub fn missing(&self) -> Vec<String> {
        let mut names = Vec::new();
        for row in &self.rows {
            for (column, count) in &row.columns {
                if *count == 0 {
                    names.push(format!("{}: {column}", row.name));
                }
            }
        }
        names
    }
}
