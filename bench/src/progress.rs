//! Rows one after another.

use std::error::Error;

pub type Outcome<T> = Result<T, Box<dyn Error>>;

/// A row of a table.
pub trait Named {
    fn name(&self) -> &str;
}

/// Does the work of each row whose name has the word. As a row ends, standard error says so, and how many are left.
pub fn each<'a, R: Named>(
    rows: &'a [R],
    word: &str,
    mut work: impl FnMut(&'a R) -> Outcome<()>,
) -> Outcome<()> {
    let rows: Vec<&R> = rows
        .iter()
        .filter(|row| row.name().contains(word))
        .collect();
    for (row, left) in rows.iter().zip((0..rows.len()).rev()) {
        work(row)?;
        eprintln!("{} done, {left} left", row.name());
    }
    Ok(())
}
