//! An explanation as text.

use super::explainer::{Explained, Explainer};
use super::summary::{pool_rows, Standing};
use crate::figures::grouped;
use pasumorip::record::RECORD_BYTES;

pub fn opening(explainer: &Explainer) -> String {
    format!("The books open with admin {} and nothing in them.\n", explainer.books.settings.admin)
}

pub fn line(explained: &Explained) -> String {
    let Explained { number, signed, asked, outcome, .. } = explained;
    let mut text = format!("Line {number} ({signed}) asks for {asked}.\n    {outcome}\n");
    for effect in &explained.effects {
        text += &format!("    - {effect}\n");
    }
    if let Some(Standing { lead, sums }) = &explained.standing {
        text += &format!("    {lead}\n");
        text.extend(sums.iter().map(|sum| format!("    - {sum}\n")));
    }
    text
}

/// What stands behind the last record, where something does.
pub fn left_over(bytes: usize) -> String {
    match bytes {
        0 => String::new(),
        bytes => format!("\nAt the end {bytes} bytes are left over. A record has {RECORD_BYTES}, so they are no call and move nothing.\n"),
    }
}

/// The accounts and the pools as they stand, under a heading that says which lines they are of, and of when the accrued yield is.
pub fn summary(explainer: &Explainer, lines: &str) -> String {
    let (came_in, went_out) = explainer.summary.sums();
    let accrued = explainer.moment.map_or(String::new(), |moment| format!("; accrued yield at {moment}"));
    let accounts = aligned(&explainer.account_rows(), &[0, 3]);
    let pools = aligned(&pool_rows(&explainer.books), &[0]);
    let sums = format!("In all {} came in and {} went out.", grouped(came_in), grouped(went_out));
    format!("\nAccounts, {lines}{accrued}:\n\n{accounts}\n{sums}\n\nPools:\n\n{pools}")
}

/// Rows of cells under each other: the columns named stand to the left, all others to the right.
fn aligned(rows: &[Vec<String>], left: &[usize]) -> String {
    let columns = rows.first().map_or(0, Vec::len);
    let width = |column: usize| rows.iter().map(|row| row[column].chars().count()).max().unwrap_or(0);
    let widths: Vec<usize> = (0..columns).map(width).collect();
    let mut text = String::new();
    for row in rows {
        let mut line = String::new();
        for (column, (cell, width)) in row.iter().zip(&widths).enumerate() {
            line += &if left.contains(&column) { format!("  {cell:<width$}") } else { format!("  {cell:>width$}") };
        }
        text += line.trim_end();
        text.push('\n');
    }
    text
}
