//! The bending bill.

use crate::search::Decision;
use crate::sheet::Sheet;
use std::fmt::Write;

/// Writes the bill of the places that are chosen.
pub fn write_bill(out: &mut String, sheet: &Sheet) -> std::fmt::Result {
    writeln!(out, "CAGES")?;
    let (mut lines, mut sum) = (0, 0);
    for (place, decision) in sheet.decisions() {
        if let Decision::Chosen(cage, steel) = decision {
            writeln!(out, "{place:02} B {} T {} S {} {steel}", cage.bottom, cage.top, cage.ties)?;
            lines += 1;
            sum += steel;
        }
    }
    writeln!(out, "TOTAL {lines} {sum}")
}
