//! What the job states: each constraint with its right side and the vectors that it touches.

use labrador::statement::Stated;
use labrador::HALF;

use super::html::{escape, section, table, Row};
use super::Report;
use crate::constraints::{constraints, name, right, total, touched};

/// A table of more rows may go on on the next sheet.
const SHEET: usize = 12;

fn caption() -> String {
    format!(
        "Right sides hold modulo Q; centred they are within ±{HALF}. A term is a linear coefficient that is not 0: a line of the vector with its \
         factor. A product is an inner product of the vector with itself or another."
    )
}

/// In the words of a statement file, where it is a total.
fn words(stated: &Stated) -> String {
    match &stated.total {
        Ok(_) => total(stated),
        Err(none) => format!("no total (from word {})", none.at),
    }
}

fn row(stated: &Stated) -> Row {
    let cells = [name, words, right, touched].map(|told| escape(&told(stated)));
    Row { class: "", cells: cells.to_vec() }
}

/// The constraints of a fit job, all of them.
pub fn table_of(job: &[u32]) -> String {
    let rows: Vec<Row> = constraints(job).iter().map(row).collect();
    let class = if rows.len() > SHEET { "states long" } else { "states" };
    table(class, &caption(), &["constraint", "states", "right side", "touches"], &rows)
}

pub fn list(report: &Report) -> String {
    let heading = "What the job states";
    if report.job.is_none() {
        return section("states", heading, "<p>Not read: the job was refused.</p>\n");
    }
    let compared = report.compared.map(|compared| format!("<p>{}.</p>\n", escape(&compared.told.join("; "))));
    let compared = compared.unwrap_or_default();
    section("states", heading, &format!("{}{compared}", table_of(report.slices[0])))
}
