//! The table of a reader: each field with the refusals of its places.

use super::faults::{refusals_at, PLACES};
use super::fields::walked;
use super::File;
use crate::case::{Cell, Rows};
use reference::package::{serial_bytes, tag};
use reference::{Contents, Place, Refusal, Refused};

/// The row of files that are read, by whether they have a field y and by the
/// bytes that their serial takes.
fn read(target: bool, serial: u32) -> String {
    let y = if target { "y, " } else { "" };
    format!("{y}{} bytes", serial_bytes(serial).len())
}

/// The row of files that bytes follow.
const END: &str = "end";

/// The column of a refusal at a place.
pub fn column(place: Place, refusal: Refusal) -> String {
    let number = match place {
        Place::Head => 1,
        Place::Tag => 2,
        Place::Length => 3,
        Place::Content => 4,
        Place::Values => 5,
        Place::End => 6,
    };
    format!("{} P{number}", refusal.number())
}

/// The columns of a field.
pub fn columns_of(tag: u8) -> Vec<String> {
    let refusals = |place| refusals_at(place, tag).iter();
    let columns = PLACES.into_iter();
    columns
        .flat_map(|place| refusals(place).map(move |&refusal| column(place, refusal)))
        .collect()
}

/// The row of a field.
pub fn row(tag: u8) -> String {
    format!("{tag:02x}")
}

/// The columns: each number with its place, and the answers without a refusal.
pub fn columns(file: File, answers: &[&str]) -> Vec<String> {
    let mut list: Vec<String> = Vec::new();
    for column in file.tags().iter().flat_map(|&tag| columns_of(tag)) {
        if !list.contains(&column) {
            list.push(column);
        }
    }
    list.push(column(Place::End, Refusal::BytesFollow));
    list.extend(answers.iter().map(ToString::to_string));
    list
}

/// The rows of a kind of file, and the answers without a refusal.
pub fn rows(file: File, answers: &[&str]) -> Rows {
    let fields = file.tags().iter();
    let mut rows: Rows = fields.map(|&tag| (row(tag), columns_of(tag))).collect();
    let end = column(Place::End, Refusal::BytesFollow);
    rows.push((END.to_string(), vec![end]));
    let answers: Vec<String> = answers.iter().map(ToString::to_string).collect();
    for target in [false, true] {
        rows.extend([0, u32::MAX].map(|serial| (read(target, serial), answers.clone())));
    }
    rows
}

/// The row and the column of what a reader answers for these bytes.
pub fn cell(bytes: &[u8], judged: Result<Contents, Refused>) -> Cell {
    match judged {
        Ok(contents) => {
            let target = walked(bytes).any(|field| field.tag == tag::Y);
            (read(target, contents.serial), "0".to_string())
        }
        Err(refused) => (
            refused.tag.map_or(END.to_string(), row),
            column(refused.place, refused.refusal),
        ),
    }
}
