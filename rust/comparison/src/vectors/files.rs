//! The check files of the vectors: their fields, and the entries that read them.

use super::calls::{Comparison, Stated};
use super::list::{Line, List};
use super::text::{Change, Text};
use crate::case::Taken;
use crate::entries::files::fields::HEAD;
use crate::entries::files::{File, BYTES};
use crate::entries::package_field::{LENGTH, PART, START, TAG};
use crate::entries::readers::{M, N, SERIAL};
use crate::lent::Lent;
use crate::named::Named;
use crate::program;
use crate::slices::{self, ALPHA, DELTA, H, MASKS, Q, X, Y};
use reference::package::{stated_of, tag, SERIAL_LENGTHS};
use std::ops::Range;

/// The slices of verify, each with the tag of its field.
const SLICES: [(&str, u8); 9] = [
    (H, tag::H),
    (X, tag::X),
    (Y, tag::Y),
    (slices::T, tag::T),
    (slices::A, tag::A),
    (Q, tag::Q),
    (MASKS, tag::MASKS),
    (DELTA, tag::DELTA),
    (ALPHA, tag::ALPHA),
];

/// Where the content of each field of a check file stands, by its tag.
pub struct Fields(Vec<(u8, Range<usize>)>);

impl Fields {
    /// The fields of a check file.
    pub fn of(file: &List) -> Result<Fields, String> {
        let bytes = file.bytes();
        let mut fields = Vec::new();
        let mut at = 0;
        for &tag in File::CheckFile.tags() {
            if stated_of(tag).optional && bytes.get(at) != Some(&tag) {
                continue;
            }
            let head = bytes.get(at..at + HEAD);
            let Some(&[_, high, low]) = head.filter(|head| head[0] == tag) else {
                return Err(format!("{}: no field {tag:02x} at offset {at}", file.name));
            };
            let start = at + HEAD;
            at = start + usize::from(u16::from_be_bytes([high, low]));
            fields.push((tag, start..at));
            if at > bytes.len() {
                return Err(format!("{} ends in field {tag:02x}", file.name));
            }
        }
        if at < bytes.len() {
            return Err(format!("{} goes on after its last field", file.name));
        }
        Ok(Fields(fields))
    }

    /// Where the content of the field with this tag stands.
    fn range(&self, tag: u8) -> Option<Range<usize>> {
        let mut fields = self.0.iter();
        let field = fields.find(|(other, _)| *other == tag);
        field.map(|(_, range)| range.clone())
    }

    /// The content of each field, by its tag.
    fn contents(&self, file: &List) -> Vec<(u8, List)> {
        let fields = self.0.iter();
        let content = |range: &Range<usize>| file.part(range.start, range.len());
        fields.map(|(tag, range)| (*tag, content(range))).collect()
    }

    /// The package that the check file begins with.
    fn package(&self, file: &List) -> List {
        let q = self.range(tag::Q).expect("a field of a check file");
        file.part(0, q.start - HEAD)
    }

    /// The last byte of each field after the sizes that has content.
    fn ends(&self) -> Vec<usize> {
        let fields = self.0.iter();
        let filled = fields.filter(|(tag, range)| *tag != tag::SIZES && !range.is_empty());
        filled.map(|(_, range)| range.end - 1).collect()
    }
}

/// Two lists must have the same values; the error is the first that differs.
fn same(found: &List, expected: &List) -> Result<(), String> {
    let pairs = found.words.iter().zip(&expected.words);
    for (index, (one, other)) in pairs.enumerate() {
        if one.value != other.value {
            let (one, other) = (one.value, other.value);
            let (place, by) = (found.place(index), expected.place(index));
            return Err(format!("{place} is {one}, expected {other} by {by}"));
        }
    }
    if found.len() != expected.len() {
        let (one, other) = (found.len(), expected.len());
        return Err(format!(
            "{} has {one} words here, expected {other} by {}",
            found.name, expected.name
        ));
    }
    Ok(())
}

/// The content with this tag, where the list has it.
fn with_tag(contents: &[(u8, List)], tag: u8) -> Option<&List> {
    let content = contents.iter().find(|(other, _)| *other == tag);
    content.map(|(_, content)| content)
}

/// The content of a field, as the slice of verify with this name; where y is
/// absent, m zeros.
fn as_slice(name: &'static str, content: Option<&List>, m: usize) -> List {
    match content {
        Some(content) if slices::named(name).elements.are_words() => content.joined_bytes(),
        Some(content) => content.clone(),
        None => List::zeros(name, m),
    }
}

/// A slice, as the content of a field.
fn as_content(name: &str, slice: &List) -> List {
    if slices::named(name).elements.are_words() {
        slice.in_bytes(2)
    } else {
        slice.clone()
    }
}

/// A serial, as the content of its field: in the shorter length where it fits.
fn serial_content(serial: &List) -> List {
    let [short, long] = SERIAL_LENGTHS;
    let fits = serial.value(0) >> (8 * short) == 0;
    serial.in_bytes(if fits { short } else { long })
}

/// The contents of the fields of a text, by their tags; a y of zeros has no
/// field.
fn contents(text: &Text) -> Vec<(u8, List)> {
    let slices = text.slices(&text.solving);
    let mut list = vec![
        (tag::SIZES, List::joined(&[&text.n, &text.m])),
        (tag::SERIAL, serial_content(&text.serial)),
    ];
    let others = SLICES.iter();
    let written = others.filter(|&&(name, _)| name != Y || !text.y.is_zero());
    list.extend(written.map(|&(name, tag)| (tag, as_content(name, slices[name]))));
    list
}

impl Comparison<'_> {
    /// What an entry takes that reads a file.
    fn file(&mut self, file: &List) -> Taken {
        Taken {
            numbers: Named::new(),
            inputs: Named::from([(BYTES, self.bytes(file))]),
        }
    }

    /// A reader.
    pub fn read(
        &mut self,
        name: &str,
        file: &List,
        [n, m, serial]: [&List; 3],
    ) -> Result<(), String> {
        let taken = self.file(file);
        let written = [N, M, SERIAL].map(|name| (name, Lent::any_number(self.generator)));
        let stated = Stated::outputs([(N, n), (M, m), (SERIAL, serial)]);
        self.call(name, taken, Named::from(written), stated)?;
        Ok(())
    }

    /// The entry field of a package, with this tag; the content of the field
    /// and where it starts, where the package has it.
    fn package_field(
        &mut self,
        package: &List,
        tag: u8,
        field: Option<(usize, &List)>,
    ) -> Result<(), String> {
        const FIELD: &str = "field of a package";
        let mut taken = self.file(package);
        taken.numbers.push(TAG, tag.into());
        let [start, length] = [START, LENGTH].map(|name| (name, Lent::any_size(self.generator)));
        let part = (PART, Lent::any_bytes(package.len(), self.generator));
        let written = Named::from([start, length, part]);
        if let Some((at, content)) = field {
            // Both are stated by the head of the field.
            let [mut start, mut length] = [(); 2].map(|()| package.part(at - 2, 1));
            start.words[0].value = at as u64;
            length.words[0].value = content.len() as u64;
            let stated = [(START, &start), (LENGTH, &length), (PART, content)];
            self.call(FIELD, taken, written, Stated::outputs(stated))?;
            return Ok(());
        }
        let found = self.call(FIELD, taken, written, Stated::default())?;
        match [START, LENGTH].map(|name| found[name].element(0)) {
            [0, 0] => Ok(()),
            found => Err(format!("{FIELD}, tag {tag:02x}: {found:?}")),
        }
    }

    /// The entry field of a package, with every tag. The contents of the fields
    /// are those of the list.
    fn package_fields(
        &mut self,
        file: &List,
        fields: &Fields,
        contents: &[(u8, List)],
    ) -> Result<(), String> {
        let package = fields.package(file);
        for tag in 0..=255 {
            let range = fields.range(tag).filter(|range| range.end <= package.len());
            let field = range.zip(with_tag(contents, tag));
            let field = field.map(|(range, content)| (range.start, content));
            self.package_field(&package, tag, field)?;
        }
        Ok(())
    }

    /// A check file with its line: the readers, the fields, check and verify, its
    /// package written again and as a bundle, and the program.
    pub fn check_file(&mut self, file: &List, line: &Line) -> Result<(), String> {
        let fields = Fields::of(file)?;
        let stated = [&line.n, &line.m, &line.serial];
        self.read("read check file", file, stated)?;
        self.read("read package", &fields.package(file), stated)?;

        let contents = fields.contents(file);
        self.package_fields(file, &fields, &contents)?;

        let taken = self.file(file);
        self.call("check", taken, Named::new(), Stated::answer(&line.verdict))?;

        let m = line.m.value(0);
        let slices = SLICES.map(|(name, tag)| (name, as_slice(name, with_tag(&contents, tag), m)));
        let slices = slices.iter().map(|(name, list)| (*name, list)).collect();
        self.verify(&slices, line)?;
        let package = fields.package(file);
        self.written_again([line.n.value(0), m], &slices, &line.serial, &package)?;
        self.package_as_bundle(&package, &line.n, &line.m)?;
        self.program(file, line)
    }

    /// The line of the program.
    fn program(&mut self, file: &List, line: &Line) -> Result<(), String> {
        let Some(path) = self.setting.program else {
            return Ok(());
        };
        let file = program::File {
            bytes: file.bytes(),
            open: false,
        };
        let found = program::run(path, &file, self.generator);
        self.outcome.lines += 1;
        if found.as_deref() != Ok(&format!("{}\n", line.text)) {
            let expected = &line.text;
            let place = line.verdict.place(0);
            return Err(format!(
                "{place}: {} prints {found:?}, expected {expected:?}",
                program::NAME
            ));
        }
        Ok(())
    }

    /// The files that a text has, and the contents of their fields.
    pub fn files(&mut self, text: &Text) -> Result<(), String> {
        let Text { file, line, .. } = text;
        let fields = Fields::of(file)?;
        let contents = contents(text);
        let found = fields.contents(file);
        for &tag in File::CheckFile.tags() {
            match (with_tag(&found, tag), with_tag(&contents, tag)) {
                (Some(found), Some(content)) => same(found, content)?,
                (None, None) => {}
                _ => return Err(format!("{}: field {tag:02x} of one alone", file.name)),
            }
        }
        // The fields that the library gives are those of the text.
        self.read("read check file", file, [&text.n, &text.m, &text.serial])?;
        self.package_fields(file, &fields, &contents)?;
        self.check_file(file, line)?;
        let slices = text.slices(&text.solving);
        self.verify(&slices, line)?;
        let package = fields.package(file);
        self.written_again(text.sizes(), &slices, &text.serial, &package)?;

        // Coordinate 0 of coefficient 0 is the first word of a.
        let mut tampered = file.clone();
        let a = fields.range(tag::A).expect("a field of a check file");
        tampered.words[a.start + 1].value ^= 1;
        same(&text.tampered_file, &tampered)?;
        self.check_file(&text.tampered_file, &text.tampered_line)?;
        self.changes(file, &fields.ends(), &text.changes)
    }

    /// The changes of the last byte of each field.
    fn changes(&mut self, file: &List, ends: &[usize], changes: &[Change]) -> Result<(), String> {
        if ends.len() != changes.len() {
            let found = changes.len();
            return Err(format!("{found} changes, expected {}", ends.len()));
        }
        for (change, &end) in changes.iter().zip(ends) {
            let [offset, before, after] = [0, 1, 2].map(|index| change.bytes.value(index));
            if offset != end || before != file.value(end) || after == before {
                let place = change.bytes.place(0);
                return Err(format!("{place}: no change of the last byte of a field"));
            }
            let mut changed = file.clone();
            changed.words[end].value = after as u64;
            self.check_file(&changed, &change.line)?;
        }
        Ok(())
    }
}
