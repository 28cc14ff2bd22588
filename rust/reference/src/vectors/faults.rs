//! The cases of perkcheck with one fault or two, at every field.

use super::cases::Cases;
use super::fields::{has_words, number_of_excess, set, Fields};
use crate::package::{stated_of, tag, WrittenField, HEAD};
use crate::samples::Sample;
use std::collections::BTreeSet;

/// Another tag.
fn other_tag(field: &mut WrittenField) {
    field.tag ^= 0x80;
}

/// Another length.
fn other_length(field: &mut WrittenField) {
    field.length ^= 1;
}

/// Bytes, and one more.
fn followed(mut bytes: Vec<u8>) -> Vec<u8> {
    bytes.push(0);
    bytes
}

impl Cases {
    /// Every refusal at every field where it can occur.
    pub(super) fn one_fault(&mut self, fields: &Fields) {
        for tag in fields.tags() {
            self.tag_faults(fields, tag);
            self.length_faults(fields, tag);
        }
        self.size_faults(fields);
        self.value_faults(fields);
        self.trailing(fields);
    }

    /// The refusals of place P2: a field with another tag, and one that is gone,
    /// unless it may be absent, there twice, or after the next.
    pub(super) fn tag_faults(&mut self, fields: &Fields, tag: u8) {
        let f = stated_of(tag).name;
        let index = fields.index(tag);
        let last = tag == fields.last();

        let bytes = fields.with(tag, other_tag).bytes();
        self.refused(format!("tag_{f}_wrong"), bytes, 10);
        if !stated_of(tag).optional {
            let bytes = fields.without(tag).bytes();
            self.refused(format!("gone_{f}"), bytes, if last { 9 } else { 10 });
        }
        let bytes = fields.edited(|list| list.insert(index, list[index].clone()));
        self.refused(format!("twice_{f}"), bytes, if last { 12 } else { 10 });
        if !last {
            let bytes = fields.edited(|list| list.swap(index, index + 1));
            self.refused(format!("swap_{f}"), bytes, 10);
        }
    }

    /// The refusals of place P3, with the content as it was and with content of
    /// that length.
    pub(super) fn length_faults(&mut self, fields: &Fields, tag: u8) {
        let f = stated_of(tag).name;
        let length = fields.field(tag).length;
        let mut lengths = vec![("more", length + 1), ("most", 65_535)];
        if length > 0 {
            lengths.extend([("less", length - 1), ("zero", 0)]);
        }
        for (word, written) in lengths {
            let other = fields.with(tag, |field| field.length = written);
            self.refused(format!("length_{f}_{word}"), other.bytes(), 11);
            if word == "more" || word == "less" {
                let content = usize::from(written);
                let other = other.with(tag, |field| field.content.resize(content, 0));
                self.refused(format!("size_{f}_{word}"), other.bytes(), 11);
            }
        }
    }

    /// The refusals of the sizes, and sizes that pass, so that the length of H
    /// is the first fault.
    fn size_faults(&mut self, fields: &Fields) {
        let sizes = &fields.field(tag::SIZES).content;
        let (n, m) = (sizes[0], sizes[1]);
        let mut sizes = vec![(0, m, 1), (1, m, 1), (65, m, 1), (255, m, 1)];
        sizes.extend([(65, 0, 1), (1, 0, 1), (0, 0, 1), (255, 255, 1), (1, 1, 1)]);
        sizes.extend([(n, 0, 2), (n, n, 2), (n, n + 1, 2), (n, 255, 2)]);
        sizes.extend([(64, 64, 2), (64, 0, 2), (64, 65, 2)]);
        sizes.extend([(64, m, 11), (64, 63, 11), (n + 1, m, 11), (n + 1, n, 11)]);
        let mut seen = BTreeSet::new();
        for (n, m, number) in sizes {
            if !seen.insert((n, m)) {
                continue;
            }
            let other = fields.with(tag::SIZES, |field| field.content = vec![n, m]);
            self.refused(format!("sizes_{n}_{m}"), other.bytes(), number);
        }
    }

    /// The refusals of elements and of bits that are too large: large ones at
    /// the first place, the least at a middle place and at the last.
    fn value_faults(&mut self, fields: &Fields) {
        let (words, others): (Vec<u8>, Vec<u8>) =
            fields.tags().into_iter().partition(|&tag| has_words(tag));
        for tag in words.into_iter().chain(others) {
            self.large_values(fields, tag);
        }
    }

    /// Those of the field with this tag, if it can have one.
    pub(super) fn large_values(&mut self, fields: &Fields, tag: u8) {
        let f = stated_of(tag).name;
        let length = fields.field(tag).content.len();
        let Some(number) = number_of_excess(tag).filter(|_| length > 0) else {
            return;
        };
        let (values, count) = if has_words(tag) {
            ([2048, 4096, 32_768, 65_535], length / 2)
        } else {
            ([2, 3, 128, 255], length)
        };
        let with = |place, value| fields.with(tag, |field| set(field, place, value)).bytes();
        for value in values {
            self.refused(format!("{f}_{value}"), with(0, value), number);
        }
        let least = values[0];
        for (word, place) in [("mid", count / 2), ("end", count - 1)] {
            self.refused(format!("{f}_{least}_{word}"), with(place, least), number);
        }
    }

    /// The refusals of place P6.
    fn trailing(&mut self, fields: &Fields) {
        let file = fields.bytes();
        for count in [1, 2, 3, 4, 1000] {
            for byte in [0, 0x14] {
                let mut bytes = file.clone();
                bytes.resize(file.len() + count, byte);
                self.refused(format!("after_{count}_{byte:02x}"), bytes, 12);
            }
        }
        let bytes = fields.edited(|list| list.push(WrittenField::new(0x15, vec![1, 2])));
        self.refused("after_field", bytes, 12);
        self.refused("after_file", [file.clone(), file].concat(), 12);
    }

    /// Two faults in one field, and a fault before bytes that follow the file.
    pub(super) fn two_faults(&mut self, fields: &Fields) {
        for tag in fields.tags() {
            self.two_faults_of(fields, tag);
        }
    }

    /// Those of the field with this tag.
    pub(super) fn two_faults_of(&mut self, fields: &Fields, tag: u8) {
        let f = stated_of(tag).name;
        let [tagged, sized] = [other_tag, other_length].map(|change| fields.with(tag, change));

        // P1 and P2.
        let mut bytes = fields.cut(tag, HEAD - 1);
        bytes[fields.start(tag)] ^= 0x80;
        self.refused(format!("two_{f}_head_tag"), bytes, 9);
        // P2 and P3.
        let other = fields.with(tag, |field| {
            field.length += 1;
            other_tag(field);
        });
        self.refused(format!("two_{f}_tag_length"), other.bytes(), 10);
        // P3 and P4.
        let bytes = sized.cut(tag, HEAD);
        self.refused(format!("two_{f}_length_cut"), bytes, 11);
        // P2 and P4.
        let mut bytes = fields.cut(tag, HEAD);
        bytes[fields.start(tag)] ^= 0x80;
        self.refused(format!("two_{f}_tag_cut"), bytes, 10);
        // P2 and P6, P3 and P6.
        let bytes = followed(tagged.bytes());
        self.refused(format!("two_{f}_tag_after"), bytes, 10);
        let bytes = followed(sized.bytes());
        self.refused(format!("two_{f}_length_after"), bytes, 11);

        let Some((number, faulty)) = fields.with_value_fault(tag) else {
            return;
        };
        let length = faulty.field(tag).content.len();
        // P2 and P5.
        let bytes = faulty.with(tag, other_tag).bytes();
        self.refused(format!("two_{f}_tag_value"), bytes, 10);
        // P3 and P5.
        let bytes = faulty.with(tag, other_length).bytes();
        self.refused(format!("two_{f}_length_value"), bytes, 11);
        // P4 and P5.
        let bytes = faulty.cut(tag, HEAD + length - 1);
        self.refused(format!("two_{f}_cut_value"), bytes, 9);
        // P5, and the file ends after the field.
        let bytes = faulty.cut(tag, HEAD + length);
        self.refused(format!("two_{f}_value_end"), bytes, number);
        // P5 and P6.
        let bytes = followed(faulty.bytes());
        self.refused(format!("two_{f}_value_after"), bytes, number);
    }

    /// Two faults in two fields: the earlier field decides, whatever the
    /// places and numbers are.
    pub(super) fn two_fields(&mut self, fields: &Fields) {
        let tags = fields.tags();
        for (index, &early) in tags.iter().enumerate() {
            for &late in &tags[index + 1..] {
                self.early_and_late(fields, early, late);
            }
        }
    }

    /// Those of the fields with these two tags.
    pub(super) fn early_and_late(&mut self, fields: &Fields, early: u8, late: u8) {
        let names = format!("{}_{}", stated_of(early).name, stated_of(late).name);
        // A value fault before a wrong tag.
        if let Some((number, faulty)) = fields.with_value_fault(early) {
            let bytes = faulty.with(late, other_tag).bytes();
            self.refused(format!("value_tag_{names}"), bytes, number);
        }
        // A wrong length before a value fault.
        if let Some((_, faulty)) = fields.with_value_fault(late) {
            let bytes = faulty.with(early, other_length).bytes();
            self.refused(format!("length_value_{names}"), bytes, 11);
        }
    }

    /// A fault of the values of one field, which has this number, and a fault of
    /// another: the earlier field decides.
    pub(super) fn beside_other_faults(&mut self, name: &str, faulty: &Fields, of: u8, number: u32) {
        let place = faulty.index(of);
        for tag in faulty.tags().into_iter().filter(|&tag| tag != of) {
            let mut faults = vec![
                ("tag", 10, faulty.with(tag, other_tag)),
                ("length", 11, faulty.with(tag, other_length)),
            ];
            if let Some((other, faulty)) = faulty.with_value_fault(tag) {
                faults.push(("value", other, faulty));
            }
            let early = faulty.index(tag) < place;
            for (word, other, both) in faults {
                let name = format!("{name}_{}_{word}", stated_of(tag).name);
                self.refused(name, both.bytes(), if early { other } else { number });
            }
        }
        // The next field is cut.
        let next = faulty.tags()[place + 1];
        for more in 0..=HEAD {
            let name = format!("{name}_{}_cut_{more}", stated_of(next).name);
            self.refused(name, faulty.cut(next, more), number);
        }
    }

    /// Some faults at every field of a larger key, and two at once. A field that
    /// may be absent is counted in the proof.
    pub(super) fn larger_key(&mut self, key: &Sample) {
        let fields = &Fields::of(key);
        for tag in fields.tags() {
            let f = stated_of(tag).name;
            let length = usize::from(fields.field(tag).length);
            let sized = fields.with(tag, other_length);

            self.refused(format!("n5_{f}_head"), fields.cut(tag, HEAD - 1), 9);
            let bytes = fields.with(tag, other_tag).bytes();
            self.refused(format!("n5_{f}_tag"), bytes, 10);
            let (name, gone) = (format!("n5_{f}_gone"), fields.without(tag));
            if stated_of(tag).optional {
                self.judged(name, &gone, key, "rejected");
            } else {
                let number = if tag == fields.last() { 9 } else { 10 };
                self.refused(name, gone.bytes(), number);
            }
            self.refused(format!("n5_{f}_length"), sized.bytes(), 11);
            let bytes = fields.cut(tag, HEAD + length - 1);
            self.refused(format!("n5_{f}_cut"), bytes, 9);

            let bytes = sized.cut(tag, HEAD);
            self.refused(format!("n5_{f}_length_cut"), bytes, 11);
            let Some((number, faulty)) = fields.with_value_fault(tag) else {
                continue;
            };
            self.refused(format!("n5_{f}_value"), faulty.bytes(), number);
            let length = faulty.field(tag).content.len();
            let bytes = faulty.cut(tag, HEAD + length - 1);
            self.refused(format!("n5_{f}_cut_value"), bytes, 9);
            let bytes = faulty.cut(tag, HEAD + length);
            self.refused(format!("n5_{f}_value_end"), bytes, number);
        }
        for count in [1, 3, 1000] {
            let mut bytes = fields.bytes();
            bytes.resize(bytes.len() + count, 0);
            self.refused(format!("n5_after_{count}"), bytes, 12);
        }
    }
}
