//! The cases of perkcheck about the target y, field 04.

use super::cases::Cases;
use super::fields::{set_word, Fields};
use super::sample;
use crate::package::{index_of, stated_of, tag, y_field, HEAD};
use crate::samples::{elements, Sample};
use std::cmp::Ordering;

/// The fields with this y after x, before one that was there.
fn with_y(fields: &Fields, y: &[u16]) -> Fields {
    fields.changed(|list| list.insert(index_of(list, tag::X) + 1, y_field(y)))
}

/// n = 3, m = 2, x = (1 2 4), H = (2 1 0; c 0 0) and y = (0, c), or the rows the
/// other way round. The positions 0 1 2 solve it: 2 1 + 1 2 = 0 and c 1 = c.
fn two_rows(c: u16, first: bool) -> Sample {
    let (zero, other) = ([2, 1, 0], [c, 0, 0]);
    let (h, y) = if first {
        ([other, zero], [c, 0])
    } else {
        ([zero, other], [0, c])
    };
    Sample {
        m: 2,
        h: h.concat(),
        x: vec![1, 2, 4],
        y: y.to_vec(),
        alpha: elements(&[1, 2, 3, 4, 5]),
        ..Sample::three()
    }
}

impl Cases {
    /// The cases about y, with the files of key A that have a target and with
    /// others.
    pub(super) fn targets(&mut self) {
        let key = Sample::key_a_with_target();
        let fields = Fields::of(&key);
        self.judged_targets(&key);
        self.two_elements();
        self.tag_faults(&fields, tag::Y);
        self.length_faults(&fields, tag::Y);
        self.large_values(&fields, tag::Y);
        self.two_faults_of(&fields, tag::Y);
        for other in fields.tags() {
            match fields.index(other).cmp(&fields.index(tag::Y)) {
                Ordering::Less => self.early_and_late(&fields, other, tag::Y),
                Ordering::Equal => {}
                Ordering::Greater => self.early_and_late(&fields, tag::Y, other),
            }
        }
        self.other_lengths(&fields, "y");
        self.other_lengths(&Fields::of(&sample(5, 2)), "n5_y");
        self.other_places(&fields);
        self.cut_targets(&fields);
        self.zero_targets(&key);
    }

    /// Files with and without y, where y counts and where it does not.
    fn judged_targets(&mut self, key: &Sample) {
        let fields = Fields::of(key);
        self.judged("target", &fields, key, "accepted");
        self.judged("target_gone", &fields.without(tag::Y), key, "rejected");
        for word in [1, 4, 2047] {
            let other = fields.with(tag::Y, |field| set_word(field, 0, word));
            self.judged(format!("target_{word}"), &other, key, "rejected");
        }
        let key_a = Sample::key_a();
        let added = with_y(&Fields::of(&key_a), &key.y);
        self.judged("target_added", &added, &key_a, "rejected");
        for serial in [65_535, 65_536] {
            let other = Sample {
                serial,
                ..key.clone()
            };
            let name = format!("target_serial_{serial}");
            self.judged(name, &Fields::of(&other), &other, "accepted");
        }
        // y comes with the power d of the challenge, and with weights of its own.
        let mut at_zero = key.clone();
        at_zero.delta.fill(0);
        at_zero.make_honest();
        let mut weightless = key.clone();
        weightless.alpha = elements(&[1, 2, 0]);
        for (name, sample) in [("delta_0", at_zero), ("alpha_0", weightless)] {
            let fields = Fields::of(&sample);
            self.judged(format!("target_{name}"), &fields, &sample, "accepted");
            let gone = fields.without(tag::Y);
            self.judged(format!("target_{name}_gone"), &gone, &sample, "accepted");
        }
    }

    /// Two elements, one of them zero.
    fn two_elements(&mut self) {
        for c in [1, 255, 256, 1024, 2047] {
            for (first, name) in [(false, format!("y_0_{c}")), (true, format!("y_{c}_0"))] {
                let sample = two_rows(c, first);
                let fields = Fields::of(&sample);
                self.judged(name.clone(), &fields, &sample, "accepted");
                let gone = fields.without(tag::Y);
                self.judged(format!("{name}_gone"), &gone, &sample, "rejected");
            }
        }
        let fields = Fields::of(&two_rows(1, true));
        for (y, number) in [([0, 0], 14), ([0, 2048], 4), ([2048, 0], 4)] {
            let other = fields.with(tag::Y, |field| *field = y_field(&y));
            self.refused(format!("y_{}_{}", y[0], y[1]), other.bytes(), number);
        }
    }

    /// The length 2n in place of 2m, and other ones, with the content as it was
    /// and with content of that length.
    fn other_lengths(&mut self, fields: &Fields, name: &str) {
        let sizes = &fields.field(tag::SIZES).content;
        let of_x = 2 * u16::from(sizes[0]);
        for (word, length) in [("2n", of_x), ("1024", 1024), ("2_high", 0x0200)] {
            let other = fields.with(tag::Y, |field| field.length = length);
            self.refused(format!("{name}_length_{word}"), other.bytes(), 11);
            let content = usize::from(length);
            let other = other.with(tag::Y, |field| field.content.resize(content, 0));
            self.refused(format!("{name}_size_{word}"), other.bytes(), 11);
        }
    }

    /// y before another field than the serial, at the end, and a second time.
    fn other_places(&mut self, fields: &Fields) {
        let rest = fields.without(tag::Y);
        for (place, tag) in rest.tags().into_iter().enumerate() {
            if tag == tag::SERIAL {
                continue;
            }
            let name = format!("y_before_{}", stated_of(tag).name);
            let y = fields.field(tag::Y).clone();
            let bytes = rest.edited(|list| list.insert(place, y));
            self.refused(name, bytes, 10);
        }
        let y = fields.field(tag::Y).clone();
        self.refused("y_at_end", rest.edited(|list| list.push(y)), 12);
        // There, and once more later.
        for later in [tag::SERIAL, tag::T, tag::A, tag::Q] {
            let name = format!("y_again_after_{}", stated_of(later).name);
            let y = fields.field(tag::Y).clone();
            let bytes = fields.edited(|list| list.insert(index_of(list, later) + 1, y));
            self.refused(name, bytes, 10);
        }
    }

    /// The file cut after each byte of y and of the next head; a last byte where
    /// y or the serial may come next.
    fn cut_targets(&mut self, fields: &Fields) {
        let whole = HEAD + fields.field(tag::Y).content.len();
        for more in 0..whole + HEAD {
            let bytes = fields.cut(tag::Y, more);
            self.refused(format!("y_cut_{more}"), bytes, 9);
        }
        let before = fields.cut(tag::Y, 0);
        for byte in [tag::X, tag::Y, tag::SERIAL, 0] {
            let bytes = [&before[..], &[byte]].concat();
            self.refused(format!("y_alone_{byte:02x}"), bytes, 9);
        }
    }

    /// y all zero, alone and beside a fault of another field.
    fn zero_targets(&mut self, key: &Sample) {
        let zero = |fields: &Fields| fields.with(tag::Y, |field| field.content.fill(0));
        let larger = zero(&Fields::of(&sample(5, 2)));
        self.refused("n5_y_0", larger.bytes(), 14);
        let added = with_y(&Fields::of(&Sample::key_a()), &[0]);
        self.refused("y_0_added", added.bytes(), 14);
        let zero = zero(&Fields::of(key));
        self.refused("y_0", zero.bytes(), 14);
        let twice = with_y(&zero, &[0]);
        self.refused("y_0_twice", twice.bytes(), 14);
        self.refused("y_0_after", [zero.bytes(), vec![0]].concat(), 14);
        self.beside_other_faults("y_0", &zero, tag::Y, 14);
    }
}
