//! The cases of perkcheck about rows of H that lean on each other.

use super::cases::Cases;
use super::fields::{set_word, Fields};
use super::{generator, sample, solving};
use crate::package::{index_of, tag, y_field, HEAD};
use crate::samples::{Generator, Leaning, Sample};

/// The fields of a check file of a key whose rows lean in this way, and which
/// has no other fault: its positions solve it, and the equation holds.
fn leaning_fields(of: &Sample, leaning: Leaning, generator: &mut Generator) -> Fields {
    Fields::unjudged(&of.leaning(leaning, generator))
}

/// n = 3, m = 2, x = (1 2 4) and H = (2 1 0; 4 2 0), whose second row is 2 times
/// the first. The positions 0 1 2 solve it with y = (0 0), and 1 0 2 with y = (5
/// 10): 2 2 + 1 1 = 5.
fn second_is_twice_the_first(target: bool) -> Sample {
    let mut sample = Sample {
        m: 2,
        h: vec![2, 1, 0, 4, 2, 0],
        x: vec![1, 2, 4],
        alpha: crate::samples::elements(&[1, 2, 3, 4, 5]),
        ..Sample::three()
    };
    if target {
        sample.positions = vec![1, 0, 2];
    }
    sample.set_target();
    assert_eq!(sample.y, if target { [5, 10] } else { [0, 0] });
    sample
}

impl Cases {
    /// The cases about leaning rows.
    pub(super) fn leaning(&mut self) {
        self.leaning_alone();
        let fields = Fields::unjudged(&second_is_twice_the_first(false));
        self.leaning_without_target(&fields);
        let fields = Fields::unjudged(&second_is_twice_the_first(true));
        self.leaning_with_target(&fields);
    }

    /// Files with no other fault.
    fn leaning_alone(&mut self) {
        let key_a = Sample {
            h: vec![0, 0],
            ..Sample::key_a()
        };
        let fields = Fields::unjudged(&key_a);
        self.refused("leaning_key_a", fields.bytes(), 15);
        let generator = &mut generator(15, 4);
        let keys = [
            ("n03_m02", solving(3, 2, generator.clone())),
            ("n05_m02", sample(5, 2)),
            ("n08_m03", sample(8, 3)),
            ("n17_m08", sample(17, 8)),
        ];
        for (name, key) in keys {
            for (way, leaning) in [
                ("multiple", Leaning::Multiple),
                ("sum", Leaning::Sum),
                ("zero_row", Leaning::ZeroRow),
                ("all_zero", Leaning::AllZero),
            ] {
                if leaning.least_rows() <= key.m {
                    let fields = leaning_fields(&key, leaning, generator);
                    self.refused(format!("leaning_{name}_{way}"), fields.bytes(), 15);
                }
            }
        }
        let fields = leaning_fields(&sample(64, 63), Leaning::Sum, generator);
        self.refused("leaning_largest", fields.bytes(), 15);
    }

    /// Beside other faults, without y: those of x come first, those of all later
    /// fields do not.
    fn leaning_without_target(&mut self, fields: &Fields) {
        self.refused("leaning", fields.bytes(), 15);
        self.beside_other_faults("leaning", fields, tag::X, 15);
        let other = fields.with(tag::X, |field| field.tag ^= 0x80);
        self.refused("leaning_x_tag", other.bytes(), 10);
        let other = fields.with(tag::X, |field| field.length ^= 1);
        self.refused("leaning_x_length", other.bytes(), 11);
        let other = fields.with(tag::X, |field| set_word(field, 2, 2048));
        self.refused("leaning_x_value", other.bytes(), 4);
        let x = HEAD + fields.field(tag::X).content.len();
        for more in [0, HEAD - 1, HEAD, x - 1] {
            let name = format!("leaning_x_cut_{more}");
            self.refused(name, fields.cut(tag::X, more), 9);
        }
        // One byte, or two, after x: 04 is that of a field of the key.
        let before = fields.cut(tag::SERIAL, 0);
        for byte in [tag::X, tag::Y, tag::SERIAL, 0, 0xff] {
            let number = if byte == tag::Y { 9 } else { 15 };
            for rest in [&[byte][..], &[byte, 0]] {
                let name = format!("leaning_alone_{byte:02x}_{}", rest.len());
                self.refused(name, [&before[..], rest].concat(), number);
            }
        }
        let mut after = fields.bytes();
        after.push(0);
        self.refused("leaning_after", after, 15);
        let later = fields.edited(|list| {
            let y = y_field(&[5, 10]);
            list.insert(index_of(list, tag::SERIAL) + 1, y);
        });
        self.refused("leaning_y_later", later, 15);
    }

    /// Beside other faults, with y: those of x and y come first.
    fn leaning_with_target(&mut self, fields: &Fields) {
        self.refused("leaning_y", fields.bytes(), 15);
        self.beside_other_faults("leaning_y", fields, tag::Y, 15);
        // Without its tag it is no field of the key.
        let other = fields.with(tag::Y, |field| field.tag ^= 0x80);
        self.refused("leaning_y_tag", other.bytes(), 15);
        let other = fields.with(tag::Y, |field| field.length ^= 1);
        self.refused("leaning_y_length", other.bytes(), 11);
        let other = fields.with(tag::Y, |field| field.length = 6);
        self.refused("leaning_y_length_2n", other.bytes(), 11);
        for place in [0, 1] {
            let other = fields.with(tag::Y, |field| set_word(field, place, 2048));
            self.refused(format!("leaning_y_value_{place}"), other.bytes(), 4);
        }
        let zero = fields.with(tag::Y, |field| field.content.fill(0));
        self.refused("leaning_y_0", zero.bytes(), 14);
        let y = HEAD + fields.field(tag::Y).content.len();
        for more in 0..=y {
            let number = if (1..y).contains(&more) { 9 } else { 15 };
            let name = format!("leaning_y_cut_{more}");
            self.refused(name, fields.cut(tag::Y, more), number);
        }
        let twice = fields.edited(|list| list.insert(index_of(list, tag::Y), y_field(&[5, 10])));
        self.refused("leaning_y_twice", twice, 15);
        // A second y of zeros does not count any more.
        let twice = fields.edited(|list| list.insert(index_of(list, tag::Y) + 1, y_field(&[0, 0])));
        self.refused("leaning_y_twice_0", twice, 15);
    }
}
