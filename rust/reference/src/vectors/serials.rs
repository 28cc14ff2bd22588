//! The cases of perkcheck about serials: both lengths, other lengths, and a
//! serial in four bytes that fits two.

use super::cases::Cases;
use super::fields::{lengthen, Fields};
use crate::package::{tag, HEAD};
use crate::samples::Sample;

/// The serial that needs four bytes, and is the least of them.
const LEAST_LONG: u32 = 65_536;

/// Lengths that a serial does not have, some with the byte 2 or 4.
const OTHER_LENGTHS: [u16; 14] = [
    0, 1, 3, 5, 6, 8, 0x0102, 0x0104, 0x0200, 0x0204, 0x0400, 0x0404, 0x8004, 0xff04,
];

/// Up to this length there is a case with as much content.
const FILLED: u16 = 0x0404;

/// The key with another serial.
fn with_serial(key: &Sample, serial: u32) -> Sample {
    Sample {
        serial,
        ..key.clone()
    }
}

impl Cases {
    /// The cases about serials, with the files of this key.
    pub(super) fn serials(&mut self, key: &Sample) {
        let of = |serial| Fields::of(&with_serial(key, serial));
        self.right_serials(key);
        for serial in [0, 1, 255, 256, 32_768, 65_535] {
            let fields = of(serial).with(tag::SERIAL, lengthen);
            self.refused(format!("serial_{serial}_in_4"), fields.bytes(), 19);
        }
        for serial in [key.serial, LEAST_LONG] {
            self.lengths_of_serial(&of(serial), serial);
        }
        // The other one of the two lengths: the content of the serial is taken
        // for the next head, or the next head for content.
        for (serial, length, number) in [(LEAST_LONG, 2, 10), (key.serial, 4, 10), (0, 4, 19)] {
            let fields = of(serial).with(tag::SERIAL, |field| field.length = length);
            let name = format!("serial_{serial}_length_{length}");
            self.refused(name, fields.bytes(), number);
        }
        for more in 0..HEAD + of(LEAST_LONG).field(tag::SERIAL).content.len() {
            let bytes = of(LEAST_LONG).cut(tag::SERIAL, more);
            self.refused(format!("serial_{LEAST_LONG}_cut_{more}"), bytes, 9);
        }
        let long = of(key.serial).with(tag::SERIAL, lengthen);
        let name = format!("serial_{}_in_4", key.serial);
        self.beside_other_faults(&name, &long, tag::SERIAL, 19);
    }

    /// Serials about the limits of one, two, three and four bytes.
    fn right_serials(&mut self, key: &Sample) {
        let short = [0, 1, 255, 256, 65_535];
        let long = [LEAST_LONG, 65_537, 16_777_215, 16_777_216, 2_147_483_648];
        for serial in short.into_iter().chain(long).chain([u32::MAX]) {
            let other = with_serial(key, serial);
            let fields = Fields::of(&other);
            self.judged(format!("serial_{serial}"), &fields, &other, "accepted");
        }
    }

    /// Lengths that a serial does not have, with the content as it was and with
    /// content of that length.
    fn lengths_of_serial(&mut self, fields: &Fields, serial: u32) {
        for length in OTHER_LENGTHS {
            let other = fields.with(tag::SERIAL, |field| field.length = length);
            let name = format!("serial_{serial}_length_{length}");
            self.refused(name, other.bytes(), 11);
            if length <= FILLED {
                let content = usize::from(length);
                let other = other.with(tag::SERIAL, |field| field.content.resize(content, 0));
                let name = format!("serial_{serial}_size_{length}");
                self.refused(name, other.bytes(), 11);
            }
        }
    }
}
