//! Bundles as they are written, and faults of them.

use super::{Generator, Leaning};
use crate::key::Key;
use crate::package::{
    group_fields, join, key_fields, serial_bytes, stated_of, tag, words, Group, Kind, WrittenField,
    HEAD,
};
use crate::refusal::Refusal;

/// A bundle as it is written, right or wrong.
#[derive(Clone, Debug, PartialEq, Eq)]
pub struct WrittenBundle {
    /// The fields: those of the key, then three for each group.
    pub fields: Vec<WrittenField>,
    /// Where the bytes end before those of all fields: in which field, and how
    /// many bytes of it are there.
    pub end: Option<(usize, usize)>,
}

/// The number of fields of a group.
const GROUP_FIELDS: usize = 3;

impl WrittenBundle {
    /// The bundle of a key and groups; nothing is judged.
    pub fn new(key: Key<'_>, groups: &[Group]) -> WrittenBundle {
        let mut fields = key_fields(key);
        for Group { serial, t, a } in groups {
            fields.extend(group_fields(*serial, t, a));
        }
        WrittenBundle { fields, end: None }
    }

    /// Its bytes.
    pub fn bytes(&self) -> Vec<u8> {
        let Some((last, count)) = self.end else {
            return join(&self.fields);
        };
        let mut bytes = join(&self.fields[..last]);
        bytes.extend(&join(&self.fields[last..=last])[..count]);
        bytes
    }

    /// Ends the bytes in this field after so many bytes of it, unless they end
    /// before.
    pub fn end_in(&mut self, field: usize, count: usize) {
        let end = (field, count);
        self.end = Some(self.end.map_or(end, |before| before.min(end)));
    }

    /// The number of key fields.
    pub fn key_fields(&self) -> usize {
        let mut fields = self.fields.iter();
        let serial = fields.position(|field| field.tag == tag::SERIAL);
        serial.unwrap_or(self.fields.len())
    }

    /// The number of the group of a field, and its place there; none of a key field.
    fn in_group(&self, field: usize) -> Option<(usize, usize)> {
        let place = field.checked_sub(self.key_fields())?;
        Some((place / GROUP_FIELDS, place % GROUP_FIELDS))
    }

    /// The name of a field: that of the table of fields, and the number of the
    /// group.
    fn name(&self, field: usize) -> String {
        let name = stated_of(self.fields[field].tag).name;
        match self.in_group(field) {
            Some((group, _)) => format!("{name}_{group}"),
            None => name.to_string(),
        }
    }
}

/// What a fault does to a bundle.
type Change = Box<dyn Fn(&mut WrittenBundle)>;

/// A fault of a bundle.
pub struct BundleFault {
    /// The refusal.
    pub refusal: Refusal,
    /// A name of one word.
    pub name: String,
    /// What it does to the bundle.
    pub change: Change,
}

/// A bundle and the list of its faults, which is being made.
struct Faults<'a> {
    bundle: &'a WrittenBundle,
    list: Vec<BundleFault>,
}

/// The faults of a bundle without a fault, in the order in which they are judged:
/// where it has two of them, the refusal of the first is the answer, if the second
/// is made before the first.
pub fn bundle_faults(bundle: &WrittenBundle) -> Vec<BundleFault> {
    let list = Vec::new();
    let mut faults = Faults { bundle, list };
    let last_of_key = bundle.key_fields() - 1;
    for field in 0..bundle.fields.len() {
        faults.head(field);
        faults.length(field);
        faults.values(field);
        if field == last_of_key {
            faults.rows();
        }
    }
    faults.list
}

impl Faults<'_> {
    /// Adds a fault.
    fn add(&mut self, refusal: Refusal, name: String, change: Change) {
        self.list.push(BundleFault {
            refusal,
            name,
            change,
        });
    }

    /// Adds a fault of the content of a field.
    fn content(
        &mut self,
        refusal: Refusal,
        field: usize,
        name: &str,
        change: impl Fn(&mut Vec<u8>) + 'static,
    ) {
        let name = format!("{}_{name}", self.bundle.name(field));
        let change = move |bundle: &mut WrittenBundle| change(&mut bundle.fields[field].content);
        self.add(refusal, name, Box::new(change));
    }

    /// P1 and P2 of a field. Where no byte of y is there, or another tag, y is
    /// absent; and a bundle may end where no byte of a further group is there.
    fn head(&mut self, field: usize) {
        let name = self.bundle.name(field);
        let right = self.bundle.fields[field].tag;
        let further = matches!(self.bundle.in_group(field), Some((1.., 0)));
        for count in 0..HEAD {
            if count > 0 || !(further || right == tag::Y) {
                let change = move |bundle: &mut WrittenBundle| bundle.end_in(field, count);
                let name = format!("{name}_head_{count}");
                self.add(Refusal::BytesMissing, name, Box::new(change));
            }
        }
        if right != tag::Y {
            for other in [right + 1, right | 0x80] {
                let change = move |bundle: &mut WrittenBundle| bundle.fields[field].tag = other;
                let name = format!("{name}_tag_{other:02x}");
                self.add(Refusal::Tag, name, Box::new(change));
            }
        }
    }

    /// P3 and P4 of a field.
    fn length(&mut self, field: usize) {
        let name = self.bundle.name(field);
        let right = self.bundle.fields[field].length;
        for other in [right - 1, 0, right + 256, right + 1] {
            let change = move |bundle: &mut WrittenBundle| bundle.fields[field].length = other;
            let name = format!("{name}_length_{other}");
            self.add(Refusal::FieldLength, name, Box::new(change));
        }
        for missing in [right, 1] {
            let missing = usize::from(missing);
            let change = move |bundle: &mut WrittenBundle| {
                let length = bundle.fields[field].content.len();
                bundle.end_in(field, HEAD + length.saturating_sub(missing));
            };
            let name = format!("{name}_without_{missing}");
            self.add(Refusal::BytesMissing, name, Box::new(change));
        }
    }

    /// P5 of a field.
    fn values(&mut self, field: usize) {
        match stated_of(self.bundle.fields[field].tag).kind {
            Kind::Sizes => self.sizes(field),
            Kind::Key => self.words(field, Refusal::KeyElement),
            Kind::Target => {
                self.words(field, Refusal::KeyElement);
                self.content(Refusal::ZeroTarget, field, "0", |content| content.fill(0));
            }
            Kind::Serial => self.serials(field),
            Kind::Bits => {
                let last = self.bundle.fields[field].content.len() - 1;
                for (place, byte) in [(0, 2), (last, 255)] {
                    let name = format!("{byte}_at_{place}");
                    let change = move |content: &mut Vec<u8>| content[place] = byte;
                    self.content(Refusal::Bit, field, &name, change);
                }
            }
            Kind::Elements => self.words(field, Refusal::Coordinate),
        }
    }

    /// 1 and 2.
    fn sizes(&mut self, field: usize) {
        for n in [1, 0, 255, 65] {
            let change = move |content: &mut Vec<u8>| content[0] = n;
            self.content(Refusal::SizeN, field, &format!("n_{n}"), change);
        }
        for m in [0, 255, self.bundle.fields[field].content[0]] {
            let change = move |content: &mut Vec<u8>| content[1] = m;
            self.content(Refusal::SizeM, field, &format!("m_{m}"), change);
        }
    }

    /// The first word 2048, or the last one 65,535.
    fn words(&mut self, field: usize, refusal: Refusal) {
        let last = self.bundle.fields[field].content.len() / 2 - 1;
        for (place, word) in [(0, 2048_u16), (last, 65_535)] {
            let name = format!("{word}_at_{place}");
            let change = move |content: &mut Vec<u8>| {
                content[2 * place..2 * place + 2].copy_from_slice(&word.to_be_bytes());
            };
            self.content(refusal, field, &name, change);
        }
    }

    /// 15.
    fn rows(&mut self) {
        const H: usize = 1;
        let n = usize::from(self.bundle.fields[0].content[0]);
        let m = usize::from(self.bundle.fields[0].content[1]);
        for leaning in Leaning::of(m) {
            self.content(Refusal::DependentRows, H, leaning.name(), move |content| {
                let mut h = words(content);
                leaning.make(&mut h, n, &mut Generator::new(6_001));
                *content = h.iter().flat_map(|word| word.to_be_bytes()).collect();
            });
        }
    }

    /// 19, also where the serial is not above the one before, and 20.
    fn serials(&mut self, field: usize) {
        let name = self.bundle.name(field);
        let set = |content: Vec<u8>| -> Change {
            let written = WrittenField::new(tag::SERIAL, content);
            Box::new(move |bundle| bundle.fields[field] = written.clone())
        };
        for serial in [0_u32, 65_535] {
            let change = set(serial.to_be_bytes().to_vec());
            self.add(Refusal::LongSerial, format!("{name}_{serial}_in_4"), change);
        }
        let Some(before) = self.before(field) else {
            return;
        };
        let mut serials = vec![before, before.saturating_sub(1), 0];
        serials.dedup();
        for serial in serials {
            let change = set(serial_bytes(serial));
            self.add(Refusal::SerialOrder, format!("{name}_{serial}"), change);
        }
    }

    /// The serial of the group before that of this field; none of the first.
    fn before(&self, field: usize) -> Option<u32> {
        let before = match self.bundle.in_group(field)? {
            (0, _) => return None,
            (_, place) => &self.bundle.fields[field - place - GROUP_FIELDS],
        };
        let bytes = before.content.iter();
        Some(bytes.fold(0, |number, &byte| number << 8 | u32::from(byte)))
    }
}
