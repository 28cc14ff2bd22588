//! The cases of perkcheck: files that are accepted or rejected, files that end
//! early and large files. The other faults are made in [`super::faults`].

use super::fields::{has_words, set_word, Fields};
use super::{generator, sample, solving, File, SIZES};
use crate::package::{stated_of, tag, Kind};
use crate::perkcheck::{perkcheck_line, LIMIT};
use crate::samples::Sample;
use std::collections::BTreeSet;

/// One case: the name of its file, its bytes, and the line that is printed.
pub struct Case {
    /// The name of the file.
    pub name: String,
    /// The bytes of the file.
    pub bytes: Vec<u8>,
    /// The line, with its line end.
    pub line: String,
}

/// The cases of perkcheck. The line of each is stated where the case is made
/// and compared with [`perkcheck_line`].
pub struct Cases(Vec<Case>);

impl Cases {
    /// All cases in their order.
    pub fn all() -> Cases {
        let mut cases = Cases(Vec::new());
        let key_a = Fields::of(&Sample::key_a());
        cases.verdicts();
        cases.one_fault(&key_a);
        cases.two_faults(&key_a);
        cases.two_fields(&key_a);
        cases.larger_key(&sample(5, 2));
        cases.serials(&Sample::key_a());
        cases.targets();
        cases.leaning();
        cases.ends(&key_a);
        cases.long(&key_a);
        cases.largest();
        cases
    }

    /// The cases as a list.
    pub fn list(&self) -> &[Case] {
        &self.0
    }

    /// The files `args`, `stdout` and `data/NAME` below `perkcheck_cases`.
    pub(super) fn files(&self) -> Vec<File> {
        let args: String = self.0.iter().map(|case| case.name.clone() + "\n").collect();
        let stdout: String = self.0.iter().map(|case| case.line.as_str()).collect();
        let mut files = vec![
            ("perkcheck_cases/args".to_string(), args.into_bytes()),
            ("perkcheck_cases/stdout".to_string(), stdout.into_bytes()),
        ];
        let mut names = BTreeSet::new();
        for case in &self.0 {
            assert!(names.insert(&case.name), "{} is there twice", case.name);
            let path = format!("perkcheck_cases/data/{}", case.name);
            files.push((path, case.bytes.clone()));
        }
        files
    }

    /// Adds a case with its stated line.
    fn add(&mut self, name: impl Into<String>, bytes: Vec<u8>, line: impl Into<String>) {
        let name = name.into();
        let line = line.into() + "\n";
        assert_eq!(perkcheck_line(&bytes), line, "case {name}");
        self.0.push(Case { name, bytes, line });
    }

    /// Adds a case that is refused with this number.
    pub(super) fn refused(&mut self, name: impl Into<String>, bytes: Vec<u8>, number: u32) {
        self.add(name, bytes, format!("refused {number}"));
    }

    /// Adds a case that is accepted or rejected with the head of this sample.
    pub(super) fn judged(
        &mut self,
        name: impl Into<String>,
        fields: &Fields,
        of: &Sample,
        word: &str,
    ) {
        let Sample { n, m, serial, .. } = of;
        let line = format!("serial {serial} n {n} m {m} {word}");
        self.add(name, fields.bytes(), line);
    }

    /// Accepted and rejected files.
    fn verdicts(&mut self) {
        let key_a = Sample::key_a();
        let fields = Fields::of(&key_a);
        self.judged("key_a", &fields, &key_a, "accepted");
        let other = fields.with(tag::A, |field| set_word(field, 0, 4));
        self.judged("key_a_a_4", &other, &key_a, "rejected");
        self.sizes();
        self.largest_words();
        self.zeros();
    }

    /// Each size, and a change of each field but the sizes and the serial.
    fn sizes(&mut self) {
        for (n, m) in SIZES {
            let sample = sample(n, m);
            let fields = Fields::of(&sample);
            let name = format!("n{n:02}_m{m:02}");
            self.judged(name.clone(), &fields, &sample, "accepted");
            if n > 17 {
                continue;
            }
            for tag in fields.tags() {
                let field = stated_of(tag);
                if matches!(field.kind, Kind::Sizes | Kind::Serial) {
                    continue;
                }
                let Some(last) = fields.field(tag).content.len().checked_sub(1) else {
                    continue;
                };
                let other = fields.with(tag, |field| field.content[last] ^= 1);
                let name = format!("{name}_{}", field.name);
                self.judged(name, &other, &sample, "rejected");
            }
        }
    }

    /// 2047 in every coordinate is no refusal.
    fn largest_words(&mut self) {
        let mut sample = solving(3, 2, generator(3, 2));
        for list in [&mut sample.v, &mut sample.r, &mut sample.alpha] {
            list.fill(2047);
        }
        sample.delta.fill(2047);
        sample.make_honest();
        let fields = Fields::of(&sample);
        self.judged("words_2047", &fields, &sample, "accepted");
        for tag in fields.tags().into_iter().filter(|&tag| has_words(tag)) {
            let other = fields.with(tag, |field| {
                for word in 0..field.content.len() / 2 {
                    set_word(field, word, 2047);
                }
                // So that the rows do not depend on each other.
                if tag == tag::H {
                    (1..sample.m).for_each(|e| set_word(field, sample.n * e + e, 2046));
                }
            });
            let accepted = perkcheck_line(&other.bytes()).ends_with("accepted\n");
            let word = if accepted { "accepted" } else { "rejected" };
            let name = format!("{}_2047", stated_of(tag).name);
            self.judged(name, &other, &sample, word);
        }
    }

    /// The equation alone decides: zero weights, then a zero challenge.
    fn zeros(&mut self) {
        let mut sample = solving(5, 2, generator(5, 1));
        sample.alpha.fill(0);
        let fields = Fields::of(&sample).with(tag::T, |field| field.content.fill(1));
        self.judged("alpha_0_any_t", &fields, &sample, "accepted");
        let mut sample = solving(5, 2, generator(5, 1));
        sample.delta.fill(0);
        sample.make_honest();
        let fields = Fields::of(&sample);
        self.judged("delta_0", &fields, &sample, "accepted");
        for (mask, word) in [(0, "rejected"), (1, "accepted")] {
            let other = fields.with(tag::MASKS, |field| field.content[24 * mask + 1] ^= 1);
            self.judged(format!("delta_0_mask_{mask}"), &other, &sample, word);
        }
    }

    /// The empty file, a package alone, and cuts at every byte of a file.
    fn ends(&mut self, fields: &Fields) {
        let file = fields.bytes();
        let [package, check] = fields.parts();
        self.refused("empty", Vec::new(), 9);
        self.refused("package_alone", package, 9);
        self.refused("check_alone", check, 10);
        for length in 0..file.len() {
            self.refused(format!("cut_{length:03}"), file[..length].to_vec(), 9);
        }
    }

    /// Files longer than 32,768 bytes.
    fn long(&mut self, fields: &Fields) {
        let file = fields.bytes();
        for length in [LIMIT - 1, LIMIT, LIMIT + 1, 40_000] {
            let mut bytes = file.clone();
            bytes.resize(length, 0xff);
            self.refused(format!("long_{length}"), bytes, 12);
        }
        self.refused("long_zeros", vec![0; LIMIT + 2], 10);

        for (tag, length) in [(tag::ALPHA, 40_000), (tag::H, 65_535)] {
            let other = fields.with(tag, |field| {
                field.content.resize(usize::from(length), 0);
                field.length = length;
            });
            let name = format!("long_{}", stated_of(tag).name);
            self.refused(name, other.bytes(), 11);
        }
        let other = fields
            .with(tag::DELTA, |field| set_word(field, 0, 2048))
            .with(tag::ALPHA, |field| field.content.resize(LIMIT, 0));
        self.refused("long_delta_2048", other.bytes(), 6);
    }

    /// The largest valid file.
    fn largest(&mut self) {
        let sample = sample(64, 63);
        let fields = Fields::of(&sample);
        let file = fields.bytes();
        self.judged("largest", &fields, &sample, "accepted");
        let last = fields.field(tag::ALPHA).content.len() - 1;
        let other = fields.with(tag::ALPHA, |field| field.content[last] ^= 1);
        self.judged("largest_alpha", &other, &sample, "rejected");
        let mut bytes = file.clone();
        bytes.push(0);
        self.refused("largest_after_1", bytes, 12);
        self.refused("largest_cut", file[..file.len() - 1].to_vec(), 9);
        let other = fields.with(tag::ALPHA, |field| set_word(field, last / 2, 2048));
        self.refused("largest_alpha_2048", other.bytes(), 6);
        self.refused("largest_twice", [file.clone(), file].concat(), 12);
    }
}
