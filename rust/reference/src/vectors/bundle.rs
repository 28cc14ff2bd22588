//! The file `bundle.txt`: bundles that are read and joined, calls of the entries
//! read bundle and join bundles that are refused, and the looks before these joins.

use super::text::file_lines;
use crate::entries::{join_bundles, look_before_join};
use crate::package::{bundle_bytes, read_bundle, Group, Joined};
use crate::refusal::Refusal;
use crate::samples::{bundle_faults, BundleFault, Generator, Material, Sample, WrittenBundle};
use std::collections::BTreeSet;

/// The name of the file.
pub const NAME: &str = "bundle.txt";

/// What the outputs hold before a call.
const BEFORE: u8 = 0xff;

/// Rooms beyond every output: the least of more than 32 bits, the least that is
/// negative as a signed number of 64 bits, and the largest.
const BEYOND: [usize; 3] = [1 << 32, 1 << 63, usize::MAX];

/// The lines of a slice of bytes: its length and its bytes.
fn slice_lines(name: &str, bytes: &[u8]) -> String {
    format!("{name}_length {}\n", bytes.len()) + &file_lines(name, bytes)
}

/// The lines of a bundle that is read.
fn lines_of_case(name: &str, bundle: &[u8]) -> String {
    let contents = read_bundle(bundle).expect("no refusal applies");
    let mut text = format!("case {name}\n");
    text += &slice_lines("bundle", bundle);
    text += &format!("n {}\nm {}\n", contents.n, contents.m);
    text + &format!("groups {}\n", contents.groups)
}

/// The lines of a bundle that is refused.
fn lines_of_refused(name: &str, bundle: &[u8], refusal: Refusal) -> String {
    assert_eq!(read_bundle(bundle), Err(refusal), "{name}");
    let mut text = format!("refused {name}\n");
    text += &slice_lines("bundle", bundle);
    text + &format!("answer {}\n", refusal.number())
}

/// What the join answers for an output of this length, and the output afterwards.
fn joined_to(length: usize, bundles: [&[u8]; 2]) -> (Result<Joined, Refusal>, Vec<u8>) {
    let mut out = vec![BEFORE; length];
    let answer = join_bundles(bundles[0], bundles[1], &mut out);
    (answer, out)
}

/// The refusal of the join for an output of this length, which keeps what it
/// holds.
fn refusal_of(length: usize, bundles: [&[u8]; 2]) -> Refusal {
    let (answer, out) = joined_to(length, bundles);
    assert_eq!(out, vec![BEFORE; length]);
    answer.expect_err("the call is refused")
}

/// Two bundles that are joined, with their name.
struct Join {
    name: String,
    bundles: [Vec<u8>; 2],
}

impl Join {
    /// The bundles.
    fn bundles(&self) -> [&[u8]; 2] {
        self.bundles.each_ref().map(|bytes| &bytes[..])
    }

    /// The length of both.
    fn most(&self) -> usize {
        self.bundles.iter().map(Vec::len).sum()
    }

    /// The lines of the bundles.
    fn slices(&self) -> String {
        let [first, second] = self.bundles();
        slice_lines("first", first) + &slice_lines("second", second)
    }

    /// What they are together, and the length and the number of groups, in a longer
    /// output.
    fn joined(&self) -> (Vec<u8>, Joined) {
        let (answer, mut out) = joined_to(self.most(), self.bundles());
        let joined = answer.expect("no refusal applies");
        let rest = out.split_off(joined.length);
        assert!(rest.iter().all(|&byte| byte == BEFORE));
        (out, joined)
    }

    /// The lines of the join.
    fn lines(&self) -> String {
        let (bytes, Joined { length, groups }) = self.joined();
        let short = refusal_of(length - 1, self.bundles());
        let mut text = format!("join {}\n", self.name);
        text += &self.slices();
        text += &format!("groups {groups}\n");
        text += &slice_lines("joined", &bytes);
        text + &format!("short_answer {}\n", short.number())
    }

    /// The lines of these rooms, in rising order, and what the look answers for
    /// every one of them.
    fn looked(&self, name: &str, rooms: &[usize]) -> (String, Result<Joined, Refusal>) {
        let [first, second] = self.bundles();
        let rooms: BTreeSet<usize> = rooms.iter().copied().collect();
        let look = |&room| look_before_join(first, second, room);
        let answers: Vec<_> = rooms.iter().map(look).collect();
        assert!(answers.iter().all(|answer| *answer == answers[0]));
        let lines = rooms.iter().map(|room| format!("{name} {room}\n"));
        (lines.collect(), answers[0])
    }

    /// The lines of the look.
    fn look_lines(&self) -> String {
        let (_, Joined { length, .. }) = self.joined();
        let rooms = [&[length, length + 1, self.most()][..], &BEYOND].concat();
        let (rooms, answer) = self.looked("room", &rooms);
        let Joined { length, groups } = answer.expect("no refusal applies");
        let mut text = format!("look {}\n{rooms}", self.name);
        text += &format!("length {length}\ngroups {groups}\n");
        let (rooms, answer) = self.looked("short_room", &[0, length - 1]);
        let short = answer.expect_err("the rooms are too short");
        text + &format!("{rooms}short_answer {}\n", short.number())
    }
}

/// Two bundles whose join is refused.
struct JoinRefused {
    join: Join,
    /// The length of the output.
    length: usize,
    refusal: Refusal,
}

impl JoinRefused {
    /// The lines of the join.
    fn lines(&self) -> String {
        let JoinRefused {
            join,
            length,
            refusal,
        } = self;
        let name = &join.name;
        assert_eq!(refusal_of(*length, join.bundles()), *refusal, "{name}");
        let mut text = format!("join_refused {name}\n");
        text += &join.slices();
        text + &format!("out_length {length}\nanswer {}\n", refusal.number())
    }

    /// The lines of the look: every room gets a refusal other than 13, and every
    /// room below the joined length 13.
    fn look_lines(&self) -> String {
        let join = &self.join;
        let most = if self.refusal == Refusal::ShortOutput {
            vec![join.joined().1.length - 1]
        } else {
            vec![join.most(), usize::MAX]
        };
        let rooms = [&[0, self.length], &most[..]].concat();
        let (rooms, answer) = join.looked("room", &rooms);
        let name = &join.name;
        assert_eq!(answer, Err(self.refusal), "{name}");
        let number = self.refusal.number();
        format!("look_refused {name}\n{rooms}answer {number}\n")
    }
}

/// The group of a key with this serial: the same for each call.
fn group(sample: &Sample, serial: u32) -> Group {
    let sizes = sample.key().sizes().expect("sizes that are not refused");
    Generator::new(6_100 + u64::from(serial)).group(sizes, serial)
}

/// The groups of a key with these serials.
fn groups(sample: &Sample, serials: &[u32]) -> Vec<Group> {
    let group = |&serial: &u32| group(sample, serial);
    serials.iter().map(group).collect()
}

/// The bundle of a key and its groups with these serials.
fn bundle(sample: &Sample, serials: &[u32]) -> Vec<u8> {
    bundle_bytes(sample.key(), &groups(sample, serials))
}

/// Numbers with `_` between them.
fn listed(serials: &[u32]) -> String {
    let words: Vec<String> = serials.iter().map(u32::to_string).collect();
    words.join("_")
}

/// Key A, without a target and with y = 5, each with its name.
fn keys_a() -> [(&'static str, Sample); 2] {
    [
        ("key_a", Sample::key_a()),
        ("key_a_target", Sample::key_a_with_target()),
    ]
}

/// The serials of bundles of key A.
const SERIALS: [&[u32]; 15] = [
    &[0],
    &[65_535],
    &[65_536],
    &[u32::MAX],
    &[0, 1],
    &[2, 65_536],
    &[255, 256],
    &[65_534, 65_535],
    &[65_535, 65_536],
    &[65_536, 65_537],
    &[16_777_215, 16_777_216],
    &[2_147_483_647, 2_147_483_648],
    &[0, u32::MAX],
    &[1, 2, 3, 4, 5, 6, 7, 8, 9, 10],
    &[0, 256, 65_535, 65_536, 16_777_216, 2_147_483_648, u32::MAX],
];

/// Sizes of bundles with two groups, and whether they have a target.
const SIZES: [(usize, usize, bool); 9] = [
    (3, 2, true),
    (4, 1, false),
    (5, 4, true),
    (8, 3, false),
    (9, 1, true),
    (17, 8, true),
    (33, 16, true),
    (64, 1, false),
    (64, 27, true),
];

/// A random key.
fn key(n: usize, m: usize, target: bool) -> Sample {
    let generator = &mut Generator::new(6_000 + (100 * n + m) as u64);
    Material::of_package(n, m, target, generator).sample
}

/// The name of the bundles of a key.
fn name_of(Sample { n, m, .. }: &Sample) -> String {
    format!("n{n:02}_m{m:02}")
}

/// The bundles that are read: of key A, every second one with a target, and of
/// other sizes.
fn case_lines() -> String {
    let mut text = String::new();
    let keys = keys_a();
    for (name, sample) in &keys {
        let Material { sample, t, a } = Material::of(sample.clone());
        let serial = sample.serial;
        let package = bundle_bytes(sample.key(), &[Group { serial, t, a }]);
        text += &lines_of_case(name, &package);
        let same = [7, 8, 65_543].map(|serial| Group {
            serial,
            ..group(&sample, 7)
        });
        let bytes = bundle_bytes(sample.key(), &same);
        text += &lines_of_case(&format!("{name}_same"), &bytes);
    }
    for (place, serials) in SERIALS.into_iter().enumerate() {
        let (name, sample) = &keys[place % 2];
        let name = format!("{name}_{}", listed(serials));
        text += &lines_of_case(&name, &bundle(sample, serials));
    }
    for (n, m, target) in SIZES {
        let sample = key(n, m, target);
        text += &lines_of_case(&name_of(&sample), &bundle(&sample, &[7, 65_536]));
    }
    text
}

/// The bundle of key A with y = 5 and the serials 7 and 65,536, whose faults are
/// shown.
fn faulty() -> WrittenBundle {
    let sample = Sample::key_a_with_target();
    WrittenBundle::new(sample.key(), &groups(&sample, &[7, 65_536]))
}

/// The bundle after a fault, or after two, of which the one that is judged first
/// is made last.
fn with_faults(bundle: &WrittenBundle, faults: &[&BundleFault]) -> Vec<u8> {
    let mut wrong = bundle.clone();
    for fault in faults {
        (fault.change)(&mut wrong);
    }
    wrong.bytes()
}

/// The faults that are shown: of those that come one after another and get the
/// same number, the first and the last.
fn shown_faults(bundle: &WrittenBundle) -> Vec<BundleFault> {
    let mut list: Vec<BundleFault> = Vec::new();
    for fault in bundle_faults(bundle) {
        let same = |other: &BundleFault| other.refusal == fault.refusal;
        if list
            .iter()
            .rev()
            .take(2)
            .filter(|other| same(other))
            .count()
            == 2
        {
            list.pop();
        }
        list.push(fault);
    }
    list
}

/// The bundles with one fault, and with two: each and the next one, where it gets
/// another number.
fn fault_lines() -> String {
    let bundle = faulty();
    let faults = shown_faults(&bundle);
    let mut text = String::new();
    for fault in &faults {
        let bytes = with_faults(&bundle, &[fault]);
        text += &lines_of_refused(&fault.name, &bytes, fault.refusal);
    }
    for pair in faults.windows(2) {
        let [early, late] = pair else { continue };
        if early.refusal != late.refusal {
            let name = format!("two_{}_{}", early.name, late.name);
            let bytes = with_faults(&bundle, &[late, early]);
            text += &lines_of_refused(&name, &bytes, early.refusal);
        }
    }
    text
}

/// Bundles whose serials do not rise: 20.
fn order_lines() -> String {
    let mut text = String::new();
    for serials in [
        &[0, 0][..],
        &[9, 7],
        &[65_535, 65_535],
        &[65_536, 65_536],
        &[65_536, 2],
        &[65_536, 65_535],
        &[65_537, 65_536],
        &[u32::MAX, 0],
        &[u32::MAX, u32::MAX],
        &[2_147_483_648, 2_147_483_647],
        &[1, 2, 2],
        &[1, 3, 2],
        &[7, 9, 8, 10],
    ] {
        let name = format!("key_a_{}", listed(serials));
        let bytes = bundle(&Sample::key_a(), serials);
        text += &lines_of_refused(&name, &bytes, Refusal::SerialOrder);
    }
    text
}

/// What follows a key without a group, and what follows a group.
fn end_lines() -> String {
    let mut text = String::new();
    for (name, sample) in keys_a() {
        let key = bundle(&sample, &[]);
        let missing = Refusal::BytesMissing;
        text += &lines_of_refused(&format!("{name}_alone"), &key, missing);
        let one = bundle(&sample, &[7]);
        for (rest, refusal) in [
            (&[5][..], missing),
            (&[5, 0], missing),
            (&[4], missing),
            (&[6, 0], missing),
            (&[0x11, 0x11], missing),
            (&[5, 0, 2], missing),
            (&[5, 0, 3], Refusal::FieldLength),
            (&[4, 0, 2, 0, 5], Refusal::Tag),
            (&[6, 0, 2, 0, 0], Refusal::Tag),
            (&[0, 0, 0], Refusal::Tag),
        ] {
            let digits: String = rest.iter().map(|byte| format!("{byte:02x}")).collect();
            let bytes = [&one, rest].concat();
            text += &lines_of_refused(&format!("{name}_7_and_{digits}"), &bytes, refusal);
        }
        let file = sample.check_file().expect("the sample is solved");
        text += &lines_of_refused(&format!("{name}_check_file"), &file, Refusal::Tag);
        text += &lines_of_refused(&format!("{name}_twice"), &one.repeat(2), Refusal::Tag);
    }
    text
}

/// The serials of bundles that are joined. Groups with one serial are the same.
const JOINED: [[&[u32]; 2]; 20] = [
    [&[7], &[7]],
    [&[7], &[9]],
    [&[9], &[7]],
    [&[1, 2, 3], &[1, 2, 3]],
    [&[1, 2, 3], &[2]],
    [&[2], &[1, 2, 3]],
    [&[1, 2, 3], &[1, 3]],
    [&[3], &[1, 2, 3]],
    [&[1, 3, 5], &[2, 4, 6]],
    [&[2, 4, 6], &[1, 3, 5]],
    [&[1, 2], &[3, 4]],
    [&[3, 4], &[1, 2]],
    [&[1, 2, 5, 6], &[2, 3, 4, 5]],
    [&[65_535], &[65_536]],
    [&[65_536], &[65_535]],
    [&[2, 65_537], &[65_536]],
    [&[65_536], &[2, 65_537]],
    [&[0], &[u32::MAX]],
    [&[16_777_216, u32::MAX], &[256, 65_535]],
    [&[255, 65_536], &[0, 255, 65_536, 2_147_483_648]],
];

/// Sizes of bundles of two groups that are joined, and whether they have a target.
const JOINED_SIZES: [(usize, usize, bool); 5] = [
    (3, 2, false),
    (5, 4, true),
    (8, 3, true),
    (17, 8, false),
    (64, 1, true),
];

/// The bundles that are joined: of key A, every second one with a target, and of
/// other sizes.
fn joins() -> Vec<Join> {
    let mut list = Vec::new();
    let keys = keys_a();
    for (place, [first, second]) in JOINED.into_iter().enumerate() {
        let (name, sample) = &keys[place % 2];
        list.push(Join {
            name: format!("{name}_{}_and_{}", listed(first), listed(second)),
            bundles: [first, second].map(|serials| bundle(sample, serials)),
        });
    }
    for (n, m, target) in JOINED_SIZES {
        let sample = key(n, m, target);
        list.push(Join {
            name: name_of(&sample),
            bundles: [[7, 65_536], [8, 65_536]].map(|serials| bundle(&sample, &serials)),
        });
    }
    list
}

/// Calls of the join that are refused.
struct Refused {
    /// The calls.
    list: Vec<JoinRefused>,
    /// Two bundles of key A with y = 5 that are joined without a refusal.
    bundles: [Vec<u8>; 2],
    /// The length of the joined bundle.
    length: usize,
}

impl Refused {
    /// None yet.
    fn new() -> Refused {
        let sample = Sample::key_a_with_target();
        let serials: [&[u32]; 3] = [&[7, 65_536], &[9, 65_536], &[7, 9, 65_536]];
        let [first, second, joined] = serials.map(|serials| bundle(&sample, serials));
        Refused {
            list: Vec::new(),
            bundles: [first, second],
            length: joined.len(),
        }
    }

    /// Adds a call with these bundles and an output of this length.
    fn one(&mut self, name: &str, bundles: [&[u8]; 2], length: usize, refusal: Refusal) {
        let join = Join {
            name: name.to_string(),
            bundles: bundles.map(<[u8]>::to_vec),
        };
        self.list.push(JoinRefused {
            join,
            length,
            refusal,
        });
    }

    /// Adds two calls, with this bundle as the first and as the second, and an
    /// output of this length.
    fn both(&mut self, name: &str, bundle: &[u8], length: usize, refusal: Refusal) {
        let [first, second] = self.bundles.clone();
        self.one(&format!("first_{name}"), [bundle, &second], length, refusal);
        self.one(&format!("second_{name}"), [&first, bundle], length, refusal);
    }

    /// A fault of each number of the reader in one of the bundles, the last one of
    /// that number; and beside it another bundle without bytes.
    fn of_reader(&mut self) {
        let bundle = faulty();
        let mut seen = Vec::new();
        for fault in bundle_faults(&bundle).iter().rev() {
            let number = fault.refusal.number();
            if seen.contains(&number) {
                continue;
            }
            seen.push(number);
            let wrong = with_faults(&bundle, &[fault]);
            let BundleFault { name, refusal, .. } = fault;
            self.both(name, &wrong, self.length, *refusal);
            // The empty bundle gets 9.
            let name = format!("first_{name}_second_empty");
            self.one(&name, [&wrong, &[]], self.length, *refusal);
        }
    }

    /// Keys that differ in one field: 21, also where a group differs and the
    /// output is short.
    fn keys(&mut self) {
        let right = Sample::key_a_with_target();
        let changed = |change: &dyn Fn(&mut Sample)| {
            let mut sample = right.clone();
            change(&mut sample);
            sample
        };
        for (name, other) in [
            ("sizes", key(3, 1, true)),
            ("h_at_0", changed(&|sample| sample.h[0] = 3)),
            ("h_at_1", changed(&|sample| sample.h[1] = 257)),
            ("x_at_0", changed(&|sample| sample.x[0] = 257)),
            ("x_at_1", changed(&|sample| sample.x[1] = 0)),
            ("y", changed(&|sample| sample.y[0] = 1024)),
            ("y_absent", changed(&|sample| sample.y[0] = 0)),
        ] {
            let name = format!("key_{name}");
            let of_other = bundle(&other, &[9, 65_536]);
            self.both(&name, &of_other, self.length, Refusal::OtherKey);
            let mut differing = groups(&other, &[7]);
            differing[0].t[0] ^= 1;
            let of_other = bundle_bytes(other.key(), &differing);
            let first = self.bundles[0].clone();
            let name = format!("{name}_group_out_0");
            self.one(&name, [&first, &of_other], 0, Refusal::OtherKey);
        }
    }

    /// Groups with one serial that differ: 22, also where the output is short.
    fn groups(&mut self) {
        let sample = Sample::key_a_with_target();
        for serial in [7, 65_536] {
            let right = group(&sample, serial);
            let changed = |change: &dyn Fn(&mut Group)| {
                let mut group = right.clone();
                change(&mut group);
                group
            };
            for (name, other) in [
                ("t_at_0", changed(&|group| group.t[0] ^= 1)),
                ("t_at_1", changed(&|group| group.t[1] ^= 1)),
                ("a_at_0", changed(&|group| group.a[0] ^= 1024)),
                ("a_at_11", changed(&|group| group.a[11] ^= 1)),
            ] {
                let first = self.bundles[0].clone();
                let second = bundle_bytes(sample.key(), &[group(&sample, 3), other]);
                let name = format!("group_{serial}_{name}");
                self.one(&name, [&first, &second], self.length, Refusal::GroupsDiffer);
                let name = format!("{name}_out_0");
                self.one(&name, [&second, &first], 0, Refusal::GroupsDiffer);
            }
        }
    }

    /// Outputs shorter than the joined bundle: 13.
    fn outputs(&mut self) {
        let [first, second] = self.bundles.clone();
        for length in [0, 24, first.len(), self.length - 1] {
            let name = format!("out_{length}");
            self.one(&name, [&first, &second], length, Refusal::ShortOutput);
        }
        let length = first.len() - 1;
        let name = format!("itself_out_{length}");
        self.one(&name, [&first, &first], length, Refusal::ShortOutput);
    }

    /// All calls.
    fn all() -> Vec<JoinRefused> {
        let mut refused = Refused::new();
        refused.of_reader();
        refused.keys();
        refused.groups();
        refused.outputs();
        refused.list
    }
}

/// The lines of all members of a list.
fn all_lines<T>(list: &[T], lines: fn(&T) -> String) -> String {
    list.iter().map(lines).collect()
}

/// The file.
pub fn text() -> String {
    let (joins, refused) = (joins(), Refused::all());
    let parts = [
        case_lines(),
        fault_lines(),
        order_lines(),
        end_lines(),
        all_lines(&joins, Join::lines),
        all_lines(&refused, JoinRefused::lines),
        all_lines(&joins, Join::look_lines),
        all_lines(&refused, JoinRefused::look_lines),
    ];
    parts.concat()
}
