//! The groups of write package, packages that are read back and packages that are
//! written again find wrong writers. Each stands in the place of the library.

use crate::common::finds;
use comparison::case::{Call, Entry, Group, Taken};
use comparison::entries::faults::{one_fault, two_faults};
use comparison::entries::files::fields::{serial_in_four, set_serial, set_target, walked};
use comparison::entries::files::{case, groups, File};
use comparison::entries::keyed::{self, Keyed};
use comparison::entries::package_field::LENGTH;
use comparison::entries::read_back::{self, written_and_read, READ_BACK};
use comparison::entries::readers::{key_a, ReadPackage, READ_PACKAGE, SERIAL};
use comparison::entries::write::{self, groups as writing};
use comparison::entries::write::{package_length, serial_of, WritePackage, OUT, WRITE};
use comparison::lent::Lent;
use comparison::named::Named;
use comparison::run::Run;
use comparison::slices::{A, H, M, N, T, Y};
use reference::package::{field_of, index_of, join, tag, WrittenField};
use reference::Refusal;

/// Whether packages whose bytes are written out find this function in the place of
/// the library.
fn by_hand_finds(library: Call) -> bool {
    finds(writing::BY_HAND, WRITE, library)
}

/// Whether random packages of small sizes do.
fn small_n_finds(library: Call) -> bool {
    finds(writing::SMALL_N, WRITE, library)
}

/// Whether packages with each bit of y do.
fn bits_of_y_find(library: Call) -> bool {
    finds(writing::BITS_OF_Y, WRITE, library)
}

/// Whether outputs of all lengths do.
fn outputs_find(library: Call) -> bool {
    finds(writing::OUTPUTS, WRITE, library)
}

/// Whether one fault of a call does.
fn one_fault_finds(library: Call) -> bool {
    finds(one_fault::<WritePackage>(), WRITE, library)
}

/// Whether two faults of a call do.
fn two_faults_find(library: Call) -> bool {
    finds(two_faults::<WritePackage>(), WRITE, library)
}

/// Whether packages that this function writes are not read back.
macro_rules! read_back_finds {
    ($write:expr) => {
        finds(read_back::SERIALS, READ_BACK, |taken, outputs| {
            written_and_read($write, taken, outputs)
        })
    };
}

/// The packages of key A, without y and with one, and others that are accepted.
const ACCEPTED: Group = Group::new("accepted", |generator, each| {
    for fields in key_a(File::Package) {
        each(case::<ReadPackage>(&join(&fields), Some(0), generator));
    }
    (groups::serials::<ReadPackage>().cases)(generator, &mut |case| {
        if case.answer == Some(0) {
            each(case);
        }
    });
});

/// Whether accepted packages find this function where it writes them again.
fn again_finds(writer: Call) -> bool {
    let read = Entry {
        library: READ_PACKAGE.reference,
        table: None,
        ..READ_PACKAGE
    };
    Run::new(1, None).writing_by(writer).finds(&read, &ACCEPTED)
}

/// Writes the bytes in the place of what the reference wrote; 13 when the output
/// is too short for them.
fn put(bytes: &[u8], outputs: &mut Named<Lent>, before: Named<Lent>) -> u32 {
    *outputs = before;
    let [out, length] = outputs.each_mut([OUT, LENGTH]);
    match out.bytes_mut().get_mut(..bytes.len()) {
        Some(room) => room.copy_from_slice(bytes),
        None => return 13,
    }
    *length.size_mut() = bytes.len();
    0
}

/// The reference's package with other fields.
fn other_fields(
    taken: &Taken,
    outputs: &mut Named<Lent>,
    change: fn(&Taken, &mut Vec<WrittenField>),
) -> u32 {
    let before = outputs.clone();
    let answer = (WRITE.reference)(taken, outputs);
    if answer != 0 {
        return answer;
    }
    let length = *outputs[LENGTH].size_mut();
    let mut fields: Vec<WrittenField> = walked(&outputs[OUT].bytes()[..length]).collect();
    change(taken, &mut fields);
    put(&join(&fields), outputs, before)
}

/// A writer of other fields.
macro_rules! with_fields {
    ($change:expr) => {
        |taken, outputs| other_fields(taken, outputs, $change)
    };
}

/// Whether a writer of other fields is found: by itself, where its packages are read
/// back, and where accepted packages are written again.
macro_rules! all_find {
    ($change:expr) => {
        [
            by_hand_finds(with_fields!($change)),
            read_back_finds!(with_fields!($change)),
            again_finds(with_fields!($change)),
        ]
    };
}

#[test]
fn no_fault() {
    for finds in [
        by_hand_finds,
        small_n_finds,
        bits_of_y_find,
        outputs_find,
        one_fault_finds,
        two_faults_find,
    ] {
        assert!(!finds(WRITE.reference));
    }
    assert_eq!(all_find!(|_, _| {}), [false; 3]);
}

#[test]
fn y_of_zeros_written() {
    let found = all_find!(|taken, fields| {
        let y = taken.words(Y);
        if y.iter().all(|&word| word == 0) {
            set_target(fields, y);
        }
    });
    assert_eq!(found, [true; 3]);
}

#[test]
fn y_left_out() {
    let found = all_find!(|_, fields| fields.retain(|field| field.tag != tag::Y));
    assert_eq!(found, [true; 3]);
    // Where its first element is zero, where its last is, and where the lower
    // bytes are.
    assert!(by_hand_finds(with_fields!(|taken, fields| {
        fields.retain(|field| field.tag != tag::Y || taken.words(Y)[0] != 0);
    })));
    assert!(small_n_finds(with_fields!(|taken, fields| {
        fields.retain(|field| field.tag != tag::Y || taken.words(Y).last() != Some(&0));
    })));
    assert!(by_hand_finds(with_fields!(|taken, fields| {
        let lower = taken.words(Y).iter().any(|&word| word % 256 != 0);
        fields.retain(|field| field.tag != tag::Y || lower);
    })));
}

#[test]
fn serial_in_the_other_length() {
    let found = all_find!(|taken, fields| {
        if serial_of(taken) == 65_535 {
            set_serial(fields, serial_in_four(u16::MAX));
        }
    });
    assert_eq!(found, [true; 3]);
    // 65536 in two bytes.
    let found = all_find!(|taken, fields| {
        if serial_of(taken) == 65_536 {
            set_serial(fields, WrittenField::new(tag::SERIAL, vec![0, 0]));
        }
    });
    assert_eq!(found, [true; 3]);
}

#[test]
fn serial_in_another_order() {
    let found = all_find!(|_, fields| field_of(fields, tag::SERIAL).content.reverse());
    assert_eq!(found, [true; 3]);
    // Where it has four bytes alone.
    assert!(by_hand_finds(with_fields!(|_, fields| {
        let content = &mut field_of(fields, tag::SERIAL).content;
        if content.len() == 4 {
            content.swap(1, 2);
        }
    })));
}

#[test]
fn fields_exchanged() {
    let found = all_find!(|_, fields| {
        let t = index_of(fields, tag::T);
        fields.swap(t, t + 1);
    });
    assert_eq!(found, [true; 3]);
    // y and x.
    let found = all_find!(|_, fields| {
        let x = index_of(fields, tag::X);
        if fields[x + 1].tag == tag::Y {
            fields.swap(x, x + 1);
        }
    });
    assert_eq!(found, [true; 3]);
}

#[test]
fn words_in_another_order() {
    for found in [
        all_find!(|_, fields| exchange(fields, tag::H)),
        all_find!(|_, fields| exchange(fields, tag::X)),
        all_find!(|_, fields| exchange(fields, tag::Y)),
        all_find!(|_, fields| exchange(fields, tag::A)),
    ] {
        assert_eq!(found, [true; 3]);
    }
}

/// Exchanges the bytes of each word of a field.
fn exchange(fields: &mut [WrittenField], tag: u8) {
    if let Some(field) = fields.iter_mut().find(|field| field.tag == tag) {
        field.content.chunks_mut(2).for_each(<[u8]>::reverse);
    }
}

#[test]
fn sizes_exchanged() {
    let found = all_find!(|_, fields| fields[0].content.reverse());
    assert_eq!(found, [true; 3]);
}

/// The reference's answer, and then a change of the outputs of a done call.
fn changed(taken: &Taken, outputs: &mut Named<Lent>, change: fn(&mut [u8], &mut usize)) -> u32 {
    let answer = (WRITE.reference)(taken, outputs);
    if answer == 0 {
        let [out, length] = outputs.each_mut([OUT, LENGTH]);
        change(out.bytes_mut(), length.size_mut());
    }
    answer
}

#[test]
fn bytes_beyond_the_length_cleared() {
    let clear: Call = |taken, outputs| changed(taken, outputs, |out, len| out[*len..].fill(0));
    assert!(outputs_find(clear));
    assert!(again_finds(clear));
    // The next one alone, and the last.
    assert!(outputs_find(|taken, outputs| {
        changed(taken, outputs, |out, len| {
            if let Some(next) = out.get_mut(*len) {
                *next = 0;
            }
        })
    }));
    assert!(outputs_find(|taken, outputs| {
        changed(taken, outputs, |out, len| {
            if out.len() > *len {
                out[out.len() - 1] = 0;
            }
        })
    }));
}

#[test]
fn another_length() {
    let shorter: Call = |taken, outputs| changed(taken, outputs, |_, len| *len -= 1);
    assert!(outputs_find(shorter));
    assert!(again_finds(shorter));
    assert!(read_back_finds!(|taken, outputs| changed(
        taken,
        outputs,
        |_, len| *len -= 1
    )));
    // That of the output.
    assert!(outputs_find(|taken, outputs| {
        changed(taken, outputs, |out, len| *len = out.len())
    }));
    // Not written.
    assert!(outputs_find(|taken, outputs| {
        let before = outputs[LENGTH].clone();
        let answer = (WRITE.reference)(taken, outputs);
        outputs[LENGTH] = before;
        answer
    }));
}

#[test]
fn a_byte_of_the_largest_is_wrong() {
    assert!(bits_of_y_find(|taken, outputs| {
        let answer = (WRITE.reference)(taken, outputs);
        if answer == 0 && (taken.numbers[N], taken.numbers[M]) == (64, 63) {
            let last = *outputs[LENGTH].size_mut() - 1;
            outputs[OUT].change(last, 0);
        }
        answer
    }));
}

/// The reference's answer, or another number where the length of the output and
/// that of the package are so; nothing is written then.
fn refused_where(
    taken: &Taken,
    outputs: &mut Named<Lent>,
    number: u32,
    where_so: fn(usize, usize) -> bool,
) -> u32 {
    let before = outputs.clone();
    let answer = (WRITE.reference)(taken, outputs);
    let lengths = (outputs[OUT].len(), package_length(taken));
    if answer == 0 && where_so(lengths.0, lengths.1) {
        *outputs = before;
        return number;
    }
    answer
}

#[test]
fn longer_outputs_refused() {
    let three: Call = |taken, outputs| refused_where(taken, outputs, 3, |out, len| out > len);
    assert!(outputs_find(three));
    assert!(again_finds(three));
    assert!(outputs_find(|taken, outputs| {
        refused_where(taken, outputs, 13, |out, len| out > len + 65_000)
    }));
}

#[test]
fn exact_outputs_refused() {
    let short: Call = |taken, outputs| refused_where(taken, outputs, 13, |out, len| out == len);
    assert!(outputs_find(short));
    assert!(again_finds(short));
}

#[test]
fn room_for_the_longest_form_asked_for() {
    // y and four bytes of the serial have to fit, written or not.
    assert!(outputs_find(|taken, outputs| {
        let longest = package_length(taken) + 3 + 2 * taken.words(Y).len() + 2;
        if outputs[OUT].len() < longest && (WRITE.reference)(taken, &mut outputs.clone()) == 0 {
            return 13;
        }
        (WRITE.reference)(taken, outputs)
    }));
}

#[test]
fn refusals_of_the_readers() {
    // 14 for a y of zeros, 19 for a serial below 65536.
    assert!(by_hand_finds(|taken, outputs| {
        let zero = taken.words(Y).iter().all(|&word| word == 0);
        match (WRITE.reference)(taken, &mut outputs.clone()) {
            0 if zero => 14,
            _ => (WRITE.reference)(taken, outputs),
        }
    }));
    assert!(by_hand_finds(|taken, outputs| {
        match (WRITE.reference)(taken, &mut outputs.clone()) {
            0 if taken.numbers[SERIAL] < 65_536 => 19,
            _ => (WRITE.reference)(taken, outputs),
        }
    }));
}

/// The reference's answer, or 13 in the place of this one where the output is too
/// short.
fn short_first(answer: u32, taken: &Taken, outputs: &mut Named<Lent>) -> u32 {
    let short = outputs[OUT].len() < package_length(taken);
    match (WRITE.reference)(taken, outputs) {
        found if found == answer && short => 13,
        found => found,
    }
}

#[test]
fn thirteen_before_others() {
    assert!(two_faults_find(|taken, outputs| short_first(
        6, taken, outputs
    )));
    assert!(two_faults_find(|taken, outputs| short_first(
        15, taken, outputs
    )));
    assert!(two_faults_find(|taken, outputs| short_first(
        3, taken, outputs
    )));
    // 6 where no byte of the output is lent alone.
    assert!(two_faults_find(|taken, outputs| {
        match (WRITE.reference)(taken, outputs) {
            6 if outputs[OUT].is_empty() => 13,
            answer => answer,
        }
    }));
}

#[test]
fn refusals_in_another_order() {
    // 6 before 5.
    assert!(two_faults_find(|taken, outputs| {
        let above = taken.words(A).iter().any(|&word| word > 2047);
        match (WRITE.reference)(taken, outputs) {
            5 if above => 6,
            answer => answer,
        }
    }));
    // 5 before 15.
    assert!(two_faults_find(|taken, outputs| {
        let above = taken.bytes(T).iter().any(|&byte| byte > 1);
        match (WRITE.reference)(taken, outputs) {
            15 if above => 5,
            answer => answer,
        }
    }));
}

#[test]
fn a_refusal_left_out() {
    // 4 for y alone, 5, 6 and 15.
    assert!(one_fault_finds(|taken, outputs| {
        let above = |name| taken.words(name).iter().any(|&word| word > 2047);
        match (WRITE.reference)(taken, outputs) {
            4 if above(Y) && !above(H) => 0,
            answer => answer,
        }
    }));
    assert!(one_fault_finds(|taken, outputs| without(5, taken, outputs)));
    assert!(one_fault_finds(|taken, outputs| without(6, taken, outputs)));
    assert!(one_fault_finds(|taken, outputs| without(
        15, taken, outputs
    )));
}

/// The reference's answer, done in the place of this refusal.
fn without(refusal: u32, taken: &Taken, outputs: &mut Named<Lent>) -> u32 {
    match (WRITE.reference)(taken, outputs) {
        answer if answer == refusal => 0,
        answer => answer,
    }
}

#[test]
fn an_output_changed_on_a_refusal() {
    // The length that is needed.
    assert!(one_fault_finds(|taken, outputs| {
        let answer = (WRITE.reference)(taken, outputs);
        if answer == 13 {
            *outputs[LENGTH].size_mut() = package_length(taken);
        }
        answer
    }));
    assert!(one_fault_finds(|taken, outputs| {
        let answer = (WRITE.reference)(taken, outputs);
        if answer == 3 {
            *outputs[LENGTH].size_mut() = 0;
        }
        answer
    }));
    // As much of the package as there is room for.
    assert!(one_fault_finds(|taken, outputs| {
        let answer = (WRITE.reference)(taken, outputs);
        if answer == 13 && outputs[OUT].len() > 5 {
            let head = [1, 0, 2, taken.numbers[N] as u8, taken.numbers[M] as u8];
            outputs[OUT].bytes_mut()[..5].copy_from_slice(&head);
        }
        answer
    }));
    // The output cleared before 6.
    assert!(one_fault_finds(|taken, outputs| {
        let answer = (WRITE.reference)(taken, outputs);
        if answer == 6 {
            outputs[OUT].bytes_mut().fill(0);
        }
        answer
    }));
}

#[test]
fn a_short_output_written() {
    // All but the last byte.
    assert!(outputs_find(|taken, outputs| {
        let len = outputs[OUT].len();
        if len + 1 != package_length(taken) {
            return (WRITE.reference)(taken, outputs);
        }
        let mut longer = write::outputs(len + 1, &mut reference::samples::Generator::new(1));
        let answer = (WRITE.reference)(taken, &mut longer);
        if answer == 0 {
            let bytes = &longer[OUT].bytes()[..len];
            outputs[OUT].bytes_mut().copy_from_slice(bytes);
            *outputs[LENGTH].size_mut() = len;
        }
        answer
    }));
}

#[test]
fn no_package_is_written_again() {
    const REFUSED: Group = Group::new("cut", |generator, each| {
        for fields in key_a(File::Package) {
            let bytes = join(&fields);
            each(case::<ReadPackage>(&bytes[..9], Some(9), generator));
        }
    });
    let cut = |package| {
        let mut run = Run::new(1, None);
        run.entry(&READ_PACKAGE_DONE);
        run.entry(&Entry {
            library: READ_PACKAGE.reference,
            refusals: &[Refusal::BytesMissing],
            done: &[],
            table: None,
            groups: || vec![REFUSED],
            package,
            ..READ_PACKAGE
        });
        run.finish()
    };
    assert!(cut(None));
    assert!(!cut(READ_PACKAGE.package));
}

/// Enough calls without a refusal.
const READ_PACKAGE_DONE: Entry = Entry {
    library: READ_PACKAGE.reference,
    refusals: &[],
    table: None,
    package: None,
    groups: || vec![ACCEPTED],
    ..READ_PACKAGE
};

#[test]
fn the_length_of_a_package() {
    let generator = &mut reference::samples::Generator::new(1);
    for (n, m) in [(2, 1), (5, 2), (64, 63)] {
        for _ in 0..20 {
            let case = WritePackage::right(keyed::sizes(n, m), generator);
            let key = case.taken.key();
            let (t, a) = (case.bytes(T), case.words(A));
            let bytes = reference::package::package_bytes(key, serial_of(&case), t, a);
            assert_eq!(package_length(&case), bytes.len());
        }
    }
}
