//! The comparison finds each kind of fault: entries with one deliberate fault
//! are run in the place of the library.

use crate::common::{case, entry, finds, passes, right, ALL, INPUT, OUTPUT};
use comparison::case::{Call, Case, Entry, Expected, Group, Stated, Taken};
use comparison::lent::Lent;
use comparison::named::Named;
use comparison::run::Run;
use reference::samples::Generator;

/// Whether a run with this function in the place of the library passes.
fn library_passes(library: Call) -> bool {
    passes(&entry(library, || vec![ALL]), None)
}

#[test]
fn no_fault() {
    assert!(library_passes(right));
}

/// The right answer, and another output when the answer is this one.
fn other_output(taken: &Taken, outputs: &mut Named<Lent>, when: u32) -> u32 {
    let answer = right(taken, outputs);
    if answer == when {
        outputs[OUTPUT].bytes_mut()[0] ^= 1;
    }
    answer
}

#[test]
fn wrong_output() {
    assert!(!library_passes(|taken, outputs| other_output(
        taken, outputs, 0
    )));
}

#[test]
fn output_changed_on_a_refusal() {
    assert!(!library_passes(|taken, outputs| other_output(
        taken, outputs, 5
    )));
}

#[test]
fn wrong_answer() {
    assert!(!library_passes(|taken, outputs| {
        match right(taken, outputs) {
            5 => 3,
            answer => answer,
        }
    }));
}

#[test]
fn a_group_finds_a_fault() {
    const ONES: Group = Group::new("ones", |generator, each| {
        (0..3).for_each(|_| each(case(generator, &[1], 1, 0)));
    });
    let copy = entry(right, Vec::new);
    for group in [ALL, ONES] {
        assert!(!finds(group, copy, right));
        assert!(finds(group, copy, |taken, outputs| other_output(
            taken, outputs, 0
        )));
    }
    // No case of the second has this answer.
    let changed: Call = |taken, outputs| other_output(taken, outputs, 5);
    assert!(finds(ALL, copy, changed));
    assert!(!finds(ONES, copy, changed));
}

/// Changes the byte at an offset, as a C function could.
fn change(pointer: *const u8, offset: isize) {
    // SAFETY: the offsets used here stay in the buffer of the slice.
    unsafe { *pointer.cast_mut().offset(offset) ^= 1 }
}

/// The right answer, and a byte at this offset of the output changed.
fn beside_output(taken: &Taken, outputs: &mut Named<Lent>, offset: isize) -> u32 {
    let answer = right(taken, outputs);
    change(outputs[OUTPUT].bytes_mut().as_mut_ptr(), offset);
    answer
}

#[test]
fn guard_before_the_output_changed() {
    assert!(!library_passes(|taken, outputs| beside_output(
        taken, outputs, -1
    )));
}

#[test]
fn guard_after_the_output_changed() {
    assert!(!library_passes(|taken, outputs| beside_output(
        taken, outputs, 1
    )));
}

#[test]
fn input_changed() {
    assert!(!library_passes(|taken, outputs| {
        let answer = right(taken, outputs);
        change(taken.bytes(INPUT).as_ptr(), 0);
        answer
    }));
}

#[test]
fn expected_word_altered() {
    assert!(!passes(&entry(right, || vec![ALL]), Some(0)));
}

/// The entry without its output: the answer alone is compared.
fn without_output(library: Call) -> Entry {
    const ANSWERS: Group = Group::new("answers", |generator, each| {
        for (input, answer) in [(&[0][..], 0), (&[1], 0), (&[2], 5), (&[0, 0], 3)] {
            let outputs = Named::new();
            let case = case(generator, input, 0, answer);
            each(Case { outputs, ..case });
        }
    });
    Entry {
        reference: answer_of_right,
        ..entry(library, || vec![ANSWERS])
    }
}

/// The answer for an output of the right length.
fn answer_of_right(taken: &Taken, _: &mut Named<Lent>) -> u32 {
    let output = Lent::with_bytes(&[0], &mut Generator::new(1));
    right(taken, &mut Named::from([(OUTPUT, output)]))
}

#[test]
fn expected_answer_altered() {
    assert!(passes(&without_output(answer_of_right), None));
    let mut run = Run::new(1, Some(7));
    run.entry(&without_output(answer_of_right));
    assert_eq!(run.altered_words(), [1, 1, 0]);
    assert!(!run.finish());
}

#[test]
fn wrong_answer_without_an_output() {
    assert!(!passes(&without_output(|_, _| 0), None));
}

#[test]
fn reference_against_the_stated_answer() {
    const OTHER: Group = Group::new("other", |generator, each| {
        each(case(generator, &[1], 1, 5));
    });
    assert!(!passes(&entry(right, || vec![ALL, OTHER]), None));
}

#[test]
fn reference_against_a_stated_element() {
    const OTHER: Group = Group::new("other", |generator, each| {
        for value in [1, 0] {
            let stated = Stated {
                output: OUTPUT,
                index: 0,
                value,
            };
            each(Case {
                stated: Some(vec![stated]),
                ..case(generator, &[1], 1, 0)
            });
        }
    });
    assert!(!passes(&entry(right, || vec![ALL, OTHER]), None));
}

#[test]
fn group_by_packed() {
    const BY_PACKED: Group = ALL.named("by packed").by_packed();
    assert_eq!(BY_PACKED.expected, Expected::Packed);
    let with_packed = |packed| Entry {
        packed: Some(packed),
        ..entry(right, || vec![ALL, BY_PACKED])
    };
    assert!(passes(&with_packed(right), None));
    assert!(!passes(&with_packed(|_, _| 0), None));
}

/// A run over this entry twice with an altered word; the second time the
/// function stands in the place of the library.
fn altered_twice(library: Call) -> Run {
    let mut run = Run::new(1, Some(0));
    run.entry(&entry(right, || vec![ALL]));
    run.entry(&entry(library, || vec![ALL]));
    run
}

#[test]
fn a_word_altered_in_each_entry() {
    assert_eq!(altered_twice(right).altered_words(), [2, 2, 0]);
    // This output is the altered one.
    let run = altered_twice(|taken, outputs| other_output(taken, outputs, 0));
    assert_eq!(run.altered_words(), [2, 1, 0]);
}

#[test]
fn words_are_counted_from_the_first_again() {
    let mut run = Run::new(1, Some(7));
    run.entry(&entry(right, || vec![ALL]));
    assert_eq!(run.altered_words(), [1, 1, 0]);
}

#[test]
fn no_word_to_alter() {
    const REFUSED: Group = Group::new("refused", |generator, each| {
        each(case(generator, &[2], 1, 5));
    });
    let mut run = Run::new(1, Some(0));
    run.entry(&entry(right, || vec![REFUSED]));
    assert_eq!(run.altered_words(), [0, 0, 1]);
}
