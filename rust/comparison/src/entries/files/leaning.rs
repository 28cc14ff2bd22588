//! Files whose rows of H lean on each other: 15 where all fields of the key are
//! read, at its place among the refusals of the fields about it.

use super::faults::{faulty, spots, Draft};
use super::fields::{both_forms, content_mut, lean, lean_as, set_target, zero_target, HEAD};
use super::groups::{KEY_ELEMENT, LENGTH, MISSING, ZERO_TARGET};
use super::{case, Reader};
use crate::case::{Case, Group};
use crate::entries::{keyed, DEPENDENT};
use crate::lent::Lent;
use reference::package::{field_of, index_of, join, tag, WrittenField};
use reference::samples::{Generator, Leaning};
use reference::small_field::F;
use reference::Place;

/// The fields of a check file whose rows lean in any way, without y and with it.
fn both_leaning(n: usize, m: usize, generator: &mut Generator) -> [Vec<WrittenField>; 2] {
    let mut forms = both_forms(n, m, generator);
    for fields in &mut forms {
        assert!(lean(fields, generator), "the sizes and H are right");
    }
    forms
}

/// Where the field after x starts.
fn end_of_x(fields: &[WrittenField]) -> usize {
    join(&fields[..=index_of(fields, tag::X)]).len()
}

/// Files without any other fault, of every n and in every way of leaning.
pub const fn whole_files<R: Reader>() -> Group {
    Group::new("every n, rows of H that lean", |generator, each| {
        for n in keyed::EVERY_N {
            for m in keyed::some_m(n, generator) {
                for leaning in Leaning::of(m) {
                    let mut forms = both_forms(n, m, generator);
                    for fields in &mut forms {
                        lean_as(fields, leaning, generator);
                        let bytes = join(R::FILE.part(fields));
                        each(case::<R>(&bytes, Some(DEPENDENT), generator));
                    }
                }
            }
        }
    })
    .with_any_rows()
}

/// A fault at each place of each field beside rows that lean: those up to the
/// last field of the key come before.
pub const fn beside_other_faults<R: Reader>() -> Group {
    Group::new(
        "rows of H that lean beside a fault at each place",
        |generator, each| {
            for &(n, m) in R::SMALL.repeat(3).iter().chain(&[(17, 16), (64, 63)]) {
                for fields in both_leaning(n, m, generator) {
                    let last = match fields.iter().position(|field| field.tag == tag::Y) {
                        Some(y) => y,
                        None => index_of(&fields, tag::X),
                    };
                    for spot in spots::<R>(&fields) {
                        let (mut bytes, mut number) = faulty::<R>(&fields, &[spot], generator);
                        let tag_of_y = bytes.get(end_of_x(&fields)) == Some(&tag::Y);
                        // The tag of y is cut off, or is another.
                        let without_y = spot.0 == last && spot.0 > index_of(&fields, tag::X);
                        let without_y = without_y && !tag_of_y;
                        if spot > (last, Place::Values) || without_y {
                            number = DEPENDENT;
                        }
                        each(case::<R>(&bytes, Some(number), generator));
                        // What follows a file is not looked at either.
                        if number == DEPENDENT {
                            bytes.extend([0; 5]);
                            each(case::<R>(&bytes, Some(DEPENDENT), generator));
                        }
                    }
                }
            }
        },
    )
    .with_any_rows()
}

/// What stands after x: nothing, up to three bytes, of which the first is any,
/// and y with each of its own faults.
pub const fn after_x<R: Reader>() -> Group {
    Group::new(
        "rows of H that lean, all that can follow x",
        |generator, each| {
            for &(n, m) in &R::SMALL[..5] {
                let [without, with] = both_leaning(n, m, generator);
                let start = join(&without)[..end_of_x(&without)].to_vec();
                each(case::<R>(&start, Some(DEPENDENT), generator));
                for first in 0..=255 {
                    for len in [1, 2, 3] {
                        let answer = match first {
                            tag::Y if len < HEAD => MISSING,
                            tag::Y => LENGTH,
                            _ => DEPENDENT,
                        };
                        let bytes = [&start[..], &[first, 0, 0][..len]].concat();
                        each(case::<R>(&bytes, Some(answer), generator));
                        // The rest of the file does not matter then.
                        if answer == DEPENDENT {
                            let more = [&bytes[..], &join(&without)[start.len()..]].concat();
                            each(case::<R>(&more, Some(answer), generator));
                        }
                    }
                }
                values_of_target::<R>(&with, m, generator, each);
                other_places::<R>(&without, &with, generator, each);
            }
        },
    )
    .with_any_rows()
}

/// y of zeros, with an element above 2047 in each place, of another length, and
/// as it should be; in a whole file and in one that ends with y.
fn values_of_target<R: Reader>(
    fields: &[WrittenField],
    m: usize,
    generator: &mut Generator,
    each: &mut dyn FnMut(Case),
) {
    let mut lists = vec![(vec![0; m], ZERO_TARGET), (vec![F::LARGEST; m], DEPENDENT)];
    for at in 0..m {
        let mut y = vec![0; m];
        y[at] = F::LARGEST + 1;
        lists.push((y.clone(), KEY_ELEMENT));
        y[at] = 1;
        lists.push((y, DEPENDENT));
    }
    for (y, answer) in lists {
        let mut draft = Draft::new::<R>(fields);
        set_target(&mut draft.fields, &y);
        each(case::<R>(&draft.bytes(), Some(answer), generator));
        let index = index_of(&draft.fields, tag::Y);
        let field = &draft.fields[index];
        assert_eq!(zero_target(field), answer == ZERO_TARGET);
        let whole = join(&draft.fields[..=index]);
        each(case::<R>(&whole, Some(answer), generator));
        each(case::<R>(
            &whole[..whole.len() - 1],
            Some(MISSING),
            generator,
        ));
    }
    for length in (0..40).filter(|&length| usize::from(length) != 2 * m) {
        let mut draft = Draft::new::<R>(fields);
        field_of(&mut draft.fields, tag::Y).length = length;
        each(case::<R>(&draft.bytes(), Some(LENGTH), generator));
        content_mut(&mut draft.fields, tag::Y).resize(length.into(), 0);
        each(case::<R>(&draft.bytes(), Some(LENGTH), generator));
    }
}

/// y in each place after that where it belongs, in a file without it and
/// besides: the key has been read before.
fn other_places<R: Reader>(
    without: &[WrittenField],
    with: &[WrittenField],
    generator: &mut Generator,
    each: &mut dyn FnMut(Case),
) {
    let y = &with[index_of(with, tag::Y)];
    for (fields, first) in [(without, tag::X), (with, tag::Y)] {
        let right = R::FILE.part(fields);
        let first = index_of(right, first) + 1;
        // Directly after x it would be in its place.
        let first = first + usize::from(right[first - 1].tag == tag::X);
        for place in first..=right.len() {
            let mut list = right.to_vec();
            list.insert(place, y.clone());
            each(case::<R>(&join(&list), Some(DEPENDENT), generator));
        }
    }
}

/// Every shorter part of some files: bytes are missing up to the end of x, and
/// within y; at the end of x, and from the end of y on, the rows are judged.
pub const fn prefixes<R: Reader>() -> Group {
    Group::new("rows of H that lean, every prefix", |generator, each| {
        for &(n, m) in R::SMALL[..5].iter().chain(&[(17, 8)]) {
            for fields in both_leaning(n, m, generator) {
                let bytes = join(R::FILE.part(&fields));
                let x = end_of_x(&fields);
                let y = fields.iter().position(|field| field.tag == tag::Y);
                let key = y.map_or(x, |y| join(&fields[..=y]).len());
                for len in 0..=bytes.len() {
                    let missing = len < x || (len > x && len < key);
                    let answer = if missing { MISSING } else { DEPENDENT };
                    let (part, next) = bytes.split_at(len);
                    let lent = Lent::with_bytes_before(part, next, generator);
                    each(R::case(lent, Some(answer), generator));
                }
            }
        }
    })
    .with_any_rows()
}
