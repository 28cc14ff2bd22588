//! The entry join bundles with bundles that are refused: the refusal of the
//! first comes before that of the second, and both before all that two bundles
//! are refused for.

use super::damage::with_other_group;
use super::join::{self, with_room, JOIN_BUNDLES};
use super::join_groups::with_other_key;
use super::parts::{any_key, rising, Bundle, In, Pair};
use super::read_groups::SMALL;
use super::{table, REFUSALS};
use crate::case::{Case, Entry, Group};
use crate::entries::files::faults::{any_of, faulty_fields, refusals_at, spots_of_fields, Spot};
use crate::entries::files::fields::set_target;
use reference::package::{tag, WrittenField};
use reference::samples::Generator;
use reference::{Place, Refusal};

/// The entry join bundles with refused bundles.
pub const REFUSED_BUNDLES: Entry = Entry {
    name: "join of refused bundles",
    refusals: REFUSALS,
    table: Some(table::BOTH),
    groups: || vec![EACH_TWO, BESIDE_OTHERS, EACH_PLACE, RIGHT],
    ..JOIN_BUNDLES
};

/// Whether a fault at this spot can have this refusal.
fn may_have(fields: &[WrittenField], (index, place): Spot, refusal: Refusal) -> bool {
    let tag = fields[index].tag;
    let serials = fields[..index]
        .iter()
        .filter(|field| field.tag == tag::SERIAL);
    let further = tag == tag::SERIAL && place == Place::Values && serials.count() > 0;
    refusals_at(place, tag).contains(&refusal) || further && refusal == Refusal::SerialOrder
}

/// The bytes of a bundle with a fault, for which it is refused with this number.
/// 14 needs a bundle with y, and 20 one with two groups.
fn refused(bundle: &Bundle, refusal: Refusal, generator: &mut Generator) -> Vec<u8> {
    let fields = bundle.fields();
    let spots = spots_of_fields(&fields).into_iter();
    let spots: Vec<Spot> = spots
        .filter(|&spot| may_have(&fields, spot, refusal))
        .collect();
    loop {
        let spot = any_of(&spots, generator);
        let (bytes, number) = faulty_fields(&fields, &[spot], generator);
        if number == refusal.number() {
            return bytes;
        }
    }
}

/// Two bundles of one key with y and of two groups or more, of which some are in
/// both.
fn right_pair(n: usize, m: usize, generator: &mut Generator) -> Pair {
    let mut key = any_key(n, m, generator);
    set_target(&mut key, &generator.target(m));
    let serials = rising(4, generator);
    let joined = Bundle::of_key(key, &serials, generator);
    let places = any_of(
        &[
            [In::Both, In::First, In::Second, In::Both],
            [In::First, In::Both, In::Both, In::Second],
            [In::Both; 4],
        ],
        generator,
    );
    Pair::parted(joined, |index| places[index])
}

/// The lengths of an output: none, a byte, a byte less than both bundles have,
/// and as many.
fn any_room(pair: &Pair, generator: &mut Generator) -> usize {
    let needed = pair.joined.bytes().len();
    any_of(&[0, 1, needed - 1, needed, 2 * needed], generator)
}

/// Each refusal of the first with each of the second.
pub const EACH_TWO: Group = Group::new("each two refusals", |generator, each| {
    for (n, m) in SMALL {
        for &one in REFUSALS {
            for &other in REFUSALS {
                let pair = right_pair(n, m, generator);
                let first = refused(&pair.first, one, generator);
                let second = refused(&pair.second, other, generator);
                let room = any_room(&pair, generator);
                let answer = Some(one.number());
                each(join::case(&first, &second, room, answer, generator));
            }
        }
    }
})
.with_any_rows();

/// The second bundle as it is, with another key, and with a group that the first
/// has otherwise.
fn other_seconds(pair: &Pair, generator: &mut Generator) -> [Bundle; 3] {
    [
        pair.second.clone(),
        with_other_key(&pair.second, generator),
        with_other_group(&pair.first, generator),
    ]
}

/// Each refusal of the first and each of the second, beside 21, 22 and 13.
pub const BESIDE_OTHERS: Group =
    Group::new("each refusal beside 21, 22 and 13", |generator, each| {
        for (n, m) in SMALL {
            for &refusal in REFUSALS {
                let pair = right_pair(n, m, generator);
                let right = pair.first.bytes();
                let wrong = refused(&pair.first, refusal, generator);
                let answer = Some(refusal.number());
                for second in other_seconds(&pair, generator) {
                    let bytes = second.bytes();
                    let room = any_room(&pair, generator);
                    each(join::case(&wrong, &bytes, room, answer, generator));
                    let bytes = refused(&second, refusal, generator);
                    let room = any_room(&pair, generator);
                    each(join::case(&right, &bytes, room, answer, generator));
                }
            }
        }
    })
    .with_any_rows();

/// Hands over the two in this order, and in the other one.
fn both_orders(
    [wrong, right]: [&[u8]; 2],
    (room, answer): (usize, u32),
    generator: &mut Generator,
    each: &mut dyn FnMut(Case),
) {
    each(join::case(wrong, right, room, Some(answer), generator));
    each(join::case(right, wrong, room, Some(answer), generator));
}

/// A fault at each place of each field of one, beside the other as it is.
pub const EACH_PLACE: Group =
    Group::new("a fault at each place of each field", |generator, each| {
        for (n, m) in SMALL.into_iter().chain([(17, 8), (64, 27)]) {
            let pair = right_pair(n, m, generator);
            let (fields, right) = (pair.first.fields(), pair.second.bytes());
            let room = pair.joined.bytes().len();
            for spot in spots_of_fields(&fields) {
                for _ in 0..if n < 10 { 3 } else { 1 } {
                    let (wrong, answer) = faulty_fields(&fields, &[spot], generator);
                    both_orders([&wrong, &right], (room, answer), generator, each);
                }
            }
        }
    })
    .with_any_rows();

/// The same bundles without a fault.
pub const RIGHT: Group = Group::new("the same without a fault", |generator, each| {
    for (n, m) in SMALL.repeat(100) {
        let pair = right_pair(n, m, generator);
        each(with_room(&pair, generator.below(2), generator));
    }
});
