//! Orders: whether positions are 0 to n - 1, each once.

use crate::c;
use crate::refusal::{self, Refusal};

/// The number of an offender. A rejected proof has it too, of other functions.
const OFFENDER: u32 = 255;

/// What [`quick_look`] finds. An offender is no refusal: a caller who only asks
/// whether a result is `Ok` has not looked at it.
#[derive(Clone, Copy, Debug, PartialEq, Eq)]
#[must_use = "an offender is no refusal; compare with Look::Well"]
pub enum Look {
    /// All is well: the positions are 0 to n - 1, each once.
    Well,
    /// The index, from 0, of the first position that is no column or came before.
    Offender(usize),
}

/// Whether positions are an order, 0 to n - 1, each once, for a driver that asks
/// before it fetches correlations: [`Look::Well`], or the index of the first
/// offender, a position that is no column or came before.
///
/// - `positions`: n bytes, of any value.
///
/// A position came before where an equal one has a smaller index, so that the later
/// of the two is the offender. Spare codes, n to 2^d - 1, and positions from 2^d on
/// are offenders alike: [`Refusal::SpareCode`] and [`Refusal::Position`] are not
/// answered here. [`Look::Well`] says nothing of H, x and y: whether an order solves
/// a key is for [`prove`](crate::prove) to say.
///
/// Its time tells the index. The positions are read from the first on, and none
/// after the first offender, and jumps depend on them, as is asked of this
/// function. So it is not among the functions of which it is tested that no jump and
/// no address depends on secrets, and a caller that must hide its positions does not
/// call it; `prove` refuses the same lists, and tells no index. When the reading
/// stops is not proved. The stack is not wiped.
///
/// Proved besides: where it is `Ok`, it is [`Look::Well`] exactly when the positions
/// are 0 to n - 1, each once; and, for each key of this n, each u and each v, exactly
/// when no position is 2^d or more and the top coefficients of the n column
/// polynomials, the first n of those that [`constraints`](crate::constraints)
/// defines, are all zero.
///
/// # Errors
///
/// In this order: [`Refusal::SizeN`], [`Refusal::SliceLength`] (`positions`).
///
/// # Examples
///
/// For n = 3, where d is 2, and n = 2:
///
/// ```
/// use perk::{quick_look, Look, Refusal};
///
/// # fn main() -> Result<(), Refusal> {
/// match quick_look(3, &[2, 0, 1])? {
///     Look::Well => println!("an order: correlations may be fetched"),
///     Look::Offender(index) => println!("the position at {index} is to be corrected"),
/// }
/// assert_eq!(quick_look(3, &[2, 0, 1]), Ok(Look::Well));
/// assert_eq!(quick_look(3, &[2, 0, 2]), Ok(Look::Offender(2))); // 2 came before
/// assert_eq!(quick_look(3, &[2, 3, 0]), Ok(Look::Offender(1))); // a spare code
/// assert_eq!(quick_look(3, &[2, 0, 5]), Ok(Look::Offender(2))); // too large
/// assert_eq!(quick_look(2, &[1, 1]), Ok(Look::Offender(1)));
///
/// assert_eq!(quick_look(3, &[2, 0]), Err(Refusal::SliceLength));
/// assert_eq!(quick_look(65, &[2, 0]), Err(Refusal::SizeN));
/// # Ok(())
/// # }
/// ```
pub fn quick_look(n: usize, positions: &[u8]) -> Result<Look, Refusal> {
    let mut index = 0;
    let (start, len) = (positions.as_ptr(), positions.len());
    // SAFETY: the pointer and the length are those of one slice, so they name memory
    // that is valid to read. `index` is an exclusive borrow, so it does not overlap
    // the slice.
    let number = unsafe { c::perk_quick_look(n, start, len, &mut index) };
    match number {
        OFFENDER => Ok(Look::Offender(index)),
        number => refusal::answer(number).map(|()| Look::Well),
    }
}
