//! The refusals and the verdict, with their numbers.

use core::error::Error;
use core::fmt;

/// What a call was refused for. Every output then holds what it held before.
///
/// Each function lists its refusals in the order in which they are tried; the
/// first that applies is the answer. The numbers are those of the
/// specification.
#[derive(Clone, Copy, Debug, PartialEq, Eq, Hash)]
#[repr(u8)]
pub enum Refusal {
    /// 1: n is below 2 or above 64.
    SizeN = 1,
    /// 2: m is 0, or at least n.
    SizeM = 2,
    /// 3: a slice is not of its stated length. This is decided before any slice
    /// is read, which is tested.
    SliceLength = 3,
    /// 4: an element of H, x or y is above 2047.
    KeyElement = 4,
    /// 5: a byte of u or t is above 1.
    Bit = 5,
    /// 6: a coordinate of an element of K is above 2047.
    Coordinate = 6,
    /// 7: a position is 2^d or more. [`quick_look`](crate::quick_look) tells the index
    /// of such a position, and does not refuse it.
    Position = 7,
    /// 8: a top coefficient of the n + m polynomials is not zero, which means
    /// that the positions do not solve the key.
    TopCoefficient = 8,
    /// 9: fewer than 3 bytes remain for a field's tag and length, or fewer bytes
    /// than its length says.
    BytesMissing = 9,
    /// 10: a tag is not the one that comes next.
    Tag = 10,
    /// 11: a field's length is not one stated for it.
    FieldLength = 11,
    /// 12: bytes follow the last field.
    BytesFollow = 12,
    /// 13: the output is shorter than what is to be written. Of
    /// [`write_package`](crate::write_package) and
    /// [`join_bundles`](crate::join_bundles), and of
    /// [`look_before_join`](crate::look_before_join) for an output that is meant to
    /// be lent, after all their other refusals.
    ShortOutput = 13,
    /// 14: the field 04 of a file is present, and all its elements are zero.
    ZeroTarget = 14,
    /// 15: some coefficients from F, not all zero, combine the rows of H to zero:
    /// the rows lean on each other. [`rank`](crate::rank) does not refuse them.
    DependentRows = 15,
    /// 16: a position is a spare code, n to 2^d - 1, which names no column, and
    /// none is 2^d or more. Of [`prove`](crate::prove) alone;
    /// [`constraints`](crate::constraints) takes spare codes, and
    /// [`quick_look`](crate::quick_look) tells the index of one.
    SpareCode = 16,
    /// 19: a serial of four bytes is below 65536, so that it fits two.
    LongSerial = 19,
    /// 20: the serial of a group of a bundle is not above that of the group before
    /// it. An equal one is not.
    SerialOrder = 20,
    /// 21: the two bundles have different key fields, fields 01 to 04. Of
    /// [`join_bundles`](crate::join_bundles) and
    /// [`look_before_join`](crate::look_before_join), after all refusals of both
    /// bundles.
    OtherKey = 21,
    /// 22: two groups with one serial differ in t or a, the fields 06 and 07. Of
    /// [`join_bundles`](crate::join_bundles) and
    /// [`look_before_join`](crate::look_before_join).
    GroupsDiffer = 22,
}

impl Refusal {
    /// All refusals, in the order of their numbers.
    pub const ALL: [Refusal; 20] = [
        Refusal::SizeN,
        Refusal::SizeM,
        Refusal::SliceLength,
        Refusal::KeyElement,
        Refusal::Bit,
        Refusal::Coordinate,
        Refusal::Position,
        Refusal::TopCoefficient,
        Refusal::BytesMissing,
        Refusal::Tag,
        Refusal::FieldLength,
        Refusal::BytesFollow,
        Refusal::ShortOutput,
        Refusal::ZeroTarget,
        Refusal::DependentRows,
        Refusal::SpareCode,
        Refusal::LongSerial,
        Refusal::SerialOrder,
        Refusal::OtherKey,
        Refusal::GroupsDiffer,
    ];

    /// Its number, 1 to 16 or 19 to 22, which the C function returns.
    pub const fn number(self) -> u32 {
        self as u32
    }

    /// The refusal with this number. No function of the library answers a
    /// number without a refusal, and for such a number this panics.
    fn with_number(number: u32) -> Refusal {
        match Refusal::ALL
            .iter()
            .find(|refusal| refusal.number() == number)
        {
            Some(refusal) => *refusal,
            None => panic!("libperk.a answered {number}, which is no refusal"),
        }
    }
}

/// What was wrong, in words, without the number.
impl fmt::Display for Refusal {
    fn fmt(&self, f: &mut fmt::Formatter<'_>) -> fmt::Result {
        f.write_str(match self {
            Refusal::SizeN => "n is below 2 or above 64",
            Refusal::SizeM => "m is 0, or at least n",
            Refusal::SliceLength => "a slice is not of its stated length",
            Refusal::KeyElement => "an element of H, x or y is above 2047",
            Refusal::Bit => "a byte of u or t is above 1",
            Refusal::Coordinate => "a coordinate of an element of K is above 2047",
            Refusal::Position => "a position is 2^d or more",
            Refusal::TopCoefficient => {
                "a top coefficient is not zero: the positions do not solve the key"
            }
            Refusal::BytesMissing => "the bytes end before a field is complete",
            Refusal::Tag => "a tag is not the one that comes next",
            Refusal::FieldLength => "a field's length is not one stated for it",
            Refusal::BytesFollow => "bytes follow the last field",
            Refusal::ShortOutput => "the output is shorter than what is to be written",
            Refusal::ZeroTarget => "field 04 is present and all its elements are zero",
            Refusal::DependentRows => {
                "some coefficients from F, not all zero, combine the rows of H to zero"
            }
            Refusal::SpareCode => "a position is a spare code, n to 2^d - 1, which names no column",
            Refusal::LongSerial => "a serial of four bytes is below 65536, so that it fits two",
            Refusal::SerialOrder => "a group's serial is not above the one before it",
            Refusal::OtherKey => "the two bundles have different key fields",
            Refusal::GroupsDiffer => "two groups with one serial differ in t or a",
        })
    }
}

impl Error for Refusal {}

/// Whether a proof is accepted. Rejected is no refusal: a caller who only asks
/// whether a result is `Ok` has not looked at the verdict.
#[derive(Clone, Copy, Debug, PartialEq, Eq, Hash)]
#[must_use = "a rejected proof is no refusal; compare with Verdict::Accepted"]
pub enum Verdict {
    /// The equation that [`verify`](crate::verify) states holds. It means no
    /// more than that.
    Accepted,
    /// The equation does not hold.
    Rejected,
}

/// `accepted` or `rejected`.
impl fmt::Display for Verdict {
    fn fmt(&self, f: &mut fmt::Formatter<'_>) -> fmt::Result {
        f.write_str(match self {
            Verdict::Accepted => "accepted",
            Verdict::Rejected => "rejected",
        })
    }
}

/// The answer of a function that writes its results.
pub(crate) fn answer(number: u32) -> Result<(), Refusal> {
    match number {
        0 => Ok(()),
        number => Err(Refusal::with_number(number)),
    }
}

/// The answer of a function that accepts or rejects.
pub(crate) fn verdict(number: u32) -> Result<Verdict, Refusal> {
    match number {
        0 => Ok(Verdict::Accepted),
        255 => Ok(Verdict::Rejected),
        number => Err(Refusal::with_number(number)),
    }
}
