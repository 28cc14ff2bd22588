//! The refusals.

/// A refusal of the table in "Public entries and what they turn down":
/// "a refusal is an answer with its number".
#[derive(Clone, Copy, Debug, PartialEq, Eq, Hash)]
pub enum Refusal {
    /// 1: "n below 2 or above 64".
    SizeN,
    /// 2: "m is 0, or at least n".
    SizeM,
    /// 3: "a lent slice isn't of its stated length".
    SliceLength,
    /// 4: "an element of H or x is above 2047", and "An element of y above 2047
    /// gets 4."
    KeyElement,
    /// 5: "a byte of u or t is above 1".
    Bit,
    /// 6: "a coordinate of an element of K is above 2047".
    Coordinate,
    /// 7: "a position is 2^d or more".
    Position,
    /// 8: "some top coefficient of the n + m polynomials isn't zero".
    TopCoefficient,
    /// 9: "fewer than 3 bytes remain for tag and length", or "fewer bytes
    /// remain than the length".
    BytesMissing,
    /// 10: "not the tag that comes next".
    Tag,
    /// 11: "not the length stated above".
    FieldLength,
    /// 12: "bytes follow the last field".
    BytesFollow,
    /// 13: "when the output slice is shorter than the package", and of the join
    /// of bundles "13 applies last, to the joined length".
    ShortOutput,
    /// 14: "field 04 is present and all its elements are zero".
    ZeroTarget,
    /// 15: "when some coefficients from F, not all zero, combine the rows of H to
    /// zero".
    DependentRows,
    /// 16: "when prove is lent a spare code and none is too large".
    SpareCode,
    /// 19: "a four-byte serial is below 65,536".
    LongSerial,
    /// 20: "when a group's serial isn't above the one before".
    SerialOrder,
    /// 21: "when the key fields differ".
    OtherKey,
    /// 22: "when groups with one serial differ in field 06 or 07".
    GroupsDiffer,
}

impl Refusal {
    /// All refusals in the order of their numbers.
    pub const ALL: [Refusal; 20] = [
        Refusal::SizeN,
        Refusal::SizeM,
        Refusal::SliceLength,
        Refusal::KeyElement,
        Refusal::Bit,
        Refusal::Coordinate,
        Refusal::Position,
        Refusal::TopCoefficient,
        Refusal::BytesMissing,
        Refusal::Tag,
        Refusal::FieldLength,
        Refusal::BytesFollow,
        Refusal::ShortOutput,
        Refusal::ZeroTarget,
        Refusal::DependentRows,
        Refusal::SpareCode,
        Refusal::LongSerial,
        Refusal::SerialOrder,
        Refusal::OtherKey,
        Refusal::GroupsDiffer,
    ];

    /// The column "Number" of the table.
    pub fn number(self) -> u32 {
        match self {
            Refusal::SizeN => 1,
            Refusal::SizeM => 2,
            Refusal::SliceLength => 3,
            Refusal::KeyElement => 4,
            Refusal::Bit => 5,
            Refusal::Coordinate => 6,
            Refusal::Position => 7,
            Refusal::TopCoefficient => 8,
            Refusal::BytesMissing => 9,
            Refusal::Tag => 10,
            Refusal::FieldLength => 11,
            Refusal::BytesFollow => 12,
            Refusal::ShortOutput => 13,
            Refusal::ZeroTarget => 14,
            Refusal::DependentRows => 15,
            Refusal::SpareCode => 16,
            Refusal::LongSerial => 19,
            Refusal::SerialOrder => 20,
            Refusal::OtherKey => 21,
            Refusal::GroupsDiffer => 22,
        }
    }
}
