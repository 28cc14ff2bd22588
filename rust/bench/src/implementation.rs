//! The implementations that are compared, each by the functions of its entries.

use crate::{of_reference, order};
use comparison::library;
use reference::package::tag;
use reference::samples::{Material, Sample};

/// Sum or product of two elements of K.
pub type OnElements = fn(&[u16], &[u16], &mut [u16]) -> u32;

/// An entry with a key, with the room for t and for what else it writes.
pub type OnKey = fn(&Material, &mut [u8], &mut [u16]) -> u32;

/// The entry rank: n, m and H, the matrix and the rank that it writes.
pub type OnMatrix = fn(usize, usize, &[u16], &mut [u16], &mut usize) -> u32;

/// The entry quick look: n and the positions, and the index that it writes.
pub type OnPositions = fn(usize, &[u8], &mut usize) -> u32;

/// The entry write package: the room for the package, and its length, which it
/// writes too.
pub type OnPackage = fn(&Material, &mut [u8], &mut usize) -> u32;

/// The entry read bundle: n, m and the number of groups, which it writes.
pub type OnBundle = fn(&[u8], &mut u32, &mut u32, &mut usize) -> u32;

/// The entry join bundles: the room for the joined bundle, and its length and its
/// number of groups, which it writes too.
pub type OnBundles = fn(&[u8], &[u8], &mut [u8], &mut usize, &mut usize) -> u32;

/// The entry look before join: the room, and the length and the number of groups,
/// which it writes.
pub type OnRoom = fn(&[u8], &[u8], usize, &mut usize, &mut usize) -> u32;

/// What the entries on bytes write.
#[derive(Clone, Debug, Default, PartialEq)]
pub struct Found {
    /// The size n.
    pub n: u32,
    /// The size m.
    pub m: u32,
    /// The serial.
    pub serial: u32,
    /// The place of a field.
    pub start: usize,
}

/// An entry on the bytes of a file.
pub type OnBytes = fn(&[u8], &mut Found) -> usize;

/// The names of the entries with a key.
pub const KEYED: [&str; 4] = ["constraints", "values", "prove", "verify"];

/// The name of the entry rank.
pub const RANK: &str = "rank";

/// The name of the entry quick look.
pub const QUICK_LOOK: &str = "quick_look";

/// The name of the entry write package.
pub const WRITE: &str = "write_package";

/// The names of the entries on bundles.
pub const READ_BUNDLE: &str = "read_bundle";
pub const JOIN: &str = "join_bundles";
pub const LOOK: &str = "look_before_join";

/// The place of prove among those with a key.
const PROVE: usize = 2;

/// The names of the entries on bytes.
pub const FILED: [&str; 4] = ["read_package", "read_check_file", "field", "check"];

/// An implementation.
pub struct Implementation {
    /// Its name.
    pub name: &'static str,
    /// The entry sum.
    pub sum: OnElements,
    /// The entry product.
    pub product: OnElements,
    /// The entry rank. Another build may be from before it; then its other
    /// entries do not refuse rows that lean on each other.
    pub rank: Option<OnMatrix>,
    /// The entry quick look, where it has it.
    pub quick_look: Option<OnPositions>,
    /// The entry write package, where it has it.
    pub write: Option<OnPackage>,
    /// The entries read bundle and join bundles, where it has them.
    pub bundles: Option<(OnBundle, OnBundles)>,
    /// The entry look before join, where it has it.
    pub look: Option<OnRoom>,
    /// The entries with a key.
    pub keyed: [OnKey; 4],
    /// The entries on bytes, where it has them.
    pub filed: Option<[OnBytes; 4]>,
    /// Whether its instructions are counted.
    pub counted: bool,
}

/// The entries with a key of a module.
macro_rules! keyed {
    ($module:path) => {{
        use $module as module;
        [
            |Material { sample: k, .. }, t, out| {
                module::constraints(k.key(), &k.positions, &k.u, &k.v, t, out)
            },
            |Material { sample: k, t, .. }, _, out| module::values(k.key(), t, &k.q, &k.delta, out),
            |Material { sample: k, .. }, t, out| {
                module::prove(
                    k.key(),
                    &k.positions,
                    &k.u,
                    &k.v,
                    &k.r,
                    &k.s,
                    &k.alpha,
                    t,
                    out,
                )
            },
            |Material { sample: k, t, a }, _, _| {
                module::verify(k.key(), t, &k.q, &k.delta, &k.masks, &k.alpha, a)
            },
        ]
    }};
}

/// The entries on bytes of a module.
macro_rules! filed {
    ($module:path) => {{
        use $module as module;
        Some([
            |bytes, found| {
                module::read_package(bytes, &mut found.n, &mut found.m, &mut found.serial) as usize
            },
            |bytes, found| {
                module::read_check_file(bytes, &mut found.n, &mut found.m, &mut found.serial)
                    as usize
            },
            |bytes, found| module::field(bytes, tag::A, &mut found.start),
            |bytes, _| module::check(bytes) as usize,
        ])
    }};
}

/// The entry write package of a module.
macro_rules! writer {
    ($module:path) => {{
        use $module as module;
        Some(|Material { sample: k, t, a }, out, length| {
            module::write_package(k.key(), k.serial, t, a, out, length)
        })
    }};
}

/// The entries on bundles of a module.
macro_rules! bundles {
    ($module:path) => {{
        use $module as module;
        Some((module::read_bundle, module::join_bundles))
    }};
}

/// The implementation of a module, with its name, its entries rank, quick look and
/// write package, its entries on bundles, the look before the join, its entries on
/// bytes, and whether its instructions are counted.
macro_rules! implementation {
    ($module:path, $name:literal, $rank:expr, $quick_look:expr, $write:expr, $bundles:expr, $look:expr, $filed:expr, $counted:literal) => {{
        use $module as module;
        Implementation {
            name: $name,
            sum: module::sum,
            product: module::product,
            rank: $rank,
            quick_look: $quick_look,
            write: $write,
            bundles: $bundles,
            look: $look,
            keyed: keyed!($module),
            filed: $filed,
            counted: $counted,
        }
    }};
}

/// The entry rank of another build that has it, as the build script tells.
#[cfg(all(feature = "other", other_rank))]
const OTHER_RANK: Option<OnMatrix> = Some(library::other::rank);
/// The entry rank of another build from before it.
#[cfg(all(feature = "other", not(other_rank)))]
const OTHER_RANK: Option<OnMatrix> = None;

/// The entry quick look of another build that has it.
#[cfg(all(feature = "other", other_quick_look))]
const OTHER_QUICK_LOOK: Option<OnPositions> = Some(library::other::quick_look);
/// The entry quick look of another build from before it.
#[cfg(all(feature = "other", not(other_quick_look)))]
const OTHER_QUICK_LOOK: Option<OnPositions> = None;

/// The entry write package of another build that has it.
#[cfg(all(feature = "other", other_write_package))]
const OTHER_WRITE: Option<OnPackage> = writer!(library::other);
/// The entry write package of another build from before it.
#[cfg(all(feature = "other", not(other_write_package)))]
const OTHER_WRITE: Option<OnPackage> = None;

/// The entries on bundles of another build that has them.
#[cfg(all(feature = "other", other_join_bundles))]
const OTHER_BUNDLES: Option<(OnBundle, OnBundles)> = bundles!(library::other);
/// The entries on bundles of another build from before them.
#[cfg(all(feature = "other", not(other_join_bundles)))]
const OTHER_BUNDLES: Option<(OnBundle, OnBundles)> = None;

/// The entry look before join of another build that has it.
#[cfg(all(feature = "other", other_look_before_join))]
const OTHER_LOOK: Option<OnRoom> = Some(library::other::look_before_join);
/// The entry look before join of another build from before it.
#[cfg(all(feature = "other", not(other_look_before_join)))]
const OTHER_LOOK: Option<OnRoom> = None;

/// The implementations, in the order of the columns.
pub const ALL: &[Implementation] = &[
    implementation!(
        library,
        "library",
        Some(library::rank),
        Some(library::quick_look),
        writer!(library),
        bundles!(library),
        Some(library::look_before_join),
        filed!(library),
        true
    ),
    implementation!(
        packed,
        "Rust",
        Some(packed::rank),
        Some(order::quick_look),
        None,
        None,
        None,
        None,
        true
    ),
    implementation!(
        of_reference,
        "reference",
        Some(of_reference::rank),
        Some(of_reference::quick_look),
        writer!(of_reference),
        bundles!(of_reference),
        Some(of_reference::look_before_join),
        filed!(of_reference),
        false
    ),
    #[cfg(feature = "other")]
    implementation!(
        library::other,
        "other",
        OTHER_RANK,
        OTHER_QUICK_LOOK,
        OTHER_WRITE,
        OTHER_BUNDLES,
        OTHER_LOOK,
        filed!(library::other),
        true
    ),
];

/// The place of the library in the order.
pub const LIBRARY: usize = 0;
/// The place of the same algorithms in Rust.
pub const RUST: usize = 1;
/// The place of the reference.
pub const REFERENCE: usize = 2;
/// The place of the other build of the library, where there is one.
pub const OTHER: usize = 3;

/// What the other build is, as `PERK_OTHER_NAME` says it.
pub fn other_name() -> Option<String> {
    std::env::var("PERK_OTHER_NAME")
        .ok()
        .filter(|name| !name.is_empty())
}

/// Material of a sample, with t and a of its proof, which the reference would
/// take long to make.
pub fn material(sample: Sample) -> Material {
    let sizes = sample.key().sizes().expect("sizes that are not refused");
    let mut t = vec![0; sizes.length_of("t")];
    let mut a = vec![0; sizes.length_of("a")];
    let mut material = Material {
        sample,
        t: Vec::new(),
        a: Vec::new(),
    };
    let answer = ALL[RUST].keyed[PROVE](&material, &mut t, &mut a);
    assert_eq!(answer, 0, "the sample is solved");
    (material.t, material.a) = (t, a);
    material
}

/// The words that each entry with a key writes beside t.
pub fn written_words(sample: &Sample) -> [usize; 4] {
    let sizes = sample.key().sizes().expect("sizes that are not refused");
    let outputs = [Some("polynomials"), Some("values"), Some("a"), None];
    outputs.map(|output| output.map_or(0, |slice| sizes.length_of(slice)))
}
