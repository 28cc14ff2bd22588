//! The C functions of libperk.a, as functions on slices. Each answers 0 when
//! it is done, else the number of the refusal; verify and check answer 255 when
//! they reject, and quick look when some position is an offender. The field of a
//! package answers a length.
//!
//! With the feature `other`, the module `other` has the same functions of
//! another build of the library, linked beside it, whose C names start with
//! `other_`.
#![allow(unsafe_code)]

use perk::c;
use reference::Key;

/// Functions on slices for C functions that take two elements and write one.
macro_rules! on_elements {
    ($(
        $(#[$about:meta])*
        $name:ident = $function:ident;
    )*) => {$(
        $(#[$about])*
        #[inline]
        pub fn $name(a: &[u16], b: &[u16], out: &mut [u16]) -> u32 {
            // SAFETY: the slices are valid for their lengths, and the output
            // overlaps no other.
            unsafe {
                c::$function(
                    a.as_ptr(),
                    a.len(),
                    b.as_ptr(),
                    b.len(),
                    out.as_mut_ptr(),
                    out.len(),
                )
            }
        }
    )*};
}

/// Functions on slices for C functions that take a key, then slices that they
/// read, then slices that they write.
macro_rules! on_keys {
    ($(
        $(#[$about:meta])*
        $name:ident = $function:ident,
        inputs ($($input:ident: $read:ty),*),
        outputs ($($output:ident: $written:ty),*);
    )*) => {$(
        $(#[$about])*
        #[allow(clippy::too_many_arguments)]
        #[inline]
        pub fn $name(
            key: Key<'_>,
            $($input: &[$read],)*
            $($output: &mut [$written],)*
        ) -> u32 {
            let Key { n, m, h, x, y } = key;
            // SAFETY: the slices are valid for their lengths, and no output
            // overlaps another slice.
            unsafe {
                c::$function(
                    n,
                    m,
                    h.as_ptr(),
                    h.len(),
                    x.as_ptr(),
                    x.len(),
                    y.as_ptr(),
                    y.len(),
                    $($input.as_ptr(), $input.len(),)*
                    $($output.as_mut_ptr(), $output.len(),)*
                )
            }
        }
    )*};
}

/// Functions on slices for C functions that read the bytes of a file and write
/// n, m and the serial.
macro_rules! readers {
    ($(
        $(#[$about:meta])*
        $name:ident = $function:ident;
    )*) => {$(
        $(#[$about])*
        pub fn $name(bytes: &[u8], n: &mut u32, m: &mut u32, serial: &mut u32) -> u32 {
            // SAFETY: the slice is valid for its length, and the numbers don't
            // overlap it or one another.
            unsafe { c::$function(bytes.as_ptr(), bytes.len(), n, m, serial) }
        }
    )*};
}

/// The functions of one build of the library, which the module `c` declares.
macro_rules! build {
    () => {
        on_elements! {
            /// The entry sum in K.
            sum = perk_sum;

            /// The entry product in K.
            product = perk_product;
        }

        /// The entry rank: writes the cleared form and the rank.
        pub fn rank(n: usize, m: usize, h: &[u16], matrix: &mut [u16], rank: &mut usize) -> u32 {
            let (h, h_len) = (h.as_ptr(), h.len());
            let (matrix, matrix_len) = (matrix.as_mut_ptr(), matrix.len());
            // SAFETY: the slices are valid for their lengths, and neither the
            // matrix nor the number overlaps another.
            unsafe { c::perk_rank(n, m, h, h_len, matrix, matrix_len, rank) }
        }

        /// The entry quick look: writes the index of the first position that is
        /// no column or came before.
        pub fn quick_look(n: usize, positions: &[u8], index: &mut usize) -> u32 {
            let (positions, positions_len) = (positions.as_ptr(), positions.len());
            // SAFETY: the slice is valid for its length, and the number doesn't
            // overlap it.
            unsafe { c::perk_quick_look(n, positions, positions_len, index) }
        }

        /// The entry write package: writes the package and its length.
        pub fn write_package(
            key: Key<'_>,
            serial: u32,
            t: &[u8],
            a: &[u16],
            out: &mut [u8],
            length: &mut usize,
        ) -> u32 {
            let Key { n, m, h, x, y } = key;
            // SAFETY: the slices are valid for their lengths, and neither the
            // output nor the number overlaps another.
            unsafe {
                c::perk_write_package(
                    n,
                    m,
                    h.as_ptr(),
                    h.len(),
                    x.as_ptr(),
                    x.len(),
                    y.as_ptr(),
                    y.len(),
                    serial,
                    t.as_ptr(),
                    t.len(),
                    a.as_ptr(),
                    a.len(),
                    out.as_mut_ptr(),
                    out.len(),
                    length,
                )
            }
        }

        on_keys! {
            /// The entry constraints.
            constraints = perk_constraints,
            inputs (positions: u8, u: u8, v: u16),
            outputs (t: u8, polynomials: u16);

            /// The entry prove.
            prove = perk_prove,
            inputs (positions: u8, u: u8, v: u16, r: u16, s: u16, alpha: u16),
            outputs (t: u8, a: u16);

            /// The entry values.
            values = perk_values,
            inputs (t: u8, q: u16, delta: u16),
            outputs (values: u16);

            /// The entry verify.
            verify = perk_verify,
            inputs (t: u8, q: u16, delta: u16, masks: u16, alpha: u16, a: u16),
            outputs ();
        }

        readers! {
            /// The entry read package.
            read_package = perk_read_package;

            /// The entry read check file.
            read_check_file = perk_read_check_file;
        }

        /// The entry read bundle: writes n, m and the number of groups.
        pub fn read_bundle(bytes: &[u8], n: &mut u32, m: &mut u32, groups: &mut usize) -> u32 {
            // SAFETY: the slice is valid for its length, and the numbers don't
            // overlap it or one another.
            unsafe { c::perk_read_bundle(bytes.as_ptr(), bytes.len(), n, m, groups) }
        }

        /// The entry join bundles: writes the joined bundle, its length and its
        /// number of groups.
        pub fn join_bundles(
            first: &[u8],
            second: &[u8],
            out: &mut [u8],
            length: &mut usize,
            groups: &mut usize,
        ) -> u32 {
            // SAFETY: the slices are valid for their lengths, and neither the
            // output nor a number overlaps another.
            unsafe {
                c::perk_join_bundles(
                    first.as_ptr(),
                    first.len(),
                    second.as_ptr(),
                    second.len(),
                    out.as_mut_ptr(),
                    out.len(),
                    length,
                    groups,
                )
            }
        }

        /// The entry look before join: writes the length and the number of groups
        /// of the joined bundle, for an output of this many bytes.
        pub fn look_before_join(
            first: &[u8],
            second: &[u8],
            room: usize,
            length: &mut usize,
            groups: &mut usize,
        ) -> u32 {
            let (first, first_len) = (first.as_ptr(), first.len());
            let (second, second_len) = (second.as_ptr(), second.len());
            // SAFETY: the slices are valid for their lengths, and the numbers don't
            // overlap them or one another.
            unsafe {
                c::perk_look_before_join(first, first_len, second, second_len, room, length, groups)
            }
        }

        /// The entry field of a package: writes where the part starts in the
        /// bytes, and answers its length.
        pub fn field(bytes: &[u8], tag: u8, start: &mut usize) -> usize {
            // SAFETY: the slice is valid for its length, and the number doesn't
            // overlap it.
            unsafe { c::perk_field(bytes.as_ptr(), bytes.len(), tag, start) }
        }

        /// Reads a check file and verifies it.
        pub fn check(bytes: &[u8]) -> u32 {
            // SAFETY: the slice is valid for its length.
            unsafe { c::perk_check(bytes.as_ptr(), bytes.len()) }
        }
    };
}

build!();

/// The functions of another build.
#[cfg(feature = "other")]
pub mod other {
    use reference::Key;

    /// Its C functions. The directory of libperk_other.a is the linker's to
    /// find: bin/bench names it.
    #[allow(missing_docs)]
    mod c {
        #[link(name = "perk_other", kind = "static")]
        extern "C" {}

        perk::declarations!("other_");
    }

    build!();
}
