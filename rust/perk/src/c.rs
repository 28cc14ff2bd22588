//! The functions of libperk.a, as `include/perk.h` declares them.

/// Declares the functions of a build of libperk.a whose names start with a
/// prefix: none, but where another build is linked beside it.
#[doc(hidden)]
#[macro_export]
macro_rules! declarations {
    ($prefix:literal) => {
        extern "C" {
            #[link_name = concat!($prefix, "perk_sum")]
            pub fn perk_sum(
                a: *const u16,
                a_len: usize,
                b: *const u16,
                b_len: usize,
                out: *mut u16,
                out_len: usize,
            ) -> u32;

            #[link_name = concat!($prefix, "perk_product")]
            pub fn perk_product(
                a: *const u16,
                a_len: usize,
                b: *const u16,
                b_len: usize,
                out: *mut u16,
                out_len: usize,
            ) -> u32;

            #[link_name = concat!($prefix, "perk_rank")]
            pub fn perk_rank(
                n: usize,
                m: usize,
                h: *const u16,
                h_len: usize,
                matrix: *mut u16,
                matrix_len: usize,
                rank: *mut usize,
            ) -> u32;

            #[link_name = concat!($prefix, "perk_quick_look")]
            pub fn perk_quick_look(
                n: usize,
                positions: *const u8,
                positions_len: usize,
                index: *mut usize,
            ) -> u32;

            #[link_name = concat!($prefix, "perk_constraints")]
            pub fn perk_constraints(
                n: usize,
                m: usize,
                h: *const u16,
                h_len: usize,
                x: *const u16,
                x_len: usize,
                y: *const u16,
                y_len: usize,
                positions: *const u8,
                positions_len: usize,
                u: *const u8,
                u_len: usize,
                v: *const u16,
                v_len: usize,
                t: *mut u8,
                t_len: usize,
                polynomials: *mut u16,
                polynomials_len: usize,
            ) -> u32;

            #[link_name = concat!($prefix, "perk_values")]
            pub fn perk_values(
                n: usize,
                m: usize,
                h: *const u16,
                h_len: usize,
                x: *const u16,
                x_len: usize,
                y: *const u16,
                y_len: usize,
                t: *const u8,
                t_len: usize,
                q: *const u16,
                q_len: usize,
                delta: *const u16,
                delta_len: usize,
                values: *mut u16,
                values_len: usize,
            ) -> u32;

            #[link_name = concat!($prefix, "perk_prove")]
            pub fn perk_prove(
                n: usize,
                m: usize,
                h: *const u16,
                h_len: usize,
                x: *const u16,
                x_len: usize,
                y: *const u16,
                y_len: usize,
                positions: *const u8,
                positions_len: usize,
                u: *const u8,
                u_len: usize,
                v: *const u16,
                v_len: usize,
                r: *const u16,
                r_len: usize,
                s: *const u16,
                s_len: usize,
                alpha: *const u16,
                alpha_len: usize,
                t: *mut u8,
                t_len: usize,
                a: *mut u16,
                a_len: usize,
            ) -> u32;

            #[link_name = concat!($prefix, "perk_verify")]
            pub fn perk_verify(
                n: usize,
                m: usize,
                h: *const u16,
                h_len: usize,
                x: *const u16,
                x_len: usize,
                y: *const u16,
                y_len: usize,
                t: *const u8,
                t_len: usize,
                q: *const u16,
                q_len: usize,
                delta: *const u16,
                delta_len: usize,
                masks: *const u16,
                masks_len: usize,
                alpha: *const u16,
                alpha_len: usize,
                a: *const u16,
                a_len: usize,
            ) -> u32;

            #[link_name = concat!($prefix, "perk_read_package")]
            pub fn perk_read_package(
                bytes: *const u8,
                bytes_len: usize,
                n: *mut u32,
                m: *mut u32,
                serial: *mut u32,
            ) -> u32;

            #[link_name = concat!($prefix, "perk_read_check_file")]
            pub fn perk_read_check_file(
                bytes: *const u8,
                bytes_len: usize,
                n: *mut u32,
                m: *mut u32,
                serial: *mut u32,
            ) -> u32;

            #[link_name = concat!($prefix, "perk_field")]
            pub fn perk_field(
                bytes: *const u8,
                bytes_len: usize,
                tag: u8,
                start: *mut usize,
            ) -> usize;

            #[link_name = concat!($prefix, "perk_write_package")]
            pub fn perk_write_package(
                n: usize,
                m: usize,
                h: *const u16,
                h_len: usize,
                x: *const u16,
                x_len: usize,
                y: *const u16,
                y_len: usize,
                serial: u32,
                t: *const u8,
                t_len: usize,
                a: *const u16,
                a_len: usize,
                out: *mut u8,
                out_len: usize,
                length: *mut usize,
            ) -> u32;

            #[link_name = concat!($prefix, "perk_check")]
            pub fn perk_check(bytes: *const u8, bytes_len: usize) -> u32;

            #[link_name = concat!($prefix, "perk_read_bundle")]
            pub fn perk_read_bundle(
                bytes: *const u8,
                bytes_len: usize,
                n: *mut u32,
                m: *mut u32,
                groups: *mut usize,
            ) -> u32;

            #[link_name = concat!($prefix, "perk_join_bundles")]
            pub fn perk_join_bundles(
                first: *const u8,
                first_len: usize,
                second: *const u8,
                second_len: usize,
                out: *mut u8,
                out_len: usize,
                length: *mut usize,
                groups: *mut usize,
            ) -> u32;

            #[link_name = concat!($prefix, "perk_look_before_join")]
            pub fn perk_look_before_join(
                first: *const u8,
                first_len: usize,
                second: *const u8,
                second_len: usize,
                room: usize,
                length: *mut usize,
                groups: *mut usize,
            ) -> u32;
        }
    };
}

declarations!("");
