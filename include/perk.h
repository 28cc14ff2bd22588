/*
 * PERK permutation proof, digit form: the C interface of libperk.a. What the library computes stands in
 * docs/specification.md, what is proved of it in docs/PROOFS.md, both in the repository of the library.
 *
 * Every function takes each slice as a pointer and then a length in elements, and is proved to read and write
 * nothing else, to end, and to answer as stated here for every content and every length of its slices.
 *
 * What the caller owes, as in any C interface: a pointer and its length name memory that is the caller's, aligned
 * for its type, and no output overlaps another slice of the call. Two inputs may be the same memory. A pointer whose
 * length is 0 is never read, and may be NULL.
 *
 * Results. PERK_DONE, which is 0, means that the outputs are written. Of perk_verify and perk_check, 0 is
 * PERK_ACCEPTED and 255 is PERK_REJECTED; rejected is no refusal. So compare with a name:
 *
 *     if (perk_verify(..) == PERK_ACCEPTED) ..       and not: if (perk_verify(..)) ..
 *
 * Of perk_quick_look, 0 means that all is well, and then its index holds what it held before; 255 is PERK_OFFENDER, which is
 * no refusal either, and then alone its index is written.
 *
 * Any other number is a refusal, 1 to 16 or 19 to 22, and then every output holds what it held before. Refusals are tried
 * in the order in which a function lists them; the first that applies is the result. Sizes and lengths are decided before
 * any slice is read, so that a length in bytes for one in words is refused with 3; this is tested, and not part of the
 * proof. Files have no stated length: the readers, perk_join_bundles and perk_look_before_join take any number of bytes, and
 * the output of perk_write_package and of perk_join_bundles may be longer than what is written, and is refused with 13,
 * after everything else, where it is shorter. perk_look_before_join is told the length of such an output, and lent none.
 *
 * Numbers. An element of F is a number 0 to 2047 whose bit i is the coefficient of z^i, with z^11 = z^2 + 1. An element
 * of K is PERK_ELEMENT_WORDS = 12 words, coordinate 0 first, each an element of F, with Y^12 = Y^3 + 1; several elements
 * stand one after another. Sums are bitwise exclusive or.
 *
 * A key is n, m, H, x and y: n is 2 to 64, m is 1 to n - 1, H has m rows of n elements of F, row after row, x has n
 * elements of F, and the target y has m. d = PERK_DIGITS(n) is the number of binary digits of n - 1. Bits, offsets and q
 * have d places for each of n rows, row after row, place 0 (the highest digit) first.
 *
 * Rows that lean. The rows of H lean on each other where some coefficients from F, not all zero, combine them to zero: one
 * is a multiple of another, or a sum of multiples of others, or all zero, which is the only way where m is 1. A row that
 * leans asks nothing of an order that the others do not ask, where its element of y fits, as with a y of zeros, so that
 * more orders solve such a key than its m rows seem to let; where it does not fit, none does. Such a key is not well
 * formed: every function that takes a key, the readers of files included, refuses it with 15, and tests that in memory of
 * its own. perk_rank tells how many rows do not lean, and refuses none for it.
 *
 * Positions. Position i says which entry of x becomes entry i: x'(i) = x(position i). Positions solve a key when they are
 * 0 to n - 1, each once, and H x', H times x in the order of the positions, equals y. For a key without a target lend m
 * zeros as y. A position below n is a column; one from n to 2^d - 1 is a spare code and names no entry of x; one from 2^d
 * on is too large. perk_prove tells the three apart before any algebra: 16 and 7. perk_quick_look tells, of positions alone,
 * whether they are 0 to n - 1, each once.
 *
 * Threads. The library has no state: no variable outlives a call, and any number of calls may run at the same time, as
 * long as no output of one is a slice of another. It takes no memory from the heap and calls no operating system.
 *
 * Secrets. Nothing is wiped: perk_constraints and perk_prove leave numbers made of positions, u, v, r and s on the stack
 * below their caller, and in registers, and perk_quick_look may leave numbers made of positions there. A host that must not
 * leave them there either makes the call in a thread whose stack is memory of its own (pthread_attr_setstack) and wipes this
 * memory once the thread has ended; or calls, in the same function and directly after it, a function that is not inlined and
 * that writes zeros, through a pointer to volatile, over a local array at least as large as the stack that is stated below.
 * The time of perk_quick_look depends on the positions besides; what it tells is stated there.
 *
 * Linking. libperk.a is for x86-64 with the System V calling convention (Linux). Its code is position independent. It
 * needs memcpy and memset, and nothing else. Stack is stated for each function at its largest sizes.
 */
#ifndef PERK_H
#define PERK_H

#include <stddef.h>
#include <stdint.h>

#define PERK_VERSION "0.9.0"
#define PERK_VERSION_MAJOR 0
#define PERK_VERSION_MINOR 9
#define PERK_VERSION_PATCH 0

/* results */
#define PERK_DONE 0
#define PERK_ACCEPTED 0
#define PERK_REJECTED 255    /* of perk_verify and perk_check: the equation does not hold */
#define PERK_OFFENDER 255    /* of perk_quick_look: the position at the index is no column, or came before */

/* refusals */
#define PERK_SIZE_N 1        /* n is below 2 or above 64 */
#define PERK_SIZE_M 2        /* m is 0, or at least n */
#define PERK_SLICE_LENGTH 3  /* a slice, input or output, is not of its stated length */
#define PERK_KEY_ELEMENT 4   /* an element of H, x or y is above 2047 */
#define PERK_BIT 5           /* a byte of u or t is above 1 */
#define PERK_COORDINATE 6    /* a coordinate of an element of K is above 2047 */
#define PERK_POSITION 7      /* a position is 2^d or more */
#define PERK_TOP 8           /* a top coefficient of the n + m polynomials is not zero: the positions do not solve the key */
#define PERK_BYTES_MISSING 9 /* fewer bytes remain than a field's tag and length, or its content, need */
#define PERK_TAG 10          /* not the tag that comes next */
#define PERK_FIELD_LENGTH 11 /* not a length that the field has for these sizes */
#define PERK_BYTES_FOLLOW 12 /* bytes follow the last field */
#define PERK_SHORT_OUTPUT 13 /* the output, lent or meant to be lent, is shorter than what is to be written */
#define PERK_ZERO_TARGET 14  /* field 04 is present and all its elements are zero */
#define PERK_DEPENDENT_ROWS 15 /* some coefficients from F, not all zero, combine the rows of H to zero */
#define PERK_SPARE_CODE 16   /* a position is a spare code, n to 2^d - 1, which names no column; none is 2^d or more */
#define PERK_LONG_SERIAL 19  /* a serial of four bytes is below 65536, so that it fits two */
#define PERK_SERIAL_ORDER 20 /* a group's serial is not above the one before it */
#define PERK_OTHER_KEY 21    /* the two bundles have different key fields */
#define PERK_GROUPS_DIFFER 22 /* two groups with one serial differ in t or a */

/* d, for n from 2 to 64; a constant expression where n is one */
#define PERK_DIGITS(n) ((n) > 32 ? 6 : (n) > 16 ? 5 : (n) > 8 ? 4 : (n) > 4 ? 3 : (n) > 2 ? 2 : 1)

/* lengths of slices, for n from 2 to 64 and m from 1 to n - 1: words are uint16_t, bytes are uint8_t */
#define PERK_ELEMENT_WORDS 12
#define PERK_H_WORDS(n, m) ((m) * (n))
#define PERK_MATRIX_WORDS(n, m) ((m) * (n))
#define PERK_X_WORDS(n) (n)
#define PERK_Y_WORDS(m) (m)
#define PERK_POSITIONS_BYTES(n) (n)
#define PERK_U_BYTES(n) ((n) * PERK_DIGITS(n))
#define PERK_V_WORDS(n) (12 * (n) * PERK_DIGITS(n))
#define PERK_R_WORDS(n) (12 * (PERK_DIGITS(n) - 1))
#define PERK_S_WORDS(n) (12 * (PERK_DIGITS(n) - 1))
#define PERK_ALPHA_WORDS(n, m) (12 * ((n) + (m)))
#define PERK_T_BYTES(n) ((n) * PERK_DIGITS(n))
#define PERK_POLYNOMIALS_WORDS(n, m) (12 * ((n) + (m)) * (PERK_DIGITS(n) + 1))
#define PERK_A_WORDS(n) (12 * PERK_DIGITS(n))
#define PERK_Q_WORDS(n) (12 * (n) * PERK_DIGITS(n))
#define PERK_DELTA_WORDS 12
#define PERK_MASKS_WORDS(n) (12 * (PERK_DIGITS(n) - 1))
#define PERK_VALUES_WORDS(n, m) (12 * ((n) + (m)))

/* length of a serial, 0 to 4294967295: two bytes where it fits them, else four */
#define PERK_SERIAL_BYTES(serial) ((serial) >> 16 ? 4 : 2)

/*
 * lengths of files: of one with these sizes and this serial, and of the largest; target is 1 where some element of y is
 * not zero, and 0 where all are, and field 04 is left out. perk_write_package needs an output of PERK_PACKAGE_BYTES, and one
 * of PERK_LARGEST_PACKAGE_BYTES is long enough for every package
 */
#define PERK_PACKAGE_BYTES(n, m, target, serial) \
    (20 + 2 * (m) * (n) + 2 * (n) + ((target) ? 3 + 2 * (m) : 0) + PERK_SERIAL_BYTES(serial) + (n) * PERK_DIGITS(n) + \
     24 * PERK_DIGITS(n))
#define PERK_CHECK_FILE_BYTES(n, m, target, serial) \
    (PERK_PACKAGE_BYTES(n, m, target, serial) + 36 + 24 * (n) * PERK_DIGITS(n) + 24 * (PERK_DIGITS(n) - 1) + \
     24 * ((n) + (m)))
/* the parts of a package, and of a bundle: the key's fields, 01 to 04, and a group, the fields 05 to 07 with this serial */
#define PERK_KEY_BYTES(n, m, target) (11 + 2 * (m) * (n) + 2 * (n) + ((target) ? 3 + 2 * (m) : 0))
#define PERK_GROUP_BYTES(n, serial) (9 + PERK_SERIAL_BYTES(serial) + (n) * PERK_DIGITS(n) + 24 * PERK_DIGITS(n))
#define PERK_LARGEST_PACKAGE_BYTES 8873
#define PERK_LARGEST_CHECK_FILE_BYTES 21293

/* the tags of fields */
#define PERK_TAG_SIZES 0x01
#define PERK_TAG_H 0x02
#define PERK_TAG_X 0x03
#define PERK_TAG_Y 0x04
#define PERK_TAG_SERIAL 0x05
#define PERK_TAG_T 0x06
#define PERK_TAG_A 0x07
#define PERK_TAG_Q 0x11
#define PERK_TAG_MASKS 0x12
#define PERK_TAG_DELTA 0x13
#define PERK_TAG_ALPHA 0x14

/* a call whose result is not looked at is warned of, where the compiler can */
#if defined(__cplusplus) && __cplusplus >= 201703L
#define PERK_LOOK_AT_RESULT [[nodiscard]]
#elif !defined(__cplusplus) && defined(__STDC_VERSION__) && __STDC_VERSION__ >= 202311L
#define PERK_LOOK_AT_RESULT [[nodiscard]]
#elif defined(__GNUC__) || defined(__clang__)
#define PERK_LOOK_AT_RESULT __attribute__((warn_unused_result))
#else
#define PERK_LOOK_AT_RESULT
#endif

#ifdef __cplusplus
extern "C" {
#endif

/*
 * out becomes a + b in K. Each of a, b and out has 12 words.
 * Refusals: 3 (a, b, out), 6 (a, b). Stack: under 2 KiB.
 */
PERK_LOOK_AT_RESULT
uint32_t perk_sum(const uint16_t *a, size_t a_len, const uint16_t *b, size_t b_len, uint16_t *out, size_t out_len);

/*
 * out becomes a times b in K. Each of a, b and out has 12 words.
 * Refusals: 3 (a, b, out), 6 (a, b). Stack: under 2 KiB.
 */
PERK_LOOK_AT_RESULT
uint32_t perk_product(const uint16_t *a, size_t a_len, const uint16_t *b, size_t b_len, uint16_t *out, size_t out_len);

/*
 * For an office that is handed a key: the rank of H, by elimination, and the cleared form of H. It takes n, m and H alone.
 *
 *   h            m n words
 *   matrix       m n words, written: the cleared form
 *   rank         a number of the caller's, not within h or matrix; written: how many rows were taken, 0 to m
 *
 * matrix starts as a copy of H, and all its rows are unused. For each column, lowest first, the lowest-numbered unused row
 * whose entry there is not zero is taken, and multiples of it are added to the unused rows below it, so that their entries
 * there become zero. The row that is taken counts as used, and used rows keep their entries. A column in which every unused
 * row has zero takes none. No rows change places.
 *
 * How to use it: lend a matrix as long as H, and compare the rank with m. The rank m means that the rows of H do not lean on
 * each other. A rank below m means that they do, so that the key asks less of an order than it seems to: send it back.
 * The rows of matrix that were not taken, m less the rank, are then all zero: they show which rows of H lean on rows above
 * them (by the method; this is not part of the proof). A rank below m is no refusal here; every other function that takes a
 * key refuses this one with 15.
 *
 * Proved besides: the rank is below m exactly when some coefficients from F, not all zero, combine the rows of H to zero.
 *
 * Refusals: 1, 2, 3 (h, matrix), 4 (h). Stack: under 6 KiB.
 */
PERK_LOOK_AT_RESULT
uint32_t perk_rank(size_t n, size_t m, const uint16_t *h, size_t h_len, uint16_t *matrix, size_t matrix_len, size_t *rank);

/*
 * For drivers, before they fetch correlations: whether positions are an order, 0 to n - 1, each once, and else the index of
 * the first offender, a position that is no column or came before. It takes n and the positions alone.
 *
 *   positions    n bytes, of any value
 *   index        a number of the caller's, not within positions; written where the result is PERK_OFFENDER, and never else:
 *                the index of the first offender, 0 for the first position
 *
 * The result is 0 where all is well, and 255, PERK_OFFENDER, where there is an offender. A position came before where an
 * equal one has a smaller index, so that the later of the two is the offender. Spare codes and positions that are too large
 * are offenders alike, and are not refused here. For n = 3:
 *
 *   2 0 1        0: all is well
 *   2 0 2        255, index 2: 2 came before
 *   2 3 0        255, index 1: 3 is a spare code
 *   2 0 5        255, index 2: 5 is too large
 *
 * How to use it: look once the positions are there, and fetch correlations where the result is 0. Where it is PERK_OFFENDER
 * the positions solve no key, and perk_prove would refuse them, with 7, 16 or 8 where nothing else is refused before; send
 * them back with the index. 0 says nothing of H, x and y: whether an order solves a key is for perk_prove to say.
 *
 * Time: it tells the index. The positions are read from the first on, and none after the first offender; jumps depend on
 * them, as is asked of this function. So it is not among the functions of which it is tested that no jump and no address
 * depends on secrets, and a caller that must hide its positions does not call it: perk_prove refuses the same lists, and
 * tells no index. When the reading stops is not part of the proof.
 *
 * Proved besides: past the refusals the result is 0 exactly when the positions are 0 to n - 1, each once; and, for each key
 * of this n, each u and each v, exactly when no position is 2^d or more and the top coefficients of the n column
 * polynomials, the first n of those that perk_constraints defines, are all zero.
 *
 * Refusals: 1, 3 (positions), and no others; index keeps what it holds. Stack: under 256 bytes.
 */
PERK_LOOK_AT_RESULT
uint32_t perk_quick_look(size_t n, const uint8_t *positions, size_t positions_len, size_t *index);

/*
 * The masked witness and the n + m constraint polynomials of a key, from the prover's positions, mask bits u and offsets v.
 *
 *   h            m n words       x            n words       y            m words
 *   positions    n bytes, each below 2^d
 *   u            n d bytes       v            12 n d words
 *   t            n d bytes, written: digit k of position i, highest first, exclusive-or u(i,k)
 *   polynomials  12 (n + m) (d + 1) words, written: polynomial 0 first, d + 1 coefficients each, that of X^0 first
 *
 * Spare codes, positions from n to 2^d - 1, are taken. Refusals: 1, 2, 3 (all eight slices), 4 (h, x, y), 15 (h), 5 (u),
 * 6 (v), 7.
 *
 * Proved of what is written: the top coefficients of all n + m polynomials are zero exactly when the positions are
 * 0 to n - 1, each once, and H times x in that order is y; and wherever perk_values is given this key, this t, a
 * challenge delta, and q with each q(i,k) = u(i,k) delta + v(i,k), value j is polynomial j at delta.
 *
 * No jump and no address depends on positions, u or v, other than the decision to refuse; this is tested, and not part
 * of the proof. Stack: under 20 KiB.
 */
PERK_LOOK_AT_RESULT
uint32_t perk_constraints(size_t n, size_t m, const uint16_t *h, size_t h_len, const uint16_t *x, size_t x_len,
                          const uint16_t *y, size_t y_len, const uint8_t *positions, size_t positions_len,
                          const uint8_t *u, size_t u_len, const uint16_t *v, size_t v_len, uint8_t *t, size_t t_len,
                          uint16_t *polynomials, size_t polynomials_len);

/*
 * The verifier's n + m values of a key, from the masked witness t, the numbers q and the challenge delta.
 *
 *   h            m n words       x            n words       y            m words
 *   t            n d bytes       q            12 n d words  delta        12 words
 *   values       12 (n + m) words, written: value 0 first
 *
 * Refusals: 1, 2, 3 (all seven slices), 4 (h, x, y), 15 (h), 5 (t), 6 (q, delta). Stack: under 14 KiB.
 */
PERK_LOOK_AT_RESULT
uint32_t perk_values(size_t n, size_t m, const uint16_t *h, size_t h_len, const uint16_t *x, size_t x_len,
                     const uint16_t *y, size_t y_len, const uint8_t *t, size_t t_len, const uint16_t *q, size_t q_len,
                     const uint16_t *delta, size_t delta_len, uint16_t *values, size_t values_len);

/*
 * The masked witness and the proof of a key, from the prover's positions, mask bits u and offsets v, the masks r and s,
 * and the weights alpha.
 *
 *   h            m n words       x            n words       y            m words
 *   positions    n bytes, each below n
 *   u            n d bytes       v            12 n d words
 *   r, s         12 (d - 1) words each, none where n is 2
 *   alpha        12 (n + m) words
 *   t            n d bytes, written: as by perk_constraints
 *   a            12 d words, written: the d coefficients below X^d, that of X^0 first, of the sum of alpha(j) times
 *                polynomial j plus the sum over k below d - 1 of X^k (s(k) X + r(k))
 *
 * Refusals: 1, 2, 3 (all eleven slices), 4 (h, x, y), 15 (h), 5 (u), 6 (v, r, s, alpha), 7 (a position is 2^d or more,
 * wherever among spare codes it stands), 16 (a position is a spare code), and then 8, found before anything is written,
 * whatever the weights are.
 *
 * Proved besides: past 1 to 7 and 15 the result is 16 exactly when a position is a spare code; past these and 16 it is 0
 * exactly when the positions are 0 to n - 1, each once, and H times x in that order is y, and 8 exactly when they are not;
 * and wherever the result is 0, perk_verify accepts t and a with the same key and weights, any challenge delta, each
 * q(i,k) = u(i,k) delta + v(i,k) and each masks(k) = s(k) delta + r(k).
 *
 * No jump and no address depends on positions, u, v, r or s, other than the decision to refuse; this is tested, and not
 * part of the proof. Stack: under 24 KiB.
 */
PERK_LOOK_AT_RESULT
uint32_t perk_prove(size_t n, size_t m, const uint16_t *h, size_t h_len, const uint16_t *x, size_t x_len,
                    const uint16_t *y, size_t y_len, const uint8_t *positions, size_t positions_len,
                    const uint8_t *u, size_t u_len, const uint16_t *v, size_t v_len,
                    const uint16_t *r, size_t r_len, const uint16_t *s, size_t s_len,
                    const uint16_t *alpha, size_t alpha_len, uint8_t *t, size_t t_len, uint16_t *a, size_t a_len);

/*
 * Whether a proof is accepted: 0 exactly when a at the challenge equals the sum of alpha(j) times value j plus the sum over
 * k below d - 1 of delta^k masks(k), and 255 exactly when it does not; the power 0 is one, for delta zero too.
 *
 *   h            m n words       x            n words       y            m words
 *   t            n d bytes       q            12 n d words  delta        12 words
 *   masks        12 (d - 1) words                           a            12 d words
 *   alpha        12 (n + m) words
 *
 * Refusals: 1, 2, 3 (all nine slices), 4 (h, x, y), 15 (h), 5 (t), 6 (q, delta, masks, alpha, a). Stack: under 20 KiB.
 *
 * Accepted means that this equation holds. It does not by itself mean that a signature is valid: the challenge, the
 * weights and the correlations are the caller's, who must take the weights only after the prover's commitment to its
 * correlations and t, the challenge only after a too, and check that the correlations are consistent.
 */
PERK_LOOK_AT_RESULT
uint32_t perk_verify(size_t n, size_t m, const uint16_t *h, size_t h_len, const uint16_t *x, size_t x_len,
                     const uint16_t *y, size_t y_len, const uint8_t *t, size_t t_len, const uint16_t *q, size_t q_len,
                     const uint16_t *delta, size_t delta_len, const uint16_t *masks, size_t masks_len,
                     const uint16_t *alpha, size_t alpha_len, const uint16_t *a, size_t a_len);

/*
 * Packages and check files are fields one after another, each a tag of one byte, a length of two bytes and its content of
 * as many bytes; numbers are highest byte first. An element of F takes two bytes, one of K twelve elements of F.
 * A package has exactly the fields 01 to 07, in this order, and a check file all of them; 04 may be absent:
 *
 *   tag   content                            bytes            refusals of its values
 *   01    n, m, one byte each                2                1, 2
 *   02    H, row after row                   2 m n            4
 *   03    x                                  2 n              4, and 15 of H where the byte after 03 is not 04
 *   04    y, not all zero                    2 m              4, 14, 15 of H (read where the byte after 03 is 04)
 *   05    the serial, 0 to 4294967295        2 or 4           19
 *   06    t, one byte for each bit           n d              5
 *   07    a                                  24 d             6
 *   11    q                                  24 n d           6
 *   12    the mask numbers                   24 (d - 1)       6     (empty where n is 2)
 *   13    delta                              24               6
 *   14    alpha                              24 (n + m)       6
 *
 * Where field 04 is absent y is all zero, and a y of zeros has no field: a 04 of zeros is refused with 14. After 03 the
 * tags 04 and 05 may both come next. A serial takes two bytes where it fits them, up to 65535, and four otherwise: four
 * bytes with a number below 65536 are refused with 19, and any length other than 2 and 4 with 11. So each package has
 * one form.
 *
 * The readers try for each field in turn 9 (fewer than 3 bytes remain), 10, 11, 9 (fewer than the length remain) and the
 * refusals of its values, and after the last field 12. They read any number of bytes.
 *
 * 15, where the rows of H lean on each other, is tried when the key has been read as a whole. Where the byte after field 03
 * is 04, be it the last of the file, it comes after all refusals of 04: 9, 11, 9, 4 and 14. Where that byte is another one,
 * or the file ends there, it comes directly after those of 03, and so before 9 and 10 of what should follow.
 *
 * n, m and the serial of a package; on a refusal the three keep their values. n, m and serial name three different numbers
 * of the caller's, none of them within bytes. Stack: under 12 KiB.
 */
PERK_LOOK_AT_RESULT
uint32_t perk_read_package(const uint8_t *bytes, size_t bytes_len, uint32_t *n, uint32_t *m, uint32_t *serial);

/*
 * The same of a check file, whose first PERK_PACKAGE_BYTES(n, m, target, serial) bytes are a package; target is 1 exactly
 * where the byte after field 03, the one at 11 + 2 m n + 2 n, is 04. Stack: under 12 KiB.
 */
PERK_LOOK_AT_RESULT
uint32_t perk_read_check_file(const uint8_t *bytes, size_t bytes_len, uint32_t *n, uint32_t *m, uint32_t *serial);

/*
 * Where the content of the field with a tag stands in a package: returns its length, and start is its first byte's place
 * in bytes. 0, with start 0, for a package that perk_read_package refuses, a check file and a key whose rows lean on each
 * other among these, or a tag that the package does not have, as 04 where y is all zero; no field of a package is empty. No
 * refusal is told. start names a number of the caller's, not within bytes. Stack: under 12 KiB.
 */
PERK_LOOK_AT_RESULT
size_t perk_field(const uint8_t *bytes, size_t bytes_len, uint8_t tag, size_t *start);

/*
 * The package of a key, a serial, a masked witness t and a proof a, in the form that perk_read_package takes.
 *
 *   h            m n words       x            n words       y            m words
 *   serial       any number of 32 bits
 *   t            n d bytes       a            12 d words
 *   out          at least as many bytes as the package has, written: the package; the bytes after it stay as they are
 *   length       a number of the caller's, not within any of the slices; written: how many bytes the package has
 *
 * Each package has one form: field 04 is left out where y is all zero, and the serial has two bytes where it fits them,
 * else four. So the length is PERK_PACKAGE_BYTES(n, m, target, serial), and PERK_LARGEST_PACKAGE_BYTES is room for every
 * package.
 *
 * How to use it: lend the key, and t and a as perk_prove wrote them; the first *length bytes of out are then the file to
 * store or to send. Nothing is verified here: t and a may be any within the limits, and perk_verify says whether a proof is
 * accepted.
 *
 * Refusals: 1, 2, 3 (h, x, y, t, a; not out), 4 (h, x, y), 15 (h), 5 (t), 6 (a), and then 13, where out is shorter than the
 * package. On each of them out and length keep what they hold. 14 and 19 speak of a form, which is chosen here, and come
 * from the readers alone.
 *
 * Proved besides: perk_read_package takes what was written, with the same n, m and serial, and perk_field finds in it what
 * was lent, for every tag, and nothing for 04 where y is all zero. And for every package that perk_read_package takes, its
 * fields, with m zeros as y where 04 is absent, are written into an out of at least its length as its very bytes.
 *
 * Stack: under 12 KiB.
 */
PERK_LOOK_AT_RESULT
uint32_t perk_write_package(size_t n, size_t m, const uint16_t *h, size_t h_len, const uint16_t *x, size_t x_len,
                            const uint16_t *y, size_t y_len, uint32_t serial, const uint8_t *t, size_t t_len,
                            const uint16_t *a, size_t a_len, uint8_t *out, size_t out_len, size_t *length);

/*
 * Whether a check file's proof is accepted: the refusal of perk_read_check_file where there is one, else 0 or 255 as
 * perk_verify answers on the fields, with m zeros as y where 04 is absent; none of its refusals then applies.
 * Stack: under 40 KiB.
 */
PERK_LOOK_AT_RESULT
uint32_t perk_check(const uint8_t *bytes, size_t bytes_len);

/*
 * A bundle holds the packages of one key: the key's fields once, 01, 02, 03 and, where y is not all zero, 04, and then one
 * group or more, each the fields 05, 06 and 07 of one package. Every field is as in a package. The serials of the groups
 * rise: each is above the one before it, as a number, so that a serial of two bytes comes before one of four. Nothing else
 * stands in a bundle. A package is a bundle of one group, and a bundle of one group is a package; so are the key's fields,
 * PERK_KEY_BYTES(n, m, target) bytes, followed by any one group of a bundle, PERK_GROUP_BYTES(n, serial) bytes.
 *
 * n, m and the number of groups of a bundle; on a refusal the three keep their values. n, m and groups name three different
 * numbers of the caller's, none of them within bytes. The number of groups has no limit but the length of bytes.
 *
 * Refusals: those of the key's fields as perk_read_package tries them, with 15 at its place; then for each group in turn
 *
 *   of 05        9 (fewer than 3 bytes remain), 10, 11, 9 (fewer than the length remain), 19, and then 20, where the serial
 *                is not above that of the group before, an equal one too; the first group has none before it
 *   of 06        9, 10, 11, 9, 5
 *   of 07        9, 10, 11, 9, 6
 *
 * After a group the bundle ends where no byte remains. Otherwise the next group is read from there, so that one byte or two
 * are refused with 9 and another tag than 05, as in a check file, with 10. 12 is never the result. A key's fields without
 * a group are refused with 9.
 *
 * The time is that of reading the key and, beyond it, in proportion to the number of groups; this is not part of the
 * proof. Stack: under 12 KiB.
 */
PERK_LOOK_AT_RESULT
uint32_t perk_read_bundle(const uint8_t *bytes, size_t bytes_len, uint32_t *n, uint32_t *m, size_t *groups);

/*
 * For records rooms: joins two bundles of one key to the bundle that has every group of either, once, in rising serial.
 *
 *   first        a bundle       second       a bundle; the two may be the same memory
 *   out          at least as many bytes as the joined bundle has, written: the joined bundle; the bytes after it stay as
 *                they are. It overlaps neither first nor second
 *   length       a number of the caller's, not within any of the slices; written: how many bytes the joined bundle has
 *   groups       another such number, written: how many groups it has
 *
 * How to use it: lend an out of first_len + second_len bytes, which is long enough for every two bundles, since the key's
 * fields are written once, or one of exactly the length that perk_look_before_join tells; the first *length bytes of out are
 * then the file to store. To add a package to a bundle, lend it as one of the two. For more than two bundles, lend what was
 * written, *length bytes of it, as first of the next call, with another out. Nothing is verified here: t and a may be any
 * within the limits.
 *
 * What is written depends on the key and on the groups alone. So it makes no difference which bundle is first, and a bundle
 * that is joined with itself, with some of its own groups, or with one of the two that it was joined from, stays as it is.
 *
 * Two groups with one serial are taken once where their t and a are the same. Where they are not, the call is refused with
 * 22: two proofs have one serial, neither is chosen, and the room has to look at both. 21 means that the bundles are of
 * different keys.
 *
 * Refusals: all those of perk_read_bundle for first, all those for second, and then
 *
 *   21           the key's fields differ, byte by byte; field 04 in one bundle alone is such a difference
 *   22           two groups with one serial differ in field 06 or 07
 *   13           out is shorter than the joined bundle
 *
 * On each of them out, length and groups keep what they hold. Where the result may be of either bundle, as 9 may,
 * perk_read_bundle tells of which it is.
 *
 * Proved besides: perk_read_bundle takes what was written, with the n and m of both bundles and the same number of groups;
 * and a bundle that is joined with itself gives its own bytes, where out is long enough.
 *
 * The time is that of reading the key, once where both bundles have the same, and, beyond it, in proportion to the number
 * of groups; this is not part of the proof. Stack: under 12 KiB.
 */
PERK_LOOK_AT_RESULT
uint32_t perk_join_bundles(const uint8_t *first, size_t first_len, const uint8_t *second, size_t second_len, uint8_t *out,
                           size_t out_len, size_t *length, size_t *groups);

/*
 * For records rooms that mean to join two bundles: what perk_join_bundles answers for them with an out of room bytes, the
 * length and the number of groups of the joined bundle or the refusal, before any out is lent. Nothing else is written.
 *
 *   first        a bundle       second       a bundle; the two may be the same memory
 *   room         the length of the output that is meant to be lent: any number, 0 and SIZE_MAX too. It is compared with the
 *                joined length, and names no memory
 *   length       a number of the caller's, not within first or second; written: how many bytes the joined bundle has
 *   groups       another such number, written: how many groups it has
 *
 * How to use it: look with a room of SIZE_MAX, which is never too short, lend an out of exactly *length bytes, and join.
 * Where an output is at hand, look with its length as room: PERK_DONE means that the joined bundle fits it.
 *
 * Refusals: those of perk_join_bundles, in the same order: all those of first, all those of second, 21, 22, and then 13,
 * where room is below the joined length. 13 tells no length; a look with SIZE_MAX does. On each of them length and groups
 * keep what they hold.
 *
 * Proved besides: for every out of room bytes perk_join_bundles has the same result and the same two numbers; a room of
 * first_len + second_len or more is never refused with 13; where a length is told, for whatever room, an out of exactly that
 * length gets the same numbers from perk_join_bundles; and a refusal other than 13 is the same for every room.
 *
 * The time is that of perk_join_bundles without the writing; this is not part of the proof. Stack: under 12 KiB.
 */
PERK_LOOK_AT_RESULT
uint32_t perk_look_before_join(const uint8_t *first, size_t first_len, const uint8_t *second, size_t second_len, size_t room,
                               size_t *length, size_t *groups);

#ifdef __cplusplus
}
#endif

/*
 * A result in words, 255 in those of perk_verify and perk_check. It is not for the 255 of perk_quick_look, PERK_OFFENDER,
 * which has the same number and no text here; the other results of perk_quick_look may be handed to it. This function is the
 * header's and not the library's, and not proved.
 */
static inline const char *perk_refusal_text(uint32_t number) {
    switch (number) {
    case PERK_DONE: return "done, or accepted";
    case PERK_SIZE_N: return "n is below 2 or above 64";
    case PERK_SIZE_M: return "m is 0, or at least n";
    case PERK_SLICE_LENGTH: return "a slice is not of its stated length";
    case PERK_KEY_ELEMENT: return "an element of H, x or y is above 2047";
    case PERK_BIT: return "a byte of u or t is above 1";
    case PERK_COORDINATE: return "a coordinate of an element of K is above 2047";
    case PERK_POSITION: return "a position is 2^d or more";
    case PERK_TOP: return "a top coefficient is not zero: the positions do not solve the key";
    case PERK_BYTES_MISSING: return "the bytes end before a field is complete";
    case PERK_TAG: return "a tag is not the one that comes next";
    case PERK_FIELD_LENGTH: return "a field's length is not one stated for it";
    case PERK_BYTES_FOLLOW: return "bytes follow the last field";
    case PERK_SHORT_OUTPUT: return "the output is shorter than what is to be written";
    case PERK_ZERO_TARGET: return "field 04 is present and all its elements are zero";
    case PERK_DEPENDENT_ROWS: return "some coefficients from F, not all zero, combine the rows of H to zero";
    case PERK_SPARE_CODE: return "a position is a spare code, n to 2^d - 1, which names no column";
    case PERK_LONG_SERIAL: return "a serial of four bytes is below 65536, so that it fits two";
    case PERK_SERIAL_ORDER: return "a group's serial is not above the one before it";
    case PERK_OTHER_KEY: return "the two bundles have different key fields";
    case PERK_GROUPS_DIFFER: return "two groups with one serial differ in t or a";
    case PERK_REJECTED: return "rejected";
    default: return "no result of this library";
    }
}

#endif
