//! Packages and check files: those of key A, as the specification writes them in
//! hexadecimal, and one fault or two in each place.

use perk::{check, field, package_of, read_check_file, read_package, Contents, Refusal, Verdict};

/// The fields of key A's check file: tag, length, content. "0.." is 22 zero
/// bytes.
const FIELDS: [&str; 10] = [
    "01 0002 0201",
    "02 0004 0002 0001",
    "03 0004 0001 0002",
    "05 0002 0007",
    "06 0002 0101",
    "07 0018 0005 0..",
    "11 0030 0003 0.. 0004 0..",
    "12 0000",
    "13 0018 0002 0..",
    "14 0048 0001 0.. 0002 0.. 0001 0..",
];

/// Whether a field of a check file belongs to its package.
fn of_package(tag: u8) -> bool {
    tag < 0x11
}

/// What the reader answers for key A.
const KEY_A: Contents = Contents {
    n: 2,
    m: 1,
    serial: 7,
};

/// The bytes of a field.
fn bytes(field: &str) -> Vec<u8> {
    let digits = field.replace("0..", &"00".repeat(22)).replace(' ', "");
    let digit = |c: u8| (c as char).to_digit(16).expect("a digit") as u8;
    let pairs = digits.as_bytes().chunks(2);
    pairs.map(|p| 16 * digit(p[0]) + digit(p[1])).collect()
}

/// The tag of a field.
fn tag(field: &str) -> u8 {
    bytes(field)[0]
}

/// The field of key A's check file with this tag.
fn of_key_a(wanted: u8) -> &'static str {
    let field = FIELDS.iter().find(|field| tag(field) == wanted);
    field.expect("a tag of a check file")
}

/// Fields in the place of those with these tags.
type Replaced<'a> = [(u8, &'a str)];

/// The fields of key A's check file whose tags are chosen, with some of them
/// replaced.
fn joined(chosen: impl Fn(u8) -> bool, replaced: &Replaced) -> Vec<u8> {
    let fields = FIELDS.iter().filter(|field| chosen(tag(field)));
    let fields = fields.flat_map(|field| {
        let other = replaced
            .iter()
            .find(|(replaced, _)| *replaced == tag(field));
        bytes(other.map_or(*field, |(_, other)| *other))
    });
    fields.collect()
}

/// The package of key A, with some fields replaced.
fn package(replaced: &Replaced) -> Vec<u8> {
    joined(of_package, replaced)
}

/// The check file of key A, with some fields replaced.
fn check_file(replaced: &Replaced) -> Vec<u8> {
    joined(|_| true, replaced)
}

/// A package is refused with this number, and has no field.
fn package_refused(bytes: &[u8], number: u32) {
    assert_eq!(read_package(bytes).map_err(Refusal::number), Err(number));
    for tag in 0..=255 {
        assert_eq!(field(bytes, tag), []);
    }
}

/// A check file is refused with this number.
fn check_file_refused(bytes: &[u8], number: u32) {
    assert_eq!(read_check_file(bytes).map_err(Refusal::number), Err(number));
    assert_eq!(check(bytes).map_err(Refusal::number), Err(number));
}

/// Key A's file is refused with this number when these fields are replaced: the
/// check file, and the package when it has all of them.
fn refused(replaced: &Replaced, number: u32) {
    check_file_refused(&check_file(replaced), number);
    if replaced.iter().all(|(tag, _)| of_package(*tag)) {
        package_refused(&package(replaced), number);
    }
}

#[test]
fn key_a_is_read() {
    assert_eq!(read_package(&package(&[])), Ok(KEY_A));
    assert_eq!(read_check_file(&check_file(&[])), Ok(KEY_A));
    assert_eq!(
        check_file(&[]),
        include_bytes!("../../../vectors/key_a.check")
    );
}

#[test]
fn key_a_is_accepted() {
    assert_eq!(check(&check_file(&[])), Ok(Verdict::Accepted));
    let wrong = check_file(&[(0x07, "07 0018 0004 0..")]);
    assert_eq!(check(&wrong), Ok(Verdict::Rejected));
    assert_eq!(read_check_file(&wrong), Ok(KEY_A));
}

#[test]
fn a_package_begins_its_check_file() {
    let file = check_file(&[]);
    let found = package_of(&file).expect("key A's check file");
    assert_eq!(found, package(&[]));
    assert_eq!(found.as_ptr(), file.as_ptr());
    let largest = include_bytes!("../../../crates/perkcheck_cases/data/largest");
    let found = package_of(largest).expect("an accepted check file");
    assert_eq!(found.len(), 21 + 2 + 8064 + 128 + 126 + 4 + 64 * 6 + 24 * 6);
    assert_eq!(read_package(found), read_check_file(largest));
}

#[test]
fn a_refused_check_file_has_no_package() {
    let file = check_file(&[]);
    for len in 0..file.len() {
        assert_eq!(package_of(&file[..len]), Err(Refusal::BytesMissing));
    }
    assert_eq!(
        package_of(&[&file[..], &[0]].concat()),
        Err(Refusal::BytesFollow)
    );
    let above = check_file(&[(0x14, "14 0048 0800 0.. 0002 0.. 0001 0..")]);
    assert_eq!(package_of(&above), Err(Refusal::Coordinate));
}

// q's tag as the content of other fields is no head.
#[test]
fn the_package_ends_at_the_head_of_q() {
    for (tag, text) in [
        (0x02, "02 0004 0111 0030"),
        (0x03, "03 0004 0011 0011"),
        (0x05, "05 0002 1111"),
        (0x05, "05 0004 1100 0411"),
        (0x07, "07 0018 0111 0.."),
    ] {
        let file = check_file(&[(tag, text)]);
        assert_eq!(package_of(&file), Ok(&package(&[(tag, text)])[..]));
    }
}

#[test]
fn fields_are_the_callers_bytes() {
    let package = package(&[]);
    let mut start = 0;
    for text in FIELDS.iter().filter(|field| of_package(tag(field))) {
        let bytes = bytes(text);
        let content = field(&package, bytes[0]);
        assert_eq!(content, &bytes[3..]);
        assert_eq!(content.as_ptr(), package[start + 3..].as_ptr());
        start += bytes.len();
    }
    assert_eq!(start, package.len());
    assert_eq!(field(&package, 0x06), [1, 1]);
}

#[test]
fn an_absent_tag_has_no_content() {
    let package = package(&[]);
    let present = FIELDS.map(tag);
    let present = |tag: &u8| of_package(*tag) && present.contains(tag);
    for tag in (0..=255).filter(|tag| !present(tag)) {
        assert_eq!(field(&package, tag), []);
    }
}

#[test]
fn any_serial_is_read() {
    for (serial, text) in [
        (0, "05 0002 0000"),
        (1, "05 0002 0001"),
        (255, "05 0002 00ff"),
        (256, "05 0002 0100"),
        (65535, "05 0002 ffff"),
        (65536, "05 0004 0001 0000"),
        (65537, "05 0004 0001 0001"),
        (16909060, "05 0004 0102 0304"),
        (16777216, "05 0004 0100 0000"),
        (4294967295, "05 0004 ffff ffff"),
    ] {
        let contents = Contents { serial, ..KEY_A };
        let package = package(&[(0x05, text)]);
        assert_eq!(read_package(&package), Ok(contents));
        assert_eq!(field(&package, 0x05), &bytes(text)[3..]);
        // the fields about it stand before and after
        assert_eq!(field(&package, 0x03), &bytes(of_key_a(0x03))[3..]);
        assert_eq!(field(&package, 0x06), &bytes(of_key_a(0x06))[3..]);
        let file = check_file(&[(0x05, text)]);
        assert_eq!(read_check_file(&file), Ok(contents));
        assert_eq!(check(&file), Ok(Verdict::Accepted));
        assert_eq!(package_of(&file), Ok(&package[..]));
    }
}

// A number that fits two bytes has no form of four.
#[test]
fn a_small_serial_in_four_bytes() {
    for serial in ["0000", "0001", "0007", "00ff", "0100", "8000", "ffff"] {
        let text = &format!("05 0004 0000 {serial}");
        refused(&[(0x05, text)], 19);
        // before every fault of a later field
        for later in ["ff 0002 0101", "06 0003 0101", "06 0002 0201", "", "06"] {
            refused(&[(0x05, text), (0x06, later)], 19);
        }
        refused(&[(0x05, text), (0x07, "07 0018 0800 0..")], 19);
        refused(&[(0x05, text), (0x14, "14 0048 0800 0.. 0..")], 19);
        // before bytes that follow
        package_refused(&[&package(&[(0x05, text)])[..], &[0]].concat(), 19);
        check_file_refused(&[&check_file(&[(0x05, text)])[..], &[0]].concat(), 19);
        // after every fault of an earlier field, and of tag and length
        refused(&[(0x05, text), (0x01, "01 0002 0101")], 1);
        refused(&[(0x05, text), (0x01, "01 0002 0202")], 2);
        refused(&[(0x05, text), (0x02, "02 0004 0800 0001")], 4);
        refused(&[(0x05, text), (0x03, "03 0004 0001 0800")], 4);
        refused(&[(0x05, text), (0x03, "ff 0004 0001 0002")], 10);
        refused(&[(0x05, text), (0x03, "03 0005 0001 0002")], 11);
        refused(&[(0x05, &format!("08 0004 0000 {serial}"))], 10);
        refused(&[(0x05, &format!("04 0004 0000 {serial}"))], 11);
        for length in ["0000", "0001", "0003", "0005", "0104", "0204", "0400"] {
            refused(&[(0x05, &format!("05 {length} 0000 {serial}"))], 11);
        }
        // the field is cut, or the file ends after it
        let start = joined(|tag| tag < 0x05, &[]);
        let field = bytes(text);
        for len in 0..field.len() {
            package_refused(&[&start[..], &field[..len]].concat(), 9);
            check_file_refused(&[&start[..], &field[..len]].concat(), 9);
        }
        package_refused(&[&start[..], &field].concat(), 19);
        check_file_refused(&[&start[..], &field].concat(), 19);
    }
}

// Only 2 and 4 are lengths of a serial.
#[test]
fn other_lengths_of_a_serial() {
    for length in (0..=65535).filter(|length| *length != 2 && *length != 4) {
        for content in ["0007", "00010000", "00000007"] {
            let package = package(&[(0x05, &format!("05 {length:04x} {content}"))]);
            assert_eq!(read_package(&package), Err(Refusal::FieldLength));
        }
    }
    for length in [0, 1, 3, 5, 6, 8, 256, 258, 260, 512, 516, 1024, 1028] {
        let content = "01".repeat(length);
        refused(&[(0x05, &format!("05 {length:04x} {content}"))], 11);
    }
    // the other of the two lengths: the next head is content, or content the
    // next head
    refused(&[(0x05, "05 0004 0007")], 10);
    refused(&[(0x05, "05 0004 0000")], 19);
    refused(&[(0x05, "05 0002 0001 0000")], 10);
}

/// Key A's fields with y after x, and t = 0 0: the positions 1 0 solve key A with
/// the target 5.
fn with_target<'a>(x_and_y: &'a str, replaced: &Replaced<'a>) -> Vec<(u8, &'a str)> {
    let mut fields = vec![(0x03, x_and_y), (0x06, "06 0002 0000")];
    fields.extend(replaced);
    fields
}

/// x of key A, followed by a field of y.
fn x_and(y: &str) -> String {
    format!("{}{y}", of_key_a(0x03))
}

#[test]
fn a_target_is_read_and_counts() {
    for (y, verdict) in [
        ("04 0002 0005", Verdict::Accepted),
        ("04 0002 0004", Verdict::Rejected),
        ("04 0002 0100", Verdict::Rejected),
        ("04 0002 0001", Verdict::Rejected),
        ("04 0002 07ff", Verdict::Rejected),
        ("", Verdict::Rejected),
    ] {
        let x_and_y = x_and(y);
        let fields = with_target(&x_and_y, &[]);
        let file = check_file(&fields);
        assert_eq!(read_check_file(&file), Ok(KEY_A));
        assert_eq!(check(&file), Ok(verdict), "{y}");
        let package = package(&fields);
        assert_eq!(package_of(&file), Ok(&package[..]));
        assert_eq!(read_package(&package), Ok(KEY_A));
        assert_eq!(field(&package, 0x04), bytes(y).get(3..).unwrap_or_default());
        // the fields about it stand before and after
        assert_eq!(field(&package, 0x03), &bytes(of_key_a(0x03))[3..]);
        assert_eq!(field(&package, 0x05), &bytes(of_key_a(0x05))[3..]);
    }
    // key A's own proof is rejected with a target
    let file = check_file(&[(0x03, &x_and("04 0002 0005"))]);
    assert_eq!(check(&file), Ok(Verdict::Rejected));
}

#[test]
fn a_target_that_is_refused() {
    for (y, number) in [
        ("04 0002 0000", 14),
        ("04 0002 0800", 4),
        ("04 0002 ffff", 4),
        ("04 0000", 11),
        ("04 0001 05", 11),
        ("04 0004 0001 0002", 11),
        ("04 0200 0005", 11),
        // twice
        ("04 0002 0005 04 0002 0005", 10),
        ("04 0002 0000 04 0002 0005", 14),
    ] {
        let x_and_y = x_and(y);
        refused(&with_target(&x_and_y, &[]), number);
        // a later field, and bytes that follow, decide nothing
        for later in [
            "ff 0002 0007",
            "05 0003 0007",
            "05 0004 0000 0007",
            "",
            "05",
        ] {
            refused(&with_target(&x_and_y, &[(0x05, later)]), number);
        }
        let file = check_file(&with_target(&x_and_y, &[]));
        check_file_refused(&[&file[..], &[0]].concat(), number);
        // an earlier field does
        refused(&with_target(&x_and_y, &[(0x01, "01 0002 0101")]), 1);
        refused(&with_target(&x_and_y, &[(0x02, "02 0004 0800 0001")]), 4);
        refused(&[(0x03, &format!("03 0004 0001 0800 {y}"))], 4);
        refused(&[(0x03, &format!("03 0005 0001 0002 {y}"))], 11);
    }
}

// After x the next tag is 04 or 05, and 04 is in no other place.
#[test]
fn a_target_in_another_place() {
    let y = "04 0002 0005";
    for before in [0x01, 0x02, 0x03, 0x06, 0x07] {
        let text = format!("{y} {}", of_key_a(before));
        refused(&[(before, &text)], 10);
    }
    for before in [0x11, 0x12, 0x13, 0x14] {
        let text = format!("{y} {}", of_key_a(before));
        check_file_refused(&check_file(&[(before, &text)]), 10);
    }
    package_refused(&[package(&[]), bytes(y)].concat(), 12);
    check_file_refused(&[check_file(&[]), bytes(y)].concat(), 12);
}

// A single byte 04 after x is the head of y, cut; so is each longer part.
#[test]
fn a_target_that_is_cut() {
    let start = joined(|tag| tag < 0x05, &[]);
    for y in ["04 0002 0005", "04 0002 0000", "04 0002 0800"] {
        let field = bytes(y);
        for len in 0..field.len() {
            package_refused(&[&start[..], &field[..len]].concat(), 9);
            check_file_refused(&[&start[..], &field[..len]].concat(), 9);
        }
    }
    package_refused(&[start.clone(), bytes("04 0002 0005")].concat(), 9);
    package_refused(&[start.clone(), bytes("04 0002 0000")].concat(), 14);
    package_refused(&[start, bytes("04 0002 0800")].concat(), 4);
}

// (0, 256) has zeros as its low bytes, and is no y of zeros.
#[test]
fn two_elements_of_a_target() {
    let refused_with = |y: &str| {
        let fields = [
            "01 0002 0302",
            "02 000c 0001 0000 0000 0000 0001 0000",
            "03 0006 0000 0100 0002",
            y,
            "05 0002 0007",
            "06 0006 000000000000",
            "07 0030 0.. 0.. 00000000",
        ];
        let package = fields.map(bytes).concat();
        assert_eq!(
            field(&package, 0x04),
            match read_package(&package) {
                Ok(_) => bytes(y)[3..].to_vec(),
                Err(_) => vec![],
            }
        );
        read_package(&package).map_err(Refusal::number).err()
    };
    for (y, number) in [
        ("04 0004 0000 0100", None),
        ("04 0004 0100 0000", None),
        ("04 0004 0000 0001", None),
        ("04 0004 07ff 07ff", None),
        ("04 0004 0000 0000", Some(14)),
        ("04 0004 0000 0800", Some(4)),
        ("04 0004 0800 0000", Some(4)),
        ("04 0002 0001", Some(11)),
        ("04 0006 0001 0001 0001", Some(11)),
    ] {
        assert_eq!(refused_with(y), number, "{y}");
    }
}

/// Key A's H as the only row that leans: zeros.
const LEANING: (u8, &str) = (0x02, "02 0004 0000 0000");

// Directly after the field of x where no y follows.
#[test]
fn rows_that_lean_without_a_target() {
    refused(&[LEANING], 15);
    // before every fault of a later field, and before bytes that follow
    for later in [
        "ff 0002 0007",
        "05 0003 0007",
        "05 0004 0000 0007",
        "",
        "05",
    ] {
        refused(&[LEANING, (0x05, later)], 15);
    }
    refused(&[LEANING, (0x06, "06 0002 0201")], 15);
    refused(&[LEANING, (0x07, "07 0018 0800 0..")], 15);
    refused(&[LEANING, (0x14, "14 0048 0800 0.. 0..")], 15);
    package_refused(&[&package(&[LEANING])[..], &[0]].concat(), 15);
    check_file_refused(&[&check_file(&[LEANING])[..], &[0]].concat(), 15);
    package_refused(&check_file(&[LEANING]), 15);
    check_file_refused(&package(&[LEANING]), 15);
    // after every fault of the fields 01 to 03
    refused(&[LEANING, (0x01, "01 0002 0101")], 1);
    refused(&[LEANING, (0x01, "01 0002 0202")], 2);
    refused(&[LEANING, (0x03, "03 0004 0001 0800")], 4);
    refused(&[LEANING, (0x03, "ff 0004 0001 0002")], 10);
    refused(&[LEANING, (0x03, "03 0005 0001 0002")], 11);
    refused(&[(0x02, "02 0004 0000 0800")], 4);
    // where the file ends after x, and where other bytes than 04 follow
    let start = joined(|tag| tag < 0x05, &[LEANING]);
    for len in 0..start.len() {
        package_refused(&start[..len], 9);
        check_file_refused(&start[..len], 9);
    }
    for after in ["", "00", "05", "03 00", "ff ff ff"] {
        package_refused(&[start.clone(), bytes(after)].concat(), 15);
        check_file_refused(&[start.clone(), bytes(after)].concat(), 15);
    }
}

// After all checks of y where the byte after x is its tag.
#[test]
fn rows_that_lean_with_a_target() {
    let start = joined(|tag| tag < 0x05, &[LEANING]);
    let y = bytes("04 0002 0005");
    for len in 1..y.len() {
        package_refused(&[&start[..], &y[..len]].concat(), 9);
        check_file_refused(&[&start[..], &y[..len]].concat(), 9);
    }
    for (y, number) in [
        ("04 0002 0005", 15),
        ("04 0002 0000", 14),
        ("04 0002 0800", 4),
        ("04 0004 0005 0005", 11),
        ("04 0000", 11),
        ("04 ffff", 11),
    ] {
        for after in ["", "00", "04 0002 0005", "ff ff ff"] {
            let bytes = [start.clone(), bytes(y), bytes(after)].concat();
            package_refused(&bytes, number);
            check_file_refused(&bytes, number);
        }
        let x = x_and(y);
        refused(&with_target(&x, &[LEANING]), number);
    }
}

// H of n = 3, m = 2: the second row is 2 times the first, a unit row, or zero.
#[test]
fn two_rows_in_a_file() {
    let read = |second: &str| {
        let h = format!("02 000c 0400 0001 0003 {second}");
        let fields = [
            "01 0002 0302",
            &h,
            "03 0006 0000 0100 0002",
            "05 0002 0007",
            "06 0006 000000000000",
            "07 0030 0.. 0.. 00000000",
        ];
        let package = fields.map(bytes).concat();
        let refusal = read_package(&package).map_err(Refusal::number).err();
        for (tag, length) in [(0x01, 2), (0x02, 12), (0x06, 6)] {
            let length = if refusal.is_none() { length } else { 0 };
            assert_eq!(field(&package, tag).len(), length);
        }
        refusal
    };
    assert_eq!(read("0005 0002 0007"), None);
    assert_eq!(read("0000 0000 0001"), None);
    assert_eq!(read("0005 0002 0006"), Some(15));
    assert_eq!(read("0400 0001 0003"), Some(15));
    assert_eq!(read("0000 0000 0000"), Some(15));
}

#[test]
fn a_file_that_ends_early() {
    package_refused(&[], 9);
    check_file_refused(&[], 9);
    let package = package(&[]);
    for len in 0..package.len() {
        package_refused(&package[..len], 9);
    }
    let file = check_file(&[]);
    for len in 0..file.len() {
        check_file_refused(&file[..len], 9);
    }
}

#[test]
fn bytes_after_the_last_field() {
    package_refused(&check_file(&[]), 12);
    for more in [&[0][..], &[0x11], &[0x01, 0, 2], &[0; 1000]] {
        package_refused(&[&package(&[])[..], more].concat(), 12);
        check_file_refused(&[&check_file(&[])[..], more].concat(), 12);
    }
}

#[test]
fn another_tag_in_each_field() {
    for field in FIELDS {
        for other in [0x00, 0x04, 0x08, 0xFF] {
            let text = format!("{other:02x}{}", &field[2..]);
            // 04 in the place of 05 is y, and no serial follows
            refused(&[(tag(field), &text)], 10);
        }
    }
}

#[test]
fn fields_in_another_order() {
    refused(&[(0x02, of_key_a(0x03)), (0x03, of_key_a(0x02))], 10);
    refused(&[(0x12, of_key_a(0x13)), (0x13, of_key_a(0x12))], 10);
}

#[test]
fn another_length_in_each_field() {
    for field in FIELDS {
        let (head, length, content) = (&field[..2], &field[3..7], &field[7..]);
        let length = u16::from_str_radix(length, 16).expect("a length");
        // a serial may have two bytes more
        let more = length + if tag(field) == 0x05 { 4 } else { 2 };
        for other in [length ^ 1, more, length ^ 256, 65535] {
            refused(&[(tag(field), &format!("{head}{other:04x}{content}"))], 11);
        }
    }
}

#[test]
fn sizes_out_of_bounds() {
    for sizes in ["0101", "0100", "0001", "0000", "4101", "4141", "ff01"] {
        refused(&[(0x01, &format!("01 0002 {sizes}"))], 1);
    }
    for sizes in ["0200", "0202", "02ff", "4000", "4040"] {
        refused(&[(0x01, &format!("01 0002 {sizes}"))], 2);
    }
}

#[test]
fn elements_above_the_limit() {
    refused(&[(0x02, "02 0004 0800 0001")], 4);
    refused(&[(0x02, "02 0004 0002 0800")], 4);
    refused(&[(0x03, "03 0004 0800 0002")], 4);
    refused(&[(0x03, "03 0004 0001 ffff")], 4);
    refused(&[(0x06, "06 0002 0201")], 5);
    refused(&[(0x06, "06 0002 01ff")], 5);
    refused(&[(0x07, "07 0018 0800 0..")], 6);
    refused(&[(0x07, "07 0018 0.. 0800")], 6);
    refused(&[(0x11, "11 0030 0800 0.. 0004 0..")], 6);
    refused(&[(0x11, "11 0030 0003 0.. 0.. 0800")], 6);
    refused(&[(0x13, "13 0018 0800 0..")], 6);
    refused(&[(0x13, "13 0018 0.. 0800")], 6);
    refused(&[(0x14, "14 0048 0800 0.. 0002 0.. 0001 0..")], 6);
    refused(&[(0x14, "14 0048 0001 0.. 0002 0.. 0.. 0800")], 6);
}

#[test]
fn the_limit_itself() {
    for (tag, text) in [
        (0x02, "02 0004 07ff 0001"),
        (0x03, "03 0004 0001 07ff"),
        (0x07, "07 0018 07ff 0.."),
        (0x11, "11 0030 07ff 0.. 0004 0.."),
        (0x13, "13 0018 0.. 07ff"),
        (0x14, "14 0048 0001 0.. 0002 0.. 0.. 07ff"),
    ] {
        assert_eq!(read_check_file(&check_file(&[(tag, text)])), Ok(KEY_A));
        assert!(check(&check_file(&[(tag, text)])).is_ok());
        assert_eq!(read_package(&package(&[(tag, text)])), Ok(KEY_A));
    }
}

#[test]
fn places_of_a_field_in_their_order() {
    // tag before length, length before content, content before values
    refused(&[(0x02, "03 0005 0800 0001")], 10);
    refused(&[(0x02, "02 0005 0800 0001")], 11);
    package_refused(&bytes("01 0003"), 11);
    package_refused(&bytes("01 0002 01"), 9);
    package_refused(
        &[bytes(of_key_a(0x01)), bytes("02 0004 0800 00")].concat(),
        9,
    );
    // n before m
    refused(&[(0x01, "01 0002 0100")], 1);
}

#[test]
fn fields_one_after_another() {
    // a value of one field before the head of the next
    refused(&[(0x01, "01 0002 0101"), (0x02, "ff 0004 0002 0001")], 1);
    refused(
        &[(0x02, "02 0004 0800 0001"), (0x03, "ff 0004 0001 0002")],
        4,
    );
    refused(&[(0x02, "ff 0004 0002 0001"), (0x01, "01 0002 0202")], 2);
    refused(&[(0x06, "06 0002 0201"), (0x07, "07 0018 0800 0..")], 5);
    refused(&[(0x07, "07 0018 0800 0.."), (0x13, "13 0019 0002 0..")], 6);
    // a value of the last field before bytes that follow
    let spoilt = package(&[(0x07, "07 0018 0800 0..")]);
    package_refused(&[&spoilt[..], &[0]].concat(), 6);
    // a package's sizes decide the lengths: H of n = 3, m = 2 has 12 bytes
    refused(&[(0x01, "01 0002 0302")], 11);
}

#[test]
fn three_positions_with_masks() {
    // n = 3, m = 1, H = (1 1 1), x = (1 2 3): tests/common/mod.rs works it out
    let file = [
        "01 0002 0301",
        "02 0006 0001 0001 0001",
        "03 0006 0001 0002 0003",
        "05 0002 ffff",
        "06 0006 010101010001",
        "07 0030 0008 0.. 0016 0..",
        "11 0090 0001 0.. 0002 0.. 0003 0.. 0002 0.. 0001 0.. 0000 0..",
        "12 0018 0028 0..",
        "13 0018 0002 0..",
        "14 0060 0001 0.. 0004 0.. 0001 0.. 0001 0..",
    ];
    let mut file = file.map(bytes).concat();
    let contents = Contents {
        n: 3,
        m: 1,
        serial: 65535,
    };
    assert_eq!(read_check_file(&file), Ok(contents));
    assert_eq!(check(&file), Ok(Verdict::Accepted));
    let package = package_of(&file).expect("a check file");
    assert_eq!(read_package(package), Ok(contents));
    assert_eq!(field(package, 0x06), [1, 1, 1, 1, 0, 1]);
    // the mask number 40 becomes 41
    let mask = file.len() - (3 + 96) - (3 + 24) - 24;
    file[mask + 1] ^= 1;
    assert_eq!(check(&file), Ok(Verdict::Rejected));
}
