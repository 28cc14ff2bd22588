//! The functions of libperk.a are declared alike where they are written
//! (crates/perk/src/lib.rt), in include/perk.h and in src/c.rs: the same names,
//! results and parameters, name by name and type by type. The header's texts of
//! refusals are those of this package.

use std::collections::BTreeMap;

use perk::Refusal;

const HEADER: &str = include_str!("../../../include/perk.h");
const RATTLE: &str = include_str!("../../../crates/perk/src/lib.rt");
const RUST: &str = include_str!("../src/c.rs");

/// A function: its result, and each parameter's name and type, in Rust's words.
type Function = (String, Vec<(String, String)>);

/// The header without its comments.
fn without_comments() -> String {
    let mut code = String::new();
    for (index, part) in HEADER.split("/*").enumerate() {
        code += match index {
            0 => part,
            _ => part.split_once("*/").expect("the comment ends").1,
        };
    }
    code
}

/// The functions of the header, without the inline one that follows them.
fn of_header() -> BTreeMap<String, Function> {
    let code = without_comments();
    let (code, _) = code.split_once("static inline ").expect("the texts");
    // a directive goes on where its line ends in a backslash
    let mut kept = String::new();
    let mut directive = false;
    for line in code.lines() {
        directive |= line.starts_with('#');
        if !directive {
            kept += line;
            kept += " ";
        }
        directive &= line.ends_with('\\');
    }
    let code = kept
        .replace("extern \"C\" {", "")
        .replace("PERK_LOOK_AT_RESULT", "");
    let functions = code.split(';').filter_map(|text| text.split_once('('));
    functions
        .map(|(before, after)| {
            let (result, name) = before.trim().rsplit_once(' ').expect("a result");
            let parameters = after.trim().strip_suffix(')').expect("its end").split(',');
            let parameters = parameters.map(|parameter| {
                let (kind, name) = parameter.trim().rsplit_once(' ').expect("a type");
                match (kind.strip_prefix("const "), name.strip_prefix('*')) {
                    (Some(kind), Some(name)) => {
                        (name.into(), format!("*const {}", type_of_c(kind)))
                    }
                    (None, Some(name)) => (name.into(), format!("*mut {}", type_of_c(kind))),
                    (None, None) => (name.into(), type_of_c(kind).into()),
                    (Some(_), None) => panic!("a constant number: {parameter}"),
                }
            });
            let function = (type_of_c(result).into(), parameters.collect());
            (name.into(), function)
        })
        .collect()
}

/// The type in Rust of a type in C.
fn type_of_c(name: &str) -> &str {
    match name {
        "uint8_t" => "u8",
        "uint16_t" => "u16",
        "uint32_t" => "u32",
        "size_t" => "usize",
        _ => panic!("another type: {name}"),
    }
}

/// The parameters in `text`, each a name and a type.
fn parameters(text: &str) -> impl Iterator<Item = (&str, &str)> {
    let parameters = text.split(',').map(str::trim);
    let parameters = parameters.filter(|parameter| !parameter.is_empty());
    parameters.map(|parameter| parameter.split_once(": ").expect("a type"))
}

/// The functions of src/c.rs.
fn of_rust() -> BTreeMap<String, Function> {
    let functions = RUST.split("pub fn ").skip(1);
    functions
        .map(|text| {
            let (before, _) = text.split_once(';').expect("its end");
            let (name, after) = before.split_once('(').expect("parameters");
            let (list, result) = after.split_once(") -> ").expect("a result");
            let list = parameters(list).map(|(name, kind)| (name.into(), kind.into()));
            (name.into(), (result.into(), list.collect()))
        })
        .collect()
}

/// The functions that crates/perk exports.
fn of_rattle() -> BTreeMap<String, Function> {
    let functions = RATTLE.split("pub extern \"C\" fn ").skip(1);
    functions
        .map(|text| {
            let (name, after) = text.split_once('(').expect("parameters");
            let (list, after) = after.split_once(") -> ").expect("a result");
            let result = after.split_whitespace().next().expect("a result");
            let list = parameters(list).flat_map(|(name, kind)| passed(name, kind));
            (name.into(), (result.into(), list.collect()))
        })
        .collect()
}

/// How a parameter of an exported function is passed: a slice as a pointer and a
/// length, a reference to a number as a pointer, a number as itself.
fn passed(name: &str, kind: &str) -> Vec<(String, String)> {
    let (pointer, target) = match (kind.strip_prefix("&mut "), kind.strip_prefix('&')) {
        (Some(target), _) => ("*mut", target),
        (None, Some(target)) => ("*const", target),
        (None, None) => return vec![(name.into(), kind.into())],
    };
    match target.strip_prefix('[') {
        Some(element) => {
            let element = element.strip_suffix(']').expect("a slice");
            vec![
                (name.into(), format!("{pointer} {element}")),
                (format!("{name}_len"), "usize".into()),
            ]
        }
        None => vec![(name.into(), format!("{pointer} {target}"))],
    }
}

#[test]
fn declarations_agree() {
    let rattle = of_rattle();
    let header = of_header();
    let rust = of_rust();
    assert!(rattle.len() >= 16 && rattle["perk_sum"].1.len() == 6);
    assert!(rattle.keys().eq(header.keys()), "perk.h: other functions");
    assert!(rattle.keys().eq(rust.keys()), "c.rs: other functions");
    for (name, function) in rattle {
        assert_eq!(function, header[&name], "perk.h: {name}");
        assert_eq!(function, rust[&name], "c.rs: {name}");
    }
}

/// The header's names of numbers.
fn names() -> BTreeMap<String, u32> {
    let code = without_comments();
    let lines = code.lines().filter_map(|line| {
        let (name, number) = line.strip_prefix("#define ")?.split_once(' ')?;
        Some((name.into(), number.trim().parse().ok()?))
    });
    lines.collect()
}

#[test]
fn lengths_agree() {
    let largest = names()["PERK_LARGEST_PACKAGE_BYTES"] as usize;
    assert_eq!(largest, perk::LARGEST_PACKAGE_BYTES);
}

#[test]
fn texts_agree() {
    let names = names();
    let code = without_comments();
    let (_, texts) = code.split_once("switch (number) {").expect("the texts");
    let (texts, _) = texts.split_once("default:").expect("their end");
    let texts: BTreeMap<u32, &str> = texts
        .split("case ")
        .skip(1)
        .map(|case| {
            let (name, text) = case.split_once(": return \"").expect("a text");
            let (text, _) = text.split_once('"').expect("its end");
            (names[name], text)
        })
        .collect();
    // those of the refusals, of done and of rejected
    assert_eq!(texts.len(), Refusal::ALL.len() + 2);
    assert_eq!(texts[&names["PERK_REJECTED"]], "rejected");
    // an offender has the number of a rejected proof, which is no refusal's
    assert_eq!(names["PERK_OFFENDER"], 255);
    assert_eq!(names["PERK_REJECTED"], 255);
    for refusal in Refusal::ALL {
        assert_eq!(texts[&refusal.number()], refusal.to_string());
    }
}
