//! The tables, as Markdown with columns of even width.

use crate::bundles::{Beside, Bundling};
use crate::cases::{Writing, ONE_PRODUCT, SIZES};
use crate::implementation::{other_name, ALL, KEYED, LIBRARY, OTHER, RANK, REFERENCE, RUST};
use crate::measure::{median, triples, Measured, LEAST, TURNS};

/// The ratio of times up to which one build is not called slower than another:
/// the same code at two places in memory differs by up to 0.02, and by more
/// where a call takes a few nanoseconds.
const NOISE: f64 = 1.03;

/// A table: a heading, then rows of as many cells. The first two columns are
/// text, the others numbers.
fn print(heading: Vec<String>, rows: Vec<Vec<String>>) {
    let width = |column: usize| {
        let cells = rows.iter().map(|row| row[column].chars().count());
        cells.chain([heading[column].chars().count()]).max()
    };
    let widths: Vec<usize> = (0..heading.len()).filter_map(width).collect();
    let line = |cells: &[String]| {
        print!("|");
        for (column, (cell, &width)) in cells.iter().zip(&widths).enumerate() {
            if column < 2 {
                print!(" {cell:<width$} |");
            } else {
                print!(" {cell:>width$} |");
            }
        }
        println!();
    };
    line(&heading);
    print!("|");
    for (column, &width) in widths.iter().enumerate() {
        let end = if column < 2 { ' ' } else { ':' };
        print!(" {}{end}|", "-".repeat(width));
    }
    println!();
    rows.iter().for_each(|row| line(row));
}

/// A number, or a dash.
fn shown<T>(number: Option<T>, show: impl Fn(T) -> String) -> String {
    number.map_or("-".to_string(), show)
}

/// A number with about three digits.
fn short(number: f64) -> String {
    let decimals = match number {
        number if number >= 100.0 => 0,
        number if number >= 10.0 => 1,
        number if number >= 1.0 => 2,
        _ => 3,
    };
    format!("{number:.decimals$}")
}

/// Nanoseconds as microseconds.
fn microseconds(time: Option<f64>) -> String {
    shown(time, |time| short(time / 1e3))
}

/// A ratio.
fn three_decimals(ratio: Option<f64>) -> String {
    shown(ratio, |ratio| format!("{ratio:.3}"))
}

/// a / b, where both are there.
fn ratio(a: Option<f64>, b: Option<f64>) -> Option<f64> {
    Some(a? / b?)
}

/// The sizes or the form of a row.
fn called_with(row: &Measured) -> String {
    let sizes = row.subject.sizes;
    sizes.map_or(row.subject.form.to_string(), |(n, m)| format!("({n},{m})"))
}

/// The library's time of one product.
fn one_product(rows: &[Measured]) -> Option<f64> {
    let row = rows
        .iter()
        .find(|row| (row.subject.entry, row.subject.form) == ONE_PRODUCT);
    row.and_then(|row| row.time(LIBRARY))
}

/// The table of all rows.
pub fn entries(rows: &[Measured]) {
    println!("## Entries\n");
    println!(
        "Microseconds for one call: the median of up to {TURNS} turns, for the processes the least. In each turn all implementations of an entry are"
    );
    println!(
        "called one after another, for at least {} µs each and on the same inputs, in the opposite order in every second turn. A ratio of two",
        LEAST.as_micros()
    );
    println!("implementations is the median of the turns' ratios, so it need not be the ratio of the two times shown. Output buffers are not cleared");
    println!("between calls. `products` is the number of products in K that the library's algorithm needs, and `library/products` the library's time in");
    println!("units of that many independent calls of `product`.");
    println!(
        "`instructions` are those of one call, counted by callgrind; they repeat from run to run."
    );
    let other = ALL.len() > OTHER;
    if let (true, Some(name)) = (other, other_name()) {
        println!("`other` is: {name}.");
    }
    println!();

    let mut heading: Vec<String> = vec!["entry".into(), "called with".into()];
    heading.extend(ALL.iter().map(|one| format!("{} µs", one.name)));
    let mut ratios = vec![(LIBRARY, RUST), (LIBRARY, REFERENCE)];
    let mut counts = vec![(LIBRARY, RUST)];
    if other {
        ratios.push((OTHER, LIBRARY));
        counts.push((OTHER, LIBRARY));
    }
    let name = |(a, b): (usize, usize)| format!("{}/{}", ALL[a].name, ALL[b].name);
    heading.extend(ratios.iter().map(|&pair| name(pair)));
    heading.push("products".into());
    heading.push("library/products".into());
    heading.push("instructions".into());
    heading.extend(counts.iter().map(|&pair| format!("{} instr.", name(pair))));

    let one = one_product(rows);
    let cells = |row: &Measured| {
        let mut cells = vec![format!("`{}`", row.subject.entry), called_with(row)];
        cells.extend((0..ALL.len()).map(|one| microseconds(row.time(one))));
        cells.extend(ratios.iter().map(|&(a, b)| three_decimals(row.ratio(a, b))));
        let products = row.subject.products;
        cells.push(shown(products, |products| products.to_string()));
        let units = products.and_then(|products| Some(one? * products as f64));
        cells.push(three_decimals(ratio(row.time(LIBRARY), units)));
        cells.push(shown(row.instructions[LIBRARY], |count| count.to_string()));
        let count = |one: usize| row.instructions[one].map(|count| count as f64);
        let of_counts = |&(a, b): &(usize, usize)| ratio(count(a), count(b));
        cells.extend(counts.iter().map(of_counts).map(three_decimals));
        cells
    };
    print(heading, rows.iter().map(cells).collect());
    println!();
    if other {
        slower(rows);
    }
}

/// Tells the rows in which the library is slower than the other build.
fn slower(rows: &[Measured]) {
    let list = |chosen: &dyn Fn(&Measured) -> Option<bool>| {
        let rows = rows.iter().filter(|row| chosen(row) == Some(true));
        let names: Vec<String> = rows
            .map(|row| format!("`{}` {}", row.subject.entry, called_with(row)))
            .collect();
        if names.is_empty() {
            "none".to_string()
        } else {
            names.join(", ")
        }
    };
    let instructions = list(&|row| Some(row.instructions[LIBRARY]? > row.instructions[OTHER]?));
    let times = list(&|row| Some(row.ratio(LIBRARY, OTHER)? > NOISE));
    println!(
        "Rows in which the library takes more instructions than the other build: {instructions}."
    );
    println!("Rows in which it takes more than {NOISE} of its time: {times}.\n");
}

/// The sizes at which the time of rank is told as a share of that of verify, and
/// the most that it shall be.
const SHARES: [((usize, usize), f64); 2] = [((64, 27), 0.1), ((64, 63), 0.2)];

/// The row of an entry at these sizes.
fn row_at<'a>(rows: &'a [Measured], entry: &str, sizes: (usize, usize)) -> Option<&'a Measured> {
    rows.iter()
        .find(|row| row.subject.entry == entry && row.subject.sizes == Some(sizes))
}

/// The table of the test of the rows of H, which the entry rank makes alone: its
/// time as a share of that of verify, which makes it too.
pub fn shares(rows: &[Measured]) {
    println!("## The test of the rows of H\n");
    println!("The time of `rank` as a share of that of `verify`, which tests the rows of H too, and the share that is aimed at.\n");
    let heading = [
        "(n,m)",
        "implementation",
        "`rank` µs",
        "`verify` µs",
        "share",
        "at most",
    ];
    let percent = |share: f64| format!("{:.1} %", 100.0 * share);
    let mut cells = Vec::new();
    for (sizes, most) in SHARES {
        let [rank, verify] = [RANK, "verify"].map(|entry| row_at(rows, entry, sizes));
        let told = ALL
            .iter()
            .enumerate()
            .filter(|(_, one)| one.rank.is_some() && one.counted);
        for (one, implementation) in told {
            let [rank, verify] = [rank, verify].map(|row| row.and_then(|row| row.time(one)));
            cells.push(vec![
                format!("({},{})", sizes.0, sizes.1),
                implementation.name.to_string(),
                microseconds(rank),
                microseconds(verify),
                shown(ratio(rank, verify), percent),
                format!("{:.0} %", 100.0 * most),
            ]);
        }
    }
    print(heading.map(String::from).to_vec(), cells);
    println!();
}

/// The copies of a package that its writing shall take no longer than, beside
/// the checks.
const COPIES: f64 = 3.0;

/// Times the writing of a package: its cells.
fn written(package: Writing) -> Vec<String> {
    let turns = triples(package.calls);
    let of_turns = |of: fn(&[f64; 3]) -> f64| median(turns.iter().map(of).collect());
    let beyond = of_turns(|[write, checks, _]| write - checks);
    let copies = of_turns(|[write, checks, copy]| (write - checks) / copy);
    let ratio = of_turns(|[write, checks, copy]| write / (checks + COPIES * copy));
    vec![
        format!("({},{})", package.sizes.0, package.sizes.1),
        package.name.to_string(),
        package.bytes.to_string(),
        microseconds(of_turns(|turn| turn[0])),
        microseconds(of_turns(|turn| turn[1])),
        microseconds(of_turns(|turn| turn[2])),
        microseconds(beyond),
        shown(beyond, |beyond| short(package.bytes as f64 / beyond)),
        shown(copies, short),
        three_decimals(ratio),
    ]
}

/// Times the writing of packages, and prints the table.
pub fn writing(packages: Vec<Writing>) {
    println!("## Writing a package\n");
    println!("The time of `write_package` beside those of its checks and of a copy. The checks are timed by the same call with an output one byte short: it makes");
    println!("all of them, answers 13 and writes nothing. A copy is `memcpy` of the package. In each turn the three are called one after another, each after one");
    println!("more call that is not timed. Of the turns' values these are medians too: the time beyond the checks, the bytes that are written in each nanosecond");
    println!("of it, that time over a copy, and the whole time over that of the checks and {COPIES} copies; at most 1 is aimed at.\n");
    let heading = [
        "(n,m)",
        "implementation",
        "bytes",
        "`write_package` µs",
        "checks µs",
        "copy µs",
        "beyond the checks µs",
        "bytes per ns",
        "beyond/copy",
        &format!("write/(checks + {COPIES} copies)"),
    ];
    let cells = packages.into_iter().map(written).collect();
    print(heading.map(String::from).to_vec(), cells);
    println!();
}

/// What the time of an entry on bundles is compared with: the entry, the
/// implementation, the sizes and the groups, and the time beyond the key's checks.
type Beyond = (
    (&'static str, &'static str, (usize, usize), usize),
    Option<f64>,
);

/// Times an entry on bundles: its cells. The times beyond the key's checks before
/// it stand in a list, to which its own is added.
fn bundled(bundling: Bundling, before: &mut Vec<Beyond>) -> Vec<String> {
    let Bundling {
        entry,
        name,
        sizes,
        groups,
        bytes,
        calls,
        beside,
    } = bundling;
    let turns = triples(calls);
    let of_turns = |of: fn(&[f64; 3]) -> f64| median(turns.iter().map(of).collect());
    let beyond = of_turns(|[call, key, _]| call - key);
    let tenth = (entry, name, sizes, groups / 10);
    let tenth = before.iter().find(|(which, _)| *which == tenth);
    let growth = tenth.and_then(|&(_, tenth)| ratio(beyond, tenth));
    before.push(((entry, name, sizes, groups), beyond));
    let of_copies = |of| of_turns(of).filter(|_| beside == Beside::Copies);
    let of_joins = |of| of_turns(of).filter(|_| beside == Beside::Joins);
    vec![
        format!("`{entry}`"),
        name.to_string(),
        format!("({},{})", sizes.0, sizes.1),
        groups.to_string(),
        bytes.to_string(),
        microseconds(of_turns(|turn| turn[0])),
        microseconds(of_turns(|turn| turn[1])),
        microseconds(of_copies(|turn| turn[2])),
        microseconds(beyond),
        shown(beyond, |beyond| short(beyond / groups as f64)),
        shown(of_copies(|[call, key, copy]| (call - key) / copy), short),
        shown(growth, short),
        three_decimals(of_joins(|[call, _, join]| call / join)),
    ]
}

/// Times the entries on bundles, and prints the table.
pub fn bundles(bundlings: Vec<Bundling>) {
    println!("## Bundles\n");
    println!("`read_bundle` of a bundle, and `join_bundles` and `look_before_join` of two bundles that have half of the groups each, their serials in turn; of all");
    println!("serials half have two bytes. `bytes` is the length of the bundle that is read, or of the joined one, which is also the room of the look. The key's checks");
    println!("are timed by `read_bundle` of the key fields alone, which answers 9 after them; join and look make them once, as both bundles have the same. A copy is");
    println!("`memcpy` of these bytes; the look writes none, and is timed beside the join of the same bundles instead. In each turn the three are called one after");
    println!("another, each after one more call that is not timed. Of the turns' values these are medians too: the time beyond the key's checks, that time over a copy,");
    println!("and the look's whole time over the join's. `growth` is the time beyond the key's checks over that of a tenth of the groups.\n");
    let heading = [
        "entry",
        "implementation",
        "(n,m)",
        "groups",
        "bytes",
        "µs",
        "key µs",
        "copy µs",
        "beyond the key µs",
        "ns per group",
        "beyond/copy",
        "growth",
        "look/join",
    ];
    let mut before = Vec::new();
    let bundlings = bundlings.into_iter();
    let cells = bundlings.map(|bundling| bundled(bundling, &mut before));
    let cells = cells.collect();
    print(heading.map(String::from).to_vec(), cells);
    println!();
}

/// The rows of an entry that grow with n.
pub fn growing<'a>(rows: &'a [Measured], entry: &'a str) -> impl Iterator<Item = &'a Measured> {
    let sizes = SIZES[..4].iter();
    sizes.filter_map(move |&sizes| row_at(rows, entry, sizes))
}

/// The table of growth with n.
pub fn growth(rows: &[Measured]) {
    println!("## Growth with n\n");
    println!("Of the library, with m near 0.42 n: times and products, each also as a multiple of that of n = 8.\n");
    let heading = [
        "entry",
        "(n,m)",
        "µs",
        "µs/µs of n = 8",
        "products",
        "products/products of n = 8",
        "ns per product",
        "ns per product, Rust",
    ];
    let mut cells = Vec::new();
    for entry in KEYED.into_iter().chain([RANK]) {
        let Some(first) = growing(rows, entry).next() else {
            continue;
        };
        for row in growing(rows, entry) {
            let products = |row: &Measured| row.subject.products.map(|count| count as f64);
            let times = |one: usize| ratio(row.time(one), products(row));
            cells.push(vec![
                format!("`{entry}`"),
                called_with(row),
                microseconds(row.time(LIBRARY)),
                shown(ratio(row.time(LIBRARY), first.time(LIBRARY)), short),
                shown(row.subject.products, |count| count.to_string()),
                shown(ratio(products(row), products(first)), short),
                shown(times(LIBRARY), short),
                shown(times(RUST), short),
            ]);
        }
    }
    print(heading.map(String::from).to_vec(), cells);
    println!();
}
