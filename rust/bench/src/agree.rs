//! Whether all implementations answer and write the same, on random inputs and
//! on some that are refused.

use crate::implementation::{
    material, written_words, Found, Implementation, ALL, FILED, JOIN, KEYED, LOOK, QUICK_LOOK,
    RANK, READ_BUNDLE, WRITE,
};
use reference::package::{bundle_bytes, package_bytes, Group};
use reference::samples::{Generator, Leaning, Material, Sample};
use reference::vectors::quick_look::OFFENDER;
use reference::Refusal;

/// What a number holds that no call has written.
const UNWRITTEN: usize = 99_999;

/// Whether all are the same.
fn same<T: PartialEq>(mut outcomes: impl Iterator<Item = T>) -> bool {
    let first = outcomes.next();
    outcomes.all(|outcome| Some(outcome) == first)
}

/// Tries sums and products.
fn elements(generator: &mut Generator) -> Result<(), String> {
    for case in 0..10_000 {
        let mut a = generator.words(12);
        let b = generator.words(12);
        let mut out = generator.words(12);
        match generator.below(8) {
            0 => a[generator.below(12)] = generator.number() as u16,
            1 => a.truncate(generator.below(13)),
            2 => out.truncate(generator.below(13)),
            _ => {}
        }
        let outcomes = ALL.iter().map(|implementation| {
            let (mut sum, mut product) = (out.clone(), out.clone());
            let answers = [
                (implementation.sum)(&a, &b, &mut sum),
                (implementation.product)(&a, &b, &mut product),
            ];
            (answers, sum, product)
        });
        if !same(outcomes) {
            return Err(format!("sum or product, case {case}"));
        }
    }
    Ok(())
}

/// Changes a word or a byte, or the length of a slice, at random.
fn damage(material: &mut Material, generator: &mut Generator) {
    let mut slices = material.slices();
    let chosen = generator.below(slices.len());
    let (_, slice) = &mut slices[chosen];
    let length = slice.length();
    let place = generator.below(length + 1);
    match generator.below(3) {
        0 if place < length => slice.change(place, |old| old ^ 1),
        1 if place < length => slice.change(place, |_| generator.number() as u16),
        _ => slice.set_length(place),
    }
}

/// The implementations that refuse rows that lean on each other: all, but for
/// another build from before the entry rank.
fn with_rank() -> impl Iterator<Item = &'static Implementation> {
    ALL.iter().filter(|one| one.rank.is_some())
}

/// Whether the rows of H lean on each other, and nothing of n, m and H is
/// refused before.
fn leans(Sample { n, m, h, .. }: &Sample) -> bool {
    let mut matrix = vec![0; h.len()];
    reference::rank(*n, *m, h, &mut matrix).is_ok_and(|rank| rank < *m)
}

/// Tries the entry rank, on matrices of all sizes: full ones, sparse ones and
/// leaning ones, and some that are refused.
fn ranks(generator: &mut Generator) -> Result<(), String> {
    for n in 2..=64 {
        for round in 0..12 {
            let (mut n, mut m) = (n, 1 + generator.below(n - 1));
            let mut h = generator.words(m * n);
            match round {
                0..=2 => {
                    let ways: Vec<Leaning> = Leaning::of(m).collect();
                    ways[round % ways.len()].make(&mut h, n, generator);
                }
                3..=5 => {
                    let all = h.iter_mut();
                    let gone = all.filter(|_| generator.below(n) > 1);
                    gone.for_each(|word| *word = 0);
                }
                6 => h[generator.below(m * n)] |= 2048,
                7 => h.truncate(generator.below(m * n)),
                8 => m = [0, n, usize::MAX][generator.below(3)],
                9 => n = [0, 1, 65, usize::MAX][generator.below(4)],
                _ => {}
            }
            let matrix = generator.words(h.len() + usize::from(round == 10));
            let outcomes = with_rank().filter_map(|one| one.rank).map(|entry| {
                let (mut matrix, mut rank) = (matrix.clone(), 99);
                let answer = entry(n, m, &h, &mut matrix, &mut rank);
                (answer, rank, matrix)
            });
            if !same(outcomes) {
                return Err(format!("{RANK} at n = {n}, m = {m}"));
            }
        }
    }
    Ok(())
}

/// Tries the entry quick look, on lists of all sizes: orders, lists with up to three
/// other numbers, and some that are refused.
fn orders(generator: &mut Generator) -> Result<(), String> {
    let (mut well, mut offenders, mut refused) = (0, 0, 0);
    for n in 2..=64 {
        for round in 0..24 {
            let (mut n, mut positions) = (n, generator.order(n));
            for _ in 0..round % 4 {
                let limit = [n, 2 * n, 256][generator.below(3)];
                positions[generator.below(n)] = generator.below(limit) as u8;
            }
            match round {
                0..=2 => n = [0, 1, 65, usize::MAX][generator.below(4)],
                3..=5 => positions.resize([0, n - 1, n + 1][round - 3], 0),
                _ => {}
            }
            let mut answer = 0;
            let outcomes = ALL.iter().filter_map(|one| one.quick_look).map(|entry| {
                let mut index = UNWRITTEN;
                answer = entry(n, &positions, &mut index);
                (answer, index)
            });
            if !same(outcomes) {
                return Err(format!("{QUICK_LOOK} at n = {n}: {positions:?}"));
            }
            match answer {
                0 => well += 1,
                OFFENDER => offenders += 1,
                _ => refused += 1,
            }
        }
    }
    if well < 200 || offenders < 300 || refused < 300 {
        return Err(format!(
            "{QUICK_LOOK} is tried too little: {well}, {offenders}, {refused}"
        ));
    }
    Ok(())
}

/// Tries the entries with a key on keys whose rows lean: all refuse them.
fn leaning_keys(generator: &mut Generator) -> Result<(), String> {
    for n in (2..=12).chain([17, 33]) {
        let m = 1 + generator.below(n - 1);
        let mut material = material(Sample::solving(n, m, generator));
        let (bits, words) = (material.t.len(), written_words(&material.sample));
        for leaning in Leaning::of(m) {
            material.sample = material.sample.leaning(leaning, generator);
            let answers = keyed(&material, bits, words, generator)?;
            if answers != [Refusal::DependentRows.number(); 4] {
                return Err(format!("leaning rows are taken at n = {n}, m = {m}"));
            }
        }
    }
    Ok(())
}

/// Tries the entries with a key, with room for t and for the words of each.
/// Leaning rows are tried with the implementations that refuse them.
fn keyed(
    material: &Material,
    bits: usize,
    words: [usize; 4],
    generator: &mut Generator,
) -> Result<[u32; 4], String> {
    let mut answers = [0; 4];
    let leans = leans(&material.sample);
    for (entry, name) in KEYED.iter().enumerate() {
        let t = generator.bits(bits);
        let out = generator.words(words[entry]);
        let tried = ALL.iter().filter(|one| one.rank.is_some() || !leans);
        let outcomes = tried.map(|implementation| {
            let (mut t, mut out) = (t.clone(), out.clone());
            let answer = implementation.keyed[entry](material, &mut t, &mut out);
            answers[entry] = answer;
            (answer, t, out)
        });
        if !same(outcomes) {
            let Sample { n, m, .. } = material.sample;
            return Err(format!("{name} at n = {n}, m = {m}"));
        }
    }
    Ok(answers)
}

/// Tries the entries with a key, on keys of all sizes.
fn keys(generator: &mut Generator) -> Result<(), String> {
    let sizes = (2..=18).chain([31, 32, 33, 64]);
    for n in sizes {
        for round in 0..if n > 30 { 1 } else { 12 } {
            let m = 1 + generator.below(n - 1);
            let mut material = material(Sample::solving(n, m, generator));
            let (bits, words) = (material.t.len(), written_words(&material.sample));
            if keyed(&material, bits, words, generator)? != [0; 4] {
                return Err(format!("an honest sample is not taken at n = {n}, m = {m}"));
            }
            damage(&mut material, generator);
            if round == 11 {
                material.sample.m = [0, n, usize::MAX][generator.below(3)];
            }
            if round == 10 {
                material.sample.n = [0, 1, 65, usize::MAX][generator.below(4)];
            }
            keyed(&material, bits, words, generator)?;
        }
    }
    Ok(())
}

/// A fault of what a package is written from, or none.
fn package_fault(material: &mut Material, generator: &mut Generator) {
    let name = ["h", "x", "y", "t", "a"][generator.below(5)];
    let length = material.lent(name).length();
    let place = generator.below(length);
    let Sample { n, m, h, .. } = &mut material.sample;
    match generator.below(12) {
        0 => *n = [0, 1, 65, usize::MAX][generator.below(4)],
        1 => *m = [0, *n, usize::MAX][generator.below(3)],
        2 => Leaning::ZeroRow.make(h, *n, generator),
        3 => material.lent(name).set_length(place),
        4 => material.lent(name).set_length(length + 1),
        // The low byte is too large for a bit.
        5 | 6 => material.lent(name).change(place, |_| 2050),
        _ => {}
    }
}

/// Tries the entry write package, on material of all sizes with some faults, and
/// on outputs as long as the package, longer and shorter ones.
fn packages(generator: &mut Generator) -> Result<(), String> {
    let (mut done, mut short) = (0, 0);
    for n in 2..=64 {
        for round in 0..16 {
            let m = 1 + generator.below(n - 1);
            let mut material = Material::of_package(n, m, round % 2 == 0, generator);
            let Material { sample, t, a } = &material;
            let length = package_bytes(sample.key(), sample.serial, t, a).len();
            let room = match generator.below(5) {
                0 => length - 1,
                1 => generator.below(length),
                2 => length + 1 + generator.below(100),
                _ => length,
            };
            package_fault(&mut material, generator);
            let out: Vec<u8> = (0..room).map(|_| generator.number() as u8).collect();
            let outcomes = ALL.iter().filter_map(|one| one.write).map(|entry| {
                let (mut out, mut length) = (out.clone(), 99_999);
                let answer = entry(&material, &mut out, &mut length);
                done += usize::from(answer == 0);
                short += usize::from(answer == Refusal::ShortOutput.number());
                (answer, length, out)
            });
            if !same(outcomes) {
                return Err(format!("{WRITE} at n = {n}, m = {m}"));
            }
        }
    }
    if done < 100 || short < 100 {
        return Err(format!("{WRITE} is tried too little: {done}, {short}"));
    }
    Ok(())
}

/// Some of the groups of a list, at least one.
fn some_of(groups: &[Group], generator: &mut Generator) -> Vec<Group> {
    let mut list = groups.to_vec();
    let kept = generator.below(list.len());
    let mut place = 0;
    list.retain(|_| {
        place += 1;
        place == kept + 1 || generator.below(2) == 0
    });
    list
}

/// Two bundles with some groups in common; some differ in a group or in the key,
/// and some have a byte that is changed or missing.
fn two_bundles(n: usize, generator: &mut Generator) -> [Vec<u8>; 2] {
    let m = 1 + generator.below(n - 1);
    let target = generator.below(2) == 0;
    let mut sample = Material::of_package(n, m, target, generator).sample;
    let sizes = sample.key().sizes().expect("sizes that are not refused");
    let serials = generator.serials(6);
    let groups: Vec<Group> = serials
        .into_iter()
        .map(|serial| generator.group(sizes, serial))
        .collect();
    let first = bundle_bytes(sample.key(), &some_of(&groups, generator));
    let mut second = some_of(&groups, generator);
    match generator.below(8) {
        0 => second[0].t[generator.below(n)] ^= 1,
        1 => second[0].a[generator.below(12)] ^= 1,
        2 => sample.x[generator.below(n)] ^= 1,
        3 => second.reverse(),
        4 => second.insert(0, second[0].clone()),
        _ => {}
    }
    let mut bundles = [first, bundle_bytes(sample.key(), &second)];
    let bytes = &mut bundles[generator.below(2)];
    let place = generator.below(bytes.len());
    match generator.below(8) {
        0 => bytes.truncate(place),
        1 => bytes[place] = generator.number() as u8,
        _ => {}
    }
    bundles
}

/// What the join or the look before it answers, and the length and the number of
/// groups that it writes.
type Sized = (u32, [usize; 2]);

/// Tries the entries read bundle and join bundles, with this output: what the join
/// answers.
fn joins(bundles: [&[u8]; 2], out: &[u8]) -> Result<Sized, String> {
    let [first, second] = bundles;
    let mut joined = (0, [UNWRITTEN; 2]);
    let outcomes = ALL
        .iter()
        .filter_map(|one| one.bundles)
        .map(|(read, join)| {
            let (mut n, mut m, mut of_first) = (0, 0, UNWRITTEN);
            let [mut length, mut groups] = [UNWRITTEN; 2];
            let mut out = out.to_vec();
            let answers = [
                read(first, &mut n, &mut m, &mut of_first),
                join(first, second, &mut out, &mut length, &mut groups),
            ];
            joined = (answers[1], [length, groups]);
            (answers, n, m, of_first, joined, out)
        });
    if !same(outcomes) {
        return Err(format!("{READ_BUNDLE} or {JOIN}"));
    }
    Ok(joined)
}

/// Tries the entry look before join: with this room, for which it answers what the
/// join does, with the length that the join answers and one less, and with the least
/// room and the largest.
fn looks([first, second]: [&[u8]; 2], room: usize, joined: Sized) -> Result<(), String> {
    let (_, [length, _]) = joined;
    let others = [length, length - 1, 0, usize::MAX].map(|room| (room, None));
    for (room, joined) in [(room, Some(joined))].into_iter().chain(others) {
        let outcomes = ALL.iter().filter_map(|one| one.look).map(|look| {
            let [mut length, mut groups] = [UNWRITTEN; 2];
            let answer = look(first, second, room, &mut length, &mut groups);
            (answer, [length, groups])
        });
        if !same(outcomes.chain(joined)) {
            return Err(format!("{LOOK} with a room of {room}"));
        }
    }
    Ok(())
}

/// Tries the entries on bundles, of all sizes with some faults, and with outputs
/// as long as both bundles, longer and shorter ones.
fn bundles(generator: &mut Generator) -> Result<(), String> {
    let (mut done, mut refused, mut short) = (0, 0, 0);
    for n in 2..=64 {
        for _ in 0..12 {
            let bundles = two_bundles(n, generator);
            let bundles = bundles.each_ref().map(|bytes| &bytes[..]);
            let most = bundles.concat().len();
            let room = match generator.below(4) {
                0 => generator.below(most),
                1 => most + 1 + generator.below(100),
                _ => most,
            };
            let out: Vec<u8> = (0..room).map(|_| generator.number() as u8).collect();
            let joined = joins(bundles, &out);
            let tried = joined.and_then(|joined| looks(bundles, room, joined).map(|()| joined.0));
            let answer = tried.map_err(|names| format!("{names} at n = {n}"))?;
            match answer {
                0 => done += 1,
                _ if answer == Refusal::ShortOutput.number() => short += 1,
                _ => refused += 1,
            }
        }
    }
    if done < 100 || refused < 100 || short < 40 {
        return Err(format!(
            "{JOIN} is tried too little: {done}, {refused}, {short}"
        ));
    }
    Ok(())
}

/// Tries the entries on bytes, on a check file and its package.
fn files(file: &[u8], package: &[u8], generator: &mut Generator) -> Result<(), String> {
    for case in 0..64 {
        let mut bytes = if case % 2 == 0 { file } else { package }.to_vec();
        match case / 2 % 4 {
            0 => {}
            1 => bytes.truncate(generator.below(bytes.len())),
            2 => bytes.push(0),
            _ => {
                let place = generator.below(bytes.len());
                bytes[place] = generator.number() as u8;
            }
        }
        // The reference takes long to check a whole file.
        let entries = if case < 16 { 4 } else { 3 };
        for (entry, name) in FILED.iter().enumerate().take(entries) {
            let present = ALL.iter().filter_map(|one| one.filed);
            let outcomes = present.map(|filed| {
                let mut found = Found::default();
                (filed[entry](&bytes, &mut found), found)
            });
            if !same(outcomes) {
                return Err(format!("{name}, case {case}"));
            }
        }
    }
    Ok(())
}

/// Tries all entries; where they differ, an error names the case.
pub fn agree(file: &[u8], package: &[u8]) -> Result<(), String> {
    let generator = &mut Generator::new(0);
    elements(generator)?;
    keys(generator)?;
    ranks(generator)?;
    leaning_keys(generator)?;
    packages(generator)?;
    bundles(generator)?;
    files(file, package, generator)?;
    orders(generator)
}
