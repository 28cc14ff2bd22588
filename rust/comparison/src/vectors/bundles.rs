//! The entries read bundle, join bundles and look before join: the file of bundles,
//! and the packages that check files begin with, as bundles of one group.

use super::calls::{Comparison, Stated};
use super::list::List;
use super::text::{Form, Lines};
use crate::case::Taken;
use crate::entries::bundles::join::{self, FIRST, SECOND};
use crate::entries::bundles::look::{self, ROOM};
use crate::entries::bundles::{read, GROUPS};
use crate::entries::files::fields::HEAD;
use crate::entries::files::BYTES;
use crate::entries::package_field::LENGTH;
use crate::entries::readers::{M, N};
use crate::entries::write::OUT;
use crate::lent::Lent;
use crate::named::Named;

/// The name of the file.
pub const NAME: &str = "bundle.txt";

/// The names of the entries.
const READ: &str = "read bundle";
const JOIN: &str = "join bundles";
const LOOK: &str = "look before join";

/// The bytes by which the output of a call is longer than the joined bundle.
const REST: usize = 9;

/// A part of the file with a bundle.
struct Bundle {
    length: List,
    bytes: List,
    n: List,
    m: List,
    groups: List,
}

/// A part of the file with bytes that are refused.
struct Refused {
    bytes: List,
    answer: List,
}

/// A part of the file with two bundles and what they are together.
struct Joined<'a> {
    name: &'a str,
    lent: [List; 2],
    groups: List,
    length: List,
    bytes: List,
    /// The answer where the output has a byte less.
    short: List,
}

/// A part of the file with a join that is refused.
struct JoinRefused<'a> {
    name: &'a str,
    lent: [List; 2],
    /// The length of the output that is lent.
    out: usize,
    answer: List,
}

/// A part of the file with looks at the bundles of a join.
struct Look {
    rooms: List,
    length: List,
    groups: List,
    short_rooms: List,
    /// The answer where the room is too short.
    short: List,
}

/// A part of the file with looks at the bundles of a join that is refused.
struct LookRefused {
    rooms: List,
    answer: List,
}

/// The two bundles of a part.
fn lent(lines: &mut Lines) -> Result<[List; 2], String> {
    let (_, first) = lines.slice("first_length", "first")?;
    let (_, second) = lines.slice("second_length", "second")?;
    Ok([first, second])
}

impl Bundle {
    /// The next part.
    fn read(lines: &mut Lines) -> Result<Bundle, String> {
        lines.part("case")?;
        let (length, bytes) = lines.slice("bundle_length", "bundle")?;
        Ok(Bundle {
            length,
            bytes,
            n: lines.single("n", 1, Form::Small)?,
            m: lines.single("m", 1, Form::Small)?,
            groups: lines.single("groups", 1, Form::Decimal)?,
        })
    }
}

impl Refused {
    /// The next part.
    fn read(lines: &mut Lines) -> Result<Refused, String> {
        lines.part("refused")?;
        let (_, bytes) = lines.slice("bundle_length", "bundle")?;
        let answer = lines.single("answer", 1, Form::Decimal)?;
        Ok(Refused { bytes, answer })
    }
}

impl<'a> Joined<'a> {
    /// The next part.
    fn read(lines: &mut Lines<'a>) -> Result<Joined<'a>, String> {
        let name = lines.part("join")?;
        let lent = lent(lines)?;
        let groups = lines.single("groups", 1, Form::Decimal)?;
        let (length, bytes) = lines.slice("joined_length", "joined")?;
        Ok(Joined {
            name,
            lent,
            groups,
            length,
            bytes,
            short: lines.single("short_answer", 1, Form::Decimal)?,
        })
    }
}

impl<'a> JoinRefused<'a> {
    /// The next part.
    fn read(lines: &mut Lines<'a>) -> Result<JoinRefused<'a>, String> {
        Ok(JoinRefused {
            name: lines.part("join_refused")?,
            lent: lent(lines)?,
            out: lines.number("out_length")?,
            answer: lines.single("answer", 1, Form::Decimal)?,
        })
    }
}

impl Look {
    /// The next part, which is that of a join.
    fn read(lines: &mut Lines, join: &Joined) -> Result<Look, String> {
        lines.part_named("look", join.name)?;
        Ok(Look {
            rooms: lines.sizes("room")?,
            length: lines.single("length", 1, Form::Decimal)?,
            groups: lines.single("groups", 1, Form::Decimal)?,
            short_rooms: lines.sizes("short_room")?,
            short: lines.single("short_answer", 1, Form::Decimal)?,
        })
    }
}

impl LookRefused {
    /// The next part, which is that of a refused join.
    fn read(lines: &mut Lines, join: &JoinRefused) -> Result<LookRefused, String> {
        lines.part_named("look_refused", join.name)?;
        Ok(LookRefused {
            rooms: lines.sizes("room")?,
            answer: lines.single("answer", 1, Form::Decimal)?,
        })
    }
}

/// All parts of one kind, at least one, up to a line with another name.
fn parts<'a, T>(
    lines: &mut Lines<'a>,
    kind: &str,
    read: fn(&mut Lines<'a>) -> Result<T, String>,
) -> Result<Vec<T>, String> {
    let mut list = Vec::new();
    while list.is_empty() || lines.next_name() == Some(kind) {
        list.push(read(lines)?);
    }
    Ok(list)
}

impl Comparison<'_> {
    /// The entry read bundle.
    fn read_bundle(&mut self, bytes: &List, stated: Stated) -> Result<(), String> {
        let taken = Taken {
            numbers: Named::new(),
            inputs: Named::from([(BYTES, self.bytes(bytes))]),
        };
        let outputs = read::outputs(self.generator);
        self.call(READ, taken, outputs, stated)?;
        Ok(())
    }

    /// Two bundles, lent.
    fn lent(&mut self, lent: [&List; 2]) -> Named<Lent> {
        let [first, second] = lent.map(|list| self.bytes(list));
        Named::from([(FIRST, first), (SECOND, second)])
    }

    /// The entry join bundles, with an output of this length.
    fn join(&mut self, lent: [&List; 2], out: usize, stated: Stated) -> Result<(), String> {
        let taken = Taken {
            numbers: Named::new(),
            inputs: self.lent(lent),
        };
        let outputs = join::outputs(out, self.generator);
        self.call(JOIN, taken, outputs, stated)?;
        Ok(())
    }

    /// The entry look before join, for outputs of these lengths.
    fn look(&mut self, lent: [&List; 2], rooms: &[usize], stated: &Stated) -> Result<(), String> {
        for &room in rooms {
            let taken = Taken {
                numbers: Named::from([(ROOM, room)]),
                inputs: self.lent(lent),
            };
            let outputs = look::outputs(self.generator);
            self.call(LOOK, taken, outputs, stated.clone())?;
        }
        Ok(())
    }

    /// The joined bundle of the two in both orders, in outputs of its length
    /// and of more; the look tells the same numbers.
    fn joined(
        &mut self,
        [first, second]: [&List; 2],
        [bytes, length, groups]: [&List; 3],
    ) -> Result<(), String> {
        let stated = Stated::outputs([(OUT, bytes), (LENGTH, length), (GROUPS, groups)]);
        for rest in [0, REST] {
            let out = bytes.len() + rest;
            self.join([first, second], out, stated.clone())?;
            self.join([second, first], out, stated.clone())?;
        }
        let stated = Stated::outputs([(LENGTH, length), (GROUPS, groups)]);
        self.look([first, second], &[bytes.len(), usize::MAX], &stated)
    }

    /// A bundle: it is read, and with itself it is itself.
    fn bundle(&mut self, bytes: &List, numbers: [&List; 4]) -> Result<(), String> {
        let [n, m, groups, length] = numbers;
        self.read_bundle(bytes, Stated::outputs([(N, n), (M, m), (GROUPS, groups)]))?;
        self.joined([bytes; 2], [bytes, length, groups])
    }

    /// A package as a bundle of one group.
    pub fn package_as_bundle(&mut self, package: &List, n: &List, m: &List) -> Result<(), String> {
        // No line states the length and the number of groups.
        let [mut length, mut groups] = [(); 2].map(|()| package.part(0, 1));
        length.words[0].value = package.len() as u64;
        groups.words[0].value = 1;
        self.bundle(package, [n, m, &groups, &length])
    }

    /// Two bundles with what they are together, which is read, and refused
    /// where the output is too short.
    fn join_part(&mut self, part: &Joined) -> Result<(), String> {
        let Joined {
            lent,
            groups,
            length,
            bytes,
            short,
            ..
        } = part;
        let lent = lent.each_ref();
        self.joined(lent, [bytes, length, groups])?;
        let Some(shorter) = bytes.len().checked_sub(1).filter(|&len| len > HEAD) else {
            return Err(format!("{}: too short", length.place(0)));
        };
        self.join(lent, shorter, Stated::answer(short))?;
        // The bytes of field 01 tell n and m.
        let [n, m] = [0, 1].map(|place| bytes.part(HEAD + place, 1));
        let stated = Stated::outputs([(N, &n), (M, &m), (GROUPS, groups)]);
        self.read_bundle(bytes, stated)
    }

    /// Looks at two bundles in both orders, for rooms that are long enough and for
    /// such that are too short.
    fn look_part(&mut self, [first, second]: [&List; 2], part: &Look) -> Result<(), String> {
        let told = Stated::outputs([(LENGTH, &part.length), (GROUPS, &part.groups)]);
        let short = Stated::answer(&part.short);
        for lent in [[first, second], [second, first]] {
            self.look(lent, &part.rooms.sizes(), &told)?;
            self.look(lent, &part.short_rooms.sizes(), &short)?;
        }
        Ok(())
    }

    /// The file of bundles: parts with a bundle, with bytes that are refused,
    /// with two bundles, and with a join that is refused; then looks, for each
    /// join and for each refused one.
    pub fn bundles(&mut self, content: &[u8]) -> Result<(), String> {
        let content = std::str::from_utf8(content).map_err(|error| error.to_string())?;
        let lines = &mut Lines::new(content)?;
        let bundles = parts(lines, "case", Bundle::read)?;
        let refused = parts(lines, "refused", Refused::read)?;
        let joined = parts(lines, "join", Joined::read)?;
        let join_refused = parts(lines, "join_refused", JoinRefused::read)?;
        let looks = joined.iter().map(|join| Look::read(lines, join));
        let looks = looks.collect::<Result<Vec<Look>, String>>()?;
        let refused_looks = join_refused
            .iter()
            .map(|join| LookRefused::read(lines, join));
        let refused_looks = refused_looks.collect::<Result<Vec<LookRefused>, String>>()?;
        lines.end()?;
        for part in bundles {
            let numbers = [&part.n, &part.m, &part.groups, &part.length];
            self.bundle(&part.bytes, numbers)?;
        }
        for part in refused {
            self.read_bundle(&part.bytes, Stated::answer(&part.answer))?;
        }
        for (part, look) in joined.iter().zip(&looks) {
            self.join_part(part)?;
            self.look_part(part.lent.each_ref(), look)?;
        }
        for (part, look) in join_refused.iter().zip(&refused_looks) {
            let lent = part.lent.each_ref();
            self.join(lent, part.out, Stated::answer(&part.answer))?;
            self.look(lent, &look.rooms.sizes(), &Stated::answer(&look.answer))?;
        }
        Ok(())
    }
}
