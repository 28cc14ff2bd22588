//! The entry write package: the file of packages, and the packages that check
//! files begin with, written again.

use super::calls::{Comparison, Stated};
use super::list::List;
use super::text::{Form, Lines};
use crate::case::Taken;
use crate::entries::keyed::{numbers, sizes, Keyed};
use crate::entries::package_field::LENGTH;
use crate::entries::readers::SERIAL;
use crate::entries::write::{outputs, WritePackage, OUT};
use crate::named::Named;
use crate::slices::{A, H, T, X, Y};

/// The name of the file.
pub const NAME: &str = "write.txt";

/// The name of the entry.
const WRITE: &str = "write package";

/// The bytes by which the output of a call is longer than the package.
const REST: usize = 9;

/// What is lent for a package, but for the output.
struct Inputs {
    n: List,
    m: List,
    slices: Named<List>,
    serial: List,
}

/// A part of the file with a package.
struct Written {
    inputs: Inputs,
    length: List,
    package: List,
    /// The answer where the output has a byte less.
    short: List,
}

/// A part of the file with a refusal.
struct Refused {
    inputs: Inputs,
    /// The length of the output that is lent.
    out: usize,
    answer: List,
}

impl Written {
    /// The next part.
    fn read(lines: &mut Lines) -> Result<Written, String> {
        lines.part("case")?;
        let n = lines.single("n", 1, Form::Small)?;
        let m = lines.single("m", 1, Form::Small)?;
        let [columns, rows] = [n.value(0), m.value(0)];
        let d = sizes(columns, rows).d;
        let h = lines.numbered("h", rows, columns, Form::F)?;
        let x = lines.single("x", columns, Form::F)?;
        let y = lines.single("y", rows, Form::F)?;
        let serial = lines.single("serial", 1, Form::Decimal)?;
        let t = lines.numbered("t", columns, d, Form::Small)?;
        let a = lines.numbered("a", d, 1, Form::K)?;
        let slices = Named::from([(H, h), (X, x), (Y, y), (T, t), (A, a)]);
        Ok(Written {
            inputs: Inputs {
                n,
                m,
                slices,
                serial,
            },
            length: lines.single("length", 1, Form::Decimal)?,
            package: lines.bytes("package")?,
            short: lines.single("short_answer", 1, Form::Decimal)?,
        })
    }
}

impl Refused {
    /// The next part.
    fn read(lines: &mut Lines) -> Result<Refused, String> {
        lines.part("refused")?;
        let n = lines.single("n", 1, Form::Decimal)?;
        let m = lines.single("m", 1, Form::Decimal)?;
        let h = lines.lent("h_length", "h_words", Form::F)?;
        let x = lines.lent("x_length", "x_words", Form::F)?;
        let y = lines.lent("y_length", "y_words", Form::F)?;
        let serial = lines.single("serial", 1, Form::Decimal)?;
        let t = lines.lent("t_length", "t_bytes", Form::Small)?;
        let a = lines.lent("a_length", "a_words", Form::F)?;
        let slices = Named::from([(H, h), (X, x), (Y, y), (T, t), (A, a)]);
        Ok(Refused {
            inputs: Inputs {
                n,
                m,
                slices,
                serial,
            },
            out: lines.number("out_length")?,
            answer: lines.single("answer", 1, Form::Decimal)?,
        })
    }
}

impl Inputs {
    /// The sizes n and m.
    fn sizes(&self) -> [usize; 2] {
        [self.n.value(0), self.m.value(0)]
    }

    /// The slices by their names.
    fn slices(&self) -> Named<&List> {
        self.slices.iter().collect()
    }
}

impl Comparison<'_> {
    /// What write package takes.
    fn write_call(&mut self, [n, m]: [usize; 2], slices: &Named<&List>, serial: &List) -> Taken {
        let mut numbers = numbers(sizes(n, m));
        numbers.push(SERIAL, serial.value(0));
        let inputs = WritePackage::inputs().into_iter().map(|slice| {
            let list = slices[slice.name];
            let lent = match slice.elements.are_words() {
                true => self.words(list),
                false => self.bytes(list),
            };
            (slice.name, lent)
        });
        let inputs = inputs.collect();
        Taken { numbers, inputs }
    }

    /// The entry write package, with the bytes and the length that it writes, in
    /// an output that is so many bytes longer.
    fn written(
        &mut self,
        taken: Taken,
        package: &List,
        length: &List,
        rest: usize,
    ) -> Result<(), String> {
        let out = outputs(package.len() + rest, self.generator);
        let stated = Stated::outputs([(OUT, package), (LENGTH, length)]);
        self.call(WRITE, taken, out, stated)?;
        Ok(())
    }

    /// Writes the package of a file again: with the slices and the serial that it
    /// has, its bytes.
    pub fn written_again(
        &mut self,
        sizes: [usize; 2],
        slices: &Named<&List>,
        serial: &List,
        package: &List,
    ) -> Result<(), String> {
        // No line states the length.
        let mut length = package.part(0, 1);
        length.words[0].value = package.len() as u64;
        let taken = self.write_call(sizes, slices, serial);
        let rest = self.generator.below(REST);
        self.written(taken, package, &length, rest)
    }

    /// A refused call, with an output of this length.
    fn write_refused(&mut self, inputs: &Inputs, out: usize, answer: &List) -> Result<(), String> {
        let taken = self.write_call(inputs.sizes(), &inputs.slices(), &inputs.serial);
        let out = outputs(out, self.generator);
        self.call(WRITE, taken, out, Stated::answer(answer))?;
        Ok(())
    }

    /// A package of the file: in an output of its length and in a longer one,
    /// refused in a shorter one, read, and as a bundle.
    fn package(&mut self, part: &Written) -> Result<(), String> {
        let Written {
            inputs,
            length,
            package,
            short,
        } = part;
        if length.value(0) != package.len() {
            let found = package.len();
            return Err(format!(
                "{}: the package has {found} bytes",
                length.place(0)
            ));
        }
        for rest in [0, REST] {
            let taken = self.write_call(inputs.sizes(), &inputs.slices(), &inputs.serial);
            self.written(taken, package, length, rest)?;
        }
        self.write_refused(inputs, package.len() - 1, short)?;
        self.read(
            "read package",
            package,
            [&inputs.n, &inputs.m, &inputs.serial],
        )?;
        self.package_as_bundle(package, &inputs.n, &inputs.m)
    }

    /// The file of packages: parts with a package, then parts with a refusal, at
    /// least one of each.
    pub fn writes(&mut self, content: &[u8]) -> Result<(), String> {
        let content = std::str::from_utf8(content).map_err(|error| error.to_string())?;
        let lines = &mut Lines::new(content)?;
        let mut written = Vec::new();
        while written.is_empty() || lines.next_name() == Some("case") {
            written.push(Written::read(lines)?);
        }
        let mut refused = Vec::new();
        while refused.is_empty() || lines.next_name().is_some() {
            refused.push(Refused::read(lines)?);
        }
        for part in written {
            self.package(&part)?;
        }
        for Refused {
            inputs,
            out,
            answer,
        } in refused
        {
            self.write_refused(&inputs, out, &answer)?;
        }
        Ok(())
    }
}
