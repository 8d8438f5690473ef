//! Design bytes: the services read and write.

use crate::chip::{Amounts, Columns, Rows};
use crate::design::{
    lawful_block, lawful_height, lawful_kind, lawful_modules, lawful_need, lawful_width, test,
    Design, ALL_ZEROS,
};
use crate::reply::{
    Number, BAD_NUMBER, BYTES_AFTER, BYTES_END, DONE, NOT_FORM_1, OVER_LIMITS, TOO_SHORT,
};
use crate::tree::Standing;

/// The form of design bytes.
const FORM: usize = 1;
/// The greatest value that a number may have.
const GREATEST: usize = 65_535;

/// The number, the position (0 when done) and the design (all zeros when refused).
#[derive(Clone, Copy, Debug, PartialEq, Eq)]
pub struct ReadReply {
    pub number: Number,
    pub position: usize,
    pub design: Design,
}

/// The number and the byte count (0 when refused).
#[derive(Clone, Copy, Debug, PartialEq, Eq)]
pub struct WriteReply {
    pub number: Number,
    pub count: usize,
}

/// A refusal of reading: kind and position together.
struct Refusal {
    number: Number,
    position: usize,
}

/// "The reader keeps its place in the caller's bytes rather than a copy of them."
struct Reader<'a> {
    bytes: &'a [u8],
    place: usize,
}

/// A number read, and the position of its first byte.
struct Read {
    value: usize,
    position: usize,
}

impl Read {
    /// Refuses the number at its first byte unless the rule holds.
    fn unless(&self, rule: bool, number: Number) -> Result<(), Refusal> {
        refuse_unless(rule, number, self.position)
    }
}

fn refuse_unless(rule: bool, number: Number, position: usize) -> Result<(), Refusal> {
    if rule {
        Ok(())
    } else {
        Err(Refusal { number, position })
    }
}

impl Reader<'_> {
    /// "Every number is written in groups of seven bits, low group first, the top bit set on
    /// every byte but the last. Only the shortest form is valid, at most three bytes, value at
    /// most 65,535."
    fn next(&mut self) -> Result<Read, Refusal> {
        let position = self.place;
        let refusal = |number| Refusal { number, position };
        let mut value = 0;
        for group in 0..3 {
            let Some(&byte) = self.bytes.get(position + group) else {
                return Err(refusal(BYTES_END));
            };
            value += usize::from(byte & 0x7f) << (7 * group);
            let is_last = byte & 0x80 == 0;
            if is_last {
                let longer_than_needed = group > 0 && byte == 0;
                if longer_than_needed || value > GREATEST {
                    return Err(refusal(BAD_NUMBER));
                }
                self.place = position + group + 1;
                return Ok(Read { value, position });
            }
        }
        // The third byte still has its top bit.
        Err(refusal(BAD_NUMBER))
    }

    fn form(&mut self) -> Result<(), Refusal> {
        let form = self.next()?;
        form.unless(form.value == FORM, NOT_FORM_1)
    }

    fn chip(&mut self, design: &mut Design) -> Result<(), Refusal> {
        let chip = &mut design.chip;
        let width = self.next()?;
        chip.width = Columns(width.value);
        width.unless(lawful_width(chip.width), OVER_LIMITS)?;
        let height = self.next()?;
        chip.height = Rows(height.value);
        height.unless(lawful_height(chip.height), OVER_LIMITS)?;
        let block = self.next()?;
        chip.block = Rows(block.value);
        block.unless(lawful_block(chip.block, chip.height), OVER_LIMITS)?;
        for x in 0..chip.width.0 {
            let kind = self.next()?;
            kind.unless(lawful_kind(kind.value), OVER_LIMITS)?;
            chip.kinds[x] = kind.value;
        }
        Ok(())
    }

    /// "An all-zero need: its first number." It is known only when all three are read.
    fn need(&mut self) -> Result<Amounts, Refusal> {
        let first = self.next()?;
        let need = Amounts {
            clbs: first.value,
            rams: self.next()?.value,
            multipliers: self.next()?.value,
        };
        first.unless(lawful_need(need), OVER_LIMITS)?;
        Ok(need)
    }

    fn modules(&mut self, design: &mut Design) -> Result<(), Refusal> {
        let modules = self.next()?;
        modules.unless(lawful_modules(modules.value), OVER_LIMITS)?;
        design.modules = modules.value;
        for k in 0..design.modules {
            design.needs[k] = self.need()?;
        }
        Ok(())
    }

    /// Position "6: the length".
    fn tokens(&mut self, design: &mut Design) -> Result<(), Refusal> {
        let mut standing = Standing::new(design.modules);
        for t in 0..2 * design.modules - 1 {
            let Read { value, position } = self.next()?;
            let refusal = |number| Refusal { number, position };
            standing.take(value).map_err(refusal)?;
            design.tokens[t] = value;
        }
        let position = self.bytes.len();
        let refusal = |number| Refusal { number, position };
        standing.end().map_err(refusal)
    }

    /// "Nothing follows." Position "7: the first extra byte".
    fn end(&self) -> Result<(), Refusal> {
        refuse_unless(self.place == self.bytes.len(), BYTES_AFTER, self.place)
    }

    /// "Order: form number 1, W, H, B, W kinds, m, three needs for each module, 2m-1 tokens."
    fn design(&mut self) -> Result<Design, Refusal> {
        let mut design = ALL_ZEROS;
        self.form()?;
        self.chip(&mut design)?;
        self.modules(&mut design)?;
        self.tokens(&mut design)?;
        self.end()?;
        Ok(design)
    }
}

/// The service read.
pub fn read(bytes: &[u8]) -> ReadReply {
    let mut reader = Reader { bytes, place: 0 };
    match reader.design() {
        Ok(design) => ReadReply {
            number: DONE,
            position: 0,
            design,
        },
        Err(refusal) => ReadReply {
            number: refusal.number,
            position: refusal.position,
            design: ALL_ZEROS,
        },
    }
}

/// The shortest form of a number.
fn number_bytes(mut value: usize) -> Vec<u8> {
    let mut bytes = Vec::new();
    while value > 0x7f {
        bytes.push((value & 0x7f) as u8 | 0x80);
        value >>= 7;
    }
    bytes.push(value as u8);
    bytes
}

/// The numbers of a design in file order, form number first. A design past its limits gives as
/// many as its places hold.
pub fn design_numbers(design: &Design) -> Vec<usize> {
    let chip = &design.chip;
    let mut numbers = vec![FORM, chip.width.0, chip.height.0, chip.block.0];
    numbers.extend(chip.kinds.iter().take(chip.width.0));
    numbers.push(design.modules);
    for need in design.needs.iter().take(design.modules) {
        numbers.extend([need.clbs, need.rams, need.multipliers]);
    }
    let token_count = (2 * design.modules).saturating_sub(1);
    numbers.extend(design.tokens.iter().take(token_count));
    numbers
}

/// The bytes of some numbers, one after another.
pub fn numbers_bytes(numbers: &[usize]) -> Vec<u8> {
    numbers.iter().flat_map(|&n| number_bytes(n)).collect()
}

/// The service write: 4, 5 or 6, then 8, "otherwise the byte count, bytes past it staying".
pub fn write(design: &Design, out: &mut [u8]) -> WriteReply {
    if let Err(number) = test(design) {
        return WriteReply { number, count: 0 };
    }
    let bytes = numbers_bytes(&design_numbers(design));
    let count = bytes.len();
    if out.len() < count {
        return WriteReply {
            number: TOO_SHORT,
            count: 0,
        };
    }
    out[..count].copy_from_slice(&bytes);
    WriteReply {
        number: DONE,
        count,
    }
}
