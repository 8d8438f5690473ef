//! What the numbers of a design are called, in the order of the bytes (docs/FORMAT.md).

/// A number of a design, or what follows the last.
#[derive(Clone, Copy, Debug, PartialEq, Eq)]
pub enum Field {
    Form,
    Width,
    Height,
    Block,
    Kind(usize),
    Modules,
    Need { module: usize, of: &'static str },
    Token { first_is_1: usize, count: usize },
    After,
}

impl Field {
    pub fn name(self) -> String {
        match self {
            Field::Form => "form number".into(),
            Field::Width => "W, columns".into(),
            Field::Height => "H, rows".into(),
            Field::Block => "B, rows of a block".into(),
            Field::Kind(x) => format!("kind of column {x}"),
            Field::Modules => "m, modules".into(),
            Field::Need { module, of } => format!("need of module {module}, {of}"),
            Field::Token { first_is_1, count } => format!("token {first_is_1} of {count}"),
            Field::After => "after the last token".into(),
        }
    }
}

/// All numbers of a design with W columns and m modules, in order. What follows them is `After`.
pub fn fields(width: usize, modules: usize) -> Vec<Field> {
    let mut all = vec![Field::Form, Field::Width, Field::Height, Field::Block];
    all.extend((0..width).map(Field::Kind));
    all.push(Field::Modules);
    for module in 0..modules {
        for of in ["CLBs", "RAMs", "multipliers"] {
            all.push(Field::Need { module, of });
        }
    }
    let count = (2 * modules).saturating_sub(1);
    for first_is_1 in 1..=count {
        all.push(Field::Token { first_is_1, count });
    }
    all
}

/// A number as it stands in the bytes: its place, its end, and its value unless it is refused.
#[derive(Clone, Copy, Debug)]
pub struct Item {
    pub start: usize,
    pub end: usize,
    pub value: Option<usize>,
}

/// Takes the number that starts at a place. A refused one has no value, and ends after its first byte.
pub fn item(bytes: &[u8], start: usize) -> Item {
    let mut value = 0;
    for (i, &byte) in bytes[start..].iter().take(3).enumerate() {
        value += usize::from(byte & 0x7f) << (7 * i);
        if byte < 0x80 {
            let shortest = i == 0 || byte != 0;
            if shortest && value <= 65_535 {
                let end = start + i + 1;
                return Item {
                    start,
                    end,
                    value: Some(value),
                };
            }
            break;
        }
    }
    Item {
        start,
        end: start + 1,
        value: None,
    }
}

/// The numbers of the bytes up to the first that is refused.
pub fn values(bytes: &[u8]) -> Vec<Item> {
    let mut all = Vec::new();
    let mut place = 0;
    while place < bytes.len() {
        let next = item(bytes, place);
        if next.value.is_none() {
            break;
        }
        place = next.end;
        all.push(next);
    }
    all
}

/// The names of the numbers of these bytes, by the W and the m in them; without one, as if it were 0.
/// Past a W over its limit no m is looked for.
pub fn fields_of(bytes: &[u8]) -> Vec<Field> {
    let numbers = values(bytes);
    let value = |i: usize| numbers.get(i).and_then(|n| n.value).unwrap_or(0);
    let width = value(1);
    if width > crate::chip::MOST_COLUMNS {
        return fields(width, 0);
    }
    fields(width, value(4 + width))
}

/// The name of number i, counted from 0.
pub fn field(names: &[Field], i: usize) -> Field {
    names.get(i).copied().unwrap_or(Field::After)
}
