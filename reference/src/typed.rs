//! Bytes typed as hexadecimal text, and back (docs/FORMAT.md, "In five minutes").

use crate::fields::{field, fields_of, item, Field};

/// A text without its comments, in lines.
fn lines(text: &[u8]) -> impl Iterator<Item = &[u8]> {
    text.split(|&b| b == b'\n')
        .map(|line| line.split(|&b| b == b'#').next().expect("a first part"))
}

fn is_space(b: &u8) -> bool {
    matches!(b, b' ' | b'\t' | b'\r')
}

/// Digits, with spaces, line breaks and comments; at least one digit.
pub fn is_typed(text: &[u8]) -> bool {
    let all = lines(text).all(|line| line.iter().all(|b| is_space(b) || b.is_ascii_hexdigit()));
    all && lines(text).any(|line| line.iter().any(u8::is_ascii_hexdigit))
}

/// Text that a person can read, with letters of any language behind the first.
pub fn is_text(bytes: &[u8]) -> bool {
    let readable = |b: &u8| !b.is_ascii_control() || b"\t\n\r".contains(b);
    bytes.first().is_some_and(u8::is_ascii) && bytes.iter().all(readable)
}

/// The bytes of a text, or what is wrong with it: of two mistakes the one that stands first.
pub fn turned(text: &[u8]) -> Result<Vec<u8>, String> {
    let mut bytes = Vec::new();
    for (i, line) in lines(text).enumerate() {
        for word in line.split(is_space) {
            let digits = word.iter().take_while(|b| b.is_ascii_hexdigit()).count();
            if digits < word.len() {
                let b = word[digits];
                let shown = match b {
                    b'!'..=b'~' => char::from(b).to_string(),
                    _ => format!("byte {b:02x}"),
                };
                return Err(format!("line {}: {shown} is no hexadecimal digit", i + 1));
            }
            if digits % 2 == 1 {
                let wrong = "an odd digit; a byte is two digits with nothing between";
                return Err(format!("line {}: {wrong}", i + 1));
            }
            for pair in word.chunks(2) {
                let pair = std::str::from_utf8(pair).expect("digits");
                bytes.push(u8::from_str_radix(pair, 16).expect("two digits"));
            }
        }
    }
    Ok(bytes)
}

/// The bytes as text, a line for each number.
pub fn back(bytes: &[u8]) -> String {
    let names = fields_of(bytes);
    let mut text = String::new();
    let mut place = 0;
    let mut index = 0;
    while place < bytes.len() {
        let number = item(bytes, place);
        let name = field(&names, index);
        for b in &bytes[place..number.end] {
            text += &format!("{b:02x}");
        }
        let said = number.value.map_or("no whole number".into(), |v| said(name, v));
        text += &format!("  # {}: {said}\n", name.name());
        index += usize::from(number.value.is_some());
        place = number.end;
    }
    text
}

fn said(name: Field, value: usize) -> String {
    match (name, value) {
        (Field::Kind(_), 0) => "CLB".into(),
        (Field::Kind(_), 1) => "RAM".into(),
        (Field::Kind(_), 2) => "multiplier".into(),
        (Field::Token { .. }, 0) => "a vertical cut".into(),
        (Field::Token { .. }, 1) => "a horizontal cut".into(),
        (Field::Token { .. }, _) => format!("module {}", value - 2),
        _ => value.to_string(),
    }
}

/// For a text: what is wrong with it; or its bytes as text, and whether turning that gives them again.
pub fn round_trip(text: &[u8]) -> String {
    match turned(text) {
        Err(wrong) => format!("{wrong}\n"),
        Ok(bytes) => {
            let again = back(&bytes);
            let same = turned(again.as_bytes()) == Ok(bytes);
            format!("{again}{}\n", if same { "same" } else { "different" })
        }
    }
}

/// What the program `hex` writes: d and the bytes, or r and what is wrong.
pub fn hex_program(text: &[u8]) -> Vec<u8> {
    match turned(text) {
        Ok(bytes) => [b"d", &bytes[..]].concat(),
        Err(wrong) => format!("r{wrong}\n").into_bytes(),
    }
}

/// What the program `hex_back` writes: d and the text.
pub fn hex_back_program(bytes: &[u8]) -> Vec<u8> {
    format!("d{}", back(bytes)).into_bytes()
}
