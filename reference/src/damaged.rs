//! Designs as a tired hand would type them: many inputs for `says` and `hexes`, each with its length in two bytes before it.

/// D of document 01.
const D: [u8; 19] = [1, 5, 6, 3, 0, 1, 2, 0, 0, 2, 2, 1, 0, 3, 0, 1, 2, 3, 0];
/// The pad kit of docs/EXAMPLES.md: W 12, H 8, B 2, four modules.
const KIT: [u8; 36] = [
    1, 12, 8, 2, 0, 0, 1, 0, 0, 2, 0, 0, 1, 0, 0, 0, 4, 10, 0, 1, 10, 0, 1, 14, 1, 0, 6, 4, 0, 5, 2, 3, 1, 0,
    4, 0,
];

/// A design with the numbers from one position to another taken out and others put there.
fn with(design: &[u8], from: usize, to: usize, others: &[u8]) -> Vec<u8> {
    [&design[..from], others, &design[to..]].concat()
}

/// Every byte of a design left out, cut off at, raised, lowered, doubled, with its top bit set, in a longer form.
fn each_byte(design: &[u8]) -> Vec<Vec<u8>> {
    let mut all = vec![design.to_vec()];
    for (i, &b) in design.iter().enumerate() {
        all.push(design[..i].to_vec());
        all.push(with(design, i, i + 1, &[]));
        all.push(with(design, i, i + 1, &[b.wrapping_add(1)]));
        all.push(with(design, i, i + 1, &[b.wrapping_sub(1)]));
        all.push(with(design, i, i + 1, &[b, b]));
        all.push(with(design, i, i + 1, &[b | 0x80]));
        all.push(with(design, i, i + 1, &[b | 0x80, 0]));
    }
    all
}

/// Neighbours exchanged among the tokens, which begin at a position; and cuts or modules that are too early or none.
fn tokens(design: &[u8], first: usize) -> Vec<Vec<u8>> {
    let mut all = Vec::new();
    for i in first..design.len() - 1 {
        all.push(with(design, i, i + 2, &[design[i + 1], design[i]]));
    }
    for i in first..design.len() {
        for token in [0, 1, 2, 3, 5, 6, 17, 18, 127] {
            all.push(with(design, i, i + 1, &[token]));
        }
    }
    all
}

/// Numbers at and past their limits, in one, two and three bytes.
fn limits() -> Vec<Vec<u8>> {
    let numbers: [&[u8]; 9] = [
        &[0],
        &[16],
        &[17],
        &[64],
        &[65],
        &[0xff, 0x01],
        &[0xff, 0xff, 0x03],
        &[0x80, 0x80, 0x04],
        &[0x80, 0x80, 0x80],
    ];
    let mut all = Vec::new();
    for i in [0, 1, 2, 3, 5, 9, 10, 12, 14, 16] {
        for number in numbers {
            all.push(with(&D, i, i + 1, number));
        }
        all.push(with(&D, i, i + 1, &[0x80, 0x80, 0]));
        all.push([&D[..i], &[0xff]].concat());
        all.push([&D[..i], &[0xff, 0xff]].concat());
    }
    all.push(with(&D, 13, 16, &[0, 0, 0]));
    all.push(with(&D, 10, 13, &[0, 0, 0]));
    all
}

/// Chips with too little of some kinds, with enough that lies wrong, and too large for the plan program's work.
fn unplaced() -> Vec<Vec<u8>> {
    let one_module = |w: u8, h: u8| {
        let kinds = vec![0; usize::from(w)];
        [&[1, w, h, 1], &kinds[..], &[1, 3, 0, 0, 2]].concat()
    };
    vec![
        with(&D, 10, 13, &[2, 3, 0]),
        with(&D, 13, 16, &[3, 0, 5]),
        with(&D, 10, 16, &[40, 3, 9, 3, 0, 1]),
        with(&D, 10, 16, &[40, 0, 0, 0xff, 0xff, 0x03, 0, 0]),
        with(&D, 10, 16, &[2, 2, 0, 3, 0, 2]),
        with(&D, 10, 16, &[9, 0, 0, 9, 0, 0]),
        with(&KIT, 27, 28, &[5]),
        with(&KIT, 19, 20, &[2]),
        with(&KIT, 19, 20, &[4]),
        with(&KIT, 17, 18, &[40]),
        one_module(64, 64),
        one_module(64, 17),
        one_module(64, 16),
        one_module(41, 39),
        one_module(40, 40),
    ]
}

/// Text in place of bytes.
fn texts() -> Vec<Vec<u8>> {
    let of = |text: &str| text.as_bytes().to_vec();
    vec![
        of("01 05 06 03 00 01 02 00 00 02 02 01 00 03 00 01 02 03 00"),
        of("01 05 06 03  # sizes\n00 01 02 00 00\r\n\t02 02 01 00 03 00 01  # two modules\n02 03 00\n"),
        of("0105060300010200000202010003000102 0300"),
        of("AB cd Ef\n"),
        of("# nothing but a comment: zzz\n01"),
        of("# nothing but a comment\n"),
        of("\n\n"),
        of(" "),
        of("01 05 0g"),
        of("0x01 0x05"),
        of("01 05 6\n03"),
        of("01\n05\n06 0"),
        of("01 05 # six\n0 6 03"),
        of("01, 05, 06"),
        of("01 05\n06 \u{e9}"),
        of("1"),
        of("plan 0 4 3\n"),
    ]
}

fn with_length(input: &[u8]) -> Vec<u8> {
    [&(input.len() as u16).to_le_bytes()[..], input].concat()
}

fn all() -> Vec<Vec<u8>> {
    let mut all = each_byte(&D);
    all.extend(each_byte(&KIT));
    all.extend(tokens(&D, 16));
    all.extend(tokens(&KIT, 29));
    all.extend(limits());
    all.extend(unplaced());
    all.extend(texts());
    all.push([&D[..], &[0; 300]].concat());
    all
}

/// Inputs for `says`.
pub fn designs() -> Vec<u8> {
    all().iter().flat_map(|input| with_length(input)).collect()
}

/// Inputs for `hexes`: some of the same as text, in lines of seven bytes with a comment at times, and the texts.
pub fn typed() -> Vec<u8> {
    let as_text = |bytes: &Vec<u8>| {
        let mut text = String::new();
        for (i, line) in bytes.chunks(7).enumerate() {
            let digits = |b: &u8| {
                if i % 2 == 0 {
                    format!("{b:02x}")
                } else {
                    format!(" {b:02X}")
                }
            };
            text += &line.iter().map(digits).collect::<String>();
            text += if i % 3 == 0 { "#line\n" } else { " \r\n" };
        }
        text.into_bytes()
    };
    let mut all: Vec<Vec<u8>> = all().iter().step_by(9).map(as_text).collect();
    all.extend(texts());
    all.iter().flat_map(|input| with_length(input)).collect()
}
