//! Makes the byte strings of crates/enc_tests/src/strings.rt, decoded and encoded by encoding_rs (the implementation
//! of the Encoding Standard in Firefox; Debian's librust-encoding-rs-dev, 0.8.31).
//!
//! `cargo build --release --offline` builds it.
//!
//! usage: strings SEED     prints the table: for each encoding twelve strings that are decoded, four of which begin
//!                         with a byte order mark or a part of one, and for each that texts are stored in twelve that
//!                         are encoded
//!        strings check    reads such lines from standard input, and fails where encoding_rs answers otherwise
use encoding_rs::Encoding;
use std::io;

const NAMES: [&str; 21] = [
    "UTF-8", "UTF-16BE", "UTF-16LE", "Shift_JIS", "EUC-JP", "ISO-2022-JP", "IBM866", "ISO-8859-2", "ISO-8859-5",
    "ISO-8859-15", "KOI8-R", "macintosh", "windows-1250", "windows-1251", "windows-1252", "windows-1253",
    "windows-1254", "windows-1255", "windows-1256", "windows-1257", "windows-1258",
];

const MARKS: [&[u8]; 4] = [b"\xEF\xBB\xBF", b"\xFE\xFF", b"\xFF\xFE", b"\xEF\xBB"];

/// Characters at which encoders differ: those that stand for one another, that two pointers have, that are private,
/// that escape, and that few encodings have.
const CHARACTERS: &str = "aZ \u{5C}\u{7E}\u{0E}\u{1B}\u{80}\u{A5}\u{E9}\u{203E}\u{20AC}\u{2212}\u{FF0D}\u{3000}\u{3042}\
    \u{30A2}\u{65E5}\u{672C}\u{4E9C}\u{4E02}\u{7E8A}\u{FF61}\u{FF71}\u{FF9F}\u{E000}\u{E757}\u{429}\u{44F}\u{3A9}\
    \u{5D0}\u{628}\u{105}\u{2116}\u{FFFD}\u{1F600}\u{10FFFF}";

/// Numbers by xorshift, the same for each seed.
struct Numbers(u64);

impl Numbers {
    fn below(&mut self, end: usize) -> usize {
        self.0 ^= self.0 << 13;
        self.0 ^= self.0 >> 7;
        self.0 ^= self.0 << 17;
        (self.0 % end as u64) as usize
    }

    fn one_of<'a, T: ?Sized>(&mut self, all: &[&'a T]) -> &'a T {
        all[self.below(all.len())]
    }
}

/// Parts at which decoders differ: whole characters, leads without trails, trails alone, escapes.
fn parts_of(name: &str) -> &'static [&'static [u8]] {
    match name {
        "UTF-8" => &[
            b"a", b"\x80", b"\xBF", b"\xC1", b"\xC2\xA2", b"\xE0\xA0\x80", b"\xE0\x80", b"\xE2\x82", b"\xED\xA0\x80",
            b"\xEF\xBF\xBD", b"\xF0\x9F\x98\x80", b"\xF0\x90", b"\xF4\x90\x80", b"\xF4\x8F\xBF\xBF", b"\xF5", b"\xFF",
        ],
        "UTF-16BE" => &[
            b"\0a", b"\x30\x42", b"\xD8\x3D", b"\xDE\0", b"\xD8\x3D\xDE\0", b"\0", b"\x04\x16", b"\xFF\xFF",
        ],
        "UTF-16LE" => &[
            b"a\0", b"\x42\x30", b"\x3D\xD8", b"\0\xDE", b"\x3D\xD8\0\xDE", b"\0", b"\x16\x04", b"\xFF\xFF",
        ],
        "Shift_JIS" => &[
            b"a", b"\x80", b"\xA0", b"\xA1", b"\xDF", b"\x82\xA0", b"\x93\xFA", b"\x81", b"\x82 ", b"\xEF\xFC",
            b"\xF0\x40", b"\xF9\xFC", b"\xFA\x40", b"\xFA\x5C", b"\xFC\xFC", b"\xFD", b"\x85\x40",
        ],
        "EUC-JP" => &[
            b"a", b"\x8E", b"\x8E\xB1", b"\x8E\xE0", b"\x8F", b"\x8F\xB0\xA1", b"\x8F\xA1", b"\x8FA", b"\xA4\xA2",
            b"\xB0\xA1", b"\xA1", b"\xB0 ", b"\xFE\xFE", b"\xF9\xA1", b"\xA0", b"\xFF", b"\x80",
        ],
        "ISO-2022-JP" => &[
            b"a", b"\x5C", b"\x7E", b"\x0E", b"\x80", b"\x1B$B", b"\x1B$@", b"\x1B(J", b"\x1B(I", b"\x1B(B", b"\x1B$",
            b"\x1B(", b"\x1B", b"$\"", b"F|", b"\x21\x21", b"\x7E", b"\x5F", b"\x60", b"\n",
        ],
        _ => &[b"a", b"~", b"\x80", b"\x8D", b"\xA0", b"\xA5", b"\xC0", b"\xD0", b"\xDF", b"\xE9", b"\xF0", b"\xFF"],
    }
}

fn some_bytes(numbers: &mut Numbers, name: &str, mark: &[u8]) -> Vec<u8> {
    let mut bytes = mark.to_vec();
    for _ in 0..1 + numbers.below(16) {
        match numbers.below(8) {
            0 => bytes.push(numbers.below(256) as u8),
            _ => bytes.extend_from_slice(numbers.one_of(parts_of(name))),
        }
    }
    bytes
}

fn some_text(numbers: &mut Numbers) -> String {
    let characters: Vec<char> = CHARACTERS.chars().collect();
    (0..1 + numbers.below(12)).map(|_| characters[numbers.below(characters.len())]).collect()
}

fn is_marked(bytes: &[u8]) -> bool {
    MARKS[..3].iter().any(|it| bytes.starts_with(it))
}

/// What the bytes of a line give.
fn answer(direction: &str, name: &str, bytes: &[u8]) -> Vec<u8> {
    let encoding = Encoding::for_label(name.as_bytes()).expect("a label");
    match direction {
        "decode" => encoding.decode(bytes).0.into_owned().into_bytes(),
        _ => encoding.encode(std::str::from_utf8(bytes).expect("UTF-8")).0.into_owned(),
    }
}

fn hex(bytes: &[u8]) -> String {
    bytes.iter().map(|it| format!("{it:02x}")).collect()
}

fn bytes_of(digits: &str) -> Vec<u8> {
    let pair = |at: usize| u8::from_str_radix(&digits[at..at + 2], 16).expect("hexadecimal digits");
    (0..digits.len()).step_by(2).map(pair).collect()
}

/// What folds a line within a string of Rattle.
const FOLD: &str = "\\\n    ";

/// A line in parts of at most 120 columns. None begins with a space, which would be lost.
fn folded(line: &str) -> String {
    let (mut rest, mut all, mut room) = (line, String::new(), 119);
    while rest.len() > room + 1 {
        let at = rest[..=room].rfind(|it| it != ' ').expect("digits");
        all = all + &rest[..at] + FOLD;
        rest = &rest[at..];
        room = 115;
    }
    all + rest
}

fn print(direction: &str, name: &str, bytes: &[u8]) {
    let line = format!("{direction} {name} {} {}", hex(bytes), hex(&answer(direction, name, bytes)));
    println!("{}", folded(&line));
}

fn make(seed: u64) {
    let mut numbers = Numbers(seed);
    for name in NAMES {
        for mark in MARKS {
            print("decode", name, &some_bytes(&mut numbers, name, mark));
        }
        let mut made = 0;
        while made < 8 {
            let bytes = some_bytes(&mut numbers, name, b"");
            if !is_marked(&bytes) {
                print("decode", name, &bytes);
                made += 1;
            }
        }
        for _ in 0..if name.starts_with("UTF-16") { 0 } else { 12 } {
            print("encode", name, some_text(&mut numbers).as_bytes());
        }
    }
}

fn check() -> bool {
    let mut is_right = true;
    let text = io::read_to_string(io::stdin()).expect("UTF-8").replace(FOLD, "");
    for line in text.lines() {
        let words: Vec<&str> = line.trim_end_matches('\\').split(' ').collect();
        if let [direction @ ("decode" | "encode"), name, input, output] = words[..] {
            let wanted = hex(&answer(direction, name, &bytes_of(input)));
            if wanted != output.to_lowercase() {
                println!("{line}: {wanted}");
                is_right = false;
            }
        }
    }
    is_right
}

fn main() {
    let word = std::env::args().nth(1).expect("usage: strings SEED | strings check");
    if word == "check" {
        std::process::exit(if check() { 0 } else { 1 });
    }
    make(word.parse().expect("a number"));
}
