//! Throughput of encoding_rs, the browsers' decoder, in pieces of 4,096 bytes.
//!
//! peer FROM TO ROUNDS FILE    transcodes FILE so many times; one of the two labels is utf-8
//! peer text FROM TO FILE       writes what FILE is transcoded to, with references for what TO lacks
//! peer make LABEL             makes a corpus in LABEL, on standard output, of UTF-8 on standard input
use encoding_rs::{Encoding, UTF_8};
use std::io::{Read, Write};
use std::time::Instant;

const PIECE: usize = 4096;

fn main() {
    let words: Vec<String> = std::env::args().collect();
    match words.iter().map(String::as_str).collect::<Vec<_>>()[..] {
        [_, "make", label] => make(label),
        [_, "text", from, to, file] => write(from, to, file),
        [_, from, to, rounds, file] => measure(from, to, rounds.parse().expect("a number of rounds"), file),
        _ => panic!("usage: peer FROM TO ROUNDS FILE, peer text FROM TO FILE, or: peer make LABEL"),
    }
}

fn encoding(label: &str) -> &'static Encoding {
    Encoding::for_label(label.as_bytes()).expect("a label")
}

fn write(from: &str, to: &str, file: &str) {
    let bytes = std::fs::read(file).expect("a file");
    let (text, _, _) = encoding(from).decode(&bytes);
    let written = encoding(to).encode(&text).0;
    std::io::stdout().write_all(&written).expect("an output");
}

fn make(label: &str) {
    let mut text = String::new();
    std::io::stdin().read_to_string(&mut text).expect("UTF-8");
    let bytes = match label {
        "utf-16le" => text.encode_utf16().flat_map(u16::to_le_bytes).collect(),
        "utf-16be" => text.encode_utf16().flat_map(u16::to_be_bytes).collect(),
        _ => encoding(label).encode(&text).0.into_owned(),
    };
    std::io::stdout().write_all(&bytes).expect("an output");
}

fn measure(from: &str, to: &str, rounds: usize, file: &str) {
    let (from, to) = (encoding(from), encoding(to));
    let bytes = std::fs::read(file).expect("a file");
    let mut out = vec![0; 10 * bytes.len() + 64];
    let mut written = 0;
    let best = (0..rounds.max(1))
        .map(|_| {
            let start = Instant::now();
            written = if to == UTF_8 { decode(from, &bytes, &mut out) } else { encode(to, &bytes, &mut out) };
            start.elapsed()
        })
        .min()
        .expect("a round");
    println!("{} bytes, {written} written", bytes.len());
    eprintln!("{} ns, {} MB/s", best.as_nanos(), bytes.len() as u128 * 1000 / (best.as_nanos() + 1));
}

fn decode(from: &'static Encoding, bytes: &[u8], out: &mut [u8]) -> usize {
    let mut decoder = from.new_decoder();
    let (mut at, mut written) = (0, 0);
    while at < bytes.len() {
        let end = (at + PIECE).min(bytes.len());
        let (_, read, more, _) = decoder.decode_to_utf8(&bytes[at..end], &mut out[written..], end == bytes.len());
        at += read;
        written += more;
    }
    written
}

fn encode(to: &'static Encoding, bytes: &[u8], out: &mut [u8]) -> usize {
    let text = std::str::from_utf8(bytes).expect("UTF-8");
    let mut encoder = to.new_encoder();
    let (mut at, mut written) = (0, 0);
    while at < text.len() {
        let mut end = (at + PIECE).min(text.len());
        while !text.is_char_boundary(end) {
            end -= 1;
        }
        let (_, read, more, _) = encoder.encode_from_utf8(&text[at..end], &mut out[written..], end == text.len());
        at += read;
        written += more;
    }
    written
}
