//! Streams for the program `node`: the example of docs/SCOPE.md cut and changed at every place, and seeded ones, good ones,
//! good ones with up to three things wrong, and random bytes.

use crate::records::{self, FLOOR, LIMIT, MODE, NB, NCOL, NROW, PANEL, SECOND};
use oracle::case::*;
use oracle::random::{self, Bounds, Rng};

type Stream = Vec<u8>;

/// Every beginning of the example, every bit of it the other way, every byte of it another.
pub fn example(each: &mut dyn FnMut(Stream)) {
    let example = records::example();
    (0..=example.len()).for_each(|n| each(example[..n].to_vec()));
    for at in 0..example.len() {
        let bits = (0..8).map(|bit| example[at] ^ 1 << bit);
        for byte in bits.chain([0, 1, 3, 15, 17, 64, 65, 0x7F, 0x80, 0xFF]) {
            let mut stream = example.clone();
            stream[at] = byte;
            each(stream);
        }
    }
}

/// A seeded stream.
pub fn seeded(rng: &mut Rng) -> Stream {
    if rng.once_in(16) {
        return noise(rng);
    }
    let mut stream = good(rng);
    let wrong = [0, 1, 1, 1, 2, 3][rng.within(0, 5)];
    (0..wrong).for_each(|_| spoil(rng, &mut stream));
    stream
}

fn bytes(rng: &mut Rng, n: usize) -> Stream {
    (0..n).map(|_| rng.next() as u8).collect()
}

/// Random bytes; some begin as a record does.
fn noise(rng: &mut Rng) -> Stream {
    let begin = rng.one_of(&[&[][..], &[20, 0, 0, 0], &[20, 0, 0, 0, 1, 0], &[0xFF, 0xFF, 0xFF, 0xFF, 1, 0]]);
    let n = rng.within(0, 80);
    [begin, &bytes(rng, n)].concat()
}

/// The records of a factor call that the program takes; small as a rule.
fn good(rng: &mut Rng) -> Stream {
    let bounds = match rng.within(0, 31) {
        0 => Bounds { max_col: 16, max_row: 64 },
        1..=5 => Bounds { max_col: 8, max_row: 16 },
        _ => Bounds { max_col: 3, max_row: 6 },
    };
    let Some(Case::Factor(mut f)) = random::case(rng, "factor", bounds) else { unreachable!() };
    f.settings.nb = f.settings.nb.min(16);
    random::upper_payloads(rng, f.settings.nrow.max(1), &mut f.panel);
    let unread = (rng.next() as u16, f64::from_bits(rng.next()));
    [records::first(&f.settings, unread), records::second(&f.panel)].concat()
}

// ---- one thing wrong

fn spoil(rng: &mut Rng, stream: &mut Stream) {
    match rng.within(0, 11) {
        0 => flip_bits(rng, stream),
        1 => cut(rng, stream),
        2 => extend(rng, stream),
        3 => field(rng, stream),
        4 => resize(rng, stream),
        5 => length(rng, stream),
        6 => kind(rng, stream),
        7 => put_floor(rng, stream),
        8 => put_number(rng, stream),
        9 => rearrange(rng, stream),
        10 => shift(rng, stream),
        _ => overwrite(rng, stream),
    }
}

/// Bytes written over a place, as far as the stream goes.
fn put(stream: &mut [u8], at: usize, bytes: &[u8]) {
    stream.iter_mut().skip(at).zip(bytes).for_each(|(to, from)| *to = *from);
}

/// Up to four bits, anywhere or in what stands before the panel.
fn flip_bits(rng: &mut Rng, stream: &mut [u8]) {
    let until = if rng.once_in(2) { stream.len() } else { stream.len().min(PANEL) };
    for _ in 0..rng.within(1, 4) {
        if until > 0 {
            stream[rng.within(0, until - 1)] ^= 1 << rng.within(0, 7);
        }
    }
}

/// Cut short: anywhere, at the end, by the ends of fields and records.
fn cut(rng: &mut Rng, stream: &mut Stream) {
    let by = [0, 3, 4, 5, 6, FLOOR, SECOND - 1, SECOND, SECOND + 1, SECOND + 4, PANEL - 1, PANEL, PANEL + 1];
    let n = match rng.within(0, 2) {
        0 => rng.one_of(&by),
        1 => stream.len().saturating_sub(rng.within(1, 9)),
        _ => rng.within(0, stream.len()),
    };
    stream.truncate(n);
}

/// Longer: some bytes, the stream again, more than a pipe holds now and then.
fn extend(rng: &mut Rng, stream: &mut Stream) {
    let more = match rng.within(0, 31) {
        0 => bytes(rng, 70_000),
        1..=4 => stream.clone(),
        5..=8 => vec![0; rng.within(1, 9)],
        _ => {
            let n = rng.within(1, 17);
            bytes(rng, n)
        }
    };
    stream.extend(more);
}

/// A setting at its bounds and beyond; the panel keeps its length.
fn field(rng: &mut Rng, stream: &mut [u8]) {
    let at = rng.one_of(&[NCOL, NROW, NB, MODE, LIMIT]);
    let of = [0, 1, 2, 3, 15, 16, 17, 63, 64, 65, 127, 128, 255, 256, 512, 1024, 32_767, 32_768, 65_535];
    put(stream, at, &u16::to_le_bytes(rng.one_of(&of)));
}

/// Sizes at their bounds and beyond, with a panel of their length.
fn resize(rng: &mut Rng, stream: &mut Stream) {
    let (ncol, nrow) = (rng.one_of(&[0, 1, 2, 15, 16, 17]), rng.one_of(&[0, 1, 2, 16, 63, 64, 65]));
    put(stream, NCOL, &u16::to_le_bytes(ncol));
    put(stream, NROW, &u16::to_le_bytes(nrow));
    stream.truncate(SECOND);
    stream.extend(records::second(&random::numbers(rng, usize::from(ncol) * usize::from(nrow))));
}

/// A length field: small, off by one or by a number, huge, the bytes in reverse.
fn length(rng: &mut Rng, stream: &mut [u8]) {
    let at = rng.one_of(&[0, SECOND]);
    let right = stream.len().saturating_sub(at + 4) as u32;
    let off = rng.one_of(&[1, 2, 4, 8, 256, 1 << 16, 1 << 24]);
    let fixed = [0, 1, 2, 3, 19, 20, 21, 22, 24, 0x7FFF_FFFF, 0x8000_0000, 0xFFFF_FFFC, 0xFFFF_FFFE, 0xFFFF_FFFF];
    let wrong = match rng.within(0, 4) {
        0 => right.wrapping_add(off),
        1 => right.wrapping_sub(off),
        2 => right.swap_bytes(),
        _ => rng.one_of(&fixed),
    };
    put(stream, at, &wrong.to_le_bytes());
}

fn kind(rng: &mut Rng, stream: &mut [u8]) {
    let at = rng.one_of(&[4, SECOND + 4]);
    put(stream, at, &u16::to_le_bytes(rng.one_of(&[0, 1, 2, 3, 256, 257, 512, 65_535])));
}

fn put_floor(rng: &mut Rng, stream: &mut [u8]) {
    let of = [0.0, -0.0, -1.0, 5e-324, 0.5, 1e308, f64::MAX, f64::INFINITY, f64::NEG_INFINITY, f64::NAN];
    let floor = if rng.once_in(4) { random::payload(rng.next()) } else { rng.one_of(&of) };
    put(stream, FLOOR, &floor.to_bits().to_le_bytes());
}

/// A number of the panel that is not finite, or any.
fn put_number(rng: &mut Rng, stream: &mut [u8]) {
    let x = match rng.within(0, 2) {
        0 => random::payload(rng.next()),
        1 => random::not_finite(rng),
        _ => random::any_number(rng),
    };
    let count = stream.len().saturating_sub(PANEL) / 8;
    put(stream, PANEL + 8 * rng.within(0, count), &x.to_bits().to_le_bytes());
}

/// Records in another order, twice, or missing.
fn rearrange(rng: &mut Rng, stream: &mut Stream) {
    let (first, second) = stream.split_at(SECOND.min(stream.len()));
    *stream = match rng.within(0, 5) {
        0 => [second, first].concat(),
        1 => [first, first].concat(),
        2 => [first, first, second].concat(),
        3 => [first, second, second].concat(),
        4 => second.to_vec(),
        _ => first.to_vec(),
    };
}

/// A byte more or less somewhere.
fn shift(rng: &mut Rng, stream: &mut Stream) {
    let at = rng.within(0, stream.len());
    if at == stream.len() || rng.once_in(2) {
        stream.insert(at, rng.next() as u8);
    } else {
        stream.remove(at);
    }
}

/// Random bytes over some.
fn overwrite(rng: &mut Rng, stream: &mut [u8]) {
    let (at, n) = (rng.within(0, stream.len()), rng.within(1, 12));
    put(stream, at, &bytes(rng, n));
}
