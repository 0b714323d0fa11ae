//! The program `node` by docs/SCOPE.md, "The program node", apart from the port: the records that it reads, what it must
//! print for any bytes.

use oracle::case::*;
use oracle::rules;
use std::fmt::Write;

/// Where the first record's fields and the second record begin.
pub const NCOL: usize = 6;
pub const NROW: usize = 8;
pub const NB: usize = 10;
pub const MODE: usize = 12;
pub const LIMIT: usize = 14;
pub const FLOOR: usize = 16;
pub const SECOND: usize = 24;

/// Where the panel begins.
pub const PANEL: usize = SECOND + 6;

/// A record: u32 length of the rest, u16 kind, payload.
pub fn record(kind: u16, payload: &[u8]) -> Vec<u8> {
    let length = (2 + payload.len()) as u32;
    [&length.to_le_bytes()[..], &kind.to_le_bytes(), payload].concat()
}

/// The first record of some settings; `unread` are the limit and the floor in Fail.
pub fn first(s: &Settings, unread: (u16, f64)) -> Vec<u8> {
    let (mode, limit, floor) = match s.mode {
        Mode::Fail => (0, unread.0, unread.1),
        Mode::Lift(floor) => (1, s.limit as u16, floor),
    };
    let fields = [s.ncol as u16, s.nrow as u16, s.nb as u16, mode, limit];
    let mut payload: Vec<u8> = fields.iter().flat_map(|x| x.to_le_bytes()).collect();
    payload.extend(floor.to_bits().to_le_bytes());
    record(1, &payload)
}

/// The second record of a panel.
pub fn second(panel: &[f64]) -> Vec<u8> {
    record(2, &panel.iter().flat_map(|x| x.to_bits().to_le_bytes()).collect::<Vec<_>>())
}

// ---- reading

pub fn u16_at(bytes: &[u8], at: usize) -> usize {
    u16::from_le_bytes([bytes[at], bytes[at + 1]]).into()
}

fn u32_at(bytes: &[u8], at: usize) -> usize {
    u16_at(bytes, at) + (u16_at(bytes, at + 2) << 16)
}

fn f64_at(bytes: &[u8], at: usize) -> f64 {
    f64::from_bits((u32_at(bytes, at) | u32_at(bytes, at + 4) << 32) as u64)
}

/// Whether a record of this length and kind begins at a place and ends within the bytes.
fn has_record(bytes: &[u8], at: usize, length: usize, kind: usize) -> bool {
    bytes.len() >= at + 4 + length && u32_at(bytes, at) == length && u16_at(bytes, at + 4) == kind
}

/// The factor call that the bytes ask for, or refusal 20, 21 or 22.
fn asked(bytes: &[u8]) -> Result<Factor, usize> {
    if !has_record(bytes, 0, SECOND - 4, 1) || u16_at(bytes, MODE) > 1 {
        return Err(20);
    }
    let [ncol, nrow, nb, mode, limit] = [NCOL, NROW, NB, MODE, LIMIT].map(|at| u16_at(bytes, at));
    if ncol > 16 || nrow > 64 || nb > 16 {
        return Err(21);
    }
    let count = nrow * ncol;
    if !has_record(bytes, SECOND, 2 + 8 * count, 2) || bytes.len() != PANEL + 8 * count {
        return Err(22);
    }
    let mode = if mode == 1 { Mode::Lift(f64_at(bytes, FLOOR)) } else { Mode::Fail };
    let panel = (0..count).map(|i| f64_at(bytes, PANEL + 8 * i)).collect();
    Ok(Factor { settings: Settings { ncol, nrow, nb, mode, limit }, panel, lengths: None })
}

// ---- printing

/// What the program must print: the refusal, or the lines of an accepted call.
pub fn printed(bytes: &[u8]) -> String {
    let f = match asked(bytes) {
        Ok(f) => f,
        Err(number) => return format!("refused {number} 0 0\n"),
    };
    let s = f.settings;
    match rules::answer(&Case::Factor(f)) {
        Answer::Refused(Refusal { number, a, b }) => format!("refused {number} {a} {b}\n"),
        answer => accepted(&s, &answer),
    }
}

/// A number's bits, 16 digits; every not-a-number the same.
fn bits(x: f64) -> String {
    format!("{:016X}", if x.is_nan() { 0x7FF8_0000_0000_0000 } else { x.to_bits() })
}

fn accepted(s: &Settings, answer: &Answer) -> String {
    let Answer::Accepted { rounds, factored: f, marks } = answer else { panic!("no answer of a factor call") };
    let mut text = format!("accepted rounds {rounds}\norder");
    f.order.iter().for_each(|i| write!(text, " {i}").unwrap());
    text.push('\n');
    for k in 0..s.ncol {
        let (block, lift, test) = (u8::from(f.blocks[k]), u8::from(f.lifts[k]), f.tests[k]);
        let (d, sub, amount) = (bits(f.d[k]), bits(f.sub[k]), bits(f.amounts[k]));
        writeln!(text, "pivot {k} {block} {d} {sub} {lift} {amount} {test}").unwrap();
    }
    let [positive, negative, zero] = f.inertia;
    writeln!(text, "inertia {positive} {negative} {zero}").unwrap();
    for i in 0..s.nrow {
        write!(text, "row {i}").unwrap();
        (0..s.ncol).for_each(|j| write!(text, " {}", bits(f.panel[i + j * s.nrow])).unwrap());
        if i >= s.ncol {
            write!(text, " {}", u8::from(marks[i - s.ncol])).unwrap();
        }
        text.push('\n');
    }
    text
}

// ---- the example of docs/SCOPE.md, "The program node"

/// ncol = nrow = nb = 2, zeros, panel 1 2 0 8.
pub fn example() -> Vec<u8> {
    let settings = Settings { ncol: 2, nrow: 2, nb: 2, mode: Mode::Fail, limit: 0 };
    [first(&settings, (0, 0.0)), second(&[1.0, 2.0, 0.0, 8.0])].concat()
}

/// What it prints.
pub const EXAMPLE: &str = "accepted rounds 0
order 1 0
pivot 0 0 4020000000000000 0000000000000000 0 0000000000000000 3
pivot 1 0 3FE0000000000000 0000000000000000 0 0000000000000000 1
inertia 2 0 0
row 0 4020000000000000 0000000000000000
row 1 3FD0000000000000 3FE0000000000000
";
