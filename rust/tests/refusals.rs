//! Every line of `tests/refusals.txt` from Rust; that file says what its lines mean. Buffers are held and compared by
//! their bits.

mod common;

use common::bits;
use misuktaan::{assemble, from_lapack, inertia, solve, to_lapack, update};
use misuktaan::{Descendant, Entries, Factors, Inertia, Mode, Refusal, Report, Settings, Target};
use misuktaan::{COLUMNS_MAX, LIMIT_MAX, ROWS_MAX, WIDTH_MAX};
use std::collections::BTreeMap;

/// Buffers by their names.
type Buffers<'a> = BTreeMap<&'a str, Vec<u64>>;

/// A call: its settings; its buffers, each with its type, and `written` or `work` if it is lent for that alone; how it
/// is made, with what it may have written.
struct Call {
    name: &'static str,
    settings: &'static [&'static str],
    buffers: &'static str,
    make: fn(&Case) -> (Result<Report, Refusal>, Buffers<'static>),
}

#[derive(Default)]
struct Case<'a> {
    sizes: BTreeMap<&'a str, usize>,
    lift: Option<f64>,
    lists: BTreeMap<&'a str, &'a str>,
    buffers: Buffers<'a>,
}

impl Case<'_> {
    fn list<T>(&self, name: &str, of: fn(u64) -> T) -> Vec<T> {
        self.buffers[name].iter().map(|&x| of(x)).collect()
    }

    fn numbers(&self, name: &str) -> Vec<f64> {
        self.list(name, f64::from_bits)
    }
}

// ---- the calls

const CALLS: [Call; 7] = [
    Call {
        name: "factor",
        settings: &["ncol", "nrow", "nb", "lift", "limit"],
        buffers: "panel:f64:written d:f64:written sub:f64:written blocks:u8:written lifted:u8:written \
                  amounts:f64:written tests:u8:written order:usize:written marks:u8:written work:f64:work input:f64",
        make: factor_call,
    },
    Call { name: "inertia", settings: &[], buffers: "d:f64 sub:f64 blocks:u8", make: inertia_call },
    Call {
        name: "assemble",
        settings: &["ncol", "nrow"],
        buffers: "rows:usize cols:usize numbers:f64 panel:f64",
        make: assemble_call,
    },
    Call {
        name: "update",
        settings: &["ncol", "nrow", "first", "nk", "mk"],
        buffers: "rows:u32 panel:f64 kpanel:f64 kd:f64 ksub:f64 kblocks:u8 krows:u32",
        make: update_call,
    },
    Call {
        name: "solve",
        settings: &["ncol", "nrow"],
        buffers: "panel:f64 d:f64 sub:f64 blocks:u8 order:usize vector:f64",
        make: solve_call,
    },
    Call { name: "to_lapack", settings: &["ncol"], buffers: "order:usize blocks:u8 list:i32", make: to_lapack_call },
    Call {
        name: "from_lapack",
        settings: &["ncol"],
        buffers: "list:i32 order:usize blocks:u8",
        make: from_lapack_call,
    },
];

/// What a call reports that counts nothing.
const UNCOUNTED: Report = Report { rounds: 0, inertia: Inertia { positive: 0, negative: 0, zero: 0 } };

fn factor_call(c: &Case) -> (Result<Report, Refusal>, Buffers<'static>) {
    let mode = c.lift.map_or(Mode::Fail, Mode::Lift);
    let settings =
        Settings { ncol: c.sizes["ncol"], nrow: c.sizes["nrow"], nb: c.sizes["nb"], mode, limit: c.sizes["limit"] };
    let factors = Factors {
        panel: c.numbers("panel"),
        d: c.numbers("d"),
        sub: c.numbers("sub"),
        blocks: c.list("blocks", |x| x as u8),
        lifted: c.list("lifted", |x| x as u8),
        amounts: c.numbers("amounts"),
        tests: c.list("tests", |x| x as u8),
        order: c.list("order", |x| x as usize),
        marks: c.list("marks", |x| x as u8),
        work: c.numbers("work"),
    };
    let mut call = common::Call { settings, input: c.numbers("input"), factors };
    let answer = call.run();
    (answer, CALLS[0].all().map(|buffer| buffer.0).zip(call.memory()).collect())
}

fn inertia_call(c: &Case) -> (Result<Report, Refusal>, Buffers<'static>) {
    let counts = inertia(&c.numbers("d"), &c.numbers("sub"), &c.list("blocks", |x| x as u8));
    (counts.map(|inertia| Report { rounds: 0, inertia }), Buffers::new())
}

fn assemble_call(c: &Case) -> (Result<Report, Refusal>, Buffers<'static>) {
    let (rows, cols) = (c.list("rows", |x| x as usize), c.list("cols", |x| x as usize));
    let (numbers, mut panel) = (c.numbers("numbers"), c.numbers("panel"));
    let entries = Entries { rows: &rows, cols: &cols, numbers: &numbers };
    let answer = assemble(c.sizes["ncol"], c.sizes["nrow"], &entries, &mut panel);
    (answer.map(|()| UNCOUNTED), Buffers::from([("panel", bits(&panel))]))
}

fn update_call(c: &Case) -> (Result<Report, Refusal>, Buffers<'static>) {
    let (rows, krows) = (c.list("rows", |x| x as u32), c.list("krows", |x| x as u32));
    let [mut panel, kpanel, d, sub] = ["panel", "kpanel", "kd", "ksub"].map(|name| c.numbers(name));
    let blocks = c.list("kblocks", |x| x as u8);
    let [ncol, nrow, first, nk, mk] = ["ncol", "nrow", "first", "nk", "mk"].map(|name| c.sizes[name]);
    let target = Target { ncol, nrow, first: first as u32, rows: &rows };
    let descendant = Descendant { nk, mk, panel: &kpanel, d: &d, sub: &sub, blocks: &blocks, rows: &krows };
    let answer = update(&target, &mut panel, &descendant);
    (answer.map(|()| UNCOUNTED), Buffers::from([("panel", bits(&panel))]))
}

fn solve_call(c: &Case) -> (Result<Report, Refusal>, Buffers<'static>) {
    let [panel, d, sub, mut vector] = ["panel", "d", "sub", "vector"].map(|name| c.numbers(name));
    let (blocks, order) = (c.list("blocks", |x| x as u8), c.list("order", |x| x as usize));
    let answer = solve(c.sizes["ncol"], c.sizes["nrow"], &panel, &d, &sub, &blocks, &order, &mut vector);
    (answer.map(|()| UNCOUNTED), Buffers::from([("vector", bits(&vector))]))
}

fn to_lapack_call(c: &Case) -> (Result<Report, Refusal>, Buffers<'static>) {
    let (order, blocks) = (c.list("order", |x| x as usize), c.list("blocks", |x| x as u8));
    let mut list = c.list("list", |x| x as i32);
    let answer = to_lapack(c.sizes["ncol"], &order, &blocks, &mut list);
    (answer.map(|()| UNCOUNTED), Buffers::from([("list", list.iter().map(|&x| x as u64).collect())]))
}

fn from_lapack_call(c: &Case) -> (Result<Report, Refusal>, Buffers<'static>) {
    let list = c.list("list", |x| x as i32);
    let (mut order, mut blocks) = (c.list("order", |x| x as usize), c.list("blocks", |x| x as u8));
    let answer = from_lapack(c.sizes["ncol"], &list, &mut order, &mut blocks);
    let order = order.iter().map(|&x| x as u64).collect();
    let blocks = blocks.iter().map(|&x| u64::from(x)).collect();
    (answer.map(|()| UNCOUNTED), Buffers::from([("order", order), ("blocks", blocks)]))
}

// ---- values and words; None if they cannot be read

fn whole(text: &str) -> Option<usize> {
    let (name, more) = text.split_at(text.find(['+', '-']).unwrap_or(text.len()));
    let n: usize = match name {
        "COLUMNS_MAX" => COLUMNS_MAX,
        "ROWS_MAX" => ROWS_MAX,
        "WIDTH_MAX" => WIDTH_MAX,
        "LIMIT_MAX" => LIMIT_MAX,
        "SIZE_MAX" => usize::MAX,
        _ => name.parse().ok()?,
    };
    n.checked_add_signed(if more.is_empty() { 0 } else { more.parse().ok()? })
}

/// A whole number, or one after a minus.
fn signed(text: &str) -> Option<i32> {
    let of = |digits| i64::try_from(whole(digits)?).ok();
    let n = text.strip_prefix('-').map_or_else(|| of(text), |digits| of(digits).map(|n| -n))?;
    i32::try_from(n).ok()
}

/// The elements of a list by their bits, over what they held. Those of an i32 are widened with its sign.
fn elements(list: &str, kind: &str, held: impl Fn(usize) -> u64) -> Option<Vec<u64>> {
    let mut all = Vec::new();
    for item in list.split(',').filter(|_| !list.is_empty()) {
        for value in values(item)? {
            all.push(match (&value[..], kind) {
                ("?", _) => held(all.len()),
                (_, "f64") => value.parse::<f64>().ok()?.to_bits(),
                (_, "u8") => u64::from(u8::try_from(whole(&value)?).ok()?),
                (_, "u32") => u64::from(u32::try_from(whole(&value)?).ok()?),
                (_, "i32") => signed(&value)? as u64,
                _ => whole(&value)? as u64,
            });
        }
    }
    Some(all)
}

/// The values of a list's item.
fn values(item: &str) -> Option<Vec<String>> {
    if let Some((first, end)) = item.split_once("..") {
        let (first, end) = (whole(first)?, whole(end)?);
        return (first <= end).then(|| (first..end).map(|n| n.to_string()).collect());
    }
    let (value, times) = item.split_once('*').unwrap_or((item, "1"));
    Some(vec![value.to_string(); whole(times)?])
}

impl Call {
    /// The buffers' names, types and uses.
    fn all(&self) -> impl Iterator<Item = (&'static str, &'static str, &'static str)> {
        self.buffers.split_whitespace().map(|buffer| {
            let (name, kind) = buffer.split_once(':').expect("a type");
            let (kind, role) = kind.split_once(':').unwrap_or((kind, ""));
            (name, kind, role)
        })
    }
}

impl<'a> Case<'a> {
    /// Words before the buffers are lent, and those after it.
    fn read(&mut self, call: &Call, text: &'a str, lent: bool) -> Option<()> {
        for word in text.split_whitespace() {
            match word.split_once('=') {
                Some(("lift", floor)) if call.settings.contains(&"lift") => {
                    self.lift = Some(floor.parse().ok()?);
                }
                Some((name, size)) if call.settings.contains(&name) => {
                    self.sizes.insert(name, whole(size)?);
                }
                Some((name, list)) if !lent && call.all().any(|buffer| buffer.0 == name) => {
                    self.lists.insert(name, list);
                }
                Some(_) => return None,
                None => match word.split_once(':')? {
                    (name, "+1") => self.buffers.get_mut(name)?.push(0),
                    (name, "-1") => drop(self.buffers.get_mut(name)?.pop()?),
                    _ => return None,
                },
            }
        }
        Some(())
    }

    /// The buffers, with what their lists say over patterns. A factor call has all of them, its input the unit matrix,
    /// which is a solve's panel too.
    fn lend(&mut self, call: &Call) -> Option<()> {
        if let "factor" | "solve" = call.name {
            let (ncol, nrow, nb) = (self.sizes["ncol"], self.sizes["nrow"], *self.sizes.get("nb").unwrap_or(&1));
            let unit = |j| (j..nrow).map(move |i| if i == j || i >= ncol { 1.0 } else { 0.0 });
            let lower: Vec<f64> = (0..ncol).flat_map(unit).collect();
            let made = common::Call::wide(ncol, nrow, nb, &lower);
            self.buffers = if call.name == "factor" {
                call.all().map(|buffer| buffer.0).zip(made.memory()).collect()
            } else {
                Buffers::from([("panel", bits(&made.input))])
            };
        }
        for (name, kind, _) in call.all() {
            let pattern = |i: usize| if kind == "f64" { 0x7FF0_0000_0000_0001 + i as u64 } else { 0xA5 };
            match self.lists.get(name) {
                None | Some(&"unit") => drop(self.buffers.get(name)?),
                Some(list) => drop(self.buffers.insert(name, elements(list, kind, pattern)?)),
            }
        }
        Some(())
    }
}

// ---- lines

/// Whether a case is so, with what it answers; None if it cannot be read.
fn judge(sound: &BTreeMap<&str, &str>, line: &str) -> Option<Result<(), String>> {
    let (asked, answer) = line.split_once(" -> ")?;
    let (asked, changes) = asked.split_once('|').unwrap_or((asked, ""));
    let (name, settings) = asked.split_once(' ').unwrap_or((asked, ""));
    let call = CALLS.iter().find(|call| call.name == name)?;
    let mut c = Case::default();
    c.read(call, sound.get(name)?, false)?;
    c.read(call, settings, false)?;
    c.lend(call)?;
    c.read(call, changes, true)?;

    let (said, after) = (call.make)(&c);
    let said = match said {
        Ok(Report { rounds, inertia: i }) => [0, 0, 0, rounds, i.positive, i.negative, i.zero],
        Err(why) => [why.number, why.a, why.b, 0, 0, 0, 0],
    };
    let mut left = c.buffers.clone();
    left.extend(after);
    let (want, expected) = expected(call, &c.buffers, &left, answer)?;
    let same = said == want && left == expected;
    Some(if same { Ok(()) } else { Err(format!("{said:?}, buffers as stated: {}", left == expected)) })
}

/// The answer that a line states, and what is expected of the buffers after it: of what they held and were left with.
fn expected<'a>(call: &Call, held: &Buffers<'a>, left: &Buffers<'a>, text: &str) -> Option<([usize; 7], Buffers<'a>)> {
    let words: Vec<&str> = text.split_whitespace().collect();
    let mut expected = held.clone();
    if let [number, a, b, what @ ("nothing" | "zeros")] = words[..] {
        for (name, _, _) in call.all().filter(|buffer| what == "zeros" && !buffer.2.is_empty()) {
            expected.get_mut(name)?.fill(0);
        }
        return Some(([whole(number).filter(|&n| n > 0)?, whole(a)?, whole(b)?, 0, 0, 0, 0], expected));
    }
    let ["accepted", rounds, positive, negative, zero, ref named @ ..] = words[..] else { return None };
    for (name, _, role) in call.all() {
        match role {
            "written" => expected.get_mut(name)?.clone_from(&left[name]),
            "work" => expected.get_mut(name)?.fill(0),
            _ => {}
        }
    }
    if call.name == "factor" {
        let nrow = held["order"].len();
        for j in 0..held["d"].len() {
            expected.get_mut("panel")?[j * nrow..][..j].copy_from_slice(&held["input"][j * nrow..][..j]);
        }
    }
    for word in named {
        let (name, list) = word.split_once('=')?;
        let (name, kind, _) = call.all().find(|buffer| buffer.0 == name)?;
        let mut list = elements(list, kind, |i| held[name].get(i).map_or(0, |&x| x))?;
        for (want, &is) in list.iter_mut().zip(&left[name]) {
            // nan is any not-a-number; what ? stands for is signalling, and not taken for it
            let any = kind == "f64" && *want == f64::NAN.to_bits() && f64::from_bits(is).is_nan();
            *want = if any { is } else { *want };
        }
        (list.len() == held[name].len()).then(|| expected.insert(name, list))?;
    }
    Some(([0, 0, 0, whole(rounds)?, whole(positive)?, whole(negative)?, whole(zero)?], expected))
}

#[test]
fn every_line() {
    let (mut sound, mut passed, mut failed) = (BTreeMap::new(), 0, String::new());
    let lines = include_str!("../../tests/refusals.txt").lines().zip(1..);
    for (line, number) in lines.filter(|(line, _)| !line.is_empty() && !line.starts_with('#')) {
        if let Some((name, settings)) = line.strip_prefix("sound ").and_then(|text| text.split_once(' ')) {
            assert!(CALLS.iter().any(|call| call.name == name), "line {number} names no call: {line}");
            sound.insert(name, settings);
            continue;
        }
        let (wrong, unread) = (line.strip_prefix("wrong: "), line.strip_prefix("unread: "));
        let answer = judge(&sound, wrong.or(unread).unwrap_or(line));
        if answer.as_ref().map(Result::is_ok) == if unread.is_some() { None } else { Some(wrong.is_none()) } {
            passed += 1;
        } else {
            failed += &format!("line {number}: {answer:?}: {line}\n");
        }
    }
    assert!(failed.is_empty() && passed > 0, "{passed} passed, and not (None: cannot be read):\n{failed}");
}

// ---- words

#[test]
fn a_refusal_is_an_error_in_words() {
    let settings = Settings { ncol: 1, nrow: 1, nb: 1, mode: Mode::Fail, limit: 1 };
    let refusal = misuktaan::factor(&settings, &[], Factors::zeros(1, 1, 1).lend()).unwrap_err();
    let error: Box<dyn std::error::Error> = Box::new(refusal);
    assert_eq!(error.to_string(), "refused 3 at 0, 0: a buffer's length differs from its stated one");
}
