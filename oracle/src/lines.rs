//! Cases and answers as text, one to a line: a word, then `name=value` fields.
//! Numbers are 16 hexadecimal digits of their bits, every not-a-number
//! 7FF8000000000000; bits are those digits as they are. Counts are decimal, and so
//! are the numbers of a pivot list, which may have a sign. Lists are joined by
//! commas, a descendant's parts by slashes. README.md has the fields of each word.

use crate::case::*;
use rslab::reach::Factored;
use std::collections::HashMap;
use std::fmt::Write;

// ---- values

fn hex(x: f64) -> String {
    let bits = if x.is_nan() { 0x7FF8_0000_0000_0000 } else { x.to_bits() };
    format!("{bits:016X}")
}

fn bits(text: &str) -> Result<u64, String> {
    let bits = u64::from_str_radix(text, 16).ok().filter(|_| text.len() == 16);
    bits.ok_or_else(|| format!("{text}: not 16 hexadecimal digits"))
}

fn number(text: &str) -> Result<f64, String> {
    bits(text).map(f64::from_bits)
}

fn count<T: std::str::FromStr>(text: &str) -> Result<T, String> {
    text.parse().map_err(|_| format!("{text}: not a count"))
}

fn list<T>(text: &str, one: fn(&str) -> Result<T, String>) -> Result<Vec<T>, String> {
    text.split(',').filter(|t| !t.is_empty()).map(one).collect()
}

fn joined(items: impl IntoIterator<Item = String>) -> String {
    items.into_iter().collect::<Vec<_>>().join(",")
}

fn numbers(xs: &[f64]) -> String {
    joined(xs.iter().map(|&x| hex(x)))
}

fn counts<T: ToString>(xs: &[T]) -> String {
    joined(xs.iter().map(T::to_string))
}

fn bytes(xs: &[bool]) -> String {
    joined(xs.iter().map(|&b| u8::from(b).to_string()))
}

fn mode_text(mode: Mode) -> String {
    match mode {
        Mode::Fail => "fail".into(),
        Mode::Lift(floor) => format!("lift:{}", hex(floor)),
    }
}

fn mode(text: &str) -> Result<Mode, String> {
    match text.strip_prefix("lift:") {
        Some(floor) => number(floor).map(Mode::Lift),
        None if text == "fail" => Ok(Mode::Fail),
        None => Err(format!("{text}: no mode")),
    }
}

fn descendant_text(k: &Descendant) -> String {
    let parts = [counts(&k.rows), numbers(&k.panel), numbers(&k.d), numbers(&k.sub), counts(&k.blocks)];
    format!("{}/{}/{}", k.ncol, k.below, parts.join("/"))
}

fn descendant(text: &str) -> Result<Descendant, String> {
    let parts: Vec<&str> = text.split('/').collect();
    let &[ncol, below, rows, panel, d, sub, blocks] = parts.as_slice() else {
        return Err("a descendant has seven parts".into());
    };
    Ok(Descendant {
        ncol: count(ncol)?,
        below: count(below)?,
        rows: list(rows, count)?,
        panel: list(panel, number)?,
        d: list(d, number)?,
        sub: list(sub, number)?,
        blocks: list(blocks, count)?,
    })
}

// ---- cases

/// The fields of a line; a name may stand several times.
struct Fields<'a>(HashMap<&'a str, Vec<&'a str>>);

impl<'a> Fields<'a> {
    fn of(words: impl Iterator<Item = &'a str>) -> Result<Self, String> {
        let mut all: HashMap<&str, Vec<&str>> = HashMap::new();
        for word in words {
            let (name, value) = word.split_once('=').ok_or_else(|| format!("{word}: no field"))?;
            all.entry(name).or_default().push(value);
        }
        Ok(Fields(all))
    }

    fn every(&self, name: &str) -> &[&'a str] {
        self.0.get(name).map_or(&[], |v| v)
    }

    fn get<T>(&self, name: &str, read: impl Fn(&str) -> Result<T, String>) -> Result<T, String> {
        let value = self.every(name).first().ok_or_else(|| format!("the field {name} is missing"))?;
        read(value)
    }

    fn counts<T: std::str::FromStr>(&self, name: &str) -> Result<Vec<T>, String> {
        self.get(name, |t| list(t, count))
    }

    fn numbers(&self, name: &str) -> Result<Vec<f64>, String> {
        self.get(name, |t| list(t, number))
    }

    fn settings(&self) -> Result<Settings, String> {
        Ok(Settings {
            ncol: self.get("ncol", count)?,
            nrow: self.get("nrow", count)?,
            nb: self.get("nb", count)?,
            mode: self.get("mode", mode)?,
            limit: self.get("limit", count)?,
        })
    }

    fn place(&self) -> Result<Place, String> {
        Ok(Place { first: self.get("first", count)?, rows: self.counts("rows")? })
    }

    fn assembly(&self) -> Result<Assembly, String> {
        Ok(Assembly {
            ncol: self.get("ncol", count)?,
            nrow: self.get("nrow", count)?,
            panel: self.numbers("panel")?,
            rows: self.counts("erows")?,
            cols: self.counts("ecols")?,
            numbers: self.numbers("enumbers")?,
        })
    }
}

/// The case of a line.
pub fn case(line: &str) -> Result<Case, String> {
    let mut words = line.split_whitespace();
    let word = words.next().unwrap_or("");
    let f = Fields::of(words)?;
    Ok(match word {
        "factor" => Case::Factor(Factor {
            settings: f.settings()?,
            panel: f.numbers("panel")?,
            lengths: f.every("lengths").first().map(|t| list(t, count)).transpose()?,
        }),
        "assembly" => Case::Assembly(f.assembly()?),
        "update" => Case::Update(Update {
            ncol: f.get("ncol", count)?,
            nrow: f.get("nrow", count)?,
            place: f.place()?,
            panel: f.numbers("panel")?,
            descendant: f.get("descendant", descendant)?,
        }),
        "whole" => Case::Whole(Whole {
            settings: f.settings()?,
            assembly: f.assembly()?,
            place: f.place()?,
            descendants: f.every("descendant").iter().map(|t| descendant(t)).collect::<Result<_, _>>()?,
        }),
        "inertia" => Case::Inertia(Inertia { d: f.numbers("d")?, sub: f.numbers("sub")?, blocks: f.counts("blocks")? }),
        "solve" => Case::Solve(Solve {
            ncol: f.get("ncol", count)?,
            nrow: f.get("nrow", count)?,
            panel: f.numbers("panel")?,
            d: f.numbers("d")?,
            sub: f.numbers("sub")?,
            blocks: f.counts("blocks")?,
            order: f.counts("order")?,
            vector: f.numbers("vector")?,
        }),
        "to_lapack" => Case::ToLapack(ToLapack {
            ncol: f.get("ncol", count)?,
            order: f.counts("order")?,
            blocks: f.counts("blocks")?,
            list: f.counts("list")?,
        }),
        "from_lapack" => Case::FromLapack(FromLapack {
            ncol: f.get("ncol", count)?,
            list: f.counts("list")?,
            order: f.counts("order")?,
            blocks: f.counts("blocks")?,
        }),
        "leaf" => Case::Leaf(Leaf {
            name: f.get("name", |t| Ok(t.to_string()))?,
            a: f.get("a", number)?,
            b: f.get("b", number)?,
        }),
        "magnitude" => Case::Magnitude(f.get("bits", bits)?),
        other => return Err(format!("{other}: no kind of case")),
    })
}

fn settings_text(s: &Settings) -> String {
    let Settings { ncol, nrow, nb, mode, limit } = *s;
    format!("ncol={ncol} nrow={nrow} nb={nb} mode={} limit={limit}", mode_text(mode))
}

fn place_text(place: &Place) -> String {
    format!("first={} rows={}", place.first, counts(&place.rows))
}

fn entries_text(a: &Assembly) -> String {
    let parts = (numbers(&a.panel), counts(&a.rows), counts(&a.cols), numbers(&a.numbers));
    format!("panel={} erows={} ecols={} enumbers={}", parts.0, parts.1, parts.2, parts.3)
}

/// The line of a case.
pub fn case_text(case: &Case) -> String {
    match case {
        Case::Factor(f) => {
            let mut text = format!("factor {} panel={}", settings_text(&f.settings), numbers(&f.panel));
            if let Some(lengths) = &f.lengths {
                write!(text, " lengths={}", counts(lengths)).unwrap();
            }
            text
        }
        Case::Assembly(a) => format!("assembly ncol={} nrow={} {}", a.ncol, a.nrow, entries_text(a)),
        Case::Update(u) => {
            let (place, panel, k) = (place_text(&u.place), numbers(&u.panel), descendant_text(&u.descendant));
            format!("update ncol={} nrow={} {place} panel={panel} descendant={k}", u.ncol, u.nrow)
        }
        Case::Whole(w) => {
            let (settings, entries) = (settings_text(&w.settings), entries_text(&w.assembly));
            let mut text = format!("whole {settings} {} {entries}", place_text(&w.place));
            for k in &w.descendants {
                write!(text, " descendant={}", descendant_text(k)).unwrap();
            }
            text
        }
        Case::Inertia(i) => {
            format!("inertia d={} sub={} blocks={}", numbers(&i.d), numbers(&i.sub), counts(&i.blocks))
        }
        Case::Solve(s) => {
            let (panel, d, sub) = (numbers(&s.panel), numbers(&s.d), numbers(&s.sub));
            let (blocks, order, vector) = (counts(&s.blocks), counts(&s.order), numbers(&s.vector));
            let sizes = format!("ncol={} nrow={}", s.ncol, s.nrow);
            format!("solve {sizes} panel={panel} d={d} sub={sub} blocks={blocks} order={order} vector={vector}")
        }
        Case::ToLapack(c) => {
            let (order, blocks, list) = (counts(&c.order), counts(&c.blocks), counts(&c.list));
            format!("to_lapack ncol={} order={order} blocks={blocks} list={list}", c.ncol)
        }
        Case::FromLapack(c) => {
            let (list, order, blocks) = (counts(&c.list), counts(&c.order), counts(&c.blocks));
            format!("from_lapack ncol={} list={list} order={order} blocks={blocks}", c.ncol)
        }
        Case::Leaf(l) => format!("leaf name={} a={} b={}", l.name, hex(l.a), hex(l.b)),
        Case::Magnitude(bits) => format!("magnitude bits={bits:016X}"),
    }
}

fn accepted_text(rounds: usize, f: &Factored, marks: &[bool]) -> String {
    let pivots = format!("d={} sub={} blocks={}", numbers(&f.d), numbers(&f.sub), bytes(&f.blocks));
    let notes = format!("lifts={} amounts={} tests={}", bytes(&f.lifts), numbers(&f.amounts), counts(&f.tests));
    let (inertia, order) = (counts(&f.inertia), counts(&f.order));
    let (panel, marks) = (numbers(&f.panel), bytes(marks));
    format!("accepted rounds={rounds} inertia={inertia} order={order} {pivots} {notes} panel={panel} marks={marks}")
}

/// The line of an answer.
pub fn answer_text(answer: &Answer) -> String {
    match answer {
        Answer::Refused(r) => {
            let outputs = if r.of_the_run() { "zeros" } else { "kept" };
            format!("refused {} {} {} outputs={outputs}", r.number, r.a, r.b)
        }
        Answer::Accepted { rounds, factored, marks } => accepted_text(*rounds, factored, marks),
        Answer::Panel(panel) => format!("panel={}", numbers(panel)),
        Answer::Vector(vector) => format!("vector={}", numbers(vector)),
        Answer::List(list) => format!("list={}", counts(list)),
        Answer::Pivots { order, blocks } => format!("order={} blocks={}", counts(order), counts(blocks)),
        Answer::Counts(c) => format!("inertia={}", counts(c)),
        Answer::Number(x) => format!("number={}", hex(*x)),
        Answer::Bits(bits) => format!("bits={bits:016X}"),
    }
}
