//! The oracle's program. README.md says how to run it and what its lines hold.

use oracle::random::{self, Bounds, Rng};
use oracle::{
    lines, magnitude, pivot_cases, pivot_readings, readings, rules, systems, telling, test_cases, test_readings,
};
use std::io::{BufRead, BufWriter, Write};

const USAGE: &str = "usage: oracle answer < CASES
       oracle cases [--kind WORD] [--seed S] [--count N] [--max-col C] [--max-row R]
       oracle telling
       oracle readings
       oracle stations";

fn main() {
    let words: Vec<String> = std::env::args().skip(1).collect();
    let done = match words.first().map(String::as_str) {
        Some("answer") => answer(),
        Some("cases") => cases(&words[1..]),
        Some("telling") => named(telling::telling()),
        Some("readings") => readings(),
        Some("stations") => named(telling::stations()),
        _ => Err(USAGE.into()),
    };
    if let Err(why) = done {
        eprintln!("oracle: {why}");
        std::process::exit(2);
    }
}

type Done = Result<(), String>;

fn out() -> BufWriter<std::io::StdoutLock<'static>> {
    BufWriter::new(std::io::stdout().lock())
}

fn write_line(to: &mut impl Write, line: &str) -> Done {
    writeln!(to, "{line}").map_err(|e| e.to_string())
}

/// A line for each case: the case, ` => `, the answer.
fn write_case(to: &mut impl Write, case: &oracle::case::Case) -> Done {
    write_line(to, &format!("{} => {}", lines::case_text(case), lines::answer_text(&rules::answer(case))))
}

/// The answers of the cases on standard input; empty lines and lines from `#`
/// on are passed over, and so is what stands from ` => ` on.
fn answer() -> Done {
    let mut to = out();
    for line in std::io::stdin().lock().lines() {
        let line = line.map_err(|e| e.to_string())?;
        let text = line.split(" => ").next().unwrap_or("").trim();
        if !text.is_empty() && !text.starts_with('#') {
            write_line(&mut to, &lines::answer_text(&rules::answer(&lines::case(text)?)))?;
        }
    }
    Ok(())
}

fn cases(words: &[String]) -> Done {
    let (mut kind, mut seed, mut count, mut bounds) = ("factor", 1, 100, Bounds { max_col: 4, max_row: 7 });
    for pair in words.chunks(2) {
        let [name, value] = pair else { return Err(USAGE.into()) };
        let number = || value.parse::<u64>().map_err(|_| format!("{value}: not a number"));
        match name.as_str() {
            "--kind" => kind = value,
            "--seed" => seed = number()?,
            "--count" => count = number()?,
            "--max-col" => bounds.max_col = number()? as usize,
            "--max-row" => bounds.max_row = number()? as usize,
            _ => return Err(USAGE.into()),
        }
    }
    let (mut rng, mut to) = (Rng::new(seed), out());
    write_line(&mut to, &format!("# kind {kind}, seed {seed}, count {count}"))?;
    for _ in 0..count {
        let case = random::case(&mut rng, kind, bounds).ok_or_else(|| format!("{kind}: no kind of case"))?;
        write_case(&mut to, &case)?;
    }
    Ok(())
}

/// Hand-made cases, each under a line `# NAME`.
fn named(all: Vec<(String, oracle::case::Case)>) -> Done {
    let mut to = out();
    for (name, case) in all {
        write_line(&mut to, &format!("# {name}"))?;
        write_case(&mut to, &case)?;
    }
    Ok(())
}

/// How many of the telling cases each wrong reading of solve, of the magnitude, of the pivot lists and of the test
/// numbers answers otherwise: not one is told by none.
fn readings() -> Done {
    test_cases::as_stated()?;
    let systems: Vec<_> = systems::telling().into_iter().map(|(_, case)| case).collect();
    let lists: Vec<_> = pivot_cases::telling().into_iter().map(|(_, case)| case).collect();
    let others = [readings::told(&systems), magnitude::told()].concat();
    let mut told: Vec<_> = others.into_iter().map(|(name, cases)| (name.to_string(), cases)).collect();
    told.extend(pivot_readings::told(&lists));
    told.extend(test_readings::told(&test_cases::calls()));
    let mut to = out();
    for (name, cases) in &told {
        write_line(&mut to, &format!("{cases:3} {name}"))?;
    }
    told.iter().find(|of| of.1 == 0).map_or(Ok(()), |of| Err(format!("no case tells: {}", of.0)))
}
