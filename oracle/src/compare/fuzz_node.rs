//! The program `node` on any bytes: each stream is given to a run of its own, which must end with status 0 and print
//! what docs/SCOPE.md, "The program node", says. NODE names the program.

mod counts;
mod records;
mod streams;

use counts::{Counts, Words};
use oracle::random::Rng;
use std::collections::BTreeMap;
use std::ffi::OsString;
use std::io::{Read, Write};
use std::process::{Child, Command, Stdio};
use std::sync::Mutex;
use std::time::{Duration, Instant};

/// A run that takes longer counts as one that does not end.
const LONGEST: Duration = Duration::from_secs(10);

/// More than any text of the program; a run that prints more is not listened to.
const MOST: u64 = 1 << 20;

/// Between two pieces of a stream: the program has read the first one and waits.
const PAUSE: Duration = Duration::from_millis(2);

/// The run that is going on, and since when.
static RUNNING: Mutex<Option<(Instant, Child)>> = Mutex::new(None);

/// What a run printed, and whether it ended in time with status 0.
struct Ended {
    printed: Vec<u8>,
    well: bool,
}

/// A run on a stream, in two pieces if `cut` is within it.
fn run(program: &OsString, stream: &[u8], cut: usize) -> Ended {
    let mut command = Command::new(program);
    command.env_clear().stdin(Stdio::piped()).stdout(Stdio::piped()).stderr(Stdio::null());
    let mut child = command.spawn().expect("the program does not start");
    let (mut to, from) = (child.stdin.take().unwrap(), child.stdout.take().unwrap());
    *RUNNING.lock().unwrap() = Some((Instant::now(), child));
    let (piece, rest) = stream.split_at(cut.min(stream.len()));
    // a program that has seen enough need not read on
    _ = to.write_all(piece);
    if !rest.is_empty() {
        std::thread::sleep(PAUSE);
        _ = to.write_all(rest);
    }
    drop(to);
    let mut printed = Vec::new();
    from.take(MOST).read_to_end(&mut printed).expect("nothing to read from");
    loop {
        let mut running = RUNNING.lock().unwrap();
        if let Some(status) = running.as_mut().unwrap().1.try_wait().expect("no status") {
            *running = None;
            return Ended { printed, well: status.success() };
        }
        drop(running);
        std::thread::yield_now();
    }
}

/// Ends a run that takes too long.
fn watch() {
    loop {
        std::thread::sleep(Duration::from_secs(1));
        if let Some((since, child)) = RUNNING.lock().unwrap().as_mut() {
            if since.elapsed() > LONGEST {
                _ = child.kill();
            }
        }
    }
}

/// What is wrong with a run that must print a text.
fn wrong(ended: &Ended, must: &str) -> Option<String> {
    if ended.well && ended.printed == must.as_bytes() {
        return None;
    }
    let how = if ended.well { "" } else { "no status 0 in time; " };
    let printed = String::from_utf8_lossy(&ended.printed[..ended.printed.len().min(30_000)]);
    Some(format!("{how}printed {printed:?}, must be {must:?}"))
}

/// A status, a character more, less or other, and the example's own text are noticed.
fn notices() {
    let must = records::EXAMPLE;
    assert_eq!(records::printed(&records::example()), must, "the model and the example of docs/SCOPE.md differ");
    let ended = |printed: &str, well: bool| Ended { printed: printed.into(), well };
    assert_eq!(wrong(&ended(must, true), must), None);
    let other = must.replacen('7', "6", 1).replacen('0', "1", 1);
    for (text, well) in [(must, false), (&must[1..], true), (must.trim_end(), true), (&other, true), ("", true)] {
        assert!(wrong(&ended(text, well), must).is_some(), "a wrong run passes: {text:?}");
    }
}

fn main() {
    let (words, seed) = Words::read();
    let program = std::env::var_os("NODE").expect("NODE must name the program");
    notices();
    std::thread::spawn(watch);
    let (mut counts, mut met) = (Counts::default(), BTreeMap::<String, u64>::new());
    let mut each = |stream: Vec<u8>, cut: usize| {
        let must = records::printed(&stream);
        let wrong = wrong(&run(&program, &stream, cut), &must);
        let hex = || stream.iter().map(|b| format!("{b:02X}")).collect::<String>();
        counts.add(wrong.is_none(), || format!("{}\n    {}", hex(), wrong.clone().unwrap()));
        let answer = must.split_whitespace().take(2).collect::<Vec<_>>().join(" ");
        *met.entry(answer.replace(" rounds", "")).or_default() += 1;
    };
    streams::example(&mut |stream| each(stream, usize::MAX));
    let mut rng = Rng::new(seed);
    for _ in 0..words.count(1, 1_000_000) {
        let stream = streams::seeded(&mut rng);
        let cut = if rng.once_in(64) { rng.within(0, stream.len()) } else { stream.len() };
        each(stream, cut);
    }
    met.iter().for_each(|(answer, n)| println!("{answer}: {n}"));
    counts.end("streams", "wrong")
}
