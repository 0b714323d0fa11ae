//! Reads the trace of the driver's `once` (valgrind's lackey: a line for each
//! instruction, load and store, in their order) from standard input, and prints how
//! many instructions each layer of each call took, and each leaf.
//!
//! The compiler lays the functions of all layers into misuktaan_factor, so that no
//! name tells them apart. What they do to the lent buffers does (docs/ALGORITHM.md),
//! since they work one after the other: the copy writes the panel and never reads it; a
//! step never touches a row from ke on, and ends with its record; the rows
//! below touch no other and write no working buffer; the later columns begin with L·D
//! in it, and end when the last of their numbers has changed. What runs between
//! two layers is counted to the later one.
//!
//! Argument: the output of `nm -S` for the driver.

use std::collections::HashMap;
use std::io::BufRead;
use std::ops::Range;

#[derive(Clone, Copy)]
enum Layer {
    Steps,
    Below,
    Later,
    Before,
    After,
}

const NAMES: [&str; 5] = ["panel steps", "rows below", "later columns", "before the panels", "after the panels"];

/// How often each place of the function was counted to each layer.
type Places = Vec<[usize; NAMES.len()]>;

// ---- a leaf

struct Leaf {
    name: String,
    entry: usize,
    calls: usize,
    taken: usize,
}

impl Leaf {
    /// An instruction of the library.
    fn runs(&mut self, at: usize) {
        self.calls += usize::from(at == self.entry);
        self.taken += 1;
    }

    fn print(&self) {
        println!("leaf, {} calls\t{}\t{}", self.calls, self.name, self.taken);
    }
}

// ---- a factor call

struct Call {
    ncol: usize,
    nrow: usize,
    nb: usize,
    entry: usize,
    /// Where the caller goes on, once the call has begun.
    back: Option<usize>,
    root: Range<usize>,
    panel: Range<usize>,
    work: Range<usize>,
    /// d, sub, blocks, lifted, amounts, tests, order.
    record: [Range<usize>; 7],
    layer: Layer,
    /// Where the panel ends that is worked.
    ke: usize,
    copied: bool,
    /// The numbers of the later columns that are still to change, and how many.
    unchanged: Vec<bool>,
    left: usize,
    /// Instructions that may turn out to be the next layer's, by their places in the function.
    pending: Vec<usize>,
    taken: [usize; NAMES.len()],
    whole: usize,
    roots: usize,
    in_roots: usize,
}

impl Call {
    /// From the numbers of the driver's line.
    fn new(words: &[usize], root: Range<usize>) -> Call {
        let &[ncol, nrow, nb, entry, panel, work, d, sub, blocks, lifted, amounts, tests, order] = words else {
            panic!("the driver's line has {} numbers", words.len());
        };
        let numbers = |from: usize, n: usize| from..from + 8 * n;
        let bytes = |from: usize| from..from + ncol;
        Call {
            ncol,
            nrow,
            nb,
            entry,
            back: None,
            root,
            panel: numbers(panel, nrow * ncol),
            work: numbers(work, 3 * nrow * (nb + 1) + nb * nb),
            record: [
                numbers(d, ncol),
                numbers(sub, ncol),
                bytes(blocks),
                bytes(lifted),
                numbers(amounts, ncol),
                bytes(tests),
                numbers(order, nrow),
            ],
            layer: Layer::Before,
            ke: 0,
            copied: false,
            unchanged: vec![false; nrow * ncol],
            left: 0,
            pending: Vec::new(),
            taken: [0; NAMES.len()],
            whole: 0,
            roots: 0,
            in_roots: 0,
        }
    }

    /// An instruction; `last` is where the one before it ended. The answer: whether the call is over.
    fn runs(&mut self, at: usize, last: usize) -> bool {
        if at == self.entry {
            self.back = Some(last);
        }
        if self.back.is_none_or(|back| back == at) {
            return self.back.is_some();
        }
        self.whole += 1;
        if self.root.contains(&at) {
            self.roots += usize::from(at == self.root.start);
            self.in_roots += 1;
        } else {
            self.pending.push(at.wrapping_sub(self.entry));
        }
        false
    }

    /// What is pending is this layer's.
    fn settle(&mut self, layer: Layer, places: &mut Places) {
        self.layer = layer;
        self.taken[layer as usize] += self.pending.len();
        for at in self.pending.drain(..) {
            if let Some(place) = places.get_mut(at) {
                place[layer as usize] += 1;
            }
        }
    }

    fn next_panel(&mut self) {
        self.ke = (self.ke + self.nb).min(self.ncol);
        self.layer = Layer::Steps;
    }

    /// The later columns begin: all of their numbers from the diagonal down are to change.
    fn expect_later(&mut self) {
        for j in self.ke..self.ncol {
            self.unchanged[j + j * self.nrow..(j + 1) * self.nrow].fill(true);
            self.left += self.nrow - j;
        }
    }

    fn changed(&mut self, cells: Range<usize>) {
        for cell in &mut self.unchanged[cells] {
            self.left -= usize::from(std::mem::take(cell));
        }
    }

    /// A load or a store: another layer begins with it, or what is pending is this one's, or it says nothing.
    fn touches(&mut self, from: usize, size: usize, store: bool, places: &mut Places) {
        if self.back.is_none() {
            return;
        }
        let cell = self.panel.contains(&from).then(|| (from - self.panel.start) / 8);
        let row = cell.map(|cell| cell % self.nrow);
        let recorded = store && self.record.iter().any(|of| of.contains(&from));
        let worked = store && self.work.contains(&from);
        match self.layer {
            Layer::Before if self.copied && cell.is_some() && !store => self.next_panel(),
            Layer::Before if recorded || cell.is_some() => {
                self.copied |= cell.is_some();
                self.settle(Layer::Before, places);
            }
            Layer::Steps if recorded => self.settle(Layer::Steps, places),
            Layer::Steps if row.is_some_and(|row| row >= self.ke) => self.settle(Layer::Below, places),
            Layer::Below if worked => {
                self.expect_later();
                self.settle(Layer::Later, places);
            }
            Layer::Below if row.is_some_and(|row| row < self.ke) => {
                assert_eq!(self.ke, self.ncol, "the rows below a panel met a row above");
                self.settle(Layer::After, places);
            }
            Layer::Below if cell.is_some() => self.settle(Layer::Below, places),
            Layer::Later if cell.is_some() && self.left == 0 => self.next_panel(),
            Layer::Later if worked || cell.is_some() => {
                if let (Some(cell), true) = (cell, store) {
                    self.changed(cell..cell + size / 8);
                }
                self.settle(Layer::Later, places);
            }
            _ => {}
        }
    }

    /// The call is over: what is pending came after the last panel.
    fn print(&mut self, places: &mut Places) {
        assert!(self.ke == self.ncol && self.left == 0, "the call ended before its last panel");
        self.settle(Layer::After, places);
        assert_eq!(self.whole, self.in_roots + self.taken.iter().sum::<usize>());
        let shape = format!("{} x {}, {}", self.ncol, self.nrow, self.nb);
        let roots = [("square roots", self.roots), ("in square roots", self.in_roots)];
        let layers = NAMES.into_iter().zip(self.taken);
        for (name, n) in roots.into_iter().chain(layers).chain([("whole call", self.whole)]) {
            println!("{shape}\t{name}\t{n}");
        }
    }
}

// ---- the trace

enum Traced {
    Nothing,
    Factor(Call),
    Leaf(Leaf),
}

/// The functions of the library, from the output of `nm -S`: Rust's own have other names.
fn functions(path: &str) -> HashMap<String, Range<usize>> {
    let text = std::fs::read_to_string(path).expect("the output of nm");
    let hex = |word: &str| usize::from_str_radix(word, 16).expect("hexadecimal");
    let of = |line: &str| match line.split(' ').collect::<Vec<_>>()[..] {
        [at, size, _, name] if name.starts_with("misuktaan_") || name.contains("::") => {
            Some((name.to_string(), hex(at)..hex(at) + hex(size)))
        }
        _ => None,
    };
    text.lines().filter_map(of).collect()
}

struct Reader {
    functions: HashMap<String, Range<usize>>,
    /// How far the program was moved when it was loaded, and where the last instruction ended.
    moved: usize,
    last: usize,
    traced: Traced,
    places: Places,
}

impl Reader {
    /// Where a function of the library stands, if it is one of its own.
    fn function(&self, name: &str) -> Range<usize> {
        self.functions.get(name).map_or(0..0, |of| of.start + self.moved..of.end + self.moved)
    }

    fn factor_begins(&mut self, numbers: &str) {
        let numbers: Vec<usize> = numbers.split(' ').map(|word| word.parse().expect("a number")).collect();
        self.moved = numbers[3] - self.functions["misuktaan_factor"].start;
        self.traced = Traced::Factor(Call::new(&numbers, self.function("scalar::sqrt")));
    }

    fn leaf_begins(&mut self, name: &str) {
        let entry = self.function(&format!("misuktaan_{name}")).start;
        self.traced = Traced::Leaf(Leaf { name: name.to_string(), entry, calls: 0, taken: 0 });
    }

    /// The driver has gone on to something else.
    fn ends(&mut self) {
        match std::mem::replace(&mut self.traced, Traced::Nothing) {
            Traced::Leaf(leaf) => leaf.print(),
            Traced::Factor(_) => panic!("the end of a call was not seen"),
            Traced::Nothing => {}
        }
    }

    /// An instruction, a load, a store or both.
    fn event(&mut self, kind: &str, at: usize, size: usize) {
        match (&mut self.traced, kind) {
            (Traced::Factor(call), "I") => {
                if call.runs(at, self.last) {
                    call.print(&mut self.places);
                    self.traced = Traced::Nothing;
                }
                self.last = at + size;
            }
            (Traced::Factor(call), _) => {
                if kind != "S" {
                    call.touches(at, size, false, &mut self.places);
                }
                if kind != "L" {
                    call.touches(at, size, true, &mut self.places);
                }
            }
            (Traced::Leaf(leaf), "I") => {
                let of = at.wrapping_sub(self.moved);
                if self.functions.values().any(|function| function.contains(&of)) {
                    leaf.runs(at);
                }
            }
            _ => {}
        }
    }

    fn line(&mut self, line: &str) {
        match line.split_once(' ') {
            Some(("call", numbers)) => {
                self.ends();
                return self.factor_begins(numbers);
            }
            Some(("leaf", name)) => {
                self.ends();
                return self.leaf_begins(name);
            }
            None => return self.ends(),
            _ if matches!(self.traced, Traced::Nothing) => return,
            _ => {}
        }
        let (kind, rest) = line.split_at(3);
        let (at, size) = rest.split_once(',').expect("an address and a size");
        let at = usize::from_str_radix(at, 16).expect("an address");
        self.event(kind.trim(), at, size.parse().expect("a size"));
    }

    /// A place of the function belongs to one layer: one that was counted to another is a sign that they were not told
    /// apart.
    fn end(self) {
        let all: usize = self.places.iter().flatten().sum();
        let most: usize = self.places.iter().map(|of| of.iter().max().unwrap()).sum();
        let strays = (all - most) as f64 / all as f64;
        eprintln!("layers: {:.2}% of the instructions ran at places of another layer", 100.0 * strays);
        assert!(strays < 0.01, "the layers are not told apart");
    }
}

fn main() {
    let functions = functions(&std::env::args().nth(1).expect("the output of nm"));
    let places = vec![[0; NAMES.len()]; functions["misuktaan_factor"].len()];
    let mut reader = Reader { functions, moved: 0, last: 0, traced: Traced::Nothing, places };
    for line in std::io::stdin().lock().lines() {
        reader.line(&line.expect("a line"));
    }
    reader.end();
}
