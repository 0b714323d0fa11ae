//! The library called for a trace of its instructions: once on the first node of
//! each shape, then its leaves on the numbers of the last one. Right before, a line
//! goes to standard error, as the trace does, for `layers`. The nodes come from
//! standard input, where `inputs` of a run that is not traced has written them.

use crate::{Shape, SHAPES};
use misuktaan::{leaves, Factors, Mode, Settings};
use oracle::case::Factor;
use std::hint::black_box;
use std::io::{Read, Write};

// SAFETY: never called by this name, whose address alone is asked for.
unsafe extern "C" {
    fn misuktaan_factor();
}

/// The first node of each shape, written.
pub fn inputs(nodes: &[Vec<Factor>]) {
    for x in nodes.iter().flat_map(|of| &of[0].panel) {
        std::io::stdout().write_all(&x.to_ne_bytes()).expect("written");
    }
}

/// In one piece, so that no line of the trace comes between.
fn say(line: String) {
    std::io::stderr().write_all(line.as_bytes()).expect("written");
}

/// A call, with the addresses of the function and of the buffers that it writes.
fn factor(shape: &Shape, panel: &[f64]) {
    let &Shape { ncol, nrow, nb, .. } = shape;
    let settings = Settings { ncol, nrow, nb, mode: Mode::Fail, limit: 1 };
    let mut f = Factors::zeros(ncol, nrow, nb);
    let addresses = [
        misuktaan_factor as *const () as usize,
        f.panel.as_ptr().addr(),
        f.work.as_ptr().addr(),
        f.d.as_ptr().addr(),
        f.sub.as_ptr().addr(),
        f.blocks.as_ptr().addr(),
        f.lifted.as_ptr().addr(),
        f.amounts.as_ptr().addr(),
        f.tests.as_ptr().addr(),
        f.order.as_ptr().addr(),
    ];
    say(format!("call {ncol} {nrow} {nb} {}\n", addresses.map(|at| at.to_string()).join(" ")));
    misuktaan::factor(&settings, panel, f.lend()).expect("accepted");
}

/// A leaf on each of the numbers.
fn leaf<R>(name: &str, numbers: &[f64], of: impl Fn(f64) -> R) {
    say(format!("leaf {name}\n"));
    for &x in numbers {
        black_box(of(black_box(x)));
    }
}

pub fn calls() {
    let mut bytes = Vec::new();
    std::io::stdin().read_to_end(&mut bytes).expect("read");
    let numbers: Vec<f64> = bytes.chunks_exact(8).map(|b| f64::from_ne_bytes(b.try_into().unwrap())).collect();
    let (mut panel, mut rest): (&[f64], &[f64]) = (&[], &numbers);
    for shape in &SHAPES {
        (panel, rest) = rest.split_at(shape.nrow * shape.ncol);
        factor(shape, panel);
    }
    leaf("is_finite", panel, leaves::is_finite);
    leaf("magnitude_bits", panel, |x| leaves::magnitude_bits(x.to_bits()));
    leaf("square", panel, leaves::square);
    leaf("maximum", panel, |x| leaves::maximum(x, 0.5));
    leaf("reciprocal", panel, leaves::reciprocal);
    leaf("lift", panel, |x| leaves::lift(0.5, x));
    leaf("sqrt", panel, |x| leaves::sqrt(x * x));
    say("end\n".to_string());
}
