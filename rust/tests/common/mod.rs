//! A factor call with buffers that hold signalling not-a-numbers, and its memory by its bits.

#![allow(dead_code)] // each test file uses its part

use misuktaan::{factor, Factors, Mode, Refusal, Report, Settings};

/// n not-a-numbers whose quiet bit is clear, each with a payload of its own.
pub fn patterns(n: usize) -> Vec<f64> {
    (0..n as u64).map(|i| f64::from_bits(0x7FF0_0000_0000_0001 + i)).collect()
}

pub fn bits(numbers: &[f64]) -> Vec<u64> {
    numbers.iter().map(|x| x.to_bits()).collect()
}

/// The refusal's number and place.
pub fn place(refusal: Refusal) -> (usize, usize, usize) {
    (refusal.number, refusal.a, refusal.b)
}

pub struct Call {
    pub settings: Settings,
    pub input: Vec<f64>,
    pub factors: Factors,
}

impl Call {
    /// A call in Fail, nb = ncol, limit 1, by the lower parts of the columns. Upper positions and all buffers hold
    /// patterns.
    pub fn new(ncol: usize, nrow: usize, lower: &[f64]) -> Call {
        Call::wide(ncol, nrow, ncol.max(1), lower)
    }

    /// The same with a panel width.
    pub fn wide(ncol: usize, nrow: usize, nb: usize, lower: &[f64]) -> Call {
        let settings = Settings { ncol, nrow, nb, mode: Mode::Fail, limit: 1 };
        let mut input = patterns(nrow * ncol);
        let mut next = lower.iter();
        for j in 0..ncol {
            for i in j..nrow {
                input[i + j * nrow] = *next.next().expect("a number for each lower place");
            }
        }
        let mut factors = Factors::zeros(ncol, nrow, nb);
        let numbers = [&mut factors.panel, &mut factors.d, &mut factors.sub, &mut factors.amounts, &mut factors.work];
        numbers.into_iter().for_each(|list| *list = patterns(list.len()));
        let bytes = [&mut factors.blocks, &mut factors.lifted, &mut factors.tests, &mut factors.marks];
        bytes.into_iter().for_each(|list| list.fill(0xA5));
        factors.order.fill(usize::MAX);
        Call { settings, input, factors }
    }

    /// The same with lifts.
    pub fn lifting(mut self, floor: f64, limit: usize) -> Call {
        self.settings.mode = Mode::Lift(floor);
        self.settings.limit = limit;
        self
    }

    pub fn run(&mut self) -> Result<Report, Refusal> {
        factor(&self.settings, &self.input, self.factors.lend())
    }

    /// All that the call is lent, by its bits, the input last.
    pub fn memory(&self) -> Vec<Vec<u64>> {
        let f = &self.factors;
        let wide = |list: &[u8]| list.iter().map(|&x| u64::from(x)).collect::<Vec<_>>();
        vec![
            bits(&f.panel),
            bits(&f.d),
            bits(&f.sub),
            wide(&f.blocks),
            wide(&f.lifted),
            bits(&f.amounts),
            wide(&f.tests),
            f.order.iter().map(|&x| x as u64).collect(),
            wide(&f.marks),
            bits(&f.work),
            bits(&self.input),
        ]
    }

    /// The call is refused, and nothing is written.
    pub fn turned_away(mut self, number: usize, a: usize, b: usize) {
        let before = self.memory();
        assert_eq!(place(self.run().unwrap_err()), (number, a, b));
        assert_eq!(self.memory(), before);
    }

    /// The call is refused, and every buffer but the input holds zeros.
    pub fn given_up(mut self, number: usize, a: usize) {
        let mut expected = self.memory();
        let input = expected.len() - 1;
        expected[..input].iter_mut().for_each(|list| list.fill(0));
        assert_eq!(place(self.run().unwrap_err()), (number, a, 0));
        assert_eq!(self.memory(), expected);
    }
}
