//! The stations and the program's example of docs/SCOPE.md, not-a-numbers above the diagonal, LAPACK's lists of
//! factored heads, and the bounds.

mod common;

use common::{bits, place, Call};
use misuktaan::{assemble, from_lapack, inertia, leaves, solve, to_lapack, update};
use misuktaan::{Descendant, Entries, Inertia, Refusal, Target, COLUMNS_MAX, LIMIT_MAX, ROWS_MAX, WIDTH_MAX};

fn counts(positive: usize, negative: usize, zero: usize) -> Inertia {
    Inertia { positive, negative, zero }
}

#[test]
fn the_program_s_example() {
    let mut call = Call::new(2, 2, &[1.0, 2.0, 8.0]);
    let report = call.run().unwrap();
    assert_eq!((report.rounds, report.inertia), (0, counts(2, 0, 0)));
    let f = &call.factors;
    assert_eq!(f.order, [1, 0]);
    assert_eq!(bits(&f.d), [0x4020_0000_0000_0000, 0x3FE0_0000_0000_0000]);
    assert_eq!((bits(&f.sub), bits(&f.amounts)), (vec![0; 2], vec![0; 2]));
    assert_eq!((&f.blocks[..], &f.lifted[..], &f.tests[..]), (&[0, 0][..], &[0, 0][..], &[3, 1][..]));
    assert_eq!((f.panel[0], f.panel[1], f.panel[3]), (8.0, 0.25, 0.5));
    assert_eq!(bits(&f.work), vec![0; f.work.len()]);
}

#[test]
fn no_columns() {
    let mut call = Call::wide(0, 3, 1, &[]);
    assert_eq!(call.run().unwrap().inertia, counts(0, 0, 0));
    assert_eq!(call.factors.order, [0, 1, 2]);
    assert_eq!(call.factors.marks, [0, 0, 0]);
    assert_eq!(call.factors.tests, []);
}

#[test]
fn one_column_over_a_tail() {
    let mut call = Call::new(1, 2, &[4.0, 6.0]);
    assert_eq!(call.run().unwrap().inertia, counts(1, 0, 0));
    assert_eq!((&call.factors.d[..], &call.factors.panel[..]), (&[4.0][..], &[4.0, 1.5][..]));
    assert_eq!((&call.factors.marks[..], &call.factors.tests[..]), (&[0][..], &[1][..]));
}

#[test]
fn lifts_of_one_column() {
    for (d, floor, lifted, amount, byte, test) in
        [(0.0, 0.5, 0.5, 0.5, 1, 0), (-0.25, 0.5, -0.5, -0.25, 1, 1), (-0.5, 0.5, -0.5, 0.0, 0, 1)]
    {
        let mut call = Call::new(1, 1, &[d]).lifting(floor, 1);
        call.run().unwrap();
        let f = &call.factors;
        assert_eq!((f.d[0], f.panel[0], f.amounts[0], f.lifted[0]), (lifted, lifted, amount, byte));
        assert_eq!(f.tests, [test]);
    }
}

#[test]
fn a_block_and_its_panels() {
    let lower = [0.0, 1.0, 0.0];
    let mut block = Call::new(2, 2, &lower);
    assert_eq!(block.run().unwrap().inertia, counts(1, 1, 0));
    assert_eq!((&block.factors.blocks[..], &block.factors.sub[..]), (&[1, 0][..], &[1.0, 0.0][..]));
    assert_eq!(block.factors.tests, [4, 4]);
    Call::wide(2, 2, 1, &lower).given_up(7, 0);
    let mut narrow = Call::wide(2, 2, 1, &lower).lifting(0.5, 1);
    narrow.run().unwrap();
    assert_eq!((&narrow.factors.d[..], narrow.factors.panel[1]), (&[0.5, -2.0][..], 2.0));
    assert_eq!(narrow.factors.tests, [0, 1]);
}

#[test]
fn rounds_of_a_block() {
    Call::new(2, 2, &[0.0, 1.0, 0.0]).lifting(2.0, 1).given_up(8, 0);
    let mut call = Call::new(2, 2, &[0.0, 1.0, 0.0]).lifting(2.0, 2);
    let report = call.run().unwrap();
    assert_eq!((report.rounds, report.inertia), (2, counts(2, 0, 0)));
    assert_eq!(call.factors.d, [4.0, 4.0]);
    assert_eq!((&call.factors.amounts[..], &call.factors.lifted[..]), (&[4.0, 4.0][..], &[1, 1][..]));
    assert_eq!(call.factors.tests, [4, 4]);
}

#[test]
fn tests_that_decided() {
    let cases: [(&[f64], &[u8]); 4] = [
        (&[1.0, 2.0, 8.0], &[3, 1]),
        (&[0.0, 1.0, 0.0], &[4, 4]),
        (&[0.5, 1.0, 0.0, 0.0, 8.0, 0.0], &[2, 4, 4]),
        (&[1e-200, 1e-200, 1.0], &[1, 1]),
    ];
    for (lower, tests) in cases {
        let mut call = Call::new(tests.len(), tests.len(), lower);
        call.run().unwrap();
        assert_eq!(call.factors.tests, tests);
    }
}

/// Without lifts the same node is refused with 23: the row test takes a 1x1 of zero.
#[test]
fn a_lift_changes_no_test_number() {
    let lower = [0.0, 1e-160, 0.0, 0.0, 1e150, 0.0];
    Call::new(3, 3, &lower).given_up(23, 0);
    let mut call = Call::new(3, 3, &lower).lifting(0.5, 1);
    call.run().unwrap();
    let f = &call.factors;
    assert_eq!((f.d[0], f.amounts[0], f.lifted[0], f.tests[0]), (0.5, 0.5, 1, 2));
}

/// The head of the program's example over tail rows far greater than it.
#[test]
fn tail_rows_have_no_part_in_test_numbers() {
    let mut call = Call::new(2, 4, &[1.0, 2.0, 1e9, 5.0, 8.0, -1e9, 0.0]);
    call.run().unwrap();
    assert_eq!((&call.factors.tests[..], &call.factors.order[..]), (&[3, 1][..], &[1, 0, 2, 3][..]));
}

#[test]
fn inertia_alone() {
    assert_eq!(inertia(&[0.0, 0.0], &[0.0, 0.0], &[1, 0]), Ok(counts(1, 0, 1)));
    assert_eq!(inertia(&[f64::NAN], &[0.0], &[0]), Ok(counts(0, 0, 1)));
    assert_eq!(inertia(&[], &[], &[]), Ok(counts(0, 0, 0)));
    let all = inertia(&[-1.0; COLUMNS_MAX], &[0.0; COLUMNS_MAX], &[0; COLUMNS_MAX]);
    assert_eq!(all, Ok(counts(0, COLUMNS_MAX, 0)));
}

#[test]
fn numbers_that_are_not_finite() {
    Call::new(1, 1, &[f64::from_bits(1)]).given_up(9, 0);
    let mut marked = Call::new(1, 2, &[0.25, 1.5e308]);
    marked.run().unwrap();
    assert_eq!(marked.factors.marks, [1]);
    Call::new(2, 2, &[1.0, f64::NAN, 1.0]).turned_away(6, 0, 1);
}

/// Upper positions hold signalling not-a-numbers with payloads; they are not read, and are copied bit for bit.
#[test]
fn upper_positions_keep_their_bits() {
    let lower: Vec<f64> = (1..=35).map(f64::from).collect();
    let mut call = Call::wide(5, 9, 2, &lower);
    call.run().unwrap();
    let (panel, input) = (bits(&call.factors.panel), bits(&call.input));
    for j in 0..5 {
        for i in 0..j {
            assert_eq!(panel[i + j * 9], input[i + j * 9]);
            assert_eq!(panel[i + j * 9] & 0x7FF8_0000_0000_0000, 0x7FF0_0000_0000_0000);
        }
    }
}

#[test]
fn an_update_lands() {
    let mut panel = [10.0, 20.0];
    let descendant =
        Descendant { nk: 1, mk: 2, panel: &[1.0, 2.0, 3.0], d: &[1.0], sub: &[0.0], blocks: &[0], rows: &[5, 7] };
    let target = Target { ncol: 1, nrow: 2, first: 5, rows: &[5, 7] };
    assert_eq!(update(&target, &mut panel, &descendant), Ok(()));
    assert_eq!(panel, [6.0, 14.0]);
    let lacking = Target { rows: &[5, 6], ..target };
    let refusal = update(&lacking, &mut panel, &descendant).unwrap_err();
    assert_eq!((refusal.number, refusal.a, refusal.b), (17, 1, 0));
    assert_eq!(panel, [6.0, 14.0]);
}

#[test]
fn entries_are_added_as_listed() {
    let mut panel = [1.0, 0.0, f64::NAN, 8.0];
    let entries = Entries { rows: &[0, 1, 0], cols: &[0, 1, 0], numbers: &[2.0, -8.0, 4.0] };
    assert_eq!(assemble(2, 2, &entries, &mut panel), Ok(()));
    assert_eq!((panel[0], panel[1], panel[3]), (7.0, 0.0, 0.0));
    assert!(panel[2].is_nan());
    assert_eq!(assemble(0, 0, &Entries { rows: &[], cols: &[], numbers: &[] }, &mut []), Ok(()));
}

/// The node is factored, and what that leaves is solved with the right side b.
fn solved(mut call: Call, b: &[f64]) -> Result<Vec<f64>, Refusal> {
    call.run().unwrap();
    with_order(&call, &call.factors.order, b)
}

/// What a factor call left, its order aside, solved with the right side b.
fn with_order(call: &Call, order: &[usize], b: &[f64]) -> Result<Vec<f64>, Refusal> {
    let (f, mut vector) = (&call.factors, b.to_vec());
    let answer = solve(f.d.len(), call.settings.nrow, &f.panel, &f.d, &f.sub, &f.blocks, order, &mut vector);
    assert!(answer.is_ok() || bits(&vector) == bits(b));
    answer.map(|()| vector)
}

#[test]
fn root_nodes_are_solved() {
    assert_eq!(solved(Call::new(2, 2, &[1.0, 2.0, 8.0]), &[5.0, 18.0]), Ok(vec![1.0, 2.0]));
    assert_eq!(solved(Call::new(2, 2, &[0.0, 1.0, 0.0]), &[2.0, 3.0]), Ok(vec![3.0, 2.0]));
    let lifted = Call::new(2, 2, &[0.0, 1.0, 0.0]).lifting(2.0, 2);
    assert_eq!(solved(lifted, &[9.0, 6.0]), Ok(vec![2.0, 1.0]));
    assert_eq!(solved(Call::new(0, 0, &[]), &[]), Ok(vec![]));
}

#[test]
fn solves_that_are_refused() {
    let over_a_tail = solved(Call::new(1, 2, &[4.0, 6.0]), &[1.0]);
    assert_eq!(over_a_tail.map_err(place), Err((1, 0, 0)));
    let infinite = solved(Call::new(2, 2, &[1.0, 2.0, 8.0]), &[5.0, f64::INFINITY]);
    assert_eq!(infinite.map_err(place), Err((27, 1, 0)));
    let mut call = Call::new(2, 2, &[1.0, 2.0, 8.0]);
    call.run().unwrap();
    assert_eq!(with_order(&call, &[0, 0], &[5.0, 18.0]).map_err(place), Err((26, 1, 0)));
}

/// An order and block bytes to LAPACK. A refused call leaves the list as it was.
fn listed(order: &[usize], blocks: &[u8]) -> Result<Vec<i32>, Refusal> {
    let mut list = vec![i32::MIN; order.len()];
    let answer = to_lapack(order.len(), order, blocks, &mut list);
    assert!(answer.is_ok() || list.iter().all(|&p| p == i32::MIN));
    answer.map(|()| list)
}

/// A list from LAPACK. A refused call leaves order and block bytes as they were.
fn read(list: &[i32]) -> Result<(Vec<usize>, Vec<u8>), Refusal> {
    let (mut order, mut blocks) = (vec![usize::MAX; list.len()], vec![0xA5; list.len()]);
    let answer = from_lapack(list.len(), list, &mut order, &mut blocks);
    assert!(answer.is_ok() || (order.iter().all(|&i| i == usize::MAX) && blocks.iter().all(|&b| b == 0xA5)));
    answer.map(|()| (order, blocks))
}

#[test]
fn lists_of_lapack_and_back() {
    let cases: [(&[usize], &[u8], &[i32]); 4] = [
        (&[], &[], &[]),
        (&[2, 0, 1], &[0, 0, 0], &[3, 3, 3]),
        (&[2, 1, 0], &[0, 1, 0], &[3, -3, -3]),
        (&[1, 0, 2], &[0, 1, 0], &[2, -3, -3]),
    ];
    for (order, blocks, list) in cases {
        assert_eq!(listed(order, blocks), Ok(list.to_vec()));
        assert_eq!(read(list), Ok((order.to_vec(), blocks.to_vec())));
    }
}

#[test]
fn lists_that_are_refused() {
    assert_eq!(listed(&[1, 2, 0], &[1, 0, 0]).map_err(place), Err((28, 0, 0)));
    assert_eq!(listed(&[1, 0, 0], &[0, 1, 1]).map_err(place), Err((26, 2, 0)));
    assert_eq!(listed(&[1, 0, 2], &[1, 1, 0]).map_err(place), Err((16, 0, 0)));
    assert_eq!(read(&[-2, -2, -3]).map_err(place), Err((30, 2, 0)));
    assert_eq!(read(&[1, -1, -2]).map_err(place), Err((30, 1, 0)));
    assert_eq!(read(&[3, 1, 3]).map_err(place), Err((29, 1, 0)));
    assert_eq!(read(&[0]).map_err(place), Err((29, 0, 0)));
    assert_eq!(read(&[-1, -1]).map_err(place), Err((29, 0, 0)));
    assert_eq!(read(&[i32::MIN, i32::MIN]).map_err(place), Err((29, 0, 0)));
}

/// Exchanges, and blocks among the 1x1s, in panels of every width: what the factor call leaves has a list, and the list
/// leads back to it. The tail rows are no part of it.
#[test]
fn a_factored_head_has_a_list() {
    let numbers = [0.0, 3.0, -1.0, 7.0, 2.0, -5.0, 0.5, 4.0, -6.0];
    let (ncol, nrow) = (7, 9);
    let (mut with_blocks, mut exchanged) = (0, 0);
    for (nb, first) in (1..=ncol).flat_map(|nb| (0..numbers.len()).map(move |first| (nb, first))) {
        let count = ncol * nrow - ncol * (ncol - 1) / 2;
        let lower: Vec<f64> = (0..count).map(|i| numbers[(first + i * i + i / 3) % numbers.len()]).collect();
        let mut call = Call::wide(ncol, nrow, nb, &lower);
        if call.run().is_err() {
            continue;
        }
        let (order, blocks) = (&call.factors.order[..ncol], &call.factors.blocks[..]);
        let list = listed(order, blocks).expect("a list");
        assert_eq!(read(&list), Ok((order.to_vec(), blocks.to_vec())));
        with_blocks += usize::from(blocks.contains(&1));
        exchanged += usize::from(order.iter().enumerate().any(|(k, &row)| row != k));
    }
    assert!(with_blocks > 9 && exchanged > 9, "with blocks {with_blocks}, exchanged {exchanged}");
}

#[test]
fn the_bounds() {
    let unit = |ncol: usize, nb: usize, limit: usize| -> Call {
        let lower: Vec<f64> =
            (0..ncol).flat_map(|j| (j..ROWS_MAX).map(move |i| if i == j { 1.0 } else { 0.0 })).collect();
        Call::wide(ncol, ROWS_MAX, nb, &lower).lifting(0.5, limit)
    };
    let mut call = unit(COLUMNS_MAX, WIDTH_MAX, LIMIT_MAX);
    assert_eq!(call.run().unwrap().inertia, counts(COLUMNS_MAX, 0, 0));
    unit(COLUMNS_MAX + 1, WIDTH_MAX, LIMIT_MAX).turned_away(1, 0, 0);
    unit(COLUMNS_MAX, WIDTH_MAX + 1, LIMIT_MAX).turned_away(2, 0, 0);
    unit(COLUMNS_MAX, WIDTH_MAX, LIMIT_MAX + 1).turned_away(5, 0, 0);
}

#[test]
fn the_leaves() {
    assert!(leaves::is_finite(f64::MAX) && !leaves::is_finite(f64::NAN) && !leaves::is_finite(f64::INFINITY));
    assert_eq!(leaves::magnitude(-0.0).to_bits(), 0);
    assert_eq!(leaves::square(-3.0), 9.0);
    assert_eq!(leaves::maximum(f64::NAN, -1.0), -1.0);
    assert_eq!(leaves::reciprocal(-4.0), -0.25);
    assert_eq!((leaves::lift(0.5, -0.5), leaves::lift(0.5, -0.0), leaves::lift(0.5, -0.25)), (-0.5, 0.5, -0.5));
    assert_eq!((leaves::sqrt(-0.0).to_bits(), leaves::sqrt(-1.0).is_nan()), ((-0.0_f64).to_bits(), true));
}
