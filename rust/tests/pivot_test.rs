//! The test numbers as a type: the numbers and words of docs/SCOPE.md, "The pivot tests", and bytes that are no number.

use misuktaan::PivotTest;

const ALL: [(u8, PivotTest, &str); 5] = [
    (0, PivotTest::ZeroColumn, "zero column"),
    (1, PivotTest::OwnDiagonal, "own diagonal"),
    (2, PivotTest::RowTest, "row test"),
    (3, PivotTest::ExchangedDiagonal, "exchanged diagonal"),
    (4, PivotTest::Block, "block"),
];

#[test]
fn numbers_and_words() {
    for (number, test, words) in ALL {
        assert_eq!((test.number(), PivotTest::from_number(number)), (number, Some(test)));
        assert_eq!(test.to_string(), words);
    }
}

#[test]
fn a_byte_that_is_no_number() {
    assert!((5..=u8::MAX).all(|byte| PivotTest::from_number(byte).is_none()));
}

#[test]
fn words_are_padded() {
    assert_eq!(format!("{:<12}|{:>6}", PivotTest::OwnDiagonal, PivotTest::Block), "own diagonal| block");
}
