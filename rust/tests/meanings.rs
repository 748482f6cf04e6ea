//! The meanings are those of docs/SCOPE.md, and there is a refusal for each of its numbers.

use basilvault::Refusal;

#[test]
fn meanings_are_those_of_the_scope() {
    let scope = std::fs::read_to_string("../docs/SCOPE.md").expect("the crate stands in its repository");
    let listed = scope.split_once("## Refusals").expect("the refusals have a section").1.split_once("\n## ").expect("and another follows").0;
    let mut rows: Vec<(u8, &str)> = listed
        .lines()
        .filter_map(|line| line.strip_prefix("| ")?.strip_suffix(" |")?.split_once(" | "))
        .filter_map(|(number, meaning)| Some((number.parse().ok()?, meaning)))
        .collect();
    rows.sort();
    let ours: Vec<(u8, &str)> = Refusal::ALL.iter().map(|refusal| (refusal.number(), refusal.meaning())).collect();
    assert_eq!(ours, rows);
}

#[test]
fn numbers_and_refusals_are_one_to_one() {
    for number in 0..=u8::MAX {
        match Refusal::try_from(number) {
            Ok(refusal) => assert_eq!((u8::from(refusal), u32::from(refusal)), (number, number.into())),
            Err(none) => assert_eq!(none.0, number.into()),
        }
    }
    let numbers: Vec<u8> = Refusal::ALL.iter().map(|refusal| refusal.number()).collect();
    assert_eq!(numbers, (1..=8).chain(10..=22).chain(30..=40).collect::<Vec<u8>>());
    assert!(Refusal::try_from(257u32).is_err());
}
