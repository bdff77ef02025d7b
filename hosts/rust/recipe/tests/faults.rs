//! Faults of a text: where they are and what is said.

use recipe::asm::assemble;
use recipe::source::{Fault, Position};

/// A text, the line and column of its fault, and a part of the sentence.
const FAULTS: &[(&str, usize, usize, &str)] = &[
    ("", 1, 1, "no procedure"),
    ("# only a comment\n", 1, 1, "no procedure"),
    ("variable x 9\n", 1, 1, "no procedure"),
    ("skip", 1, 1, "indented under a procedure"),
    ("  procedure main", 1, 3, "bad indentation"),
    ("procedure main\n    skip\n      skip", 3, 7, "4 spaces"),
    ("procedure main\n    skip\n  skip", 3, 3, "4 spaces"),
    ("procedure main\n    if 1\n        skip\n      skip", 4, 7, "8 spaces"),
    ("procedure main\n\tskip", 2, 1, "tab"),
    ("procedure main\n    skip\nskip", 3, 1, "bad indentation"),
    ("procedure main\n  procedure other", 2, 3, "bad indentation"),
    ("procedure main\n  variable x 9", 2, 3, "bad indentation"),
    ("procedure main\n  skip\nvariable x 9\n  skip", 4, 3, "indented under a procedure"),
    ("procedure main\n  spawn x press 5", 2, 11, "no procedure \"press\""),
    ("procedure main\n  spawn x x 5", 2, 11, "name of a variable"),
    ("procedure main\n  spawn valve3 main 5", 2, 9, "valve"),
    ("variable tap 7\nprocedure main\n  spawn tap main 5", 3, 9, "valve"),
    ("procedure main\n  spawn x main", 2, 15, "the line ends"),
    ("procedure main\n  spawn 8 main 1", 2, 9, "the name of a variable is due"),
    ("procedure main\n  set x 2147483648", 2, 9, "number out of range"),
    ("procedure main\n  set x -2147483649", 2, 9, "number out of range"),
    ("procedure main\n  set x 1 2", 2, 11, "should end"),
    ("procedure main\n  set x (1", 2, 11, "is due here"),
    ("procedure main\n  set x 1 +", 2, 12, "an expression is due"),
    ("procedure main\n  set x = 1", 2, 9, "=="),
    ("procedure main\n  set x 1 % 2", 2, 11, "a - a / b * b"),
    ("procedure main\n  set and 1", 2, 7, "word of the notation"),
    ("procedure main\n  set x while", 2, 9, "word of the notation"),
    ("procedure main\n  if 1:", 2, 7, "indentation"),
    ("procedure main\n  set valve8 1", 2, 7, "valve0 to valve7"),
    ("procedure main\n  skip skip", 2, 8, "should end"),
    ("procedure main\n  open valve0", 2, 3, "no statement"),
    ("procedure main\n  else", 2, 3, "no \"else\""),
    ("procedure main\n  5", 2, 3, "is due here"),
    ("procedure main\n  await", 2, 8, "the line ends"),
    ("procedure main\n  await main", 2, 9, "procedure"),
    ("procedure main\n  guard", 2, 8, "an expression is due"),
    ("procedure main\n  guard 1 x", 2, 11, "should end"),
    ("procedure main\n  guard 1\n    skip", 3, 5, "no body"),
    ("procedure main\n  set x guard", 2, 9, "word of the notation"),
    ("procedure", 1, 10, "name"),
    ("procedure main p q", 1, 18, "should end"),
    ("procedure if", 1, 11, "word of the notation"),
    ("procedure a\nprocedure a", 2, 11, "already"),
    ("procedure a\nprocedure main", 2, 11, "first procedure"),
    ("procedure a\nprocedure b a", 2, 13, "already"),
    ("procedure a x\n  skip\nprocedure b\n  set x 1", 4, 7, "another procedure"),
    ("procedure a x\n  set parameter 1", 2, 7, "\"x\""),
    ("variable x 64\nprocedure main", 1, 12, "0 to 63"),
    ("variable x -1\nprocedure main", 1, 12, "number is due"),
    ("variable x 9\nvariable y 9\nprocedure main", 2, 10, "already"),
    ("variable x 9\nvariable x 10\nprocedure main", 2, 10, "already"),
    ("variable valve1 9\nprocedure main", 1, 10, "valve"),
    ("1(0,1,0)\n  9(0,0,1)", 2, 3, "refused 12 at record 1"),
    ("1(0,1,0)\n  3(0,0,0)", 2, 3, "refused 13 at record 1"),
    ("1(0,3,0) 3(0,2,0)\n  13(0,1,0) 9(0,0,1)", 2, 3, "refused 12 at record 2"),
    ("1(0,3,0) 13(0,2,0)\n  9(0,0,1) 2(0,0,0)", 2, 3, "refused 13 at record 2"),
    ("1(0,1,0) 8(65,0,0)", 1, 10, "refused 14 at record 1"),
    ("1(0,1,0) 2(0,0,-1)", 1, 10, "refused 15 at record 1"),
    ("1(0,2,0) 6(8,1,1)\n9(0,0,1)", 1, 10, "refused 17 at record 1"),
    ("1(0,1,0) 9", 1, 11, "\"(\" is due"),
];

#[test]
fn faults_are_placed() {
    for (text, line, column, part) in FAULTS {
        let fault = only(text);
        assert_eq!(fault.at, Position { line: *line, column: *column }, "{text}: {}", fault.sentence);
        assert!(fault.sentence.contains(part), "{text}: {}", fault.sentence);
    }
}

/// The only fault of a text.
fn only(text: &str) -> Fault {
    let faults = assemble(text).unwrap_err();
    let [fault] = faults.told() else {
        panic!("{faults:?}");
    };
    fault.clone()
}

#[test]
fn depth_over_16_is_placed() {
    let nested = |count: usize| -> String {
        let ifs: String = (1..=count).map(|depth| format!("{}if 1\n", " ".repeat(depth))).collect();
        format!("procedure main\n{ifs}")
    };
    assert!(assemble(&nested(15)).is_ok());
    // The innermost test is at depth 17.
    let fault = only(&nested(16));
    assert_eq!(fault.at, Position { line: 17, column: 20 });
    assert!(fault.sentence.contains("depth is over 16"), "{}", fault.sentence);
    let fault = only(&format!("procedure main\n  set x 1{}", " + 1".repeat(15)));
    assert!(fault.sentence.contains("depth is over 16"), "{}", fault.sentence);
    assert_eq!(fault.at, Position { line: 2, column: 67 });
}

#[test]
fn too_many_are_placed() {
    let variables: String = (0..57).map(|number| format!("  set x{number} 1\n")).collect();
    let fault = only(&format!("procedure main\n{variables}"));
    assert_eq!(fault.at, Position { line: 58, column: 7 });
    assert!(fault.sentence.contains("too many variables"));
    let fault = only(&format!("procedure main\n{}", "  skip\n".repeat(4_096)));
    assert_eq!(fault.at, Position { line: 4_097, column: 3 });
    let fault = only(&"1(0,0,0)\n".repeat(4_097));
    assert_eq!(fault.at, Position { line: 4_097, column: 1 });
    let procedures: String = (1..=256).map(|number| format!("procedure q{number}\n")).collect();
    assert!(assemble(&format!("procedure main\n  spawn x q255 1\n{procedures}")).is_ok());
    let fault = only(&format!("procedure main\n  spawn x q256 1\n{procedures}"));
    assert_eq!(fault.at, Position { line: 2, column: 11 });
    assert!(fault.sentence.contains("only 0 to 255"));
}
