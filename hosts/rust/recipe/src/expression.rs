//! Expressions of the readable notation, by falling precedence: `-x`, `* /`, `+ -`, comparisons, `not`, `and`, `or`.
//!
//! Operators of one precedence group from the left, comparisons do not chain. A minus sign directly before a number
//! belongs to the constant; `-(5)` is the negation of 5.

use crate::lexer::{Cursor, Lexeme, Token};
use crate::names::Names;
use crate::source::{Fault, Position};
use crate::table::{kind, unary, Placed, Record, RECORDS};
use crate::tree::Tree;
use crate::words::quoted;

/// The precedences, as listed above.
pub mod level {
    pub const OR: u8 = 1;
    pub const AND: u8 = 2;
    pub const NOT: u8 = 3;
    pub const COMPARISON: u8 = 4;
    pub const SUM: u8 = 5;
    pub const PRODUCT: u8 = 6;
    pub const MINUS: u8 = 7;
    pub const OPERAND: u8 = 8;
}

/// The operators of kind 11 by their numbers: sign and precedence.
pub const OPERATORS: [(&str, u8); 8] = [
    ("+", level::SUM),
    ("-", level::SUM),
    ("*", level::PRODUCT),
    ("/", level::PRODUCT),
    (LESS.0, level::COMPARISON),
    (EQUAL.0, level::COMPARISON),
    ("and", level::AND),
    ("or", level::OR),
];

/// The comparisons that records have: sign and number.
const LESS: (&str, u8) = ("<", 4);
const EQUAL: (&str, u8) = ("==", 5);

/// Comparisons that are read as others. For all numbers, and where an operand has no value, they mean the same.
const DERIVED: [Derived; 4] = [
    Derived { sign: "<=", number: LESS.1, swapped: true, negated: true },
    Derived { sign: ">", number: LESS.1, swapped: true, negated: false },
    Derived { sign: ">=", number: LESS.1, swapped: false, negated: true },
    Derived { sign: "!=", number: EQUAL.1, swapped: false, negated: true },
];

/// A comparison, by the one of kind 11 that it is read as.
#[derive(Clone, Copy)]
struct Derived {
    sign: &'static str,
    number: u8,
    /// The operands are the other way round.
    swapped: bool,
    /// A `not` encloses it.
    negated: bool,
}

impl Derived {
    fn tree(self, at: Position, left: Tree, right: Tree) -> Tree {
        let (left, right) = if self.swapped { (right, left) } else { (left, right) };
        let comparison = Tree::two(self.number, at, left, right);
        if self.negated {
            Tree::one(unary::NOT, at, comparison)
        } else {
            comparison
        }
    }
}

/// An operator between two operands.
#[derive(Clone, Copy)]
enum Operator {
    /// Of kind 11: number and precedence.
    Own(u8, u8),
    Derived(Derived),
}

impl Operator {
    fn of(sign: &str) -> Option<Operator> {
        let own = (0..).zip(OPERATORS).find(|(_, (own, _))| *own == sign);
        let derived = || DERIVED.into_iter().find(|derived| derived.sign == sign).map(Operator::Derived);
        own.map(|(number, (_, binding))| Operator::Own(number, binding)).or_else(derived)
    }

    fn binding(self) -> u8 {
        match self {
            Operator::Own(_, binding) => binding,
            Operator::Derived(_) => level::COMPARISON,
        }
    }
}

/// Parentheses and signs before an operand may be nested so far. The table's own limit is lower; this one keeps the
/// reader's recursion small on any text.
const NESTING: usize = 100;

/// Reads the expression at the cursor.
pub fn read<'a>(cursor: &mut Cursor<'a, '_>, names: &mut Names<'a>) -> Result<Tree, Fault> {
    Reader { cursor, names, nesting: 0, tokens: 0 }.binary(level::OR)
}

struct Reader<'r, 'a, 'l, 'n> {
    cursor: &'r mut Cursor<'a, 'l>,
    names: &'n mut Names<'a>,
    nesting: usize,
    /// The operands and operators so far; each is a record at least.
    tokens: usize,
}

impl<'a> Reader<'_, 'a, '_, '_> {
    /// An expression of operators that bind as tightly as `least`.
    fn binary(&mut self, least: u8) -> Result<Tree, Fault> {
        let mut left = self.nested(least)?;
        let mut chained = None;
        while let Some(operator) = self.operator().filter(|operator| operator.binding() >= least) {
            let at = self.cursor.at();
            let binding = operator.binding();
            self.cursor.take();
            self.count(at)?;
            let right = self.binary(binding + 1)?;
            left = match operator {
                Operator::Derived(derived) => derived.tree(at, left, right),
                Operator::Own(number, _) if chained == Some(binding) => left.linked(number, at, right),
                Operator::Own(number, _) => Tree::two(number, at, left, right),
            };
            chained = Some(binding);
            self.unchained(binding)?;
        }
        Ok(left)
    }

    fn operator(&self) -> Option<Operator> {
        Operator::of(self.cursor.peek()?.token.text())
    }

    /// Holds a comparison to its two operands.
    fn unchained(&self, binding: u8) -> Result<(), Fault> {
        let next = self.operator().map(Operator::binding);
        if binding == level::COMPARISON && next == Some(level::COMPARISON) {
            return Err(Fault::new(self.cursor.at(), "comparisons do not chain: put one of them in parentheses"));
        }
        Ok(())
    }

    /// Counts an operand or operator.
    fn count(&mut self, at: Position) -> Result<(), Fault> {
        self.tokens += 1;
        if self.tokens > RECORDS {
            return Err(Fault::new(at, format!("the expression is longer than {RECORDS} records")));
        }
        Ok(())
    }

    fn nested(&mut self, least: u8) -> Result<Tree, Fault> {
        if self.nesting > NESTING {
            let sentence = format!("the expression is nested over {NESTING} deep: leave out parentheses");
            return Err(Fault::new(self.cursor.at(), sentence));
        }
        self.nesting += 1;
        let tree = self.prefix(least);
        self.nesting -= 1;
        tree
    }

    /// An operand with the operators before it.
    fn prefix(&mut self, least: u8) -> Result<Tree, Fault> {
        if let Some(not) = self.cursor.accept("not") {
            self.count(not.at)?;
            if least > level::NOT {
                return Err(Fault::new(not.at, "\"not\" binds less tightly here: put it in parentheses"));
            }
            return Ok(Tree::one(unary::NOT, not.at, self.binary(level::NOT)?));
        }
        if let Some(minus) = self.cursor.accept("-") {
            self.count(minus.at)?;
            if let Some((digits, at)) = self.adjacent(minus) {
                return constant(digits, true, minus.at, at);
            }
            return Ok(Tree::one(unary::NEGATION, minus.at, self.nested(level::MINUS)?));
        }
        self.operand()
    }

    /// Takes the number that stands directly behind a minus sign.
    fn adjacent(&mut self, minus: Lexeme) -> Option<(&'a str, Position)> {
        self.cursor.peek().filter(|next| next.at.column == minus.at.column + 1)?;
        self.cursor.number("").ok()
    }

    fn operand(&mut self) -> Result<Tree, Fault> {
        let Some(Lexeme { token, at }) = self.cursor.peek() else {
            return Err(self.cursor.due("an expression"));
        };
        match token {
            Token::Number(digits) => {
                self.count(at)?;
                self.cursor.take();
                constant(digits, false, at, at)
            }
            Token::Sign("(") => {
                self.cursor.take();
                let inner = self.binary(level::OR)?;
                self.cursor.accept(")").ok_or_else(|| self.cursor.due("an operator or \")\""))?;
                Ok(inner)
            }
            Token::Word(word) if word != "and" && word != "or" => {
                self.count(at)?;
                self.cursor.take();
                let record = Record::new(kind::VARIABLE, self.names.read(word, at)?, 0, 0);
                Ok(Tree::operand(Placed { record, at }))
            }
            _ => Err(self.cursor.due("an expression")),
        }
    }
}

/// A constant whose text begins at `at`, with its digits at `digits_at`.
fn constant(digits: &str, negative: bool, at: Position, digits_at: Position) -> Result<Tree, Fault> {
    let size = number(digits, digits_at)?;
    let value = size.and_then(|size| i32::try_from(if negative { -size } else { size }).ok());
    let value = value.ok_or_else(|| {
        let range = if digits.starts_with(HEXADECIMAL) { " (-0x80000000 to 0x7fffffff)" } else { "" };
        Fault::new(at, format!("number out of range: constants are -2147483648 to 2147483647{range}"))
    })?;
    Ok(Tree::operand(Placed { record: Record::new(kind::CONSTANT, 0, 0, value), at }))
}

/// What hexadecimal digits stand behind.
const HEXADECIMAL: &str = "0x";

/// A number of decimal or hexadecimal digits, none where it is far too large.
pub fn number(text: &str, at: Position) -> Result<Option<i64>, Fault> {
    let (digits, radix) = text.strip_prefix(HEXADECIMAL).map_or((text, 10), |digits| (digits, 16));
    if digits.is_empty() || !digits.chars().all(|digit| digit.is_digit(radix)) {
        let sentence = format!("{} is no number: write decimal digits, or hexadecimal ones as 0x1F", quoted(text));
        return Err(Fault::new(at, sentence));
    }
    Ok(i64::from_str_radix(digits, radix).ok())
}

#[cfg(test)]
mod tests {
    use super::*;
    use crate::lexer::lines;

    fn names() -> Names<'static> {
        let mut names = Names::new();
        for (number, name) in (8..).zip(["a", "b", "c", "d", "e", "x", "y"]) {
            names.add_variable(name, number, Position::START).unwrap();
        }
        names
    }

    /// The records of an expression, in the table's own notation.
    fn raw(text: &str) -> String {
        let lines = lines(text);
        let mut cursor = Cursor::new(&lines[0]);
        let tree = read(&mut cursor, &mut names()).unwrap();
        cursor.finish().unwrap();
        let mut records = Vec::new();
        tree.write(&mut records);
        records.iter().map(|placed| placed.record.to_string()).collect::<Vec<_>>().join(" ")
    }

    fn fault(text: &str) -> (usize, String) {
        let lines = lines(text);
        let fault = read(&mut Cursor::new(&lines[0]), &mut names()).unwrap_err();
        (fault.at.column, fault.sentence)
    }

    #[test]
    fn precedences_are_the_usual() {
        assert_eq!(raw("1+2*3"), raw("1 + (2 * 3)"));
        assert_eq!(raw("1-2-3"), raw("(1 - 2) - 3"));
        assert_eq!(raw("8/2*3"), raw("(8 / 2) * 3"));
        assert_eq!(raw("-x*y"), raw("(-x) * y"));
        assert_eq!(raw("a<b+1 and not c==d or e"), raw("((a < (b+1)) and (not (c == d))) or e"));
        assert_eq!(raw("not not a"), "12(1,2,0) 12(1,1,0) 10(8,0,0)");
        assert_eq!(raw("1-2"), "11(1,2,0) 9(0,0,1) 9(0,0,2)");
    }

    #[test]
    fn a_minus_before_a_number_belongs_to_it() {
        assert_eq!(raw("-5"), "9(0,0,-5)");
        assert_eq!(raw("-2147483648"), "9(0,0,-2147483648)");
        assert_eq!(raw("-(5)"), "12(0,1,0) 9(0,0,5)");
        assert_eq!(raw("- 5"), "12(0,1,0) 9(0,0,5)");
        assert_eq!(raw("--5"), "12(0,1,0) 9(0,0,-5)");
        assert_eq!(raw("1 -5"), "11(1,2,0) 9(0,0,1) 9(0,0,5)");
        assert_eq!(raw("1--5"), "11(1,2,0) 9(0,0,1) 9(0,0,-5)");
    }

    #[test]
    fn other_comparisons_are_read_as_those_of_records() {
        assert_eq!(raw("a <= b"), "12(1,3,0) 11(4,2,0) 10(9,0,0) 10(8,0,0)");
        assert_eq!(raw("1 <= 2"), raw("not (2 < 1)"));
        assert_eq!(raw("1 > 2"), raw("2 < 1"));
        assert_eq!(raw("1 >= 2"), raw("not (1 < 2)"));
        assert_eq!(raw("1 != 2"), raw("not (1 == 2)"));
        assert_eq!(raw("1 + 2 <= 3 and 4"), raw("(not (3 < (1 + 2))) and 4"));
        assert_eq!(raw("1 + (2 <= 3)"), raw("1 + (not (3 < 2))"));
        assert_eq!(raw("not 1 >= 2 or 3 != 4"), raw("(not (not (1 < 2))) or (not (3 == 4))"));
        for chain in ["1 <= 2 == 3", "1 < 2 >= 3", "1 != 2 != 3", "1 > 2 > 3"] {
            assert!(fault(chain).1.contains("do not chain"), "{chain}");
        }
    }

    #[test]
    fn numbers_may_be_hexadecimal() {
        assert_eq!(raw("0x1F"), "9(0,0,31)");
        assert_eq!(raw("0x0"), "9(0,0,0)");
        assert_eq!(raw("0x0000000000007fffFFFF"), "9(0,0,2147483647)");
        assert_eq!(raw("-0x80000000"), "9(0,0,-2147483648)");
        assert_eq!(raw("- 0x1"), "12(0,1,0) 9(0,0,1)");
        for large in ["0x80000000", "-0x80000001", "0xffffffffffffffffffff"] {
            assert_eq!(fault(large).0, 1);
            assert!(fault(large).1.contains("-0x80000000 to 0x7fffffff"), "{large}");
        }
        for wrong in ["0x", "0x1G", "0X1F", "1F", "1_000", "0b1"] {
            assert!(fault(wrong).1.contains("is no number"), "{wrong}");
        }
    }

    #[test]
    fn faults_are_told_where_they_are() {
        assert_eq!(fault("1 < 2 < 3").0, 7);
        assert_eq!(fault("1 + not 2").0, 5);
        assert_eq!(fault("(1 + 2").0, 7);
        assert_eq!(fault("1 +").0, 4);
        assert_eq!(fault("1 + )").0, 5);
        assert_eq!(fault("and 1").0, 1);
        assert_eq!(fault("1 + 2147483648").0, 5);
        assert_eq!(fault("1 + -2147483649").0, 5);
        assert_eq!(fault("1 + 99999999999999999999").0, 5);
        assert!(fault("12ab").1.contains("is no number"));
    }

    #[test]
    fn any_nesting_and_length_is_survived() {
        let within = |count: usize| format!("{}1{}", "(".repeat(count), ")".repeat(count));
        assert_eq!(raw(&within(NESTING)), "9(0,0,1)");
        assert!(fault(&within(NESTING + 1)).1.contains("nested over 100 deep: leave out parentheses"));
        assert!(fault(&"(".repeat(100_000)).1.contains("nested"));
        assert!(fault(&"-".repeat(100_000)).1.contains("nested"));
        assert!(fault(&"not ".repeat(100_000)).1.contains("nested"));
        assert!(fault(&format!("1{}", "+1".repeat(100_000))).1.contains("longer"));
    }
}
