//! "Values": 32-bit arithmetic that stops at the ends of the range, and the value of an expression.

use crate::table::Node;

/// The shared variables, names 0 to 63; name 64 is the task's own parameter.
pub const VARIABLES: usize = 64;
pub type Variables = [i32; VARIABLES];

/// What an expression's value is worked out from: the table, the variables and the task's parameter.
pub struct Context<'a> {
    pub nodes: &'a [Node],
    pub variables: &'a Variables,
    pub parameter: i32,
}

impl Context<'_> {
    /// The value of the expression at an index, if it has one. A constant and a read, which always have, are worked out
    /// in place, without a call.
    #[inline]
    pub fn value(&self, at: usize) -> Option<i32> {
        match self.nodes.get(at) {
            Some(&Node::Constant(value)) => Some(value),
            Some(&Node::Read { name }) => Some(self.read(name)),
            _ => self.operation(at),
        }
    }

    /// The value of an operator, by recursion over its operands. "An operand without a value leaves none" (request 2.2
    /// of document 02), whatever the operator and the other operand.
    fn operation(&self, at: usize) -> Option<i32> {
        match self.nodes.get(at) {
            Some(&Node::TwoOperands { operator, second }) => {
                let a = self.value(at + 1)?;
                let b = self.value(usize::from(second))?;
                two_operands(operator, a, b)
            }
            Some(&Node::OneOperand { operator }) => Some(one_operand(operator, self.value(at + 1)?)),
            _ => None,
        }
    }

    /// What a task reads under a name.
    #[inline]
    pub fn read(&self, name: u8) -> i32 {
        self.variables.get(usize::from(name)).copied().unwrap_or(self.parameter)
    }
}

/// The operators of kind 11. "An exact result outside the range becomes the nearer end." "A quotient by 0 has none."
#[inline]
fn two_operands(operator: u8, a: i32, b: i32) -> Option<i32> {
    Some(match operator {
        0 => a.saturating_add(b),
        1 => a.saturating_sub(b),
        2 => a.saturating_mul(b),
        3 if b == 0 => return None,
        3 => a.saturating_div(b),
        4 => i32::from(a < b),
        5 => i32::from(a == b),
        6 => i32::from(a != 0 && b != 0),
        _ => i32::from(a != 0 || b != 0),
    })
}

/// The operators of kind 12: 0 negation, 1 not.
fn one_operand(operator: u8, a: i32) -> i32 {
    match operator {
        0 => a.saturating_neg(),
        _ => i32::from(a == 0),
    }
}

#[cfg(test)]
mod tests {
    use super::*;

    #[test]
    fn rows_of_the_trial_press() {
        assert_eq!(two_operands(0, i32::MAX, 1), Some(i32::MAX));
        assert_eq!(two_operands(3, -7, 2), Some(-3));
        assert_eq!(two_operands(3, i32::MIN, -1), Some(i32::MAX));
        assert_eq!(two_operands(3, 5, 0), None);
    }

    /// The exact result through 64 bits, held to the range; none of a quotient by 0.
    fn exact(operator: u8, a: i32, b: i32) -> Option<i32> {
        let (x, y) = (i64::from(a), i64::from(b));
        let result = match operator {
            0 => x + y,
            1 => x - y,
            2 => x * y,
            _ => x.checked_div(y)?,
        };
        Some(i32::try_from(result).unwrap_or(if result < 0 { i32::MIN } else { i32::MAX }))
    }

    #[test]
    fn results_stop_at_the_nearer_end() {
        let ends = [i32::MIN, i32::MIN + 1, -46_341, -7, -1, 0, 1, 2, 46_341, i32::MAX - 1, i32::MAX];
        for a in ends {
            assert_eq!(Some(one_operand(0, a)), exact(1, 0, a));
            for b in ends {
                for operator in 0..4 {
                    assert_eq!(two_operands(operator, a, b), exact(operator, a, b), "{a} {operator} {b}");
                }
            }
        }
    }

    /// The value of an expression of these nodes, with every variable and the parameter 0.
    fn value(nodes: &[Node]) -> Option<i32> {
        Context { nodes, variables: &[0; VARIABLES], parameter: 0 }.value(0)
    }

    /// 1 by the parameter, as it stands at an index.
    fn quotient(at: u16) -> [Node; 3] {
        [Node::TwoOperands { operator: 3, second: at + 2 }, Node::Constant(1), Node::Read { name: 64 }]
    }

    #[test]
    fn an_operand_without_a_value_leaves_none() {
        assert_eq!(value(&quotient(0)), None);
        for operator in 0..8 {
            for other in [-1, 0, 1].map(Node::Constant) {
                let first = [&[Node::TwoOperands { operator, second: 4 }], &quotient(1)[..], &[other]].concat();
                let second = [&[Node::TwoOperands { operator, second: 2 }, other], &quotient(2)[..]].concat();
                assert_eq!((value(&first), value(&second)), (None, None), "{operator}");
            }
        }
        for operator in 0..2 {
            assert_eq!(value(&[&[Node::OneOperand { operator }], &quotient(1)[..]].concat()), None, "{operator}");
        }
    }
}
