//! Expressions as trees: how deep they are, how long chains are grouped, and the records that they become.

use std::iter::Peekable;
use std::vec::IntoIter;

use crate::expression::{level, OPERATORS};
use crate::source::{Fault, Position};
use crate::table::{kind, Placed, Record, DEPTH};
use crate::words::quoted;

/// An expression.
#[derive(Debug)]
pub struct Tree {
    shape: Shape,
    /// How many operators enclose its deepest operand.
    height: usize,
    /// Its records.
    size: usize,
}

#[derive(Debug)]
enum Shape {
    Operand(Placed),
    One {
        operator: u8,
        at: Position,
        operand: Box<Tree>,
    },
    /// Operands with operators of one precedence between them, grouped from the left.
    Chain {
        first: Box<Tree>,
        links: Vec<Link>,
    },
}

#[derive(Debug)]
struct Link {
    operator: u8,
    at: Position,
    right: Tree,
}

impl Tree {
    pub fn operand(placed: Placed) -> Tree {
        Tree { shape: Shape::Operand(placed), height: 0, size: 1 }
    }

    /// An operator of kind 12 before its operand.
    pub fn one(operator: u8, at: Position, operand: Tree) -> Tree {
        let (height, size) = (operand.height + 1, operand.size + 1);
        Tree { shape: Shape::One { operator, at, operand: Box::new(operand) }, height, size }
    }

    /// An operator of kind 11 between its operands.
    pub fn two(operator: u8, at: Position, left: Tree, right: Tree) -> Tree {
        let height = left.height.max(right.height) + 1;
        let size = left.size + right.size + 1;
        let links = vec![Link { operator, at, right }];
        Tree { shape: Shape::Chain { first: Box::new(left), links }, height, size }
    }

    /// A chain with one operand more.
    pub fn linked(mut self, operator: u8, at: Position, right: Tree) -> Tree {
        match &mut self.shape {
            Shape::Chain { links, .. } => {
                self.height = self.height.max(right.height) + 1;
                self.size += right.size + 1;
                links.push(Link { operator, at, right });
                self
            }
            _ => Tree::two(operator, at, self, right),
        }
    }

    /// How many records it becomes.
    pub fn size(&self) -> usize {
        self.size
    }

    /// The expression of a statement, by its kind, within a height: as it is if it fits, else with its chains of `and`
    /// and `or` grouped anew.
    ///
    /// Those two give 1 or 0 by the truth of all their operands, and no value where one has none: any grouping gives
    /// the same. The other operators stop at the ends of the range and keep theirs.
    pub fn within(self, height: usize, statement: u8) -> Result<Tree, Fault> {
        if self.height <= height {
            return Ok(self);
        }
        let tree = self.balanced();
        if tree.height <= height {
            Ok(tree)
        } else {
            Err(tree.too_deep(height, statement))
        }
    }

    /// The expression with each chain of `and` or `or` as low as it can be.
    fn balanced(self) -> Tree {
        match self.shape {
            Shape::Operand(_) => self,
            Shape::One { operator, at, operand } => Tree::one(operator, at, operand.balanced()),
            Shape::Chain { first, links } => {
                let links = links.into_iter().map(|link| Link { right: link.right.balanced(), ..link }).collect();
                chain(first.balanced(), links)
            }
        }
    }

    /// The fault of an expression over a height, where the text gets there.
    fn too_deep(&self, height: usize, statement: u8) -> Fault {
        match &self.shape {
            Shape::Operand(placed) => Fault::new(placed.at, "the depth is over 16 here"),
            Shape::One { operand, .. } if height > 0 && operand.height >= height => {
                operand.too_deep(height - 1, statement)
            }
            Shape::One { at, .. } => nested(*at, statement),
            Shape::Chain { first, .. } if height > 0 && first.height >= height => first.too_deep(height - 1, statement),
            Shape::Chain { first, links } => link_too_deep(first, links, height, statement),
        }
    }

    /// Writes the records behind those given.
    pub fn write(&self, records: &mut Vec<Placed>) {
        match &self.shape {
            Shape::Operand(placed) => records.push(*placed),
            Shape::One { operator, at, operand } => {
                records.push(enclosing(kind::UNARY, *operator, operand.size, *at));
                operand.write(records);
            }
            Shape::Chain { first, links } => {
                operators(links, self.size - 1, records);
                first.write(records);
                links.iter().for_each(|link| link.right.write(records));
            }
        }
    }
}

/// The operators of a chain, the last first: it encloses all the others.
fn operators(links: &[Link], enclosed: usize, records: &mut Vec<Placed>) {
    let mut span = enclosed;
    for link in links.iter().rev() {
        records.push(enclosing(kind::BINARY, link.operator, span, link.at));
        span = span.saturating_sub(link.right.size + 1);
    }
}

fn enclosing(kind: u8, operator: u8, span: usize, at: Position) -> Placed {
    // The table's length keeps it within the field.
    Placed { record: Record::new(kind, operator, u16::try_from(span).unwrap_or(u16::MAX), 0), at }
}

/// A chain of operands that are balanced, grouped anew if that changes no value, else from the left.
fn chain(first: Tree, links: Vec<Link>) -> Tree {
    let height = least_height(&first, &links).unwrap_or_default();
    let mut links = links.into_iter().peekable();
    let tree = fill(first, &mut links, height);
    match links.next() {
        Some(Link { operator, at, right }) => {
            let two = Tree::two(operator, at, tree, right);
            links.fold(two, |tree, Link { operator, at, right }| tree.linked(operator, at, right))
        }
        None => tree,
    }
}

/// The least height of a chain that can be grouped anew.
fn least_height(first: &Tree, links: &[Link]) -> Option<usize> {
    links.first().filter(|link| regroups(link.operator))?;
    let heights = [first.height].into_iter().chain(links.iter().map(|link| link.right.height));
    // An operand over the limit makes the fault, and stays at the top where that is found.
    let heights: Vec<usize> = heights.map(|height| height.min(DEPTH)).collect();
    (0..=2 * DEPTH).find(|height| fitting(&heights, *height) == heights.len())
}

/// Whether chains of an operator of kind 11 give the same in any grouping.
fn regroups(operator: u8) -> bool {
    let binding = OPERATORS.get(usize::from(operator)).map(|(_, binding)| *binding);
    binding == Some(level::AND) || binding == Some(level::OR)
}

/// How many operands of these heights, from the first on, fit into a tree of a height.
fn fitting(heights: &[usize], height: usize) -> usize {
    match heights.first() {
        Some(first) if *first < height => {
            let left = fitting(heights, height - 1);
            left + fitting(heights.get(left..).unwrap_or_default(), height - 1)
        }
        Some(first) => usize::from(*first == height),
        None => 0,
    }
}

/// Groups an operand with as many of those behind it as fit into a tree of a height; they are taken.
fn fill(first: Tree, links: &mut Peekable<IntoIter<Link>>, height: usize) -> Tree {
    if first.height >= height {
        return first;
    }
    let left = fill(first, links, height - 1);
    match links.next_if(|link| link.right.height < height) {
        Some(Link { operator, at, right }) => Tree::two(operator, at, left, fill(right, links, height - 1)),
        None => left,
    }
}

/// The fault of a chain over a height, at the operator that gets there, or within the operand that does.
fn link_too_deep(first: &Tree, links: &[Link], height: usize, statement: u8) -> Fault {
    let mut reached = first.height;
    for link in links {
        if height > 0 && link.right.height >= height {
            return link.right.too_deep(height - 1, statement);
        }
        reached = reached.max(link.right.height) + 1;
        if reached > height {
            return at_operator(link, links.len() > 1 && height > 0, statement);
        }
    }
    // Not met: the chain is over the height.
    Fault::new(Position::START, "the depth is over 16")
}

fn at_operator(link: &Link, in_chain: bool, statement: u8) -> Fault {
    let (sign, binding) = OPERATORS.get(usize::from(link.operator)).copied().unwrap_or_default();
    if in_chain && (binding == level::SUM || binding == level::PRODUCT) {
        let shown = quoted(sign);
        let part = part_before(statement);
        let sentence = format!(
            "the depth is over 16 at this {shown}: a chain of + - * / is grouped from the left, one deeper for each \
             operator, and not otherwise, as arithmetic stops at the ends of the range and another grouping could \
             give another value; group it with parentheses, \"(a + b) + (c + d)\"{part}"
        );
        return Fault::new(link.at, sentence);
    }
    nested(link.at, statement)
}

fn nested(at: Position, statement: u8) -> Fault {
    let part = part_before(statement);
    let sentence = format!(
        "the depth is over 16 at this operator: bodies and expressions count together; group the expression with \
         parentheses, or write the statements of an inner body as a procedure that is spawned and awaited{part}"
    );
    Fault::new(at, sentence)
}

/// What is said of a part of the expression that is set before the statement. The test of a while or guard is worked
/// out again and again, and what is set before it is not.
fn part_before(statement: u8) -> &'static str {
    match statement {
        kind::WHILE => ", or set a part to a variable before and set it again in the body",
        kind::GUARD => " (a part set before would not be worked out anew at each test)",
        _ => ", or set a part in a statement before",
    }
}

#[cfg(test)]
mod tests {
    use super::*;

    fn operand(value: i32) -> Tree {
        Tree::operand(Placed { record: Record::new(kind::CONSTANT, 0, 0, value), at: Position::START })
    }

    fn chained(operator: u8, count: i32) -> Tree {
        (1..count).fold(operand(0), |tree, value| tree.linked(operator, Position::START, operand(value)))
    }

    fn values(tree: &Tree) -> Vec<i32> {
        let mut records = Vec::new();
        tree.write(&mut records);
        assert_eq!(records.len(), tree.size());
        records.iter().filter(|placed| placed.record.kind == kind::CONSTANT).map(|p| p.record.value).collect()
    }

    #[test]
    fn chains_that_fit_stay_as_they_are() {
        let tree = chained(6, 5).within(4, kind::SET).unwrap();
        assert!(matches!(tree.shape, Shape::Chain { links, .. } if links.len() == 4));
    }

    #[test]
    fn longer_chains_are_as_low_as_can_be() {
        for count in 2..70 {
            let tree = chained(7, count).balanced();
            assert_eq!(values(&tree), (0..count).collect::<Vec<_>>());
            assert_eq!(1 << tree.height, (count as usize).next_power_of_two(), "{count}");
        }
    }

    #[test]
    fn a_high_operand_stays_near_the_top() {
        let high = (0..10).fold(operand(100), |tree, _| Tree::one(1, Position::START, tree));
        for before in 0..20 {
            let left = (1..=before).fold(operand(0), |tree, value| tree.linked(6, Position::START, operand(value)));
            let high = (0..10).fold(operand(100), |tree, _| Tree::one(1, Position::START, tree));
            assert!(left.linked(6, Position::START, high).balanced().height <= 12);
        }
        let tree = (1..20).fold(high, |tree, value| tree.linked(6, Position::START, operand(value)));
        assert_eq!(tree.balanced().height, 11);
    }

    #[test]
    fn sums_are_not_regrouped() {
        assert_eq!(chained(0, 16).balanced().height, 15);
        assert!(chained(0, 16).within(14, kind::SET).unwrap_err().sentence.contains("at this \"+\""));
    }
}
