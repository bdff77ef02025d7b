//! "The recipe table": records of 8 bytes, read once into one node a record.

/// Why a call is refused: a number of the published list, and the faulty record.
#[derive(Clone, Copy, Debug, PartialEq, Eq)]
pub struct Fault {
    pub number: u16,
    pub place: u16,
}

impl Fault {
    /// The number, and "the faulty record; 0 where none is named".
    pub fn at(number: u16, place: usize) -> Fault {
        Fault { number, place: place as u16 }
    }

    /// "A procedure, statement or expression was due and the kind is another."
    fn kind(place: usize) -> Fault {
        Fault::at(12, place)
    }
}

/// The most records of a table.
const RECORDS: usize = 4_096;
/// "An expression may hold expressions, to depth 16."
const DEPTH: u32 = 16;
/// "Names 0–63 are shared variables, of which 0–7 are valves."
const VALVES: u8 = 8;

/// A row of the table of kinds: names, what is enclosed, values; the ranges hold their last value too.
struct Row {
    names: (u8, u8),
    encloses: Encloses,
    values: Values,
}

/// What a record encloses.
#[derive(Clone, Copy, PartialEq, Eq)]
enum Encloses {
    Nothing,
    /// So many records or more.
    Least(u16),
}

/// "The value field is 0 except in kinds 6 and 9", where it is a procedure's number, 0 to 255, or any value.
#[derive(Clone, Copy, PartialEq, Eq)]
enum Values {
    Zero,
    Byte,
    Any,
}

/// A row as the document writes it.
const fn row(names: (u8, u8), encloses: Encloses, values: Values) -> Row {
    Row { names, encloses, values }
}

const NOTHING: Encloses = Encloses::Nothing;
const ANY: Encloses = Encloses::Least(0);
const ONE: Encloses = Encloses::Least(1);
const TWO: Encloses = Encloses::Least(2);

/// Kinds 1 to 13.
const ROWS: [Row; 13] = [
    row((0, 0), ANY, Values::Zero),
    row((0, 0), NOTHING, Values::Zero),
    row((0, 64), ONE, Values::Zero),
    row((0, 0), ONE, Values::Zero),
    row((0, 0), ONE, Values::Zero),
    row((8, 64), ONE, Values::Byte),
    row((0, 0), NOTHING, Values::Zero),
    row((0, 64), NOTHING, Values::Zero),
    row((0, 0), NOTHING, Values::Any),
    row((0, 64), NOTHING, Values::Zero),
    row((0, 7), TWO, Values::Zero),
    row((0, 1), ONE, Values::Zero),
    row((0, 0), ONE, Values::Zero),
];

/// What stands at a record. A statement knows the places that it leads to; its expression, and the first operand of an
/// operator, stand right after it.
///
/// End is a procedure's record or the table's end: as a place, "at the end" of the procedure before it. Set is of names
/// 8 to 64, Valve of names 0 to 7. Test is an if or a while: where a true test leads, and where another does.
#[derive(Clone, Copy, Debug, PartialEq, Eq)]
pub enum Node {
    End,
    Skip { next: u16 },
    Set { name: u8, next: u16 },
    Valve { name: u8, next: u16 },
    Test { yes: u16, no: u16 },
    Spawn { name: u8, procedure: u8, next: u16 },
    Suspend { next: u16 },
    Await { name: u8, next: u16 },
    Guard { next: u16 },
    Constant(i32),
    Read { name: u8 },
    TwoOperands { operator: u8, second: u16 },
    OneOperand { operator: u8 },
}

/// A checked table.
pub struct Recipe {
    /// One node a record, and one for the place after the last record.
    nodes: Vec<Node>,
    /// The place of each procedure's first statement.
    entries: Vec<u16>,
}

impl Recipe {
    /// Checks and reads a table. "The earliest faulty record decides ..; 17 only when all records pass."
    pub fn read(table: &[u8]) -> Result<Recipe, Fault> {
        let (records, rest) = table.as_chunks();
        if records.is_empty() || !rest.is_empty() || records.len() > RECORDS {
            return Err(Fault::at(11, 0));
        }
        let mut reader = Reader { records, nodes: vec![Node::End; records.len() + 1], entries: Vec::new(), highest: 0 };
        reader.procedures()?;
        reader.spawns()?;
        Ok(Recipe { nodes: reader.nodes, entries: reader.entries })
    }

    /// The node at a place; past the table there is nothing to do.
    #[inline]
    pub fn at(&self, place: u16) -> Node {
        self.nodes.get(usize::from(place)).copied().unwrap_or(Node::End)
    }

    /// All nodes, for the recursion over an expression's records.
    pub fn nodes(&self) -> &[Node] {
        &self.nodes
    }

    /// Where a task of this procedure begins.
    pub fn entry(&self, procedure: u8) -> u16 {
        self.entries.get(usize::from(procedure)).copied().unwrap_or(0)
    }

    /// "A place is the index of a task's next statement, or of the record after its procedure's last." Index 0 is
    /// neither: it is the main procedure's own record.
    pub fn is_place(&self, index: u16) -> bool {
        let node = self.nodes.get(usize::from(index));
        let expression = matches!(
            node,
            Some(Node::Constant(_) | Node::Read { .. } | Node::TwoOperands { .. } | Node::OneOperand { .. })
        );
        index > 0 && node.is_some() && !expression
    }
}

/// Where what a record encloses may end.
#[derive(Clone, Copy)]
struct Ends {
    least: usize,
    most: usize,
}

impl Ends {
    /// A procedure, a statement, a test: not "over the enclosing end".
    fn within(end: usize) -> Ends {
        Ends { least: 0, most: end }
    }

    /// A "sole or last operand": at the enclosing end.
    fn whole(end: usize) -> Ends {
        Ends { least: end, most: end }
    }

    /// A first operand: short of the enclosing end, not "leaving none for a second operand".
    fn short(end: usize) -> Ends {
        Ends { least: 0, most: end - 1 }
    }
}

/// A record as one number, little-endian: "byte 0 is the kind, byte 1 the name, bytes 2–3 the span .., bytes 4–7 the
/// value".
#[derive(Clone, Copy)]
struct Record(u64);

impl Record {
    #[inline]
    fn kind(self) -> u8 {
        self.0 as u8
    }

    #[inline]
    fn name(self) -> u8 {
        (self.0 >> 8) as u8
    }

    #[inline]
    fn span(self) -> u16 {
        (self.0 >> 16) as u16
    }

    #[inline]
    fn value(self) -> i32 {
        (self.0 >> 32) as i32
    }
}

struct Reader<'a> {
    records: &'a [[u8; 8]],
    nodes: Vec<Node>,
    entries: Vec<u16>,
    /// The highest procedure that a spawn names.
    highest: u8,
}

impl Reader<'_> {
    /// Notes what stands at a record.
    #[inline]
    fn put(&mut self, at: usize, node: Node) {
        if let Some(slot) = self.nodes.get_mut(at) {
            *slot = node;
        }
    }

    /// A record; past the table there is none of any kind.
    #[inline]
    fn record(&self, at: usize) -> Record {
        Record(self.records.get(at).map_or(0, |record| u64::from_le_bytes(*record)))
    }

    /// Checks a record of a known kind: "within it 12 to 16 in order", 12 being settled. Gives the index after what it
    /// encloses. A leaf's is at hand without its span, so that the next record does not wait for the span to be loaded;
    /// the kind is a constant at each call, where only what its row asks for is left of this function.
    #[inline(always)]
    fn check(record: Record, kind: usize, at: usize, ends: Ends, depth: u32) -> Result<usize, Fault> {
        let row = &ROWS[kind - 1];
        let (after, spans) = match row.encloses {
            Encloses::Nothing => (at + 1, record.span() == 0),
            Encloses::Least(least) => (at + 1 + usize::from(record.span()), record.span() >= least),
        };
        let spans = spans & (ends.least <= after) & (after <= ends.most);
        let named = (row.names.0 <= record.name()) & (record.name() <= row.names.1);
        let valued = match row.values {
            Values::Zero => record.value() == 0,
            Values::Byte => (0..=255).contains(&record.value()),
            Values::Any => true,
        };
        if spans & named & valued & (depth <= DEPTH) {
            return Ok(after);
        }
        let number = match (spans, named, valued) {
            (false, _, _) => 13,
            (_, false, _) => 14,
            (_, _, false) => 15,
            _ => 16,
        };
        Err(Fault::at(number, at))
    }

    /// "The table is a row of procedures .. A procedure has depth 0."
    fn procedures(&mut self) -> Result<(), Fault> {
        let (mut at, end) = (0, self.records.len());
        while at < end {
            let record = self.record(at);
            if record.kind() != 1 {
                return Err(Fault::kind(at));
            }
            let after = Self::check(record, 1, at, Ends::within(end), 0)?;
            self.entries.push(at as u16 + 1);
            self.statements(at + 1, after, 1, after)?;
            at = after;
        }
        Ok(())
    }

    /// A row of statements up to an end, which it gives; `follows` is the place after the last one.
    fn statements(&mut self, mut at: usize, end: usize, depth: u32, follows: usize) -> Result<usize, Fault> {
        while at < end {
            at = self.statement(at, end, depth, follows)?;
        }
        Ok(end)
    }

    /// One statement, with what it encloses; gives the index after it.
    #[inline]
    fn statement(&mut self, at: usize, end: usize, depth: u32, follows: usize) -> Result<usize, Fault> {
        let record = self.record(at);
        let check = |kind| {
            let after = Self::check(record, kind, at, Ends::within(end), depth)?;
            Ok((after, if after < end { after } else { follows } as u16))
        };
        match record.kind() {
            2 => {
                let (after, next) = check(2)?;
                self.put(at, Node::Skip { next });
                Ok(after)
            }
            3 => {
                let (after, next) = check(3)?;
                self.set(at, after, depth, record.name(), next)
            }
            // "With the span rules of kind 3."
            13 => {
                let (after, next) = check(13)?;
                self.put(at, Node::Guard { next });
                self.expression(at + 1, Ends::whole(after), depth + 1)
            }
            kind @ (4 | 5) => {
                let (after, next) = check(kind.into())?;
                self.test(at, after, depth, next, if kind == 4 { next } else { at as u16 })
            }
            6 => {
                let (after, next) = check(6)?;
                self.spawn(at, after, depth, record, next)
            }
            7 => {
                let (after, next) = check(7)?;
                self.put(at, Node::Suspend { next });
                Ok(after)
            }
            8 => {
                let (after, next) = check(8)?;
                self.put(at, Node::Await { name: record.name(), next });
                Ok(after)
            }
            _ => Err(Fault::kind(at)),
        }
    }

    /// A set: of a valve, or of another name.
    #[inline]
    fn set(&mut self, at: usize, end: usize, depth: u32, name: u8, next: u16) -> Result<usize, Fault> {
        self.put(at, if name < VALVES { Node::Valve { name, next } } else { Node::Set { name, next } });
        self.expression(at + 1, Ends::whole(end), depth + 1)
    }

    /// An if or a while: "one expression, then statements". After the body comes `follows`: the while again, or what
    /// follows the if. "A body without statements counts as run through."
    fn test(&mut self, at: usize, end: usize, depth: u32, next: u16, follows: u16) -> Result<usize, Fault> {
        let first = self.expression(at + 1, Ends::within(end), depth + 1)?;
        let yes = if first < end { first as u16 } else { follows };
        self.put(at, Node::Test { yes, no: next });
        self.statements(first, end, depth + 1, usize::from(follows))
    }

    /// A spawn: "value is the procedure's number".
    #[inline]
    fn spawn(&mut self, at: usize, end: usize, depth: u32, record: Record, next: u16) -> Result<usize, Fault> {
        let procedure = record.value() as u8;
        self.highest = self.highest.max(procedure);
        self.put(at, Node::Spawn { name: record.name(), procedure, next });
        self.expression(at + 1, Ends::whole(end), depth + 1)
    }

    /// An expression, "each record one deeper than the record that encloses it"; gives the index after it.
    #[inline(always)]
    fn expression(&mut self, at: usize, ends: Ends, depth: u32) -> Result<usize, Fault> {
        let record = self.record(at);
        let check = |kind| Self::check(record, kind, at, ends, depth);
        match record.kind() {
            9 => {
                let after = check(9)?;
                self.put(at, Node::Constant(record.value()));
                Ok(after)
            }
            10 => {
                let after = check(10)?;
                self.put(at, Node::Read { name: record.name() });
                Ok(after)
            }
            11 => {
                let after = check(11)?;
                let second = self.two_operands(at + 1, after, depth + 1)?;
                self.put(at, Node::TwoOperands { operator: record.name(), second });
                Ok(after)
            }
            12 => {
                let after = check(12)?;
                self.one_operand(at + 1, after, depth + 1)?;
                self.put(at, Node::OneOperand { operator: record.name() });
                Ok(after)
            }
            _ => Err(Fault::kind(at)),
        }
    }

    /// What kind 11 encloses, "two expressions"; gives the index of the second.
    fn two_operands(&mut self, at: usize, end: usize, depth: u32) -> Result<u16, Fault> {
        let second = self.expression(at, Ends::short(end), depth)?;
        self.expression(second, Ends::whole(end), depth)?;
        Ok(second as u16)
    }

    /// What kind 12 encloses, "one expression".
    fn one_operand(&mut self, at: usize, end: usize, depth: u32) -> Result<(), Fault> {
        self.expression(at, Ends::whole(end), depth)?;
        Ok(())
    }

    /// "A spawn names no procedure of the table": looked for, at the earliest, only where the highest named is none.
    fn spawns(&self) -> Result<(), Fault> {
        let count = self.entries.len();
        if usize::from(self.highest) < count {
            return Ok(());
        }
        let unknown = |node: &Node| matches!(node, Node::Spawn { procedure, .. } if usize::from(*procedure) >= count);
        match self.nodes.iter().position(unknown) {
            Some(place) => Err(Fault::at(17, place)),
            None => Ok(()),
        }
    }
}
