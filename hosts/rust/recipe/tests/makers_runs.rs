//! What the verdict of `recipe makers` promises, held to the library's runs: where two recipes are apart, and have the
//! same main block and the same procedures of one maker, what one run sets that maker's valves to is the beginning of
//! what the other does.

mod common;
#[path = "common/makers.rs"]
mod makers;

use std::collections::{BTreeMap, BTreeSet};

use common::{record, Random};
use makers::{c, drum_waits, first_pump, guard, list, main_block, main_turned, nothing, number, one, recipe};
use makers::{second_pump, set, spawn, suspend, tested, turns, two, v, wait, Records, DRUM, PUMP};
use recipe::makers::{Called, Maker, Procedures, Sentence, TwoMakers};
use recipe::table::{decode, kind, Record, FIRST_SHARED, PARAMETER};
use recipe_runner::{records, Ending, Kind, State, RECORD};

/// What valves are set to: which, and the value.
type Settings = Vec<(u8, i32)>;
/// A call's budget, and for how many records its log has room.
type Call = (u32, usize);

/// A recipe, and whose procedures are whose.
struct Shared {
    bodies: Vec<Records>,
    table: Vec<u8>,
    pump: Procedures,
    drum: Procedures,
}

impl Shared {
    fn new(bodies: Vec<Records>, pump: &[usize], drum: &[usize]) -> Shared {
        let bytes = |Record { kind, name, span, value }| record(kind, name, span, value);
        let table = recipe(&bodies).into_iter().flat_map(bytes).collect();
        Shared { bodies, table, pump: list(pump), drum: list(drum) }
    }

    fn of(&self, maker: Maker) -> &Procedures {
        match maker {
            Maker::Pump => &self.pump,
            Maker::Drum => &self.drum,
        }
    }

    /// The numbers of the sentences that the tool finds broken.
    fn broken(&self) -> BTreeSet<usize> {
        let (records, called) = (decode(&self.table), Called::default());
        let found = TwoMakers::new(&records, &called, &self.pump, &self.drum).breaches();
        found.iter().map(|breach| number(breach.sentence)).collect()
    }

    /// The valves that a maker's procedures name.
    fn valves(&self, maker: Maker) -> BTreeSet<u8> {
        let naming = [kind::SET, kind::AWAIT, kind::VARIABLE];
        let own = self.of(maker).iter().flat_map(|number| &self.bodies[*number]);
        let names = own.filter(|record| naming.contains(&record.kind)).map(|record| record.name);
        names.filter(|name| *name < FIRST_SHARED).collect()
    }

    /// What calls from a fresh state on set a maker's valves to, and the last one's ending.
    fn run(&self, maker: Maker, calls: impl IntoIterator<Item = Call>) -> (Settings, Ending) {
        let (valves, mut state) = (self.valves(maker), State::start(&self.table).unwrap());
        let (mut settings, mut ending) = (Settings::new(), Ending::Paused);
        for (budget, room) in calls {
            let mut log = vec![0; RECORD * room];
            let ran = state.run(&self.table, budget, &mut log).unwrap();
            let set = records(&log, ran.records).filter(|record| record.kind == Kind::Valve);
            settings.extend(set.map(|record| (record.valve, record.value)).filter(|(valve, _)| valves.contains(valve)));
            ending = ran.ending;
        }
        (settings, ending)
    }
}

fn one_begins(one: &Settings, other: &Settings) -> bool {
    one.starts_with(other) || other.starts_with(one)
}

// ---- The pairs `kept`, `broken` and `differing` of `crates/makers/specs/Rows.antt`, in their order.

type Numbers = &'static [usize];

/// Two recipes, and what is due of either.
struct Pair {
    maker: Maker,
    recipes: [Vec<Records>; 2],
    /// The drum maker's procedures.
    drums: [Numbers; 2],
    calls: [Vec<Call>; 2],
    /// The sentences that it breaks, by their numbers.
    breaks: [Numbers; 2],
    settings: Due,
    /// How the last call of either ends.
    endings: [Ending; 2],
}

/// What either sets the maker's valves to.
type Due = [&'static [(u8, i32)]; 2];

/// So many calls with this budget, and room for so many records.
fn calls(count: usize, budget: u32, room: usize) -> Vec<Call> {
    vec![(budget, room); count]
}

fn one_call() -> Vec<Call> {
    calls(1, 100, 40)
}

impl Pair {
    /// Holds either recipe to the sentences that it breaks and to what it sets; says whether one begins the other.
    fn hold(self, number: usize) -> bool {
        let mut made = Vec::new();
        for (index, (bodies, calls)) in self.recipes.into_iter().zip(self.calls).enumerate() {
            let shared = Shared::new(bodies, PUMP, self.drums[index]);
            let (settings, ending) = shared.run(self.maker, calls);
            let ran = (shared.broken(), &*settings, ending);
            let due = (list(self.breaks[index]), self.settings[index], self.endings[index]);
            assert_eq!(ran, due, "pair {number}, recipe {index}");
            made.push(settings);
        }
        one_begins(&made[0], &made[1])
    }
}

/// A loop without end around this.
fn loops(body: Records) -> Records {
    tested(kind::WHILE, c(1), body)
}

/// A second task of other pump makers.
fn later() -> Records {
    [suspend(), set(0, c(2))].concat()
}

fn slow(value: i32) -> Records {
    [turns(2), set(0, c(value))].concat()
}

/// The pump maker of these recipes beside a drum maker.
fn with_drums(main: Records, drums: Vec<Records>) -> Vec<Records> {
    [vec![main, first_pump(), second_pump()], drums].concat()
}

fn idle() -> Vec<Records> {
    vec![nothing(), nothing()]
}

fn busy() -> Vec<Records> {
    vec![drum_waits(), turns(2)]
}

const FINISHED: [Ending; 2] = [Ending::Finished, Ending::Finished];

fn kept_pair(maker: Maker, recipes: [Vec<Records>; 2], calls: [Vec<Call>; 2], settings: Due) -> Pair {
    Pair { maker, recipes, drums: [DRUM, DRUM], calls, breaks: [&[], &[]], settings, endings: FINISHED }
}

const WHOLE: &[(u8, i32)] = &[(0, 1), (1, 5), (0, 0)];
const BEGINNING: &[(u8, i32)] = &[(0, 1)];

/// One pump maker beside two drum makers, the runs cut in many ways.
fn kept_beside_drums() -> Vec<Pair> {
    let pair = |drums: [Vec<Records>; 2], calls, settings| {
        kept_pair(Maker::Pump, drums.map(|drums| with_drums(main_block(5), drums)), calls, settings)
    };
    let stopped = |drums, calls, ending| Pair {
        endings: [ending, Ending::Finished],
        ..pair([drums, busy()], [calls, one_call()], [BEGINNING, WHOLE])
    };
    let divides = [suspend(), set(2, two(3, c(1), c(0)))].concat();
    let spawns = loops(spawn(9, 4, c(0)));
    let slices = vec![(50, 40), (20, 40)];
    vec![
        // In one call each; in many that pause, and in many whose log fills; cut off.
        pair([idle(), busy()], [one_call(), one_call()], [WHOLE, WHOLE]),
        pair([idle(), busy()], [calls(9, 2, 9), calls(16, 100, 2)], [WHOLE, WHOLE]),
        Pair {
            endings: [Ending::Finished, Ending::Paused],
            ..pair([idle(), busy()], [one_call(), calls(1, 12, 40)], [WHOLE, BEGINNING])
        },
        // Stopped by the other maker's zero divisor, and again; held up by its task that never gives way; stopped at
        // its spawn with 32 tasks live.
        stopped(vec![divides, nothing()], calls(2, 100, 40), Ending::Novalue { place: 23 }),
        stopped(vec![loops(nothing()), nothing()], slices, Ending::Paused),
        stopped(vec![spawns, turns(4)], calls(1, 200, 80), Ending::Tasks),
    ]
}

/// With another main block; with other numbers; of the drum maker's records.
fn kept_otherwise() -> Vec<Pair> {
    const BELOW_0: &[(u8, i32)] = &[(0, 1), (1, -7), (0, 0)];
    let calls = || [one_call(), one_call()];
    let turned = |drums| with_drums(main_turned(-7), drums);
    let far = [spawn(9, 5, c(0)), wait(9), set(2, c(1))].concat();
    let six = with_drums(main_block(5), vec![far, later(), turns(4)]);
    let works = || with_drums(main_block(5), busy());
    let held_up = [vec![main_block(5), loops(nothing()), nothing()], busy()].concat();
    vec![
        // The drum maker's procedure spawned first, and an argument below 0.
        kept_pair(Maker::Pump, [turned(busy()), turned(idle())], calls(), [BELOW_0, BELOW_0]),
        // The drum maker's second procedure has another number, and a procedure is nobody's.
        Pair { drums: [DRUM, &[3, 5]], ..kept_pair(Maker::Pump, [works(), six], calls(), [WHOLE, WHOLE]) },
        // The drum maker's records, beside a pump maker that never gives way.
        Pair {
            endings: [Ending::Finished, Ending::Paused],
            ..kept_pair(Maker::Drum, [works(), held_up], calls(), [&[(2, 1)], &[]])
        },
    ]
}

const ONE_TWO: &[(u8, i32)] = &[(0, 1), (0, 2)];
const TWO_ONE: &[(u8, i32)] = &[(0, 2), (0, 1)];

/// A main block and the makers' procedures.
type Recipe = (Records, [Records; 4]);

/// Two recipes that one call each finishes.
fn ended(maker: Maker, breaks: [Numbers; 2], recipes: [Recipe; 2], settings: Due) -> Pair {
    let recipes = recipes.map(|(main, bodies)| [vec![main], bodies.to_vec()].concat());
    Pair { breaks, ..kept_pair(maker, recipes, [one_call(), one_call()], settings) }
}

/// The same with one main block, and what they set the pump maker's valves to.
fn broken_pair(breaks: [Numbers; 2], recipes: [[Records; 4]; 2], settings: Due) -> Pair {
    ended(Maker::Pump, breaks, recipes.map(|bodies| (main_block(5), bodies)), settings)
}

/// Both makers name a variable.
fn shares() -> Vec<Pair> {
    let reads = |drum| [[suspend(), set(0, v(12))].concat(), nothing(), drum, nothing()];
    let pump = [suspend(), spawn(8, 2, c(0)), wait(9), set(0, c(1))].concat();
    let awaits = |drum| [pump.clone(), later(), spawn(9, 4, c(0)), drum];
    let drum = [spawn(9, 4, c(0)), wait(8), set(2, c(1))].concat();
    let second = [suspend(), set(2, c(2))].concat();
    let awaited = |pump| (main_block(5), [spawn(8, 2, c(0)), pump, drum.clone(), second.clone()]);
    let of_drum: Due = [&[(2, 1), (2, 2)], &[(2, 2), (2, 1)]];
    let sets = |drum| [[suspend(), set(0, c(1))].concat(), nothing(), drum, nothing()];
    vec![
        // The drum maker sets one that the pump maker reads; a valve of the pump maker's.
        broken_pair([&[], &[3]], [reads(nothing()), reads(set(12, c(7)))], [&[(0, 0)], &[(0, 7)]]),
        broken_pair([&[], &[3]], [sets(nothing()), sets(set(0, c(2)))], [&[(0, 1)], TWO_ONE]),
        // The pump maker awaits the drum maker's.
        broken_pair([&[3], &[3]], [awaits(nothing()), awaits(turns(4))], [ONE_TWO, TWO_ONE]),
        // The drum maker awaits the pump maker's: its own records are disturbed.
        ended(Maker::Drum, [&[3], &[3]], [awaited(nothing()), awaited(turns(4))], of_drum),
    ]
}

/// A first task that spawns the second, awaits a variable and opens valve 0, beside a drum task that ends at once or
/// takes some turns.
fn waits(breaks: Numbers, before: Records, name: u8) -> Pair {
    let first = [spawn(8, 2, c(0)), before, wait(name), set(0, c(1))].concat();
    let recipe = |drum| [first.clone(), later(), drum, nothing()];
    broken_pair([breaks, breaks], [recipe(nothing()), recipe(turns(4))], [ONE_TWO, TWO_ONE])
}

/// The main block's variable is named, or it does more.
fn main_blocks() -> Vec<Pair> {
    let main = [main_block(5), wait(21), set(0, c(2))].concat();
    let recipe = |drum| (main.clone(), [slow(1), nothing(), drum, nothing()]);
    vec![
        waits(&[2], nothing(), 21),
        // It awaits the drum task and sets a valve.
        ended(Maker::Pump, [&[2], &[2]], [recipe(nothing()), recipe(turns(4))], [TWO_ONE, ONE_TWO]),
    ]
}

/// A maker spawns a procedure of the other's.
fn spawns() -> Vec<Pair> {
    let pump = [spawn(8, 4, c(0)), spawn(11, 2, c(0)), wait(8), set(0, c(1))].concat();
    let by_pump = |drum| [pump.clone(), later(), nothing(), drum];
    let by_drum = |drum| [slow(1), set(0, c(2)), drum, nothing()];
    vec![
        broken_pair([&[4], &[4]], [by_pump(nothing()), by_pump(turns(4))], [ONE_TWO, TWO_ONE]),
        broken_pair([&[], &[7]], [by_drum(nothing()), by_drum(spawn(9, 2, c(0)))], [&[(0, 1)], TWO_ONE]),
    ]
}

/// The pump maker awaits a number that it set itself, the drum task's: in a variable, in its parameter.
fn awaits() -> Vec<Pair> {
    vec![waits(&[5], set(12, c(3)), 12), waits(&[5], set(64, c(3)), 64)]
}

/// An expression reads a task number, a set's or a guard's: the drum maker's task more changes it.
fn reads() -> Vec<Pair> {
    let pair = |first: Records, second: Records, settings| {
        let recipe = |drum| [[suspend(), spawn(8, 2, c(0)), first.clone()].concat(), second.clone(), drum, nothing()];
        broken_pair([&[6], &[6]], [recipe(nothing()), recipe(spawn(9, 4, c(0)))], settings)
    };
    let guarded = [guard(two(4, v(8), c(5))), set(0, c(1))].concat();
    // At the other's guard the pump maker's task then waits for ever.
    let stuck = [Ending::Finished, Ending::Stuck];
    vec![
        pair(set(0, v(8)), nothing(), [&[(0, 4)], &[(0, 5)]]),
        Pair { endings: stuck, ..pair(guarded, slow(2), [ONE_TWO, &[(0, 2)]]) },
    ]
}

/// Recipes that are apart, and differ in more than the drum maker's procedures.
fn differing() -> Vec<Pair> {
    let argument = |value| (main_block(value), [first_pump(), second_pump(), nothing(), nothing()]);
    let renumbered = |one, other| [set(0, c(one)), set(0, c(other)), nothing(), nothing()];
    let by_argument: Due = [WHOLE, &[(0, 1), (1, 6), (0, 0)]];
    vec![
        ended(Maker::Pump, [&[], &[]], [argument(5), argument(6)], by_argument),
        broken_pair([&[], &[]], [renumbered(1, 2), renumbered(2, 1)], [&[(0, 1)], &[(0, 2)]]),
    ]
}

#[test]
fn pairs_that_are_apart_set_the_same() {
    let kept: Vec<Pair> = [kept_beside_drums(), kept_otherwise()].into_iter().flatten().collect();
    assert_eq!(kept.len(), 9);
    for (index, pair) in kept.into_iter().enumerate() {
        assert!(pair.hold(index), "pair {index}");
    }
}

#[test]
fn pairs_that_break_a_sentence_or_differ_in_more_do_not() {
    let broken: Vec<Pair> = [shares(), main_blocks(), spawns(), awaits(), reads()].into_iter().flatten().collect();
    assert_eq!((broken.len(), differing().len()), (12, 2));
    for (index, pair) in broken.into_iter().chain(differing()).enumerate() {
        assert!(!pair.hold(index), "pair {index}");
    }
}

// ---- Generated pairs.

/// How often a name stands among others that is to be taken often.
const OFTEN: usize = 3;
/// Bodies and operands go no deeper.
const DEEPEST: usize = 3;

/// What a maker's procedures name, by numbers.
#[derive(Clone)]
struct Means {
    /// Variables and valves that are set and read.
    plain: Vec<u8>,
    /// Variables that hold task numbers.
    held: Vec<u8>,
    procedures: Vec<usize>,
    /// Statements that break a sentence, to stand among the others; mostly none.
    breaking: Records,
}

impl Means {
    fn of(maker: Maker) -> Means {
        let (plain, held, procedures) = match maker {
            Maker::Pump => (vec![0, 1, 12, 13], vec![8, 9], vec![1, 3]),
            Maker::Drum => (vec![2, 3, 14], vec![10, 11], vec![2, 4]),
        };
        Means { plain, held, procedures, breaking: nothing() }
    }
}

struct Writer {
    random: Random,
}

impl Writer {
    fn one_in(&mut self, count: usize) -> bool {
        self.random.below(count) == 0
    }

    fn constant(&mut self) -> Records {
        c(self.random.pick(&[-2, -1, 0, 0, 1, 1, 2, 3, 4, 5, 7, i32::MAX]))
    }

    fn expression(&mut self, means: &Means, depth: usize) -> Records {
        match self.random.below(20) {
            0..=6 => self.constant(),
            7..=13 => v(self.random.pick(&[&means.plain[..], &[PARAMETER]].concat())),
            _ if depth == DEEPEST => self.constant(),
            14..=16 => {
                let (left, right) = (self.expression(means, depth + 1), self.expression(means, depth + 1));
                two(self.random.below(8) as u8, left, right)
            }
            _ => {
                let operand = self.expression(means, depth + 1);
                one(self.random.below(2) as u8, operand)
            }
        }
    }

    /// A procedure's body has a statement at least.
    fn body(&mut self, means: &Means, depth: usize) -> Records {
        let count = if depth == 0 { 1 + self.random.below(6) } else { self.random.below(4) };
        (0..count).flat_map(|_| self.statement(means, depth)).collect()
    }

    fn statement(&mut self, means: &Means, depth: usize) -> Records {
        if depth == 0 && !means.breaking.is_empty() && self.one_in(4) {
            return means.breaking.clone();
        }
        let held = self.random.pick(&means.held);
        let expression = self.expression(means, 0);
        match self.random.below(20) {
            0 => set(PARAMETER, expression),
            1..=7 => set(self.random.pick(&means.plain), expression),
            8..=10 if depth < DEEPEST => {
                let kind = self.random.pick(&[kind::WHILE, kind::IF, kind::IF]);
                tested(kind, expression, self.body(means, depth + 1))
            }
            8..=13 => spawn(held, self.random.pick(&means.procedures) as i32, expression),
            14..=15 => suspend(),
            16..=18 => wait(held),
            _ => guard(expression),
        }
    }

    /// Sometimes with a name or a procedure of the other maker's among its own, or with one of its own for what it is
    /// not for.
    fn loosened(&mut self, means: &Means, other: &Means) -> Means {
        let mut loosened = means.clone();
        let random = &mut self.random;
        match random.below(24) {
            0 => loosened.plain.extend([random.pick(&[&other.plain[..], &other.held].concat()); OFTEN]),
            1 => loosened.held.extend([random.pick(&other.held); OFTEN]),
            2 => loosened.procedures.extend([random.pick(&other.procedures); OFTEN]),
            3 => loosened.plain.extend([random.pick(&means.held); OFTEN]),
            4 => loosened.held.extend([random.pick(&[20, 21, PARAMETER]); OFTEN]),
            5 => loosened.held.extend([random.pick(&means.plain).max(FIRST_SHARED); OFTEN]),
            _ => {}
        }
        loosened
    }

    /// With statements that break one of the maker's own sentences, so that what it does depends on the other maker's
    /// tasks: how long one of them is live, or how many there were.
    fn breaking(&mut self, sentence: Sentence, means: &Means, other: &Means) -> Means {
        let random = &mut self.random;
        let (held, plain, valve) = (random.pick(&means.held), random.pick(&means.plain), means.plain[0]);
        let opens = |name| [wait(name), set(valve, c(1))].concat();
        let breaking = match sentence {
            Sentence::Spawns(_) => [spawn(held, random.pick(&other.procedures) as i32, c(0)), opens(held)].concat(),
            Sentence::Awaits(_) => {
                let name = random.pick(&[plain.max(FIRST_SHARED), PARAMETER]);
                [set(name, c(random.pick(&[2, 3, 4]))), opens(name)].concat()
            }
            _ => set(plain, v(held)),
        };
        Means { breaking, ..means.clone() }
    }

    /// The bodies of a maker's procedures, with their numbers.
    fn procedures(&mut self, numbers: &[usize], means: &Means) -> Vec<(usize, Records)> {
        numbers.iter().map(|number| (*number, self.body(means, 0))).collect()
    }

    /// Sometimes with more than two spawns: it also awaits one of the tasks and sets a valve.
    fn main_block(&mut self) -> Records {
        let mut spawns = [spawn(20, 1, self.constant()), spawn(21, 2, self.constant())];
        if self.one_in(2) {
            spawns.reverse();
        }
        let more = if self.one_in(24) {
            [wait(self.random.pick(&[20, 21])), set(self.random.pick(&[0, 2]), self.constant())].concat()
        } else {
            vec![]
        };
        [spawns.concat(), more].concat()
    }

    /// Two recipes with the same main block and the same procedures of one maker; the other one may have one more. The
    /// maker that stays breaks this sentence; where none is given, either one may break some.
    fn pair(&mut self, kept: Maker, other: Maker, broken: Option<Sentence>) -> [Shared; 2] {
        let (means, others) = (Means::of(kept), Means::of(other));
        let main = self.main_block();
        let own = match broken {
            Some(sentence) => self.breaking(sentence, &means, &others),
            None => self.loosened(&means, &others),
        };
        let same = self.procedures(&means.procedures, &own);
        [0, 1].map(|_| {
            let mut others = others.clone();
            others.procedures.extend(self.one_in(3).then_some(5));
            let own = if broken.is_some() { others.clone() } else { self.loosened(&others, &means) };
            let changed = self.procedures(&others.procedures, &own);
            let mut bodies = [vec![(0, main.clone())], same.clone(), changed].concat();
            bodies.sort_by_key(|(number, _)| *number);
            let [pump, drum] = match kept {
                Maker::Pump => [&means, &others],
                Maker::Drum => [&others, &means],
            };
            Shared::new(bodies.into_iter().map(|(_, body)| body).collect(), &pump.procedures, &drum.procedures)
        })
    }

    fn calls(&mut self) -> Vec<Call> {
        let random = &mut self.random;
        (0..1 + random.below(60)).map(|_| (random.below(60) as u32, random.below(20))).collect()
    }
}

/// How many pairs were so.
#[derive(Debug, Default)]
struct Counts {
    apart: usize,
    /// Of those: with a record in both runs; with more in one of them; with one stopped by a limit or a zero divisor.
    both_set: usize,
    longer: usize,
    stopped: usize,
    /// Of those that break one sentence alone, by its number: where neither run's records begin the other's.
    disturbed: BTreeMap<usize, usize>,
}

/// The sentences that either recipe of a pair breaks.
fn broken(pair: &[Shared; 2]) -> BTreeSet<usize> {
    pair.iter().flat_map(Shared::broken).collect()
}

/// Pairs where one maker's procedures stay, and the other's are whatever they are.
fn counted(kept: Maker, other: Maker, seed: u64) -> Counts {
    let mut writer = Writer { random: Random(seed) };
    let mut counts = Counts::default();
    for _ in 0..24_000 {
        let pair = writer.pair(kept, other, None);
        let broken = broken(&pair);
        let [(one, ended), (more, ended_too)] = pair.each_ref().map(|shared| shared.run(kept, writer.calls()));
        let is_beginning = one_begins(&one, &more);
        if broken.is_empty() {
            assert!(is_beginning, "{one:?}\n{more:?}\n{:?}", pair.map(|shared| shared.bodies));
            counts.apart += 1;
            counts.both_set += usize::from(!one.is_empty() && !more.is_empty());
            counts.longer += usize::from(one.len() != more.len());
            let stops = |ending| matches!(ending, Ending::Novalue { .. } | Ending::Tasks);
            counts.stopped += usize::from(stops(ended) || stops(ended_too));
        } else if let (1, Some(sentence)) = (broken.len(), broken.first()) {
            *counts.disturbed.entry(*sentence).or_default() += usize::from(!is_beginning);
        }
    }
    counts
}

/// Of pairs whose maker that stays breaks a sentence of its own: how many break that one alone, and neither run's
/// records begin the other's.
fn disturbed(kept: Maker, other: Maker, sentence: Sentence, seed: u64) -> usize {
    let mut writer = Writer { random: Random(seed) };
    let disturbed = (0..8_000).filter(|_| {
        let pair = writer.pair(kept, other, Some(sentence));
        let [one, more] = pair.each_ref().map(|shared| shared.run(kept, writer.calls()).0);
        broken(&pair) == BTreeSet::from([number(sentence)]) && !one_begins(&one, &more)
    });
    disturbed.count()
}

#[test]
fn neither_maker_changes_what_the_other_sets_its_valves_to() {
    for (kept, other, seed) in [(Maker::Pump, Maker::Drum, 89), (Maker::Drum, Maker::Pump, 97)] {
        let counts = counted(kept, other, seed);
        let disturbed = |sentence| counts.disturbed.get(&number(sentence)).copied().unwrap_or_default();
        assert!(counts.apart > 12_000 && counts.both_set > 5_000, "{counts:?}");
        assert!(counts.longer > 2_000 && counts.stopped > 2_500, "{counts:?}");
        // The pairs would tell a tool that overlooks one of these. They cannot where the other maker's awaits and reads
        // alone are wrong: that changes only what the other maker does itself.
        let overlooked = [Sentence::Main, Sentence::Names, Sentence::Spawns(other)];
        assert!(overlooked.into_iter().all(|sentence| disturbed(sentence) > 10), "{counts:?}");
    }
}

/// These pairs would tell a tool that overlooks a sentence of the maker's own. Among the pairs above such are rare: an
/// await has to turn round which of the maker's tasks is the first to set a valve, or a task number to reach a valve.
#[test]
fn a_maker_that_breaks_a_sentence_of_its_own_is_disturbed() {
    for (kept, other) in [(Maker::Pump, Maker::Drum), (Maker::Drum, Maker::Pump)] {
        for sentence in [Sentence::Spawns(kept), Sentence::Awaits(kept), Sentence::Reads(kept)] {
            let count = disturbed(kept, other, sentence, 71);
            assert!(count > 5, "{sentence:?}: {count}");
        }
    }
}
