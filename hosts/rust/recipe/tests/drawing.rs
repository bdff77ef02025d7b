//! The picture of a run: well-formed, and no text over another.

mod common;

use common::Generator;
use recipe::asm::assemble;
use recipe::course::{Course, Most};
use recipe::picture::{draw, Heading, MOST_BYTES};
use recipe::readable::procedures;
use recipe::timeline::{Bar, Doing, Lane, Spawn, Timeline};
use recipe_runner::State;

const TWO: &str = "procedure main\n  spawn x press 5\n  await x\n  set valve0 1\nprocedure press p\n  set valve1 p\n";

/// Twelve tasks that set valves, give way and wait.
const TWELVE: &str = "\
variable pressure 12
procedure main
    while count < 5
        spawn drum roll count + 2
        spawn membrane pump count
        set count count + 1
    spawn watcher watch membrane
    await watcher
    set valve0 1
    set valve7 -2147483648
procedure roll turns
    while 0 < turns
        set valve1 turns
        suspend
        set turns turns - 1
procedure pump level
    while pressure < 12 + level
        set pressure pressure + 1
        set valve2 pressure
        if pressure / 3 * 3 == pressure
            suspend
    set valve4 1
    set valve5 level
procedure watch other
    await other
    set valve6 1
";

/// Thirty-two tasks in a chain of waits, a few hundred records.
const MANY: &str = "\
procedure main
    while n < 31
        spawn last work last
        set n n + 1
    await last
procedure work before
    set valve1 before
    if 1 < before
        await before
    set valve2 -before * 1000000
    set valve3 2147483647
";

/// Many short waits of one task, one after the other.
const SHORT: &str = "\
procedure main
    while n < 31
        spawn last work n
        await last
        set n n + 1
procedure work
    skip
";

/// Guards: one that becomes true, one that does not, one that its task stands at from its spawn on; and an await of a
/// number never issued.
const GUARDS: &str = "\
procedure main
    spawn a pass 0
    spawn b hold 0
    spawn c late 0
    suspend
    set pressure 3
    set nobody 99
    await nobody
procedure pass
    guard 2 < pressure
    set valve1 1
procedure hold
    skip
    guard 3 < pressure
procedure late
    guard 4 < pressure
";

/// An await of 0 that passes when it is tried, and one that its task stands at from its spawn on.
const ZERO: &str = "\
variable nobody 20
procedure main
    spawn a rest 0
    await nobody
procedure rest
    suspend
    spawn b late 0
procedure late
    await nobody
";

/// Task 2 divides by a count of sensors that is 0, while main and a task at a guard without a value wait.
const DIVISOR: &str = "\
variable sensors 20
procedure main
    spawn a hold 0
    spawn b share 600
    await b
procedure hold
    skip
    guard 1 / sensors
procedure share flow
    set valve1 1
    set valve0 flow / sensors
";

/// Task 3 waits for task 1, tasks 1 and 2 for each other, task 4 at a guard.
const CIRCLE: &str = "\
variable pressure 12
procedure main
    set first 1
    spawn second press first
    spawn third watch 0
    spawn fourth hold 0
    await second
procedure press other
    set valve1 other
    await other
procedure watch
    await first
procedure hold
    set valve2 2147483647
    guard 2 < pressure
";

/// Main is turned while it awaits 9; the number that it awaits is another one then, far behind in a wide picture.
const CHANGED: &str = "\
procedure main
    set number 9
    spawn a change 0
    await number
procedure change
    while n < 99
        suspend
        set n n + 1
    set number -2147483648
";

fn course(text: &str, steps: u32) -> Course {
    let table = assemble(text).unwrap();
    Course::of(&table, &State::start(&table).unwrap(), Most { steps, records: 1_000_000 }).unwrap()
}

fn drawn(course: &Course, timeline: &Timeline, procedures: &[String]) -> String {
    let (ending, steps) = (course.ending, course.steps);
    draw(timeline, &Heading { name: "a<b&c>.recipe", ending, steps, most: steps, resumed: None, procedures })
}

fn picture(text: &str, steps: u32) -> (String, Timeline) {
    let course = course(text, steps);
    let timeline = Timeline::of(&course);
    (drawn(&course, &timeline, &[]), timeline)
}

/// Holds a document to matching tags.
fn well_formed(document: &str) {
    let mut open = Vec::new();
    for piece in document.split('<').skip(1) {
        let (tag, text) = piece.split_once('>').unwrap();
        assert!(!text.contains('>') || open.last() == Some(&"style"), "{text}");
        match tag.strip_prefix('/') {
            Some(name) => assert_eq!(open.pop(), Some(name)),
            None if tag.ends_with('/') => {}
            None => open.push(tag.split(' ').next().unwrap()),
        }
        assert_eq!(tag.matches('"').count() % 2, 0, "{tag}");
    }
    assert!(open.is_empty(), "{open:?}");
}

fn attribute(element: &str, name: &str) -> f64 {
    let (_, rest) = element.split_once(&format!(" {name}=\"")).unwrap();
    rest.split('"').next().unwrap().parse().unwrap()
}

/// The boxes of the texts: left, top, right, bottom, and the text.
fn boxes(document: &str) -> Vec<(f64, f64, f64, f64, String)> {
    let texts = document.split("<text ").skip(1).map(|element| element.split("</text>").next().unwrap());
    let boxed = texts.map(|element| {
        let (head, text) = element.split_once('>').unwrap();
        let class = head.split('"').nth(1).unwrap();
        let size = match class {
            "title" => 17.0,
            "tick" | "note" | "note guardnote" | "flagtext" | "starter" | "range" | "head" | "value" => 10.0,
            _ => 12.0,
        };
        let text = text.split("<title>").next().unwrap();
        let text = text.replace("&lt;", "<").replace("&gt;", ">").replace("&amp;", "&");
        let width = text.chars().count() as f64 * size * 0.6;
        let (x, y) = (attribute(&format!(" {head}"), "x"), attribute(&format!(" {head}"), "y"));
        let left = match class {
            "label" | "starter" | "range" => x - width,
            "tick" => x - width / 2.0,
            _ => x,
        };
        (left, y - 0.8 * size, left + width, y + 0.2 * size, text)
    });
    boxed.collect()
}

fn apart(document: &str) {
    let (width, height) = (attribute(document, "width"), attribute(document, "height"));
    let boxes = boxes(document);
    for (index, a) in boxes.iter().enumerate() {
        assert!(a.0 >= 0.0 && a.1 >= 0.0 && a.2 <= width && a.3 <= height, "{a:?} is outside");
        for b in boxes.iter().take(index) {
            assert!(a.2 <= b.0 || b.2 <= a.0 || a.3 <= b.1 || b.3 <= a.1, "{a:?} over {b:?}");
        }
    }
}

#[test]
fn pictures_are_well_formed_and_texts_apart() {
    for (text, budget, tasks) in [
        (TWO, 100, 2),
        (TWO, 0, 1),
        (TWELVE, 10_000, 12),
        (MANY, 10_000, 32),
        (MANY, 150, 32),
        (SHORT, 10_000, 32),
        (GUARDS, 10_000, 4),
        (ZERO, 10_000, 3),
        (DIVISOR, 10_000, 3),
        (CIRCLE, 10_000, 4),
        (CHANGED, 10_000, 2),
        ("procedure main\n  set x 1 / 0\n", u32::MAX, 1),
    ] {
        let (document, timeline) = picture(text, budget);
        assert_eq!(timeline.lanes.len(), tasks);
        well_formed(&document);
        apart(&document);
    }
}

#[test]
fn the_picture_tells_what_happened() {
    let (document, _) = picture(TWO, 100);
    for part in [
        "a&lt;b&amp;c&gt;.recipe: finished, 8 steps",
        ">task 1<",
        ">task 2<",
        ">v0=1<",
        ">v1=5<",
        ">awaits 2<",
        "task 1 spawns task 2",
        "task 2 ended",
        "log records",
    ] {
        assert!(document.contains(part), "{part}");
    }
    let (document, _) = picture(MANY, 10_000);
    assert!(document.contains("turned: "));
}

/// The middle of the text that a lane is labelled with, at the left.
fn label(document: &str, task: u16) -> f64 {
    let boxes = boxes(document);
    let (_, top, _, bottom, _) = boxes.iter().find(|(.., text)| *text == format!("task {task}")).unwrap();
    (top + bottom) / 2.0
}

#[test]
fn spawns_lead_from_the_starter_to_the_started_task() {
    for text in [TWO, TWELVE, MANY, GUARDS] {
        let (document, timeline) = picture(text, 10_000);
        // The legend has the first arrow.
        let arrows: Vec<_> = document.split("<line class=\"arrow\"").skip(2).collect();
        assert_eq!(arrows.len(), timeline.spawns.len());
        for (arrow, Spawn { at, spawner, spawned }) in arrows.iter().zip(&timeline.spawns) {
            let (from, to) = (label(&document, *spawner), label(&document, *spawned));
            assert_eq!(attribute(arrow, "x1"), attribute(arrow, "x2"));
            assert!((attribute(arrow, "y1") - from).abs() < 3.0 && (attribute(arrow, "y2") - to).abs() < 10.0, "{at}");
            assert_eq!(timeline.lanes[spawned].starter, Some(*spawner));
            assert!(document.contains(&format!("task {spawner} spawns task {spawned}")));
            let tip = format!("task {spawned}: runs procedure {}, ", timeline.lanes[spawned].procedure.unwrap());
            assert!(document.contains(&format!("{tip}started by task {spawner}, taken up ")));
        }
        let named = boxes(&document).into_iter().filter(|(.., text)| text.starts_with("by task "));
        assert_eq!(named.count(), timeline.spawns.len());
    }
}

/// Main spawns task 2, which spawns task 3; task 2 gives way twice and is taken up three times, main never.
#[test]
fn a_label_tells_the_starter_and_the_times_taken_up() {
    let text = "procedure main\n  spawn a work 0\nprocedure work\n  spawn b rest 0\n  suspend\n  suspend\n\
                procedure rest\n  skip\n";
    let (document, _) = picture(text, 10_000);
    for (label, tip) in [
        ("task 1", "task 1: runs procedure 0, taken up 0 times"),
        ("task 2", "task 2: runs procedure 1, started by task 1, taken up 3 times"),
        ("task 3", "task 3: runs procedure 2, started by task 2, taken up 1 time"),
    ] {
        assert!(document.contains(&format!(">{label}<title>{tip}</title></text>")), "{document}");
    }
    assert!(document.contains(">by task 1</text>") && document.contains(">by task 2</text>"));
}

/// The words behind the end of the lanes, each with the lane's label.
fn lane_ends(document: &str) -> Vec<(String, String)> {
    let ends = document.split("<line class=\"end\"").skip(1).map(|line| attribute(line, "x1"));
    // The legend has one, too.
    let end = ends.last().unwrap();
    let boxes = boxes(document);
    let tells = |text: &str| text.starts_with("waits for ") || text == "at a guard";
    let words = boxes.iter().filter(|(left, .., text)| *left > end && tells(text));
    let labelled = words.map(|(_, top, _, bottom, text)| {
        let beside = |(left, y0, _, y1, label): &&(f64, f64, f64, f64, String)| {
            *left < end && label.starts_with("task ") && (y0 + y1 - top - bottom).abs() < 4.0
        };
        (boxes.iter().find(beside).unwrap().4.clone(), text.clone())
    });
    labelled.collect()
}

#[test]
fn stuck_lanes_end_in_what_their_tasks_wait_for() {
    for (text, budget, due) in [
        (
            CIRCLE,
            10_000,
            &[
                ("task 1", "waits for 2"),
                ("task 2", "waits for 1"),
                ("task 3", "waits for 1"),
                ("task 4", "at a guard"),
            ][..],
        ),
        (CHANGED, 10_000, &[("task 1", "waits for -2147483648")]),
        (GUARDS, 10_000, &[("task 1", "waits for 99"), ("task 3", "at a guard"), ("task 4", "at a guard")]),
        // Paused, finished, stopped by a missing value.
        (CIRCLE, 9, &[]),
        (TWO, 100, &[]),
        (ZERO, 100, &[]),
        (DIVISOR, 10_000, &[]),
    ] {
        let (document, _) = picture(text, budget);
        let found = lane_ends(&document);
        let found: Vec<_> = found.iter().map(|(label, words)| (&**label, &**words)).collect();
        assert_eq!(found, due, "{text}");
        assert!(document.contains(">stuck: waits for 2<"));
    }
    // The wait's own text keeps the number at its turns.
    assert!(picture(CHANGED, 10_000).0.contains(">awaits 9<"));
}

#[test]
fn a_missing_value_is_marked() {
    let (document, _) = picture(DIVISOR, 10_000);
    for part in [
        ".recipe: novalue, ",
        "The statement at record 15 divides by 0.",
        "task 3 stopped: record 15 has no value",
        "task 2: waits at a guard",
        ">v1=1<",
    ] {
        assert!(document.contains(part), "{part}");
    }
    assert!(!document.contains("sets valve 0"));
    // The legend has one, too.
    assert_eq!(document.matches("class=\"stop\"").count(), 2);
    let (document, _) = picture(DIVISOR, 3);
    assert_eq!(document.matches("class=\"stop\"").count(), 1);
}

#[test]
fn guards_and_awaits_are_told_apart() {
    let (document, _) = picture(GUARDS, 10_000);
    for part in [
        "stuck, ",
        ">waits at an await<",
        ">waits at a guard<",
        ">awaits 99<",
        ">guard<",
        "task 1: awaits 99",
        "task 2: waits at a guard",
        "task 2 turned: its guard is not true",
        "task 3: waits at a guard",
        "task 4: waits at a guard",
    ] {
        assert!(document.contains(part), "{part}");
    }
    assert!(!document.contains("task 2: awaits"));
    assert!(!document.contains("task 1: waits at a guard"));
    let (document, _) = picture(ZERO, 10_000);
    for part in ["finished, ", ">awaits 0<", "task 1: awaits 0", "task 3: in the ready queue", "task 3 ended"] {
        assert!(document.contains(part), "{part}");
    }
    assert!(!document.contains("turned: ") && !document.contains("task 3: awaits"));
    // The legend has the only one.
    assert_eq!(document.matches("class=\"guard\"").count(), 1);
}

/// Thirty-two tasks that give way, wait at guards and set a valve, for 10,000 steps.
const CROWD: &str = "\
procedure main
    while n < 31
        spawn last work n
        set n n + 1
    while 1
        suspend
procedure work level
    while 1
        set count count + 1
        if count / 97 * 97 == count
            set valve1 level
        if level < 8
            suspend
        guard level < count
";

/// Two thousand tasks, each awaited, and some that outlive the next ones.
const SPAWNING: &str = "\
procedure main
    while n < 2000
        spawn last work n
        await last
        if n / 10 * 10 == n
            spawn slow linger n
        set n n + 1
procedure work level
    set valve1 level
procedure linger level
    while turns < level + 5
        set turns turns + 1
        suspend
";

/// Five thousand settings of one valve, and some of others.
const SETTING: &str = "\
procedure main
    while n < 5000
        set valve0 n
        if n / 100 * 100 == n
            set valve2 n - n / 1000 * 1000
        if n == 2500
            set valve3 -7
        set n n + 1
";

/// A run without an end, that sets every valve to values of every size.
const ENDLESS: &str = "\
procedure main
    while n < 25
        spawn last rest_with_a_name_that_is_long n
        set n n + 1
    while 1
        set x x * 1103515245 + 12345
        set valve0 x
        set valve1 0 - x / 3
        set valve2 n
        set valve3 x / 1000
        spawn last end_with_a_name_that_is_long x
        set valve4 last
        set valve5 last / 100
        set valve6 last / 2 * 2 - last
        set valve7 2147483647
        await last
procedure rest_with_a_name_that_is_long level
    while 1
        set valve2 level
        suspend
        guard level - level / 2 * 2 + 1
procedure end_with_a_name_that_is_long level
    set valve6 level
";

fn is_bounded(document: &str) {
    let (width, height) = (attribute(document, "width"), attribute(document, "height"));
    assert!(width <= 2_000.0 && height <= 3_000.0, "{width} x {height}");
    assert!(document.len() <= MOST_BYTES, "{} bytes", document.len());
    well_formed(document);
    apart(document);
}

#[test]
fn long_runs_give_bounded_pictures() {
    for (text, steps, joined) in [
        (CROWD, 10_000, true),
        (CROWD, 3_000_000, true),
        (SPAWNING, 100_000, true),
        (SETTING, 100_000, true),
        (ENDLESS, 30_000, true),
        (ENDLESS, 3_000_000, true),
        (ENDLESS, 700, false),
        (MANY, 10_000, false),
    ] {
        let course = course(text, steps);
        let names = procedures(text);
        let whole = Timeline::of(&course);
        let document = drawn(&course, &whole, &names);
        is_bounded(&document);
        assert_eq!(document.contains(">Joined: what is narrower than "), joined);
        for (from, to) in [(0, 1), (100, 160), (0, 900), (whole.records / 2, whole.records)] {
            is_bounded(&drawn(&course, &whole.part(from, to), &names));
        }
    }
}

#[test]
fn a_picture_that_would_be_too_large_is_coarser() {
    for (text, steps, coarse) in [(CROWD, 10_000, false), (SETTING, 100_000, false), (ENDLESS, 30_000, true)] {
        let (document, _) = picture(text, steps);
        assert_eq!(document.contains(">Joined: what is narrower than a pixel, "), !coarse);
        assert_eq!(document.contains(" pixels, and arrows, turns or settings side by side."), coarse);
    }
}

#[test]
fn pictures_of_generated_tables_are_bounded() {
    let mut generator = Generator::new(11);
    let (mut crowded, mut dense) = (0, 0);
    let names: Vec<String> = (0..8).map(|number| format!("<p&{number}>")).collect();
    for _ in 0..400 {
        let table = generator.table();
        let most = Most { steps: 20_000, records: 5_000 };
        let course = Course::of(&table, &State::start(&table).unwrap(), most).unwrap();
        let timeline = Timeline::of(&course);
        let document = drawn(&course, &timeline, &names);
        is_bounded(&document);
        crowded += usize::from(timeline.lanes.len() > 40);
        dense += usize::from(document.contains(">Joined: "));
        assert!(document.contains("&lt;p&amp;0&gt;") && !document.contains("<p&"));
    }
    assert!(crowded > 10 && dense > 10, "{crowded} {dense}");
}

/// The texts of a class, with their left ends and baselines.
fn texts(document: &str, class: &str) -> Vec<(f64, f64, String)> {
    let begin = format!("<text class=\"{class}\"");
    let elements = document.split(&begin).skip(1);
    let told = elements.map(|element| {
        let (head, text) = element.split_once('>').unwrap();
        let text = text.split('<').next().unwrap().to_string();
        (attribute(head, "x"), attribute(head, "y"), text)
    });
    told.collect()
}

fn labels(document: &str) -> Vec<String> {
    texts(document, "label").into_iter().map(|(_, _, text)| text).collect()
}

#[test]
fn lanes_are_labelled_with_names() {
    let course = course(TWO, 100);
    let timeline = Timeline::of(&course);
    assert_eq!(labels(&drawn(&course, &timeline, &procedures(TWO)))[..2], ["task 1 main", "task 2 press"]);
    let long = ["m".to_string(), "x".repeat(40)];
    let document = drawn(&course, &timeline, &long);
    assert_eq!(labels(&document)[1], format!("task 2 {}...", "x".repeat(16)));
    assert!(document.contains(&format!("task 2: runs {}, started by task 1", "x".repeat(40))));
    // One name too few.
    assert_eq!(labels(&drawn(&course, &timeline, &long[..1]))[..2], ["task 1 m", "task 2"]);
}

#[test]
fn names_are_those_of_the_text() {
    assert_eq!(procedures(TWO), ["main", "press"]);
    let text = "# procedure x\nprocedure größe a # b\n  skip\nvariable v 9\nprocedure z\n";
    assert_eq!(procedures(text), ["größe", "z"]);
    assert_eq!(procedures("1(0,0,0)"), Vec::<String>::new());
}

#[test]
fn valves_have_lanes_with_their_values() {
    let (document, _) = picture(TWELVE, 10_000);
    let valves: Vec<String> = labels(&document).into_iter().filter(|label| label.starts_with("valve")).collect();
    let due = [0, 1, 2, 4, 5, 6, 7].map(|valve| format!("valve {valve}"));
    assert_eq!(valves, due);
    let (document, timeline) = picture(TWO, 100);
    assert_eq!(labels(&document), ["task 1", "task 2", "valve 0", "valve 1"]);
    let values: Vec<_> = texts(&document, "value").into_iter().map(|(_, _, text)| text).collect();
    assert_eq!(values, ["0", "1", "0", "5"]);
    assert!(document.contains(">valve 1: 5, set by task 2<") && document.contains(">task 2 sets valve 1 to 5<"));
    assert_eq!(texts(&document, "range").into_iter().map(|(_, _, text)| text).collect::<Vec<_>>(), ["0 to 5"]);
    // A valve that is not set, and one that holds a value from before.
    let late = timeline.part(5, 8);
    assert_eq!(late.used_valves().map(|(valve, _)| valve).collect::<Vec<_>>(), [0, 1]);
    let early = timeline.part(0, 3);
    assert_eq!(early.used_valves().count(), 0);
}

#[test]
fn a_valve_that_is_set_in_a_loop_is_joined() {
    let (document, timeline) = picture(SETTING, 100_000);
    assert_eq!(timeline.lanes[&1].settings.len(), 5_051);
    for part in [" values joined<", ">task 1: 5051 settings<", ">valve 3: -7, set by task 1<", ">900<"] {
        assert!(document.contains(part), "{part}");
    }
    assert!(document.matches("class=\"valve\"").count() < 10);
}

#[test]
fn later_tasks_reuse_lanes() {
    let (document, timeline) = picture(SPAWNING, 100_000);
    assert_eq!(timeline.lanes.len(), 2_201);
    let tasks: Vec<String> = labels(&document).into_iter().filter(|label| label.starts_with("task")).collect();
    assert!((3..=32).contains(&tasks.len()), "{tasks:?}");
    assert!(tasks.iter().any(|label| label.starts_with("tasks 2, ") && label.ends_with(", ...")), "{tasks:?}");
    assert!(document.contains(&format!(">2201 tasks in {} lanes, ", tasks.len())));
    assert!(document.contains(" arrows and ") && document.contains("Left out, as others are near: "));
    // Where there is room, each task is named where it begins.
    let course = course(SPAWNING, 100_000);
    let part = Timeline::of(&course).part(0, 300);
    assert!(part.lanes.len() > 40);
    let document = drawn(&course, &part, &procedures(SPAWNING));
    let heads = texts(&document, "head");
    assert!(heads.iter().any(|(_, _, text)| text == "2 linger" || text == "3 linger"), "{heads:?}");
    assert!(!document.contains(">Joined: "));
}

/// What a task does at a time.
fn doing(timeline: &Timeline, task: u16, time: f64) -> Option<Doing> {
    let bar = |bar: &&Bar| bar.from <= time && bar.to.is_none_or(|to| time < to);
    timeline.lanes.get(&task)?.bars.iter().find(bar).map(|bar| bar.doing)
}

/// The value of a valve at a time.
fn value(timeline: &Timeline, valve: usize, time: f64) -> i32 {
    timeline.valves[valve].iter().rev().find(|level| level.from <= time).unwrap().value
}

/// The times of events that lie in a window.
fn within(times: impl Iterator<Item = f64>, from: usize, to: usize) -> Vec<f64> {
    times.filter(|time| from as f64 <= *time && *time <= to as f64).collect()
}

fn is_part(whole: &Timeline, part: &Timeline, from: usize, to: usize) {
    assert_eq!((part.from, part.to, part.records), (from, to, whole.records));
    let times: Vec<f64> = (4 * from..4 * to).filter(|quarter| quarter % 2 == 1).map(|q| q as f64 / 4.0).collect();
    for (task, lane) in &whole.lanes {
        let (of_whole, of_part): (Vec<_>, Vec<_>) =
            times.iter().map(|time| (doing(whole, *task, *time), doing(part, *task, *time))).unzip();
        assert_eq!(of_whole, of_part, "task {task}");
        let Some(other) = part.lanes.get(task) else {
            assert!(of_whole.iter().all(Option::is_none));
            continue;
        };
        assert_eq!((lane.starter, lane.procedure, lane.taken_up), (other.starter, other.procedure, other.taken_up));
        let turns = |lane: &Lane| within(lane.turns.iter().map(|turn| turn.at), from, to);
        let settings = |lane: &Lane| within(lane.settings.iter().map(|setting| setting.at), from, to);
        assert_eq!((turns(lane), settings(lane)), (turns(other), settings(other)));
        assert_eq!((other.turns.len(), other.settings.len()), (turns(other).len(), settings(other).len()));
        assert!(other.bars.iter().all(|bar| from as f64 <= bar.from && bar.to.is_none_or(|end| end <= to as f64)));
        assert!(to == whole.records || other.bars.iter().all(|bar| bar.to.is_some()));
    }
    let spawns = |timeline: &Timeline| within(timeline.spawns.iter().map(|spawn| spawn.at), from, to);
    assert_eq!((spawns(whole), part.spawns.len()), (spawns(part), spawns(part).len()));
    for time in &times {
        assert!((0..8).all(|valve| value(whole, valve, *time) == value(part, valve, *time)), "{time}");
    }
}

#[test]
fn a_window_is_the_same_part_of_the_whole() {
    let mut generator = Generator::new(12);
    for _ in 0..300 {
        let table = generator.table();
        let most = Most { steps: 500, records: 100 };
        let whole = Timeline::of(&Course::of(&table, &State::start(&table).unwrap(), most).unwrap());
        for _ in 0..4 {
            let from = generator.random.below(whole.records + 1);
            let to = from + generator.random.below(whole.records - from + 1);
            is_part(&whole, &whole.part(from, to), from, to);
        }
        assert_eq!(whole.part(0, whole.records), whole);
    }
    for text in [TWO, TWELVE, MANY, GUARDS, ZERO, DIVISOR, CIRCLE, SPAWNING] {
        let whole = Timeline::of(&course(text, 4_000));
        let (from, to) = (whole.records / 3, 2 * whole.records / 3);
        is_part(&whole, &whole.part(from, to), from, to);
    }
}

#[test]
fn a_window_before_the_end_has_no_end_in_it() {
    for (text, sign) in [(CIRCLE, "waits for 2"), (DIVISOR, "stopped: record 15")] {
        let course = course(text, 10_000);
        let whole = Timeline::of(&course);
        let last = drawn(&course, &whole.part(2, whole.records), &[]);
        let before = drawn(&course, &whole.part(2, whole.records - 1), &[]);
        // The legend has a wait and the run's end, too.
        assert_eq!(last.matches(sign).count(), before.matches(sign).count() + 1, "{text}");
        assert_eq!((last.matches("class=\"end\"").count(), before.matches("class=\"end\"").count()), (2, 1));
    }
}
