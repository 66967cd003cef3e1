// What the evaluation of a formula with kept vertices (ops 9 to 11) costs: chains of steps and op 9 on graphs where they are asked at
// many vertices one by one, and a climb from the slowest of them and from formulas drawn at random.

use super::engine::Loaded;
use super::{median, stop, timed, Bundle, Random, EAGER, HIGHEST, SEED};
use std::iter::Peekable;
use std::time::{Duration, Instant};

const LINES: usize = 64;
const EDGES: usize = 512;
const ROUNDS: usize = 9;
// a role that both requestors hold; they hold no other
const ROLE: u8 = 1;
// an evaluation that takes less is compared with the plain one wherever it comes up; microseconds
const CHEAP: f64 = 10_000.0;

type Line = [u8; 3];

// ---- graphs: edges are label, from and to, and rise

#[derive(Clone, PartialEq)]
struct Graph {
    name: String,
    objects: u8,
    edges: Vec<Line>,
}

fn graph(name: String, objects: u8, mut edges: Vec<Line>) -> Graph {
    edges.sort();
    edges.dedup();
    edges.truncate(EDGES);
    Graph { name, objects, edges }
}

fn all_joined(n: u8) -> Graph {
    let edges = (0..n).flat_map(|from| (0..n).map(move |to| [0, from, to])).collect();
    graph(format!("{n} objects all joined"), n, edges)
}

// Object 0 is the middle.
fn star(points: u8) -> Graph {
    let edges = (1..=points).flat_map(|p| [[0, 0, p], [0, p, 0]]).collect();
    graph(format!("star of {points} points, out and back"), points + 1, edges)
}

// The middles come first. From each of them an edge to each of the points.
fn middles(a: u8, b: u8) -> Graph {
    let edges = (0..a).flat_map(|from| (a..a + b).map(move |to| [0, from, to])).collect();
    graph(format!("{a} × {b}"), a + b, edges)
}

fn scattered(g: &mut Random) -> Graph {
    let (objects, count, labels) = (2 + g.below(254), 1 + g.below(EDGES), 1 + g.below(4));
    let edges = (0..count).map(|_| [g.below(labels) as u8, g.below(objects) as u8, g.below(objects) as u8]).collect();
    graph("drawn at random".to_string(), objects as u8, edges)
}

// ---- formulas

// The lines of a formula written out, from the outside in: `op` or `op.a`, then what it is of. Without `.a` it is 0; 5 and 6 are of
// two in brackets, or of one that is taken twice.
fn formula(text: &str) -> Vec<Line> {
    let spaced = text.replace('(', " ( ").replace([',', ')'], " ");
    let mut lines = vec![];
    read(&mut spaced.split_whitespace().peekable(), &mut lines);
    lines
}

// Reads one formula. The number of its line, which may have been there.
fn read<'a>(words: &mut Peekable<impl Iterator<Item = &'a str>>, lines: &mut Vec<Line>) -> u8 {
    let mut numbers = words.next().unwrap_or("").split('.').map(|n| n.parse().unwrap_or_else(|_| stop("no formula")));
    let (op, a) = (numbers.next().unwrap(), numbers.next().unwrap_or(0));
    let line = match op {
        4 => [op, read(words, lines), 0],
        5 | 6 if words.next_if_eq(&"(").is_some() => [op, read(words, lines), read(words, lines)],
        5 | 6 => {
            let both = read(words, lines);
            [op, both, both]
        }
        7 | 8 | 9 | 11 => [op, a, read(words, lines)],
        _ => [op, a, 0],
    };
    let place = lines.iter().position(|l| *l == line).unwrap_or_else(|| {
        lines.push(line);
        lines.len() - 1
    });
    place as u8
}

// Written out again.
fn written(lines: &[Line], number: u8) -> String {
    let [op, a, b] = lines[number as usize];
    match op {
        4 => format!("4 {}", written(lines, a)),
        5 | 6 if a == b => format!("{op} {}", written(lines, a)),
        5 | 6 => format!("{op}({}, {})", written(lines, a), written(lines, b)),
        7 | 8 if a == 0 => format!("{op} {}", written(lines, b)),
        7 | 8 | 9 | 11 => format!("{op}.{a} {}", written(lines, b)),
        3 | 10 => format!("{op}.{a}"),
        _ => op.to_string(),
    }
}

// The slots that are set further out, if anywhere: those that each line reads, slot k with weight 2^k.
fn slots_read(lines: &[Line]) -> Vec<u8> {
    let mut all: Vec<u8> = vec![];
    for [op, a, b] in lines {
        let below = children([*op, *a, *b]).iter().fold(0, |s, c| s | all[*c]);
        all.push(match op {
            9 => below & !(1 << a),
            10 | 11 => below | 1 << a,
            _ => below,
        });
    }
    all
}

// The formulas that a line uses.
fn children([op, a, b]: Line) -> Vec<usize> {
    match op {
        4 => vec![a as usize],
        5 | 6 => vec![a as usize, b as usize],
        7 | 8 | 9 | 11 => vec![b as usize],
        _ => vec![],
    }
}

fn height(lines: &[Line]) -> usize {
    let mut heights: Vec<usize> = vec![];
    for line in lines {
        heights.push(children(*line).iter().map(|c| heights[*c] + 1).max().unwrap_or(0));
    }
    heights.into_iter().max().unwrap()
}

// With the formulas that it uses renumbered.
fn renumbered([op, a, b]: Line, number: impl Fn(u8) -> u8) -> Line {
    match op {
        4 => [op, number(a), 0],
        5 | 6 => [op, number(a), number(b)],
        7 | 8 | 9 | 11 => [op, a, number(b)],
        _ => [op, a, b],
    }
}

// Without the lines that the last one does not use.
fn in_use(lines: &[Line]) -> Vec<Line> {
    let mut used = vec![false; lines.len()];
    used[lines.len() - 1] = true;
    for i in (0..lines.len()).rev() {
        if used[i] {
            children(lines[i]).iter().for_each(|c| used[*c] = true);
        }
    }
    let number = |i: u8| used[..i as usize].iter().filter(|u| **u).count() as u8;
    (0..lines.len()).filter(|i| used[*i]).map(|i| renumbered(lines[i], number)).collect()
}

// ---- a case: the last line evaluated at an object

#[derive(Clone, PartialEq)]
struct Case {
    graph: Graph,
    lines: Vec<Line>,
    at: u8,
}

impl Case {
    // The last two objects are users. The formulas stand behind as many others as there may be, since op 9 looks through all that stand
    // before it for those that read its slot. One principal, with the formula given. Method 0 asks for what the principal gives; method
    // 1, all-of nothing, is met by the empty set.
    fn loaded(&self, formula: usize) -> Loaded {
        let mut b = Bundle::of(self.graph.objects);
        let others = (LINES - self.lines.len()) as u8;
        for user in self.requestors() {
            b.line(0x02, &[user, 0, 1 << ROLE]);
        }
        for edge in &self.graph.edges {
            b.line(0x03, edge);
        }
        for _ in 0..others {
            b.line(0x04, &[0, 0, 0]);
        }
        for line in &self.lines {
            b.line(0x04, &renumbered(*line, |n| n + others));
        }
        b.line(0x05, &[0, 0, 0, 0, 0, 0, 0, 1]);
        b.line(0x07, &[formula as u8 + others, 0]);
        b.line(0x0A, &[1, 0, 0, 0, 0, 0, 0, 0, 1]);
        b.line(0x0A, &[1, 0, 0, 0, 0, 0, 0, 0, 0]);
        Loaded::of(&b.ended())
    }

    // Asked in turn they empty the memo, so that each question evaluates.
    fn requestors(&self) -> [u8; 2] {
        [self.graph.objects - 2, self.graph.objects - 1]
    }

    fn asked(&self, method: u8, requestor: u8) -> [u8; 8] {
        [EAGER, method, self.at, requestor, 0, 0, 0, 0]
    }
}

// ---- a plain evaluation, to compare with

type Set = [u64; 4];

const NONE: Set = [0; 4];

fn single(v: u8) -> Set {
    let mut s = NONE;
    s[v as usize / 64] = 1 << (v % 64);
    s
}

fn joint(a: Set, b: Set, bits: impl Fn(u64, u64) -> u64) -> Set {
    std::array::from_fn(|k| bits(a[k], b[k]))
}

fn meet(a: Set, b: Set) -> Set {
    joint(a, b, |x, y| x & y)
}

fn members(s: Set) -> impl Iterator<Item = u8> {
    (0..4).flat_map(move |k| {
        let mut rest = s[k];
        std::iter::from_fn(move || {
            let low = rest.trailing_zeros();
            rest &= rest.wrapping_sub(1);
            (low < 64).then_some(k as u8 * 64 + low as u8)
        })
    })
}

// Counts the steps, each from a set of vertices, and the vertices that are kept, each by itself. Where it is not by all, a slot that
// nothing below reads is left as it is, and the vertices are asked together.
struct Plain<'a> {
    lines: &'a [Line],
    read: Vec<u8>,
    by_all: bool,
    next: Vec<Set>,
    at: u8,
    requestor: u8,
    steps: u64,
    kept: u64,
}

// Where the vertices stand that a step (op 7 or 8) with the label leads to from vertex 0.
fn place(op: u8, label: u8) -> usize {
    (label as usize * 2 + op as usize - 7) * 256
}

impl Plain<'_> {
    fn of(case: &Case, requestor: u8, by_all: bool) -> Plain<'_> {
        let mut next = vec![NONE; 16 * 2 * 256];
        for [label, from, to] in &case.graph.edges {
            for (op, v, w) in [(7, *from, *to), (8, *to, *from)] {
                let of = &mut next[place(op, *label) + v as usize];
                *of = joint(*of, single(w), |x, y| x | y);
            }
        }
        let read = slots_read(&case.lines);
        Plain { lines: &case.lines, read, by_all, next, at: case.at, requestor, steps: 0, kept: 0 }
    }

    fn truth(&mut self) -> bool {
        self.holds(self.lines.len() - 1, single(self.at), [None; 4]) != NONE
    }

    // Where the formula is true, of the vertices asked.
    fn holds(&mut self, formula: usize, asked: Set, slots: [Option<u8>; 4]) -> Set {
        if asked == NONE {
            return NONE;
        }
        let [op, a, b] = self.lines[formula];
        let (i, j) = (a as usize, b as usize);
        match op {
            0 => asked,
            1 => meet(asked, single(self.requestor)),
            2 => meet(asked, single(self.at)),
            3 if a == ROLE => asked,
            3 => NONE,
            4 => joint(asked, self.holds(i, asked, slots), |x, y| x & !y),
            5 => meet(self.holds(i, asked, slots), self.holds(j, asked, slots)),
            6 => joint(self.holds(i, asked, slots), self.holds(j, asked, slots), |x, y| x | y),
            7 | 8 => self.step(place(op, a), j, asked, slots),
            9 if self.by_all || self.read[j] >> a & 1 == 1 => self.keep(i, j, asked, slots),
            9 => self.holds(j, asked, slots),
            10 => slots[i].map_or(NONE, |v| meet(asked, single(v))),
            _ => match slots[i] {
                Some(v) if self.holds(j, single(v), slots) != NONE => asked,
                _ => NONE,
            },
        }
    }

    fn step(&mut self, place: usize, b: usize, asked: Set, slots: [Option<u8>; 4]) -> Set {
        self.steps += 1;
        let led = members(asked).fold(NONE, |s, v| joint(s, self.next[place + v as usize], |x, y| x | y));
        let good = self.holds(b, led, slots);
        members(asked)
            .filter(|v| meet(self.next[place + *v as usize], good) != NONE)
            .fold(NONE, |s, v| joint(s, single(v), |x, y| x | y))
    }

    fn keep(&mut self, slot: usize, b: usize, asked: Set, mut slots: [Option<u8>; 4]) -> Set {
        let mut good = NONE;
        for v in members(asked) {
            self.kept += 1;
            slots[slot] = Some(v);
            good = joint(good, self.holds(b, single(v), slots), |x, y| x | y);
        }
        good
    }
}

// ---- one evaluation, measured

// Milliseconds, net of the question whose formula has height 0, of each round, rising; and the time of the first question. Of plain
// evaluations: the vertices kept, those of them in slots that are read, and the steps if only these are asked by themselves.
#[derive(Clone)]
struct Measured {
    case: Case,
    first: f64,
    rounds: Vec<f64>,
    counts: Counts,
}

#[derive(Clone, Copy)]
struct Counts {
    kept: u64,
    read: u64,
    steps: u64,
}

// Compares the answers for both requestors with plain evaluations. The time of the slower one, and the counts.
fn compared(case: &Case, record: &mut Loaded) -> (f64, Counts) {
    let (mut slower, mut counts) = (0f64, Counts { kept: 0, read: 0, steps: 0 });
    for (requestor, by_all) in case.requestors().into_iter().zip([true, false]) {
        let mut plain = Plain::of(case, requestor, by_all);
        let mut answers = [[0; 5]];
        slower = slower.max(timed(|| record.answer(&[case.asked(0, requestor)], &mut answers)).1);
        if answers[0] != if plain.truth() { [0, 0, 0, 1, 1] } else { [17, 0, 0, 0, 1] } {
            stop("an evaluation with kept vertices came to something else than the plain one");
        }
        counts = Counts { kept: counts.read, read: plain.kept, steps: plain.steps };
    }
    (slower, counts)
}

// What a question of a list takes, the median of so many lists.
fn question(record: &mut Loaded, list: &[[u8; 8]], lists: usize) -> f64 {
    let mut answers = vec![[0; 5]; list.len()];
    let mut times = vec![];
    for _ in 0..lists {
        times.push(timed(|| record.answer(list, &mut answers)).1 / list.len() as f64);
        if answers.iter().any(|a| *a != [0, 0, 0, 0, 1]) {
            stop("a question did not evaluate the one formula");
        }
    }
    median(&times)
}

impl Measured {
    // Compared with plain evaluations; not measured yet.
    fn of(case: Case) -> Measured {
        let (first, counts) = compared(&case, &mut case.loaded(case.lines.len() - 1));
        Measured { case, first, rounds: vec![], counts }
    }

    // One round more.
    fn measure(&mut self) {
        let case = &self.case;
        let (mut record, mut without) = (case.loaded(case.lines.len() - 1), case.loaded(0));
        let list: Vec<[u8; 8]> = case.requestors().repeat(10).into_iter().map(|r| case.asked(1, r)).collect();
        // as many lists as fit into 10 ms; of an evaluation that takes longer one question, by each requestor in turn
        let own = if self.first > 10_000.0 { &list[self.rounds.len() % 2..][..1] } else { &list[..] };
        let lists = ((10_000.0 / self.first / own.len() as f64) as usize).clamp(1, 60);
        let net = question(&mut record, own, lists) - question(&mut without, &list, 60);
        self.rounds.push(net / 1_000.0);
        self.rounds.sort_by(f64::total_cmp);
    }

    fn lowest(&self) -> f64 {
        self.rounds[0]
    }
}

// All of them by turns, so that a time in which the machine is slower is shared.
fn measure_by_turns<'a>(all: impl IntoIterator<Item = &'a mut Measured>) {
    let mut all: Vec<&mut Measured> = all.into_iter().collect();
    for _ in 0..ROUNDS {
        all.iter_mut().for_each(|m| m.measure());
    }
}

fn measured(case: Case) -> Measured {
    let mut m = Measured::of(case);
    measure_by_turns([&mut m]);
    m
}

// ---- families of formulas

fn digits(ms: f64) -> String {
    let places = [100.0, 10.0, 1.0, 0.1].iter().filter(|limit| ms.abs() < **limit).count();
    format!("{ms:.places$}")
}

fn shown(m: &Measured) -> String {
    format!("{} ({} to {})", digits(median(&m.rounds)), digits(m.lowest()), digits(m.rounds[m.rounds.len() - 1]))
}

// A formula at an object, with each of the leaves of its table at its end.
struct Row {
    place: String,
    text: String,
    cells: Vec<Measured>,
}

// The columns of times have these titles.
struct Table {
    titles: &'static [&'static str],
    rows: Vec<Row>,
}

fn row(graph: &Graph, (place, at): (&str, u8), text: &str, leaves: &[&str]) -> Row {
    let case = |leaf: &&str| Case { graph: graph.clone(), lines: formula(&format!("{text} {leaf}")), at };
    let cells = leaves.iter().map(|leaf| Measured::of(case(leaf))).collect();
    Row { place: format!("{}, {place}", graph.name), text: text.to_string(), cells }
}

// The counts of a row are those of the most steps.
fn print(Table { titles, rows }: &Table) {
    println!("\n| graph, asked at | formula | height | kept | read | steps | {} |", titles.join(" | "));
    println!("|{}", "---|".repeat(6 + titles.len()));
    for Row { place, text, cells } in rows {
        let most = cells.iter().max_by_key(|m| (m.counts.steps, m.counts.read)).unwrap();
        let (height, Counts { kept, read, steps }) = (height(&most.case.lines), most.counts);
        let times = cells.iter().map(shown).collect::<Vec<String>>().join(" | ");
        println!("| {place} | {text} | {height} | {kept} | {read} | {steps} | {times} |");
    }
}

// Chains of steps and op 9 up to the highest, above three leaves.
fn by_height(graph: &Graph, places: &[(&str, u8)]) -> Table {
    let mut rows = vec![];
    for place in places {
        for ops in [["7", "9.0", "7", "9.1", "7"], ["9.0", "7", "9.1", "7", "9.2"]] {
            rows.extend((2..=HIGHEST).map(|h| row(graph, *place, &ops[..h].join(" "), &["3", "10.0", "0"])));
        }
    }
    Table { titles: &["3 (true nowhere)", "10.0", "0 (true)"], rows }
}

// What is below reads one slot: out, kept, back and out again, with one level more in each place. O is the step back to a middle; it and
// the step out lead to all that the first step led to.
const ONE_READ: [&str; 22] = [
    "7 9.0 O 10.0",
    "7 9.0 O 7 10.0",
    "7 9.0 O 7 O 10.0",
    "7 9.0 O 7 6 10.0",
    "7 9.0 O 6 7 10.0",
    "7 9.0 6 O 7 10.0",
    "7 6 9.0 O 7 10.0",
    "6 7 9.0 O 7 10.0",
    "7 9.0 O 5 7 10.0",
    "7 9.0 5 O 7 10.0",
    "7 9.0 O 7 4 10.0",
    "7 9.0 O 4 7 10.0",
    "7 9.0 O 7 9.1 10.0",
    "7 9.0 O 7 9.1 10.1",
    "7 9.0 O 9.1 7 10.0",
    "7 9.0 O 9.1 9.2 10.0",
    "7 9.0 O 6 9.1 10.0",
    "7 9.0 6 O 9.1 10.0",
    "7 9.0 O 7 11.0 10.0",
    "7 9.0 11.0 O 7 10.0",
    "7 9.0 6 6 O 10.0",
    "7 9.0 6(O 7 10.0, 11.0 O 10.0)",
];

// What is below reads both slots that were set, so that every vertex is asked by itself.
const BOTH_READ: [&str; 9] = [
    "7 9.0 O 9.1 6(10.0, 10.1)",
    "7 9.0 O 9.1 5(10.0, 10.1)",
    "7 9.0 O 9.1 11.0 10.1",
    "7 9.0 9.1 O 6(10.0, 10.1)",
    "7 9.0 6(O 9.1 10.1, O 10.0)",
    "9.0 7 9.1 O 6(10.0, 10.1)",
    "9.0 7 9.1 6(O 10.0, O 10.1)",
    "9.0 7 9.1 11.0 7 10.1",
    "9.0 7 9.1 6(10.0, 10.1)",
];

// O is 7 where there are edges back, else 8.
fn by_reading() -> Table {
    let mut rows = vec![];
    for (graph, back) in [(all_joined(22), "7"), (star(254), "7"), (middles(2, 253), "8")] {
        for text in ONE_READ.iter().chain(&BOTH_READ) {
            rows.push(row(&graph, ("object 0", 0), &text.replace('O', back), &[""]));
        }
    }
    for text in ["8 9.0 8 8 8 10.0", "8 9.0 8 7 8 10.0"] {
        rows.push(row(&star(254), ("the middle", 0), text, &[""]));
    }
    rows.push(row(&star(254), ("a point", 1), "7 7 9.0 7 7 10.0", &[""]));
    rows.push(row(&middles(2, 253), ("a point", 2), "8 7 9.0 8 7 10.0", &[""]));
    for text in ["8 9.0 7 8 7 10.0", "8 9.0 5 7 8 10.0"] {
        rows.push(row(&middles(253, 2), ("a point", 253), text, &[""]));
    }
    for (a, b) in [(1, 254), (3, 170), (4, 128), (8, 64), (16, 32), (22, 23)] {
        for text in [ONE_READ[2], ONE_READ[9], BOTH_READ[0]] {
            rows.push(row(&middles(a, b), ("a middle", 0), &text.replace('O', "8"), &[""]));
        }
    }
    Table { titles: &["ms"], rows }
}

// ---- cases drawn at random, and changes

const DRAWN: usize = 300;
const STARTS: usize = 4;

fn some_graph(g: &mut Random) -> Graph {
    match g.below(10) {
        0 => all_joined(22),
        1 => star(254),
        2 => middles(1, 254),
        3 => middles(2, 253),
        4 => middles(3, 170),
        5 => middles(4, 128),
        6 => middles(16, 32),
        7 => middles(253, 2),
        _ => scattered(g),
    }
}

// Any line that may stand after so many others.
fn some_line(g: &mut Random, before: usize) -> Line {
    let op = if before == 0 { g.of(&[0, 1, 2, 3, 10]) } else { g.below(12) } as u8;
    // the line just before half of the time
    let used = |g: &mut Random| (if g.permille(500) { before - 1 } else { g.below(before) }) as u8;
    match op {
        0..=2 => [op, 0, 0],
        3 => [op, g.below(2) as u8, 0],
        4 => [op, used(g), 0],
        5 | 6 => [op, used(g), used(g)],
        7 | 8 => [op, g.of(&[0, 0, 0, 0, 1, 2]) as u8, used(g)],
        10 => [op, g.below(4) as u8, 0],
        _ => [op, g.below(4) as u8, used(g)],
    }
}

fn some_case(g: &mut Random) -> Case {
    let graph = some_graph(g);
    let mut lines = vec![];
    while lines.len() < LINES {
        lines.push(some_line(g, lines.len()));
        if height(&lines) > HIGHEST {
            lines.pop();
        }
    }
    let at = if g.permille(500) { 0 } else { g.below(graph.objects as usize) as u8 };
    Case { graph, lines: in_use(&lines), at }
}

// Puts a line in above line i, for all that use it.
fn put_above(lines: &mut Vec<Line>, i: usize, line: Line) {
    for later in &mut lines[i + 1..] {
        *later = renumbered(*later, |n| if n as usize >= i { n + 1 } else { n });
    }
    lines.insert(i + 1, line);
}

// A line drawn anew, put in above another one, or taken out; one that reads a slot joined to another; two lines' ops change places.
fn change_lines(g: &mut Random, lines: &mut Vec<Line>) {
    let (i, k) = (g.below(lines.len()), g.below(lines.len()));
    match g.below(6) {
        0 | 1 => lines[i] = some_line(g, i),
        2 => put_above(lines, i, some_line(g, i + 1)),
        4 => {
            lines.iter_mut().for_each(|line| *line = renumbered(*line, |n| n + 1));
            lines.insert(0, [10, g.below(4) as u8, 0]);
            put_above(lines, i + 1, [5 + g.below(2) as u8, i as u8 + 1, 0]);
        }
        3 if lines.len() > 1 => {
            let instead = children(lines[i]).first().map_or(i.saturating_sub(1), |c| *c) as u8;
            lines.remove(i);
            for line in &mut lines[i..] {
                *line = renumbered(*line, |n| {
                    if n as usize > i {
                        n - 1
                    } else if n as usize == i {
                        instead
                    } else {
                        n
                    }
                });
            }
            lines[0] = if children(lines[0]).is_empty() { lines[0] } else { some_line(g, 0) };
        }
        _ => {
            let (a, b) = (lines[i], lines[k]);
            if children(a).len() == 1 && children(b).len() == 1 && a[0] != 4 && b[0] != 4 {
                (lines[i], lines[k]) = ([b[0], b[1], a[2]], [a[0], a[1], b[2]]);
            }
        }
    }
}

// Some edges taken out or put in; or two objects change places.
fn change_edges(g: &mut Random, graph: &mut Graph) {
    let objects = graph.objects as usize;
    if g.permille(200) {
        let (v, w) = (g.below(objects) as u8, g.below(objects) as u8);
        let moved = |o: u8| {
            if o == v {
                w
            } else if o == w {
                v
            } else {
                o
            }
        };
        graph.edges.iter_mut().for_each(|[_, from, to]| (*from, *to) = (moved(*from), moved(*to)));
    }
    for _ in 0..g.of(&[1, 1, 4, 30]) {
        if !graph.edges.is_empty() && g.permille(500) {
            graph.edges.remove(g.below(graph.edges.len()));
        }
        if graph.edges.len() < EDGES {
            graph.edges.push([g.of(&[0, 0, 0, 1, 2]) as u8, g.below(objects) as u8, g.below(objects) as u8]);
        }
    }
    graph.edges.sort();
    graph.edges.dedup();
}

// One to three changes; another graph now and then.
fn changed(g: &mut Random, from: &Case) -> Case {
    let mut c = from.clone();
    for _ in 0..1 + g.below(3) {
        match g.below(16) {
            0..=10 => change_lines(g, &mut c.lines),
            11..=13 => change_edges(g, &mut c.graph),
            14 => c.at = g.below(c.graph.objects as usize) as u8,
            _ => {
                c.graph = some_graph(g);
                c.at = c.at.min(c.graph.objects - 1);
            }
        }
    }
    c.lines = in_use(&c.lines);
    c
}

// ---- the climb

// Milliseconds of a question, the median of so many; compared with the plain evaluation where that is cheap.
fn quick(case: &Case, questions: usize) -> f64 {
    let mut record = case.loaded(case.lines.len() - 1);
    let [one, other] = case.requestors();
    let mut times = vec![];
    for requestor in [one, other].repeat(questions).into_iter().take(questions) {
        times.push(question(&mut record, &[case.asked(1, requestor)], 1));
    }
    let time = median(&times);
    if time < CHEAP {
        compared(case, &mut case.loaded(case.lines.len() - 1));
    }
    time / 1_000.0
}

// Small changes are kept where the evaluation gets no faster.
fn climbed(g: &mut Random, from: Case, limit: Duration) -> (usize, Case) {
    let (mut best, mut time, mut tried) = (from, 0.0, 0);
    let start = Instant::now();
    while start.elapsed() < limit {
        let next = changed(g, &best);
        if next == best || next.lines.len() > LINES || height(&next.lines) > HIGHEST {
            continue;
        }
        if tried % 64 == 0 {
            time = quick(&best, 15);
        }
        tried += 1;
        let new = quick(&next, 3);
        if new >= time {
            // both again, side by side: the first may have been disturbed
            let (old, new) = (quick(&best, 15), quick(&next, 15));
            time = old;
            if new >= old {
                (best, time) = (next, new);
            }
        }
    }
    (tried, best)
}

// Of the ten that took longest, measured again by turns, the one whose lowest round is the highest: any round may have been disturbed.
fn slowest(all: &[Measured]) -> Measured {
    let mut those: Vec<&Measured> = all.iter().collect();
    those.sort_by(|a, b| b.lowest().total_cmp(&a.lowest()));
    let mut again: Vec<Measured> = those.iter().take(10).map(|m| Measured::of(m.case.clone())).collect();
    measure_by_turns(&mut again);
    again.into_iter().max_by(|a, b| a.lowest().total_cmp(&b.lowest())).unwrap()
}

fn described(m: &Measured) -> String {
    let (Graph { name, objects, edges }, Counts { kept, read, steps }) = (&m.case.graph, m.counts);
    let mut labels: Vec<u8> = edges.iter().map(|e| e[0]).collect();
    labels.dedup();
    let text = written(&m.case.lines, m.case.lines.len() as u8 - 1);
    let graph = format!("{objects} objects, {} edges, labels {labels:?}, from {name}", edges.len());
    format!("{} ms; `{text}` at {}; {graph}; kept {kept}, read {read}, steps {steps}", shown(m), m.case.at)
}

// Half of the time from cases drawn at random, the other half from the slowest of all.
fn climbs(mut all: Vec<Measured>, climb: Duration) {
    let mut g = Random(SEED);
    println!("\nThe slowest of these: {}.", described(&slowest(&all)));
    println!("\nClimbing: changes of lines, edges or the object that make the evaluation no faster are kept.");
    println!("{} seconds, seed {SEED}. Milliseconds:\n", climb.as_secs());
    for _ in 0..STARTS {
        let drawn: Vec<(f64, Case)> = (0..DRAWN).map(|_| some_case(&mut g)).map(|c| (quick(&c, 3), c)).collect();
        let (before, from) = drawn.into_iter().max_by(|a, b| a.0.total_cmp(&b.0)).unwrap();
        let (tried, top) = climbed(&mut g, from, climb / 2 / STARTS as u32);
        let top = measured(top);
        println!("From the slowest of {DRAWN} drawn at random, {}: after {tried} changes tried,", digits(before));
        println!("  {}.", described(&top));
        all.push(top);
    }
    let (tried, top) = climbed(&mut g, slowest(&all).case, climb / 2);
    let top = measured(top);
    println!("From the slowest of all: after {tried} changes tried,\n  {}.", described(&top));
    all.push(top);
    println!("\nThe slowest found: {}.", described(&slowest(&all)));
}

pub fn formulas(climb: Duration) {
    println!("\nEvaluation with kept vertices. Formulas from the outside in, `op.a`; 5 and 6 of one formula are of it twice.");
    println!("Kept: how many vertices op 9 keeps, each by itself. Read: how many of them in a slot that something below reads.");
    println!("Steps: how many steps, each from a set of vertices, if only these are asked by themselves.");
    println!("Each formula stands at the end of {LINES}, of which the first are not used.");
    println!("Milliseconds, net of the question of height 0: median of {ROUNDS} rounds (lowest to highest), which all take by turns.");
    let mut tables = [
        by_height(&all_joined(22), &[("any", 0)]),
        by_height(&star(254), &[("the middle", 0), ("a point", 1)]),
        by_reading(),
    ];
    measure_by_turns(tables.iter_mut().flat_map(|t| &mut t.rows).flat_map(|r| &mut r.cells));
    tables.iter().for_each(print);
    climbs(tables.into_iter().flat_map(|t| t.rows).flat_map(|r| r.cells).collect(), climb);
}
