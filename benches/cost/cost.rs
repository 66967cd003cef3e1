// What an evaluation and a search for the least set cost, measured through questions on a lent record that was loaded once
// (docs/PERFORMANCE.md). Everything is made from one seed. Times are processor time, the median of several, net of what else a
// question does.

use std::time::{Duration, Instant};

mod kept;
mod slowest;

mod engine {
    // ACCESS_RECORD_OCTETS of include/case_access.h.
    const OCTETS: usize = 6192;

    #[repr(C, align(8))]
    struct Record([u8; OCTETS]);

    extern "C" {
        fn access_load(record: *mut Record, bundle: *const u8, length: usize) -> u64;
        fn access_answer(
            record: *mut Record,
            calls: *const [u8; 8],
            calls_length: usize,
            answers: *mut [u8; 5],
            answers_length: usize,
        ) -> u64;
    }

    // A record that a bundle was loaded into.
    pub struct Loaded(Box<Record>);

    impl Loaded {
        pub fn of(bundle: &[u8]) -> Loaded {
            let mut record = Box::new(Record([0; OCTETS]));
            if unsafe { access_load(&mut *record, bundle.as_ptr(), bundle.len()) } != 0 {
                super::stop("a bundle did not load");
            }
            Loaded(record)
        }

        // Answers as many calls as there are answers.
        pub fn answer(&mut self, calls: &[[u8; 8]], answers: &mut [[u8; 5]]) {
            let (c, a) = (8 * calls.len(), 5 * answers.len());
            let count = unsafe { access_answer(&mut *self.0, calls.as_ptr(), c, answers.as_mut_ptr(), a) };
            if count != answers.len() as u64 {
                super::stop("not every call was answered");
            }
        }

        // The set that a question about object 0 is granted, or NO_SET.
        pub fn ask(&mut self, kind: u8, method: u8, requestor: u8) -> u32 {
            let mut answers = [[0; 5]];
            self.answer(&[[kind, method, 0, requestor, 0, 0, 0, 0]], &mut answers);
            match answers[0] {
                [0, high, middle, low, _] => u32::from_be_bytes([0, high, middle, low]),
                [17, ..] => super::NO_SET,
                _ => super::stop("a question was refused"),
            }
        }
    }
}

use engine::Loaded;

const NO_SET: u32 = 4294967295;
const EAGER: u8 = 2;
const LAZY: u8 = 3;

// The greatest height of a formula (request 2026-05).
const HIGHEST: usize = 5;

// ---- bundles

struct Bundle {
    text: Vec<u8>,
    lines: u16,
    sum: u32,
}

impl Bundle {
    fn of(objects: u8) -> Bundle {
        let mut b = Bundle { text: vec![], lines: 0, sum: 0 };
        b.line(0x01, &[1, objects]);
        b
    }

    fn line(&mut self, kind: u8, body: &[u8]) {
        let mut octets = vec![body.len() as u8, kind];
        octets.extend_from_slice(body);
        let sum = octets.iter().fold(0u8, |s, o| s.wrapping_add(*o));
        octets.push(sum.wrapping_neg());
        for o in &octets {
            self.sum += *o as u32;
            for digit in [o >> 4, o & 15] {
                self.text.push(b"0123456789ABCDEF"[digit as usize]);
            }
        }
        self.text.push(b'\n');
        self.lines += 1;
    }

    fn ended(mut self) -> Vec<u8> {
        let mut body = self.lines.to_be_bytes().to_vec();
        body.extend_from_slice(&self.sum.to_be_bytes());
        self.line(0xFF, &body);
        self.text
    }
}

// ---- times, in microseconds

// What this thread has used of the processor: other programs that run meanwhile do not count.
fn used() -> f64 {
    extern "C" {
        fn clock_gettime(clock: i32, seconds_and_nanoseconds: *mut [i64; 2]) -> i32;
    }
    const THREAD: i32 = 3;
    let mut time = [0; 2];
    if unsafe { clock_gettime(THREAD, &mut time) } != 0 {
        stop("no clock");
    }
    time[0] as f64 * 1e6 + time[1] as f64 / 1e3
}

fn timed<T>(call: impl FnOnce() -> T) -> (T, f64) {
    let start = used();
    let answer = std::hint::black_box(call());
    (answer, used() - start)
}

// The answer, and the median of so many calls.
fn typical(calls: usize, mut call: impl FnMut() -> u32) -> (u32, f64) {
    let all: Vec<(u32, f64)> = (0..calls).map(|_| timed(&mut call)).collect();
    (all[0].0, median(&all.iter().map(|a| a.1).collect::<Vec<f64>>()))
}

fn median(times: &[f64]) -> f64 {
    let mut t = times.to_vec();
    t.sort_by(f64::total_cmp);
    t[t.len() / 2]
}

fn stop(words: &str) -> ! {
    eprintln!("cost: {words}");
    std::process::exit(1);
}

// ---- formulas of nested steps

const OBJECTS: u8 = 22;
const HEIGHTS: usize = HIGHEST + 1;
const ROUNDS: usize = 9;
const LISTS: usize = 60;
const QUESTIONS: usize = 20;

// Every object joined to every object by label 0. Formula 0 as given, formula i a step to formula i - 1; one principal, with the
// formula of a height. Method 0 asks for what the principal gives; method 1, all-of nothing, is met by the empty set.
fn joined(innermost: [u8; 3], height: u8) -> Vec<u8> {
    let mut b = Bundle::of(OBJECTS);
    b.line(0x02, &[OBJECTS - 1, 0, 0]);
    for from in 0..OBJECTS {
        for to in 0..OBJECTS {
            b.line(0x03, &[0, from, to]);
        }
    }
    b.line(0x04, &innermost);
    for i in 1..HEIGHTS as u8 {
        b.line(0x04, &[7, 0, i - 1]);
    }
    b.line(0x05, &[0, 0, 0, 0, 0, 0, 0, 1]);
    b.line(0x07, &[height, 0]);
    b.line(0x0A, &[1, 0, 0, 0, 0, 0, 0, 0, 1]);
    b.line(0x0A, &[1, 0, 0, 0, 0, 0, 0, 0, 0]);
    b.ended()
}

// Two objects in turn, 0 the last, so that each question empties the memo and evaluates. The answer is the empty set whatever that
// comes to.
fn evaluations() -> [[u8; 8]; QUESTIONS] {
    std::array::from_fn(|i| [EAGER, 1, (i as u8 + 1) % 2, OBJECTS - 1, 0, 0, 0, 0])
}

fn formulas() {
    // innermost: a role that the requestor does not hold; here is the requestor; true
    let innermosts = [("true nowhere", [3, 0, 0]), ("at one object", [1, 0, 0]), ("everywhere", [0, 0, 0])];
    let truths = [[false; HEIGHTS], std::array::from_fn(|height| height > 0), [true; HEIGHTS]];
    let mut records: Vec<Vec<Loaded>> = innermosts
        .iter()
        .map(|(_, innermost)| (0..HEIGHTS as u8).map(|h| Loaded::of(&joined(*innermost, h))).collect())
        .collect();
    for (of, truth) in records.iter_mut().zip(&truths) {
        for h in 0..HEIGHTS {
            if of[h].ask(EAGER, 0, OBJECTS - 1) != if truth[h] { 1 } else { NO_SET } {
                stop("an evaluation came to something else than it must");
            }
        }
    }
    // net[innermost][height][round]; the lists of a round take turns
    let mut net = vec![vec![vec![]; HEIGHTS]; records.len()];
    let mut without = vec![];
    let (calls, mut answers) = (evaluations(), [[0; 5]; QUESTIONS]);
    for _ in 0..ROUNDS {
        let mut times = vec![vec![vec![]; HEIGHTS]; records.len()];
        for _ in 0..LISTS {
            for (i, of) in records.iter_mut().enumerate() {
                for h in 0..HEIGHTS {
                    times[i][h].push(timed(|| of[h].answer(&calls, &mut answers)).1 / QUESTIONS as f64);
                    if answers.iter().any(|a| *a != [0, 0, 0, 0, 1]) {
                        stop("a question did not evaluate the one formula");
                    }
                }
            }
        }
        for i in 0..records.len() {
            for h in 0..HEIGHTS {
                net[i][h].push(median(&times[i][h]) - median(&times[i][0]));
            }
        }
        without.push(median(&times[0][0]));
    }
    println!(
        "Evaluation of nested steps: {} objects, all joined, {} edges.",
        OBJECTS,
        OBJECTS as usize * OBJECTS as usize
    );
    println!("Microseconds, net of height 0, whose question takes {:.1} in a list of {QUESTIONS}.", median(&without));
    println!("Median of {ROUNDS} rounds (lowest to highest), each the median of {LISTS} lists. By what the innermost formula is:\n");
    println!(
        "| height | {} | per level, slowest | edge visits, vertex by vertex |",
        innermosts.map(|(name, _)| name).join(" | ")
    );
    println!("|---|---|---|---|---|---|");
    for h in 1..HEIGHTS {
        let cells = [0, 1, 2].map(|i| {
            let (low, high) = net[i][h].iter().fold((f64::INFINITY, 0f64), |(l, g), t| (l.min(*t), g.max(*t)));
            format!("{:.2} ({:.2} to {:.2})", median(&net[i][h]), low, high)
        });
        let slowest = (0..3).map(|i| median(&net[i][h])).fold(0.0, f64::max);
        println!("| {} | {} | {:.2} | {} |", h, cells.join(" | "), slowest / h as f64, 22u64.pow(h as u32));
    }
}

// ---- the least set

// Of each principal the set that it excludes, the set that it needs directly, and the privileges that it gives; the role principals;
// and the guard.
#[derive(Clone, Copy, Debug)]
struct Rules {
    count: usize,
    excludes: [u32; 20],
    needs: [u32; 20],
    gives: [u64; 20],
    roles: u32,
    every: bool,
    wanted: u64,
}

fn has(s: u32, p: usize) -> bool {
    s >> p & 1 == 1
}

impl Rules {
    fn exclude(&mut self, p: usize, q: usize) {
        self.excludes[p] ^= 1 << q;
        self.excludes[q] ^= 1 << p;
    }

    // That p needs q, or no longer, if this makes no circle.
    fn needing(&self, p: usize, q: usize) -> Rules {
        let mut r = *self;
        r.needs[p] ^= 1 << q;
        let mut all = r.needs;
        for m in 0..r.count {
            for n in 0..r.count {
                if has(all[n], m) {
                    all[n] |= all[m];
                }
            }
        }
        let circular = (0..r.count).any(|n| has(all[n], n));
        if circular {
            *self
        } else {
            r
        }
    }

    // Privileges k and l change places.
    fn exchange(&mut self, k: usize, l: usize) {
        for set in self.gives.iter_mut().chain([&mut self.wanted]) {
            let differ = (*set >> k ^ *set >> l) & 1;
            *set ^= differ << k | differ << l;
        }
    }

    // One object, which is a user and holds role 0. Method 0 is the guard; method 1, all-of nothing, is met by the empty set.
    // The principals allowed have a formula that is true, the others one that is not.
    fn loaded(&self, allowed: u32) -> Loaded {
        let n = self.count;
        let mut b = Bundle::of(1);
        b.line(0x02, &[0, 0, 1]);
        // true; not true; role 0; role 1
        for formula in [[0, 0, 0], [4, 0, 0], [3, 0, 0], [3, 1, 0]] {
            b.line(0x04, &formula);
        }
        for p in 0..n {
            b.line(0x05, &self.gives[p].to_be_bytes());
        }
        for p in 0..n {
            let formula = 2 * has(self.roles, p) as u8 + !has(allowed, p) as u8;
            b.line(0x07, &[formula, p as u8]);
        }
        for p in 0..n {
            for q in p + 1..n {
                if has(self.excludes[p], q) {
                    b.line(0x08, &[p as u8, q as u8]);
                }
            }
        }
        for p in 0..n {
            for q in 0..n {
                if has(self.needs[q], p) {
                    b.line(0x09, &[p as u8, q as u8]);
                }
            }
        }
        let mut guard = vec![self.every as u8];
        guard.extend_from_slice(&self.wanted.to_be_bytes());
        b.line(0x0A, &guard);
        b.line(0x0A, &[1, 0, 0, 0, 0, 0, 0, 0, 0]);
        Loaded::of(&b.ended())
    }

    fn will_do(&self, s: u32, allowed: u32) -> bool {
        let mut given = 0;
        for p in 0..self.count {
            if has(s, p) {
                // a set that holds what each member needs directly holds all that they need
                if !has(allowed, p) || s & self.excludes[p] != 0 || s & self.needs[p] != self.needs[p] {
                    return false;
                }
                given |= self.gives[p];
            }
        }
        if self.every {
            given & self.wanted == self.wanted
        } else {
            given & self.wanted != 0
        }
    }

    // All subsets, by brute force: fewest members, then fewest role principals, then smallest number.
    fn least(&self, allowed: u32) -> u32 {
        (0..1u32 << self.count)
            .filter(|s| self.will_do(*s, allowed))
            .min_by_key(|s| (s.count_ones(), (s & self.roles).count_ones(), *s))
            .unwrap_or(NO_SET)
    }
}

// ---- families of rules

const SEED: u64 = 88172645463325252;

struct Random(u64);

impl Random {
    fn next(&mut self) -> u64 {
        self.0 ^= self.0 << 13;
        self.0 ^= self.0 >> 7;
        self.0 ^= self.0 << 17;
        self.0
    }

    fn below(&mut self, n: usize) -> usize {
        ((self.next() >> 20) % n as u64) as usize
    }

    fn of(&mut self, list: &[usize]) -> usize {
        list[self.below(list.len())]
    }

    fn permille(&mut self, p: usize) -> bool {
        self.below(1000) < p
    }
}

const FAMILIES: [&str; 14] = [
    "random exclusions and privileges",
    "conflict at the lowest numbers",
    "conflict at the highest numbers",
    "conflict at the lowest, a way out with ten prerequisites",
    "random prerequisites",
    "pairs that exclude each other, random privileges",
    "a privilege for each pair, pairs exclude each other",
    "ring: each gives its own and the next one's privilege",
    "sparse cover: 64 privileges, 2 to 5 givers each",
    "sparse cover with exclusions",
    "places: 5 privileges, 4 places, one giver to a place",
    "one-of, long prerequisite chains",
    "even cover: 64 privileges, 4, 5 or 6 givers each",
    "even cover of 63, the last one's givers need two that exclude each other",
];

fn first(n: usize) -> u64 {
    if n == 64 {
        !0
    } else {
        (1 << n) - 1
    }
}

// Half of n principals, drawn at random.
fn half(g: &mut Random, n: usize) -> u32 {
    let mut s = 0u32;
    while s.count_ones() < n as u32 / 2 {
        s |= 1 << g.below(n);
    }
    s
}

// Every smallest set consists of role principals: the members of an answer become ones, until it has no others.
fn all_by_roles(r: &Rules) -> Rules {
    let mut r = Rules { roles: 0, ..*r };
    loop {
        let answer = r.loaded(first(r.count) as u32).ask(EAGER, 0, 0);
        if answer == NO_SET || answer & !r.roles == 0 {
            return r;
        }
        r.roles |= answer;
    }
}

// Of n principals, at most 20, none of them a role principal.
fn made(g: &mut Random, family: usize, n: usize) -> Rules {
    let mut r = Rules {
        count: n,
        excludes: [0; 20],
        needs: [0; 20],
        gives: [0; 20],
        roles: 0,
        every: true,
        wanted: first(g.of(&[4, 10, 20, 40, 64])),
    };
    let exclusions = g.of(&[0, 20, 50, 100, 200, 400]);
    let privileges = g.of(&[30, 60, 100, 150, 200, 300, 400]);
    for p in 0..n {
        for k in 0..64 {
            r.gives[p] |= (g.permille(privileges) as u64) << k;
        }
    }
    let randomly = |g: &mut Random, r: &mut Rules, permille: usize| {
        for p in 0..n {
            for q in 0..p {
                if g.permille(permille) {
                    r.exclude(p, q);
                }
            }
        }
    };
    // privilege 0 from a and c only, privilege 1 from b and d only, and these exclude each other: denied
    let conflict = |r: &mut Rules, [a, b, c, d]: [usize; 4]| {
        for p in 0..n {
            r.gives[p] &= !3;
        }
        for p in [a, c] {
            r.gives[p] |= 1;
            for q in [b, d] {
                r.gives[q] |= 2;
                r.exclude(p, q);
            }
        }
    };
    let givers = |g: &mut Random, r: &mut Rules, wanted: usize, fewest: usize| {
        let count = fewest + g.below(4);
        r.wanted = first(wanted);
        r.gives = [0; 20];
        for k in 0..wanted {
            for _ in 0..count {
                r.gives[g.below(n)] |= 1 << k;
            }
        }
    };
    // so many different givers of each
    let evenly = |g: &mut Random, r: &mut Rules, wanted: usize, count: usize| {
        r.wanted = first(wanted);
        r.gives = [0; 20];
        for k in 0..wanted {
            let mut left = count;
            while left > 0 {
                let p = g.below(n);
                left -= (r.gives[p] >> k & 1 == 0) as usize;
                r.gives[p] |= 1 << k;
            }
        }
    };
    match family {
        0 => randomly(g, &mut r, exclusions),
        1 => conflict(&mut r, [0, 1, 2, 3]),
        2 => conflict(&mut r, [n - 1, n - 2, n - 3, n - 4]),
        3 => {
            conflict(&mut r, [0, 1, 2, 3]);
            r.gives[4] |= 2;
            for p in 5..n.min(15) {
                r.needs[4] |= 1 << p;
            }
        }
        4 => {
            randomly(g, &mut r, exclusions);
            for q in 0..n {
                for p in 0..q {
                    r.needs[q] |= (g.permille(50) as u32) << p;
                }
            }
        }
        5 => {
            for p in (0..n).step_by(2) {
                r.exclude(p, p + 1);
            }
        }
        6 => {
            r.wanted = first(n / 2);
            for p in 0..n {
                r.gives[p] = 1 << (p / 2);
                if g.permille(300) {
                    r.gives[p] |= 1 << g.below(n / 2);
                }
            }
            for p in (0..n).step_by(2) {
                r.exclude(p, p + 1);
            }
        }
        7 => {
            randomly(g, &mut r, exclusions);
            r.wanted = first(n);
            for p in 0..n {
                r.gives[p] = 1 << p | 1 << ((p + 1) % n);
            }
        }
        8 => givers(g, &mut r, 64, 2),
        9 => {
            let wanted = g.of(&[8, 12, 16, 24, 40]);
            givers(g, &mut r, wanted, 3);
            randomly(g, &mut r, exclusions);
        }
        10 => {
            // principal p gives privilege p / 4 at the place p % 4
            r.wanted = first(n.div_ceil(4));
            for p in 0..n {
                r.gives[p] = 1 << (p / 4);
                for q in 0..p {
                    if q % 4 == p % 4 {
                        r.exclude(p, q);
                    }
                }
            }
            for _ in 0..g.below(6) {
                let (p, q) = (g.below(n), g.below(n));
                if p != q {
                    r.exclude(p, q);
                }
            }
        }
        11 => {
            r.every = false;
            for q in 0..n {
                for p in 0..q {
                    r.needs[q] |= (g.permille(100) as u32) << p;
                }
                if q > 0 && g.permille(700) {
                    r.needs[q] |= 1 << (q - 1);
                }
            }
            for p in 0..n / 2 {
                r.gives[p] = 0;
            }
            randomly(g, &mut r, exclusions / 10);
        }
        12 => {
            let count = g.of(&[4, 5, 6]);
            evenly(g, &mut r, 64, count);
        }
        _ => {
            evenly(g, &mut r, 63, 8);
            r.wanted = first(64);
            r.exclude(0, 1);
            for p in n - 3..n {
                r.gives[p] |= 1 << 63;
                r.needs[p] = 3;
            }
        }
    }
    // a privilege that nobody gives would be denied at once
    r.wanted &= r.gives.iter().fold(0, |all, g| all | g);
    r
}

// One to four small changes.
fn mutated(g: &mut Random, from: &Rules) -> Rules {
    let mut r = *from;
    for _ in 0..1 + g.below(4) {
        let (p, q, k, l) = (g.below(r.count), g.below(r.count), g.below(64), g.below(64));
        match g.below(9) {
            0 if p != q => r.exclude(p, q),
            1 if p != q => r = r.needing(p, q),
            2 => r.wanted ^= 1 << k,
            3 => r.roles ^= 1 << p,
            // a privilege passes from one to the other
            4 | 5 if (r.gives[p] ^ r.gives[q]) >> k & 1 == 1 => {
                r.gives[p] ^= 1 << k;
                r.gives[q] ^= 1 << k;
            }
            6 => r.exchange(k, l),
            _ => r.gives[p] ^= 1 << k,
        }
    }
    r
}

// ---- the search, measured

const INSTANCES: usize = 150;
const CHECKED: usize = 6;

struct Measured {
    net: f64,
    without: f64,
    rules: Rules,
    answer: u32,
}

// The first question evaluates what there is; the memo knows it from then on.
fn measured(rules: Rules, calls: usize) -> Measured {
    let mut record = rules.loaded(first(rules.count) as u32);
    record.ask(EAGER, 1, 0);
    let (answer, time) = typical(calls, || record.ask(EAGER, 0, 0));
    let (empty, without) = typical(calls, || record.ask(EAGER, 1, 0));
    if empty != 0 {
        stop("the empty set does not meet a guard that asks for nothing");
    }
    Measured { net: (time - without).max(0.0), without, rules, answer }
}

fn denied(m: &Measured) -> bool {
    m.answer == NO_SET
}

// How many role principals the answer has.
fn roles_in(m: &Measured) -> u32 {
    (m.answer & m.rules.roles).count_ones()
}

fn slower(a: &Measured, b: &Measured) -> std::cmp::Ordering {
    b.net.total_cmp(&a.net)
}

// The slowest of those that pass: the five that took longest, measured again.
fn worst(all: &[Measured], passes: impl Fn(&Measured) -> bool) -> Option<Measured> {
    let mut those: Vec<&Measured> = all.iter().filter(|m| passes(m)).collect();
    those.sort_by(|a, b| slower(a, b));
    those.iter().take(5).map(|m| measured(m.rules, 15)).min_by(slower)
}

fn shown(m: &Option<Measured>) -> String {
    match m {
        None => "-".to_string(),
        Some(m) if denied(m) => format!("{:.0}", m.net),
        Some(m) if m.rules.roles == 0 => format!("{:.0} ({})", m.net, m.answer.count_ones()),
        Some(m) => format!("{:.0} ({}, {})", m.net, m.answer.count_ones(), roles_in(m)),
    }
}

// Small changes are kept where the search gets no faster; the answer stays a grant, or a denial.
fn climbed(g: &mut Random, from: Measured, limit: Duration) -> (usize, Measured) {
    let denial = denied(&from);
    let (mut best, mut steps) = (from, 0);
    let start = Instant::now();
    while start.elapsed() < limit {
        if steps % 64 == 0 {
            best = measured(best.rules, 5);
        }
        steps += 1;
        let next = mutated(g, &best.rules);
        let quick = measured(next, 1);
        if denied(&quick) == denial && quick.net >= best.net {
            // both again, side by side: the first may have been disturbed
            let (old, new) = (measured(best.rules, 3), measured(next, 3));
            best = if new.net >= old.net { new } else { old };
        }
    }
    (steps, measured(best.rules, 25))
}

fn described(m: &Measured) -> String {
    let r = &m.rules;
    let exclusions: u32 = r.excludes.iter().map(|s| s.count_ones()).sum::<u32>() / 2;
    let prerequisites: u32 = r.needs.iter().map(|s| s.count_ones()).sum();
    let givers: u32 = r.gives.iter().map(|g| (g & r.wanted).count_ones()).sum();
    let (wanted, roles) = (r.wanted.count_ones(), r.roles.count_ones());
    let form = if r.every { "all" } else { "one" };
    let answer = if denied(m) {
        "none".to_string()
    } else {
        format!("{} members, {} of them role principals", m.answer.count_ones(), roles_in(m))
    };
    format!(
        "{form} of {wanted} privileges, {:.1} givers each; exclusions: {exclusions}; prerequisites: {prerequisites}; role principals: {roles}; answer: {answer}",
        givers as f64 / wanted as f64
    )
}

// Eager and lazy answers, with all and with some principals allowed, are compared with those of a search over all subsets.
fn checked(r: &Rules, some: u32) -> usize {
    let mut count = 0;
    for allowed in [first(r.count) as u32, some] {
        let least = r.least(allowed);
        for kind in [EAGER, LAZY] {
            if r.loaded(allowed).ask(kind, 0, 0) != least {
                stop("the least set is not that of the search over all subsets");
            }
            count += 1;
        }
    }
    count
}

// On few principals: none of them a role principal, half of them, all, and some.
fn compared(g: &mut Random) -> usize {
    let mut count = 0;
    for family in 0..FAMILIES.len() {
        for n in [8, 10, 12] {
            for _ in 0..CHECKED {
                let r = made(g, family, n);
                for roles in [0, half(g, n), first(n) as u32, g.next() as u32] {
                    count += checked(&Rules { roles, ..r }, g.next() as u32);
                }
            }
        }
    }
    count
}

// The instances of a family, their role principals chosen in one way.
struct Column {
    granted: usize,
    median: f64,
    without: f64,
    grant: Option<Measured>,
    denial: Option<Measured>,
}

fn column(rules: &[Rules]) -> Column {
    let all: Vec<Measured> = rules.iter().map(|r| measured(*r, 3)).collect();
    Column {
        granted: all.iter().filter(|m| !denied(m)).count(),
        median: median(&all.iter().map(|m| m.net).collect::<Vec<f64>>()),
        without: median(&all.iter().map(|m| m.without).collect::<Vec<f64>>()),
        grant: worst(&all, |m| !denied(m)),
        denial: worst(&all, denied),
    }
}

// A row for each family; the slowest grant and the slowest denial of each, with role principals.
fn table(g: &mut Random) -> [Vec<Measured>; 2] {
    print!("| family | granted | no role principals: median | worst grant (members) | worst denial ");
    print!("| half: median | worst grant (members, role principals) | worst denial ");
    println!("| smallest sets: median | worst grant (members, role principals) |");
    println!("|---|---|---|---|---|---|---|---|---|---|");
    let (mut grants, mut denials, mut without) = (vec![], vec![], vec![]);
    for (family, name) in FAMILIES.iter().enumerate() {
        let drawn: Vec<Rules> = (0..INSTANCES).map(|_| made(g, family, 20)).collect();
        let halved: Vec<Rules> = drawn.iter().map(|r| Rules { roles: half(g, 20), ..*r }).collect();
        let full: Vec<Rules> = drawn.iter().map(all_by_roles).collect();
        let columns = [drawn, halved, full].map(|rules| column(&rules));
        let [a, b, c] = columns.each_ref().map(|c| format!("{:.0} | {}", c.median, shown(&c.grant)));
        let [d, e, _] = columns.each_ref().map(|c| shown(&c.denial));
        println!("| {name} | {} of {INSTANCES} | {a} | {d} | {b} | {e} | {c} |", columns[0].granted);
        without.extend(columns.iter().map(|c| c.without));
        let [_, halved, full] = columns;
        grants.extend([halved.grant, full.grant].into_iter().flatten().min_by(slower));
        denials.extend(halved.denial);
    }
    println!("\nThe question for the guard that the empty set meets: {:.1} (median).", median(&without));
    [grants, denials]
}

// Half of the time from the slowest of four families, the other half from the slowest that this gave.
fn climbed_from(g: &mut Random, mut found: Vec<Measured>, climb: Duration) -> (usize, Measured) {
    found.sort_by(slower);
    found.truncate(4);
    let each = climb / 2 / found.len() as u32;
    let (mut steps, mut tops) = (0, vec![]);
    for from in found {
        let (tried, top) = climbed(g, from, each);
        steps += tried;
        tops.push(top);
    }
    let (tried, top) = climbed(g, tops.into_iter().min_by(slower).unwrap(), climb / 2);
    (steps + tried, top)
}

// What a search over all subsets takes, which comes to the same set.
fn over_all(m: &Measured) -> f64 {
    let (answer, time) = typical(3, || m.rules.least(first(20) as u32));
    if answer != m.answer {
        stop("the least set is not that of the search over all subsets");
    }
    time
}

// SEED as the environment has it.
fn seed() -> u64 {
    match std::env::var("SEED") {
        Err(_) => SEED,
        Ok(s) => s.parse().ok().filter(|n| *n != 0).unwrap_or_else(|| stop("SEED is a number above 0")),
    }
}

fn least_sets(climb: Duration) {
    let seed = seed();
    let mut g = Random(seed);
    let count = compared(&mut g);
    println!("\nThe least set: 20 principals, {INSTANCES} instances of each family, seed {seed}.");
    println!("{count} answers on 8, 10 and 12 principals are those of a search over all subsets.");
    println!("Microseconds, net of the same question for a guard that the empty set meets.\n");
    let [mut grants, mut denials] = table(&mut g);
    println!("\nThe slowest found in longer climbs, measured again:\n");
    for rules in slowest::SLOWEST {
        let m = measured(rules, 25);
        println!("- {:.0} ({}); over all subsets {:.0}", m.net, described(&m), over_all(&m));
        if denied(&m) {
            denials.push(m)
        } else {
            grants.push(m)
        }
    }
    println!(
        "\nClimbing from the worst: small changes that make the search no faster are kept, {} seconds for each.",
        climb.as_secs()
    );
    for (name, found) in [("grant", grants), ("denial", denials)] {
        let before = found.iter().map(|m| m.net).fold(0.0, f64::max);
        let (steps, top) = climbed_from(&mut g, found, climb);
        println!("Worst {name}: {before:.0}, and after {steps} changes tried {:.0} ({}).", top.net, described(&top));
        println!("{:?}", top.rules);
        println!("A search over all its 1048576 subsets: {:.0}.", over_all(&top));
    }
}

fn main() {
    const USAGE: &str = "usage: cost [seconds of climbing [a word of a section's title]]";
    let sections: [(&str, fn(Duration)); 3] = [
        ("evaluation of nested steps", |_| formulas()),
        ("evaluation with kept vertices", kept::formulas),
        ("the least set", least_sets),
    ];
    let given: Vec<String> = std::env::args().skip(1).collect();
    let seconds = given.first().map_or(10, |s| s.parse().unwrap_or_else(|_| stop(USAGE)));
    let word = given.get(1).map_or("", String::as_str);
    if !sections.iter().any(|(title, _)| title.contains(word)) {
        stop(USAGE);
    }
    for (title, section) in sections {
        if title.contains(word) {
            section(Duration::from_secs(seconds));
        }
    }
}
