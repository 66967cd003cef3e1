//! Lists of calls on a policy.

use crate::policy::Lines;
use crate::random::Random;
use crate::support::{bundle, call, Call};
use crate::tickets::{enabled, Proposals};
use reference::Policy;

/// The kind of a ticket, the last that is known.
pub const TICKET: u8 = 6;

/// What a list of calls needs to know of a policy.
pub struct Subject {
    objects: u8,
    users: Vec<u8>,
    edges: Vec<[u8; 3]>,
    methods: u8,
    principals: usize,
    record: Policy,
}

/// A list that is being made.
struct Making<'a> {
    random: &'a mut Random,
    subject: &'a Subject,
    /// The record that the edits so far leave, on which tickets are made up.
    record: Policy,
    calls: Vec<Call>,
    /// The pair of the last run of questions.
    pair: (u8, u8),
    /// Eager and lazy questions that may still be asked, since the reference weighs every set.
    questions: usize,
}

impl Subject {
    /// Reads it off the lines, which load.
    pub fn of(lines: &Lines) -> Subject {
        let of = |kind: u8| lines.iter().filter(move |line| line[0] == kind);
        Subject {
            objects: lines[0][2],
            users: of(2).map(|line| line[1]).collect(),
            edges: of(3).map(|line| [line[1], line[2], line[3]]).collect(),
            methods: of(10).count() as u8,
            principals: of(7).count(),
            record: Policy::load(&bundle(lines)).expect("the lines load"),
        }
    }

    /// A list of about so many calls: runs of questions on one pair, with edits between.
    pub fn calls(&self, random: &mut Random, length: usize) -> Vec<Call> {
        let pair = (0, self.users.first().copied().unwrap_or(0));
        let mut making = Making {
            random,
            subject: self,
            record: self.record.clone(),
            calls: Vec::new(),
            pair,
            questions: ((1 << 22) >> self.principals).clamp(1, 30),
        };
        while making.calls.len() < length {
            making.section();
        }
        making.calls
    }
}

impl Making<'_> {
    /// One or several calls that belong together.
    fn section(&mut self) {
        let crowded = self.subject.edges.len() >= 508;
        match self.random.below(17) {
            0..=2 if crowded => self.several_adds(),
            0..=5 => self.questions_on_one_pair(),
            6 => self.question_amiss(),
            7 => self.edit_amiss(),
            8 => self.add_and_undo(),
            9 => self.remove_and_undo(),
            10 => self.any_edit(),
            11 | 12 => self.tickets_of_one_question(),
            13 => self.ticket_around_an_edit(),
            14 | 15 => self.question_around_an_edit(),
            _ => self.anything(),
        }
    }

    /// Puts a call into the list. All but tickets have no use for the set number, so it may be any.
    fn push(&mut self, numbers: [u8; 4]) {
        let any = self.random.next() as u32;
        let set = self.random.pick(&[0, any]);
        self.push_with(numbers, set);
    }

    /// Puts a call with this set number into the list, and does it if it is an edit.
    fn push_with(&mut self, numbers: [u8; 4], set: u32) {
        let [kind, x, y, z] = numbers;
        match kind {
            0 => self.record.add_edge(x, y, z),
            1 => self.record.remove_edge(x, y, z),
            _ => 0,
        };
        self.calls.push(call(numbers, set));
    }

    /// Puts a ticket into the list.
    fn push_ticket(&mut self, [method, object, requestor]: [u8; 3], set: u32) {
        self.push_with([TICKET, method, object, requestor], set);
    }

    /// An object: mostly one that edges or users know of, so that relations reach it.
    fn object(&mut self) -> u8 {
        let edges = &self.subject.edges;
        match self.random.below(8) {
            0 => 0,
            1 => self.random.below(self.subject.objects.into()) as u8,
            2 => self.user(),
            _ if edges.is_empty() => self.random.below(self.subject.objects.into()) as u8,
            _ => {
                let [_, from, to] = self.random.pick(edges);
                self.random.pick(&[from, from, to])
            }
        }
    }

    /// A requestor who is a user, if there is any.
    fn user(&mut self) -> u8 {
        match &self.subject.users[..] {
            [] => 0,
            users => self.random.pick(users),
        }
    }

    /// Eager or lazy while there are questions left, then liberal or strict.
    fn question_kind(&mut self) -> u8 {
        let ask = self.questions > 0 && !self.random.one_in(4);
        if !ask {
            return self.random.pick(&[4, 5]);
        }
        self.questions -= 1;
        self.random.pick(&[2, 3])
    }

    /// A pair of object and requestor: half the time that of the last run, so that what came
    /// between may or may not have kept the memo.
    fn next_pair(&mut self) -> (u8, u8) {
        if self.random.one_in(2) {
            self.pair = (self.object(), self.user());
        }
        self.pair
    }

    /// Any method of the policy.
    fn method(&mut self) -> u8 {
        self.random.below(self.subject.methods.into()) as u8
    }

    /// Several questions about one object by one requestor, so that the memo is used.
    fn questions_on_one_pair(&mut self) {
        let (object, requestor) = self.next_pair();
        for _ in 0..self.random.between(1, 5) {
            let kind = self.question_kind();
            let method = self.method();
            self.push([kind, method, object, requestor]);
        }
    }

    /// Several tickets for one question, which is now and then put too, before them or between.
    fn tickets_of_one_question(&mut self) {
        let (object, requestor) = self.next_pair();
        let question = [self.method(), object, requestor];
        let proposals = self.proposals(question);
        for _ in 0..self.random.between(1, 5) {
            if self.random.one_in(5) {
                let kind = self.question_kind();
                self.push([kind, question[0], object, requestor]);
            }
            let set = proposals.set(self.random);
            self.push_ticket(question, set);
        }
    }

    /// What to propose for a question on the record as it is now.
    fn proposals(&mut self, question: [u8; 3]) -> Proposals {
        let affordable = self.questions > 0;
        self.questions = self.questions.saturating_sub(1);
        let count = self.subject.principals;
        Proposals::of(&self.record, question, count, affordable)
    }

    /// The same ticket before an edit, after it, and after it is undone.
    fn ticket_around_an_edit(&mut self) {
        let (edge, question) = self.edit_and_question();
        let proposals = self.proposals(question);
        let set = proposals.set(self.random);
        self.around_an_edit(edge, |making| making.push_ticket(question, set));
    }

    /// The same question before an edit, after it, and after it is undone.
    fn question_around_an_edit(&mut self) {
        let (edge, [method, object, requestor]) = self.edit_and_question();
        let asked = self.question_kind();
        let kind = self.random.pick(&[asked, asked, 4, 5]);
        self.questions = self.questions.saturating_sub(2);
        self.around_an_edit(edge, |making| {
            making.push([kind, method, object, requestor])
        });
    }

    /// A call before an edit of an edge, after it, and after it is undone.
    fn around_an_edit(&mut self, edge: [u8; 3], call: impl Fn(&mut Self)) {
        let kind = self.random.octet_between(0, 1);
        call(self);
        for kind in [kind, 1 - kind] {
            self.edit(kind, edge);
            call(self);
        }
    }

    /// An edge to be edited and a question about it; of a few, the first that the edit decides.
    fn edit_and_question(&mut self) -> ([u8; 3], [u8; 3]) {
        let mut tries = if self.subject.principals <= 10 { 5 } else { 1 };
        loop {
            let new = self.new_edge();
            let old = self.old_edge().unwrap_or(new);
            let edge = self.random.pick(&[new, old, old]);
            let question = self.about(edge);
            tries -= 1;
            if tries == 0 || self.decides(edge, question) {
                return (edge, question);
            }
        }
    }

    /// Whether other principals are enabled for a question once an edge is added or removed.
    fn decides(&self, [label, from, to]: [u8; 3], question: [u8; 3]) -> bool {
        let mut edited = self.record.clone();
        if edited.add_edge(label, from, to) != 0 {
            edited.remove_edge(label, from, to);
        }
        let count = self.subject.principals;
        enabled(&self.record, question, count) != enabled(&edited, question, count)
    }

    /// A question or a ticket with one or more numbers out of range.
    fn question_amiss(&mut self) {
        let kind = self.random.octet_between(2, TICKET);
        let mut call = [kind, self.method(), self.object(), self.user()];
        for _ in 0..self.random.between(1, 2) {
            let any = self.random.octet();
            let place = self.random.between(1, 3);
            let limit = [0, self.subject.methods, self.subject.objects, any][place];
            call[place] = self.random.pick(&[limit, limit, 255, any]);
        }
        self.push(call);
    }

    /// An edit with one number out of range, mostly just so.
    fn edit_amiss(&mut self) {
        let [label, from, to] = self.new_edge();
        let mut call = [self.random.octet_between(0, 1), label, from, to];
        let place = self.random.between(1, 3);
        let limit = [0, 16, self.subject.objects, self.subject.objects][place];
        call[place] = self.random.octet_between(limit, 255);
        self.push(call);
    }

    /// An edge in range, with a label in use most of the time.
    fn new_edge(&mut self) -> [u8; 3] {
        let any = self.random.octet_between(0, 15);
        let label = self.old_edge().map_or(any, |edge| edge[0]);
        let label = self.random.pick(&[label, label, any]);
        [label, self.object(), self.object()]
    }

    /// An edge of the bundle, if there is any.
    fn old_edge(&mut self) -> Option<[u8; 3]> {
        match &self.subject.edges[..] {
            [] => None,
            edges => Some(self.random.pick(edges)),
        }
    }

    /// The call that adds (0) or removes (1) an edge.
    fn edit(&mut self, kind: u8, [label, from, to]: [u8; 3]) {
        self.push([kind, label, from, to]);
    }

    /// Adds an edge, asks about its ends, and mostly takes it away again.
    fn add_and_undo(&mut self) {
        let edge = self.new_edge();
        self.edit(0, edge);
        self.question_about(edge);
        let kind = self.random.pick(&[0, 1, 1]);
        self.edit(kind, edge);
        self.question_about(edge);
    }

    /// Adds up to six edges, which fills a graph that is nearly full.
    fn several_adds(&mut self) {
        for _ in 0..self.random.between(1, 6) {
            let [label, from, to] = [16, self.subject.objects, self.subject.objects]
                .map(|bound| self.random.below(bound.into()) as u8);
            self.edit(0, [label, from, to]);
        }
    }

    /// Removes an edge, asks about its ends, and mostly puts it back.
    fn remove_and_undo(&mut self) {
        if let Some(edge) = self.old_edge() {
            self.edit(1, edge);
            self.question_about(edge);
            let kind = self.random.pick(&[0, 0, 1]);
            self.edit(kind, edge);
            self.question_about(edge);
        }
    }

    /// Method, object and requestor: one end of an edge, perhaps by the other end.
    fn about(&mut self, [_, from, to]: [u8; 3]) -> [u8; 3] {
        let method = self.method();
        let user = self.user();
        let requestor = self.random.pick(&[to, user, user]);
        [method, self.random.pick(&[from, from, to]), requestor]
    }

    /// A question on one end of an edge.
    fn question_about(&mut self, edge: [u8; 3]) {
        let kind = self.question_kind();
        let [method, object, requestor] = self.about(edge);
        self.push([kind, method, object, requestor]);
    }

    /// An edit of a known edge or a new one, whether it can be done or not.
    fn any_edit(&mut self) {
        let new = self.new_edge();
        let old = self.old_edge().unwrap_or(new);
        let kind = self.random.octet_between(0, 1);
        let edge = self.random.pick(&[new, old]);
        self.edit(kind, edge);
    }

    /// Any edit, predicate, ticket or unknown kind with any numbers.
    fn anything(&mut self) {
        let [x, y, z, above] = self.random.next().to_be_bytes()[..4] else {
            return;
        };
        let first = TICKET + 1;
        let kind = self
            .random
            .pick(&[0, 1, 4, 5, TICKET, first, above.max(first)]);
        self.push([kind, x, y, z]);
    }
}
