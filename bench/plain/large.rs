//! `flow large` in plain Rust: the same algorithm over the same data structures, with no proof, for comparison. A text is
//! generated, read, compiled by Apply and Excise, and run by workers behind a lock whose tasks all succeed; by 0 workers it is run
//! without a lock and a thread. Only what the generated texts need is here: no facts, no sub-workflows, no failures, no rewinds.
//!
//! Usage: large SEED SIZE WORKERS
//!
//! The microseconds that the run took are told on standard error.

use std::collections::BTreeMap;
use std::sync::Mutex;
use std::time::Instant;

const WORDS: usize = 16;

#[derive(Clone, Copy, PartialEq, Eq)]
struct LeafSet([u64; WORDS]);

impl LeafSet {
    fn new() -> LeafSet {
        LeafSet([0; WORDS])
    }
    fn has(&self, n: u32) -> bool {
        self.0[n as usize / 64] >> (n % 64) & 1 == 1
    }
    fn insert(&mut self, n: u32) {
        self.0[n as usize / 64] |= 1 << (n % 64);
    }
    fn union_with(&mut self, other: &LeafSet) {
        for i in 0..WORDS {
            self.0[i] |= other.0[i];
        }
    }
    fn remove_all(&mut self, other: &LeafSet) {
        for i in 0..WORDS {
            self.0[i] &= !other.0[i];
        }
    }
    fn is_subset(&self, other: &LeafSet) -> bool {
        (0..WORDS).all(|i| self.0[i] & !other.0[i] == 0)
    }
    fn meets(&self, other: &LeafSet) -> bool {
        (0..WORDS).any(|i| self.0[i] & other.0[i] != 0)
    }
    fn first_common(&self, other: &LeafSet) -> Option<u32> {
        (0..WORDS).find_map(|i| {
            let common = self.0[i] & other.0[i];
            (common != 0).then(|| 64 * i as u32 + common.trailing_zeros())
        })
    }
}

// the generator

struct Draws(u64);

impl Draws {
    fn next(&mut self) -> u64 {
        self.0 = (75 * self.0 + 74) % 65537;
        self.0
    }
}

fn series(from: usize, count: usize) -> String {
    let names: Vec<String> = (from..from + count).map(|n| format!("e{n}")).collect();
    names.join(" * ")
}

enum Kind {
    Series,
    Beside,
    Isolated,
    Either,
}

fn generate(seed: u64, size: usize) -> String {
    let mut draws = Draws(seed);
    let mut choices = 0;
    let kinds: Vec<Kind> = (0..size)
        .map(|_| match draws.next() % 4 {
            0 => Kind::Series,
            2 => Kind::Isolated,
            3 if choices < 6 => {
                choices += 1;
                Kind::Either
            }
            _ => Kind::Beside,
        })
        .collect();
    let block = |k: usize, within: bool| -> String {
        let (left, right) = (series(8 * k, 4), series(8 * k + 4, 4));
        match kinds[k] {
            Kind::Series => series(8 * k, 8),
            Kind::Beside if within => format!("({left} | {right})"),
            Kind::Beside => format!("{left} | {right}"),
            Kind::Isolated if within => format!("(iso({left}) | {right})"),
            Kind::Isolated => format!("iso({left}) | {right}"),
            Kind::Either if within => format!("({left} + {right})"),
            Kind::Either => format!("{left} + {right}"),
        }
    };
    let mut text = String::new();
    for event in 0..8 * size {
        text.push_str(&format!("event e{event};\n"));
    }
    let mut stages: Vec<String> = Vec::new();
    for k in (0..size).step_by(2) {
        if k + 1 < size {
            let both = format!("{} | {}", block(k, true), block(k + 1, true));
            stages.push(if size > 2 { format!("({both})") } else { both });
        } else {
            stages.push(block(k, size > 1));
        }
    }
    text.push_str(&format!("goal {};\n", stages.join(" * ")));
    for k in 1..size {
        let (first, second) = (draws.next() as usize, draws.next() as usize);
        text.push_str(&format!("constraint precedes e{} e{};\n", 8 * (k - 1) + first % 8, 8 * k + second % 8));
    }
    text
}

// the reader

enum Goal {
    Leaf(u32),
    Serial(Box<Goal>, Box<Goal>),
    Beside(Box<Goal>, Box<Goal>),
    Either(Box<Goal>, Box<Goal>),
    Iso(Box<Goal>),
}

struct Workflow {
    goal: Goal,
    /// Of each leaf, its event.
    events: Vec<u32>,
    /// Of each constraint, the event that is to come first and the other.
    precedes: Vec<(u32, u32)>,
}

struct Reader<'t> {
    tokens: Vec<&'t str>,
    place: usize,
    numbers: BTreeMap<&'t str, u32>,
    events: Vec<u32>,
}

fn lex(text: &str) -> Vec<&str> {
    let bytes = text.as_bytes();
    let mut tokens = Vec::new();
    let mut place = 0;
    while place < bytes.len() {
        let start = place;
        if bytes[place].is_ascii_whitespace() {
            place += 1;
        } else if bytes[place].is_ascii_alphanumeric() {
            while place < bytes.len() && (bytes[place].is_ascii_alphanumeric() || bytes[place] == b'_') {
                place += 1;
            }
            tokens.push(&text[start..place]);
        } else {
            place += 1;
            tokens.push(&text[start..place]);
        }
    }
    tokens
}

impl<'t> Reader<'t> {
    fn next(&mut self) -> &'t str {
        self.place += 1;
        self.tokens[self.place - 1]
    }
    fn event(&mut self) -> u32 {
        let name = self.next();
        self.numbers[name]
    }
    fn joined(&mut self, mark: &str, join: fn(Box<Goal>, Box<Goal>) -> Goal, below: fn(&mut Reader<'t>) -> Goal) -> Goal {
        let mut goal = below(self);
        while self.tokens[self.place] == mark {
            self.place += 1;
            goal = join(Box::new(goal), Box::new(below(self)));
        }
        goal
    }
    fn either(&mut self) -> Goal {
        self.joined("+", Goal::Either, Reader::beside)
    }
    fn beside(&mut self) -> Goal {
        self.joined("|", Goal::Beside, Reader::serial)
    }
    fn serial(&mut self) -> Goal {
        self.joined("*", Goal::Serial, Reader::atom)
    }
    fn atom(&mut self) -> Goal {
        match self.next() {
            "(" => {
                let goal = self.either();
                self.next();
                goal
            }
            "iso" => {
                self.next();
                let goal = self.either();
                self.next();
                Goal::Iso(Box::new(goal))
            }
            name => {
                self.events.push(self.numbers[name]);
                Goal::Leaf(self.events.len() as u32 - 1)
            }
        }
    }
}

fn read(text: &str) -> Workflow {
    let mut reader = Reader { tokens: lex(text), place: 0, numbers: BTreeMap::new(), events: Vec::new() };
    let mut goal = None;
    let mut precedes = Vec::new();
    while reader.place < reader.tokens.len() {
        match reader.next() {
            "event" => {
                let number = reader.numbers.len() as u32;
                let name = reader.next();
                reader.numbers.insert(name, number);
            }
            "goal" => goal = Some(reader.either()),
            "constraint" => {
                reader.next();
                precedes.push((reader.event(), reader.event()));
            }
            word => unreachable!("{}", word),
        }
        reader.next();
    }
    Workflow { goal: goal.unwrap(), events: reader.events, precedes }
}

// resolutions

#[derive(Clone, Copy)]
enum Node {
    Leaf,
    Serial,
    Fork,
    Split,
    Join,
    Open,
    Close,
}

struct Choiceless {
    nodes: Vec<Node>,
    leaves: Vec<u32>,
}

fn count_sides(goal: &Goal, sides: &mut Vec<(u64, u64)>) -> u64 {
    match goal {
        Goal::Leaf(_) => 1,
        Goal::Serial(left, right) | Goal::Beside(left, right) => count_sides(left, sides).saturating_mul(count_sides(right, sides)),
        Goal::Either(left, right) => {
            let (left, right) = (count_sides(left, sides), count_sides(right, sides));
            sides.push((left, right));
            left.saturating_add(right)
        }
        Goal::Iso(part) => count_sides(part, sides),
    }
}

fn skip(goal: &Goal, sides: &mut Vec<(u64, u64)>) {
    match goal {
        Goal::Leaf(_) => {}
        Goal::Serial(left, right) | Goal::Beside(left, right) => {
            skip(right, sides);
            skip(left, sides);
        }
        Goal::Either(left, right) => {
            sides.pop();
            skip(right, sides);
            skip(left, sides);
        }
        Goal::Iso(part) => skip(part, sides),
    }
}

/// Writes the resolution of that number from right to left.
fn write(goal: &Goal, number: &mut u64, sides: &mut Vec<(u64, u64)>, out: &mut Choiceless) {
    match goal {
        Goal::Leaf(leaf) => {
            out.nodes.push(Node::Leaf);
            out.leaves.push(*leaf);
        }
        Goal::Serial(left, right) => {
            out.nodes.push(Node::Serial);
            write(right, number, sides, out);
            write(left, number, sides, out);
        }
        Goal::Beside(left, right) => {
            out.nodes.push(Node::Join);
            write(right, number, sides, out);
            out.nodes.push(Node::Split);
            write(left, number, sides, out);
            out.nodes.push(Node::Fork);
        }
        Goal::Either(left, right) => {
            let (first, second) = sides.pop().unwrap();
            let mut within = *number % (first + second);
            *number /= first + second;
            if first <= within {
                within -= first;
                write(right, &mut within, sides, out);
                skip(left, sides);
            } else {
                skip(right, sides);
                write(left, &mut within, sides, out);
            }
        }
        Goal::Iso(part) => {
            out.nodes.push(Node::Close);
            write(part, number, sides, out);
            out.nodes.push(Node::Open);
        }
    }
}

fn resolve(goal: &Goal, number: u64, sides: &[(u64, u64)]) -> Choiceless {
    let mut out = Choiceless { nodes: Vec::new(), leaves: Vec::new() };
    write(goal, &mut number.clone(), &mut sides.to_vec(), &mut out);
    out.nodes.reverse();
    out.leaves.reverse();
    out
}

/// The pairs of leaves that the constraints ask for: of this kind there is one way in each resolution.
fn pairs_of(workflow: &Workflow, leaf_of: &[Option<u32>]) -> Vec<(u32, u32)> {
    let pair = |(first, second): &(u32, u32)| Some((leaf_of[*first as usize]?, leaf_of[*second as usize]?));
    workflow.precedes.iter().filter_map(pair).collect()
}

// plans

struct PartRow {
    inside: LeafSet,
    outside: LeafSet,
}

impl PartRow {
    fn allows(&self, done: &LeafSet, leaf: u32) -> bool {
        match (self.inside.meets(done), self.inside.has(leaf)) {
            (true, true) | (false, false) => true,
            (true, false) => self.inside.is_subset(done),
            (false, true) => self.outside.is_subset(done),
        }
    }
    fn keeps_together(&self, leaves: &LeafSet) -> bool {
        !self.inside.meets(leaves) || leaves.is_subset(&self.inside)
    }
}

struct Plan {
    goal: Choiceless,
    before: Vec<LeafSet>,
    parts: Vec<PartRow>,
}

fn sequence_rows(goal: &Choiceless) -> Vec<LeafSet> {
    let mut sets = vec![LeafSet::new()];
    let (mut ahead, mut place) = (0, 0);
    let mut forks: Vec<usize> = Vec::new();
    let mut rows = Vec::with_capacity(goal.leaves.len());
    for node in &goal.nodes {
        match node {
            Node::Serial | Node::Open | Node::Close => {}
            Node::Leaf => {
                let mut row = sets[ahead];
                rows.push(row);
                row.insert(goal.leaves[place]);
                place += 1;
                ahead = sets.len();
                sets.push(row);
            }
            Node::Fork => forks.push(ahead),
            Node::Split => {
                let side = forks.pop().unwrap();
                forks.push(ahead);
                ahead = side;
            }
            Node::Join => {
                let side = forks.pop().unwrap();
                if side != ahead {
                    let mut all = sets[ahead];
                    all.union_with(&sets[side]);
                    ahead = sets.len();
                    sets.push(all);
                }
            }
        }
    }
    rows
}

fn part_rows(goal: &Choiceless, before: &[LeafSet]) -> Vec<PartRow> {
    let mut place = 0;
    let mut opens = Vec::new();
    let mut parts = Vec::new();
    for node in &goal.nodes {
        match node {
            Node::Leaf => place += 1,
            Node::Open => opens.push(place),
            Node::Close => {
                let first = opens.pop().unwrap();
                if place - first >= 2 {
                    let (mut inside, mut outside) = (LeafSet::new(), LeafSet::new());
                    goal.leaves[first..place].iter().for_each(|leaf| inside.insert(*leaf));
                    before[first..place].iter().for_each(|row| outside.union_with(row));
                    outside.remove_all(&inside);
                    parts.push(PartRow { inside, outside });
                }
            }
            _ => {}
        }
    }
    parts
}

impl Plan {
    fn new(goal: Choiceless, pairs: &[(u32, u32)]) -> Plan {
        let mut before = sequence_rows(&goal);
        for (sender, receiver) in pairs {
            let place = goal.leaves.binary_search(receiver).unwrap();
            before[place].insert(*sender);
        }
        let parts = part_rows(&goal, &before);
        Plan { goal, before, parts }
    }
    fn ready(&self, done: &LeafSet, leaf: u32) -> bool {
        let Ok(place) = self.goal.leaves.binary_search(&leaf) else {
            return false;
        };
        !done.has(leaf) && self.before[place].is_subset(done) && self.parts.iter().all(|part| part.allows(done, leaf))
    }
    fn side_by_side(&self, done: &LeafSet, claims: &[u32], leaf: u32) -> bool {
        if !self.ready(done, leaf) || !claims.iter().all(|claim| self.ready(done, *claim)) {
            return false;
        }
        let mut set = LeafSet::new();
        claims.iter().for_each(|claim| set.insert(*claim));
        if set.has(leaf) {
            return false;
        }
        set.insert(leaf);
        self.parts.iter().all(|part| part.keeps_together(&set))
    }
}

// Excise

struct Item {
    inside: LeafSet,
    waits: LeafSet,
    run: Vec<u32>,
}

fn run_of(items: &[Item]) -> Option<Vec<u32>> {
    let mut left = LeafSet::new();
    items.iter().for_each(|item| left.union_with(&item.inside));
    let mut run = Vec::new();
    for start in 0..items.len() {
        if !items[start].inside.meets(&left) {
            continue;
        }
        let mut path = vec![start];
        while let Some(top) = path.last().copied() {
            match items[top].waits.first_common(&left) {
                None => {
                    left.remove_all(&items[top].inside);
                    run.extend_from_slice(&items[top].run);
                    path.pop();
                }
                Some(leaf) => {
                    let next = items.iter().position(|item| item.inside.has(leaf)).unwrap();
                    if path.contains(&next) {
                        return None;
                    }
                    path.push(next);
                }
            }
        }
    }
    Some(run)
}

/// An execution of the plan, where it has one.
fn excise(plan: &Plan) -> Option<Vec<u32>> {
    let mut items: Vec<Item> = Vec::new();
    let mut outer: Vec<Vec<Item>> = Vec::new();
    let mut place = 0;
    for node in &plan.goal.nodes {
        match node {
            Node::Leaf => {
                let leaf = plan.goal.leaves[place];
                let mut inside = LeafSet::new();
                inside.insert(leaf);
                items.push(Item { inside, waits: plan.before[place], run: vec![leaf] });
                place += 1;
            }
            Node::Open => outer.push(std::mem::take(&mut items)),
            Node::Close => {
                let (mut inside, mut waits) = (LeafSet::new(), LeafSet::new());
                items.iter().for_each(|item| inside.union_with(&item.inside));
                items.iter().for_each(|item| waits.union_with(&item.waits));
                waits.remove_all(&inside);
                let run = run_of(&items)?;
                items = outer.pop().unwrap();
                items.push(Item { inside, waits, run });
            }
            _ => {}
        }
    }
    run_of(&items)
}

struct Counts {
    resolutions: u64,
    options: u64,
    bulk: u64,
    live: u64,
}

fn note_events(workflow: &Workflow, leaves: &[u32], leaf_of: &mut Vec<Option<u32>>) {
    leaf_of.clear();
    leaf_of.resize(workflow.events.len(), None);
    for leaf in leaves {
        leaf_of[workflow.events[*leaf as usize] as usize] = Some(*leaf);
    }
}

fn compile(workflow: &Workflow) -> (Vec<Plan>, Counts) {
    let mut sides = Vec::new();
    let resolutions = count_sides(&workflow.goal, &mut sides);
    let mut counts = Counts { resolutions, options: 0, bulk: 0, live: 0 };
    let mut leaf_of = Vec::new();
    // nothing is formed before all is counted
    for number in 0..resolutions {
        let resolution = resolve(&workflow.goal, number, &sides);
        note_events(workflow, &resolution.leaves, &mut leaf_of);
        counts.options += 1;
        counts.bulk += (resolution.leaves.len() + pairs_of(workflow, &leaf_of).len()) as u64;
    }
    let mut plans = Vec::new();
    let mut samples = Vec::new();
    for number in 0..resolutions {
        let resolution = resolve(&workflow.goal, number, &sides);
        note_events(workflow, &resolution.leaves, &mut leaf_of);
        let plan = Plan::new(resolution, &pairs_of(workflow, &leaf_of));
        if let Some(sample) = excise(&plan) {
            samples.push(sample);
            plans.push(plan);
        }
    }
    counts.live = plans.len() as u64;
    (plans, counts)
}

// the run

enum Next {
    Act(u32),
    Wait,
    Finished,
    Ended,
}

struct Run {
    plans: Vec<Plan>,
    leaves: u32,
    fronts: Vec<usize>,
    journal: Vec<u32>,
    done: LeafSet,
    claims: Vec<u32>,
    entries: u64,
    committed: bool,
}

impl Run {
    fn is_live(&self, place: usize) -> bool {
        self.fronts[place] == self.journal.len()
    }
    fn can_take(&self, leaf: u32) -> bool {
        (0..self.plans.len()).any(|place| self.is_live(place) && self.plans[place].side_by_side(&self.done, &self.claims, leaf))
    }
    fn is_complete(&self) -> bool {
        (0..self.plans.len()).any(|place| self.is_live(place) && self.plans[place].goal.leaves.iter().all(|leaf| self.done.has(*leaf)))
    }
    fn next(&self) -> Next {
        if self.committed {
            return Next::Ended;
        }
        if let Some(leaf) = (0..self.leaves).find(|leaf| !self.done.has(*leaf) && self.can_take(*leaf)) {
            return Next::Act(leaf);
        }
        if !self.claims.is_empty() {
            return Next::Wait;
        }
        assert!(self.is_complete());
        Next::Finished
    }
    fn take(&mut self, leaf: u32) {
        self.claims.push(leaf);
        self.entries += 1;
    }
    fn finish(&mut self, leaf: u32) {
        for place in 0..self.plans.len() {
            if self.fronts[place] == self.journal.len() && self.plans[place].ready(&self.done, leaf) {
                self.fronts[place] += 1;
            }
        }
        self.journal.push(leaf);
        self.done.insert(leaf);
        self.claims.retain(|claim| *claim != leaf);
        self.entries += 1;
    }
}

fn work(run: &Mutex<Run>) {
    loop {
        let mut turn = run.lock().unwrap();
        match turn.next() {
            Next::Act(leaf) => {
                turn.take(leaf);
                drop(turn);
                // the task is performed here, outside the lock
                run.lock().unwrap().finish(leaf);
            }
            Next::Wait => {
                drop(turn);
                std::thread::yield_now();
            }
            Next::Finished => {
                turn.committed = true;
                turn.entries += 1;
            }
            Next::Ended => return,
        }
    }
}

fn work_alone(run: &mut Run) {
    loop {
        match run.next() {
            Next::Act(leaf) => {
                run.take(leaf);
                run.finish(leaf);
            }
            Next::Wait => unreachable!(),
            Next::Finished => {
                run.committed = true;
                run.entries += 1;
            }
            Next::Ended => return,
        }
    }
}

fn work_beside(run: Run, workers: u64) -> Run {
    let run = Mutex::new(run);
    std::thread::scope(|scope| {
        for _ in 0..workers {
            scope.spawn(|| work(&run));
        }
    });
    run.into_inner().unwrap()
}

fn main() {
    let words: Vec<u64> = std::env::args().skip(1).map(|word| word.parse().unwrap()).collect();
    let (seed, size, workers) = (words[0], words[1] as usize, words[2]);
    let text = generate(seed, size);
    let workflow = read(&text);
    let (plans, counts) = compile(&workflow);
    let leaves = workflow.events.len() as u32;
    let mut run = Run {
        fronts: vec![0; plans.len()],
        plans,
        leaves,
        journal: Vec::new(),
        done: LeafSet::new(),
        claims: Vec::new(),
        entries: 0,
        committed: false,
    };
    let begun = Instant::now();
    if workers == 0 {
        work_alone(&mut run);
    } else {
        run = work_beside(run, workers);
    }
    eprintln!("{}", begun.elapsed().as_micros());
    println!(
        "{{\"bulk\":{},\"history\":{},\"journal\":{},\"leaves\":{},\"live\":{},\"options\":{},\"resolutions\":{},\"seed\":{},\"size\":{},\"verdict\":\"committed\"}}",
        counts.bulk,
        run.entries,
        run.journal.len(),
        leaves,
        counts.live,
        counts.options,
        counts.resolutions,
        seed,
        size
    );
}
