//! Reads one order record from standard input and writes its script, or the line `refused N`, to standard output.
//!
//! A plain implementation to measure `floorscript` against. It shares no code with it: formats and rules are those of
//! `docs/`.

use std::io::{self, Read, Write};

type Refusal = u8;

const WRONG_LENGTH: Refusal = 31;
const WRONG_MARK: Refusal = 32;
const WRONG_VERSION: Refusal = 33;
const WRONG_RULE: Refusal = 34;
const OUT_OF_RANGE: Refusal = 35;
const UNFILLABLE: Refusal = 9;

const HEAD: usize = 7;
const KINDS: usize = 16;

/// Words in a set of slots: the largest floor has 768.
const SLOT_WORDS: usize = 12;

/// Words in a set of bays: there are at most 16.
const BAY_WORDS: usize = 1;

// ---- The order record ----

enum Rule {
    Number { wanted: Vec<usize> },
    Kind { kinds: Vec<u8>, masks: Vec<u16> },
}

struct Order {
    height: usize,
    width: usize,
    rule: Rule,
}

fn read_order(bytes: &[u8]) -> Result<Order, Refusal> {
    if bytes.len() < HEAD {
        return Err(WRONG_LENGTH);
    }
    let (head, lists) = bytes.split_at(HEAD);
    if !head.starts_with(b"LFO") {
        return Err(WRONG_MARK);
    }
    if head[3..5] != [0, 1] {
        return Err(WRONG_VERSION);
    }
    let height = usize::from(head[5] >> 4) + 1;
    let width = usize::from(head[5] & 15) + 1;
    let slots = 3 * height * width;
    let rule = match head[6] {
        1 => read_number_rule(slots, lists)?,
        2 => read_kind_rule(slots, lists)?,
        _ => return Err(WRONG_RULE),
    };
    Ok(Order { height, width, rule })
}

fn entries(bytes: &[u8]) -> impl Iterator<Item = u16> + '_ {
    bytes.chunks_exact(2).map(|pair| u16::from_be_bytes([pair[0], pair[1]]))
}

fn read_number_rule(slots: usize, lists: &[u8]) -> Result<Rule, Refusal> {
    if lists.len() != 2 * slots {
        return Err(WRONG_LENGTH);
    }
    let wanted: Vec<usize> = entries(lists).map(usize::from).collect();
    if wanted.iter().any(|&carrier| carrier >= slots) {
        return Err(OUT_OF_RANGE);
    }
    Ok(Rule::Number { wanted })
}

fn read_kind_rule(slots: usize, lists: &[u8]) -> Result<Rule, Refusal> {
    if lists.len() != 3 * slots {
        return Err(WRONG_LENGTH);
    }
    let (kinds, masks) = lists.split_at(slots);
    if kinds.iter().any(|&kind| usize::from(kind) >= KINDS) {
        return Err(OUT_OF_RANGE);
    }
    Ok(Rule::Kind { kinds: kinds.to_vec(), masks: entries(masks).collect() })
}

// ---- Sets of small numbers ----

#[derive(Clone, Copy)]
struct Set<const W: usize>([u64; W]);

impl<const W: usize> Set<W> {
    const EMPTY: Self = Set([0; W]);

    fn below(count: usize) -> Self {
        let mut set = Self::EMPTY;
        (0..count).for_each(|member| set.insert(member));
        set
    }

    fn only(member: usize) -> Self {
        let mut set = Self::EMPTY;
        set.insert(member);
        set
    }

    fn insert(&mut self, member: usize) {
        self.0[member / 64] |= 1 << (member % 64);
    }

    fn remove(&mut self, member: usize) {
        self.0[member / 64] &= !(1 << (member % 64));
    }

    fn contains(&self, member: usize) -> bool {
        self.0[member / 64] >> (member % 64) & 1 == 1
    }

    fn add_all(&mut self, other: &Self) {
        self.0.iter_mut().zip(&other.0).for_each(|(word, more)| *word |= more);
    }

    fn remove_all(&mut self, other: &Self) {
        self.0.iter_mut().zip(&other.0).for_each(|(word, less)| *word &= !less);
    }

    fn common(&self, other: &Self) -> Self {
        Set(std::array::from_fn(|at| self.0[at] & other.0[at]))
    }

    fn count(&self) -> u32 {
        self.0.iter().map(|word| word.count_ones()).sum()
    }

    fn for_each(&self, mut act: impl FnMut(usize)) {
        for (at, &word) in self.0.iter().enumerate() {
            let mut left = word;
            while left != 0 {
                act(64 * at + left.trailing_zeros() as usize);
                left &= left - 1;
            }
        }
    }

    fn least_common(&self, other: &Self) -> Option<usize> {
        let at = (0..W).find(|&at| self.0[at] & other.0[at] != 0)?;
        Some(64 * at + (self.0[at] & other.0[at]).trailing_zeros() as usize)
    }
}

// ---- The first perfect matching ----

/// A matching that grows, and the room that searches need.
struct Matching<const W: usize> {
    /// The right members that each left member allows.
    rows: Vec<Set<W>>,
    /// The right member of each left member.
    mate: Vec<usize>,
    /// The left member of each right member.
    holder: Vec<usize>,
    /// The left member by which each right member was reached in the search at hand.
    from: Vec<usize>,
    queue: Vec<usize>,
}

impl<const W: usize> Matching<W> {
    fn new(rows: Vec<Set<W>>) -> Self {
        let n = rows.len();
        Matching { rows, mate: vec![0; n], holder: vec![0; n], from: vec![0; n], queue: Vec::with_capacity(n) }
    }

    /// Searches alternating paths from `start` through `unseen` for a right member of `goals`.
    fn reach(&mut self, start: usize, goals: &Set<W>, unseen: &mut Set<W>) -> Option<usize> {
        self.queue.clear();
        self.queue.push(start);
        let mut next = 0;
        while let Some(&left) = self.queue.get(next) {
            next += 1;
            if let Some(goal) = self.rows[left].least_common(goals) {
                self.from[goal] = left;
                return Some(goal);
            }
            self.visit(left, unseen);
        }
        None
    }

    /// Queues the holders of all unseen right members that `left` allows.
    fn visit(&mut self, left: usize, unseen: &mut Set<W>) {
        let found = self.rows[left].common(unseen);
        unseen.remove_all(&found);
        found.for_each(|right| {
            self.from[right] = left;
            self.queue.push(self.holder[right]);
        });
    }

    /// Gives `goal` to who reached it, what that one had to who reached it, and so on back to `start`.
    fn shift(&mut self, start: usize, goal: usize) {
        let mut right = goal;
        loop {
            let left = self.from[right];
            let had = std::mem::replace(&mut self.mate[left], right);
            self.holder[right] = left;
            if left == start {
                return;
            }
            right = had;
        }
    }

    /// Makes the matching perfect; none if it cannot be. Those who allow few go first, so that few need be displaced.
    fn fill(&mut self) -> Option<()> {
        let all = Set::below(self.rows.len());
        let mut free = all;
        let mut order: Vec<usize> = (0..self.rows.len()).collect();
        order.sort_by_cached_key(|&left| self.rows[left].count());
        for left in order {
            let goal = self.reach(left, &free, &mut all.clone())?;
            self.shift(left, goal);
            free.remove(goal);
        }
        Some(())
    }

    /// Gives each left member in turn the least right member that it can have while those before it keep theirs.
    fn refine(&mut self) {
        let mut open = Set::below(self.rows.len());
        for left in 0..self.rows.len() {
            self.improve(left, &open);
            open.remove(self.mate[left]);
        }
    }

    /// Gives `left` the least right member of `open` from whose holder a path leads to what `left` has.
    fn improve(&mut self, left: usize, open: &Set<W>) {
        let own = self.mate[left];
        let goals = Set::only(own);
        let mut unseen = *open;
        unseen.remove(own);
        let mut lost = Set::EMPTY;
        while let Some(right) = self.rows[left].least_common(&unseen).filter(|&right| right < own) {
            unseen.remove(right);
            self.from[right] = left;
            if self.reach(self.holder[right], &goals, &mut unseen).is_some() {
                self.shift(left, own);
                break;
            }
            lost = *open;
            lost.remove(own);
            lost.remove_all(&unseen);
        }
        self.forget(left + 1, &lost);
    }

    /// Those who hold `lost` can never have anything else, so nobody else need look there again.
    fn forget(&mut self, from: usize, lost: &Set<W>) {
        if lost.0 == [0; W] {
            return;
        }
        for left in from..self.rows.len() {
            if !lost.contains(self.mate[left]) {
                self.rows[left].remove_all(lost);
            }
        }
    }
}

fn first_matching<const W: usize>(rows: Vec<Set<W>>) -> Option<Vec<usize>> {
    let mut matching = Matching::new(rows);
    matching.fill()?;
    matching.refine();
    Some(matching.mate)
}

// ---- The plan ----

fn admitted(rule: &Rule) -> Vec<Set<SLOT_WORDS>> {
    match rule {
        Rule::Number { wanted } => wanted.iter().map(|&carrier| Set::only(carrier)).collect(),
        Rule::Kind { kinds, masks } => {
            let mut of_kind = [Set::EMPTY; KINDS];
            for (carrier, &kind) in kinds.iter().enumerate() {
                of_kind[usize::from(kind)].insert(carrier);
            }
            masks.iter().map(|&mask| union_of(&of_kind, mask)).collect()
        }
    }
}

fn union_of(of_kind: &[Set<SLOT_WORDS>; KINDS], mask: u16) -> Set<SLOT_WORDS> {
    let mut union = Set::EMPTY;
    of_kind.iter().enumerate().filter(|(kind, _)| mask >> kind & 1 == 1).for_each(|(_, set)| union.add_all(set));
    union
}

/// The goal slot of each carrier.
fn assign(rule: &Rule) -> Result<Vec<usize>, Refusal> {
    let carriers = first_matching(admitted(rule)).ok_or(UNFILLABLE)?;
    let mut goals = vec![0; carriers.len()];
    for (slot, carrier) in carriers.into_iter().enumerate() {
        goals[carrier] = slot;
    }
    Ok(goals)
}

/// The middle row of each carrier. Carrier c starts on slot c, so lower numbers have lower start rows.
fn middle_rows(width: usize, goals: &[usize]) -> Vec<usize> {
    let mut waiting = vec![Vec::new(); width * width];
    for (carrier, goal) in goals.iter().enumerate().rev() {
        waiting[carrier % width * width + goal % width].push(carrier);
    }
    let mut middles = vec![0; goals.len()];
    for row in 0..goals.len() / width {
        let allowed = waiting.chunks_exact(width).map(bays_with_some).collect();
        let bays = first_matching(allowed).expect("as many carriers wait in each bay and for each bay");
        for (start, goal) in bays.into_iter().enumerate() {
            let carrier = waiting[start * width + goal].pop().expect("the bay is allowed");
            middles[carrier] = row;
        }
    }
    middles
}

fn bays_with_some(lists: &[Vec<usize>]) -> Set<BAY_WORDS> {
    let mut bays = Set::EMPTY;
    lists.iter().enumerate().filter(|(_, list)| !list.is_empty()).for_each(|(bay, _)| bays.insert(bay));
    bays
}

// ---- The script ----

/// One step aside, `way` steps along, one step back; nothing if there is no way to go.
struct Run {
    way: usize,
    aside: u8,
    along: u8,
    back: u8,
}

impl Run {
    fn in_column(from: usize, to: usize) -> Run {
        match to >= from {
            true => Run { way: to - from, aside: b'R', along: b'D', back: b'L' },
            false => Run { way: from - to, aside: b'L', along: b'U', back: b'R' },
        }
    }

    fn in_row(from_bay: usize, to_bay: usize) -> Run {
        match to_bay >= from_bay {
            true => Run { way: 3 * (to_bay - from_bay), aside: b'D', along: b'R', back: b'U' },
            false => Run { way: 3 * (from_bay - to_bay), aside: b'U', along: b'L', back: b'D' },
        }
    }

    fn letter(&self, step: usize) -> u8 {
        match step {
            _ if self.way == 0 || step > self.way + 1 => b'.',
            0 => self.aside,
            _ if step <= self.way => self.along,
            _ => self.back,
        }
    }
}

fn run_length(runs: &[Run]) -> usize {
    match runs.iter().map(|run| run.way).max() {
        None | Some(0) => 0,
        Some(way) => way + 2,
    }
}

fn write_runs(text: &mut Vec<u8>, runs: &[Run]) {
    for step in 0..run_length(runs) {
        text.extend(runs.iter().map(|run| run.letter(step)));
        text.push(b'\n');
    }
}

/// A turn has one line for each string of letters: those of a carrier in row, or column, 0, 1 and 2 of its cell.
fn write_turn(text: &mut Vec<u8>, middles: &[usize], lines: [&[u8; 3]; 2]) {
    for letters in lines {
        text.extend(middles.iter().map(|middle| letters[middle % 3]));
        text.push(b'\n');
    }
}

fn script(order: &Order) -> Result<Vec<u8>, Refusal> {
    let width = order.width;
    let goals = assign(&order.rule)?;
    let middles = middle_rows(width, &goals);
    let routes = || middles.iter().zip(&goals).enumerate();
    let first: Vec<Run> = routes().map(|(start, (&middle, _))| Run::in_column(start / width, middle)).collect();
    let rows: Vec<Run> = routes().map(|(start, (_, goal))| Run::in_row(start % width, goal % width)).collect();
    let last: Vec<Run> = routes().map(|(_, (&middle, goal))| Run::in_column(middle, goal / width)).collect();
    let turns = run_length(&rows) > 0;
    let length = run_length(&first) + run_length(&rows) + run_length(&last) + if turns { 4 } else { 0 };

    let mut text = format!("LFS 1 {} {} {}\n", order.height, width, length).into_bytes();
    text.reserve_exact(length * (goals.len() + 1));
    write_runs(&mut text, &first);
    if turns {
        write_turn(&mut text, &middles, [b"L.R", b"D.U"]);
        write_runs(&mut text, &rows);
        write_turn(&mut text, &middles, [b"U.D", b"R.L"]);
    }
    write_runs(&mut text, &last);
    Ok(text)
}

fn main() -> io::Result<()> {
    let mut bytes = Vec::new();
    io::stdin().lock().read_to_end(&mut bytes)?;
    let text = read_order(&bytes)
        .and_then(|order| script(&order))
        .unwrap_or_else(|number| format!("refused {number}\n").into_bytes());
    io::stdout().lock().write_all(&text)
}
