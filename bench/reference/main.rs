//! A plain Rust implementation of the definitions in docs/COLOURS.md, to compare speed with.
//!
//! Reads a rule line and a table file from standard input, as `paint` does, and takes two words:
//! `colour` or `refine`, and how many times. It prints what it found, and with a third word `time`
//! the nanoseconds that one turn took.

use std::collections::VecDeque;
use std::io::Read;
use std::time::Instant;

const F: u8 = 0;
const UNDECIDED: u8 = 1;
const T: u8 = 2;

/// A system written out; a step is rated F, undecided or T like a colour.
#[derive(Clone)]
struct System {
    states: usize,
    marks: usize,
    steps: Vec<u8>,
    values: Vec<u8>,
    starts: Vec<bool>,
}

impl System {
    fn step(&self, from: usize, to: usize) -> u8 {
        self.steps[from * self.states + to]
    }

    fn read(bytes: &[u8]) -> System {
        let (states, marks) = (bytes[0] as usize, bytes[1] as usize);
        let body = |entry: usize, len: usize| {
            let offset = bytes[2 + 4 * entry] as usize * 256 + bytes[3 + 4 * entry] as usize;
            &bytes[offset..offset + len]
        };
        System {
            states,
            marks,
            steps: body(0, states * states).to_vec(),
            values: body(1, states * marks).iter().map(|b| [UNDECIDED, F, T][*b as usize]).collect(),
            starts: body(2, states).iter().map(|b| *b == 1).collect(),
        }
    }

    fn grouped(&self, groups: &[usize], count: usize) -> System {
        let mut least = vec![T; count * count];
        let mut most = vec![F; count * count];
        for s in 0..self.states {
            let mut strength = vec![F; count];
            for t in 0..self.states {
                let into = &mut strength[groups[t]];
                *into = (*into).max(self.step(s, t));
            }
            for (h, into) in strength.iter().enumerate() {
                let at = groups[s] * count + h;
                least[at] = least[at].min(*into);
                most[at] = most[at].max(*into);
            }
        }
        let steps = (0..count * count)
            .map(|at| if least[at] == T { T } else if most[at] == F { F } else { UNDECIDED })
            .collect();
        let mut values = vec![None; count * self.marks];
        let mut starts = vec![false; count];
        for s in 0..self.states {
            starts[groups[s]] |= self.starts[s];
            for p in 0..self.marks {
                let value = self.values[s * self.marks + p];
                let kept = &mut values[groups[s] * self.marks + p];
                *kept = Some(match *kept {
                    Some(other) if other != value => UNDECIDED,
                    _ => value,
                });
            }
        }
        let values = values.into_iter().map(|v| v.unwrap_or(UNDECIDED)).collect();
        System { states: count, marks: self.marks, steps, values, starts }
    }
}

#[derive(Clone, Copy)]
enum Clause {
    Constant(bool),
    Mark(usize, bool),
    Next { all: bool, part: usize },
    And(usize, usize),
    Or(usize, usize),
    Until { all: bool, left: usize, right: usize },
    Release { all: bool, left: usize, right: usize },
}

struct Reader<'a> {
    text: &'a [u8],
    at: usize,
    clauses: Vec<Clause>,
}

impl Reader<'_> {
    fn skip(&mut self) {
        while self.at < self.text.len() && self.text[self.at] == b' ' {
            self.at += 1;
        }
    }

    fn take(&mut self) -> u8 {
        self.skip();
        self.at += 1;
        self.text[self.at - 1]
    }

    fn put(&mut self, clause: Clause) -> usize {
        self.clauses.push(clause);
        self.clauses.len() - 1
    }

    fn rule(&mut self, negated: bool) -> usize {
        match self.take() {
            b'1' => self.put(Clause::Constant(!negated)),
            b'0' => self.put(Clause::Constant(negated)),
            b'!' => self.rule(!negated),
            b'p' => {
                let mut mark = 0;
                while self.at < self.text.len() && self.text[self.at].is_ascii_digit() {
                    mark = mark * 10 + (self.text[self.at] - b'0') as usize;
                    self.at += 1;
                }
                self.put(Clause::Mark(mark, negated))
            }
            b'(' => {
                let left = self.rule(negated);
                let and = (self.take() == b'&') != negated;
                let right = self.rule(negated);
                self.take();
                self.put(if and { Clause::And(left, right) } else { Clause::Or(left, right) })
            }
            letter => self.paths((letter == b'A') != negated, negated),
        }
    }

    fn paths(&mut self, all: bool, negated: bool) -> usize {
        let until = |until: bool, left, right| {
            if until != negated {
                Clause::Until { all, left, right }
            } else {
                Clause::Release { all, left, right }
            }
        };
        match self.take() {
            b'X' => {
                let part = self.rule(negated);
                self.put(Clause::Next { all, part })
            }
            b'(' => {
                let left = self.rule(negated);
                let is_until = self.take() == b'U';
                let right = self.rule(negated);
                self.take();
                self.put(until(is_until, left, right))
            }
            letter => {
                let is_until = letter == b'F';
                let left = self.put(Clause::Constant(is_until != negated));
                let right = self.rule(negated);
                self.put(until(is_until, left, right))
            }
        }
    }
}

/// How true it is that the next state has x: on some step, or on every one.
fn next(system: &System, all: bool, x: &[u8], s: usize) -> u8 {
    let row = &system.steps[s * system.states..][..system.states];
    if all {
        row.iter().zip(x).map(|(step, value)| (T - step).max(*value)).min().unwrap()
    } else {
        row.iter().zip(x).map(|(step, value)| (*step).min(*value)).max().unwrap()
    }
}

/// U rises from F and V falls from T; a changed state has its predecessors looked at again.
fn settle(system: &System, all: bool, until: bool, r: &[u8], q: &[u8]) -> Vec<u8> {
    let n = system.states;
    let mut x = vec![if until { F } else { T }; n];
    let mut waiting: VecDeque<usize> = (0..n).collect();
    let mut is_waiting = vec![true; n];
    while let Some(s) = waiting.pop_front() {
        is_waiting[s] = false;
        let ahead = next(system, all, &x, s);
        let value = if until { q[s].max(r[s].min(ahead)) } else { q[s].min(r[s].max(ahead)) };
        if value != x[s] {
            x[s] = value;
            for before in 0..n {
                if system.step(before, s) != F && !is_waiting[before] {
                    is_waiting[before] = true;
                    waiting.push_back(before);
                }
            }
        }
    }
    x
}

/// The colours of each clause at each state.
fn colour(system: &System, clauses: &[Clause]) -> Vec<Vec<u8>> {
    let n = system.states;
    let mut board: Vec<Vec<u8>> = Vec::with_capacity(clauses.len());
    for clause in clauses {
        let column = match *clause {
            Clause::Constant(value) => vec![if value { T } else { F }; n],
            Clause::Mark(mark, negated) => (0..n)
                .map(|s| system.values[s * system.marks + mark])
                .map(|value| if negated { T - value } else { value })
                .collect(),
            Clause::Next { all, part } => (0..n).map(|s| next(system, all, &board[part], s)).collect(),
            Clause::And(r, q) => (0..n).map(|s| board[r][s].min(board[q][s])).collect(),
            Clause::Or(r, q) => (0..n).map(|s| board[r][s].max(board[q][s])).collect(),
            Clause::Until { all, left, right } => settle(system, all, true, &board[left], &board[right]),
            Clause::Release { all, left, right } => settle(system, all, false, &board[left], &board[right]),
        };
        board.push(column);
    }
    board
}

fn verdict(system: &System, board: &[Vec<u8>]) -> u8 {
    let rule = &board[board.len() - 1];
    (0..system.states).filter(|s| system.starts[*s]).map(|s| rule[s]).min().unwrap()
}

enum Reason {
    Mark(usize, usize),
    Step(usize, usize),
}

/// Where an undecided position may go on to, and whether a chain may end there.
fn ways(system: &System, clauses: &[Clause], board: &[Vec<u8>], g: usize, c: usize, on: &mut Vec<(usize, usize)>) -> Option<Reason> {
    let possible = |t: &usize| system.step(g, *t) != F;
    let across = |part: usize, all: bool, loose: bool, on: &mut Vec<(usize, usize)>| {
        on.extend((0..system.states).filter(possible).map(|t| (t, part)));
        (0..system.states)
            .filter(|t| system.step(g, *t) == UNDECIDED)
            .find(|t| board[part][*t] == if all { F } else { T } || (loose && board[part][*t] == UNDECIDED))
            .map(|t| Reason::Step(g, t))
    };
    match clauses[c] {
        Clause::Constant(_) => None,
        Clause::Mark(mark, _) => Some(Reason::Mark(g, mark)),
        Clause::And(r, q) | Clause::Or(r, q) => {
            on.extend([(g, r), (g, q)]);
            None
        }
        Clause::Next { all, part } => across(part, all, false, on),
        Clause::Until { all, left, right } => {
            on.extend([(g, left), (g, right)]);
            if board[left][g] == F { None } else { across(c, all, all, on) }
        }
        Clause::Release { all, left, right } => {
            on.extend([(g, left), (g, right)]);
            if board[left][g] == T { None } else { across(c, all, !all, on) }
        }
    }
}

fn cause(system: &System, clauses: &[Clause], board: &[Vec<u8>]) -> (Reason, usize) {
    let rule = clauses.len() - 1;
    let start = (0..system.states).find(|g| system.starts[*g] && board[rule][*g] == UNDECIDED).unwrap();
    let mut length = vec![0; system.states * clauses.len()];
    let mut waiting = VecDeque::from([(start, rule)]);
    length[start * clauses.len() + rule] = 1;
    let mut on = Vec::new();
    while let Some((g, c)) = waiting.pop_front() {
        on.clear();
        let here = length[g * clauses.len() + c];
        if let Some(reason) = ways(system, clauses, board, g, c, &mut on) {
            return (reason, here);
        }
        for (h, d) in &on {
            let seen = &mut length[h * clauses.len() + d];
            if board[*d][*h] == UNDECIDED && *seen == 0 {
                *seen = here + 1;
                waiting.push_back((*h, *d));
            }
        }
    }
    unreachable!("an undecided rule has a cause")
}

/// Moves the members that answer otherwise than the lowest one; false where all answer alike.
fn split(system: &System, groups: &mut [usize], count: usize, reason: &Reason) -> bool {
    let answer = |groups: &[usize], s: usize| match *reason {
        Reason::Mark(_, mark) => system.values[s * system.marks + mark],
        Reason::Step(_, target) => (0..system.states).filter(|t| groups[*t] == target).map(|t| system.step(s, t)).max().unwrap_or(F),
    };
    let (Reason::Mark(group, _) | Reason::Step(group, _)) = *reason;
    let answers: Vec<u8> = (0..system.states).map(|s| answer(groups, s)).collect();
    let lead = groups.iter().position(|g| *g == group).unwrap();
    let mut moved = false;
    for s in 0..system.states {
        if groups[s] == group && answers[s] != answers[lead] {
            groups[s] = count;
            moved = true;
        }
    }
    moved
}

/// Splits until the rule is decided or nothing more can be known; the verdict, the groups and the sum of the chains' lengths.
fn refine(system: &System, clauses: &[Clause]) -> (u8, usize, usize) {
    let mut groups = vec![0; system.states];
    let (mut count, mut lengths) = (1, 0);
    loop {
        let grouped = system.grouped(&groups, count);
        let board = colour(&grouped, clauses);
        let verdict = verdict(&grouped, &board);
        if verdict != UNDECIDED {
            return (verdict, count, lengths);
        }
        let (reason, length) = cause(&grouped, clauses, &board);
        lengths += length;
        if !split(system, &mut groups, count, &reason) {
            return (verdict, count, lengths);
        }
        count += 1;
    }
}

fn shown(verdict: u8) -> char {
    ['F', '?', 'T'][verdict as usize]
}

fn main() {
    let words: Vec<String> = std::env::args().collect();
    let turns: u32 = words[2].parse().unwrap();
    let mut input = Vec::new();
    std::io::stdin().read_to_end(&mut input).unwrap();
    let end = input.iter().position(|b| *b == b'\n').unwrap();
    let mut reader = Reader { text: &input[..end], at: 0, clauses: Vec::new() };
    reader.rule(false);
    let clauses = reader.clauses;
    let system = System::read(&input[end + 1..]);
    let began = Instant::now();
    let mut found = String::new();
    for _ in 0..turns {
        if words[1] == "colour" {
            let board = colour(std::hint::black_box(&system), &clauses);
            let count = |colour: u8| board.iter().flatten().filter(|c| **c == colour).count();
            found = format!("{} {} {} {}", shown(verdict(&system, &board)), count(T), count(F), count(UNDECIDED));
        } else {
            let (verdict, groups, _) = refine(std::hint::black_box(&system), &clauses);
            found = format!("{} {}", shown(verdict), groups);
        }
    }
    println!("{found}");
    if words.get(3).is_some_and(|word| word == "time") {
        println!("{}", began.elapsed().as_nanos() / u128::from(turns));
    }
}
