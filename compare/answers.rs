// Makes cases for crates/replay/src/answers.rt and the answers to them: queries over small tables, drawn at random, and the rows that
// 002 yields for every plan that 000 lists (compare/run says how they are built, unchanged, with stand-ins). These are also held to
// demand 3, read by brute force: the assignments that make every statement a fact. The cases of a seed have each sound order of a query
// as a case.
#[path = "../target/compare/eval.rs"]
mod eval;
#[path = "../target/compare/plan.rs"]
mod plan;
#[path = "../target/compare/planner.rs"]
mod planner;
#[path = "../target/compare/permutation.rs"]
mod permutation;

mod capacity;
mod database;
mod datom;
mod held;
mod query;
mod query_cases;
mod random;
mod table_cases;

use database::{heap, store, tables, View};
use datom::Tid;
use eval::Evaluator;
use held::{drive, Held, Pair, TABLES};
use permutation::Permutations;
use plan::Plan;
use planner::Planner;
use query_cases::{bound_twice, numbers, query_of, refusal, Case};
use random::Random;
use table_cases::CASES;

type Fact = (u64, u64, u64);
type Facts<'a> = View<'a, database::Nothing, database::Nothing>;

// What the Rattle program has room for: words of a buffer, windows of a plan, plans of a query.
const ROOM: usize = 16;
const WINDOWS: usize = 60;
const LISTED: usize = 500;

// The most rows of a query, and the most plans of all its orders.
const ROWS: usize = 40;
const PLANS: usize = 5000;

const ATTRIBUTES: [u64; 3] = [5, 7, 9];

// A query, and the words of room for its rows.
struct Window(Case, usize);

// The rows of a plan, in 002's order.
fn rows(plan: &Plan, view: &Facts, most: usize) -> Vec<Vec<u64>> {
    Evaluator::new(plan, view).take(most).map(|row| row.iter().map(|v| v.0).collect()).collect()
}

// The rows of each plan, in the order of the listing.
fn listed_rows(case: &Case, view: &Facts, most: usize) -> Vec<Vec<Vec<u64>>> {
    let query = query_of(case);
    let mut planner = Planner::new(&query);
    planner.initialize_scans();
    let mut out = Vec::new();
    loop {
        out.push(rows(planner.get_plan(), view, most));
        if !planner.next() {
            return out;
        }
    }
}

// Rows in windows of some words of room: the count, whether another follows, and the words, 0 where nothing was written.
fn in_windows(rows: &[Vec<u64>], width: usize, room: usize) -> String {
    let fit = room / width;
    let mut out = String::new();
    let mut from = 0;
    loop {
        let count = std::cmp::min(fit, rows.len() - from);
        let mut buffer: Vec<u64> = rows[from..from + count].concat();
        buffer.resize(room, 0);
        let words: String = buffer.iter().map(|w| format!(" {}", w)).collect();
        from += count;
        out += &format!(" {} {}:{},", count, (from < rows.len()) as u64, words);
        if from == rows.len() {
            return out;
        }
    }
}

// Demand 3: of all assignments of the numbers that occur, and of one that does not, those that make every statement a fact, seen
// through the select list; sorted.
fn meant(case: &Case, facts: &[Fact]) -> Vec<Vec<u64>> {
    let mut values: Vec<u64> = facts.iter().flat_map(|f| vec![f.0, f.2]).collect();
    values.extend(case.statements.iter().filter(|s| s.2).map(|s| s.3));
    values.sort();
    values.dedup();
    let other = (0..).find(|n| !values.contains(n)).unwrap();
    values.push(other);
    let mut out = Vec::new();
    // An assignment is a number of as many digits as there are variables.
    let mut digits = vec![0; case.variables as usize];
    loop {
        let of = |variable: u64| values[digits[variable as usize]];
        let is_fact = |s: &(u16, u64, bool, u64)| facts.contains(&(of(s.0 as u64), s.1, if s.2 { s.3 } else { of(s.3) }));
        if case.statements.iter().all(is_fact) {
            out.push(case.select.iter().map(|v| of(*v as u64)).collect());
        }
        match digits.iter().position(|d| d + 1 < values.len()) {
            None => break,
            Some(i) => {
                digits[i] += 1;
                for d in &mut digits[..i] {
                    *d = 0;
                }
            }
        }
    }
    out.sort();
    out
}

// Facts of few attributes and numbers, so that joins meet.
fn drawn_facts(random: &mut Random, count: u64) -> Vec<Fact> {
    let high = 2 + random.below(4);
    let fact = |_| (1 + random.below(high), ATTRIBUTES[random.below(3) as usize], 1 + random.below(high));
    let mut facts: Vec<Fact> = (0..count).map(fact).collect();
    facts.sort();
    facts.dedup();
    facts
}

fn drawn_case(random: &mut Random, most: u64) -> Case {
    let variables = 1 + random.below(4);
    let n = 1 + random.below(most);
    let statements = (0..n)
        .map(|_| {
            let constant = random.below(4) == 0;
            let value = if constant { 1 + random.below(5) } else { random.below(variables) };
            (random.below(variables) as u16, ATTRIBUTES[random.below(3) as usize], constant, value)
        })
        .collect();
    let select = (0..1 + random.below(3)).map(|_| random.below(variables) as u16).collect();
    Case { variables: variables, statements: statements, select: select }
}

// A query that planning takes, with some rows but not too many; now and then, and where there are no facts, with none.
fn drawn(random: &mut Random, facts: &[Fact], change: &Fn(&mut Case), most: u64) -> Window {
    let may_be_none = facts.is_empty() || random.below(10) == 0;
    let view = View::new(facts, Tid::min());
    loop {
        let mut case = drawn_case(random, most);
        change(&mut case);
        if refusal(&case).is_some() {
            continue;
        }
        let count = rows(&Planner::plan(&query_of(&case)), &view, ROWS + 1).len();
        if count <= ROWS && (0 < count || may_be_none) {
            let room = drawn_room(random, &case);
            return Window(case, room);
        }
    }
}

fn drawn_room(random: &mut Random, case: &Case) -> usize {
    let width = case.select.len();
    width * (1 + random.below(4) as usize) + random.below(width as u64) as usize
}

// The rows of each plan in windows, where `meant` are the rows that they must have, each plan in an order of its own.
fn answer(view: &Facts, window: &Window, meant: &[Vec<u64>]) -> String {
    let &Window(ref case, room) = window;
    assert!(room <= ROOM);
    let width = case.select.len();
    let listed = listed_rows(case, view, ROWS + 1);
    assert!(listed.len() <= LISTED);
    let mut out = String::new();
    for rows in &listed {
        let mut sorted = rows.clone();
        sorted.sort();
        assert_eq!(&sorted[..], meant, "002 and demand 3 part");
        assert!(rows.len() <= WINDOWS * (room / width));
        out += &in_windows(rows, width, room);
        out += "\n";
    }
    out
}

// Queries over the same facts, as `replay` reads them.
fn over(facts: &[Fact], windows: &[Window]) -> String {
    let cases: Vec<String> = windows.iter().map(|window| table_cases::query(&numbers(&window.0), window.1)).collect();
    held::case(TABLES, &table_cases::numbers(&tables(facts), &cases))
}

fn made() -> Vec<Pair> {
    misses_the_largest();
    let mut random = Random(20260104);
    let mut out = Vec::new();
    for i in 0..60 {
        let count = if i < 4 { i / 2 } else { 4 + random.below(18) };
        let facts = drawn_facts(&mut random, count);
        let windows: Vec<Window> = (0..8).map(|_| drawn(&mut random, &facts, &|_| {}, 4)).collect();
        let view = View::new(&facts, Tid::min());
        let answers = windows.iter().map(|window| answer(&view, window, &meant(&window.0, &facts))).collect();
        out.push((over(&facts, &windows), answers));
    }
    out
}

// Where 002 and 01 part: a range ends before the largest datom. With facts of the first transaction none is that; with those of the
// last the fact (2^64 - 1, 5, 2^64 - 1) is, and 002 does not find it.
fn misses_the_largest() {
    let m = u64::max_value();
    let case = Case { variables: 2, statements: vec![(0, 5, false, 1)], select: vec![0, 1] };
    let query = query_of(&case);
    let mut planner = Planner::new(&query);
    planner.initialize_scans();
    let found = |transaction: Tid| rows(planner.get_plan(), &View::new(&[(m, 5, m)], transaction), ROWS);
    assert_eq!(found(Tid::min()), vec![vec![m, m]]);
    assert!(found(Tid::max()).is_empty());
}

// Every sound order of a query's statements, as the swaps list them.
fn sound_orders(case: &Case) -> Vec<Case> {
    let mut arranged = case.clone();
    let mut swaps = Permutations::new(case.statements.len());
    let mut out = Vec::new();
    loop {
        if bound_twice(&arranged.statements).is_none() {
            out.push(arranged.clone());
        }
        match swaps.next() {
            Some((a, b)) => arranged.statements.swap(a, b),
            None => return out,
        }
    }
}

// How many plans 000 lists.
fn plan_count(case: &Case) -> usize {
    let query = query_of(case);
    let mut planner = Planner::new(&query);
    planner.initialize_scans();
    let mut count = 1;
    while planner.next() {
        count += 1;
    }
    count
}

// Numbers at their ends: 1 becomes the least, 2 the largest.
fn at_the_ends(number: u64) -> u64 {
    match number {
        1 => 0,
        2 => u64::max_value(),
        n => n,
    }
}

// Queries over drawn tables, up to 20 over the same. All sound orders of a query are cases where their plans are not too many, else the
// given order is.
fn hold(held: &mut Held, random: &mut Random, count: u64) {
    let mut left = count;
    while 0 < left {
        let fact_count = random.below(22);
        let mut facts = drawn_facts(random, fact_count);
        let large = random.below(4) == 0;
        if large {
            facts = facts.iter().map(|f| (at_the_ends(f.0), f.1, at_the_ends(f.2))).collect();
            facts.sort();
        }
        let constants = |case: &mut Case| {
            for s in case.statements.iter_mut().filter(|s| large && s.2) {
                s.3 = at_the_ends(s.3);
            }
        };
        let view = View::new(&facts, Tid::min());
        for _ in 0..::std::cmp::min(left, 20) {
            left -= 1;
            let most = if random.below(20) == 0 { 6 } else { 4 };
            let Window(case, _) = drawn(random, &facts, &constants, most);
            let meant = meant(&case, &facts);
            let mut orders = sound_orders(&case);
            let plans: usize = orders.iter().map(plan_count).sum();
            if plans > PLANS {
                held.count("in the given order alone", 1);
                orders = vec![case];
            }
            held.count("orders", orders.len());
            for part in orders.chunks(CASES) {
                let windows: Vec<Window> = part.iter().map(|case| Window(case.clone(), drawn_room(random, case))).collect();
                let answers: String = windows.iter().map(|window| answer(&view, window, &meant)).collect();
                let lines = answers.lines().count();
                held.count("plans", lines);
                held.count("rows", lines * meant.len());
                held.add((over(&facts, &windows), answers));
            }
        }
    }
}

fn main() {
    drive("answers", &made, &hold);
}
