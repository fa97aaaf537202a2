// Makes cases for crates/replay_plans/src/typed.rt and the answers to them: queries with tables of (attribute, type), and what 003 infers
// (compare/run says how it is built, with stand-ins). What is refused is read off 02's Ticket 1, independently of the Rattle; wherever
// planning takes the query and the table has its attributes, the types, or the statement that clashes, are also held to 003.
#[path = "attribute_types.rs"]
mod database;
#[path = "../target/compare/query.rs"]
mod query;

mod capacity;
mod datom;
mod held;
mod query_cases;
mod random;
mod type_cases;

use capacity::{SELECTS, SLOTS, STATEMENTS};
use database::{heap, store, types, View};
use held::{drive, Pair, TYPES};
use query_cases::{case, chain, Case};
use random::Random;
use type_cases::{fitting, line, numbers, rows, table, typed, words, Refused};

const LARGEST: u64 = u64::max_value();

// What 003 infers. It doesn't say which statement clashes: that is the first that does with those before it. A variable that they leave
// without a statement is made an entity behind them, since 003 panics at one that is in none.
fn by_003(case: &Case, table: &[(u64, u64)]) -> Result<Vec<u64>, Refused> {
    let inferred = |case: &Case| query_cases::query_of(case).infer_types(&View::new(table));
    let clashes = |i: usize| {
        let mut front = case.clone();
        front.statements.truncate(i + 1);
        let alone = |v: &u64| !front.statements.iter().any(|s| s.0 as u64 == *v || (!s.2 && s.3 == *v));
        let entities: Vec<_> = (0..case.variables).filter(alone).map(|v| (v as u16, table[0].0, true, 0)).collect();
        front.statements.extend(entities);
        inferred(&front).is_err()
    };
    match inferred(case) {
        Ok(types) => Ok(types.iter().map(|t| t.number()).collect()),
        Err(_) => Err((52, (0..case.statements.len()).find(|i| clashes(*i)).unwrap() as u64)),
    }
}

// Whether 003 answers too: it leaves open what planning refuses, a table that is none, and an attribute that is not there.
fn is_by_003(case: &Case, table: &[u64]) -> bool {
    let has_all = |rows: Vec<(u64, u64)>| case.statements.iter().all(|s| rows.iter().any(|row| row.0 == s.1));
    query_cases::refusal(case).is_none() && rows(table).map_or(false, has_all)
}

// What the ticket answers, and 003 where it answers too.
fn answer(case: &Case, table: &[u64]) -> Result<Vec<u64>, Refused> {
    let answer = typed(case, table);
    if is_by_003(case, table) {
        assert_eq!(by_003(case, &rows(table).unwrap()), answer, "003 differs on {}", numbers(case, table));
    }
    answer
}

fn pair(case: &Case, table: &[u64]) -> Pair {
    (held::case(TYPES, &numbers(case, table)), line(&answer(case, table)))
}

// The queries whose two statements meet in a variable, and one of constants.
fn of_two_statements() -> Vec<Case> {
    vec![
        // (x, 5, y), (x, 7, y): a valve number and a litre count, or one type
        case(2, &[(0, 5, false, 1), (0, 7, false, 1)], &[1]),
        // (x, 5, y), (y, 7, z): y is a reference, or no entity
        case(3, &[(0, 5, false, 1), (1, 7, false, 2)], &[2]),
        // (x, 5, y), (y, 7, y): y is known, and must be a reference
        case(2, &[(0, 5, false, 1), (1, 7, false, 1)], &[1]),
        // (x, 5, y), (x, 7, x)
        case(2, &[(0, 5, false, 1), (0, 7, false, 0)], &[1]),
        // (x, 5, the constant 9), (x, 7, the constant 0)
        case(1, &[(0, 5, true, 9), (0, 7, true, 0)], &[0]),
    ]
}

// Tables for attributes 5 and 7.
fn tables_of_two() -> Vec<Vec<u64>> {
    // types that fit and that clash
    let types = [[0, 0], [0, 3], [3, 0], [3, 3], [3, 4], [LARGEST, LARGEST], [LARGEST, 0], [LARGEST, LARGEST - 1]];
    let mut all: Vec<_> = types.iter().map(|t| words(&[(5, t[0]), (7, t[1])])).collect();
    // an attribute that is not there; none; more than are wanted, at both ends
    let missing = [vec![], vec![5, 0], vec![7, 0], vec![5, 3], vec![7, 3], vec![6, 0], vec![4, 1, 6, 0, 8, 0]];
    all.extend(missing.iter().cloned());
    for attributes in [[0, 5, 7, LARGEST], [4, 5, 6, 7], [5, 6, 7, 8], [5, 7, LARGEST - 1, LARGEST]].iter() {
        all.push(attributes.iter().flat_map(|a| vec![*a, 0]).collect());
    }
    // odd
    all.extend([vec![5], vec![5, 0, 7], vec![5, 0, 7, 0, 9]].iter().cloned());
    // equal neighbours, of one type and of two, at the front and at the end
    all.extend([vec![5, 0, 5, 0, 7, 0], vec![5, 0, 5, 1, 7, 0], vec![5, 0, 7, 0, 7, 0]].iter().cloned());
    // falling
    all.extend([vec![7, 0, 5, 0], vec![5, 0, 7, 0, 6, 0], vec![LARGEST, 0, 5, 0, 7, 0]].iter().cloned());
    all.push(vec![5, 0, 7, 0, LARGEST, 0, LARGEST, 0]);
    all
}

// The capacities and one past each, and what else planning refuses.
fn of_planning() -> Vec<Case> {
    let slots = SLOTS as u64;
    let e = (0, 5, false, 1);
    let full: Vec<_> = (0..slots as u16 / 2).map(|i| (2 * i, 5, false, 2 * i as u64 + 1)).collect();
    let mut constant = full.clone();
    constant.last_mut().unwrap().2 = true;
    vec![
        case(slots, &full, &[slots as u16 - 1]),
        case(slots, &constant, &[0]),
        case(slots - 1, &constant, &[0]),
        chain(STATEMENTS, 0),
        chain(STATEMENTS + 1, 0),
        chain(STATEMENTS - 1, 1),
        case(2, &[e; STATEMENTS], &[1; SELECTS]),
        case(2, &[e], &[1; SELECTS + 1]),
        case(2, &[e], &[]),
        case(1, &[e], &[0]),
        case(2, &[e], &[1, 65535]),
        case(3, &[e], &[1]),
        case(0, &[], &[0]),
        case(1, &[], &[0]),
        case(LARGEST, &[e], &[1]),
        case(1, &[(0, 5, false, 0)], &[0]),
        case(2, &[e, (1, 7, false, 1), (0, 5, false, 0)], &[0]),
    ]
}

// Tables for attributes 0 to 2, 5 and 7, of these types; two that are none, and the empty one.
fn tables_of_five() -> Vec<Vec<u64>> {
    let types = [[0; 5], [0, 0, 0, LARGEST, 0], [0, 0, 4, 0, 0], [4; 5]];
    let table = |t: &[u64; 5]| words(&[(0, t[0]), (1, t[1]), (2, t[2]), (5, t[3]), (7, t[4])]);
    let mut all: Vec<_> = types.iter().map(table).collect();
    all.extend([vec![7, 0, 5, 0], vec![0], vec![]].iter().cloned());
    all
}

// A clash, and a missing attribute, at the last of all statements.
fn at_the_last() -> Vec<Pair> {
    let mut statements = vec![(0, 5, false, 1); STATEMENTS];
    statements[STATEMENTS - 1] = (0, 7, false, 1);
    let last = case(2, &statements, &[1]);
    [vec![5, 2], vec![5, 2, 7, 2], vec![5, 2, 7, 3]].iter().map(|table| pair(&last, table)).collect()
}

// Small queries with small tables, half of which fit.
fn at_random() -> Vec<Pair> {
    let mut all = Vec::new();
    let mut source = Random(20260201);
    for _ in 0..300 {
        let query = if source.below(3) == 0 { query_cases::random(&mut source) } else { query_cases::dense(&mut source) };
        let rows = fitting(&mut source, &query);
        let table = if source.below(2) == 0 { table(&mut source, &query) } else { words(&rows) };
        if table.len() <= 60 {
            all.push(pair(&query, &table));
        }
    }
    all
}

fn over(queries: &[Case], tables: &[Vec<u64>]) -> Vec<Pair> {
    queries.iter().flat_map(|query| tables.iter().map(move |table| pair(query, table))).collect()
}

fn made() -> Vec<Pair> {
    // attributes, types and constants of 2^64 - 1, and 0
    let ends = case(2, &[(0, LARGEST, false, 1), (0, 0, true, LARGEST)], &[1]);
    let tables_of_ends = [vec![0, 5, LARGEST, LARGEST], vec![0, 5, LARGEST - 1, LARGEST], vec![1, 5, LARGEST, LARGEST]];
    let mut all = over(&of_two_statements(), &tables_of_two());
    all.extend(over(&[ends], &tables_of_ends));
    all.extend(over(&of_planning(), &tables_of_five()));
    all.extend(at_the_last());
    all.extend(at_random());
    all
}

fn main() {
    drive("types", &made, &|held, random, count| {
        for _ in 0..count {
            let query = if random.below(3) == 0 { query_cases::dense(random) } else { query_cases::drawn(random) };
            let table = table(random, &query);
            let pair = pair(&query, &table);
            held.count("typed", pair.1.starts_with("types fine") as usize);
            held.count("by 003 too", is_by_003(&query, &table) as usize);
            held.add(pair);
        }
    });
}
