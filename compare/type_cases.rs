// Queries with tables of types, for drawn and made cases, and what 02, Ticket 1, answers to them, read off the ticket independently of the
// Rattle.
use capacity::SLOTS;
use query_cases::{self, refusal, Case};
use random::Random;
use std::collections::BTreeMap;

// A refusal's number and its place.
pub type Refused = (u64, u64);

// The words of a table of rows (attribute, type).
pub fn words(rows: &[(u64, u64)]) -> Vec<u64> {
    rows.iter().flat_map(|row| vec![row.0, row.1]).collect()
}

// The rows of a table of even length that is strictly ascending by attribute.
pub fn rows(table: &[u64]) -> Option<Vec<(u64, u64)>> {
    let rows: Vec<_> = table.chunks(2).filter(|row| row.len() == 2).map(|row| (row[0], row[1])).collect();
    let ascends = rows.windows(2).all(|pair| pair[0].0 < pair[1].0);
    if table.len() % 2 == 0 && ascends { Some(rows) } else { None }
}

// After planning's own checks 50, then statement by statement: entity clash, 51, value clash.
pub fn typed(case: &Case, table: &[u64]) -> Result<Vec<u64>, Refused> {
    if let Some(refused) = refusal(case) {
        return Err(refused);
    }
    let rows = rows(table).ok_or((50, 0))?;
    let mut types = BTreeMap::new();
    for (i, s) in case.statements.iter().enumerate() {
        let clash = (52, i as u64);
        if *types.entry(s.0 as u64).or_insert(0) != 0 {
            return Err(clash);
        }
        let attribute_type = rows.iter().find(|row| row.0 == s.1).ok_or((51, i as u64))?.1;
        if !s.2 && *types.entry(s.3).or_insert(attribute_type) != attribute_type {
            return Err(clash);
        }
    }
    Ok((0..case.variables).map(|v| types[&v]).collect())
}

// What `replay` writes: the types of an answer, zeros past them, and all zeros on a refusal.
pub fn line(answer: &Result<Vec<u64>, Refused>) -> String {
    let (said, types) = match *answer {
        Ok(ref types) => ("fine".to_string(), types.clone()),
        Err((number, place)) => (format!("refused {} at {}", number, place), Vec::new()),
    };
    let array: String = (0..SLOTS).map(|v| format!(" {}", types.get(v).unwrap_or(&0))).collect();
    format!("types {},{}\n", said, array)
}

// The case as `replay` reads it: the query, and the table, its length first.
pub fn numbers(case: &Case, table: &[u64]) -> String {
    let table: String = table.iter().map(|word| format!(" {}", word)).collect();
    format!("{} {}{}", query_cases::numbers(case), table.split_whitespace().count(), table)
}

// A type that is often a reference and seldom the largest.
fn type_number(random: &mut Random) -> u64 {
    [0, 0, 1, 2, 3, u64::max_value()][random.below(6) as usize]
}

// A type for each attribute of a query, so that no variable is used as two: what an entity's variable or the values of one attribute meet has
// one type, that of an entity 0.
pub fn fitting(random: &mut Random, case: &Case) -> Vec<(u64, u64)> {
    // What is met, by attribute and by variable; `None` is a reference.
    let mut attributes: BTreeMap<u64, Option<u64>> = BTreeMap::new();
    let mut variables: BTreeMap<u64, Option<u64>> = BTreeMap::new();
    for s in &case.statements {
        let next = attributes.len() as u64;
        attributes.entry(s.1).or_insert(Some(next));
    }
    for _ in 0..2 * case.statements.len() {
        for s in &case.statements {
            variables.insert(s.0 as u64, None);
            if !s.2 {
                // `None` is the least, so that both take the lesser.
                let one = attributes[&s.1].min(*variables.get(&s.3).unwrap_or(&attributes[&s.1]));
                attributes.insert(s.1, one);
                variables.insert(s.3, one);
            }
        }
    }
    let types: Vec<u64> = attributes.iter().map(|_| type_number(random)).collect();
    attributes.iter().map(|(a, met)| (*a, met.map_or(0, |i| types[i as usize]))).collect()
}

// Rows of attributes that the query does not name, put among the others; up to as many as `replay` has room for.
fn with_others(random: &mut Random, rows: &[(u64, u64)]) -> Vec<(u64, u64)> {
    let mut all: BTreeMap<u64, u64> = rows.iter().cloned().collect();
    let more = [0, 0, 1, 2, 7, 800][random.below(6) as usize];
    for i in 0..more {
        let attribute = if random.below(20) == 0 { u64::max_value() - i } else { random.below(2000) };
        let number = type_number(random);
        all.entry(attribute).or_insert(number);
    }
    all.into_iter().collect()
}

// A table for a query: one that fits, or with a type changed, a row gone, or types of any kind; or damaged: odd, with equal neighbours,
// falling, empty.
pub fn table(random: &mut Random, case: &Case) -> Vec<u64> {
    let fit = fitting(random, case);
    let mut rows = with_others(random, &fit);
    let i = random.below(rows.len() as u64 + 1) as usize % rows.len().max(1);
    let there = !rows.is_empty();
    match random.below(18) {
        0...2 if there => rows[i].1 = type_number(random),
        3 | 4 if there => {
            rows.remove(i);
        }
        5 if there => {
            let row = rows[i];
            rows.insert(i, row);
        }
        6 if there => {
            let last = rows.len() - 1;
            rows.swap(i, last);
        }
        7 => return words(&rows)[..2 * rows.len() - there as usize].to_vec(),
        8 => return [words(&rows), vec![random.below(2000)]].concat(),
        9 => rows.clear(),
        10...12 => rows.iter_mut().for_each(|row| row.1 = type_number(random)),
        _ => {}
    }
    words(&rows)
}
