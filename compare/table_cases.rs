// Three tables and the cases over them, as the numbers that the Rattle reads.
pub type Tables = [Vec<u64>; 3];

// How many cases over the same tables the Rattle has room for, and what such a case is (docs/REPLAY.md).
pub const CASES: usize = 100;
const WINDOW: u64 = 0;
const QUERY: u64 = 1;
const CHECK: u64 = 2;
const KEY: u64 = 3;
const EVALUATION: u64 = 4;

// A plan, the row to start at, and the words of room.
pub fn window(plan: &str, from: u64, room: usize) -> String {
    format!("{} {} {} {}", WINDOW, plan, from, room)
}

// A query, and the words of room.
pub fn query(query: &str, room: usize) -> String {
    format!("{} {} {}", QUERY, query, room)
}

// The check of the tables.
pub fn check() -> String {
    CHECK.to_string()
}

// A plan, and whether evaluation refuses it.
pub fn evaluation(plan: &str) -> String {
    format!("{} {}", EVALUATION, plan)
}

// A key: the number of its table, how many of its words count, and three words.
pub fn key(table: usize, inputs: usize, words: &[u64]) -> String {
    format!("{} {} {} {} {} {}", KEY, table, inputs, words[0], words[1], words[2])
}

pub fn numbers(tables: &Tables, cases: &[String]) -> String {
    assert!(cases.len() <= CASES);
    let words = |table: &Vec<u64>| table.iter().map(|w| format!(" {}", w)).collect::<String>();
    let tables: String = tables.iter().map(|table| format!("{}{} ", table.len(), words(table))).collect();
    format!("{}{} {}", tables, cases.len(), cases.join(" "))
}
