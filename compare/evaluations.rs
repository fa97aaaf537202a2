// Makes cases for crates/replay/src/evaluations.rt and the answers to them, by a plain reading of document 01: the refusals in its
// order, and the rows by nested loops over all rows of a table, each row tested. The rows of drawn cases are held to 002 itself too,
// which knows neither windows nor refusals.
#[path = "../target/compare/eval.rs"]
mod eval;
#[path = "../target/compare/plan.rs"]
mod plan;

mod capacity;
mod database;
mod datom;
mod held;
mod plan_cases;
mod random;
mod rust_plan;
mod table_cases;

use capacity::{SCANS, SELECTS, SLOTS};
use database::{heap, store, View};
use datom::Tid;
use eval::Evaluator;
use held::{drive, Held, Pair, TABLES};
use plan_cases::{case, check, e, numbers, text, Case, Verdict};
use random::Random;
use rust_plan::rust_plan;
use table_cases::Tables;

const LARGEST: u64 = u64::max_value();

// The room of a buffer that shows a refusal, and what its words hold before.
const ROOM: usize = 6;
const HELD: u64 = 77;

// A plan, the row to start at, and the words of room.
struct Window(Case, u64, usize);

struct Group {
    tables: Tables,
    windows: Vec<Window>,
}

// A row's fact: entity, attribute, value.
fn fact(index: usize, row: &[u64]) -> (u64, u64, u64) {
    match index {
        0 => (row[1], row[0], row[2]),
        1 => (row[2], row[0], row[1]),
        _ => (row[0], row[1], row[2]),
    }
}

fn rows(plan: &Case, tables: &Tables, i: usize, slots: &mut Vec<u64>, out: &mut Vec<Vec<u64>>) {
    if i == plan.scans.len() {
        out.push(plan.select.iter().map(|k| slots[*k as usize]).collect());
        return;
    }
    let (index, flow, entity, attribute, value) = plan.scans[i];
    let (entity, value) = (entity as usize, value as usize);
    for row in tables[index].chunks(3) {
        let (e, a, v) = fact(index, row);
        let entity_in = flow == 2 || (flow == 1 && index != 1);
        let value_in = flow == 2 || (flow == 1 && index == 1);
        if a == attribute && (!entity_in || slots[entity] == e) && (!value_in || slots[value] == v) {
            let before = slots.clone();
            slots[entity] = e;
            slots[value] = v;
            rows(plan, tables, i + 1, slots, out);
            *slots = before;
        }
    }
}

// 1, 2 at the first such table, 3 at the first such row.
fn table_fault(tables: &Tables) -> Verdict {
    if tables.iter().any(|t| t.len() % 3 != 0 || t.len() != tables[0].len()) {
        return Some((1, 0));
    }
    for (i, table) in tables.iter().enumerate() {
        let all: Vec<&[u64]> = table.chunks(3).collect();
        if all.windows(2).any(|w| w[0] >= w[1]) {
            return Some((2, i as u64));
        }
    }
    for (i, row) in tables[0].chunks(3).enumerate() {
        let (e, a, v) = fact(0, row);
        if !tables[1].chunks(3).any(|r| r == [a, v, e]) || !tables[2].chunks(3).any(|r| r == [e, a, v]) {
            return Some((3, i as u64));
        }
    }
    None
}

// Evaluation: the plan check, 28, 1, 2, 3. A plan that passes has a scan, so that 28 is never given.
fn refusal(plan: &Case, tables: &Tables) -> Verdict {
    let empty = if plan.scan_count == 0 { Some((28, 0)) } else { None };
    check(plan).or(empty).or(table_fault(tables))
}

// All rows of a plan over tables, neither of which is refused.
fn all_rows(plan: &Case, tables: &Tables) -> Vec<Vec<u64>> {
    let mut out = Vec::new();
    let mut slots = plan.slots.iter().map(|s| s.1).collect();
    rows(plan, tables, 0, &mut slots, &mut out);
    out
}

// The same by 002.
fn rows_by_002(plan: &Case, tables: &Tables) -> Vec<Vec<u64>> {
    let facts: Vec<(u64, u64, u64)> = tables[0].chunks(3).map(|row| fact(0, row)).collect();
    let view = View::new(&facts, Tid::min());
    let plan = rust_plan(plan, &[]);
    let rows = Evaluator::new(&plan, &view).map(|row| row.iter().map(|v| v.0).collect()).collect();
    rows
}

fn answer(tables: &Tables, window: &Window) -> String {
    let &Window(ref plan, from, room) = window;
    let mut buffer = vec![HELD; room];
    let verdict = refusal(plan, tables);
    let (mut count, mut more) = (0, false);
    if verdict.is_none() {
        let out = all_rows(plan, tables);
        let width = plan.select.len();
        let left: Vec<_> = out.iter().skip(std::cmp::min(from, out.len() as u64) as usize).collect();
        count = std::cmp::min(left.len(), room / width);
        more = left.len() > count;
        for i in 0..count {
            buffer[i * width..(i + 1) * width].copy_from_slice(left[i]);
        }
    }
    let words: String = buffer.iter().map(|w| format!(" {}", w)).collect();
    format!("{}, rows {}, {} buffer{}", text(verdict), count, if more { "more follow," } else { "none follows," }, words)
}

// The check of the tables by itself, and then the windows; before the first of each plan the check of evaluation by itself.
fn pair(group: &Group) -> Pair {
    let mut cases = vec![table_cases::check()];
    let mut answers = format!("tables {}\n", text(table_fault(&group.tables)));
    let mut checked = Vec::new();
    for window in &group.windows {
        let plan = numbers(&window.0);
        if !checked.contains(&plan) {
            cases.push(table_cases::evaluation(&plan));
            answers += &format!("evaluation {}\n", text(refusal(&window.0, &group.tables)));
            checked.push(plan);
        }
        cases.push(table_cases::window(&numbers(&window.0), window.1, window.2));
        answers += &(answer(&group.tables, window) + "\n");
    }
    (held::case(TABLES, &table_cases::numbers(&group.tables, &cases)), answers)
}

// All facts of an attribute, over an index; selects entity and value.
fn all(index: usize, attribute: u64) -> Case {
    case(vec![(index, 0, 0, attribute, 1)], vec![(false, 0); 2], vec![0, 1])
}

// A constant and no scans.
fn none() -> Case {
    case(vec![], vec![(true, 7)], vec![0])
}

// The entities that have a value for attribute 5, over avet.
fn of_value(value: u64) -> Case {
    case(vec![(1, 1, 0, 5, 1)], vec![(false, 0), (true, value)], vec![0])
}

// 01's bench: (1,5,10) (1,5,11) (2,5,11) (10,9,6) (11,9,7).
fn bench() -> Tables {
    [
        vec![5, 1, 10, 5, 1, 11, 5, 2, 11, 9, 10, 6, 9, 11, 7],
        vec![5, 10, 1, 5, 11, 1, 5, 11, 2, 9, 6, 10, 9, 7, 11],
        vec![1, 5, 10, 1, 5, 11, 2, 5, 11, 10, 9, 6, 11, 9, 7],
    ]
}

// (2^64 - 1, 5, 2^64 - 1) and (1, 2^64 - 1, 2).
fn large() -> Tables {
    let m = LARGEST;
    [vec![5, m, m, m, 1, 2], vec![5, m, m, m, 2, 1], vec![1, m, 2, m, 5, m]]
}

// Every window of a few sizes over the bench.
fn windows() -> Group {
    let mut windows = Vec::new();
    for from in 0..4 {
        for room in 0..4 {
            windows.push(Window(e(0, 0), from, room));
        }
    }
    for from in 0..4 {
        for room in 0..7 {
            windows.push(Window(all(0, 5), from, room));
            windows.push(Window(all(1, 5), from, room));
        }
    }
    windows.push(Window(e(0, 0), LARGEST, ROOM));
    Group { tables: bench(), windows: windows }
}

// E with one thing changed.
fn changed(change: &Fn(&mut Case)) -> Case {
    let mut plan = e(0, 0);
    change(&mut plan);
    plan
}

// 01's E with other selects. Its slots 0 and 1 are variables, slot 2 is a constant.
fn selecting(slots: &[u16]) -> Case {
    changed(&|c| {
        c.select = slots.to_vec();
        c.select_count = slots.len() as u64;
    })
}

// The plan check's refusals, each with the number and the place that 01's table and 02 give it.
fn damaged_plans() -> Vec<((u64, u64), Case)> {
    let unselected = |c: &mut Case| {
        c.select.clear();
        c.select_count = 0;
    };
    let unset = |c: &mut Case, n: u64| {
        for _ in 0..n {
            c.slots.push((false, 0));
        }
        c.slot_count += n;
    };
    vec![
        // 20 at each count, at the largest number, and before 13
        ((20, 0), changed(&|c| c.slot_count = SLOTS as u64 + 1)),
        ((20, 0), changed(&|c| c.scan_count = SCANS as u64 + 1)),
        ((20, 0), changed(&|c| c.select_count = SELECTS as u64 + 1)),
        ((20, 0), changed(&|c| c.slot_count = LARGEST)),
        ((20, 0), changed(&|c| c.scan_count = LARGEST)),
        ((20, 0), changed(&|c| c.select_count = LARGEST)),
        ((20, 0), changed(&|c| { unselected(c); c.slot_count = SLOTS as u64 + 1 })),
        // 13, and before 21
        ((13, 0), changed(&|c| unselected(c))),
        ((13, 0), changed(&|c| { unselected(c); c.scans[0].0 = 2 })),
        // 21 at either scan, and before the scan's 22
        ((21, 0), changed(&|c| c.scans[0].0 = 2)),
        ((21, 1), changed(&|c| { c.scans[1].0 = 2; c.scans[1].1 = 0 })),
        ((21, 1), changed(&|c| c.scans[1] = (2, 0, 3, 9, 3))),
        // 22 at the first and at the second slot, at scan 0 and past it
        ((22, 1), changed(&|c| c.scans[1].2 = 3)),
        ((22, 1), changed(&|c| c.scans[1].4 = 3)),
        ((22, 1), changed(&|c| c.scans[1].2 = 65535)),
        ((22, 1), changed(&|c| { c.scans[1].0 = 1; c.scans[1].4 = 65535 })),
        ((22, 0), changed(&|c| c.scans[0].2 = 3)),
        ((22, 0), changed(&|c| c.scans[0].4 = 3)),
        // 23 at the first slot, at the second, and out-out on one slot
        ((23, 1), changed(&|c| c.scans[1].1 = 0)),
        ((23, 1), changed(&|c| c.scans[1].1 = 1)),
        ((23, 0), changed(&|c| c.scans[0].4 = 0)),
        ((23, 0), changed(&|c| c.scans[0].4 = 2)),
        // 24 at the first slot and at the second, at scan 0 and past it
        ((24, 0), changed(&|c| c.scans[0].1 = 2)),
        ((24, 0), changed(&|c| { c.scans[0].1 = 2; c.scans[0].2 = 2 })),
        ((24, 0), changed(&|c| c.scans[0].1 = 1)),
        ((24, 1), changed(&|c| { unset(c, 1); c.scans[1].2 = 3 })),
        ((24, 1), changed(&|c| { unset(c, 1); c.scans[1].4 = 3 })),
        // the two slots in index order: over aevt the entity's fault comes first, over avet the value's
        ((22, 1), changed(&|c| { unset(c, 1); c.scans[1].2 = 4; c.scans[1].4 = 3 })),
        ((24, 1), changed(&|c| { unset(c, 1); c.scans[1].0 = 1; c.scans[1].2 = 4; c.scans[1].4 = 3 })),
        // 25 at the lowest slot, and before 26
        ((25, 3), changed(&|c| unset(c, 1))),
        ((25, 3), changed(&|c| unset(c, 2))),
        ((25, 0), changed(&|c| { c.scans[0] = (0, 1, 2, 5, 1) })),
        ((25, 3), changed(&|c| { unset(c, 1); c.select[0] = 4 })),
        // 26 at the first such select, 29 at the first such select, and 25 before 29
        ((26, 0), selecting(&[3])),
        ((26, 1), selecting(&[1, 3])),
        ((26, 2), selecting(&[1, 0, 65535, 3])),
        ((29, 0), selecting(&[2])),
        ((29, 1), selecting(&[1, 2])),
        ((29, 2), selecting(&[1, 0, 2, 2])),
        ((25, 3), changed(&|c| { unset(c, 1); c.select[0] = 2 })),
        // 26 or 29, as fits the lowest select that has one of them
        ((29, 0), selecting(&[2, 3])),
        ((26, 0), selecting(&[3, 2])),
        ((29, 1), selecting(&[1, 2, 65535])),
        ((26, 1), selecting(&[1, 65535, 2])),
        ((29, 1), selecting(&[0, 2, 3, 2])),
        ((26, 1), selecting(&[0, 3, 2, 3])),
        // a constant at slot 0
        ((29, 0), case(vec![(1, 1, 1, 5, 0)], vec![(true, 10), (false, 0)], vec![0])),
        ((29, 1), case(vec![(1, 1, 1, 5, 0)], vec![(true, 10), (false, 0)], vec![1, 0])),
        // without a scan every slot is a constant: there is nothing to select, and 28 is not met
        ((26, 0), case(vec![], vec![(true, 7)], vec![1])),
        ((25, 0), case(vec![], vec![(false, 0)], vec![0])),
        ((26, 0), case(vec![], vec![], vec![0])),
        ((29, 0), none()),
    ]
}

// The tables' refusals, likewise.
fn damaged_tables() -> Vec<((u64, u64), Tables)> {
    let cut = |lengths: [usize; 3]| {
        let mut t = bench();
        for i in 0..3 {
            t[i].truncate(lengths[i]);
        }
        t
    };
    let with = |changes: &[(usize, usize, u64)]| {
        let mut t = bench();
        for &(table, at, word) in changes {
            t[table][at] = word;
        }
        t
    };
    let others = bench();
    vec![
        // 1: no multiple of 3, in all tables or in one; lengths that differ; and before 2
        ((1, 0), cut([14, 14, 14])),
        ((1, 0), cut([13, 13, 13])),
        ((1, 0), cut([1, 1, 1])),
        ((1, 0), cut([14, 15, 15])),
        ((1, 0), cut([15, 14, 15])),
        ((1, 0), cut([15, 15, 13])),
        ((1, 0), cut([12, 15, 15])),
        ((1, 0), cut([15, 12, 15])),
        ((1, 0), cut([15, 15, 12])),
        ((1, 0), cut([0, 3, 0])),
        ((1, 0), [others[2].clone(), others[0].clone(), vec![2, 0, 0, 1, 0, 0]]),
        // 2 at each table: equal rows, rows that fall, at the last row; at the first such table, and before 3
        ((2, 0), with(&[(0, 5, 10)])),
        ((2, 1), with(&[(1, 9, 4)])),
        ((2, 2), with(&[(2, 12, 9)])),
        ((2, 0), with(&[(0, 14, 0), (0, 13, 10), (2, 12, 9)])),
        ((2, 1), with(&[(1, 14, 5), (1, 13, 6), (2, 0, 9)])),
        ((2, 2), with(&[(2, 3, 1), (2, 5, 9), (0, 0, 4)])),
        // 3 at row 0 and at rows past it: missing in eavt only, in avet only, in both; at the first such row
        ((3, 0), [others[2].clone(), others[1].clone(), others[2].clone()]),
        ((3, 0), with(&[(1, 1, 9)])),
        ((3, 1), with(&[(1, 4, 10), (1, 5, 2)])),
        ((3, 2), with(&[(2, 8, 12)])),
        ((3, 3), with(&[(1, 11, 9)])),
        ((3, 4), with(&[(2, 14, 8)])),
        ((3, 4), with(&[(1, 14, 12)])),
        ((3, 4), with(&[(0, 14, 9)])),
        ((3, 2), with(&[(2, 8, 12), (1, 14, 12)])),
        ((3, 0), with(&[(0, 0, 4)])),
    ]
}

// A word of one table changed.
fn drawn(random: &mut Random) -> Tables {
    let mut t = bench();
    let table = random.below(3) as usize;
    let at = random.below(15) as usize;
    t[table][at] = random.below(13);
    t
}

fn over(tables: Tables, plans: &[Case], room: usize) -> Group {
    Group { tables: tables, windows: plans.iter().map(|p| Window(p.clone(), 0, room)).collect() }
}

fn groups() -> Vec<Group> {
    let mut out = vec![windows()];
    let plans = damaged_plans();
    for &(expected, ref plan) in &plans {
        assert_eq!(refusal(plan, &bench()), Some(expected));
    }
    for some in plans.chunks(40) {
        out.push(over(bench(), &some.iter().map(|p| p.1.clone()).collect::<Vec<_>>(), ROOM));
    }
    for (expected, tables) in damaged_tables() {
        assert_eq!(refusal(&e(0, 0), &tables), Some(expected));
        // The plan check comes before the tables are looked at.
        out.push(over(tables, &[e(0, 0), none(), e(2, 0)], ROOM));
    }
    // A select's number is not its slot's: select 2 names slot 1, though slot 2 is a constant; and slot 1, though slot 0 is one.
    out.push(over(bench(), &[selecting(&[1, 1, 1]), case(vec![(1, 1, 1, 5, 0)], vec![(true, 11), (false, 0)], vec![1])], ROOM));
    let mut random = Random(20260103);
    for _ in 0..100 {
        out.push(over(drawn(&mut random), &[e(0, 0)], ROOM));
    }
    // The largest number in each column, and no facts at all.
    let m = LARGEST;
    out.push(over(large(), &[all(0, 5), all(1, 5), all(0, m), all(1, m), of_value(m), of_value(2)], 4));
    out.push(over([vec![], vec![], vec![]], &[all(0, 5)], 4));
    // 600 facts (i, 5, i + 1)
    let mut many = [Vec::new(), Vec::new(), Vec::new()];
    for i in 0..600 {
        many[0].extend([5, i, i + 1].iter());
        many[1].extend([5, i + 1, i].iter());
        many[2].extend([i, 5, i + 1].iter());
    }
    let windows = vec![Window(all(0, 5), 0, 6), Window(all(1, 5), 597, 6), Window(all(0, 5), 598, 6), Window(all(0, 5), 600, 6)];
    out.push(Group { tables: many, windows: windows });
    out
}

// A key: the number of its table, how many of its words count, and three words.
struct Key(usize, usize, Vec<u64>);

// Keys over tables, each ascending: the rows that begin with one, as numbers and as words, and whether it is a row itself.
fn over_keys(tables: &Tables, keys: &[Key]) -> Pair {
    let cases: Vec<String> = keys.iter().map(|key| table_cases::key(key.0, key.1, &key.2)).collect();
    let mut answers = String::new();
    for &Key(table, inputs, ref words) in keys {
        let part = &words[..std::cmp::min(inputs, 3)];
        let rows: Vec<&[u64]> = tables[table].chunks(3).collect();
        let low = rows.iter().filter(|row| row[..part.len()] < *part).count();
        let found: Vec<&&[u64]> = rows.iter().filter(|row| row.starts_with(part)).collect();
        let is_row = if rows.contains(&&words[..]) { "a row" } else { "no row" };
        let shown: String = found.iter().flat_map(|row| row.iter()).map(|w| format!(" {}", w)).collect();
        answers += &format!("key {} {}, {}:{}\n", low, low + found.len(), is_row, shown);
    }
    (held::case(TABLES, &table_cases::numbers(tables, &cases)), answers)
}

// Ranges of every length around the steps of 1, 2, 4 and 8 rows, one after the other: of n rows for entity n. The last is the end of aevt
// and eavt.
fn lengths() -> Tables {
    let facts: Vec<(u64, u64, u64)> = (0..17).flat_map(|n| (0..n).map(move |value| (n, 5, value))).collect();
    database::tables(&facts)
}

// The tables of stored keys.
fn keyed() -> Vec<Tables> {
    vec![bench(), large(), [vec![], vec![], vec![]]]
}

// Of aevt and eavt the range of each entity, of avet that of each value, of all three the whole.
fn length_keys() -> Vec<Key> {
    let of = |n: u64| vec![Key(0, 2, vec![5, n, 0]), Key(1, 2, vec![5, n, 0]), Key(2, 1, vec![n, 0, 0]), Key(2, 2, vec![n, 5, 0])];
    (0..18).flat_map(of).chain((0..3).map(|table| Key(table, 0, vec![0, 0, 0]))).chain((0..2).map(|table| Key(table, 1, vec![5, 0, 0]))).collect()
}

// Of each table: each row, and a key that is none, by every count of words and one more.
fn keys(tables: &Tables) -> Vec<Key> {
    let mut out = Vec::new();
    for (table, words) in tables.iter().enumerate() {
        let other = [5, LARGEST, 1];
        for row in words.chunks(3).chain(other.chunks(3)) {
            out.extend((0..5).map(|inputs| Key(table, inputs, row.to_vec())));
        }
    }
    out
}

// A key over the tables, of a row or of any words.
fn drawn_key(random: &mut Random, tables: &Tables, number: &Fn(u64) -> u64) -> Key {
    let table = random.below(3) as usize;
    let rows = tables[table].len() as u64 / 3;
    let mut words: Vec<u64> = (0..3).map(|_| number(random.below(9))).collect();
    if 0 < rows && random.below(3) != 0 {
        let at = 3 * random.below(rows) as usize;
        words = tables[table][at..at + 3].to_vec();
    }
    Key(table, random.below(5) as usize, words)
}

// Facts of attributes below 3 and few numbers, as the plans of compare/plan_cases.rs have them.
fn drawn_tables(random: &mut Random, number: &Fn(u64) -> u64) -> Tables {
    let count = random.below(16);
    let fact = |_| (number(random.below(9)), random.below(3), number(random.below(9)));
    let mut facts: Vec<(u64, u64, u64)> = (0..count).map(fact).collect();
    facts.sort();
    facts.dedup();
    database::tables(&facts)
}

// Facts of few entities and attributes: ranges that take several steps to pass.
fn drawn_ranges(random: &mut Random) -> Tables {
    let count = random.below(100);
    let mut facts: Vec<(u64, u64, u64)> = (0..count).map(|_| (random.below(3), random.below(2), random.below(60))).collect();
    facts.sort();
    facts.dedup();
    database::tables(&facts)
}

// One thing of the tables changed.
fn damaged_table(random: &mut Random, tables: &mut Tables) {
    let i = random.below(3) as usize;
    let length = tables[i].len() as u64;
    match random.below(6) {
        0 => tables[i].truncate(random.below(length + 1) as usize),
        1 => tables[i].extend([0, LARGEST, LARGEST][..1 + random.below(3) as usize].iter()),
        2 => tables.swap(i, random.below(3) as usize),
        3 if length > 3 => {
            // Two rows change places.
            let at = 3 * random.below(length / 3 - 1) as usize;
            for j in at..at + 3 {
                tables[i].swap(j, j + 3);
            }
        }
        _ if length > 0 => {
            let word = &mut tables[i][random.below(length) as usize];
            *word = [0, 1, 2, LARGEST, word.wrapping_add(1)][random.below(5) as usize];
        }
        _ => tables[i].push(0),
    }
}

fn hold(held: &mut Held, random: &mut Random, count: u64) {
    let mut left = count;
    while 0 < left {
        let (high, largest) = (2 + random.below(4), random.below(4) == 0);
        let number = |n: u64| if largest && n % high == 1 { LARGEST } else { n % high };
        let mut tables = drawn_tables(random, &number);
        if random.below(3) == 0 {
            damaged_table(random, &mut tables);
        }
        let mut windows = Vec::new();
        for _ in 0..::std::cmp::min(left, 10) {
            left -= 1;
            let mut plan = match random.below(5) {
                0 => plan_cases::damaged(random),
                _ => plan_cases::sound(random),
            };
            for slot in &mut plan.slots {
                slot.1 = number(slot.1);
            }
            let mut from = random.below(5);
            if refusal(&plan, &tables).is_none() {
                let rows = all_rows(&plan, &tables);
                assert_eq!(rows, rows_by_002(&plan, &tables), "002 and 01 part");
                held.count("evaluated", 1);
                held.count("rows", rows.len());
                from = match random.below(8) {
                    0 => LARGEST - random.below(2),
                    1 | 2 => (rows.len() as u64 + random.below(3)).saturating_sub(1),
                    _ => random.below(rows.len() as u64 + 1),
                };
            }
            windows.push(Window(plan, from, random.below(ROOM as u64 + 1) as usize));
        }
        if table_fault(&tables).is_none() {
            let keys: Vec<Key> = (0..4).map(|_| drawn_key(random, &tables, &number)).collect();
            held.count("keys", keys.len());
            held.add(over_keys(&tables, &keys));
        }
        let ranges = drawn_ranges(random);
        let keys: Vec<Key> = (0..4).map(|_| drawn_key(random, &ranges, &|n| n)).collect();
        held.count("keys", keys.len());
        held.add(over_keys(&ranges, &keys));
        held.add(pair(&Group { tables: tables, windows: windows }));
    }
}

fn main() {
    let made = || {
        let over = |tables: &Tables| over_keys(tables, &keys(tables));
        let lengths = vec![over_keys(&lengths(), &length_keys())];
        groups().iter().map(pair).chain(keyed().iter().map(over)).chain(lengths).collect()
    };
    drive("evaluations", &made, &hold);
}
