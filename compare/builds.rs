// Makes cases for crates/replay/src/builds.rt and the answers to them: heaps of triples, lengths of three buffers, and what these hold after
// the builder: the rows of the heap in each table's order, sorted and without repeats by the standard library, and past them what was
// there. Refusals are read off 02's Ticket 5, independently of the Rattle; the Rust has no such thing.
mod held;
mod random;

use held::{drive, Pair, BUILDS};
use random::Random;

const LARGEST: u64 = u64::max_value();
const AS_IT_WAS: u64 = 77;
// The words of a heap, and of a buffer, that `replay` has room for.
const ROOM: usize = 1800;

type Lengths = [usize; 3];

// 70: the heap's length is no multiple of 3; 71: a buffer is shorter than the heap.
fn refusal(heap: &[u64], lengths: &Lengths) -> Option<u64> {
    if heap.len() % 3 != 0 {
        Some(70)
    } else if lengths.iter().any(|length| *length < heap.len()) {
        Some(71)
    } else {
        None
    }
}

// The heap's rows as a table has them: aevt, avet, eavt.
fn rows(heap: &[u64], table: usize) -> Vec<[u64; 3]> {
    let order = [[1, 0, 2], [1, 2, 0], [0, 1, 2]][table];
    let mut rows: Vec<[u64; 3]> = heap.chunks(3).map(|fact| [fact[order[0]], fact[order[1]], fact[order[2]]]).collect();
    rows.sort();
    rows.dedup();
    rows
}

fn joined(words: &[u64]) -> String {
    words.iter().map(|w| format!(" {}", w)).collect()
}

fn answer(heap: &[u64], lengths: &Lengths) -> String {
    let refused = refusal(heap, lengths);
    let mut count = 0;
    let mut out = String::new();
    for table in 0..3 {
        let mut buffer = vec![AS_IT_WAS; lengths[table]];
        if refused.is_none() {
            let rows = rows(heap, table);
            count = rows.len();
            for (i, row) in rows.iter().enumerate() {
                buffer[3 * i..3 * i + 3].copy_from_slice(row);
            }
        }
        out += &format!(",{}", joined(&buffer));
    }
    let verdict = match refused {
        Some(number) => format!("refused {} at 0", number),
        None => "fine".to_string(),
    };
    format!("built {}, rows {}{}\n", verdict, count, out)
}

fn pair(heap: &[u64], lengths: &Lengths) -> Pair {
    let numbers = format!("{}{} {} {} {}", heap.len(), joined(heap), lengths[0], lengths[1], lengths[2]);
    (held::case(BUILDS, &numbers), answer(heap, lengths))
}

fn flat(rows: &[[u64; 3]]) -> Vec<u64> {
    rows.concat()
}

// A heap of this many rows over few or many numbers, in no order, sorted, falling, all equal, or sorted but for a row.
fn drawn(random: &mut Random, most: u64) -> Vec<u64> {
    let n = random.below(most + 1) as usize;
    let numbers = [2, 4, 12, LARGEST][random.below(4) as usize];
    let number = |random: &mut Random| if numbers == LARGEST { [0, LARGEST, LARGEST - 1, random.below(1 << 50)][random.below(4) as usize] } else { random.below(numbers) };
    let mut rows: Vec<[u64; 3]> = (0..n).map(|_| [number(random), number(random), number(random)]).collect();
    match random.below(6) {
        0 => rows.sort(),
        1 => {
            rows.sort();
            rows.reverse();
        }
        2 if n > 0 => rows = vec![rows[0]; n],
        3 if n > 0 => {
            rows.sort();
            let i = random.below(n as u64) as usize;
            rows[i] = [number(random), number(random), number(random)];
        }
        _ => {}
    }
    flat(&rows)
}

// Buffers of the heap's length, longer ones, and now and then one that is shorter; a heap that is cut within a row.
fn spoilt(random: &mut Random, mut heap: Vec<u64>) -> (Vec<u64>, Lengths) {
    if random.below(10) == 0 {
        heap.pop();
    }
    let mut lengths = [heap.len(); 3];
    for length in lengths.iter_mut() {
        *length += [0, 0, 1, 2, 3, 9][random.below(6) as usize];
    }
    if random.below(6) == 0 && !heap.is_empty() {
        lengths[random.below(3) as usize] = heap.len() - 1 - random.below(heap.len() as u64) as usize;
    }
    (heap, lengths)
}

fn cases() -> Vec<Pair> {
    let mut all = Vec::new();
    // no facts, one, one twice, two, in each order
    let few: Vec<Vec<[u64; 3]>> = vec![
        vec![],
        vec![[1, 5, 10]],
        vec![[1, 5, 10], [1, 5, 10]],
        vec![[1, 5, 10], [2, 5, 10]],
        vec![[2, 5, 10], [1, 5, 10]],
        vec![[1, 5, 10], [1, 5, 11]],
        vec![[1, 6, 10], [1, 5, 10]],
        vec![[0, 0, 0], [LARGEST, LARGEST, LARGEST]],
        vec![[LARGEST, 0, LARGEST], [0, LARGEST, 0], [LARGEST, 0, LARGEST]],
        // 01's triples, in no order
        vec![[2, 5, 11], [11, 9, 7], [1, 5, 11], [10, 9, 6], [1, 5, 10]],
        // one after the other differs in each table's last word, and first
        vec![[3, 1, 1], [1, 1, 3], [1, 3, 1], [1, 1, 1], [3, 1, 1], [2, 2, 2]],
    ];
    for rows in &few {
        let heap = flat(rows);
        let n = heap.len();
        all.push(pair(&heap, &[n, n, n]));
        all.push(pair(&heap, &[n + 7, n + 1, n + 2]));
        if n > 0 {
            // 71 of each buffer and of all, by one word and by all; 70 before it
            for table in 0..3 {
                for short in vec![n - 1, 0] {
                    let mut lengths = [n; 3];
                    lengths[table] = short;
                    all.push(pair(&heap, &lengths));
                }
            }
            all.push(pair(&heap, &[n - 1; 3]));
            for cut in 1..3 {
                all.push(pair(&heap[cut..], &[n; 3]));
                all.push(pair(&heap[cut..], &[0; 3]));
            }
        }
    }
    // every number of rows up to 40, of few numbers so that rows repeat
    let mut source = Random(20260501);
    for n in 0..41 {
        let heap: Vec<u64> = (0..3 * n).map(|_| source.below(3)).collect();
        all.push(pair(&heap, &[3 * n; 3]));
    }
    // as many as there is room for: drawn, sorted, falling, all equal
    let many: Vec<[u64; 3]> = (0..ROOM / 3).map(|_| [source.below(40), source.below(3), source.below(40)]).collect();
    let mut sorted = many.clone();
    sorted.sort();
    let mut falling = sorted.clone();
    falling.reverse();
    for rows in vec![many.clone(), sorted, falling, vec![many[0]; ROOM / 3]] {
        all.push(pair(&flat(&rows), &[ROOM; 3]));
    }
    for _ in 0..120 {
        let heap = drawn(&mut source, 24);
        let (heap, lengths) = spoilt(&mut source, heap);
        all.push(pair(&heap, &lengths));
    }
    all
}

fn main() {
    drive("builds", &cases, &|held, random, count| {
        for _ in 0..count {
            let most = if random.below(20) == 0 { 590 } else { 40 };
            let heap = drawn(random, most);
            let (heap, lengths) = spoilt(random, heap);
            held.count("heaps of rows", heap.len() / 3);
            held.add(pair(&heap, &lengths));
        }
    });
}
