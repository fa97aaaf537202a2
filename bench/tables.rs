// The builder of three tables beside the standard library's `sort_unstable` and `dedup`, once for each table, on the same heaps. bench/run says
// how it is built. Both must make the same tables before anything is timed.
#[path = "../compare/random.rs"]
mod random;

mod timing;

use random::Random;
use std::hint::black_box;
use timing::{median, time};

#[link(name = "bench_calls", kind = "static")]
extern "C" {
    fn timed_build(
        heap: *const u64, heap_length: usize, aevt: *mut u64, aevt_length: usize, avet: *mut u64, avet_length: usize, eavt: *mut u64,
        eavt_length: usize,
    ) -> usize;
}

const ROUNDS: usize = 15;

type Tables = [Vec<u64>; 3];

// How many rows, in front of three buffers as long as the heap.
fn ours(heap: &[u64], t: &mut Tables) -> usize {
    let n = heap.len();
    let (aevt, rest) = t.split_at_mut(1);
    let (avet, eavt) = rest.split_at_mut(1);
    unsafe { timed_build(heap.as_ptr(), n, aevt[0].as_mut_ptr(), n, avet[0].as_mut_ptr(), n, eavt[0].as_mut_ptr(), n) }
}

fn theirs(heap: &[u64]) -> Vec<Vec<[u64; 3]>> {
    [[1, 0, 2], [1, 2, 0], [0, 1, 2]].iter().map(|order| {
        let mut rows: Vec<[u64; 3]> = heap.chunks(3).map(|f| [f[order[0]], f[order[1]], f[order[2]]]).collect();
        rows.sort_unstable();
        rows.dedup();
        rows
    }).collect()
}

// Entities and values below `numbers`, ten attributes.
fn heap(rows: usize, numbers: u64) -> Vec<[u64; 3]> {
    let mut random = Random(20260105);
    (0..rows).map(|_| [random.below(numbers), random.below(10), random.below(numbers)]).collect()
}

fn main() {
    for rows in vec![1000, 10000, 100000] {
        let few = heap(rows, 1 << 40);
        // as many numbers as make half of the rows repeats
        let half = heap(rows, ((rows as f64 / 16.0).sqrt()) as u64 + 1);
        let mut sorted = few.clone();
        sorted.sort();
        let mut nearly = sorted.clone();
        for i in 0..rows / 100 {
            nearly.swap(i * 100, (i * 7919) % rows);
        }
        let mut reverse = sorted.clone();
        reverse.reverse();
        let heaps = vec![
            ("no repeats", few.clone()), ("many repeats", half), ("sorted", sorted), ("sorted but for one row in a hundred", nearly), ("reverse", reverse),
            ("all equal", vec![few[0]; rows]),
        ];
        for (name, facts) in heaps {
            let words = facts.concat();
            let mut tables = [vec![0; words.len()], vec![0; words.len()], vec![0; words.len()]];
            let count = ours(&words, &mut tables);
            for (table, rows) in tables.iter().zip(theirs(&words)) {
                assert_eq!(table[..3 * count], rows.concat()[..]);
            }
            let (mut old, mut new, mut ratios) = (Vec::new(), Vec::new(), Vec::new());
            for _ in 0..ROUNDS {
                let rust = time(|| { black_box(theirs(&words)); });
                let rattle = time(|| { black_box(ours(&words, &mut tables)); });
                old.push(rust);
                new.push(rattle);
                ratios.push(rattle / rust);
            }
            println!("{} rows, {}, {} kept: Rust {:.0} us, here {:.0} us, ratio {:.2}", rows, name, count, median(old), median(new), median(ratios));
        }
    }
}
