// Makes cases for crates/replay_plans/src/swaps.rt and the answers to them, by the Rust of 005 (compare/run says how it is built). 005
// has no capacity: the two refusals are 01's, 40 at 0 for more elements than there is room for.
#[path = "../target/compare/permutation.rs"]
mod permutation;

mod capacity;
mod held;
mod random;

use capacity::ELEMENTS;
use held::{drive, Pair, SWAPS};
use permutation::Permutations;
use random::Random;

// Swaps of some elements from the first on, so many steps; or a state, of its counters, elements and position.
enum Case {
    Listing(usize, usize),
    State(Vec<usize>, usize, usize),
}

fn numbers(case: &Case) -> String {
    match case {
        &Case::Listing(n, steps) => format!("0 {} {}", n, steps),
        &Case::State(ref ks, n, i) => {
            let counters: String = ks.iter().map(|k| format!(" {}", k)).collect();
            format!("1 {} {}{}", n, i, counters)
        }
    }
}

fn answer(case: &Case) -> String {
    match case {
        &Case::Listing(n, steps) => listing(n, steps),
        &Case::State(ref ks, n, i) => four_steps(ks, n, i),
    }
}

fn next_text(next: Option<(usize, usize)>) -> String {
    match next {
        Some((a, b)) => format!("swap {} {}", a, b),
        None => "none".to_string(),
    }
}

fn listing(n: usize, steps: usize) -> String {
    let mut order: Vec<char> = (0..ELEMENTS.min(n)).map(|j| (b'a' + (j % 26) as u8) as char).collect();
    let text = |order: &[char]| order.iter().collect::<String>();
    // A refused state is that of no elements: its steps give none, and no element is named.
    let refused = n > ELEMENTS;
    let mut out = format!("{} {}\n", if refused { "refused 40 at 0" } else { "fresh" }, text(&order));
    let mut permutations = Permutations::new(if refused { 0 } else { n });
    for _ in 0..steps {
        let next = permutations.next();
        if let Some((a, b)) = next {
            order.swap(a, b);
        }
        out += &format!("{} {}\n", next_text(next), text(&order));
    }
    out
}

fn four_steps(ks: &[usize], n: usize, i: usize) -> String {
    let state = |ks: &[usize], i: usize| {
        let counters: String = ks.iter().map(|k| format!(" {}", k)).collect();
        format!("counters{} position {}", counters, i)
    };
    if n > ELEMENTS {
        return format!("refused 40 at 0 {}\n", state(ks, i)).repeat(4);
    }
    let mut permutations = Permutations::damaged(ks[..n].to_vec(), i);
    let mut out = String::new();
    for _ in 0..2 {
        let next = next_text(permutations.next());
        // By value, and lent.
        out += &format!("{} {}\n", next, state(permutations.counters(), permutations.position())).repeat(2);
    }
    out
}

fn next_drawn(x: usize) -> usize {
    (x % 65537 * 75 + 74) % 65537
}

// A state that no listing has, its numbers drawn from x on, and the number to go on with.
fn damaged(x: usize) -> (Case, usize) {
    let n = next_drawn(x);
    let i = next_drawn(n);
    let mut k = i;
    let ks = (0..ELEMENTS)
        .map(|j| {
            k = next_drawn(k);
            k % (j + 2)
        })
        .collect();
    (Case::State(ks, n % (ELEMENTS + 2), i % (ELEMENTS + 4)), k)
}

fn cases() -> Vec<Case> {
    let listings = [(0, 2), (1, 2), (2, 3), (3, 7), (4, 25), (5, 121), (ELEMENTS, 9), (ELEMENTS + 1, 2)];
    let mut all: Vec<Case> = listings.iter().map(|l| Case::Listing(l.0, l.1)).collect();
    all.push(Case::State(vec![usize::max_value(); ELEMENTS], 4, 0));
    all.push(Case::State(vec![2; ELEMENTS], ELEMENTS, usize::max_value()));
    all.push(Case::State(vec![1; ELEMENTS], usize::max_value(), 3));
    let mut x = 1;
    for _ in 0..60 {
        let (case, next) = damaged(x);
        all.push(case);
        x = next;
    }
    all
}

// A state as listings have it, or of any numbers; now and then a listing.
fn drawn(random: &mut Random) -> Case {
    let m = usize::max_value();
    let mut below = |n: usize| random.below(n as u64) as usize;
    if below(50) == 0 {
        return Case::Listing([below(8), ELEMENTS - below(3), ELEMENTS + below(3), m][below(4)], below(300));
    }
    let n = if below(20) == 0 { m - below(2) } else { below(ELEMENTS + 2) };
    let i = match below(20) {
        0 => m - below(2),
        1...10 => 0,
        _ => below(ELEMENTS + 4),
    };
    // With counters as high as they get a step goes far.
    let most = below(3);
    let ks = (0..ELEMENTS)
        .map(|j| match below(40) {
            0 => m - below(2),
            _ if most == 0 => j,
            _ => below(j + 2),
        })
        .collect();
    Case::State(ks, n, i)
}

fn pair(case: &Case) -> Pair {
    (held::case(SWAPS, &numbers(case)), answer(case))
}

fn main() {
    drive("swaps", &|| cases().iter().map(pair).collect(), &|held, random, count| {
        for _ in 0..count {
            held.add(pair(&drawn(random)));
        }
    });
}
