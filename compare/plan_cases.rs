// Plans for drawn and made cases, as the numbers that the Rattle reads, and the plan check, read off document 01's table independently
// of the Rattle.
use capacity::{SCANS, SELECTS, SLOTS};
use random::Random;

// Index, flow, entity, attribute, value.
pub type Scan = (usize, usize, u16, u64, u16);

// A plan as the Rattle has it: what is given of its arrays, and counts that may claim anything.
#[derive(Clone)]
pub struct Case {
    pub scan_count: u64,
    pub slot_count: u64,
    pub select_count: u64,
    pub scans: Vec<Scan>,
    pub slots: Vec<(bool, u64)>,
    pub select: Vec<u16>,
}

pub type Verdict = Option<(u64, u64)>;

pub fn in_order(scan: &Scan) -> [usize; 2] {
    let (index, _, entity, _, value) = *scan;
    if index == 1 { [value as usize, entity as usize] } else { [entity as usize, value as usize] }
}

// 20.
pub fn counts_fault(case: &Case) -> Verdict {
    let over = case.slot_count > SLOTS as u64 || case.scan_count > SCANS as u64 || case.select_count > SELECTS as u64;
    if over { Some((20, 0)) } else { None }
}

// 01's table, plan check: 20, 13, then scan by scan (21; 22, then 23 or 24 for each slot), then 25; then 02's Ticket 9: select by select 26
// or 29.
pub fn check(case: &Case) -> Verdict {
    let counts = counts_fault(case);
    if counts.is_some() {
        return counts;
    }
    if case.select_count == 0 {
        return Some((13, 0));
    }
    let mut set: Vec<bool> = case.slots.iter().map(|s| s.0).collect();
    for (i, scan) in case.scans.iter().enumerate() {
        if scan.1 == 0 && scan.0 == 2 {
            return Some((21, i as u64));
        }
        let writes = [scan.1 == 0, scan.1 != 2];
        for (slot, &write) in in_order(scan).iter().zip(writes.iter()) {
            if *slot >= set.len() {
                return Some((22, i as u64));
            }
            if write && set[*slot] {
                return Some((23, i as u64));
            }
            if !write && !set[*slot] {
                return Some((24, i as u64));
            }
            set[*slot] = true;
        }
    }
    for (i, is_set) in set.iter().enumerate() {
        if !is_set {
            return Some((25, i as u64));
        }
    }
    for (i, slot) in case.select.iter().enumerate() {
        match case.slots.get(*slot as usize) {
            None => return Some((26, i as u64)),
            Some(&(true, _)) => return Some((29, i as u64)),
            Some(&(false, _)) => {}
        }
    }
    None
}

pub fn text(verdict: Verdict) -> String {
    match verdict {
        Some((number, place)) => format!("refused {} at {}", number, place),
        None => "fine".to_string(),
    }
}

// The plan as the Rattle reads it.
pub fn numbers(case: &Case) -> String {
    let mut out = vec![case.scan_count, case.slot_count, case.select_count];
    out.extend([case.scans.len() as u64, case.slots.len() as u64, case.select.len() as u64].iter());
    for s in &case.scans {
        out.extend([s.0 as u64, s.1 as u64, s.2 as u64, s.3, s.4 as u64].iter());
    }
    for s in &case.slots {
        out.extend([s.0 as u64, s.1].iter());
    }
    out.extend(case.select.iter().map(|s| *s as u64));
    out.iter().map(|n| n.to_string()).collect::<Vec<_>>().join(" ")
}

pub fn case(scans: Vec<Scan>, slots: Vec<(bool, u64)>, select: Vec<u16>) -> Case {
    Case {
        scan_count: scans.len() as u64,
        slot_count: slots.len() as u64,
        select_count: select.len() as u64,
        scans: scans,
        slots: slots,
        select: select,
    }
}

// 01's E with the given indexes.
pub fn e(first: usize, second: usize) -> Case {
    case(vec![(first, 0, 0, 5, 1), (second, 2, 1, 9, 2)], vec![(false, 0), (false, 0), (true, 7)], vec![1])
}

// n out-out aevt scans on one attribute, each on two slots of its own.
pub fn out_out(n: usize) -> Case {
    case((0..n as u16).map(|i| (0, 0, 2 * i, 5, 2 * i + 1)).collect(), vec![(false, 0); 2 * n], vec![0])
}

// A sound plan of a few scans: each slot is read once set and written once, and variables are selected.
pub fn sound(random: &mut Random) -> Case {
    sound_of(random, 5)
}

fn sound_of(random: &mut Random, most: u64) -> Case {
    let constants = 1 + random.below(2) as usize;
    let mut slots: Vec<(bool, u64)> = (0..constants).map(|_| (true, random.below(9))).collect();
    let mut scans = Vec::new();
    for _ in 0..random.below(most + 1) {
        if slots.len() + 2 > SLOTS {
            break;
        }
        let attribute = random.below(3);
        let read = |random: &mut Random, n: usize| random.below(n as u64) as u16;
        let n = slots.len();
        let (index, flow, first, second) = match random.below(3) {
            0 => {
                slots.extend([(false, 0); 2].iter());
                (random.below(2) as usize, 0, n as u16, n as u16 + 1)
            }
            1 => {
                slots.push((false, 0));
                (random.below(3) as usize, 1, read(random, n), n as u16)
            }
            _ => (random.below(3) as usize, 2, read(random, n), read(random, n)),
        };
        scans.push(if index == 1 { (index, flow, second, attribute, first) } else { (index, flow, first, attribute, second) });
    }
    if slots.len() == constants {
        scans.push((0, 0, constants as u16, 0, constants as u16 + 1));
        slots.extend([(false, 0); 2].iter());
    }
    let variables = (slots.len() - constants) as u64;
    let select = (0..1 + random.below(3)).map(|_| constants as u16 + random.below(variables) as u16).collect();
    case(scans, slots, select)
}

// One thing of it changed.
pub fn damaged(random: &mut Random) -> Case {
    let mut c = sound(random);
    let around = |most: usize| vec![most as u64 - 1, most as u64, most as u64 + 1];
    let claimed: Vec<u64> = [vec![0], around(SELECTS), around(SCANS), vec![SLOTS as u64, SLOTS as u64 + 1, u64::max_value()]].concat();
    match random.below(9) {
        0 => c.select_count = claimed[random.below(3) as usize],
        1 => c.slot_count = claimed[6 + random.below(4) as usize],
        2 => c.select_count = claimed[3 + random.below(7) as usize],
        3 if !c.slots.is_empty() => {
            let i = random.below(c.slots.len() as u64) as usize;
            c.slots[i].0 = !c.slots[i].0;
        }
        4 => {
            let i = random.below(c.select.len() as u64) as usize;
            // past the slots, or a constant's
            c.select[i] = [c.slots.len() as u16, 65535, 0][random.below(3) as usize];
        }
        5 => {
            c.slots.push((false, 0));
            c.slot_count += 1;
        }
        n if !c.scans.is_empty() => {
            let i = random.below(c.scans.len() as u64) as usize;
            match n {
                6 => c.scans[i].1 = random.below(3) as usize,
                7 => c.scans[i].0 = random.below(3) as usize,
                _ => c.scans[i].2 = [c.slots.len() as u16, 65535, 0][random.below(3) as usize],
            }
        }
        _ => c.select.clear(),
    }
    // What a claimed count leaves out or adds is then what the arrays hold: nothing, or zeros.
    for (claimed, most) in vec![(c.select_count, SELECTS), (c.slot_count, SLOTS)] {
        if claimed as usize <= most {
            if most == SELECTS {
                c.select.resize(claimed as usize, 0);
            } else {
                c.slots.resize(claimed as usize, (false, 0));
            }
        }
    }
    c.select_count = if c.select_count as usize <= SELECTS { c.select.len() as u64 } else { c.select_count };
    c
}

// A plan of small numbers, large ones among them, and of no sense.
fn wild(random: &mut Random) -> Case {
    let number = |random: &mut Random| [0, 1, 2, 3, 4, u64::max_value()][random.below(6) as usize];
    let slots: Vec<(bool, u64)> = (0..random.below(6)).map(|_| (random.below(2) == 0, number(random))).collect();
    let high = slots.len() as u64 + if random.below(4) == 0 { 1 } else { 0 };
    let slot = |random: &mut Random| if high == 0 || random.below(40) == 0 { 65535 } else { random.below(high) as u16 };
    let scans = (0..random.below(5))
        .map(|_| (random.below(3) as usize, random.below(3) as usize, slot(random), number(random), slot(random)))
        .collect();
    let select = (0..random.below(4)).map(|_| slot(random)).collect();
    let mut wild = case(scans, slots, select);
    if random.below(20) == 0 {
        wild.scan_count = [SCANS as u64 + 1, u64::max_value()][random.below(2) as usize];
    }
    wild
}

// A plan of any of these kinds, or a sound one of up to as many scans as there may be.
pub fn drawn(random: &mut Random) -> Case {
    match random.below(8) {
        0 | 1 | 2 => sound(random),
        3 | 4 => damaged(random),
        5 | 6 => wild(random),
        _ => sound_of(random, SCANS as u64),
    }
}
