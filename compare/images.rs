// Makes cases for crates/replay_plans/src/images.rt and the answers to them: plans stored in lent buffers, shown whole, and images read.
// Both are read off 02's Ticket 2 here, bit by bit and independently of the Rattle; the Rust has no such thing. `old CASES ANSWERS` writes
// the images of compare/old_images, which stay as they are: whatever changes, they must be read as they were.
mod capacity;
mod held;
mod plan_cases;
mod random;

use capacity::{SCANS, SELECTS, SLOTS};
use held::{drive, Pair, IMAGES_READ, IMAGES_WRITTEN};
use plan_cases::{case, check, damaged, drawn, e, numbers, out_out, sound, text, Case, Verdict};
use random::Random;
use std::fs::write;

type Refused = (u64, u64);

// Fields, most significant bit first.
fn push(bits: &mut Vec<bool>, width: usize, value: u64) {
    for i in (0..width).rev() {
        bits.push(value >> i & 1 == 1);
    }
}

// The image of a plan, passed or not, as far as its fields hold it.
fn image(case: &Case) -> Vec<u8> {
    let mut bits = Vec::new();
    push(&mut bits, 6, case.scan_count);
    push(&mut bits, 7, case.slot_count);
    push(&mut bits, 6, case.select_count);
    for &(constant, value) in &case.slots {
        push(&mut bits, 1, constant as u64);
        if constant {
            push(&mut bits, 64, value);
        }
    }
    for &(index, flow, entity, attribute, value) in &case.scans {
        for &(width, field) in [(2, index as u64), (2, flow as u64), (7, entity as u64), (64, attribute), (7, value as u64)].iter() {
            push(&mut bits, width, field);
        }
    }
    for slot in &case.select {
        push(&mut bits, 7, *slot as u64);
    }
    while bits.len() % 8 != 0 {
        bits.push(false);
    }
    bits.chunks(8).map(|byte| byte.iter().fold(0, |sum, bit| 2 * sum + *bit as u8)).collect()
}

// The plan check, then 64 if the buffer is short.
fn written_to(case: &Case, room: usize) -> Result<Vec<u8>, Refused> {
    match check(case) {
        Some(fault) => Err(fault),
        None if image(case).len() > room => Err((64, 0)),
        None => Ok(image(case)),
    }
}

// The bits of an image, and how many of them are read.
struct Bits<'a> {
    bytes: &'a [u8],
    at: usize,
}

impl<'a> Bits<'a> {
    fn next(&mut self) -> u64 {
        let bit = self.bytes[self.at / 8] >> (7 - self.at % 8) & 1;
        self.at += 1;
        bit as u64
    }

    // 60: bits run out; the place is the byte where the field begins.
    fn field(&mut self, width: usize) -> Result<u64, Refused> {
        if self.bytes.len() * 8 < self.at + width {
            return Err((60, self.at as u64 / 8));
        }
        Ok((0..width).fold(0, |sum, _| sum * 2 + self.next()))
    }

    // 61: a code 3.
    fn code(&mut self) -> Result<usize, Refused> {
        let begins = self.at as u64 / 8;
        let code = try!(self.field(2));
        if code == 3 { Err((61, begins)) } else { Ok(code as usize) }
    }

    // 62: a nonzero pad bit; 63: a byte too many.
    fn end(&mut self) -> Result<(), Refused> {
        let last = self.at as u64 / 8;
        while self.at % 8 != 0 {
            if self.next() == 1 {
                return Err((62, last));
            }
        }
        if self.at < self.bytes.len() * 8 { Err((63, self.at as u64 / 8)) } else { Ok(()) }
    }
}

// The counts, 20 right after them, slots, scans, selects, the end; then the plan check.
fn read(bytes: &[u8]) -> Result<Case, Refused> {
    let mut bits = Bits { bytes: bytes, at: 0 };
    let scans = try!(bits.field(6));
    let slots = try!(bits.field(7));
    let selects = try!(bits.field(6));
    if scans > SCANS as u64 || slots > SLOTS as u64 || selects > SELECTS as u64 {
        return Err((20, 0));
    }
    let mut plan = case(vec![], vec![], vec![]);
    plan.scan_count = scans;
    plan.slot_count = slots;
    plan.select_count = selects;
    for _ in 0..slots {
        let constant = try!(bits.field(1)) == 1;
        let value = if constant { try!(bits.field(64)) } else { 0 };
        plan.slots.push((constant, value));
    }
    for _ in 0..scans {
        let index = try!(bits.code());
        let flow = try!(bits.code());
        let entity = try!(bits.field(7));
        let attribute = try!(bits.field(64));
        let value = try!(bits.field(7));
        plan.scans.push((index, flow, entity as u16, attribute, value as u16));
    }
    for _ in 0..selects {
        plan.select.push(try!(bits.field(7)) as u16);
    }
    try!(bits.end());
    match check(&plan) {
        Some(fault) => Err(fault),
        None => Ok(plan),
    }
}

// A plan as the program shows it.
fn plan_line(case: &Case) -> String {
    let mut out: Vec<String> = Vec::new();
    out.extend(case.scans.iter().map(|s| format!("scan {} {} {} {} {}", s.0, s.1, s.2, s.3, s.4)));
    out.extend(case.slots.iter().map(|s| if s.0 { format!("constant {}", s.1) } else { "variable".to_string() }));
    out.extend(case.select.iter().map(|k| format!("select {}", k)));
    out.join(", ")
}

fn joined<N: ToString>(numbers: &[N]) -> String {
    numbers.iter().map(|n| format!(" {}", n.to_string())).collect()
}

fn fault<T>(answer: &Result<T, Refused>) -> Verdict {
    match *answer {
        Ok(_) => None,
        Err(fault) => Some(fault),
    }
}

// A plan stored in buffers of these lengths, which begin as bytes of 126.
fn stored(case: &Case, rooms: &[usize]) -> Pair {
    let mut out = String::new();
    for room in rooms {
        let answer = written_to(case, *room);
        let mut buffer = vec![126; *room];
        let mut length = 0;
        if let Ok(ref bytes) = answer {
            length = bytes.len();
            buffer[..length].copy_from_slice(bytes);
            // What is read again is the plan.
            assert_eq!(read(bytes).map(|plan| plan_line(&plan)), Ok(plan_line(case)));
        }
        out += &format!("image {}, length {},{}\n", text(fault(&answer)), length, joined(&buffer));
    }
    (held::case(IMAGES_WRITTEN, &format!("{} {}{}", numbers(case), rooms.len(), joined(rooms))), out)
}

// An image read.
fn restored(bytes: &[u8]) -> Pair {
    let answer = read(bytes);
    let shown = match answer {
        Ok(ref plan) => {
            // It has one spelling.
            assert_eq!(image(plan), bytes);
            plan_line(plan)
        }
        Err(_) => String::new(),
    };
    (held::case(IMAGES_READ, &format!("{}{}", bytes.len(), joined(bytes))), format!("read {}: {}\n", text(fault(&answer)), shown))
}

fn flipped(bytes: &[u8], bit: usize) -> Vec<u8> {
    let mut changed = bytes.to_vec();
    changed[bit / 8] ^= 128 >> bit % 8;
    changed
}

// A plan of this many scans, each with a constant and a variable of its own, and of this many selects.
fn of_size(scans: usize, selects: usize) -> Case {
    let slots = (0..2 * scans).map(|k| if k % 2 == 0 { (true, u64::max_value() - k as u64) } else { (false, 0) }).collect();
    let scan = |i: usize| if i % 3 == 1 { (1, 1, 2 * i as u16 + 1, i as u64, 2 * i as u16) } else { (i % 3, 1, 2 * i as u16, u64::max_value() - i as u64, 2 * i as u16 + 1) };
    case((0..scans).map(scan).collect(), slots, (0..selects).map(|i| 2 * (i % scans) as u16 + 1).collect())
}

// Good images of every number of scans, selects and slots; of one every beginning, every bit flipped, and a byte more; every code 3; every
// pad bit. No count of theirs lies between what fits here and what may fit some day.
fn old() -> Vec<Pair> {
    let mut all: Vec<Vec<u8>> = Vec::new();
    for scans in 1..49 {
        all.push(image(&of_size(scans, 1 + scans % 32)));
    }
    for selects in 1..33 {
        all.push(image(&of_size(2, selects)));
    }
    for n in 1..49 {
        all.push(image(&out_out(n)));
    }
    for &(first, second) in [(0, 0), (1, 0), (0, 1), (1, 1), (0, 2), (1, 2)].iter() {
        all.push(image(&e(first, second)));
    }
    let one = image(&e(0, 0));
    for length in 0..one.len() {
        all.push(one[..length].to_vec());
    }
    for bit in 0..8 * one.len() {
        all.push(flipped(&one, bit));
    }
    for more in vec![0, 1, 128, 255] {
        all.push([&one[..], &[more]].concat());
        all.push([&one[..], &[0, more]].concat());
    }
    // a code 3: of the index and of the flow, in the first scan and in the last, with all behind it cut off too
    for &scan in [0, 1].iter() {
        for code in vec![0, 1] {
            let mut plan = e(0, 0);
            if code == 0 { plan.scans[scan].0 = 3 } else { plan.scans[scan].1 = 3 }
            let bytes = image(&plan);
            let cut = (19 + 67 + 82 * scan + 2 * code + 2 + 7) / 8;
            all.push(bytes[..cut].to_vec());
            all.push(bytes);
        }
    }
    // images whose pad has 0 to 7 bits, each of these set
    for selects in 1..9 {
        let bytes = image(&of_size(1, selects));
        let used = 19 + 65 + 1 + 82 + 7 * selects;
        for bit in used..8 * bytes.len() {
            all.push(flipped(&bytes, bit));
        }
        all.push(bytes);
    }
    all.iter().map(|bytes| restored(bytes)).collect()
}

// An image with something changed, or bytes of no sense.
fn spoilt(random: &mut Random, plan: &Case) -> Vec<u8> {
    let mut bytes = image(plan);
    let any = |random: &mut Random, n: usize| random.below(n as u64) as usize;
    match random.below(6) {
        0 => bytes,
        1 => {
            let length = any(random, bytes.len() + 1);
            bytes.truncate(length);
            bytes
        }
        2 => {
            for _ in 0..1 + random.below(3) {
                bytes.push([0, random.below(256) as u8][any(random, 2)]);
            }
            bytes
        }
        3 => {
            let length = any(random, 60);
            (0..length).map(|_| random.below(256) as u8).collect()
        }
        _ => {
            for _ in 0..1 + random.below(2) {
                let bit = any(random, 8 * bytes.len());
                bytes = flipped(&bytes, bit);
            }
            bytes
        }
    }
}

// A plan that an image can hold, so that its fields can be read: counts as they are, slot numbers of seven bits.
fn narrowed(mut plan: Case) -> Case {
    plan.scans.truncate(63);
    plan.slots.truncate(127);
    plan.select.truncate(63);
    case(plan.scans, plan.slots, plan.select)
}

fn around(case: &Case) -> Vec<usize> {
    let length = image(case).len();
    vec![0, 1, length - 1, length, length + 1, length + 9]
}

fn cases() -> Vec<Pair> {
    let mut all = Vec::new();
    // E, the smallest plans, those that fill the arrays, values of 0 and of 64 ones
    let mut plans = vec![e(0, 0), e(1, 2), out_out(1), out_out(SCANS), of_size(SCANS, SELECTS), of_size(1, 1)];
    plans.extend((1..9).map(|selects| of_size(1, selects)));
    for plan in &plans {
        all.push(stored(plan, &around(plan)));
        all.push(restored(&image(plan)));
    }
    // as many constants as there are slots but one scan's
    let mut constants: Vec<(bool, u64)> = (0..SLOTS as u64 - 2).map(|k| (true, k << 57)).collect();
    constants.extend([(false, 0); 2].iter());
    let most = case(vec![(0, 0, SLOTS as u16 - 2, 0, SLOTS as u16 - 1)], constants, vec![SLOTS as u16 - 1; SELECTS]);
    all.push(stored(&most, &around(&most)));
    all.push(restored(&image(&most)));
    // what the plan check refuses is not written, nor read; its refusal comes before 64, and after 62 and 63
    let change = |f: &Fn(&mut Case)| {
        let mut c = e(0, 0);
        f(&mut c);
        c
    };
    let refused = vec![
        change(&|c| { c.select.clear(); c.select_count = 0 }),
        change(&|c| c.scans[0].0 = 2),
        change(&|c| c.scans[1].4 = 3),
        change(&|c| c.scans[1].2 = 127),
        change(&|c| c.scans[1].1 = 0),
        change(&|c| c.scans[0].1 = 2),
        change(&|c| { c.slots.push((false, 0)); c.slot_count = 4 }),
        change(&|c| c.select[0] = 3),
        change(&|c| c.select[0] = 127),
        change(&|c| c.select[0] = 2),
    ];
    for plan in &refused {
        let bytes = image(plan);
        all.push(stored(plan, &[0, 3, bytes.len()]));
        all.push(restored(&[&bytes[..], &[0]].concat()));
        all.push(restored(&bytes[..bytes.len() - 1]));
        all.push(restored(&bytes));
    }
    // 20 at each count, right after them: with all behind it and with nothing; at the largest that a field holds too. A count that fits is
    // none of these, and one that the field does not hold cannot be read
    let most = [SCANS as u64, SLOTS as u64, SELECTS as u64];
    let held = [63, 127, 63];
    for (count, over) in vec![(0, most[0] + 1), (1, most[1] + 1), (2, most[2] + 1), (0, held[0]), (1, held[1]), (2, held[2])] {
        if over <= most[count] {
            continue;
        }
        let plan = change(&|c| *[&mut c.scan_count, &mut c.slot_count, &mut c.select_count][count] = over);
        if over <= held[count] {
            let bytes = image(&plan);
            all.push(restored(&bytes));
            for length in 0..4 {
                all.push(restored(&bytes[..length]));
            }
        }
        all.push(stored(&plan, &[40]));
    }
    // 20 for a count that no field holds
    for count in 0..3 {
        all.push(stored(&change(&|c| *[&mut c.scan_count, &mut c.slot_count, &mut c.select_count][count] = 128), &[40]));
    }
    let mut source = Random(20260301);
    for _ in 0..60 {
        let plan = sound(&mut source);
        all.push(stored(&plan, &around(&plan)));
        let bytes = spoilt(&mut source, &plan);
        all.push(restored(&bytes));
        let plan = narrowed(damaged(&mut source));
        all.push(restored(&image(&plan)));
    }
    all
}

fn main() {
    let args: Vec<String> = ::std::env::args().collect();
    if args[1] == "old" {
        let pairs = old();
        write(&args[2], pairs.iter().map(|pair| &pair.0[..]).collect::<String>()).unwrap();
        write(&args[3], pairs.iter().map(|pair| &pair.1[..]).collect::<String>()).unwrap();
        return;
    }
    drive("images", &cases, &|held, random, count| {
        for _ in 0..count {
            let plan = drawn(random);
            let rooms = around(&plan);
            let room = rooms[random.below(rooms.len() as u64) as usize];
            held.add(stored(&plan, &[room]));
            let bytes = spoilt(random, &narrowed(plan));
            held.add(restored(&bytes));
        }
    });
}
