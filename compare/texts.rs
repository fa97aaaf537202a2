// Makes cases for crates/replay_plans/src/texts.rt and the answers to them: the text of plans with their names, to buffers of several
// lengths, and names of selects and slots. The answers are read off document 01 and 02's Ticket 4 here, independently of the Rattle;
// wherever all names are UTF-8 the name is held to 001's own `get_select_name`, and the text, its attributes taken out and its escapes
// read back, to its `Debug` (compare/run says how it is built, with a stand-in for `datom`).
#[path = "../target/compare/plan.rs"]
mod plan;

mod capacity;
mod datom;
mod held;
mod plan_cases;
mod random;
mod rust_plan;

use capacity::{SELECTS, SLOTS};
use held::{drive, Pair, TEXTS};
use plan_cases::{case, check, damaged, e, in_order, numbers, sound, text, Case, Verdict};
use random::Random;
use rust_plan::rust_plan;

// A plan with its names, the select whose name is asked, and the buffers to try.
#[derive(Clone)]
struct Asked {
    case: Case,
    names: Vec<u8>,
    ends: Vec<u64>,
    select: u64,
    rooms: Vec<usize>,
}

// 30: name ends fall, pass the name bytes, or aren't one per slot.
fn check_names(asked: &Asked) -> Verdict {
    let fault = check(&asked.case);
    if fault.is_some() {
        return fault;
    }
    let falls = asked.ends.windows(2).any(|pair| pair[1] < pair[0]);
    let passes = asked.ends.iter().any(|end| *end > asked.names.len() as u64);
    if falls || passes || asked.ends.len() != asked.case.slots.len() {
        return Some((30, 0));
    }
    None
}

// 26: no such select. A selected constant is refused by the plan check.
fn check_select_name(asked: &Asked) -> Verdict {
    let fault = check_names(asked);
    if fault.is_some() {
        return fault;
    }
    if asked.select >= asked.case.select.len() as u64 {
        return Some((26, asked.select));
    }
    None
}

fn name(asked: &Asked, slot: usize) -> &[u8] {
    let start = if slot == 0 { 0 } else { asked.ends[slot - 1] as usize };
    &asked.names[start..asked.ends[slot] as usize]
}

// Within a name, a byte outside 33 to 126, a colon, a comma, a round bracket or a backslash is a backslash and two lowercase hex digits.
fn escaped(name: &[u8]) -> Vec<u8> {
    let mut out = Vec::new();
    for byte in name {
        if *byte < 33 || *byte > 126 || b":,()\\".contains(byte) {
            out.extend(format!("\\{:02x}", byte).into_bytes());
        } else {
            out.push(*byte);
        }
    }
    out
}

// A text as 001 prints it: no attributes, no escapes. No name has a space or a backslash of its own.
fn as_001(text: &[u8]) -> Vec<u8> {
    let mark = b" attribute ";
    let mut out = Vec::new();
    let mut rest = text;
    while let Some(first) = rest.first() {
        if rest.starts_with(mark) {
            rest = &rest[mark.len()..];
            let digits = rest.iter().take_while(|b| **b >= b'0' && **b <= b'9').count();
            rest = &rest[digits..];
        } else if *first == b'\\' {
            let digits = std::str::from_utf8(&rest[1..3]).unwrap();
            out.push(u8::from_str_radix(digits, 16).unwrap());
            rest = &rest[3..];
        } else {
            out.push(*first);
            rest = &rest[1..];
        }
    }
    out
}

// A slot: the name of a variable, a colon, the slot's number.
fn slot(asked: &Asked, number: usize) -> Vec<u8> {
    let mut out = Vec::new();
    if !asked.case.slots[number].0 {
        out.extend(escaped(name(asked, number)));
    }
    out.extend_from_slice(format!(":{}", number).as_bytes());
    out
}

// The text of 01's example, for any plan.
fn whole_text(asked: &Asked) -> Vec<u8> {
    let mut out = Vec::new();
    for (i, constant) in asked.case.slots.iter().enumerate().filter(|s| (s.1).0) {
        out.extend_from_slice(format!("let :{} = {}\n", i, constant.1).as_bytes());
    }
    for scan in &asked.case.scans {
        let index = format!("{} attribute {}", ["aevt", "avet", "eavt"][scan.0], scan.3);
        let labels = if scan.0 == 1 { ["value", "entity"] } else { ["entity", "value"] };
        let shown: Vec<Vec<u8>> = in_order(scan).iter().map(|k| slot(asked, *k)).collect();
        let parts: Vec<Vec<u8>> = match scan.1 {
            0 => vec![b"for ".to_vec(), shown[0].clone(), b", ".to_vec(), shown[1].clone(), format!(" in {}\n", index).into_bytes()],
            1 => vec![b"for ".to_vec(), shown[1].clone(), format!(" in {} ({}=", index, labels[0]).into_bytes(), shown[0].clone(), b")\n".to_vec()],
            _ => vec![
                format!("for _ in {} ({}=", index, labels[0]).into_bytes(),
                shown[0].clone(),
                format!(", {}=", labels[1]).into_bytes(),
                shown[1].clone(),
                b")\n".to_vec(),
            ],
        };
        out.extend(parts.concat());
    }
    out.extend_from_slice(b"yield ");
    let selects: Vec<Vec<u8>> = asked.case.select.iter().map(|k| slot(asked, *k as usize)).collect();
    out.extend(selects.join(&b", "[..]));
    out
}

// 001's own text and name, where every name is UTF-8.
fn agrees_with_001(asked: &Asked, whole: &[u8]) {
    let names: Result<Vec<String>, _> = (0..asked.case.slots.len()).map(|k| String::from_utf8(name(asked, k).to_vec())).collect();
    if let Ok(names) = names {
        let plan = rust_plan(&asked.case, &names);
        assert_eq!(format!("{:?}", plan).as_bytes(), &as_001(whole)[..], "001 and 01 part");
        if check_select_name(asked).is_none() {
            let slot = asked.case.select[asked.select as usize] as usize;
            assert_eq!(plan.get_select_name(asked.select as usize).as_bytes(), name(asked, slot), "001 and 01 part");
        }
    }
}

// Bytes as the program shows them.
fn shown(bytes: &[u8]) -> String {
    let mut out = String::from(" [");
    for b in bytes {
        match *b {
            10 | 32...126 => out.push(*b as char),
            _ => out.push_str(&format!("\\{};", b)),
        }
    }
    out + "]\n"
}

fn answer(asked: &Asked) -> String {
    let fault = check_select_name(asked);
    let part: &[u8] = if fault.is_some() { &[] } else { name(asked, asked.case.select[asked.select as usize] as usize) };
    let mut out = format!("name {}{}", text(fault), shown(part));
    for room in &asked.rooms {
        let mut fault = check_names(asked);
        let mut buffer = vec![126; *room];
        let mut length = 0;
        if fault.is_none() {
            let whole = whole_text(asked);
            agrees_with_001(asked, &whole);
            if whole.len() > *room {
                fault = Some((31, 0));
            } else {
                length = whole.len();
                buffer[..length].copy_from_slice(&whole);
            }
        }
        out += &format!("text {}, length {}{}", text(fault), length, shown(&buffer));
    }
    for slot in slots_asked(asked) {
        let is_constant = asked.case.slots.get(slot).map_or(false, |s| s.0 && (slot as u64) < asked.case.slot_count);
        let kind = if is_constant { "constant" } else { "variable" };
        out += &format!("slot {}, {}{}", text(check_names(asked)), kind, shown(&some_name(asked, slot)));
    }
    out
}

// The first slot, the last, and one that is none.
fn slots_asked(asked: &Asked) -> Vec<usize> {
    let n = asked.case.slots.len();
    if n == 0 { vec![0] } else { vec![0, n - 1, n] }
}

// The name of a slot, or, where ends are wrong, as much of it as there is.
fn some_name(asked: &Asked, slot: usize) -> Vec<u8> {
    let end_of = |k: usize| asked.ends.get(k).cloned().unwrap_or(0);
    let start = if slot == 0 { 0 } else { end_of(slot - 1) };
    let length = end_of(slot).saturating_sub(start);
    asked.names.iter().enumerate().filter(|&(i, _)| start <= i as u64 && (i as u64) - start < length).map(|(_, b)| *b).collect()
}

fn asked_numbers(asked: &Asked) -> String {
    let mut out = vec![asked.names.len() as u64];
    out.extend(asked.names.iter().map(|b| *b as u64));
    out.push(asked.ends.len() as u64);
    out.extend(asked.ends.iter());
    out.push(asked.select);
    out.push(asked.rooms.len() as u64);
    out.extend(asked.rooms.iter().map(|r| *r as u64));
    let slots = slots_asked(asked);
    out.push(slots.len() as u64);
    out.extend(slots.iter().map(|k| *k as u64));
    let shown: Vec<String> = out.iter().map(|n| n.to_string()).collect();
    format!("{} {}", numbers(&asked.case), shown.join(" "))
}

// A plan with a name for each slot, tried with the buffer that it just fits.
fn asked(case: Case, names: &[&[u8]]) -> Asked {
    let mut ends = Vec::new();
    let mut all = Vec::new();
    for name in names {
        all.extend_from_slice(name);
        ends.push(all.len() as u64);
    }
    let mut asked = Asked { case: case, names: all, ends: ends, select: 0, rooms: vec![] };
    asked.rooms = if check_names(&asked).is_none() { vec![whole_text(&asked).len()] } else { vec![40] };
    asked
}

// The example with one thing changed.
fn changed(f: &Fn(&mut Asked)) -> Asked {
    let mut asked = asked(e(0, 0), &[b"machine", b"valve", b"seven"]);
    f(&mut asked);
    asked
}

// A name of up to six bytes, of letters or of any bytes.
fn drawn_name(random: &mut Random) -> Vec<u8> {
    let any = random.below(4) == 0;
    (0..random.below(7)).map(|_| if any { random.below(256) as u8 } else { 97 + random.below(26) as u8 }).collect()
}

// A plan with drawn names, and now and then a wrong end.
fn named(random: &mut Random, case: Case) -> Asked {
    let names: Vec<Vec<u8>> = case.slots.iter().map(|_| drawn_name(random)).collect();
    let parts: Vec<&[u8]> = names.iter().map(|n| &n[..]).collect();
    let mut drawn = asked(case, &parts);
    drawn.select = random.below(3);
    match random.below(12) {
        0 if !drawn.ends.is_empty() => {
            let i = random.below(drawn.ends.len() as u64) as usize;
            drawn.ends[i] = [0, drawn.names.len() as u64, drawn.names.len() as u64 + 1, u64::max_value()][random.below(4) as usize];
        }
        1 => drawn.ends.push(drawn.names.len() as u64),
        2 => {
            drawn.ends.pop();
        }
        _ => {}
    }
    // A changed end gives another text.
    if check_names(&drawn).is_none() {
        let length = whole_text(&drawn).len();
        drawn.rooms = vec![length + random.below(3) as usize, length - 1];
    }
    drawn
}

fn cases() -> Vec<Asked> {
    // 01's example, and buffers of every length around the text's
    let mut all = vec![changed(&|a| {
        let length = whole_text(a).len();
        a.rooms = vec![0, 1, length - 3, length - 2, length - 1, length, length + 1, length + 2, length + 3];
    })];
    // every index and flow, with variables and with a constant; out-out over eavt is 21
    let names: [&[u8]; 4] = [b"machine", b"valve", b"", b"bay"];
    for index in 0..3 {
        for flow in 0..3 {
            let read = |constant: bool| {
                let (first, second) = match flow {
                    0 => (2, 3),
                    1 => (if constant { 4 } else { 1 }, 2),
                    _ => (if constant { 4 } else { 1 }, 0),
                };
                let scan = if index == 1 { (index, flow, second, 9, first) } else { (index, flow, first, 9, second) };
                let last = if flow == 0 { vec![(false, 0), (false, 0)] } else if flow == 1 { vec![(false, 0), (true, 1)] } else { vec![(true, 2), (true, 1)] };
                let slots = [vec![(false, 0), (false, 0)], last, vec![(true, 10)]].concat();
                asked(case(vec![(0, 0, 0, 5, 1), scan], slots, vec![0, 1, 0]), &[&names[..], &[b"ten"]].concat())
            };
            all.push(read(false));
            all.push(read(true));
        }
    }
    // names: none at all, long, of every byte, with marks of the text in them, of several bytes a letter, one not UTF-8
    let every: Vec<u8> = (0..256).map(|b| b as u8).collect();
    let names: [&[u8]; 7] = [b"", &[b'x'; 300], &every, b"\nlet :2 = 7", b", :1 in aevt (", "v\u{e9}hicule \u{1f697}".as_bytes(), &[0xc3]];
    for name in names.iter() {
        all.push(asked(e(1, 2), &[name, b"valve", b""]));
        all.push(asked(e(0, 1), &[b"machine", name, name]));
    }
    // constants of every number of digits
    let mut power: u64 = 1;
    let mut values = vec![0, u64::max_value()];
    for _ in 0..20 {
        values.extend([power - 1, power].iter());
        power = power.wrapping_mul(10);
    }
    let mut slots: Vec<(bool, u64)> = values.iter().map(|v| (true, *v)).collect();
    let n = slots.len() as u16;
    slots.extend([(false, 0); 2].iter());
    let none: Vec<&[u8]> = vec![b""; slots.len()];
    all.push(asked(case(vec![(0, 0, n, 5, n + 1)], slots, vec![n]), &none));
    // as many slots, scans and selects as fit
    let scans = (0..SLOTS / 2).map(|i| (i % 2, 0, 2 * i as u16, 7, 2 * i as u16 + 1)).collect();
    let full = asked(case(scans, vec![(false, 0); SLOTS], (0..SELECTS as u16).map(|i| 3 * i).collect()), &vec![&b"n"[..]; SLOTS]);
    all.push(Asked { select: SELECTS as u64 - 1, ..full.clone() });
    all.push(Asked { select: SELECTS as u64, rooms: vec![], ..full });
    // 30: one end too few, one too many, a fall, past the names; at a constant's end too
    let wrong: Vec<Vec<u64>> = vec![
        vec![7, 12], vec![7, 12, 17, 17], vec![], vec![12, 7, 17], vec![7, 12, 11], vec![7, 12, 18], vec![18, 18, 18],
        vec![u64::max_value(), 12, 17], vec![7, 12, u64::max_value()], vec![7, 7, 7], vec![0, 0, 17], vec![17, 17, 17],
    ];
    for ends in &wrong {
        all.push(changed(&|a| {
            a.ends = ends.clone();
            a.rooms = vec![110];
        }));
    }
    // the plan check comes before 30, 29 too, and 30 before 26 and 31
    all.push(changed(&|a| { a.case.scans[1].4 = 3; a.ends.pop(); a.select = 9 }));
    all.push(changed(&|a| { a.case.select_count = SELECTS as u64 + 1; a.ends.clear() }));
    all.push(changed(&|a| { a.ends.pop(); a.select = 9; a.rooms = vec![0, 5] }));
    all.push(changed(&|a| { a.ends.pop(); a.case.select[0] = 2 }));
    // 26 at the number asked for; 29 at the select, whichever name is asked for
    for select in vec![0, 1, 2, SELECTS as u64 - 1, SELECTS as u64, u64::max_value()] {
        all.push(changed(&|a| { a.select = select; a.rooms.clear() }));
        all.push(changed(&|a| { a.case.select = vec![2, 1]; a.case.select_count = 2; a.select = select; a.rooms = vec![110] }));
    }
    let mut random = Random(20260103);
    for _ in 0..160 {
        let case = if random.below(4) == 0 { damaged(&mut random) } else { sound(&mut random) };
        all.push(named(&mut random, case));
    }
    all
}

fn pair(asked: &Asked) -> Pair {
    (held::case(TEXTS, &asked_numbers(asked)), answer(asked))
}

fn main() {
    drive("texts", &|| cases().iter().map(pair).collect(), &|held, random, count| {
        for _ in 0..count {
            let case = plan_cases::drawn(random);
            held.add(pair(&named(random, case)));
        }
    });
}
