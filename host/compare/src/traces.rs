//! Traces, the port against the rules. Transfers that write one: every answer, the whole room and the trace's length after each turn. Then what
//! is said of traces, with its offset: of those, of the beginnings that a host may leave, and of what they become when bytes and fields are
//! changed, cut, doubled, exchanged and put in. Then every two of them compared: the count, the answer and the whole list, in rooms of
//! every length around what it needs.
use crate::case::{Body, Kind, Rng};
use crate::entries::Entries;
use crate::plain::Plain;
use crate::port::Port;
use crate::random::STATUSES;
use crate::text::hex;
use rules::differences::{Difference, ENTRY, applied};
use rules::entries::{Asked, GOING, RESULT_SIZE};
use rules::ring::Mode;
use rules::sound::{Call, Params};
use rules::trace::{Field, bytes, judge_of, room_for, scan};
use rules::wire::{self, STATUS_OK, u64_at};
use rules::{MESSAGE, PAGE};
use std::collections::BTreeMap;

const FILL: u8 = 0x6d;
/// Changes of each trace that was written.
const CHANGES: usize = 5;
/// The modes: how many descriptors a submission takes.
const MODES: [u32; 2] = [3, 1];

/// What was tried: traced transfers and their turns, how each ended, and what was said of how many traces.
#[derive(Clone, Debug, Default)]
pub struct Tally {
    pub transfers: u64,
    pub turns: u64,
    pub ends: BTreeMap<u64, u64>,
    pub judged: BTreeMap<u64, u64>,
    pub compared: BTreeMap<u64, u64>,
}

impl Tally {
    /// Every end of a transfer that ran a turn, every refusal of a start or a turn, and everything that is said of a trace.
    pub fn missing(&self) -> Vec<String> {
        let ends = [0, 2, 6, 9, 10].into_iter().filter(|n| !self.ends.contains_key(n)).map(|n| format!("end {n}"));
        let judged = [0, 1, 18, 19].into_iter().filter(|n| !self.judged.contains_key(n)).map(|n| format!("judged {n}"));
        let compared =
            [0, 18, 20].into_iter().filter(|n| !self.compared.contains_key(n)).map(|n| format!("compared {n}"));
        ends.chain(judged).chain(compared).collect()
    }
}

/// A driver that is set up, with a ring of a mode; its only stream has this period.
fn ready<E: Entries>(period: u32, indirect: bool) -> E {
    let mut e = E::fresh();
    let (mut message, mut result) = ([0; MESSAGE], [0; RESULT_SIZE]);
    assert_eq!((e.make([0, 1, 0], false), e.ring_new(indirect)), (0, 0));
    let page = [&STATUS_OK.to_le_bytes()[..], &Body::of(Kind::Zero, 0).bytes()].concat();
    assert_eq!(page.len(), PAGE);
    let params = Params { buffer: period, period, features: 0, channels: 1, format: 4, rate: 1 };
    let mut said = e.call(Call::SetParams { stream: 0, params }, &mut message, &mut result);
    while said != 0 {
        said = e.feed(&page, &mut message, &mut result);
    }
    e
}

/// The two drivers, and the room that each writes.
struct Both {
    port: (Port, Vec<u8>),
    rules: (Plain, Vec<u8>),
}

/// How long the trace is, and how much was accepted.
fn told<E: Entries>(e: &E) -> [(u64, u64); 2] {
    [Asked::TraceLength, Asked::Accepted].map(|asked| {
        let mut result = [0; RESULT_SIZE];
        (e.ring_read(asked, &mut result), u64_at(&result, 0))
    })
}

impl Both {
    fn new(period: u32, room: usize, indirect: bool) -> Self {
        Both { port: (ready(period, indirect), vec![FILL; room]), rules: (ready(period, indirect), vec![FILL; room]) }
    }

    /// The same answer, room, length and number of good completions after an entry that both made.
    fn agree(&self, what: &str, port: u64, rules: u64) -> Result<u64, String> {
        let reads = (told(&self.port.0), told(&self.rules.0));
        if port != rules || reads.0 != reads.1 || self.port.1 != self.rules.1 {
            let shown = |room: &[u8], [length, accepted]: [(u64, u64); 2]| {
                let end = room.iter().rposition(|byte| *byte != FILL).map_or(0, |at| at + 1);
                format!("trace of {length:?} bytes, accepted {accepted:?}, room {}", hex(&room[..end]))
            };
            return Err(format!(
                "{what}\n  port  {port:#x} {}\n  rules {rules:#x} {}",
                shown(&self.port.1, reads.0),
                shown(&self.rules.1, reads.1)
            ));
        }
        Ok(rules)
    }

    fn start(&mut self, stream: u32, frames: &[u8], budget: u64) -> Result<u64, String> {
        let mut message = [0; MESSAGE];
        let port = self.port.0.xfer_start_traced(stream, frames, budget, &self.port.1, &mut message);
        let rules = self.rules.0.xfer_start_traced(stream, frames, budget, &self.rules.1, &mut message);
        let what = format!("traced start of {} bytes, budget {budget}, room of {}", frames.len(), self.rules.1.len());
        self.agree(&what, port, rules)
    }

    fn turn(&mut self, frames: &[u8], read: (u32, u32, u32)) -> Result<u64, String> {
        let (kind, slot, status) = read;
        let port = self.port.0.turn_traced(frames, &mut self.port.1, kind, slot, status);
        let rules = self.rules.0.turn_traced(frames, &mut self.rules.1, kind, slot, status);
        self.agree(&format!("traced turn {read:x?}"), port, rules)
    }

    /// A turn that lends another room, or none: it is refused, and writes nothing.
    fn refused(&mut self, frames: &[u8], rng: &mut Rng) -> Result<u64, String> {
        let long = self.rules.1.len();
        let other = rng.pick(&[0, 1, long - 1, long + 1, 2 * long]);
        let mut rooms = [vec![FILL; other], vec![FILL; other]];
        let [ours, theirs] = &mut rooms;
        let port = self.port.0.turn_traced(frames, ours, 0, 0, 0);
        let rules = self.rules.0.turn_traced(frames, theirs, 0, 0, 0);
        if rooms.iter().flatten().any(|byte| *byte != FILL) {
            return Err("a refused turn wrote into another room".into());
        }
        self.agree("traced turn with another room", port, rules)?;
        let (port, rules) = (self.port.0.turn(frames, 0, 0, 0), self.rules.0.turn(frames, 0, 0, 0));
        self.agree("turn with no room", port, rules)
    }
}

/// What the next turn is told: quiet, right, a bad status or a wrong slot.
fn read(rng: &mut Rng, profile: u64, oldest: u64) -> (u32, u32, u32) {
    let quiet = [0, 3, 7][profile as usize % 3];
    let status = if rng.one_in(20) { rng.pick(&STATUSES) } else { STATUS_OK };
    let slot = if rng.one_in(30) { rng.pick(&[oldest as u32 + 1, 31, 32, u32::MAX]) } else { oldest as u32 };
    if rng.below(8) < quiet { (0, 9, 9) } else { (rng.pick(&[1, 1, 2, u32::MAX]), slot, status) }
}

/// A transfer that writes a trace; mostly to its end. What it wrote.
fn written(rng: &mut Rng, tally: &mut Tally) -> Result<Vec<u8>, String> {
    let period = rng.pick(&[1u32, 1, 2, 3, 4, 5, 300]);
    let periods = rng.pick(&[0u32, 1, 1, 2, 2, 3, 4, 9, 10, 11, 12, 33, 40]);
    let frames = vec![0; (periods * period).saturating_sub(rng.below(u64::from(period)) as u32) as usize];
    let need = room_for(frames.len() as u64, period.into()) as usize;
    let room = match rng.below(12) {
        0 => need - 1,
        1 => rng.below(need as u64) as usize,
        2..=6 => need + rng.below(40) as usize,
        _ => need,
    };
    let budget = rng.pick(&[0, 1, 2, 5, 20, 200, 200, u64::MAX]);
    let indirect = rng.one_in(2);
    let (mut both, stream) = (Both::new(period, room, indirect), if rng.one_in(30) { 1 } else { 0 });
    tally.transfers += 1;
    let mut said = both.start(stream, &frames, budget)?;
    let (profile, stops) = (rng.below(3), rng.one_in(12));
    while said == GOING && !(stops && rng.one_in(9)) {
        if rng.one_in(20) {
            let said = both.refused(&frames, rng)?;
            *tally.ends.entry(said as u32 as u64).or_default() += 1;
        }
        let oldest = both.rules.0.ring.tail;
        said = both.turn(&frames, read(rng, profile, oldest))?;
        tally.turns += 1;
        // no script is longer: the rest is told at once
        if both.rules.0.ring.turns > 400 {
            break;
        }
    }
    *tally.ends.entry(said as u32 as u64).or_default() += 1;
    drained(&mut both)?;
    let trace = both.rules.1[..both.rules.0.ring.traced as usize].to_vec();
    let mode = if indirect { Mode::Indirect } else { Mode::Direct };
    if trace.len() > 15 && said != GOING && judge_of(mode, &trace).is_err() {
        return Err(format!("the rules refuse what they wrote, {mode:?}: {}", hex(&trace)));
    }
    Ok(trace)
}

/// Drain turns write nothing, and leave the length.
fn drained(both: &mut Both) -> Result<(), String> {
    while !both.rules.0.ring.running && both.rules.0.ring.in_flight > 0 {
        let slot = both.rules.0.ring.tail as u32;
        let (port, rules) = (both.port.0.drain_turn(1, slot, 0), both.rules.0.drain_turn(1, slot, 0));
        both.agree("drain turn after a traced transfer", port, rules)?;
    }
    Ok(())
}

/// What is said of a trace, by both.
pub fn judged(mode: u32, trace: &[u8], tally: &mut Tally) -> Result<(), String> {
    let (port, rules) = (Port::trace_scan(trace), Plain::trace_scan(trace));
    if port != rules {
        return Err(format!("scan of {}\n  port  {port:?}\n  rules {rules:?}", hex(trace)));
    }
    let (port, rules) = (Port::judge(mode, trace), Plain::judge(mode, trace));
    if port != rules {
        return Err(format!("judge in mode {mode} of {}\n  port  {port:?}\n  rules {rules:?}", hex(trace)));
    }
    *tally.judged.entry(rules.0).or_default() += 1;
    Ok(())
}

fn in_each_mode(trace: &[u8], tally: &mut Tally) -> Result<(), String> {
    MODES.into_iter().try_for_each(|mode| judged(mode, trace, tally))
}

/// Two traces compared by both, in a room of this length. What is said, and the list where there is one.
fn compared(first: &[u8], second: &[u8], room: usize, tally: &mut Tally) -> Result<(), String> {
    let (mut ours, mut theirs) = (vec![FILL; room], vec![FILL; room]);
    let port = (Port::differences(first, second), Port::compare(first, second, &mut ours));
    let rules = (Plain::differences(first, second), Plain::compare(first, second, &mut theirs));
    if port != rules || ours != theirs {
        let told = |said: (u64, u64), list: &[u8]| format!("{} differences, {}, list {}", said.0, said.1, hex(list));
        let (first, second) = (hex(first), hex(second));
        let (port, rules) = (told(port, &ours), told(rules, &theirs));
        return Err(format!("{first}\nand {second}\n  port  {port}\n  rules {rules}"));
    }
    *tally.compared.entry(rules.1).or_default() += 1;
    if rules.1 == 0 { gives(first, second, &ours[..rules.0 as usize * ENTRY]) } else { Ok(()) }
}

/// "Applying the list to the first gives the second", by the port's own list.
fn gives(first: &[u8], second: &[u8], list: &[u8]) -> Result<(), String> {
    let list: Option<Vec<Difference>> = list.chunks(ENTRY).map(Difference::read).collect();
    let fields = scan(first).map_err(|fault| format!("{fault:?} of a trace that was compared"))?;
    match list {
        Some(list) if bytes(&applied(&list, &fields)) == second => Ok(()),
        list => Err(format!("{list:?}\n  applied to {}\n  does not give {}", hex(first), hex(second))),
    }
}

/// Both ways, with room for all, for one fewer, for some, and for none.
fn every_room(first: &[u8], second: &[u8], tally: &mut Tally) -> Result<(), String> {
    let need = Plain::differences(first, second) as usize * ENTRY;
    for room in [need, need + 1, need + 40, need.saturating_sub(1), need.saturating_sub(ENTRY), need / 2, 0] {
        compared(first, second, room, tally)?;
        compared(second, first, room, tally)?;
    }
    Ok(())
}

fn field(rng: &mut Rng) -> Field {
    let slot = rng.below(4) as u8;
    let number = |rng: &mut Rng| rng.pick(&[0, 0, 1, 2, 3, 4, 8, 12, 300, u32::MAX]);
    match rng.below(8) {
        0 => Field::Start { stream: number(rng), length: number(rng), period: number(rng) },
        1 | 2 => Field::Submitted { slot, offset: number(rng), length: number(rng) },
        3 | 4 => Field::Completed { slot, status: if rng.one_in(3) { rng.pick(&STATUSES) } else { STATUS_OK } },
        _ => Field::End { answer: rng.pick(&[0, 0, 2, 2, 6, 6, 9, 9, 1, 3, 255]) },
    }
}

/// The same with one of its fields changed, doubled, exchanged, taken away or put in.
fn other_fields(rng: &mut Rng, mut fields: Vec<Field>) -> Vec<Field> {
    let at = rng.below(fields.len() as u64) as usize;
    let other = rng.below(fields.len() as u64) as usize;
    match rng.below(6) {
        0 => fields.insert(at, fields[at]),
        1 => _ = fields.remove(at),
        2 => fields.swap(at, other),
        3 => fields.insert(at, field(rng)),
        4 => fields[at] = field(rng),
        _ => fields.truncate(at + 1),
    }
    fields
}

/// A trace that is changed somewhere.
pub fn changed(rng: &mut Rng, trace: &[u8]) -> Vec<u8> {
    let (mut other, long) = (trace.to_vec(), trace.len() as u64);
    match rng.below(8) {
        _ if trace.is_empty() => other = bytes(&[field(rng), field(rng)]),
        0 => other.truncate(rng.below(long) as usize),
        1 | 2 => {
            let at = rng.below(long) as usize;
            other[at] = rng.pick(&[other[at] ^ 1, other[at].wrapping_add(1), 0, 1, 2, 3, 255]);
        }
        3 => {
            let at = rng.below(long) as usize;
            other[at] ^= 1 << rng.below(8);
        }
        4 if rng.one_in(3) => other.extend((0..1 + rng.below(5)).map(|at| at as u8)),
        _ => {
            if let Ok(fields) = scan(trace) {
                other = bytes(&other_fields(rng, fields));
            }
        }
    }
    other
}

/// One transfer and what comes of its trace.
pub fn tried(seed: u64, tally: &mut Tally) -> Result<(), String> {
    let mut rng = Rng(seed.wrapping_mul(0x8cb9_2ba7_2f3d_8dd7));
    let trace = written(&mut rng, tally)?;
    in_each_mode(&trace, tally)?;
    let mut other = trace.clone();
    for _ in 0..CHANGES {
        // mostly one change, now and then on top of another
        let from = if rng.one_in(3) { other } else { trace.clone() };
        other = changed(&mut rng, &from);
        in_each_mode(&other, tally)?;
        if rng.one_in(50) {
            judged(rng.pick(&[0, 2, 4, 255, 257, 259, u32::MAX]), &other, tally)?;
        }
        every_room(&trace, &other, tally)?;
    }
    Ok(())
}

/// Every byte of some traces with every value, every cut of them; and long ones: a megabyte, and frames of 2^32 - 1 bytes.
pub fn each_byte() -> Result<u64, String> {
    let good = |slot| Field::Completed { slot, status: STATUS_OK };
    let sent = |slot, offset, length| Field::Submitted { slot, offset, length };
    let of = |length| Field::Start { stream: 1, length, period: 4 };
    let traces = [
        vec![of(0), Field::End { answer: 0 }],
        vec![of(6), sent(0, 0, 4), good(0), sent(1, 4, 2), good(1), Field::End { answer: 0 }],
        vec![of(6), sent(0, 0, 4), sent(1, 4, 2), good(0), Field::End { answer: 6 }],
        vec![of(9), sent(0, 0, 4), Field::Completed { slot: 0, status: 0x8003 }, Field::End { answer: 2 }],
    ];
    let mut tally = Tally::default();
    for trace in traces.map(|fields| bytes(&fields)) {
        for at in 0..trace.len() {
            in_each_mode(&trace[..at], &mut tally)?;
            every_room(&trace, &trace[..at], &mut tally)?;
            for byte in 0..=255 {
                let mut other = trace.clone();
                other[at] = byte;
                in_each_mode(&other, &mut tally)?;
                compared(&trace, &other, 4 * ENTRY, &mut tally)?;
            }
        }
    }
    long(&mut tally)?;
    Ok(tally.judged.values().chain(tally.compared.values()).sum())
}

fn long(tally: &mut Tally) -> Result<(), String> {
    const PERIODS: u32 = 50_000;
    for (length, period) in [(PERIODS, 1), (u32::MAX, 1), (u32::MAX, 80_000)] {
        let mut fields = vec![Field::Start { stream: 0, length, period }];
        for at in 0..PERIODS.min(length.div_ceil(period)) {
            let slot = (at % 32) as u8;
            let offset = at * period;
            fields.push(Field::Submitted { slot, offset, length: period.min(length - offset) });
            fields.push(Field::Completed { slot, status: STATUS_OK });
        }
        for answer in [0, 9, 6] {
            let mut all = fields.clone();
            all.push(Field::End { answer });
            in_each_mode(&bytes(&all), tally)?;
        }
        let last = wire::words(&[1, 2]);
        in_each_mode(&[bytes(&fields), last].concat(), tally)?;
        let end = Field::End { answer: 6 };
        every_room(&bytes(&fields), &bytes(&[&fields[..], &[end]].concat()), tally)?;
        // one field fewer at the front: all others are compared with another
        every_room(&bytes(&fields[..2000.min(fields.len())]), &bytes(&fields[1..2000.min(fields.len())]), tally)?;
    }
    Ok(())
}
