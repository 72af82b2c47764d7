//! Control exchanges: set-up, every call, feeds, the start of a transfer.

use crate::life::{self, Life};
use crate::pending::Pending;
use crate::ring::{Ring, Turn, Way};
use crate::status::{Status, Verdict};
use crate::wire::{self, u32_at, u64_at};
use crate::*;
use std::collections::BTreeMap;

/// The values set for a stream.
#[derive(Copy, Clone, Debug, PartialEq, Eq)]
pub struct Params {
    pub buffer: u32,
    pub period: u32,
    pub features: u32,
    pub channels: u8,
    pub format: u8,
    pub rate: u8,
}

#[derive(Copy, Clone, Debug, PartialEq, Eq)]
pub enum Call {
    Remap {
        jack: u32,
        association: u32,
        sequence: u32,
    },
    SetParams {
        stream: u32,
        params: Params,
    },
    /// one of the four commands, by its code
    Command {
        code: u32,
        stream: u32,
    },
    OutputStreams,
    InputStreams,
    Rates(u32),
    Formats(u32),
    ChannelRange(u32),
    Features(u32),
    /// a transfer that had to begin set-up
    Transfer(u32),
    /// a capture that had to
    Capture(u32),
}

#[derive(Copy, Clone, Debug, PartialEq, Eq)]
pub enum Awaits {
    /// the query of jacks 0, streams 1 or maps 2
    Table(usize),
    /// the call's own request
    Own,
}

#[derive(Clone, Debug, PartialEq, Eq)]
pub enum Value {
    Nothing,
    Streams(Vec<u32>),
    Bits(u64),
    Range(u8, u8),
    /// of a submission that does not wait
    Token(usize),
}

/// What a call or a feed yields.
#[derive(Clone, Debug, PartialEq, Eq)]
pub enum Say {
    /// so many bytes of the message are to be sent
    Send(usize),
    Done(Value),
    Refused(Verdict),
    /// a transfer began
    Going,
}

impl Say {
    /// With this number, and no status that caused it.
    pub fn refused(number: u8) -> Self {
        Say::Refused(number.into())
    }

    /// With 2 or 3, and the device's word that caused it.
    pub fn refused_by(number: u8, word: u32) -> Self {
        Say::Refused(Verdict::by(number, word))
    }
}

/// What the caller feeds. Each feed is judged by itself: the two kinds of page may be mixed.
#[derive(Copy, Clone, Debug)]
pub enum Fed<'a> {
    Page(&'a [u8]),
    /// strict: the page, and the length the device wrote
    Written(&'a [u8], u64),
    Failure,
}

impl<'a> Fed<'a> {
    /// The page, and how much of it counts as written: all of it where no length was told.
    fn page(self) -> Option<(&'a [u8], u64)> {
        match self {
            Fed::Page(page) => Some((page, PAGE as u64)),
            Fed::Written(page, written) => Some((page, written)),
            Fed::Failure => None,
        }
    }

    /// "Page not 4,096 bytes"; "10 for a length above 4,096".
    pub fn bad_length(self) -> bool {
        self.page().is_some_and(|(page, written)| page.len() != PAGE || written > PAGE as u64)
    }

    /// The bytes to trust, of a feed whose lengths were tested: nothing after them is ever looked at.
    fn answer(self) -> Option<&'a [u8]> {
        self.page().map(|(page, written)| &page[..written as usize])
    }
}

/// The most streams that a page holds.
const STREAMS: usize = FIT[1] as usize;

#[derive(Clone, Debug, PartialEq, Eq)]
pub struct Sound {
    /// configured: jacks, streams, maps
    pub counts: [u32; 3],
    /// chosen when the state is made, for good
    pub guard: bool,
    pub set_up: bool,
    /// the records of jacks, streams, maps
    pub tables: [Vec<Vec<u8>>; 3],
    pub params: BTreeMap<u32, Params>,
    /// each stream's state: with no guard neither moved nor looked at
    pub lives: [Life; STREAMS],
    pub open: Option<(Awaits, Call)>,
    /// what was submitted without waiting; no control call and no feed looks at it or changes it
    pub pending: Pending,
    pub reserved: [u8; RESERVED],
}

/// Period 0, period above buffer, or buffer not a multiple of period is against the rule.
pub fn period_rule(p: &Params) -> bool {
    p.period != 0 && p.period <= p.buffer && p.buffer.is_multiple_of(p.period)
}

pub fn numbers_in_range(p: &Params) -> bool {
    p.format <= 24 && p.rate <= 13
}

/// What the next thing to do is, before a byte of the message is written.
enum Plan {
    Ask(Vec<u8>),
    Say(Say),
}

fn refuse(why: impl Into<Verdict>) -> Plan {
    Plan::Say(Say::Refused(why.into()))
}

fn done(value: Value) -> Plan {
    Plan::Say(Say::Done(value))
}

/// The queue's failure first, then "a length under 4 before the header is judged", then the status.
fn judge_header(answer: Option<&[u8]>) -> Result<&[u8], Verdict> {
    let answer = answer.ok_or(QUEUE_FAILED)?;
    if answer.len() < wire::HEADER {
        return Err(SHORT.into());
    }
    Status::read(u32_at(answer, 0)).judged()?;
    Ok(answer)
}

/// The table in an answer: "then, for tables, under 4 + count × size after TooMany".
fn read_table(table: usize, count: u32, answer: Option<&[u8]>) -> Result<Vec<Vec<u8>>, Verdict> {
    let answer = judge_header(answer)?;
    if !wire::fits(table, count) {
        return Err(TOO_MANY.into());
    }
    let length = wire::answer_length(table, count) as usize;
    let whole = answer.get(..length).ok_or(SHORT)?;
    let records = whole[wire::HEADER..].chunks(wire::SIZES[table]);
    Ok(records.map(<[u8]>::to_vec).collect())
}

impl Sound {
    pub fn new(counts: [u32; 3]) -> Self {
        let (tables, params) = (Default::default(), BTreeMap::new());
        let (lives, pending, reserved) = ([life::SET; STREAMS], Pending::default(), [0; RESERVED]);
        Sound { counts, guard: false, set_up: false, tables, params, lives, open: None, pending, reserved }
    }

    pub fn new_guarded(counts: [u32; 3]) -> Self {
        Sound { guard: true, ..Sound::new(counts) }
    }

    /// The consistency test of every call.
    pub fn consistent(&self) -> bool {
        let behind = match self.open {
            None if self.set_up => 3,
            None => 0,
            Some((Awaits::Table(n), _)) => n,
            Some((Awaits::Own, _)) => 3,
        };
        let tables = (0..3).all(|t| {
            let held = self.tables[t].len();
            let whole = held == self.counts[t] as usize && wire::fits(t, self.counts[t]);
            if t >= behind { held == 0 } else { whole || (t != 1 && held == 0) }
        });
        let call = match self.open {
            None => true,
            Some((Awaits::Table(_), Call::SetParams { params, .. })) => numbers_in_range(&params),
            Some((Awaits::Table(_), _)) => true,
            Some((Awaits::Own, call)) => self.may_be_out(&call),
        };
        self.set_up == (behind == 3) && tables && call && self.reserved == [0; RESERVED]
    }

    /// A call whose own request can be out.
    fn may_be_out(&self, call: &Call) -> bool {
        match call {
            Call::SetParams { stream, params } => {
                numbers_in_range(params) && period_rule(params) && *stream < self.counts[1]
            }
            Call::Command { stream, .. } => !self.guard || *stream < self.counts[1],
            Call::Remap { .. } => true,
            _ => false,
        }
    }

    /// Besides, of the stream that a transfer is to use.
    fn stream_consistent(&self, stream: u32) -> bool {
        let used = self.set_up && stream < self.counts[1];
        match self.params.get(&stream) {
            Some(p) if used => numbers_in_range(p) && period_rule(p),
            _ => true,
        }
    }

    /// "New call while an exchange is open, a transfer runs or a slot is in flight."
    pub(crate) fn busy(&self, ring: &Ring) -> bool {
        self.open.is_some() || ring.busy()
    }

    pub fn call(&mut self, ring: &Ring, call: Call, message: &mut [u8]) -> Say {
        if message.len() < MESSAGE {
            return Say::refused(BAD_LENGTH);
        }
        if !self.consistent() || !ring.consistent() {
            return Say::refused(INVALID_PARAM);
        }
        if self.busy(ring) {
            return Say::refused(BUSY);
        }
        if let Call::SetParams { params, .. } = &call
            && !numbers_in_range(params)
        {
            return Say::refused(INVALID_PARAM);
        }
        let plan = self.begin(call);
        finish(plan, message)
    }

    /// Set-up comes first where it is not done.
    fn begin(&mut self, call: Call) -> Plan {
        if self.set_up {
            return self.own(call);
        }
        self.open = Some((Awaits::Table(0), call));
        Plan::Ask(wire::query(0, self.counts[0]))
    }

    /// The call's own checks, in the order written, then its request or its value.
    fn own(&mut self, call: Call) -> Plan {
        self.open = None;
        let plan = match call {
            Call::Remap { jack, association, sequence } => self.own_remap(jack, association, sequence),
            Call::SetParams { stream, params } => self.own_set(stream, params),
            Call::Command { code, stream } => self.own_command(code, stream),
            Call::OutputStreams => done(Value::Streams(self.streams_of(wire::OUTPUT))),
            Call::InputStreams => done(Value::Streams(self.streams_of(wire::INPUT))),
            Call::Features(s) => self.of_stream(s, |r| Value::Bits(u32_at(r, 4) as u64)),
            Call::Formats(s) => self.of_stream(s, |r| Value::Bits(u64_at(r, 8))),
            Call::Rates(s) => self.of_stream(s, |r| Value::Bits(u64_at(r, 16))),
            Call::ChannelRange(s) => self.of_stream(s, |r| Value::Range(r[25], r[26])),
            // no stream has parameters before set-up is done
            Call::Transfer(s) => refuse(self.bars_transfers(Way::Playback, s).unwrap_or(IO_ERROR)),
            Call::Capture(s) => refuse(self.bars_transfers(Way::Capture, s).unwrap_or(IO_ERROR)),
        };
        if let Plan::Ask(_) = plan {
            self.open = Some((Awaits::Own, call));
        }
        plan
    }

    fn own_remap(&self, jack: u32, association: u32, sequence: u32) -> Plan {
        if jack >= self.counts[0] {
            return refuse(INVALID_PARAM);
        }
        let Some(record) = self.tables[0].get(jack as usize) else {
            return refuse(NO_INFO);
        };
        if u32_at(record, 4) & 1 == 0 {
            return refuse(UNSUPPORTED);
        }
        Plan::Ask(wire::words(&[wire::REMAP, jack, association, sequence]))
    }

    /// "12 BadState, right after the stream range check, which the four commands gain under the guard."
    fn own_command(&self, code: u32, stream: u32) -> Plan {
        if self.guard && stream >= self.counts[1] {
            return refuse(INVALID_PARAM);
        }
        if self.bars(stream, code) {
            return refuse(BAD_STATE);
        }
        Plan::Ask(wire::words(&[code, stream]))
    }

    /// "A command that the table does not permit from the present state is not sent." The stream is in range under the guard.
    fn bars(&self, stream: u32, code: u32) -> bool {
        self.guard && !life::permits(self.lives[stream as usize], code)
    }

    /// Why no transfer of this way is taken of a stream, set-up done: the stream range, its state "right after" it, and of a capture
    /// "stream direction not 1 gives 1, after the range check".
    fn bars_transfers(&self, way: Way, stream: u32) -> Option<u8> {
        if stream >= self.counts[1] {
            return Some(INVALID_PARAM);
        }
        if self.guard && !life::takes_transfers(self.lives[stream as usize]) {
            return Some(BAD_STATE);
        }
        (way == Way::Capture && self.tables[1][stream as usize][wire::DIRECTION] != wire::INPUT)
            .then_some(INVALID_PARAM)
    }

    fn own_set(&self, stream: u32, p: Params) -> Plan {
        if !period_rule(&p) || stream >= self.counts[1] {
            return refuse(INVALID_PARAM);
        }
        if self.bars(stream, wire::SET_PARAMS) {
            return refuse(BAD_STATE);
        }
        let mut request = wire::words(&[wire::SET_PARAMS, stream, p.buffer, p.period, p.features]);
        request.extend([p.channels, p.format, p.rate, 0]);
        Plan::Ask(request)
    }

    fn streams_of(&self, direction: u8) -> Vec<u32> {
        let numbered = (0u32..).zip(&self.tables[1]);
        numbered.filter(|(_, r)| r[wire::DIRECTION] == direction).map(|(i, _)| i).collect()
    }

    fn of_stream(&self, stream: u32, value: impl Fn(&[u8]) -> Value) -> Plan {
        match self.tables[1].get(stream as usize) {
            Some(record) => done(value(record)),
            None => refuse(INVALID_PARAM),
        }
    }

    pub fn feed(&mut self, fed: Fed, message: &mut [u8]) -> Say {
        if fed.bad_length() || message.len() < MESSAGE {
            return Say::refused(BAD_LENGTH);
        }
        if !self.consistent() {
            return Say::refused(INVALID_PARAM);
        }
        let plan = match self.open {
            None => refuse(INVALID_PARAM),
            Some((Awaits::Table(table), call)) => self.take_table(table, call, fed.answer()),
            Some((Awaits::Own, call)) => self.take_own(call, fed.answer()),
        };
        finish(plan, message)
    }

    /// The answer to a query of set-up.
    fn take_table(&mut self, table: usize, call: Call, answer: Option<&[u8]>) -> Plan {
        match read_table(table, self.counts[table], answer) {
            Ok(records) => self.tables[table] = records,
            // too many ends the call whatever was asked; streams end it with any refusal
            Err(why) if why.number == TOO_MANY || table == 1 => return self.cut_short(why),
            // no status of these is handed on: "for jacks and channel maps 11 means an empty table", like 2 and 7, and set-up goes on
            Err(_) => self.tables[table].clear(),
        }
        if table < 2 {
            self.open = Some((Awaits::Table(table + 1), call));
            return Plan::Ask(wire::query(table + 1, self.counts[table + 1]));
        }
        self.set_up = true;
        self.own(call)
    }

    /// A set-up cut short leaves all three tables empty.
    fn cut_short(&mut self, why: Verdict) -> Plan {
        self.tables = Default::default();
        self.open = None;
        refuse(why)
    }

    /// The answer to the call's own request. It is a header and no more: four bytes suffice.
    fn take_own(&mut self, call: Call, answer: Option<&[u8]>) -> Plan {
        self.open = None;
        match (judge_header(answer), call) {
            (Err(why), Call::Remap { .. }) if why.number == IO_ERROR => refuse(Verdict { number: UNSUPPORTED, ..why }),
            (Err(why), _) => refuse(why),
            (Ok(_), Call::SetParams { stream, params }) => {
                self.params.insert(stream, params);
                self.moves(stream, wire::SET_PARAMS);
                done(Value::Nothing)
            }
            (Ok(_), Call::Command { code, stream }) => {
                self.moves(stream, code);
                done(Value::Nothing)
            }
            (Ok(_), _) => done(Value::Nothing),
        }
    }

    /// A command was answered ok: "the state is the one the table gives for the ok commands".
    fn moves(&mut self, stream: u32, code: u32) {
        if self.guard {
            self.lives[stream as usize] = life::after(code);
        }
    }

    /// What a transfer of either way and a submission that does not wait test alike: Busy, set-up, what bars the stream, parameters set.
    /// What is said where they fail, or those parameters.
    pub(crate) fn transfer_checks(
        &mut self,
        ring: &Ring,
        way: Way,
        stream: u32,
        busy: bool,
        message: &mut [u8],
    ) -> Result<Params, Say> {
        if message.len() < MESSAGE {
            return Err(Say::refused(BAD_LENGTH));
        }
        if !self.consistent() || !ring.consistent() || !self.stream_consistent(stream) {
            return Err(Say::refused(INVALID_PARAM));
        }
        if busy {
            return Err(Say::refused(BUSY));
        }
        if !self.set_up {
            let call = if way == Way::Playback { Call::Transfer(stream) } else { Call::Capture(stream) };
            let plan = self.begin(call);
            return Err(finish(plan, message));
        }
        if let Some(number) = self.bars_transfers(way, stream) {
            return Err(Say::refused(number));
        }
        self.params.get(&stream).copied().ok_or(Say::refused(IO_ERROR))
    }

    /// "A blocking transfer while any is pending is Busy."
    pub(crate) fn busy_for_transfers(&self, ring: &Ring) -> bool {
        self.busy(ring) || self.pending.count() > 0
    }

    /// After the tests of its stream comes the budget.
    pub fn xfer_start(
        &mut self,
        ring: &mut Ring,
        stream: u32,
        frames_len: u64,
        budget: u64,
        message: &mut [u8],
    ) -> Say {
        let busy = self.busy_for_transfers(ring);
        let params = match self.transfer_checks(ring, Way::Playback, stream, busy, message) {
            Ok(params) => params,
            Err(say) => return say,
        };
        ring.start(stream, frames_len, params.period as u64, budget).into()
    }
}

/// Of a start: it goes on, or is refused.
impl From<Turn> for Say {
    fn from(turn: Turn) -> Self {
        match turn {
            Turn::Going => Say::Going,
            Turn::Ended(why) => Say::Refused(why),
        }
    }
}

/// "Only the message's own bytes are written; a result writes none."
fn finish(plan: Plan, message: &mut [u8]) -> Say {
    match plan {
        Plan::Say(say) => say,
        Plan::Ask(request) => {
            message[..request.len()].copy_from_slice(&request);
            Say::Send(request.len())
        }
    }
}
