//! The log: the facts of all pages, and every period, as one JSON object.
use crate::account::{Gap, Part, Same};
use crate::json::{self, Object};
use crate::recording;
use crate::report::Report;
use crate::told::{Control, Fault, GoingOn, Jacks, Period, Virtio, What, When};
use page::{Built, Spoken};
use snd::Answer;

/// The form of the log; a change that a reader would notice counts it up.
const VERSION: u64 = 1;

pub fn of(reports: &[Report], built: Built, status: u8) -> String {
    json::object(|log| {
        log.text("program", "announce");
        log.number("version", VERSION);
        log.text_if("date", built.date);
        log.text_if("kit", built.kit);
        log.text_if("archive_sha256", built.archive);
        log.number("exit_status", status.into());
        log.list("announcements", reports, announcement);
    })
}

fn announcement(to: &mut Object, report: &Report) {
    before(to, report);
    device(to, report);
    after(to, report);
    let size = report.options.period as usize;
    to.list("periods", &report.told.periods, |to, one| period(to, one, size));
}

fn before(to: &mut Object, report: &Report) {
    let (options, recording, told) = (report.options, report.recording, &report.told);
    to.text("announcement", &recording.name);
    to.number("bytes", recording.frames.len() as u64);
    match &recording.file {
        Some(file) => to.object("wave", |to| {
            to.number("bytes", file.bytes as u64);
            to.number("offset", file.offset as u64);
        }),
        None => to.null("wave"),
    }
    to.text("sha256", &recording.sha256.to_string());
    to.list("parts", &recording.parts, |to, one| {
        part_of(to, one, options.period as usize)
    });
    to.seconds("seconds", Some(report.seconds()));
    to.texts("warnings", &recording.warnings(options));
    to.truth("strict", options.strict);
    to.truth("guard", options.guard);
    to.truth("indirect", options.indirect);
    match &told.virtio {
        Some(told) => to.object("virtio", |to| virtio(to, told)),
        None => to.null("virtio"),
    }
    to.list("controls", &told.controls, control);
    match &told.jacks {
        Some(told) => to.object("jacks", |to| jacks(to, told)),
        None => to.null("jacks"),
    }
    match &told.going_on {
        Some(told) => to.object("going_on", |to| going_on(to, told)),
        None => to.null("going_on"),
    }
    match told.stream {
        Some(stream) => to.object("stream", |to| {
            to.number("number", stream.into());
            to.number("channels_min", told.channels.min.into());
            to.number("channels_max", told.channels.max.into());
        }),
        None => to.null("stream"),
    }
    to.object("parameters", |to| {
        to.number("buffer", options.buffer.into());
        to.number("period", options.period.into());
        to.number("channels", recording.form.channels.into());
        to.text("format", recording.form.format_name());
        to.number("rate", recording.form.rate.hz().into());
    });
    let periods = recording.frames.len().div_ceil(options.period as usize);
    to.number("period_count", periods as u64);
}

/// A part of what was joined, and the period in which it begins.
fn part_of(to: &mut Object, part: &recording::Part, size: usize) {
    to.text("part", &part.name);
    to.number("offset", part.offset as u64);
    to.number("bytes", part.bytes as u64);
    to.number("period", (part.offset / size + 1) as u64);
}

fn control(to: &mut Object, control: &Control) {
    to.number("code", control.code.into());
    to.number("written", control.written as u64);
    to.number("status", control.status.into());
}

/// Number and name; of 2 and 3 the device's word, or null where none was the cause, and in words what was.
fn answer(to: &mut Object, answer: Answer) {
    to.number("number", answer.number().into());
    to.text("name", answer.name());
    let status = answer.cause().flatten();
    to.number_if("status", status.map(|status| status.word().into()));
    let cause = answer.cause().map(|cause| match cause {
        Some(status) => status.to_string(),
        None => "no status".into(),
    });
    to.text_if("cause", cause.as_deref());
}

fn virtio(to: &mut Object, virtio: &Virtio) {
    let config = &virtio.config;
    to.number("version", virtio.version as u64);
    to.number("config_bytes", virtio.bytes as u64);
    to.number("jacks", config.jacks.into());
    to.number("streams", config.streams.into());
    to.number("channel_maps", config.chmaps.into());
    match config.controls {
        Some(controls) => to.number("control_elements", controls.into()),
        None => to.null("control_elements"),
    }
    match virtio.change {
        Some((id, mask)) => to.object("changed", |to| {
            to.number("element", id.into());
            to.number("mask", mask.into());
        }),
        None => to.null("changed"),
    }
}

fn jacks(to: &mut Object, jacks: &Jacks) {
    to.number("written", jacks.written as u64);
    to.number("whole", jacks.whole as u64);
    to.truth("remap_sent", jacks.sent);
    to.object("remap_answer", |to| answer(to, jacks.answer));
}

fn going_on(to: &mut Object, told: &GoingOn) {
    to.number("polled", told.polled);
    to.number_if("opened", told.opened);
    to.number("most_pending", told.most);
    to.number("filled", told.filled as u64);
}

fn device(to: &mut Object, report: &Report) {
    let (told, account) = (&report.told, &report.account);
    to.object("turns", |to| {
        to.number("run", told.turns);
        to.number("allowed", told.allowed);
        to.number("enough", told.enough);
        to.number("slow", report.options.slow);
    });
    to.number("submitted", told.periods.len() as u64);
    to.object("accepted", |to| part(to, &account.accepted));
    to.list("faults", &told.faults, fault);
    to.number("owed", told.owed);
    to.object("drained", |to| {
        to.number("turns", told.drain_turns);
        to.number("allowed", told.drain_allowed);
        part(to, &account.drained);
    });
    to.list("gaps", &account.gaps, gap);
    match report.broke_off() {
        None => to.null("broke_off"),
        Some(gap) => to.object("broke_off", |to| {
            to.number("period", gap.first as u64);
            to.number("byte", gap.offset as u64);
            to.seconds("second", Some(report.recording.form.second(gap.offset)));
        }),
    }
    match report.page(Built::default()).spoken() {
        None => to.null("spoken"),
        Some(spoken) => to.object("spoken", |to| heard(to, &spoken)),
    }
}

/// How much was spoken at an end that is not Ok, and whether the device's own account says the same.
fn heard(to: &mut Object, spoken: &Spoken) {
    to.number("periods", spoken.periods);
    to.number("of", spoken.of);
    to.number("bytes", spoken.bytes as u64);
    to.seconds("seconds", Some(spoken.seconds));
    to.truth("same", spoken.same);
}

fn after(to: &mut Object, report: &Report) {
    let told = &report.told;
    to.object("answer", |to| {
        answer(to, told.answer());
        to.text_if("call", told.refused.map(|(call, _)| call));
    });
    to.truth("given", report.given());
    let measured = (told.turns > 0).then_some(told.longest.as_secs_f64());
    to.seconds("longest_turn", measured);
    to.seconds("at_most", told.at_most());
    to.seconds("wall_time", Some(told.time.as_secs_f64()));
}

/// The bytes of `same` are compared each at its own place.
fn part(to: &mut Object, part: &Part) {
    to.number("bytes", part.bytes as u64);
    to.number("periods", part.periods as u64);
    to.text_if("sha256", part.sha256.map(|sum| sum.to_string()).as_deref());
    to.truth("same", !matches!(part.same, Same::Not { .. }));
}

fn when(to: &mut Object, when: When) {
    to.text("phase", when.phase());
    to.number("turn", when.turn());
}

fn fault(to: &mut Object, fault: &Fault) {
    when(to, fault.when);
    match fault.what {
        What::WrongSlot { completion, named, due } => {
            to.text("kind", "wrong slot");
            to.number("completion", completion);
            to.number("named", named.into());
            to.number("due", due.into());
        }
        What::Status { period, status } => {
            to.text("kind", "status");
            to.number("period", period as u64);
            to.number("status", status.into());
        }
        What::Written { period, written, .. } => {
            to.text("kind", "written");
            to.number("period", period as u64);
            to.number("written", written.into());
        }
    }
    to.text("text", &fault.what.to_string());
}

fn gap(to: &mut Object, gap: &Gap) {
    to.number("first", gap.first as u64);
    to.number("last", gap.last as u64);
    to.number("offset", gap.offset as u64);
    to.number("length", gap.length as u64);
    to.text("why", &gap.why.to_string());
}

fn period(to: &mut Object, period: &Period, size: usize) {
    to.number("period", (period.offset / size + 1) as u64);
    to.number("slot", period.slot.into());
    to.number("offset", period.offset as u64);
    to.number("length", period.length as u64);
    to.number("submitted", period.submitted);
    match period.completed {
        None => to.null("completed"),
        Some(completed) => to.object("completed", |to| {
            when(to, completed.when);
            to.number("status", completed.status.into());
        }),
    }
}
