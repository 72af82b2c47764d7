//! What is said of two traces.
use snd::trace::{self, Difference, ENTRY_SIZE, Entries, Field, Unlisted};
use std::fmt::Write;

/// Exit status of equal traces, of different ones, and where one is refused: as diff has it.
const EQUAL: u8 = 0;
const DIFFERENT: u8 = 1;
const REFUSED: u8 = 2;

/// The form of the JSON; a change that a reader would notice counts it up.
const VERSION: u32 = 1;

/// The text, for people or as JSON for programs, and the exit status.
pub fn of(first: &[u8], second: &[u8], json: bool) -> (String, u8) {
    let listed = listed(first, second);
    let status = match &listed {
        Ok(list) if list.is_empty() => EQUAL,
        Ok(_) => DIFFERENT,
        Err(_) => REFUSED,
    };
    let text = if json { as_json(&listed) } else { as_lines(&listed) };
    (text, status)
}

type Listed = Result<Vec<u8>, Unlisted>;

/// The list, in room that is just long enough.
fn listed(first: &[u8], second: &[u8]) -> Listed {
    let count = trace::differences(first, second)?;
    let mut list = vec![0; count.saturating_mul(ENTRY_SIZE)];
    trace::compare(first, second, &mut list)?;
    Ok(list)
}

fn as_lines(listed: &Listed) -> String {
    match listed {
        Ok(list) => {
            let mut text = format!("differences {}\n", list.len() / ENTRY_SIZE);
            for difference in Entries::of(list) {
                // to write into a text cannot fail
                let _ = writeln!(text, "{difference}");
            }
            text
        }
        Err(unlisted) => format!("refused {unlisted}\n"),
    }
}

/// One object. Its texts are words of ours: none needs care.
fn as_json(listed: &Listed) -> String {
    let (refused, list) = match listed {
        Ok(list) => {
            let lines: Vec<_> = Entries::of(list).map(|one| format!("\n{}", difference(one))).collect();
            let lines = lines.join(",");
            ("null".into(), format!("[{lines}]"))
        }
        Err(unlisted) => (refusal(*unlisted), "null".into()),
    };
    format!("{{\"program\":\"tracediff\",\"version\":{VERSION},\"refused\":{refused},\"differences\":{list}}}\n")
}

/// The answer, which trace, and where.
fn refusal(unlisted: Unlisted) -> String {
    let number = unlisted.number();
    let (trace, at) = match unlisted {
        Unlisted::First(judged) => ("\"first\"", judged.at.to_string()),
        Unlisted::Second(judged) => ("\"second\"", judged.at.to_string()),
        Unlisted::Full => ("null", "null".into()),
    };
    let (number, name) = (number.number(), number.name());
    format!("{{\"number\":{number},\"name\":\"{name}\",\"trace\":{trace},\"offset\":{at}}}")
}

/// A difference, on one line.
fn difference(difference: Difference) -> String {
    let kind = match difference {
        Difference::OnlyFirst { .. } => "only first",
        Difference::OnlySecond { .. } => "only second",
        Difference::Other { .. } => "other",
    };
    let shown = |side: Option<Field>| side.map_or("null".into(), field);
    let (position, first, second) = (difference.position(), difference.first(), difference.second());
    let (first, second) = (shown(first), shown(second));
    format!("{{\"position\":{position},\"kind\":\"{kind}\",\"first\":{first},\"second\":{second}}}")
}

/// Its name, and its contents as numbers.
fn field(field: Field) -> String {
    let (name, contents) = match field {
        Field::Start { stream, length, period } => (
            "start",
            format!("\"stream\":{stream},\"length\":{length},\"period\":{period}"),
        ),
        Field::Submitted { slot, offset, length } => (
            "submitted",
            format!("\"slot\":{slot},\"offset\":{offset},\"length\":{length}"),
        ),
        Field::Completed { slot, status } => ("completed", format!("\"slot\":{slot},\"status\":{status}")),
        Field::End { answer } => ("end", format!("\"answer\":{answer}")),
    };
    format!("{{\"field\":\"{name}\",{contents}}}")
}
