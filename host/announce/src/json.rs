//! A writer of JSON: objects inline, each object of a list on a line of its own.
use std::fmt::{Display, Write};

/// An object that is being written; each function writes a member.
pub struct Object<'t> {
    text: &'t mut String,
    empty: bool,
}

/// One object, as a text.
pub fn object(fill: impl FnOnce(&mut Object)) -> String {
    let mut text = String::new();
    inside(&mut text, fill);
    text.push('\n');
    text
}

fn inside(text: &mut String, fill: impl FnOnce(&mut Object)) {
    text.push('{');
    fill(&mut Object { text, empty: true });
    text.push('}');
}

impl Object<'_> {
    fn name(&mut self, name: &str) {
        if !self.empty {
            self.text.push_str(", ");
        }
        self.empty = false;
        string(self.text, name);
        self.text.push_str(": ");
    }

    fn plain(&mut self, name: &str, value: impl Display) {
        self.name(name);
        // writing to a string does not fail
        let _ = write!(self.text, "{value}");
    }

    pub fn number(&mut self, name: &str, number: u64) {
        self.plain(name, number);
    }

    pub fn number_if(&mut self, name: &str, number: Option<u64>) {
        match number {
            Some(number) => self.number(name, number),
            None => self.null(name),
        }
    }

    /// A time or the like; JSON has no number for one that is not finite.
    pub fn seconds(&mut self, name: &str, seconds: Option<f64>) {
        match seconds.filter(|seconds| seconds.is_finite()) {
            Some(seconds) => self.plain(name, format_args!("{seconds:.9}")),
            None => self.null(name),
        }
    }

    pub fn truth(&mut self, name: &str, truth: bool) {
        self.plain(name, truth);
    }

    pub fn null(&mut self, name: &str) {
        self.plain(name, "null");
    }

    pub fn text(&mut self, name: &str, text: &str) {
        self.name(name);
        string(self.text, text);
    }

    pub fn text_if(&mut self, name: &str, text: Option<&str>) {
        match text {
            Some(text) => self.text(name, text),
            None => self.null(name),
        }
    }

    pub fn texts(&mut self, name: &str, texts: &[String]) {
        self.name(name);
        self.text.push('[');
        for (at, text) in texts.iter().enumerate() {
            self.text.push_str(if at > 0 { ", " } else { "" });
            string(self.text, text);
        }
        self.text.push(']');
    }

    pub fn object(&mut self, name: &str, fill: impl FnOnce(&mut Object)) {
        self.name(name);
        inside(self.text, fill);
    }

    /// A list of objects.
    pub fn list<T>(&mut self, name: &str, items: impl IntoIterator<Item = T>, each: impl Fn(&mut Object, T)) {
        self.name(name);
        self.text.push('[');
        for (at, item) in items.into_iter().enumerate() {
            self.text.push_str(if at > 0 { ",\n" } else { "\n" });
            inside(self.text, |object| each(object, item));
        }
        self.text.push(']');
    }
}

/// A string in its quotes.
fn string(text: &mut String, value: &str) {
    text.push('"');
    for letter in value.chars() {
        match letter {
            '"' => text.push_str("\\\""),
            '\\' => text.push_str("\\\\"),
            '\n' => text.push_str("\\n"),
            // the rest that JSON asks for, and what a terminal might take as an order
            control if control.is_control() => {
                let _ = write!(text, "\\u{:04x}", u32::from(control));
            }
            plain => text.push(plain),
        }
    }
    text.push('"');
}

#[cfg(test)]
mod tests {
    use super::object;

    #[test]
    fn strings_are_escaped() {
        let written = object(|o| o.text("a\"b", "\\ \n \t \u{1} \u{7f} \u{9b} é 語 𝄞"));
        assert_eq!(
            written,
            "{\"a\\\"b\": \"\\\\ \\n \\u0009 \\u0001 \\u007f \\u009b é 語 𝄞\"}\n"
        );
    }

    #[test]
    fn members_and_lists() {
        let written = object(|o| {
            o.number("n", u64::MAX);
            o.seconds("s", Some(0.5));
            o.seconds("none", Some(f64::INFINITY));
            o.number_if("if", Some(0));
            o.number_if("not", None);
            o.truth("t", true);
            o.texts("w", &["a".into(), "b".into()]);
            o.texts("no", &[]);
            o.list("l", [1, 2], |o, n| o.number("n", n));
            o.list("empty", [], |o, n| o.number("n", n));
            o.object("o", |_| {});
        });
        let wanted = r#"{"n": 18446744073709551615, "s": 0.500000000, "none": null, "if": 0, "not": null, "t": true, "w": ["a", "b"], "no": [], "l": [
{"n": 1},
{"n": 2}], "empty": [], "o": {}}
"#;
        assert_eq!(written, wanted);
    }
}
