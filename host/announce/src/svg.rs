//! A writer of SVG: rectangles, lines, paths and texts, by class.
use std::fmt::{self, Write};

/// A length, to the hundredth, with no zeros at its end.
#[derive(Clone, Copy)]
struct Length(f64);

impl fmt::Display for Length {
    fn fmt(&self, f: &mut fmt::Formatter<'_>) -> fmt::Result {
        let text = format!("{:.2}", self.0);
        f.write_str(text.trim_end_matches('0').trim_end_matches('.'))
    }
}

/// Where a text stands to its place.
#[derive(Clone, Copy)]
pub enum Anchor {
    Start,
    Middle,
    End,
}

impl Anchor {
    const fn name(self) -> &'static str {
        match self {
            Self::Start => "start",
            Self::Middle => "middle",
            Self::End => "end",
        }
    }
}

/// What was drawn so far.
#[derive(Default)]
pub struct Svg(String);

impl Svg {
    fn put(&mut self, text: fmt::Arguments) {
        // writing to a string does not fail
        let _ = self.0.write_fmt(text);
        self.0.push('\n');
    }

    pub fn rect(&mut self, class: &str, x: f64, y: f64, width: f64, height: f64) {
        let [x, y, width, height] = [x, y, width, height].map(Length);
        self.put(format_args!(
            r#"<rect class="{class}" x="{x}" y="{y}" width="{width}" height="{height}"/>"#
        ));
    }

    pub fn line(&mut self, class: &str, from: (f64, f64), to: (f64, f64)) {
        let [x1, y1, x2, y2] = [from.0, from.1, to.0, to.1].map(Length);
        self.put(format_args!(
            r#"<line class="{class}" x1="{x1}" y1="{y1}" x2="{x2}" y2="{y2}"/>"#
        ));
    }

    /// Straight lines through all the points, and back to the first.
    pub fn shape(&mut self, class: &str, points: &[(f64, f64)]) {
        let points: Vec<_> = points
            .iter()
            .map(|(x, y)| format!("{},{}", Length(*x), Length(*y)))
            .collect();
        self.put(format_args!(
            r#"<polygon class="{class}" points="{}"/>"#,
            points.join(" ")
        ));
    }

    pub fn text(&mut self, class: &str, anchor: Anchor, x: f64, y: f64, text: &str) {
        let (x, y, anchor) = (Length(x), Length(y), anchor.name());
        let text = escaped(text);
        self.put(format_args!(
            r#"<text class="{class}" text-anchor="{anchor}" x="{x}" y="{y}">{text}</text>"#
        ));
    }

    /// A text that runs upwards.
    pub fn text_up(&mut self, class: &str, x: f64, y: f64, text: &str) {
        let (x, y, text) = (Length(x), Length(y), escaped(text));
        self.put(format_args!(
            r#"<text class="{class}" text-anchor="middle" transform="translate({x} {y}) rotate(-90)">{text}</text>"#
        ));
    }

    /// All of it, on white, under a title and with a style of its own.
    pub fn file(self, title: &str, style: &str, width: f64, height: f64) -> String {
        let (width, height, title, drawn) = (Length(width), Length(height), escaped(title), self.0);
        format!(
            r#"<svg xmlns="http://www.w3.org/2000/svg" width="{width}" height="{height}" viewBox="0 0 {width} {height}" role="img">
<title>{title}</title>
<style>{style}</style>
<rect width="{width}" height="{height}" fill="white"/>
{drawn}</svg>
"#
        )
    }
}

fn escaped(text: &str) -> String {
    let mut escaped = String::new();
    for letter in text.chars() {
        match letter {
            '&' => escaped.push_str("&amp;"),
            '<' => escaped.push_str("&lt;"),
            '>' => escaped.push_str("&gt;"),
            // XML has no place for these
            '\u{fffe}' | '\u{ffff}' => escaped.push('\u{fffd}'),
            control if control.is_control() => escaped.push('\u{fffd}'),
            plain => escaped.push(plain),
        }
    }
    escaped
}

#[cfg(test)]
mod tests {
    use super::{Length, escaped};

    #[test]
    fn lengths() {
        let shown = [0.0, 10.0, 100.5, 0.126, -3.0].map(|length| Length(length).to_string());
        assert_eq!(shown, ["0", "10", "100.5", "0.13", "-3"]);
    }

    #[test]
    fn texts_are_escaped() {
        assert_eq!(escaped("a<b> & \u{1}\u{ffff}é"), "a&lt;b&gt; &amp; \u{fffd}\u{fffd}é");
    }
}
