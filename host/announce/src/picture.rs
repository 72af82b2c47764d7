//! A timeline of each announcement: turns across, a bar for each period, below it the number in flight. There is no time and no date in it,
//! so that equal runs have equal pictures.
use crate::report::Report;
use crate::svg::{Anchor, Svg};
use crate::timeline::{Bar, Fate, Timeline, ticks};
use crate::told::{Fault, What};

const WIDTH: f64 = 1000.0;
/// The left and the right edge of what is drawn over the turns.
const EDGES: (f64, f64) = (84.0, 960.0);
/// From a panel's top to its first bar.
const HEAD: f64 = 106.0;
/// What all bars together may take.
const BARS: f64 = 360.0;
const FLIGHT: f64 = 70.0;
/// Between the bars and the number in flight.
const BETWEEN: f64 = 26.0;
/// From one line of text to the next.
const LINE: f64 = 18.0;
/// About as wide as a letter of a plain text, and no narrower.
const LETTER: f64 = 7.0;
/// At most so many faults are listed.
const MOST_FAULTS: usize = 8;
/// At most so many letters of a name.
const MOST_LETTERS: usize = 60;

const STYLE: &str = "
text{font-family:sans-serif;font-size:12px;fill:black}
.title{font-size:17px;font-weight:bold}
.frame{fill:none;stroke:black}
.drain{fill:#e6e6e6}
.tick{stroke:black}
.grid{stroke:#cccccc}
.accepted{fill:black}
.drained{fill:#8a8a8a}
.open{fill:white;stroke:black;stroke-dasharray:3 2}
.failed{fill:white;stroke:#c00000}
.cross{stroke:#c00000;stroke-width:2.5}
.wrong{stroke:#c00000;stroke-dasharray:5 3}
.point{fill:#c00000;stroke:white}
.flight{fill:#8a8a8a;stroke:black}
.answer{stroke:black;stroke-width:2}
";

/// All panels in one file, one below the other.
pub fn of(reports: &[Report]) -> String {
    let mut svg = Svg::default();
    let mut top = 0.0;
    let mut titles = Vec::new();
    for report in reports {
        let panel = Panel::new(report, top);
        panel.draw(&mut svg);
        titles.push(panel.title());
        top = panel.end();
    }
    svg.file(&titles.join("; "), STYLE, WIDTH, top)
}

/// One announcement, from `top` down.
struct Panel<'p> {
    report: &'p Report<'p>,
    time: Timeline,
    top: f64,
}

impl<'p> Panel<'p> {
    fn new(report: &'p Report, top: f64) -> Self {
        let time = Timeline::new(&report.told);
        Self { report, time, top }
    }

    fn draw(&self, svg: &mut Svg) {
        self.head(svg);
        self.drain(svg);
        self.axes(svg);
        self.flight(svg);
        self.bars(svg);
        self.answer(svg);
        self.faults(svg);
        self.legend(svg);
    }

    /// Where the end of a turn stands.
    fn x(&self, turn: f64) -> f64 {
        let all = self.time.turns.max(1) as f64;
        EDGES.0 + (EDGES.1 - EDGES.0) * turn / all
    }

    /// How high a bar's row is.
    fn row(&self) -> f64 {
        (BARS / self.time.bars.len().max(1) as f64).min(24.0)
    }

    /// The upper and the lower edge of the bars.
    fn bars_edges(&self) -> (f64, f64) {
        let high = (self.row() * self.time.bars.len() as f64).max(60.0);
        (self.top + HEAD, self.top + HEAD + high)
    }

    /// The upper and the lower edge of the number in flight.
    fn flight_edges(&self) -> (f64, f64) {
        let upper = self.bars_edges().1 + BETWEEN;
        (upper, upper + FLIGHT)
    }

    /// Where the lines of text below the axis begin.
    fn legend_line(&self) -> f64 {
        self.flight_edges().1 + 62.0
    }

    /// Where the next panel begins.
    fn end(&self) -> f64 {
        let lines = self.report.told.faults.len().min(MOST_FAULTS + 1);
        self.legend_line() + LINE * lines as f64 + 20.0
    }

    fn title(&self) -> String {
        let name = &self.report.recording.name;
        let mut short: String = name.chars().take(MOST_LETTERS).collect();
        if short.len() < name.len() {
            short.push('…');
        }
        format!("{short}: {}", self.report.told.answered())
    }

    fn head(&self, svg: &mut Svg) {
        let (told, account) = (&self.report.told, &self.report.account);
        let bytes = self.report.recording.frames.len();
        let periods = bytes.div_ceil(self.report.options.period as usize);
        let facts = format!(
            "{bytes} bytes, {periods} periods: {} submitted, {} accepted before the answer, {} in the drain; {} of {} turns allowed",
            told.periods.len(),
            account.accepted.periods,
            account.drained.periods,
            told.turns,
            told.allowed
        );
        svg.text("title", Anchor::Start, 20.0, self.top + 30.0, &self.title());
        svg.text("plain", Anchor::Start, 20.0, self.top + 52.0, &facts);
    }

    /// Shades the turns of the drain.
    fn drain(&self, svg: &mut Svg) {
        let drained = self.time.turns - self.time.transfer;
        if drained == 0 {
            return;
        }
        let (left, right) = (self.x(self.time.transfer as f64), EDGES.1);
        let (upper, lower) = (self.bars_edges().0, self.flight_edges().1);
        svg.rect("drain", left, upper, right - left, lower - upper);
        let text = format!("drain: {drained} turns");
        if right - left > LETTER * text.len() as f64 {
            let middle = f64::midpoint(left, right);
            svg.text("plain", Anchor::Middle, middle, upper - 8.0, &text);
        }
    }

    fn axes(&self, svg: &mut Svg) {
        let (upper, lower) = self.bars_edges();
        let (flight_upper, flight_lower) = self.flight_edges();
        let middle = f64::midpoint(EDGES.0, EDGES.1);
        for turn in ticks(self.time.turns, 10) {
            let x = self.x(turn as f64 - 0.5);
            svg.line("grid", (x, upper), (x, flight_lower));
            svg.line("tick", (x, flight_lower), (x, flight_lower + 5.0));
            svg.text("plain", Anchor::Middle, x, flight_lower + 18.0, &turn.to_string());
        }
        svg.text(
            "plain",
            Anchor::Middle,
            middle,
            flight_lower + 38.0,
            &self.turns_label(),
        );
        svg.rect("frame", EDGES.0, upper, EDGES.1 - EDGES.0, lower - upper);
        svg.text_up("plain", 18.0, f64::midpoint(upper, lower), "period");
        self.period_ticks(svg);
        svg.text_up("plain", 18.0, f64::midpoint(flight_upper, flight_lower), "in flight");
    }

    fn turns_label(&self) -> String {
        match (self.time.turns, self.time.turns - self.time.transfer) {
            (0, _) => "no turn ran".into(),
            (_, 0) => "turn".into(),
            (_, drained) => format!(
                "turn: {} of the transfer, then {drained} of the drain",
                self.time.transfer
            ),
        }
    }

    fn period_ticks(&self, svg: &mut Svg) {
        let (upper, lower) = self.bars_edges();
        let last = self.report.told.periods.len() as u64;
        if last == 0 {
            let y = f64::midpoint(upper, lower);
            svg.text("plain", Anchor::Start, EDGES.0 + 12.0, y + 4.0, "nothing was submitted");
        }
        let most = ((lower - upper) / 20.0).min(15.0) as u64;
        for period in ticks(last, most) {
            let bar = (period - 1) / self.time.per_bar as u64;
            let y = upper + (bar as f64 + 0.5) * self.row();
            svg.line("tick", (EDGES.0 - 5.0, y), (EDGES.0, y));
            svg.text("plain", Anchor::End, EDGES.0 - 8.0, y + 4.0, &period.to_string());
        }
    }

    fn flight(&self, svg: &mut Svg) {
        let (upper, lower) = self.flight_edges();
        let most = self.time.columns.iter().map(|column| column.most).max();
        let most = most.unwrap_or(0).max(1);
        let y = |number: u64| lower - (lower - upper) * number as f64 / most as f64;
        let mut points = vec![(EDGES.0, lower)];
        // columns of one height are one step
        for same in self.time.columns.chunk_by(|one, next| one.most == next.most) {
            if let (Some(first), Some(last)) = (same.first(), same.last()) {
                points.push((self.x(first.from as f64), y(first.most)));
                points.push((self.x(last.to as f64), y(first.most)));
            }
        }
        points.push((EDGES.1, lower));
        if self.time.turns > 0 {
            svg.shape("flight", &points);
        }
        svg.rect("frame", EDGES.0, upper, EDGES.1 - EDGES.0, lower - upper);
        for number in [0].into_iter().chain(ticks(most, 3)) {
            svg.line("tick", (EDGES.0 - 5.0, y(number)), (EDGES.0, y(number)));
            svg.text(
                "plain",
                Anchor::End,
                EDGES.0 - 8.0,
                y(number) + 4.0,
                &number.to_string(),
            );
        }
    }

    fn bars(&self, svg: &mut Svg) {
        let mut y = self.bars_edges().0;
        for Bar { from, to, fate } in &self.time.bars {
            let (left, right) = (self.x(*from as f64), self.x(*to as f64));
            // a bar is seen, however short
            let width = (right - left).max(1.0);
            svg.rect(class(*fate), left, y + self.row() * 0.1, width, self.row() * 0.8);
            y += self.row();
        }
    }

    /// The end of the transfer, with what it said.
    fn answer(&self, svg: &mut Svg) {
        let x = self.x(self.time.transfer as f64);
        svg.line("answer", (x, self.top + 70.0), (x, self.flight_edges().1));
        let text = match self.time.transfer {
            0 => self.report.told.answered_briefly(),
            turn => format!("turn {turn}: {}", self.report.told.answered_briefly()),
        };
        let (anchor, x) = if x > WIDTH / 2.0 {
            (Anchor::End, x - 6.0)
        } else {
            (Anchor::Start, x + 6.0)
        };
        svg.text("plain", anchor, x, self.top + 80.0, &text);
    }

    /// A mark for each fault where it happened, and a line of text for each below.
    fn faults(&self, svg: &mut Svg) {
        let faults = &self.report.told.faults;
        for fault in faults {
            self.mark(svg, fault);
        }
        let mut y = self.legend_line();
        for fault in faults.iter().take(MOST_FAULTS) {
            y += LINE;
            sign(svg, fault, (EDGES.0 + 7.0, y - 4.0));
            svg.text("plain", Anchor::Start, EDGES.0 + 20.0, y, &fault.to_string());
        }
        if let Some(more) = faults.len().checked_sub(MOST_FAULTS).filter(|more| *more > 0) {
            svg.text(
                "plain",
                Anchor::Start,
                EDGES.0 + 20.0,
                y + LINE,
                &format!("and {more} more"),
            );
        }
    }

    fn mark(&self, svg: &mut Svg, fault: &Fault) {
        let turn = self.time.turn(fault.when) as f64;
        let (upper, lower) = self.bars_edges();
        let place = match fault.what {
            What::WrongSlot { .. } => {
                let x = self.x(turn - 0.5);
                svg.line("wrong", (x, upper), (x, lower));
                (x, upper)
            }
            What::Status { period, .. } | What::Written { period, .. } => {
                let bar = period.saturating_sub(1) / self.time.per_bar;
                (self.x(turn), upper + (bar as f64 + 0.5) * self.row())
            }
        };
        sign(svg, fault, place);
    }

    fn legend(&self, svg: &mut Svg) {
        let (mut x, y) = (EDGES.0, self.legend_line());
        for fate in [Fate::Accepted, Fate::Drained, Fate::NotCompleted, Fate::Failed] {
            if !self.time.bars.iter().any(|bar| bar.fate == fate) {
                continue;
            }
            svg.rect(class(fate), x, y - 9.0, 14.0, 9.0);
            svg.text("plain", Anchor::Start, x + 20.0, y, name(fate));
            x += 20.0 + LETTER * name(fate).len() as f64 + 16.0;
        }
        if self.time.per_bar > 1 {
            let text = format!("a bar is {} periods, and shows the worst of them", self.time.per_bar);
            svg.text("plain", Anchor::End, EDGES.1, y, &text);
        }
    }
}

/// A cross for a failure; for a wrong slot a point that hangs down.
fn sign(svg: &mut Svg, fault: &Fault, (x, y): (f64, f64)) {
    match fault.what {
        What::Status { .. } | What::Written { .. } => {
            svg.line("cross", (x - 5.0, y - 5.0), (x + 5.0, y + 5.0));
            svg.line("cross", (x - 5.0, y + 5.0), (x + 5.0, y - 5.0));
        }
        What::WrongSlot { .. } => {
            let points = [(x - 6.0, y - 5.0), (x + 6.0, y - 5.0), (x, y + 6.0)];
            svg.shape("point", &points);
        }
    }
}

const fn class(fate: Fate) -> &'static str {
    match fate {
        Fate::Accepted => "accepted",
        Fate::Drained => "drained",
        Fate::NotCompleted => "open",
        Fate::Failed => "failed",
    }
}

const fn name(fate: Fate) -> &'static str {
    match fate {
        Fate::Accepted => "accepted before the answer",
        Fate::Drained => "accepted in the drain",
        Fate::NotCompleted => "not completed",
        Fate::Failed => "failed",
    }
}
