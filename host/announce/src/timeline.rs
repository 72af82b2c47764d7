//! The periods and turns of an announcement, thinned out to what a picture can show.
use crate::told::{Period, Told, When};

/// At most so many bars; more periods share them.
const MOST_BARS: usize = 180;
/// At most so many columns of the number in flight; more turns share them.
const MOST_COLUMNS: u64 = 438;

/// What became of a period; the worst last.
#[derive(Clone, Copy, PartialEq, Eq, PartialOrd, Ord, Debug)]
pub enum Fate {
    Accepted,
    Drained,
    NotCompleted,
    Failed,
}

/// Periods in a row, from the beginning of their first submission's turn to the end of their last completion's.
#[derive(Clone, Copy, PartialEq, Eq, Debug)]
pub struct Bar {
    pub from: u64,
    pub to: u64,
    pub fate: Fate,
}

/// Turns in a row, and the most that were in flight in one of them.
#[derive(Clone, Copy, PartialEq, Eq, Debug)]
pub struct Column {
    pub from: u64,
    pub to: u64,
    pub most: u64,
}

pub struct Timeline {
    /// Turns of the transfer; those of the drain come after.
    pub transfer: u64,
    /// All turns.
    pub turns: u64,
    pub bars: Vec<Bar>,
    /// Periods to a bar.
    pub per_bar: usize,
    pub columns: Vec<Column>,
    /// Turns to a column.
    pub per_column: u64,
}

impl Timeline {
    pub fn new(told: &Told) -> Self {
        let per_bar = told.periods.len().div_ceil(MOST_BARS).max(1);
        let turns = told.turns + told.drain_turns;
        let mut timeline = Self {
            transfer: told.turns,
            turns,
            bars: Vec::new(),
            per_bar,
            columns: Vec::new(),
            per_column: turns.div_ceil(MOST_COLUMNS).max(1),
        };
        let bars = told.periods.chunks(per_bar);
        timeline.bars = bars.filter_map(|periods| timeline.bar(periods)).collect();
        timeline.columns = timeline.columns(&told.periods);
        timeline
    }

    /// A turn's number among all turns.
    pub const fn turn(&self, when: When) -> u64 {
        match when {
            When::Transfer(turn) => turn,
            When::Drain(turn) => self.transfer + turn,
        }
    }

    /// The turn at whose end a period was the device's no more.
    fn end(&self, period: &Period) -> u64 {
        period
            .completed
            .map_or(self.turns, |completed| self.turn(completed.when))
    }

    fn bar(&self, periods: &[Period]) -> Option<Bar> {
        Some(Bar {
            from: periods.iter().map(|period| period.submitted).min()? - 1,
            to: periods.iter().map(|period| self.end(period)).max()?,
            fate: periods.iter().map(fate).max()?,
        })
    }

    fn columns(&self, periods: &[Period]) -> Vec<Column> {
        let size = self.per_column;
        let mut columns: Vec<_> = (0..self.turns.div_ceil(size))
            .map(|number| Column {
                from: number * size,
                to: self.turns.min((number + 1) * size),
                most: 0,
            })
            .collect();
        for (from, to, number) in self.in_flight(periods) {
            let (first, last) = ((from - 1) / size, (to - 1) / size);
            let touched = columns.iter_mut().take(last as usize + 1).skip(first as usize);
            touched.for_each(|column| column.most = column.most.max(number));
        }
        columns
    }

    /// Runs of turns, first and last, with the same number in flight.
    fn in_flight(&self, periods: &[Period]) -> Vec<(u64, u64, u64)> {
        let mut goes: Vec<u64> = periods.iter().map(|period| period.submitted).collect();
        let mut comes: Vec<u64> = periods.iter().map(|period| self.end(period) + 1).collect();
        goes.sort_unstable();
        comes.sort_unstable();
        let mut changes = [goes.as_slice(), &comes].concat();
        changes.sort_unstable();
        changes.dedup();
        let mut runs = Vec::new();
        for (at, from) in changes.iter().enumerate() {
            let next = changes.get(at + 1).copied().unwrap_or(self.turns + 1);
            let out = goes.partition_point(|turn| turn <= from) - comes.partition_point(|turn| turn <= from);
            if *from < next {
                runs.push((*from, next - 1, out as u64));
            }
        }
        runs
    }
}

const fn fate(period: &Period) -> Fate {
    match (period.completed, &period.payload) {
        (None, _) => Fate::NotCompleted,
        (Some(_), None) => Fate::Failed,
        (Some(completed), Some(_)) => match completed.when {
            When::Transfer(_) => Fate::Accepted,
            When::Drain(_) => Fate::Drained,
        },
    }
}

/// Numbers for an axis up to `last`: multiples of 1, 2 or 5 times a power of ten, at most so many.
pub fn ticks(last: u64, most: u64) -> Vec<u64> {
    let mut steps = (0..=18).flat_map(|power| [1, 2, 5].map(|digit| digit * 10u64.pow(power)));
    let step = steps.find(|step| last / step <= most).unwrap_or(u64::MAX);
    (1..=last / step).map(|number| number * step).collect()
}

#[cfg(test)]
#[allow(clippy::indexing_slicing)]
mod tests {
    use super::{Bar, Column, Fate, Timeline, ticks};
    use crate::told::{Completed, Period, Told, When};
    use snd::STATUS_OK;

    #[test]
    fn axes() {
        assert_eq!(ticks(0, 5), []);
        assert_eq!(ticks(3, 5), [1, 2, 3]);
        assert_eq!(ticks(9, 5), [2, 4, 6, 8]);
        assert_eq!(ticks(142, 10), [20, 40, 60, 80, 100, 120, 140]);
        assert_eq!(ticks(u64::MAX, 4).len(), 3);
    }

    /// Submitted one a turn from turn 1 on, each completed `after` turns later.
    fn told(periods: u64, after: u64) -> Told {
        let period = |number| Period {
            slot: 0,
            offset: 0,
            length: 1,
            submitted: number,
            completed: Some(Completed {
                when: When::Transfer(number + after),
                status: STATUS_OK,
            }),
            payload: Some(vec![0]),
        };
        Told {
            turns: periods + after,
            periods: (1..=periods).map(period).collect(),
            ..Told::default()
        }
    }

    #[test]
    fn a_bar_to_a_period() {
        let timeline = Timeline::new(&told(3, 1));
        let bar = |from, to| Bar {
            from,
            to,
            fate: Fate::Accepted,
        };
        assert_eq!(timeline.bars, [bar(0, 2), bar(1, 3), bar(2, 4)]);
        let most: Vec<_> = timeline.columns.iter().map(|column| column.most).collect();
        assert_eq!(most, [1, 2, 2, 1]);
    }

    #[test]
    fn the_drain_comes_after_and_the_worst_shows() {
        let mut told = told(2, 0);
        told.drain_turns = 3;
        let late = &mut told.periods[1];
        late.completed = Some(Completed {
            when: When::Drain(2),
            status: 0x8003,
        });
        late.payload = None;
        let timeline = Timeline::new(&told);
        let failed = Bar {
            from: 1,
            to: 4,
            fate: Fate::Failed,
        };
        assert_eq!(timeline.bars[1], failed);
        let most: Vec<_> = timeline.columns.iter().map(|column| column.most).collect();
        assert_eq!(most, [1, 1, 1, 1, 0]);
    }

    #[test]
    fn thousands_share_bars_and_columns() {
        let timeline = Timeline::new(&told(100_000, 9));
        assert_eq!((timeline.bars.len(), timeline.per_bar), (180, 556));
        assert!(timeline.columns.len() <= 438);
        let last = timeline.columns.last().map(|column| (column.to, column.most));
        assert_eq!(last, Some((100_009, 10)));
        let first = Column {
            from: 0,
            to: 229,
            most: 10,
        };
        assert_eq!(timeline.columns[0], first);
    }
}
