//! Counts of the kinds that a stream meets, so that a stream that never meets
//! a kind is not taken for evidence about it.

use std::collections::BTreeMap;

use super::demands::{named_row, FAIL, ROUND, VALUE_BEFORE, VALUE_READ};
use super::given::{Given, Layout, ADVANCE};
use super::idle::{CRASH_OF_ONE_DOWN, WAKE_OF_ONE_UP};
use super::outcome::{Five, Ran};
use super::positions::lost_swaps;
use super::spans::{Span, Spans};
use super::Violation;

/// The refusals that a stream must meet, by version: number, and what is wrong
/// where that can be more than one thing. Version 0 is for those that come
/// before it is known that there is one. They stand in the order of the checks.
const REFUSALS: [&[(usize, &str)]; 3] = [
    &[(1, ""), (2, ""), (3, "")],
    &[
        (4, ""),
        (5, ""),
        (6, ""),
        (7, ""),
        (8, ""),
        (9, "process"),
        (9, "kind 2"),
        (9, "kind 3 or more"),
        (9, "word"),
        (9, "zero byte"),
        (9, "old of a read"),
        (9, "new"),
        (10, ""),
        (11, "of a compare"),
        (12, ""),
        (16, CRASH_OF_ONE_DOWN),
        (16, WAKE_OF_ONE_UP),
        (13, ""),
        (14, ""),
        (15, ""),
    ],
    &[
        (4, ""),
        (5, ""),
        (6, ""),
        (7, ""),
        (8, ""),
        (9, "process"),
        (9, "kind 3 or more"),
        (9, "word"),
        (9, "zero byte"),
        (9, "old of a read"),
        (9, "old of an advance"),
        (9, "new"),
        (10, ""),
        (11, "of a compare"),
        (11, "of an advance"),
        (12, ""),
        (16, CRASH_OF_ONE_DOWN),
        (16, WAKE_OF_ONE_UP),
        (13, ""),
        (14, ""),
        (15, ""),
    ],
];

#[derive(Default)]
pub struct Tally {
    /// By version; number 0 is not used.
    run: [u64; 3],
    /// By version, number and what is wrong.
    refused: BTreeMap<(usize, usize, String), u64>,
    /// By verdict.
    log: [u64; 5],
    answers: [u64; 5],
    lost_swaps: u64,
    advances: Advances,
    /// Values over 65,535 in the log.
    wide_values: u64,
    /// Final words with bits from 48 up.
    words_with_bits_of_no_process: u64,
    /// Announcements cut off after one store, and after two.
    cut_off: [u64; 2],
    /// Rows that failed after they had been cut off so and begun again.
    failed_when_begun_again: u64,
    crashes: u64,
    crashes_of_all: u64,
    wakes: u64,
}

/// What advances came to.
#[derive(Default)]
struct Advances {
    /// Told the value before: with nothing lost and nothing cut off, after a
    /// lost round, from what A2 kept, and both.
    plain: u64,
    after_a_lost_round: u64,
    from_what_was_kept: u64,
    from_what_was_kept_after_a_lost_round: u64,
    /// Told fail: with no round lost, and after a lost round.
    failed: u64,
    failed_after_a_lost_round: u64,
    /// In the log, with a sum that went round.
    wrapped: u64,
    /// Compare rows whose swap was lost to one.
    won_over_a_compare: u64,
    /// Rounds lost to the swap of a compare row, and to another advance.
    rounds_lost_to: [u64; 2],
}

/// A kind, how often it was met, and whether a stream must meet it.
pub struct Kind {
    pub name: String,
    pub count: u64,
    wanted: bool,
}

impl Kind {
    fn wanted(name: impl Into<String>, count: u64) -> Kind {
        Kind {
            name: name.into(),
            count,
            wanted: true,
        }
    }

    fn counted(name: &str, count: u64) -> Kind {
        Kind {
            wanted: false,
            ..Kind::wanted(name, count)
        }
    }

    pub fn is_missing(&self) -> bool {
        self.wanted && self.count == 0
    }
}

impl Tally {
    /// A refusal, and what is wrong if that can be more than one thing. 3 means
    /// "a version that is neither 1 nor 2" (change request 5), so behind it
    /// there is one of the two.
    pub fn refused(
        &mut self,
        number: usize,
        fault: Option<String>,
        layout: Option<Layout>,
    ) -> Result<(), Violation> {
        let version = match (number, layout) {
            (1 | 2, _) | (3, None) => 0,
            (4..=16, Some(layout)) => layout.version,
            (3, Some(layout)) => return Err(format!("there is a version {}", layout.version)),
            (4..=16, None) => return Err("the file is of no version".to_string()),
            _ => return Err(format!("there is no refusal {number}")),
        };
        let kind = (version, number, fault.unwrap_or_default());
        *self.refused.entry(kind).or_default() += 1;
        Ok(())
    }

    pub fn ran(&mut self, given: &Given, ran: &Ran, spans: &Spans) {
        self.run[given.layout.version] += 1;
        let is_wide = |five: &&Five| five.verdict == VALUE_READ && five.value > 65_535;
        self.wide_values += count(ran.log.iter().filter(is_wide));
        self.words_with_bits_of_no_process +=
            count(ran.words.iter().filter(|word| word.flips > 65_535));
        count_verdicts(&mut self.log, &ran.log);
        count_verdicts(&mut self.answers, &ran.answers);
        self.lost_swaps += count(lost_swaps(given, ran).iter().flatten());
        self.advances.ran(given, ran, spans);
        add(&mut self.cut_off, &spans.cut_off);
        let begun_again = |five: &&Five| spans.of(five.row).is_ok_and(|span| span.begun_again);
        let failed = ran.answers.iter().filter(|five| five.verdict == FAIL);
        self.failed_when_begun_again += count(failed.filter(begun_again));
        let actions = |high: u8| count(given.schedule.iter().filter(|byte| **byte >> 4 == high));
        self.crashes += actions(1);
        self.crashes_of_all += actions(15);
        self.wakes += actions(2);
    }

    pub fn kinds(&self) -> Vec<Kind> {
        let mut kinds = Vec::new();
        for version in 1..=2 {
            let name = format!("files of version {version} run");
            kinds.push(Kind::wanted(name, self.run[version]));
        }
        for (version, refusals) in REFUSALS.iter().enumerate() {
            kinds.extend(
                refusals
                    .iter()
                    .map(|refusal| self.refusal(version, *refusal)),
            );
        }
        for verdict in [0, 1, 3, 4] {
            let name = format!("log verdict {verdict}");
            kinds.push(Kind::wanted(name, self.log[verdict]));
        }
        for (verdict, count) in self.answers.iter().enumerate() {
            kinds.push(Kind::wanted(format!("answer verdict {verdict}"), *count));
        }
        kinds.push(Kind::wanted("lost swaps", self.lost_swaps));
        kinds.extend(self.advances.kinds());
        let [after_one, after_two] = self.cut_off;
        kinds.extend([
            Kind::wanted("values read over 65,535", self.wide_values),
            Kind::wanted(
                "final words with bits from 48 up",
                self.words_with_bits_of_no_process,
            ),
            Kind::wanted("starts cut off after 1 store", after_one),
            Kind::wanted("starts cut off after 2 stores", after_two),
            Kind::wanted("rows begun again that failed", self.failed_when_begun_again),
            Kind::counted("crashes in schedules run", self.crashes),
            Kind::counted("crashes of all in schedules run", self.crashes_of_all),
            Kind::counted("wakes in schedules run", self.wakes),
        ]);
        kinds
    }

    fn refusal(&self, version: usize, (number, fault): (usize, &str)) -> Kind {
        let key = (version, number, fault.to_string());
        let count = self.refused.get(&key).copied().unwrap_or(0);
        let of_version = match version {
            0 => String::new(),
            _ => format!("version {version} "),
        };
        let name = format!("{of_version}refused {number} {fault}");
        Kind::wanted(name.trim_end(), count)
    }
}

impl Advances {
    fn ran(&mut self, given: &Given, ran: &Ran, spans: &Spans) {
        let advances = |five: &&Five| named_row(given, five).is_ok_and(|row| row.kind == ADVANCE);
        for answer in ran.answers.iter().filter(advances) {
            if let Ok(span) = spans.of(answer.row) {
                self.answered(answer, span);
            }
        }
        let wraps =
            |five: &&Five| named_row(given, five).is_ok_and(|row| five.value + row.new >= ROUND);
        self.wrapped += count(ran.log.iter().filter(advances).filter(wraps));
        let winners = lost_swaps(given, ran).into_iter().flatten();
        self.won_over_a_compare += count(winners.filter(|swap| swap.verdict == VALUE_BEFORE));
        add(&mut self.rounds_lost_to, &spans.rounds_lost_to);
    }

    fn answered(&mut self, answer: &Five, span: Span) {
        let lost = u64::from(span.advance.lost_rounds > 0);
        if answer.verdict == FAIL {
            self.failed += 1 - lost;
            self.failed_after_a_lost_round += lost;
            return;
        }
        let kept = u64::from(span.advance.cut_off_behind_the_swap);
        self.plain += (1 - lost) * u64::from(!span.crashed);
        self.after_a_lost_round += lost;
        self.from_what_was_kept += kept;
        self.from_what_was_kept_after_a_lost_round += kept * lost;
    }

    fn kinds(&self) -> Vec<Kind> {
        let [to_a_compare, to_an_advance] = self.rounds_lost_to;
        let kinds = [
            ("advances told the value before, undisturbed", self.plain),
            (
                "advances told the value before after a lost round",
                self.after_a_lost_round,
            ),
            (
                "advances told the value before from what A2 kept",
                self.from_what_was_kept,
            ),
            (
                "advances told the value before from what A2 kept after a lost round",
                self.from_what_was_kept_after_a_lost_round,
            ),
            ("advances told fail, no round lost", self.failed),
            (
                "advances told fail after a lost round",
                self.failed_after_a_lost_round,
            ),
            ("advances whose sum went round", self.wrapped),
            ("compares that lost to an advance", self.won_over_a_compare),
            ("rounds of advances lost to a compare", to_a_compare),
            ("rounds of advances lost to an advance", to_an_advance),
        ];
        let wanted = |(name, count): (&str, u64)| Kind::wanted(name, count);
        kinds.map(wanted).into()
    }
}

fn count<T>(items: impl Iterator<Item = T>) -> u64 {
    items.count() as u64
}

fn add(sums: &mut [u64; 2], counts: &[u64; 2]) {
    for (sum, count) in sums.iter_mut().zip(counts) {
        *sum += count;
    }
}

fn count_verdicts(counts: &mut [u64; 5], fives: &[Five]) {
    for five in fives {
        if let Some(count) = counts.get_mut(five.verdict as usize) {
            *count += 1;
        }
    }
}
