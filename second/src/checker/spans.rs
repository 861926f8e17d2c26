//! When each operation began and when it ended, as the schedule, the answers
//! and the swaps in the log show it from outside.
//!
//! Change request 1: an operation is announced by three stores, each a step
//! of its process. "A process cut off before the third has no row open, wakes
//! idle and begins the same row again; "began" in demand 3 is the third
//! store." So it is the third step that an awake process with no row open and
//! rows left takes without a crash between. The row is open until its answer.
//!
//! Change request 6: an advance tries in rounds, and for it "No step limit is
//! claimed, since others may keep winning". So what it loses a round to must
//! stand in the log: a successful swap of another process on its word, between
//! the round's A1 and its A4.

use super::demands::TRUE;
use super::given::{Given, GivenRow, ADVANCE};
use super::outcome::Ran;
use super::swaps::Swaps;
use super::Violation;

const STORES: usize = 3;
/// "Left uncrashed, a process ends its operation within" 9 "of its own steps
/// from the start, or within 5 after a wake."
const STEPS_FROM_THE_START: usize = 9;
const STEPS_AFTER_A_WAKE: usize = 5;
/// A round of an advance: A1 to A4. The first reads, the last swaps or loses.
const STEPS_OF_A_ROUND: usize = 4;
/// What is left behind its swap: A5 and A6.
const STEPS_BEHIND_THE_SWAP: usize = 2;

/// From the third store to the answer, by position.
#[derive(Clone, Copy, Debug, PartialEq, Eq)]
pub struct Span {
    pub began: u64,
    pub ended: Option<u64>,
    /// Whether its announcement had been cut off before.
    pub begun_again: bool,
    /// Whether its process crashed while it was open.
    pub crashed: bool,
    pub advance: Advance,
}

/// What else is seen of an advance.
#[derive(Clone, Copy, Debug, Default, PartialEq, Eq)]
pub struct Advance {
    /// How many rounds it lost.
    pub lost_rounds: u64,
    /// Whether it came to the swap that the log has.
    pub swapped: bool,
    /// Whether it was cut off right behind that, so that only what A2 kept can
    /// tell its answer.
    pub cut_off_behind_the_swap: bool,
}

#[derive(Debug)]
pub struct Spans {
    /// By row number; none for a row that was never begun.
    rows: Vec<Option<Span>>,
    /// How many announcements were cut off after one store, and after two.
    pub cut_off: [u64; STORES - 1],
    /// How many rounds of advances were lost to a compare row's swap, and to
    /// an advance.
    pub rounds_lost_to: [u64; 2],
}

impl Spans {
    /// Follows the schedule and the answers, which must stand in the order of
    /// their positions.
    pub fn follow(given: &Given, ran: &Ran) -> Result<Spans, Violation> {
        let mut spans = Spans {
            rows: vec![None; given.rows.len()],
            cut_off: [0; STORES - 1],
            rounds_lost_to: [0; 2],
        };
        let swaps = Swaps::of(given, ran);
        let mut seen: Vec<Seen> = (0..given.processes)
            .map(|process| Seen::at_first(given, process))
            .collect();
        let mut answers = ran.answers.iter().peekable();
        for (position, byte) in (0..).zip(&given.schedule) {
            let answer = answers.next_if(|five| five.position == position);
            let moment = Moment {
                position,
                answer: answer.map(|five| five.row),
                given,
                swaps: &swaps,
            };
            spans.byte(&mut seen, *byte, &moment)?;
        }
        match answers.next() {
            Some(five) => Err(format!("row {} is answered beyond the schedule", five.row)),
            None => Ok(spans),
        }
    }

    /// When a row began and ended; one that has taken effect must have begun.
    pub fn of(&self, row: usize) -> Result<Span, Violation> {
        let span = self.rows.get(row).copied().flatten();
        span.ok_or_else(|| format!("row {row} has not begun"))
    }

    /// One byte of the schedule.
    fn byte(&mut self, seen: &mut [Seen], byte: u8, moment: &Moment) -> Result<(), Violation> {
        if byte == 0xF0 {
            seen.iter_mut().for_each(|each| self.crash(each));
        } else {
            let named = seen.get_mut(usize::from(byte & 15));
            match (byte >> 4, named) {
                (0, Some(one)) => return self.step(one, moment),
                (1, Some(one)) => self.crash(one),
                (2, Some(one)) => one.wake(),
                _ => return Err(format!("the byte at {} is no action", moment.position)),
            }
        }
        moment.refuse_answer()
    }

    fn step(&mut self, one: &mut Seen, moment: &Moment) -> Result<(), Violation> {
        if !one.awake {
            return moment.refuse_answer();
        }
        match &mut one.work {
            Work::Open {
                row,
                due: Due::Answer { .. },
            } if moment.answer == Some(*row) => {
                if let Some(Some(span)) = self.rows.get_mut(*row) {
                    span.ended = Some(moment.position);
                }
                one.work = Work::Announcing { stores: 0 };
                return Ok(());
            }
            Work::Open { row, .. } if moment.answer == Some(*row) => {
                return Err(format!(
                    "row {row} is answered at {}, before its swap",
                    moment.position
                ));
            }
            Work::Open { row, due } => *due = self.step_of_open(*row, *due, moment)?,
            Work::Announcing { stores } => {
                if let Some(row) = one.rows_left.last().copied() {
                    *stores += 1;
                    if *stores == STORES {
                        self.begin(one, row, moment);
                    }
                }
            }
        }
        moment.refuse_answer()
    }

    /// A step of an operation that does not end it; what is due behind it.
    fn step_of_open(&mut self, row: usize, due: Due, moment: &Moment) -> Result<Due, Violation> {
        let position = moment.position;
        match due {
            Due::Answer { within: 1 } => Err(format!("row {row} should have ended by {position}")),
            Due::Answer { within } => Ok(Due::Answer { within: within - 1 }),
            Due::Swap { done: 0, .. } => Ok(Due::Swap {
                done: 1,
                a1: position,
            }),
            Due::Swap { done, a1 } if done + 1 < STEPS_OF_A_ROUND => {
                Ok(Due::Swap { done: done + 1, a1 })
            }
            Due::Swap { a1, .. } => self.end_of_a_round(row, a1, moment),
        }
    }

    /// The fourth step of a round: the advance swaps, or it goes back to A1.
    fn end_of_a_round(&mut self, row: usize, a1: u64, moment: &Moment) -> Result<Due, Violation> {
        let (position, swaps) = (moment.position, moment.swaps);
        let (Some(GivenRow { word, process, .. }), Some(Some(span))) =
            (moment.given.rows.get(row), self.rows.get_mut(row))
        else {
            return Err(format!("row {row} has not begun"));
        };
        if swaps.is_at(row, position) {
            span.advance.swapped = true;
            return Ok(Due::Answer {
                within: STEPS_BEHIND_THE_SWAP,
            });
        }
        let Some(winner) = swaps.of_another_between(*word, *process, a1, position) else {
            return Err(format!(
                "row {row} does not swap at {position}, though nobody else has since {a1}"
            ));
        };
        span.advance.lost_rounds += 1;
        self.rounds_lost_to[usize::from(winner.verdict != TRUE)] += 1;
        Ok(Due::NEW_ROUND)
    }

    fn begin(&mut self, one: &mut Seen, row: usize, moment: &Moment) {
        one.rows_left.pop();
        let advances = moment
            .given
            .rows
            .get(row)
            .is_some_and(|row| row.kind == ADVANCE);
        one.work = Work::Open {
            row,
            due: if advances {
                Due::NEW_ROUND
            } else {
                Due::Answer {
                    within: STEPS_FROM_THE_START - STORES,
                }
            },
        };
        if let Some(span) = self.rows.get_mut(row) {
            *span = Some(Span {
                began: moment.position,
                ended: None,
                begun_again: one.was_cut_off,
                crashed: false,
                advance: Advance::default(),
            });
        }
        one.was_cut_off = false;
    }

    fn crash(&mut self, one: &mut Seen) {
        one.awake = false;
        match one.work {
            Work::Announcing { stores: 0 } => {}
            Work::Announcing { stores: made } => {
                self.cut_off[made - 1] += 1;
                one.was_cut_off = true;
                one.work = Work::Announcing { stores: 0 };
            }
            Work::Open { row, due } => {
                if let Some(Some(span)) = self.rows.get_mut(row) {
                    span.cut_off(due);
                }
            }
        }
    }
}

impl Span {
    /// Its process crashes, and this was due. Behind a first crash the answer
    /// is due within as many steps for other reasons.
    fn cut_off(&mut self, due: Due) {
        let nothing_done_since = due
            == Due::Answer {
                within: STEPS_BEHIND_THE_SWAP,
            };
        if !self.crashed && self.advance.swapped && nothing_done_since {
            self.advance.cut_off_behind_the_swap = true;
        }
        self.crashed = true;
    }
}

/// A byte of the schedule: where it stands, which row is answered at it, if
/// any, and all that is known besides.
struct Moment<'m> {
    position: u64,
    answer: Option<usize>,
    given: &'m Given,
    swaps: &'m Swaps<'m>,
}

impl Moment<'_> {
    /// For a byte that closes no row.
    fn refuse_answer(&self) -> Result<(), Violation> {
        match self.answer {
            Some(row) => Err(format!(
                "row {row} is answered at {}, not open",
                self.position
            )),
            None => Ok(()),
        }
    }
}

/// What can be seen of a process.
struct Seen {
    /// The rows that it has not begun, the next one last: "A process's rows
    /// are carried out in file order."
    rows_left: Vec<usize>,
    awake: bool,
    was_cut_off: bool,
    work: Work,
}

enum Work {
    /// No row is open; so many stores of an announcement are made.
    Announcing { stores: usize },
    /// A row is open, and this is what its process owes.
    Open { row: usize, due: Due },
}

#[derive(Clone, Copy, PartialEq, Eq)]
enum Due {
    /// The answer, within so many steps.
    Answer { within: usize },
    /// An advance's swap; so many steps of the round are done, and its A1 was
    /// there.
    Swap { done: usize, a1: u64 },
}

impl Due {
    /// A round of an advance that is still to begin; it has no A1 yet.
    const NEW_ROUND: Due = Due::Swap { done: 0, a1: 0 };
}

impl Seen {
    fn at_first(given: &Given, process: u64) -> Seen {
        let rows = given.rows.iter().enumerate().rev();
        let own = rows.filter(|(_, row)| row.process == process);
        Seen {
            rows_left: own.map(|(number, _)| number).collect(),
            awake: true,
            was_cut_off: false,
            work: Work::Announcing { stores: 0 },
        }
    }

    /// "within 5 after a wake" holds of every kind.
    fn wake(&mut self) {
        if self.awake {
            return;
        }
        self.awake = true;
        if let Work::Open { due, .. } = &mut self.work {
            *due = Due::Answer {
                within: STEPS_AFTER_A_WAKE,
            };
        }
    }
}
