//! Valid files made of scenes: small plays for one or a few processes in
//! which something is meant to happen (a swap, a race, a crash at a stage).

use super::draft::Draft;
use super::random::Random;
use super::script::{
    Change, Opened, Script, Size, SHORT_STEPS, START_STEPS, STEPS_TO_A1, STEPS_TO_A3, STEPS_TO_A4,
    SWAP_STEPS,
};
use crate::machine::Version;

type Scene = fn(&mut Script);

/// What happens in a file.
#[derive(Clone, Copy)]
pub enum Mood {
    /// Everything; some files are calm and some are full of crashes.
    Any,
    /// Hardly a swap is lost.
    Calm,
    /// Every scene loses swaps.
    Racing,
    /// Every scene is of advances that lose rounds to each other.
    Pushing,
    /// Advances and swaps lose to each other.
    Mixed,
    /// The same, and advances are cut off.
    Pressed,
}

impl Mood {
    /// How many of a hundred changes are advances. There are none in version 1,
    /// and of the moods for version 2 some go without them.
    fn advances(self, version: Version, random: &mut Random) -> usize {
        match (self, version) {
            (_, Version::One) | (Mood::Calm | Mood::Racing, Version::Two) => 0,
            (Mood::Any, Version::Two) => random.one_of([0, 25, 50, 90]),
            (Mood::Pushing, Version::Two) => 100,
            (Mood::Mixed, Version::Two) => 50,
            (Mood::Pressed, Version::Two) => 60,
        }
    }

    /// How often each scene is played.
    fn scenes(self, advances: usize, random: &mut Random) -> [(usize, Scene); 10] {
        let [a, r, t, w, c, o, s, n, p, x] = match self {
            Mood::Any => {
                let crashes = random.one_of([0, 5, 20, 60]);
                let few = crashes / 5;
                // For each scene of advances there is room among the others.
                let (push, cut_off) = (advances / 3, crashes * advances / 100);
                [
                    20,
                    25,
                    15,
                    15,
                    crashes,
                    crashes / 2,
                    few,
                    few,
                    push,
                    cut_off,
                ]
            }
            Mood::Calm => [90, 2, 2, 0, 6, 0, 0, 0, 0, 0],
            Mood::Racing => [0, 1, 0, 1, 0, 0, 0, 0, 0, 0],
            Mood::Pushing => [0, 0, 0, 0, 0, 0, 0, 0, 1, 0],
            Mood::Mixed => [0, 2, 0, 2, 0, 0, 0, 0, 1, 0],
            Mood::Pressed => [1, 4, 1, 1, 0, 0, 0, 0, 1, 8],
        };
        [
            (a, alone),
            (r, race),
            (t, there_and_back),
            (w, weave),
            (c, crash_at_a_stage),
            (o, cut_off_start),
            (s, storm),
            (n, noise),
            (p, push),
            (x, cut_off_advance),
        ]
    }
}

/// A file of scenes up to the length of the schedule.
pub fn write_scenes(size: Size, mood: Mood, random: &mut Random) -> Draft {
    let advances = mood.advances(size.version, random);
    let scenes = mood.scenes(advances, random);
    let mut script = Script::blank(size, advances, random);
    while script.length() < size.schedule {
        let scene = script.random.weighted(scenes);
        scene(&mut script);
    }
    script.finish(size)
}

/// One process does one operation from beginning to end.
fn alone(script: &mut Script) {
    let process = script.any_process();
    let word = script.any_word();
    let opened = script.open_any(process, word);
    script.steps(process, opened.steps);
    if let Some(change) = opened.change {
        script.carry_out(change, word);
    }
}

/// Two processes on one word: the second swaps between the first one's A1 and
/// A4, so the first one's swap is lost.
fn race(script: &mut Script) {
    let (loser, winner) = script.two_processes();
    let word = script.any_word();
    let lost = script.open_next(loser, word);
    let won = script.open_next(winner, word);
    let before = script.random.between(STEPS_TO_A1, STEPS_TO_A3);
    script.steps(loser, before);
    script.steps(winner, STEPS_TO_A4);
    script.carry_out(won, word);
    let winner_first = script.random.percent(50);
    if winner_first {
        script.steps(winner, SWAP_STEPS - STEPS_TO_A4);
    }
    script.rest_of_a_loser(loser, word, lost, before);
    if !winner_first {
        script.steps(winner, SWAP_STEPS - STEPS_TO_A4);
    }
}

/// Between one process's A1 and A4 the value goes away and comes back: by two
/// others, and the flip bits tell; or by one other that swaps twice, and the
/// whole word is as read again.
fn there_and_back(script: &mut Script) {
    let (first, second) = script.two_processes();
    let third = if script.random.percent(50) {
        second
    } else {
        script.other_than(first)
    };
    let word = script.any_word();
    let old = script.values[word];
    let change = script.open_next(first, word);
    let before = script.random.between(STEPS_TO_A1, STEPS_TO_A3);
    script.steps(first, before);
    script.whole_change(second, word);
    let away = script.values[word];
    script.open_from_to(third, word, away, old);
    script.steps(third, SWAP_STEPS);
    script.values[word] = old;
    if second == third {
        script.carry_out(change, word);
        script.steps(first, SWAP_STEPS - before);
    } else {
        script.rest_of_a_loser(first, word, change, before);
    }
}

/// One process crashes with its row open and recovers.
fn crash_at_a_stage(script: &mut Script) {
    let (process, other) = script.two_processes();
    let word = script.any_word();
    let opened = script.open_any(process, word);
    crash_and_recover(script, process, other, word, opened);
}

/// One process is cut off between the stores of a start, once or again and
/// again; it wakes idle and begins the same row again. Mostly its row before
/// was a swap that succeeded, so that a stored true and a checkpoint are
/// there to be cleared; and often it crashes once more with the row open, so
/// that a recovery would meet what is left of them. An advance before it has
/// left its kept value, too.
fn cut_off_start(script: &mut Script) {
    let (process, other) = script.two_processes();
    let word = script.any_word();
    if script.random.percent(75) {
        script.whole_change(process, word);
    }
    let mut opened = script.open_any(process, word);
    loop {
        let stores = script.random.between(1, START_STEPS - 1);
        script.steps(process, stores);
        script.crash(process);
        if other != process && script.random.percent(20) {
            script.whole_change(other, word);
            // A compare meets another value then; an advance does not mind.
            if !opened.change.is_some_and(Change::is_advance) {
                opened = Opened::SHORT;
            }
        }
        script.wake(process);
        if script.random.percent(70) {
            break;
        }
    }
    if script.random.percent(65) {
        crash_and_recover(script, process, other, word, opened);
        return;
    }
    script.steps(process, opened.steps);
    if let Some(change) = opened.change {
        script.carry_out(change, word);
    }
}

/// The process of an operation that is about to begin crashes after any
/// number of steps, with its row open, and recovers, perhaps with the other
/// one at work before or meanwhile, perhaps crashing again in recovery.
fn crash_and_recover(
    script: &mut Script,
    process: usize,
    other: usize,
    word: usize,
    opened: Opened,
) {
    if let Some(change @ Change::Advance { .. }) = opened.change {
        cut_off_and_recover(script, process, other, word, change);
        return;
    }
    let done = script.random.between(START_STEPS, opened.steps);
    let swapped = steps_perhaps_disturbed(script, process, other, word, opened, done);
    crash_and_wake(script, process, other, word);
    script.steps(process, recovery_steps(opened, done, swapped));
}

/// A crash and a wake, perhaps with the other one at work meanwhile, perhaps
/// with further crashes in recovery.
fn crash_and_wake(script: &mut Script, process: usize, other: usize, word: usize) {
    script.crash(process);
    if other != process && script.random.percent(50) {
        script.wake(other);
        script.whole_change(other, word);
    }
    script.wake(process);
    while script.random.percent(40) {
        let into_recovery = script.random.between(0, 4);
        script.steps(process, into_recovery);
        script.crash(process);
        script.wake(process);
    }
}

/// An advance is cut off at any step, mostly in a round behind one or two that
/// it has lost, and recovers.
fn cut_off_advance(script: &mut Script) {
    let (process, other) = script.two_processes();
    let word = script.any_word();
    let change = script.open_next_advance(process, word);
    cut_off_and_recover(script, process, other, word, change);
}

/// The same, of an advance that is about to begin.
fn cut_off_and_recover(
    script: &mut Script,
    process: usize,
    other: usize,
    word: usize,
    change: Change,
) {
    let lost = match process == other {
        true => 0,
        false => script.random.weighted([(4, 0), (4, 1), (1, 2)]),
    };
    script.steps(process, START_STEPS);
    for _ in 0..lost {
        let before = script.random.between(STEPS_TO_A1, STEPS_TO_A3);
        script.steps(process, before - START_STEPS);
        script.whole_change(other, word);
        script.steps(process, STEPS_TO_A4 - before);
    }
    // Right behind its swap only the kept value tells what the answer is.
    let any = script.random.between(START_STEPS, SWAP_STEPS);
    let done = script.random.one_of([any, any, STEPS_TO_A4]);
    script.steps(process, done - START_STEPS);
    if done >= STEPS_TO_A4 {
        script.carry_out(change, word);
    }
    crash_and_wake(script, process, other, word);
    let opened = Opened {
        steps: SWAP_STEPS,
        change: Some(change),
    };
    // Behind a lost round there is a checkpoint, as behind A3.
    let seen = if lost > 0 {
        done.max(STEPS_TO_A3)
    } else {
        done
    };
    let recovery = recovery_steps(opened, seen, done >= STEPS_TO_A4);
    script.steps(process, recovery);
}

/// So many steps of an operation just opened; perhaps the other one swaps the
/// same word behind its A1. Whether its own swap went through.
fn steps_perhaps_disturbed(
    script: &mut Script,
    process: usize,
    other: usize,
    word: usize,
    opened: Opened,
    done: usize,
) -> bool {
    if other != process && done > STEPS_TO_A1 && script.random.percent(35) {
        script.steps(process, STEPS_TO_A1);
        script.whole_change(other, word);
        script.steps(process, done - STEPS_TO_A1);
        return false;
    }
    script.steps(process, done);
    match opened.change {
        Some(change) if done >= STEPS_TO_A4 => {
            script.carry_out(change, word);
            true
        }
        _ => false,
    }
}

/// How many steps the recovery takes if it is not disturbed.
fn recovery_steps(opened: Opened, done: usize, swapped: bool) -> usize {
    if done == opened.steps {
        0 // The row was closed.
    } else if done + 1 == opened.steps {
        2 // V1 and V5: an answer is stored.
    } else if done < STEPS_TO_A3 {
        3 // V1, V2 and V6: no checkpoint.
    } else if swapped {
        5 // V1 to V5.
    } else {
        4 // V1, V2, V3 and V6.
    }
}

/// Several processes, each with a change of the same word, take their steps in
/// any order. Of swaps the first to come to A4 wins.
fn weave(script: &mut Script) {
    let word = script.any_word();
    let mut players = Vec::new();
    for process in script.several_processes() {
        let change = script.open_next(process, word);
        players.push(Player::new(process, vec![change]));
    }
    play(script, word, players);
}

/// Several processes advance the same word, each once or again and again, and
/// take their steps in any order: rounds are lost, and mostly more than one.
fn push(script: &mut Script) {
    let word = script.any_word();
    let mut players = Vec::new();
    for process in script.several_processes() {
        let count = script.random.one_of([1, 1, 2, 3]);
        let advance = |_| script.open_next_advance(process, word);
        players.push(Player::new(process, (0..count).map(advance).collect()));
    }
    play(script, word, players);
}

/// A process with changes of a word to do, the first of them in hand.
struct Player {
    process: usize,
    changes: Vec<Change>,
    done: usize,
    last: usize,
    /// How many swaps the word had seen at its A1.
    read: usize,
}

impl Player {
    fn new(process: usize, changes: Vec<Change>) -> Player {
        Player {
            process,
            changes,
            done: 0,
            last: SWAP_STEPS,
            read: 0,
        }
    }

    /// A step over a word of this value that has seen so many swaps; what it
    /// puts in, if it swaps.
    fn step(&mut self, value: u32, swaps: usize) -> Option<u32> {
        let change = *self.changes.first()?;
        self.done += 1;
        let mut put_in = None;
        if self.done == STEPS_TO_A1 {
            self.read = swaps;
            self.last = match change.meets(value) {
                true => SWAP_STEPS,
                false => SHORT_STEPS,
            };
        } else if self.done == STEPS_TO_A4 && self.read == swaps {
            put_in = Some(change.leaves(value));
        } else if self.done == STEPS_TO_A4 && change.is_advance() {
            self.done = START_STEPS;
        }
        if self.done == self.last {
            self.changes.remove(0);
            (self.done, self.last) = (0, SWAP_STEPS);
        }
        put_in
    }
}

/// The players take their steps in any order until all is done.
fn play(script: &mut Script, word: usize, mut players: Vec<Player>) {
    let mut swaps = 0;
    while !players.is_empty() {
        let turn = script.random.below(players.len());
        let player = &mut players[turn];
        script.steps(player.process, 1);
        if let Some(new) = player.step(script.values[word], swaps) {
            script.values[word] = new;
            swaps += 1;
        }
        if player.changes.is_empty() {
            players.swap_remove(turn);
        }
    }
}

/// Some are at work when all crash; most wake, in any order, and go on for a
/// while.
fn storm(script: &mut Script) {
    for process in script.several_processes() {
        let word = script.any_word();
        let opened = script.open_any(process, word);
        let steps = script.random.between(1, opened.steps);
        script.steps(process, steps);
    }
    script.crash_all();
    for process in script.all_processes() {
        if script.random.percent(90) {
            script.wake(process);
        }
        let steps = script.random.between(0, 5);
        script.steps(process, steps);
    }
}

/// Any bytes that are actions, also those that change nothing.
fn noise(script: &mut Script) {
    for _ in 0..script.random.between(1, 6) {
        script.any_action();
    }
}
