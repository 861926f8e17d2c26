//! `second generate`: a stream of run files, valid and damaged, mixed by a
//! seed, with buffers long enough and too short.

mod draft;
mod faults;
mod lengths;
pub mod random;
mod raw;
mod scenes;
mod script;
mod upright;
mod valid;

use std::io::{self, BufWriter, Write};

use crate::machine::Version;
use crate::stream::{Record, LONGEST_FILE};
use crate::Ending;

use draft::Draft;
use random::Random;
use scenes::Mood;
use valid::{
    fullest_draft, long_draft, quiet_draft, reading_draft, short_advance_draft, short_draft,
    valid_draft,
};

/// What sort of files a stream has.
#[derive(Clone, Copy)]
pub enum Flavour {
    /// Valid files and damaged ones, of every size and of both versions.
    Any,
    /// The same, of short files only.
    Short,
    /// Valid files of one version with the longest schedule, and few or many
    /// lost swaps.
    FewLost(Version),
    ManyLost(Version),
    /// Valid files with the longest schedule that answer nothing.
    Quiet(Version),
    /// Valid files with the longest schedule, all of reads: a long log.
    Reads(Version),
    /// Valid files of version 2 with the longest schedule, all of advances that
    /// lose rounds to each other.
    Advances,
    /// The same with advances and swaps that lose to each other.
    Mixed,
    /// Short valid files of version 2 with advances that lose rounds, go round
    /// and are cut off.
    ShortAdvances,
}

impl Flavour {
    pub fn named(name: &str) -> Option<Flavour> {
        match name {
            "any" => Some(Flavour::Any),
            "short" => Some(Flavour::Short),
            "few" => Some(Flavour::FewLost(Version::One)),
            "few2" => Some(Flavour::FewLost(Version::Two)),
            "many" => Some(Flavour::ManyLost(Version::One)),
            "many2" => Some(Flavour::ManyLost(Version::Two)),
            "quiet" => Some(Flavour::Quiet(Version::One)),
            "quiet2" => Some(Flavour::Quiet(Version::Two)),
            "reads" => Some(Flavour::Reads(Version::One)),
            "reads2" => Some(Flavour::Reads(Version::Two)),
            "advance2" => Some(Flavour::Advances),
            "mixed2" => Some(Flavour::Mixed),
            "short-advance2" => Some(Flavour::ShortAdvances),
            _ => None,
        }
    }

    fn record(self, random: &mut Random) -> Record {
        match self {
            Flavour::Any => any_record(random),
            Flavour::Short => {
                let kind = any_kind(random);
                let version = any_version(random);
                record_of(kind, short_draft(version, random), random)
            }
            Flavour::FewLost(version) => exact_record(long_draft(version, Mood::Calm, random)),
            Flavour::ManyLost(version) => exact_record(long_draft(version, Mood::Racing, random)),
            Flavour::Quiet(version) => exact_record(quiet_draft(version, random)),
            Flavour::Reads(version) => exact_record(reading_draft(version, random)),
            Flavour::Advances => exact_record(long_draft(Version::Two, Mood::Pushing, random)),
            Flavour::Mixed => exact_record(long_draft(Version::Two, Mood::Mixed, random)),
            Flavour::ShortAdvances => exact_record(short_advance_draft(random)),
        }
    }
}

pub fn command(seed: u64, count: u64, flavour: Flavour) -> io::Result<Ending> {
    let mut out = BufWriter::new(io::stdout().lock());
    for record in records(seed, count, flavour) {
        record.write(&mut out)?;
    }
    out.flush()?;
    Ok(Ending::Clean)
}

/// The records of the stream.
pub fn records(seed: u64, count: u64, flavour: Flavour) -> impl Iterator<Item = Record> {
    let mut random = Random::seeded(seed);
    (0..count).map(move |_| flavour.record(&mut random))
}

#[derive(Clone, Copy)]
enum Kind {
    Valid,
    ShortBuffers,
    SingleFault,
    SeveralFaults,
    SeveralRowFaults,
    Damaged,
}

fn any_kind(random: &mut Random) -> Kind {
    random.weighted([
        (46, Kind::Valid),
        (12, Kind::ShortBuffers),
        (18, Kind::SingleFault),
        (6, Kind::SeveralFaults),
        (8, Kind::SeveralRowFaults),
        (10, Kind::Damaged),
    ])
}

fn any_version(random: &mut Random) -> Version {
    random.one_of([Version::One, Version::Two])
}

/// A valid file with buffers of just the lengths that it needs.
fn exact_record(draft: Draft) -> Record {
    Record {
        file: draft.bytes(),
        lengths: lengths::exact(draft.words.len(), draft.schedule.len()),
    }
}

fn any_record(random: &mut Random) -> Record {
    let kind = any_kind(random);
    let version = any_version(random);
    let draft = if random.percent(2) {
        fullest_draft(version, random)
    } else {
        valid_draft(version, random)
    };
    record_of(kind, draft, random)
}

fn record_of(kind: Kind, draft: Draft, random: &mut Random) -> Record {
    let needed = lengths::exact(draft.words.len(), draft.schedule.len());
    match kind {
        Kind::Valid => Record {
            file: draft.bytes(),
            lengths: lengths::sufficient(needed, random),
        },
        Kind::ShortBuffers => Record {
            file: draft.bytes(),
            lengths: lengths::short(needed, random),
        },
        Kind::SingleFault => refusable(faults::single_fault(draft, random).bytes(), random),
        Kind::SeveralFaults => refusable(faults::several_faults(draft, random).bytes(), random),
        Kind::SeveralRowFaults => {
            refusable(faults::several_row_faults(draft, random).bytes(), random)
        }
        Kind::Damaged => refusable(raw::damaged(draft, random), random),
    }
}

/// A record of a file that is likely to be refused, within the stream's limit.
fn refusable(mut file: Vec<u8>, random: &mut Random) -> Record {
    file.truncate(LONGEST_FILE);
    Record {
        file,
        lengths: lengths::any(random),
    }
}

#[cfg(test)]
mod tests {
    use super::*;
    use crate::stream::{MOST_ANSWERS, MOST_LOG, MOST_WORDS};

    #[test]
    fn records_stay_within_the_limits_of_a_stream() {
        let mut random = Random::seeded(7);
        for _ in 0..2_000 {
            let Record { file, lengths } = any_record(&mut random);
            assert!(file.len() <= LONGEST_FILE);
            assert!(lengths.words <= MOST_WORDS);
            assert!(lengths.log <= MOST_LOG);
            assert!(lengths.answers <= MOST_ANSWERS);
        }
    }

    #[test]
    fn a_seed_gives_the_same_records_again() {
        let records = |seed| {
            let mut random = Random::seeded(seed);
            (0..50).map(|_| any_record(&mut random)).collect::<Vec<_>>()
        };
        assert_eq!(records(3), records(3));
        assert_ne!(records(3), records(4));
    }

    /// The first words of the lines that a file of a flavour comes to.
    fn line_names(flavour: Flavour) -> Vec<String> {
        let record = flavour.record(&mut Random::seeded(5));
        let mut printed = Vec::new();
        crate::sweep::print_record(&record, &mut printed).unwrap();
        let printed = String::from_utf8(printed).unwrap();
        let names = |line: &str| line.split(' ').next().unwrap().to_string();
        printed.lines().map(names).collect()
    }

    const VERSIONS: [Version; 2] = [Version::One, Version::Two];

    #[test]
    fn a_quiet_file_runs_and_answers_nothing() {
        for version in VERSIONS {
            assert_eq!(line_names(Flavour::Quiet(version)), ["run", "word", "sum"]);
        }
    }

    /// A read takes six steps, of which the fifth logs it: 1,024 are 170 and
    /// four over.
    #[test]
    fn reads_make_a_long_log() {
        for version in VERSIONS {
            let names = line_names(Flavour::Reads(version));
            let count = |name: &str| names.iter().filter(|other| *other == name).count();
            assert_eq!((count("log"), count("answer")), (170, 170));
        }
    }

    /// The generator's valid files are valid: each has an outcome that is no
    /// refusal, and the checker in its turn must find them readable.
    #[test]
    fn valid_files_run() {
        let mut random = Random::seeded(11);
        for version in VERSIONS {
            for _ in 0..500 {
                let draft = valid_draft(version, &mut random);
                let record = record_of(Kind::Valid, draft, &mut random);
                assert_eq!(u16::from(record.file[3]), version.number());
                let mut printed = Vec::new();
                crate::sweep::print_record(&record, &mut printed).unwrap();
                assert!(printed.starts_with(b"run "));
            }
            let fullest = fullest_draft(version, &mut random).bytes();
            assert_eq!(fullest.len(), version.longest_file());
        }
    }

    /// "generator: valid files have no such byte": of every flavour.
    #[test]
    fn valid_files_have_no_idle_byte() {
        let mut random = Random::seeded(43);
        let mut drafts = Vec::new();
        for version in VERSIONS {
            for _ in 0..400 {
                drafts.push(valid_draft(version, &mut random));
                drafts.push(short_draft(version, &mut random));
            }
            drafts.push(fullest_draft(version, &mut random));
            for mood in [Mood::Calm, Mood::Racing] {
                drafts.push(long_draft(version, mood, &mut random));
            }
            drafts.push(quiet_draft(version, &mut random));
        }
        drafts.push(short_advance_draft(&mut random));
        let (mut crashes, mut wakes) = (0, 0);
        for draft in drafts {
            let mut upright = upright::Upright::at_first();
            assert!(draft.schedule.iter().all(|byte| upright.takes(*byte)));
            let of = |high: u8| {
                draft
                    .schedule
                    .iter()
                    .filter(|byte| **byte >> 4 == high)
                    .count()
            };
            crashes += of(1);
            wakes += of(2);
        }
        assert!(crashes > 2_000 && wakes > 2_000, "{crashes} and {wakes}");
    }

    /// The version of each record, as its header gives it, if it has one.
    fn versions(flavour: Flavour) -> Vec<u16> {
        let files = records(17, 2_000, flavour).map(|record| record.file);
        let version = |file: Vec<u8>| Some(u16::from_le_bytes([*file.get(3)?, *file.get(4)?]));
        files.filter_map(version).collect()
    }

    #[test]
    fn any_and_short_mix_the_versions_half_and_half() {
        for flavour in [Flavour::Any, Flavour::Short] {
            let versions = versions(flavour);
            let of = |number: u16| versions.iter().filter(|other| **other == number).count();
            assert!(of(1) > 800 && of(2) > 800, "{} and {}", of(1), of(2));
            assert!([0, 3, 258].into_iter().all(|number| of(number) > 0));
        }
    }

    #[test]
    fn the_other_flavours_have_one_version() {
        for version in VERSIONS {
            let digit = if version == Version::Two { "2" } else { "" };
            for name in ["few", "many", "quiet", "reads"] {
                let flavour = Flavour::named(&format!("{name}{digit}")).unwrap();
                let mut numbers = records(3, 3, flavour).map(|record| record.file[3]);
                assert!(numbers.all(|number| u16::from(number) == version.number()));
            }
        }
        assert!(Flavour::named("any2").is_none() && Flavour::named("few1").is_none());
    }

    /// What the checker says of so many files of a flavour: whether there is no
    /// violation, and how often each kind was met.
    fn kinds_of(flavour: Flavour, seed: u64, count: u64) -> Vec<(String, u64)> {
        let (mut stream, mut outcomes, mut said) = (Vec::new(), Vec::new(), Vec::new());
        for record in records(seed, count, flavour) {
            record.write(&mut stream).unwrap();
            crate::sweep::print_record(&record, &mut outcomes).unwrap();
        }
        crate::checker::check(&mut &stream[..], &mut &outcomes[..], &mut said).unwrap();
        let said = String::from_utf8(said).unwrap();
        let (first, kinds) = said.split_once('\n').unwrap();
        assert_eq!(first, format!("{count} records checked, no violation"));
        let met = kinds.lines().filter(|line| !line.starts_with("never met"));
        let kind = |line: &str| {
            let (name, count) = line.rsplit_once(' ')?;
            Some((name.to_string(), count.parse().ok()?))
        };
        met.filter_map(kind).collect()
    }

    fn met(kinds: &[(String, u64)], name: &str) -> u64 {
        let kind = kinds.iter().find(|(other, _)| other == name);
        kind.unwrap_or_else(|| panic!("no kind {name}")).1
    }

    const LOST: &str = "rounds of advances lost to an advance";
    const WENT_ROUND: &str = "advances whose sum went round";

    #[test]
    fn advances_lose_rounds_to_each_other_and_go_round() {
        let kinds = kinds_of(Flavour::Advances, 5, 20);
        assert_eq!(met(&kinds, "files of version 2 run"), 20);
        assert!(met(&kinds, LOST) > 500);
        assert!(met(&kinds, WENT_ROUND) > 200);
        for other in ["log verdict 0", "log verdict 1", "log verdict 3"] {
            assert_eq!(met(&kinds, other), 0);
        }
    }

    #[test]
    fn advances_and_swaps_lose_to_each_other() {
        let kinds = kinds_of(Flavour::Mixed, 5, 20);
        assert_eq!(met(&kinds, "files of version 2 run"), 20);
        for kind in [
            LOST,
            WENT_ROUND,
            "lost swaps",
            "compares that lost to an advance",
            "rounds of advances lost to a compare",
        ] {
            assert!(met(&kinds, kind) > 50, "{kind}");
        }
    }

    /// Enough of each for the few that are stored.
    #[test]
    fn short_files_of_advances_meet_every_kind_of_them() {
        let kinds = kinds_of(Flavour::ShortAdvances, 5, 50);
        let of_advances =
            |(name, _): &&(String, u64)| name.contains("advance") && !name.starts_with("version");
        assert_eq!(met(&kinds, "files of version 2 run"), 50);
        assert_eq!(kinds.iter().filter(of_advances).count(), 10);
        for (kind, count) in kinds.iter().filter(of_advances) {
            assert!(*count >= 3, "{kind}: {count}");
        }
    }

    /// Also those that are rare; so a stream of 20,000 meets each many times.
    #[test]
    fn every_kind_is_met_in_a_few_thousand_files() {
        for flavour in [Flavour::Any, Flavour::Short] {
            for (kind, count) in kinds_of(flavour, 29, 4_000) {
                assert!(count >= 5, "{kind}: {count}");
            }
        }
    }

    /// A file of version 1 has no advance unless it is damaged.
    #[test]
    fn advances_are_in_files_of_version_2_only() {
        let mut random = Random::seeded(37);
        for _ in 0..300 {
            let draft = valid_draft(Version::One, &mut random);
            assert!(draft.rows.iter().all(|row| row.kind < 2));
        }
        let drafts: Vec<Draft> = (0..300)
            .map(|_| valid_draft(Version::Two, &mut random))
            .collect();
        let advances = |draft: &&Draft| draft.rows.iter().any(|row| row.kind == 2);
        let with = drafts.iter().filter(advances).count();
        assert!(with > 100 && with < 250, "{with} files with advances");
        let rows = drafts.iter().flat_map(|draft| &draft.rows);
        let advances = rows.filter(|row| row.kind == 2);
        assert!(advances.clone().all(|row| row.old == 0 && row.new > 0));
        let amounts = |test: fn(u32) -> bool| advances.clone().filter(|row| test(row.new)).count();
        assert!(amounts(|amount| amount <= 1_460) > 100);
        assert!(amounts(|amount| amount > 1 << 31) > 100);
        assert!(amounts(|amount| amount == u32::MAX) > 10);
    }

    /// Of files of version 2 that are not refused: whether some value is over
    /// 65,535, some start word has bits from 48 up, and some compare row's old
    /// and new are alike in their low 16 bits.
    #[test]
    fn files_of_version_2_use_all_their_bits() {
        let mut random = Random::seeded(19);
        let drafts: Vec<Draft> = (0..100)
            .map(|_| valid_draft(Version::Two, &mut random))
            .collect();
        let rows = || drafts.iter().flat_map(|draft| &draft.rows);
        assert!(rows().filter(|row| row.old > 65_535).count() > 500);
        let alike = |row: &&draft::DraftRow| row.kind == 1 && (row.old ^ row.new) & 0xFFFF == 0;
        assert!(rows().filter(alike).count() > 20);
        let words = || drafts.iter().flat_map(|draft| &draft.words);
        for bit in 0..64 {
            assert!(words().any(|word| word >> bit & 1 == 1), "bit {bit}");
        }
    }

    /// Each byte of old and of new of a read, faulty alone.
    #[test]
    fn every_byte_of_old_and_new_is_damaged_alone() {
        let mut random = Random::seeded(23);
        let mut met = [[false; 4]; 2];
        for _ in 0..2_000 {
            let draft = short_draft(Version::Two, &mut random);
            let draft = faults::several_row_faults(draft, &mut random);
            for row in draft.rows.iter().filter(|row| row.kind == 0) {
                for (field, value) in [row.old, row.new].into_iter().enumerate() {
                    let bytes = value.to_le_bytes();
                    let faulty = bytes.iter().filter(|byte| **byte != 0).count();
                    if let (1, Some(at)) = (faulty, bytes.iter().position(|byte| *byte != 0)) {
                        met[field][at] = true;
                    }
                }
            }
        }
        assert_eq!(met, [[true; 4]; 2]);
    }
}
