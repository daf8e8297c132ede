//! Makes trials and sessions: for a kind, a seed and a count always the same lines.

mod blocks;
mod channels;
pub(crate) mod damage;
mod door;
mod errors;
mod jobs;
mod reports;
mod sessions;
mod sound;
mod turns;
pub(crate) mod world;

use crate::hexadecimal::{write_byte, write_longword};
use crate::keys::Key;
use crate::random::Random;
use crate::trial::{write_runs, ERROR_TEXT, FRESH, PICK, REPORT, TICK};

pub use sessions::SessionKind;

/// The kinds of trials.
#[derive(Clone, Copy, PartialEq, Eq, Debug)]
pub enum TrialKind {
    Sound,
    Blocks,
    Jobs,
    Channels,
    Turns,
    Door,
    Errors,
    Reports,
}

impl TrialKind {
    pub const ALL: [TrialKind; 8] = [
        TrialKind::Sound,
        TrialKind::Blocks,
        TrialKind::Jobs,
        TrialKind::Channels,
        TrialKind::Turns,
        TrialKind::Door,
        TrialKind::Errors,
        TrialKind::Reports,
    ];

    pub fn name(self) -> &'static str {
        match self {
            TrialKind::Sound => "sound",
            TrialKind::Blocks => "blocks",
            TrialKind::Jobs => "jobs",
            TrialKind::Channels => "channels",
            TrialKind::Turns => "turns",
            TrialKind::Door => "door",
            TrialKind::Errors => "errors",
            TrialKind::Reports => "reports",
        }
    }

    /// How many trials are made where no count is given.
    pub fn default_count(self) -> usize {
        match self {
            TrialKind::Sound => 1_750,
            TrialKind::Blocks => 450,
            TrialKind::Jobs => 1_015,
            TrialKind::Channels => 625,
            TrialKind::Turns => 400,
            TrialKind::Door => 1_000,
            TrialKind::Errors => 300,
            TrialKind::Reports => 174,
        }
    }
}

/// The seed where none is given.
pub const DEFAULT_SEED: u64 = 1;

/// Gives so many trials of a kind to `take`, each as a line without its line feed.
pub fn trials(kind: TrialKind, seed: u64, count: usize, take: &mut dyn FnMut(&[u8])) {
    let mut maker = Maker { random: Random::new(seed ^ (kind as u64) << 56), left: count, line: Vec::new(), take };
    listed(kind, &mut maker);
    while !maker.is_done() {
        match kind {
            TrialKind::Sound => sound::one_more(&mut maker),
            TrialKind::Blocks => blocks::one_more(&mut maker),
            TrialKind::Jobs => jobs::one_more(&mut maker),
            TrialKind::Channels => channels::one_more(&mut maker),
            TrialKind::Turns => turns::one_more(&mut maker),
            TrialKind::Door => door::one_more(&mut maker),
            TrialKind::Errors => errors::one_more(&mut maker),
            TrialKind::Reports => reports::one_more(&mut maker),
        }
    }
}

/// The trials of a kind that are made on purpose; random ones follow them.
fn listed(kind: TrialKind, maker: &mut Maker) {
    match kind {
        TrialKind::Sound => sound::listed(maker),
        TrialKind::Blocks => blocks::listed(maker),
        TrialKind::Jobs => jobs::listed(maker),
        TrialKind::Channels => channels::listed(maker),
        TrialKind::Turns => turns::listed(maker),
        TrialKind::Door => door::listed(maker),
        TrialKind::Errors => errors::listed(maker),
        TrialKind::Reports => reports::listed(maker),
    }
}

/// Gives so many lines of a session to `take`, each without its line feed.
pub fn session(kind: SessionKind, seed: u64, count: usize, take: &mut dyn FnMut(&[u8])) {
    let mut random = Random::new(seed ^ (kind as u64) << 48);
    sessions::make(kind, &mut random, count, take);
}

/// Writes trials until there are enough.
struct Maker<'a> {
    random: Random,
    left: usize,
    line: Vec<u8>,
    take: &'a mut dyn FnMut(&[u8]),
}

impl Maker<'_> {
    fn is_done(&self) -> bool {
        self.left == 0
    }

    /// Writes a line as it stands.
    fn raw(&mut self, line: &[u8]) {
        if self.left > 0 {
            self.left -= 1;
            (self.take)(line);
        }
    }

    fn write(&mut self, call: u8, behind: &[u8], registers: &[u32], picture: &[u32]) {
        let mut line = std::mem::take(&mut self.line);
        line.clear();
        write_byte(call, &mut line);
        behind.iter().for_each(|&byte| write_byte(byte, &mut line));
        line.push(b' ');
        if registers.is_empty() {
            line.push(b'-');
        }
        registers.iter().for_each(|&register| write_longword(register, &mut line));
        line.push(b' ');
        write_runs(picture, &mut line);
        self.raw(&line);
        self.line = line;
    }

    fn trap(&mut self, trap: u32, name: &[u8], registers: &[u32], picture: &[u32]) {
        self.write(trap as u8, name, registers, picture);
    }

    /// A pick, with no registers or now and then some, which must come back.
    fn pick(&mut self, picture: &[u32]) {
        let registers = self.few_registers();
        self.write(PICK, b"", &registers, picture);
    }

    fn tick(&mut self, picture: &[u32]) {
        let registers = self.few_registers();
        self.write(TICK, b"", &registers, picture);
    }

    /// A report of a tree with so many lines lent.
    fn report(&mut self, top: u32, lines: usize, picture: &[u32]) {
        self.write(REPORT, b"", &[top, lines as u32], picture);
    }

    fn fresh(&mut self, length: u32, heap_length: u32, lent: &[u32]) {
        let sizes = [length.to_be_bytes(), heap_length.to_be_bytes()].concat();
        let registers = self.few_registers();
        self.write(FRESH, &sizes, &registers, lent);
    }

    fn error_text(&mut self, key: Key, system: &[u8], driver: &[u8]) {
        let mut line = Vec::new();
        write_byte(ERROR_TEXT, &mut line);
        write_longword(key as u32, &mut line);
        for text in [system, driver] {
            line.push(b' ');
            if text.is_empty() {
                line.push(b'-');
            }
            text.iter().for_each(|&byte| write_byte(byte, &mut line));
        }
        self.raw(&line);
    }

    fn few_registers(&mut self) -> Vec<u32> {
        let count = if self.random.once_in(8) { self.random.below(17) } else { 0 };
        (0..count).map(|_| self.random.longword()).collect()
    }
}

/// Trials that every call of a kind has: nobody current, and a picture that isn't sound.
fn without_current_and_unsound(maker: &mut Maker, calls: &[world::Act]) {
    for &act in calls {
        for unsound in [false, true] {
            let mut world = world::World::lively(&mut maker.random, 12);
            let step = world.step_of(&mut maker.random, act);
            if unsound {
                world.picture = sound::some_unsound(&mut maker.random);
            } else {
                world.picture[crate::picture::CURRENT] = crate::picture::NOBODY;
            }
            write_step(maker, step, &world.picture);
        }
    }
}

/// A trial of a step on a picture.
fn write_step(maker: &mut Maker, step: world::Step, picture: &[u32]) {
    match step {
        world::Step::Trap { trap, registers, name } => maker.trap(trap, &name, &registers, picture),
        world::Step::Pick => maker.pick(picture),
        world::Step::Tick => maker.tick(picture),
    }
}

/// A random trial of one of some calls on a lively picture.
fn random_step(maker: &mut Maker, calls: &[world::Act], mix: &world::Mix) {
    let mut world = world::World::usual(&mut maker.random);
    let steps = maker.random.below(36);
    world.live(&mut maker.random, steps, mix);
    if !world.has_current() && !maker.random.once_in(20) {
        world.pick();
    }
    let act = maker.random.one_of(calls);
    let step = world.step_of(&mut maker.random, act);
    write_step(maker, step, &world.picture);
}

/// A picture after a short history, with up to three longwords changed anywhere.
pub fn changed_picture(random: &mut Random) -> Vec<u32> {
    let steps = random.below(40);
    let mut world = world::World::lively(random, steps);
    for _ in 0..random.below(4) {
        sound::change_somewhere(random, &mut world);
    }
    world.picture
}

/// A picture with this damage alone, which must be one that can be alone.
pub fn damaged_picture(random: &mut Random, damage: damage::Damage, rules: &[crate::sound::Rule]) -> Vec<u32> {
    sound::damaged(random, damage, rules)
}

#[cfg(test)]
mod tests {
    use std::collections::{BTreeMap, BTreeSet};

    use super::*;
    use crate::hexadecimal;
    use crate::keys::*;
    use crate::manager::Ordinary;
    use crate::sound::{broken, first_broken, Rule};
    use crate::trial::Bench;

    /// The default trials of a kind.
    fn default_trials(kind: TrialKind) -> Vec<String> {
        let mut lines = Vec::new();
        trials(kind, DEFAULT_SEED, kind.default_count(), &mut |line| {
            lines.push(String::from_utf8_lossy(line).into_owned());
        });
        lines
    }

    /// The picture that a trial's third field holds.
    fn picture_of(field: &str) -> Vec<u32> {
        let mut picture = Vec::new();
        let mut rest = field.trim_start_matches('-').as_bytes();
        while let Some((digits, behind)) = rest.split_at_checked(8) {
            let longword = hexadecimal::number(digits).unwrap();
            let (count, behind) = match behind {
                [b'x', behind @ ..] => (hexadecimal::number(&behind[..4]).unwrap() as usize, &behind[4..]),
                _ => (1, behind),
            };
            picture.resize(picture.len() + count, longword);
            rest = behind;
        }
        picture
    }

    fn answer(line: &str) -> String {
        let mut out = Vec::new();
        Bench::default().answer_line::<Ordinary>(Some(line.as_bytes()), &mut out);
        String::from_utf8(out).unwrap()
    }

    fn key_of(answer: &str) -> Option<Key> {
        Some(hexadecimal::number(answer.get(..8)?.as_bytes())? as Key)
    }

    #[test]
    fn each_rule_is_broken_at_least_20_times() {
        let mut times: BTreeMap<Rule, usize> = BTreeMap::new();
        let (mut sound, mut unsound) = (0, 0);
        for line in default_trials(TrialKind::Sound) {
            let fields: Vec<&str> = line.split(' ').collect();
            if fields[0].starts_with("FF") || fields[1].len() != 64 {
                continue;
            }
            let picture = picture_of(fields[2]);
            let rules = broken(&picture);
            for rule in &rules {
                *times.entry(*rule).or_default() += 1;
            }
            match first_broken(&picture) {
                Some(rule) => {
                    assert_eq!(rule, rules[0]);
                    unsound += 1;
                    assert_eq!(key_of(&answer(&line)), Some(NOT_SOUND));
                }
                None => {
                    sound += 1;
                    let nobody = picture[crate::picture::CURRENT] == crate::picture::NOBODY;
                    assert_eq!(key_of(&answer(&line)), Some(if nobody { INVALID_JOB } else { BAD_PARAMETER }));
                }
            }
        }
        for (rule, count) in &times {
            assert!(*count >= 20, "{rule:?} is broken {count} times");
        }
        assert_eq!(times.len(), 41);
        assert!(sound >= 100 && unsound >= 1_000, "{sound} sound, {unsound} unsound");
    }

    #[test]
    fn every_key_of_every_call_occurs_in_its_kind() {
        let general = [0, INVALID_JOB, NOT_SOUND];
        let full_or_empty = [NOT_COMPLETE, CHANNEL_NOT_OPEN, BAD_PARAMETER];
        let expected: [(TrialKind, u32, u32, &[Key]); 17] = [
            (TrialKind::Jobs, 1, 0x0, &[]),
            (TrialKind::Jobs, 1, 0x1, &[BAD_PARAMETER, OUT_OF_MEMORY]),
            (TrialKind::Jobs, 1, 0x2, &[]),
            (TrialKind::Jobs, 1, 0x4, &[BAD_PARAMETER, NOT_COMPLETE]),
            (TrialKind::Jobs, 1, 0x5, &[BAD_PARAMETER]),
            (TrialKind::Blocks, 1, 0x6, &[]),
            (TrialKind::Jobs, 1, 0x8, &[BAD_PARAMETER]),
            (TrialKind::Jobs, 1, 0x9, &[]),
            (TrialKind::Jobs, 1, 0xA, &[BAD_PARAMETER, NOT_COMPLETE]),
            (TrialKind::Jobs, 1, 0xB, &[BAD_PARAMETER]),
            (TrialKind::Blocks, 1, 0x18, &[BAD_PARAMETER, OUT_OF_MEMORY]),
            (TrialKind::Blocks, 1, 0x19, &[BAD_PARAMETER]),
            (TrialKind::Channels, 2, 0x1, &[OUT_OF_MEMORY, CHANNEL_NOT_OPEN, NOT_FOUND, BAD_NAME, BAD_PARAMETER]),
            (TrialKind::Channels, 2, 0x2, &[CHANNEL_NOT_OPEN]),
            (TrialKind::Channels, 3, 0x0, &full_or_empty),
            (TrialKind::Channels, 3, 0x1, &full_or_empty),
            (TrialKind::Channels, 3, 0x5, &full_or_empty),
        ];
        for kind in [TrialKind::Jobs, TrialKind::Blocks, TrialKind::Channels] {
            let mut seen = BTreeSet::new();
            for line in default_trials(kind) {
                let (trap, d0) = (&line[..2], &line[line.find(' ').unwrap() + 1..][..8]);
                let [trap, d0] = [trap, d0].map(|digits| hexadecimal::number(digits.as_bytes()).unwrap());
                seen.insert((trap, d0, key_of(&answer(&line)).unwrap()));
            }
            for (_, trap, call, keys) in expected.into_iter().filter(|call| call.0 == kind) {
                for key in keys.iter().chain(&general) {
                    assert!(seen.contains(&(trap, call, *key)), "trap {trap} call {call:X} never answers {key}");
                }
                let known: Vec<&Key> = keys.iter().chain(&general).collect();
                let other = seen.iter().find(|(t, c, key)| (*t, *c) == (trap, call) && !known.contains(&key));
                assert_eq!(other, None, "a call answers only its own keys");
            }
        }
    }

    #[test]
    fn the_door_meets_every_trap_call_and_key() {
        let mut keys = BTreeSet::new();
        let mut calls = BTreeSet::new();
        let mut unsound = 0;
        let mut not_trials = 0;
        for line in default_trials(TrialKind::Door) {
            let answer = answer(&line);
            match key_of(&answer) {
                None => {
                    assert_eq!(answer, "?\n");
                    not_trials += 1;
                }
                Some(key) => {
                    keys.insert(key);
                    unsound += usize::from(key == NOT_SOUND);
                    calls.insert(line[..2].to_string());
                }
            }
        }
        for key in [0, -1, -2, -3, -4, -6, -7, -12, -15, -16] {
            assert!(keys.contains(&key), "the door never answers {key}");
        }
        for call in ["00", "01", "02", "03", "04", "EF", "F0", "F1", "FE", "FF"] {
            assert!(calls.contains(call), "the door never meets {call}");
        }
        assert!(unsound >= 50 && not_trials >= 50, "{unsound} unsound, {not_trials} not trials");
    }

    #[test]
    fn every_key_of_a_report_occurs() {
        let mut seen: BTreeMap<(String, Key), usize> = BTreeMap::new();
        let (mut too_long, mut not_trials) = (BTreeSet::new(), 0);
        for line in default_trials(TrialKind::Reports) {
            let answer = answer(&line);
            let Some(key) = key_of(&answer) else {
                assert_eq!(answer, "?\n");
                not_trials += 1;
                continue;
            };
            let (call, picture) = (line[..2].to_uppercase(), picture_of(line.rsplit(' ').next().unwrap()));
            if picture.len() > crate::picture::GREATEST_LENGTH {
                if broken(&picture) == [Rule::SizeStated] {
                    too_long.insert(call.clone());
                }
                assert_eq!(key, if call == "FF" { OUT_OF_RANGE } else { NOT_SOUND });
            }
            *seen.entry((call, key)).or_default() += 1;
        }
        for key in [DONE, INVALID_JOB, BUFFER_OVERFLOW, NOT_SOUND] {
            let times = seen.get(&("F2".into(), key)).copied().unwrap_or(0);
            assert!(times >= 10, "a report answers {key} {times} times");
        }
        let other = seen.keys().find(|(call, key)| call == "F2" && ![0, -2, -5, -16].contains(key));
        assert_eq!(other, None, "a report answers only its own keys");
        for call in ["01", "02", "F0", "F1", "F2", "FF"] {
            assert!(too_long.contains(call), "{call} never meets a picture that is only too long");
        }
        assert!(not_trials >= 12, "{not_trials} not trials");
    }

    #[test]
    fn texts_are_found_and_not_found() {
        let answers: Vec<String> = default_trials(TrialKind::Errors).iter().map(|line| answer(line)).collect();
        for start in ["00000000 -", "00000000 65", "FFFFFFF9 -"] {
            assert!(answers.iter().filter(|answer| answer.starts_with(start)).count() >= 5, "{start}");
        }
        assert!(answers.iter().all(|answer| answer != "?\n"));
    }

    #[test]
    fn turns_are_answered_with_and_without_somebody() {
        let answers: Vec<String> = default_trials(TrialKind::Turns).iter().map(|line| answer(line)).collect();
        for start in
            ["00000000 FFFFFFFF", "00000000 00000000", "00000000 -", "FFFFFFF0 FFFFFFFF", "FFFFFFF0 -", "80000000 "]
        {
            assert!(answers.iter().any(|answer| answer.starts_with(start)), "{start}");
        }
        let unsound =
            answers.iter().filter(|answer| answer.starts_with("FFFFFFF0 FFFFFFFF") || *answer == "FFFFFFF0 - -\n");
        assert!(unsound.count() <= 12, "pictures meant to be sound are");
    }

    #[test]
    fn the_trials_on_purpose_fit_into_the_default_counts() {
        for kind in TrialKind::ALL {
            let mut count = 0;
            let mut take = |_: &[u8]| count += 1;
            let mut maker = Maker { random: Random::new(3), left: usize::MAX, line: Vec::new(), take: &mut take };
            listed(kind, &mut maker);
            assert!(count < kind.default_count(), "{} has {count} trials on purpose", kind.name());
        }
    }

    #[test]
    fn the_same_seed_makes_the_same_lines_and_together_they_are_small() {
        let mut bytes = 0;
        for kind in TrialKind::ALL {
            let lines = default_trials(kind);
            assert_eq!(lines.len(), kind.default_count());
            assert_eq!(lines, default_trials(kind));
            bytes += lines.iter().map(|line| line.len() + 1 + answer(line).len()).sum::<usize>();
        }
        assert!(bytes < 3_200_000, "{bytes} bytes");
    }

    #[test]
    fn sessions_mostly_make_sense() {
        for kind in SessionKind::ALL {
            let mut picture = crate::session::fresh_picture();
            let (mut lines, mut done, mut bad, mut reports, mut refused, mut bad_reports) = (0, 0, 0, 0, 0, 0);
            session(kind, DEFAULT_SEED, 3_000, &mut |line| {
                assert!(!line.contains(&b'\n'));
                let mut answer = Vec::new();
                crate::session::answer_line(Some(line), &mut picture, &mut answer);
                let is_bad = answer == b"FFFFFFF1\n";
                let is_report = line.to_ascii_uppercase().starts_with(b"F2");
                lines += 1;
                done += usize::from(!answer.starts_with(b"FFFFFFF"));
                bad += usize::from(is_bad);
                bad_reports += usize::from(is_report && is_bad);
                refused += usize::from(is_report && answer == b"FFFFFFFE\n");
                reports += usize::from(is_report && answer.len().is_multiple_of(41));
            });
            assert_eq!(lines, 3_000);
            if kind == SessionKind::Garbage {
                assert!(bad > 1_000 && bad_reports > 50, "{bad} bad lines, {bad_reports} of them for a report");
                assert!(reports > 5, "{reports} reports");
            } else {
                assert!(done > 1_500 && bad == 0, "{kind:?}: {done} done, {bad} bad lines");
                assert!(reports > 30, "{kind:?}: {reports} reports");
                assert!(refused > 4 || kind == SessionKind::Reports, "{kind:?}: {refused} refused");
            }
        }
    }

    #[test]
    fn a_session_of_reports_soon_shows_32_members() {
        let mut picture = crate::session::fresh_picture();
        let mut full = 0;
        session(SessionKind::Reports, DEFAULT_SEED, 1_000, &mut |line| {
            let mut answer = Vec::new();
            crate::session::answer_line(Some(line), &mut picture, &mut answer);
            full += usize::from(answer.len() == 32 * 41);
        });
        assert!(full > 800, "{full} reports of 32 members");
    }

    #[test]
    fn trees_of_sessions_grow_deep() {
        for kind in [SessionKind::Tree, SessionKind::Mixed, SessionKind::Reports] {
            let mut picture = crate::session::fresh_picture();
            let mut deepest = 0;
            session(kind, DEFAULT_SEED, 3_000, &mut |line| {
                let mut answer = Vec::new();
                crate::session::answer_line(Some(line), &mut picture, &mut answer);
                if answer.len().is_multiple_of(41) {
                    let depths = answer.chunks(41).map(|member| hexadecimal::number(&member[16..24]).unwrap());
                    deepest = depths.fold(deepest, u32::max);
                }
            });
            assert!(deepest > 2, "{kind:?}: {deepest} deep");
        }
    }
}
