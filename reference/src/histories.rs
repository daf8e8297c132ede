//! Tests over random histories from fresh pictures: what holds after every step, whatever the steps are.

use std::collections::HashSet;

use crate::fresh::fresh_picture;
use crate::keys::*;
use crate::make::world::{Act, Step, World, LIVELY};
use crate::manager;
use crate::picture::*;
use crate::random::Random;
use crate::registers::*;
use crate::report::{JobLine, Reported};
use crate::sound::{first_broken, is_sound};

/// How long each job has stayed ready, at one priority and unnamed by priority calls, without being picked.
#[derive(Clone, Copy, Default)]
struct Waiting {
    number: u32,
    priority: u32,
    picks: u32,
}

struct History {
    picture: Vec<u32>,
    waiting: [Waiting; POSITIONS],
    live: [HashSet<u32>; 2],
    dead: [HashSet<u32>; 2],
    longest: u32,
}

impl History {
    fn new(length: u32, heap_length: u32) -> Self {
        let picture = fresh_picture(length, heap_length);
        let live = [HashSet::from([0]), HashSet::new()];
        History { picture, waiting: Default::default(), live, dead: Default::default(), longest: 0 }
    }

    /// Takes one step and checks what holds of every step.
    fn take_step(&mut self, step: Step) {
        match step {
            Step::Pick => {
                let picked = manager::pick(&mut self.picture);
                assert_eq!(picked.number, self.picture[CURRENT]);
                for (k, waiting) in self.waiting.iter_mut().enumerate() {
                    waiting.picks += 1;
                    if picked.number != NOBODY && position(picked.number) == k {
                        waiting.picks = 0;
                    }
                }
            }
            Step::Tick => assert_eq!(manager::tick(&mut self.picture), DONE),
            Step::Trap { trap, registers, name } => self.call(trap, registers, &name),
        }
        assert!(is_sound(&self.picture), "{:?}", first_broken(&self.picture));
        self.check_waiting();
        self.check_numbers();
        self.check_positions();
    }

    fn call(&mut self, trap: u32, registers: Registers, name: &[u8]) {
        let before = self.picture.clone();
        let mut after = registers;
        let key = manager::call(trap, &mut after, name, &mut self.picture);
        assert_eq!(after[D0], key as u32);
        if key != DONE {
            assert_eq!(after[D1..], registers[D1..]);
            assert_eq!(self.picture, before);
        }
        // A new job is owned by the job that D1 names, or by nobody where D1 is negative.
        if key == DONE && trap == 1 && registers[D0] == 0x1 {
            let owner = if (registers[D1] as i32) < 0 { NOBODY } else { registers[D1] };
            assert_eq!(self.picture[job_record(position(after[D1])) + job::OWNER], owner);
        }
        // A priority call names the job in D1, or the current job by bit 15, whether or not it is refused.
        if trap == 1 && (registers[D0] == 0xA || registers[D0] == 0xB) {
            let named = if means_current(registers[D1]) { before[CURRENT] } else { registers[D1] };
            if let Some(waiting) = self.waiting.get_mut(position(named)) {
                waiting.picks = 0;
            }
        }
    }

    fn check_waiting(&mut self) {
        for (k, waiting) in self.waiting.iter_mut().enumerate() {
            let record = &self.picture[job_record(k)..][..JOB_RECORD];
            let (number, priority) = (record[job::NUMBER], record[job::PRIORITY]);
            let live = in_use(self.picture[JOB_MASK], k);
            if !live
                || !ready(priority, record[job::TIMEOUT])
                || (waiting.number, waiting.priority) != (number, priority)
            {
                *waiting = Waiting { number, priority, picks: 0 };
                continue;
            }
            assert!(waiting.picks < 2 + 3_810 / priority, "a job at {priority} waits for {} picks", waiting.picks);
            self.longest = self.longest.max(waiting.picks);
        }
    }

    fn check_numbers(&mut self) {
        let world = World { picture: std::mem::take(&mut self.picture) };
        for (table, now) in [world.jobs(), world.channels()].into_iter().enumerate() {
            let now: HashSet<u32> = now.into_iter().collect();
            assert!(now.is_disjoint(&self.dead[table]), "a dead number stays dead");
            self.dead[table].extend(self.live[table].difference(&now));
            self.live[table] = now;
        }
        self.picture = world.picture;
    }

    /// The mask names the position that a walk over all records comes to, the first that is all zero.
    fn check_positions(&self) {
        let walked = |first: usize, width: usize| {
            let mut records = self.picture[first..].chunks(width).take(POSITIONS);
            records.position(|record| record.iter().all(|&longword| longword == 0))
        };
        assert_eq!(free_position(self.picture[JOB_MASK]), walked(JOB_RECORDS, JOB_RECORD));
        assert_eq!(free_position(self.picture[CHANNEL_MASK]), walked(CHANNEL_RECORDS, CHANNEL_RECORD));
    }

    fn step(&mut self, random: &mut Random, mix: &[(Act, usize)]) {
        let world = World { picture: std::mem::take(&mut self.picture) };
        let step = world.step(random, mix);
        self.picture = world.picture;
        self.take_step(step);
    }
}

#[test]
fn lively_histories_keep_every_promise() {
    let mut random = Random::new(11);
    for round in 0..40 {
        let (length, heap_length) = [(1_024, 256), (1_024, 4), (1_024, 604), (2_048, 800)][round % 4];
        let mut history = History::new(length, heap_length);
        for _ in 0..3_000 {
            history.step(&mut random, LIVELY);
        }
        assert!(history.dead[0].len() > 20, "{} jobs have died", history.dead[0].len());
    }
}

#[test]
fn turns_are_fair_among_many_jobs() {
    let mut random = Random::new(12);
    let mix = [
        (Act::Pick, 80),
        (Act::Tick, 4),
        (Act::Create, 4),
        (Act::Activate, 6),
        (Act::Suspend, 2),
        (Act::SetPriority, 2),
    ];
    let mut longest = 0;
    for _ in 0..6 {
        let mut history = History::new(1_536, 128);
        for _ in 0..15_000 {
            history.step(&mut random, &mix);
        }
        longest = longest.max(history.longest);
    }
    assert!(longest > 20, "{longest} picks are the longest wait seen");
}

#[test]
fn any_registers_get_an_answer() {
    let mut random = Random::new(13);
    let mut history = History::new(1_024, 256);
    for _ in 0..60_000 {
        if random.once_in(3) || history.picture[CURRENT] == NOBODY {
            history.step(&mut random, LIVELY);
        }
        let mut registers: Registers = std::array::from_fn(|_| random.longword() >> random.below(32));
        registers[D0] = random.between(0, 0x1A);
        let name: Vec<u8> = (0..random.below(9)).map(|_| random.longword() as u8).collect();
        let trap = random.between(0, 4);
        history.take_step(Step::Trap { trap, registers, name });
    }
}

#[test]
fn any_picture_gets_an_answer_and_an_unsound_one_is_left_alone() {
    let mut random = Random::new(14);
    for _ in 0..20_000 {
        let mut picture = crate::make::changed_picture(&mut random);
        if random.once_in(10) {
            picture.truncate(random.below(1_100));
        }
        let before = picture.clone();
        let mut registers: Registers = std::array::from_fn(|_| random.longword() >> random.below(32));
        registers[D0] = random.between(0, 0x1A);
        let given = registers;
        let key = manager::call(random.between(1, 3), &mut registers, b"PIPE_9", &mut picture);
        if !is_sound(&before) {
            assert_eq!((key, &picture), (NOT_SOUND, &before));
            assert_eq!(manager::pick(&mut picture).key, NOT_SOUND);
            assert_eq!(manager::tick(&mut picture), NOT_SOUND);
            assert_eq!(picture, before);
            let mut table = [JobLine::default(); 2];
            assert_eq!(manager::report(0, &mut table, &picture), Reported { key: NOT_SOUND, count: 0 });
            assert_eq!(table, [JobLine::default(); 2]);
        }
        if key != DONE {
            assert_eq!((&registers[D1..], &picture), (&given[D1..], &before));
        }
        assert_eq!(is_sound(&picture), is_sound(&before));
    }
}

#[test]
fn tags_are_used_up_once_and_for_all() {
    let mut picture = fresh_picture(1_024, 256);
    for tag in 1..=LAST_TAG {
        let mut create = [0x1, NOBODY, 0, 4, 0, 0, 0, 0];
        assert_eq!(manager::call(1, &mut create, b"", &mut picture), DONE);
        assert_eq!(create[D1], number(tag, 1));
        assert_eq!(manager::call(1, &mut [0x5, create[D1], 0, 0, 0, 0, 0, 0], b"", &mut picture), DONE);
        assert_eq!(manager::pick(&mut picture).number, 0);
        let mut open = [0x1, 0, 0, 0, 0, 0, 0, 0];
        assert_eq!(manager::call(2, &mut open, b"PIPE_1", &mut picture), DONE);
        assert_eq!(open[A0], number(tag, 0));
        assert_eq!(manager::call(2, &mut [0x2, 0, 0, 0, open[A0], 0, 0, 0], b"", &mut picture), DONE);
    }
    assert_eq!(manager::call(1, &mut [0x1, NOBODY, 0, 4, 0, 0, 0, 0], b"", &mut picture), INVALID_JOB);
    assert_eq!(manager::call(2, &mut [0x1, 0, 0, 0, 0, 0, 0, 0], b"PIPE_1", &mut picture), CHANNEL_NOT_OPEN);
    assert!(is_sound(&picture));
}

/// How many owners lead from a job up to the top, or none where they don't.
fn owners_up_to(picture: &[u32], job: u32, top: u32) -> Option<u32> {
    if job == top {
        return Some(0);
    }
    let owner = picture[job_record(position(job)) + job::OWNER];
    (owner != NOBODY).then(|| owners_up_to(picture, owner, top))?.map(|depth| depth + 1)
}

/// The numbers that repeated $2 calls meet below a top: the top, then each answer, until 0.
fn met_by_asks(picture: &[u32], top: u32) -> Vec<u32> {
    let mut met = Vec::new();
    let mut next = top;
    while met.is_empty() || next != 0 {
        met.push(next);
        let mut registers = [0x2, next, top, 0, 0, 0, 0, 0];
        assert_eq!(manager::call(1, &mut registers, b"", &mut picture.to_vec()), DONE);
        next = registers[D1];
    }
    met
}

#[test]
fn reports_have_the_members_of_a_tree_and_repeated_asks_meet_the_same() {
    const KEPT: JobLine = JobLine { number: 1, owner: 2, depth: 3, priority: 4, suspended: true };
    let mix = [
        (Act::Create, 40),
        (Act::Activate, 30),
        (Act::Pick, 30),
        (Act::Suspend, 5),
        (Act::EndForced, 1),
        (Act::SetPriority, 2),
    ];
    let mut random = Random::new(15);
    let (mut asked, mut longest, mut deepest) = (0, 0, 0);
    for _ in 0..8 {
        let mut history = History::new(1_536, 128);
        for _ in 0..250 {
            history.step(&mut random, &mix);
            let picture = &history.picture;
            let jobs = World { picture: picture.clone() }.jobs();
            for &top in &jobs {
                let mut members: Vec<JobLine> = Vec::new();
                for &number in &jobs {
                    let record = job_record(position(number));
                    members.extend(owners_up_to(picture, number, top).map(|depth| JobLine {
                        number,
                        owner: picture[record + job::OWNER],
                        depth,
                        priority: picture[record + job::PRIORITY],
                        suspended: picture[record + job::TIMEOUT] != 0,
                    }));
                }
                members.sort_by_key(|line| tag(line.number));
                let count = members.len();
                let mut table = vec![KEPT; count + 1];
                assert_eq!(manager::report(top, &mut table[..count - 1], picture).key, BUFFER_OVERFLOW);
                assert!(table.iter().all(|line| *line == KEPT));
                assert_eq!(manager::report(top, &mut table, picture), Reported { key: DONE, count });
                assert_eq!((&table[..count], table[count]), (&members[..], KEPT));
                longest = longest.max(count);
                deepest = deepest.max(members.iter().map(|line| line.depth).max().unwrap_or(0));
                if picture[CURRENT] != NOBODY && random.once_in(4) {
                    let numbers: Vec<u32> = members.iter().map(|line| line.number).collect();
                    assert_eq!(met_by_asks(picture, top), numbers);
                    asked += 1;
                }
            }
        }
    }
    assert!(asked > 300 && longest > 10 && deepest > 3, "{asked} asked, {longest} lines, {deepest} deep");
}
