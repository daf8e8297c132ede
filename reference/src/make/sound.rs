//! Trials of soundness: sound pictures, each rule broken alone, longwords changed anywhere, and fresh pictures.

use super::damage::{Damage, DAMAGES, NEVER_ALONE};
use super::world::World;
use super::Maker;
use crate::picture::*;
use crate::random::Random;
use crate::sound::{broken, first_broken, Rule};

/// How often a picture has each damage alone.
const TIMES_ALONE: usize = 21;
/// How often it has one that can't be alone.
const TIMES_FIRST: usize = 5;

pub fn listed(maker: &mut Maker) {
    for round in 0..TIMES_ALONE.max(TIMES_FIRST) {
        for (damage, rules) in DAMAGES {
            if !NEVER_ALONE.contains(&damage) {
                let picture = damaged(&mut maker.random, damage, rules);
                ask(maker, &picture);
            } else if round < TIMES_FIRST {
                let picture = damaged_first(&mut maker.random, damage, rules);
                ask(maker, &picture);
            }
        }
    }
    every_place(maker);
    several_together(maker);
    for round in 0..80 {
        let picture =
            if round < 12 { World::usual(&mut maker.random).picture } else { some_picture(&mut maker.random) };
        ask(maker, &picture);
    }
    fresh_trials(maker);
    short_pictures(maker);
}

pub fn one_more(maker: &mut Maker) {
    match maker.random.below(10) {
        0..=2 => {
            let picture = some_picture(&mut maker.random);
            ask(maker, &picture);
        }
        3 => {
            let picture = some_picture(&mut maker.random);
            let registers = maker.random.below(17);
            ask_with(maker, registers, &picture);
        }
        4 => random_fresh(maker),
        5 => {
            let (damage, rules) = maker.random.one_of(&DAMAGES);
            if !NEVER_ALONE.contains(&damage) {
                let picture = damaged(&mut maker.random, damage, rules);
                ask(maker, &picture);
            }
        }
        _ => {
            let mut world = World { picture: some_picture(&mut maker.random) };
            for _ in 0..maker.random.between(1, 3) {
                change_somewhere(&mut maker.random, &mut world);
            }
            ask(maker, &world.picture);
        }
    }
}

/// A trap that does not exist.
fn no_trap(random: &mut Random) -> u32 {
    if random.once_in(10) {
        0
    } else {
        random.between(0x04, 0xEF)
    }
}

/// Asks whether the picture is sound: a trap that does not exist answers -15 or -2 if it is, else -16.
fn ask(maker: &mut Maker, picture: &[u32]) {
    ask_with(maker, 8, picture);
}

fn ask_with(maker: &mut Maker, registers: usize, picture: &[u32]) {
    let registers: Vec<u32> = (0..registers).map(|k| maker.random.longword() >> (4 * (k % 7))).collect();
    let trap = no_trap(&mut maker.random);
    maker.trap(trap, b"", &registers, picture);
}

/// A sound picture: fresh or after a short history.
fn some_picture(random: &mut Random) -> Vec<u32> {
    let steps = if random.once_in(6) { 0 } else { random.below(36) };
    World::lively(random, steps).picture
}

/// Good and bad sizes and lent lengths, over lent memory that isn't zero too.
fn fresh_trials(maker: &mut Maker) {
    let sizes = [
        (1_024, 256, 1_024),
        (1_024, 4, 1_024),
        (1_024, 628, 1_024),
        (1_024, 632, 1_024),
        (1_024, 636, 1_024),
        (1_024, 0, 1_024),
        (1_024, 1, 1_024),
        (1_024, 2, 1_024),
        (1_024, 3, 1_024),
        (1_024, 254, 1_024),
        (1_024, 256, 1_023),
        (1_024, 256, 1_025),
        (1_024, 256, 1_020),
        (1_024, 256, 1_028),
        (1_024, 256, 0),
        (1_020, 256, 1_020),
        (1_020, 256, 1_024),
        (1_023, 256, 1_023),
        (1_025, 256, 1_025),
        (1_026, 256, 1_026),
        (1_027, 256, 1_027),
        (1_028, 256, 1_028),
        (1_028, 632, 1_028),
        (1_028, 636, 1_028),
        (0, 0, 0),
        (0, 4, 0),
        (4, 4, 4),
        (396, 4, 396),
        (400, 4, 400),
        (16_380, 15_984, 16_380),
        (16_384, 15_988, 16_384),
        (16_384, 15_992, 16_384),
        (16_384, 4, 16_384),
        (16_384, 8_192, 16_383),
        (16_388, 8_192, 16_384),
        (16_388, 4, 16_384),
        (0xFFFF_FFFF, 256, 1_024),
        (0xFFFF_FFFC, 256, 1_024),
        (0x8000_0400, 256, 1_024),
        (0x0001_0400, 256, 1_024),
        (1_024, 0xFFFF_FFFF, 1_024),
        (1_024, 0xFFFF_FFFC, 1_024),
        (1_024, 0x8000_0000, 1_024),
        (1_024, 0x0001_0100, 1_024),
        (1_024, 0x4000_0100, 1_024),
    ];
    for (length, heap_length, lent) in sizes {
        for filling in [0, NOBODY, 0x0000_0020] {
            // Longwords that all change make long answers, so great pictures are lent as zeros.
            let filling = if lent > 2_048 { 0 } else { filling };
            if filling == 0 || lent < 1_030 && length != lent as u32 {
                maker.fresh(length, heap_length, &vec![filling; lent]);
            }
        }
    }
    for (length, heap_length) in [(1_024, 256), (1_024, 4), (1_028, 400)] {
        let world = World::lively(&mut maker.random, 30);
        let mut lent = world.picture;
        lent.resize(length, 0x7777_7777);
        lent[length - 40..].fill(0x8888_8888);
        maker.fresh(length as u32, heap_length, &lent);
        maker.fresh(length as u32, heap_length + 2, &lent);
    }
    maker.fresh(1_024, 256, &vec![0x0123_4567; 1_024]);
}

fn random_fresh(maker: &mut Maker) {
    let good = 4 * maker.random.between(256, 300);
    let length = if maker.random.once_in(4) { maker.random.between(0, 2_000) } else { good };
    let heap_length = match maker.random.below(4) {
        0 => maker.random.between(0, 800),
        1 => length.wrapping_sub(maker.random.between(380, 410)),
        _ => 4 * maker.random.between(1, 150),
    };
    let lent = if maker.random.once_in(4) { maker.random.between(0, 2_000) } else { length };
    let mut memory = vec![0; lent as usize];
    for _ in 0..maker.random.below(12) {
        if let Some(place) = (lent > 0).then(|| maker.random.below(lent as usize)) {
            memory[place] = maker.random.longword();
        }
    }
    maker.fresh(length, heap_length, &memory);
}

/// One longword changed in every kind of place: fixed longwords, records in use or not, headers and queues.
fn every_place(maker: &mut Maker) {
    let mut world = World::new(1_024, 256);
    let child = world.create(true, 20);
    world.take(child, 10);
    let plain = world.take(0, 30);
    let channel = world.open(child, 6);
    world.send(channel, 0x41);
    world.create(false, 40);
    world.free(plain);
    let mut places: Vec<usize> = (0..JOB_RECORDS).collect();
    places.extend([0, 1, 3, 31].map(job_record).into_iter().flat_map(|record| record..record + JOB_RECORD));
    places.extend([0, 1, 31].map(channel_record).into_iter().flat_map(|record| record..record + CHANNEL_RECORD));
    for at in [world.heap_headers(), world.transient_headers()].concat() {
        places.extend(at..at + block::HEADER);
    }
    for at in world.blocks_of(block::QUEUE) {
        places.extend(at + block::HEADER..at + block::HEADER + 6);
    }
    for place in places {
        let before = world.picture[place];
        for changed in
            [before.wrapping_add(1), maker.random.one_of(&[before ^ 0x8000_0000, before.wrapping_sub(16), NOBODY, 16])]
        {
            world.picture[place] = changed;
            ask(maker, &world.picture);
        }
        world.picture[place] = before;
    }
}

/// Changes that make up for each other in a count, and numbers so great that sums of them wrap.
fn several_together(maker: &mut Maker) {
    let mut world = World::new(1_024, 256);
    let jobs = [world.create(true, 20), world.create(true, 20), world.create(false, 40)];
    let channels = [world.open(0, 5), world.open(0, 5), world.open(jobs[0], 9)];
    world.take(0, 60);
    let base_of_job = jobs.map(|number| job_record(position(number)) + job::BASE);
    let base_of_channel = channels.map(|number| channel_record(position(number)) + channel::BASE);
    for places in [base_of_job, base_of_channel] {
        for (one, other) in [(0, 1), (1, 0), (0, 2), (2, 1)] {
            // Two records have one block, and a block has no record.
            let mut shared = world.clone();
            shared.picture[places[one]] = shared.picture[places[other]];
            ask(maker, &shared.picture);
            // Bases change places: sound where the owners are equal.
            let mut swapped = world.clone();
            swapped.picture.swap(places[one], places[other]);
            ask(maker, &swapped.picture);
        }
        // A base that names its block only if its upper or lower bits aren't read.
        for wrong in [1, 2, 4, 8, 0x1_0000, 0x4000_0000, 0x8000_0000] {
            let mut off = world.clone();
            off.picture[places[0]] ^= wrong;
            ask(maker, &off.picture);
        }
    }
    for heap_length in [0xFFFF_FFFC, 0xFFFF_FE78, 0x8000_0000, 0x4000_0100, 0x8000_0100, 0x0001_0100, 632, 0xFFFF_FF00]
    {
        let mut changed = world.clone();
        changed.picture[HEAP_LENGTH] = heap_length;
        ask(maker, &changed.picture);
    }
    for length in [0xFFFF_FFF0, 0xFFFF_FFE0, 0x8000_0000, 0x8000_0020, 0x4000_0000, 0] {
        for at in [HEAP, HEAP + 256] {
            let mut changed = world.clone();
            changed.picture[at] = length;
            ask(maker, &changed.picture);
        }
    }
    for n in [0xFFFF_FFE5, 0xFFFF_FFF0, NOBODY, 0x8000_0005, 0x1_0005, 32_767, 0] {
        let mut changed = world.clone();
        changed.picture[HEAP + block::HEADER + queue::LENGTH] = n;
        ask(maker, &changed.picture);
    }
}

/// Lent lengths from nothing to a little more than the tables, with registers of every count.
fn short_pictures(maker: &mut Maker) {
    for length in [0, 1, 4, 7, 8, 9, 263, 264, 391, 392, 393, 396, 400, 1_023] {
        let whole = World::new(1_024, 256).picture;
        ask(maker, &whole[..length]);
        let mut cut = whole[..length].to_vec();
        if let Some(first) = cut.first_mut() {
            *first = length as u32;
        }
        ask(maker, &cut);
    }
    for registers in 0..=16 {
        let mut world = World::lively(&mut maker.random, 6);
        ask_with(maker, registers, &world.picture);
        change_somewhere(&mut maker.random, &mut world);
        world.picture[SPARE] = 1;
        ask_with(maker, registers, &world.picture);
    }
}

/// Changes a longword in some kind of place.
pub fn change_somewhere(random: &mut Random, world: &mut World) {
    let place = match random.below(8) {
        0 => random.below(JOB_RECORDS),
        1 => job_record(random.below(POSITIONS)) + random.below(JOB_RECORD),
        2 => channel_record(random.below(POSITIONS)) + random.below(CHANNEL_RECORD),
        3 => match world.jobs().as_slice() {
            [] => JOB_MASK,
            jobs => {
                let job = random.one_of(jobs);
                job_record(position(job).min(POSITIONS - 1)) + random.below(JOB_RECORD)
            }
        },
        4 => match world.channels().as_slice() {
            [] => CHANNEL_MASK,
            channels => {
                let channel = random.one_of(channels);
                channel_record(position(channel).min(POSITIONS - 1)) + random.below(CHANNEL_RECORD)
            }
        },
        5 | 6 => {
            let headers = [world.heap_headers(), world.transient_headers()].concat();
            match headers.as_slice() {
                [] => HEAP,
                headers => random.one_of(headers) + random.below(block::HEADER),
            }
        }
        _ => match world.blocks_of(block::QUEUE).as_slice() {
            [] => HEAP + random.below(12),
            queues => random.one_of(queues) + block::HEADER + random.below(5),
        },
    };
    let place = place.min(world.picture.len() - 1);
    let before = world.picture[place];
    let elsewhere = world.picture[random.below(world.picture.len())];
    world.picture[place] = match random.below(10) {
        0 => before.wrapping_add(1),
        1 => before.wrapping_sub(1),
        2 => before.wrapping_add(16),
        3 => before.wrapping_sub(16),
        4 => before ^ 1 << random.below(32),
        5 => 0,
        6 => NOBODY,
        7 => elsewhere,
        8 => random.one_of(&[1, 2, 3, 4, 127, 128, 8_191, 8_192, 32_767, 32_768, 0x1_0000, 0xFFFF]),
        _ => random.longword(),
    };
}

/// A picture with this damage alone: some of its rules are broken, and no others.
pub fn damaged(random: &mut Random, damage: Damage, rules: &[Rule]) -> Vec<u32> {
    loop {
        if let Some(picture) = try_to_break(random, damage) {
            let broken = broken(&picture);
            if !broken.is_empty() && broken.iter().all(|rule| rules.contains(rule)) {
                return picture;
            }
        }
    }
}

/// A picture in which this damage breaks the first broken rule; for damages that can't be alone.
fn damaged_first(random: &mut Random, damage: Damage, rules: &[Rule]) -> Vec<u32> {
    loop {
        let mut picture = World::lively(random, 6).picture;
        match damage {
            Damage::PictureMultiple => {
                picture.extend(vec![0; random.below(3) + 1]);
                picture[LENGTH] = picture.len() as u32;
            }
            Damage::HeapMultiple => picture[HEAP_LENGTH] += random.between(1, 3),
            _ => unreachable!("{damage:?} can be alone"),
        }
        if first_broken(&picture).is_some_and(|rule| rules.contains(&rule)) {
            return picture;
        }
    }
}

/// A world with live jobs besides job 0, channels and plain blocks, as small as it may be.
fn furnished(random: &mut Random) -> World {
    let steps = random.between(8, 26) as usize;
    World::lively(random, steps)
}

/// Changes a sound picture so that it is likely to have the damage, and perhaps no other.
fn try_to_break(random: &mut Random, damage: Damage) -> Option<Vec<u32>> {
    let mut world = furnished(random);
    let job = one_of(random, &world.jobs()[1..]);
    let channel = one_of(random, &world.channels());
    let queue = one_of(random, &world.blocks_of(block::QUEUE)).map(|at| at + block::HEADER);
    let big = random.longword() | 0x100;
    let live = random.one_of(&world.jobs());
    match damage {
        Damage::PictureMultiple | Damage::HeapMultiple => return None,
        Damage::PictureLength => {
            let length = 4 * random.between(100, 255) as usize;
            let heap_length = 4 * random.between(1, (length - HEAP) as u32 / 4 - 1) as usize;
            world = World::new(length, heap_length);
            world.live(random, 12, super::world::LIVELY);
        }
        Damage::LongwordZero => {
            let n = world.picture[LENGTH];
            world.picture[LENGTH] = random.one_of(&[n + 4, n - 4, n + 1, 0, n << 1, n | 0x1_0000, big, NOBODY]);
        }
        Damage::LongwordSeven => world.picture[SPARE] = random.one_of(&[1, big, 0x8000_0000, NOBODY]),
        Damage::HeapLength => {
            let length = 4 * random.between(256, 300) as usize;
            world = World::new(length, 0);
            world.live(random, 12, super::world::LIVELY);
        }
        Damage::TransientLength => {
            let length = 4 * random.between(256, 300) as usize;
            world = World::new(length, length - HEAP);
            world.live(random, 12, super::world::LIVELY);
        }
        Damage::JobZeroBase => {
            world.picture[job_record(0) + job::BASE] = random.one_of(&[1, 16, 4 * HEAP as u32, big, NOBODY]);
        }
        Damage::Priority => *world.job_field(live, job::PRIORITY) = random.one_of(&[128, 255, 256, big, NOBODY]),
        Damage::Accumulated => {
            *world.job_field(live, job::ACCUMULATED) = random.one_of(&[8_192, 8_193, big | 0x2000, NOBODY])
        }
        Damage::Timeout => {
            *world.job_field(live, job::TIMEOUT) =
                random.one_of(&[32_768, 65_535, 0x8000_0000, 0xFFFF_FFFE, 0xFFFF_0000, big | 0x8000]);
            *world.job_field(live, job::ACCUMULATED) = 0;
            if world.picture[CURRENT] == live {
                world.picture[CURRENT] = NOBODY;
            }
        }
        Damage::ChannelOne => {
            world.picture[channel_record(position(channel?)) + channel::ONE] = random.one_of(&[0, 2, big, NOBODY]);
        }
        Damage::UnusedJobRecords => {
            let k = free_position(world.picture[JOB_MASK])? + random.below(8);
            let field = random.below(JOB_RECORD);
            *world.picture[..CHANNEL_RECORDS].get_mut(job_record(k) + field)? = random.one_of(&[1, big]);
        }
        Damage::UnusedChannelRecords => {
            let k = free_position(world.picture[CHANNEL_MASK])? + random.below(8);
            let field = random.below(CHANNEL_RECORD);
            *world.picture[..HEAP].get_mut(channel_record(k) + field)? = random.one_of(&[1, big]);
        }
        Damage::JobPosition => {
            let job = job?;
            let other = random.one_of(&[0, 31, 32, 0x8000, 0xFFFF, (position(job) as u32) ^ 1]);
            *world.job_field(job, job::NUMBER) = job & 0xFFFF_0000 | other;
            if world.picture[CURRENT] == job {
                world.picture[CURRENT] = NOBODY;
            }
        }
        Damage::ChannelPosition => {
            let channel = channel?;
            let other = random.one_of(&[0, 31, 32, 0x8000, 0xFFFF, (position(channel) as u32) ^ 1]);
            world.picture[channel_record(position(channel))] = channel & 0xFFFF_0000 | other;
        }
        Damage::JobZeroNumber => {
            disown_job_zero(random, &mut world)?;
            let number = number(random.between(1, world.picture[LAST_JOB_TAG].max(1)), 0);
            world.picture[job_record(0) + job::NUMBER] = number;
            if world.picture[CURRENT] == 0 {
                world.picture[CURRENT] = random.one_of(&[number, NOBODY]);
            }
        }
        Damage::JobZeroExists => {
            disown_job_zero(random, &mut world)?;
            world.picture[job_record(0)..job_record(1)].fill(0);
            world.picture[JOB_MASK] &= !1;
            if world.picture[CURRENT] == 0 {
                world.picture[CURRENT] = NOBODY;
            }
        }
        Damage::JobTag => {
            let job = job?;
            let k = position(job);
            set_job_owner(&mut world, k, NOBODY);
            *world.job_field(job, job::NUMBER) = k as u32;
            if world.picture[CURRENT] == job {
                world.picture[CURRENT] = random.one_of(&[k as u32, NOBODY]);
            }
        }
        Damage::ChannelTag => {
            let k = position(channel?);
            world.picture[channel_record(k)] = k as u32;
        }
        Damage::JobTagTwice => {
            let (job, other) = (job?, one_of(random, &world.jobs()[1..])?);
            *world.job_field(job, job::NUMBER) = other & 0xFFFF_0000 | position(job) as u32;
            if world.picture[CURRENT] == job {
                world.picture[CURRENT] = NOBODY;
            }
        }
        Damage::ChannelTagTwice => {
            let (channel, other) = (channel?, one_of(random, &world.channels())?);
            world.picture[channel_record(position(channel))] = other & 0xFFFF_0000 | position(channel) as u32;
        }
        Damage::BlockLength => shift_a_border(random, &mut world)?,
        Damage::BlockKind => {
            let blocks = [world.blocks_of(block::PLAIN), world.blocks_of(block::FREE)].concat();
            world.picture[random.one_of(&blocks) + block::KIND] = random.one_of(&[4, 5, 256, big, NOBODY]);
        }
        Damage::StartAddress => {
            let blocks = [world.blocks_of(block::PLAIN), world.blocks_of(block::QUEUE)].concat();
            world.picture[one_of(random, &blocks)? + block::START] = random.one_of(&[1, big, NOBODY]);
        }
        Damage::FreeHeader => {
            let free = random.one_of(&world.blocks_of(block::FREE));
            world.picture[free + block::OWNER] = random.one_of(&[1, NOBODY, big, live | 1]);
        }
        Damage::QueueLength => world = long_queue(random),
        Damage::QueueBlock => {
            let room = queue?;
            let n = world.picture[room + queue::LENGTH];
            let other = match random.below(4) {
                0 => n.wrapping_add(16),
                1 => n.wrapping_sub(16),
                2 => random.between(1, 400),
                _ => queue::LONGEST,
            };
            world.picture[room + queue::LENGTH] = other;
            let (index, count) = (world.picture[room + queue::INDEX], world.picture[room + queue::COUNT]);
            if other > queue::LONGEST || index >= other || count > other {
                return None;
            }
        }
        Damage::QueueIndex => {
            let room = queue?;
            let n = world.picture[room + queue::LENGTH];
            world.picture[room + queue::INDEX] = random.one_of(&[n, n + 1, n + big % 99, 0x8000_0000, NOBODY]);
        }
        Damage::QueueCount => {
            let room = queue?;
            let n = world.picture[room + queue::LENGTH];
            world.picture[room + queue::COUNT] = random.one_of(&[n + 1, n + 2, n + 16, 0x8000_0000, NOBODY]);
        }
        Damage::QueueZero => world.picture[queue? + queue::ZERO] = random.one_of(&[1, big, NOBODY]),
        Damage::Tiling => {
            let headers = if random.once_in(2) { world.heap_headers() } else { world.transient_headers() };
            let last = *headers.last()?;
            let length = world.picture[last];
            world.picture[last] =
                random.one_of(&[length + 16, length + 32, length + 0x1_0000, 0xFFFF_FFF0, 0x8000_0000]);
        }
        Damage::FreeTouch => {
            let free = random.one_of(&world.blocks_of(block::FREE));
            let length = world.picture[free];
            let lower = 16 * random.between(1, (length / 16).max(2) - 1);
            if lower >= length {
                return None;
            }
            world.picture[free] = lower;
            let upper = free + (lower / 4) as usize;
            world.picture[upper..upper + block::HEADER].copy_from_slice(&[length - lower, 0, 0, 0]);
        }
        Damage::HeapKinds => {
            let at = free_block_of(random, &world, false)?;
            if random.once_in(2) {
                let at = place_by_hand(&mut world, at, 16 * random_small(big), block::PLAIN, live)?;
                world.picture[at + block::START] = 0;
            } else {
                let n = big % 40 + 1;
                let at = place_by_hand(&mut world, at, (32 + n).next_multiple_of(16), block::QUEUE, live)?;
                write_queue(&mut world, at, n);
                add_channel(&mut world, live, 4 * at as u32)?;
            }
        }
        Damage::TransientKind => {
            let at = free_block_of(random, &world, true)?;
            let owner = random.one_of(&[live, NOBODY]);
            let at = place_by_hand(&mut world, at, 16 * random_small(big), block::JOB, owner)?;
            add_job(&mut world, owner, 4 * at as u32)?;
        }
        Damage::JobBlock => {
            let sharing = job.filter(|_| random.once_in(2));
            if let Some(job) = sharing {
                let record = job_record(position(job));
                let (owner, base) = (world.picture[record + job::OWNER], world.picture[record + job::BASE]);
                add_job(&mut world, owner, base)?;
            } else {
                let header = 4 * random.one_of(&world.blocks_of(block::FREE)) as u32;
                let base = random.one_of(&[0, 1, 16, big, NOBODY, header, header + 16, header + 16, header + 1]);
                let owner = random.one_of(&[live, NOBODY]);
                if base == header + 16 {
                    // What looks like a header stands in room, and is none.
                    write_header_in_room(&mut world, base, [32, block::JOB, owner, 0])?;
                }
                add_job(&mut world, owner, base)?;
            }
        }
        Damage::BlockJob => {
            let at = free_block_of(random, &world, false)?;
            let owner = random.one_of(&[live, NOBODY]);
            place_by_hand(&mut world, at, 16 * random_small(big), block::JOB, owner)?;
        }
        Damage::JobBlockOwner => {
            let k = position(job?);
            let owner = random.one_of(&[live, NOBODY, 0]);
            if random.once_in(2) {
                world.picture[job_record(k) + job::OWNER] = owner;
            } else {
                let base = (world.picture[job_record(k) + job::BASE] / 4) as usize;
                world.picture[base + block::OWNER] = owner;
            }
        }
        Damage::ChannelBlock => {
            let sharing = channel.filter(|_| random.once_in(2));
            if let Some(channel) = sharing {
                let record = channel_record(position(channel));
                let (owner, base) = (world.picture[record + channel::OWNER], world.picture[record + channel::BASE]);
                add_channel(&mut world, owner, base)?;
            } else {
                let header = 4 * random.one_of(&world.blocks_of(block::FREE)) as u32;
                let base = random.one_of(&[0, 1, 16, big, NOBODY, header, header + 16, header + 16, header + 1]);
                if base == header + 16 {
                    write_header_in_room(&mut world, base, [48, block::QUEUE, live, 0])?;
                    write_header_in_room(&mut world, base + 16, [9, 0, 0, 0])?;
                }
                add_channel(&mut world, live, base)?;
            }
        }
        Damage::BlockChannel => {
            let at = free_block_of(random, &world, true)?;
            let n = big % 40 + 1;
            let at = place_by_hand(&mut world, at, (32 + n).next_multiple_of(16), block::QUEUE, live)?;
            write_queue(&mut world, at, n);
        }
        Damage::ChannelBlockOwner => {
            let record = channel_record(position(channel?));
            if random.once_in(2) {
                world.picture[record + channel::OWNER] = live;
            } else {
                let base = (world.picture[record + channel::BASE] / 4) as usize;
                world.picture[base + block::OWNER] = live;
            }
        }
        Damage::JobOwner => {
            let k = position(job?);
            let smaller = tag(job?) - 1;
            let owner = random.one_of(&[
                number(smaller, 32),
                number(smaller, 0xFFFF),
                number(0, 1),
                number(smaller, big as usize % 32),
            ]);
            set_job_owner(&mut world, k, owner);
        }
        Damage::ChannelOwner => {
            let record = channel_record(position(channel?));
            let owner = dead_owner(random, live);
            world.picture[record + channel::OWNER] = owner;
            let base = (world.picture[record + channel::BASE] / 4) as usize;
            world.picture[base + block::OWNER] = owner;
        }
        Damage::PlainOwner => {
            let plain = one_of(random, &world.blocks_of(block::PLAIN))?;
            world.picture[plain + block::OWNER] = dead_owner(random, live);
        }
        Damage::OwnerTag => {
            let (job, other) = (job?, one_of(random, &world.jobs()[1..])?);
            set_job_owner(&mut world, position(job), other);
        }
        Damage::JobZeroOwner => world.picture[job_record(0) + job::OWNER] = live,
        Damage::JobTagGiven => {
            let last = world.picture[LAST_JOB_TAG];
            world.picture[LAST_JOB_TAG] = random.between(0, last);
        }
        Damage::ChannelTagGiven => {
            let last = world.picture[LAST_CHANNEL_TAG];
            world.picture[LAST_CHANNEL_TAG] = random.between(0, last);
        }
        Damage::LastJobTag => {
            world.picture[LAST_JOB_TAG] = random.one_of(&[32_768, 65_535, 65_536, big | 0x8000, NOBODY])
        }
        Damage::LastChannelTag => {
            world.picture[LAST_CHANNEL_TAG] = random.one_of(&[32_768, 65_535, 65_536, big | 0x8000, NOBODY]);
        }
        Damage::Current => {
            world.picture[CURRENT] =
                random.one_of(&[live, live + 0x1_0000, 32, 0xFFFF, 0xFFFF_FFFE, big, live | 0x8000]);
        }
        Damage::WaitedFor => {
            *world.job_field(live, job::WAIT) =
                random.one_of(&[live, live.wrapping_add(0x1_0000), 31, 32, NOBODY, big]);
            *world.job_field(live, job::TIMEOUT) = WITHOUT_END as u32;
            *world.job_field(live, job::ACCUMULATED) = 0;
            if world.picture[CURRENT] == live {
                world.picture[CURRENT] = NOBODY;
            }
        }
        Damage::WaitTimeout => {
            *world.job_field(live, job::WAIT) = job?;
            if random.once_in(2) && world.picture[CURRENT] != live {
                *world.job_field(live, job::TIMEOUT) = random.between(1, 32_767);
                *world.job_field(live, job::ACCUMULATED) = 0;
            }
            if job == Some(live) {
                return None;
            }
        }
        Damage::AccumulatedReady => {
            *world.job_field(live, job::ACCUMULATED) = random.one_of(&[1, 8_191, big % 8_191 + 1]);
            if random.once_in(2) && world.picture[CURRENT] != live {
                *world.job_field(live, job::TIMEOUT) = random.between(1, 9);
            }
        }
    }
    Some(world.picture)
}

fn one_of<T: Copy>(random: &mut Random, things: &[T]) -> Option<T> {
    (!things.is_empty()).then(|| random.one_of(things))
}

/// Writes four longwords at an address, where the picture reaches so far.
fn write_header_in_room(world: &mut World, address: u32, longwords: [u32; 4]) -> Option<()> {
    let at = (address / 4) as usize;
    world.picture.get_mut(at..at + 4)?.copy_from_slice(&longwords);
    Some(())
}

/// A length in steps of 16 bytes, from 1 to 4.
fn random_small(big: u32) -> u32 {
    (big >> 8) % 4 + 1
}

fn dead_owner(random: &mut Random, live: u32) -> u32 {
    let anything = random.longword();
    random.one_of(&[NOBODY, live + 0x1_0000, live | 0x20, 0xFFFF, anything])
}

/// Gives everything that job 0 owns to nobody or to another job, if there is one.
fn disown_job_zero(random: &mut Random, world: &mut World) -> Option<()> {
    let other = one_of(random, &world.jobs()[1..]);
    for k in positions(world.picture[JOB_MASK] & !1) {
        if world.picture[job_record(k) + job::OWNER] == 0 {
            set_job_owner(world, k, NOBODY);
        }
    }
    for k in positions(world.picture[CHANNEL_MASK]) {
        let owner = &mut world.picture[channel_record(k) + channel::OWNER];
        *owner = if *owner == 0 { other? } else { *owner };
    }
    for at in [world.blocks_of(block::PLAIN), world.blocks_of(block::QUEUE)].concat() {
        let owner = &mut world.picture[at + block::OWNER];
        *owner = if *owner == 0 { other? } else { *owner };
    }
    Some(())
}

/// Changes a job's owner in its record and in its block.
fn set_job_owner(world: &mut World, position: usize, owner: u32) {
    let record = job_record(position);
    world.picture[record + job::OWNER] = owner;
    let base = (world.picture[record + job::BASE] / 4) as usize;
    world.picture[base + block::OWNER] = owner;
}

/// Moves the border of two blocks down by a few bytes that aren't 16.
fn shift_a_border(random: &mut Random, world: &mut World) -> Option<()> {
    let headers = if random.once_in(2) { world.heap_headers() } else { world.transient_headers() };
    if headers.len() < 2 {
        return None;
    }
    let k = random.below(headers.len() - 1);
    let (lower, upper) = (headers[k], headers[k + 1]);
    let longwords = random.between(1, 3);
    if world.picture[lower] < 32 {
        return None;
    }
    let header: [u32; 4] = *world.picture[upper..].first_chunk()?;
    let moved = upper - longwords as usize;
    world.picture[lower] -= 4 * longwords;
    world.picture[moved..moved + block::HEADER].copy_from_slice(&header);
    world.picture[moved] += 4 * longwords;
    for j in positions(world.picture[JOB_MASK] & !1) {
        let base = &mut world.picture[job_record(j) + job::BASE];
        if *base == 4 * upper as u32 {
            *base = 4 * moved as u32;
        }
    }
    Some(())
}

/// A queue longer than 32,766 in a block that fits it.
fn long_queue(random: &mut Random) -> World {
    let length = 4 * random.between(2_800, 4_000) as usize;
    let mut world = World::new(length, length - HEAP - 4 * random.between(1, 40) as usize);
    for _ in 0..random.below(3) {
        world.take(0, random.between(1, 40));
    }
    let channel = world.open(0, queue::LONGEST);
    let base = (world.picture[channel_record(position(channel)) + channel::BASE] / 4) as usize;
    let before = world.picture[base];
    let rest = base + (before / 4) as usize;
    let more = if random.once_in(2) { 0 } else { 16 * random.between(1, 60) };
    let left = world.picture[rest] - more;
    world.picture[rest..rest + block::HEADER].fill(0);
    let rest = rest + (more / 4) as usize;
    world.picture[rest..rest + block::HEADER].copy_from_slice(&[left, 0, 0, 0]);
    world.picture[base] = before + more;
    world.picture[base + block::HEADER + queue::LENGTH] =
        before + more - 32 - random.below(if more == 0 { 2 } else { 16 }) as u32;
    world
}

/// A free block of the heap or of the transient area.
fn free_block_of(random: &mut Random, world: &World, in_heap: bool) -> Option<usize> {
    let mut headers = if in_heap { world.heap_headers() } else { world.transient_headers() };
    headers.retain(|at| world.picture[at + block::KIND] == block::FREE);
    one_of(random, &headers)
}

/// Makes the low end of a free block a block of this kind.
fn place_by_hand(world: &mut World, at: usize, length: u32, kind: u32, owner: u32) -> Option<usize> {
    let whole = world.picture[at];
    let rest = whole.checked_sub(length)?;
    world.picture[at..at + block::HEADER].copy_from_slice(&[length, kind, owner, 0]);
    if rest > 0 {
        let behind = at + (length / 4) as usize;
        world.picture[behind..behind + block::HEADER].copy_from_slice(&[rest, 0, 0, 0]);
    }
    Some(at)
}

fn write_queue(world: &mut World, at: usize, n: u32) {
    world.picture[at + block::HEADER..at + block::HEADER + queue::BYTES].copy_from_slice(&[n, 0, 0, 0]);
}

/// Adds a job record with the next tag by hand.
fn add_job(world: &mut World, owner: u32, base: u32) -> Option<()> {
    let k = free_position(world.picture[JOB_MASK])?;
    world.picture[LAST_JOB_TAG] += 1;
    let number = number(world.picture[LAST_JOB_TAG], k);
    world.picture[JOB_MASK] |= 1 << k;
    world.picture[job_record(k)..][..3].copy_from_slice(&[number, owner, base]);
    Some(())
}

/// Adds a channel record with the next tag by hand.
fn add_channel(world: &mut World, owner: u32, base: u32) -> Option<()> {
    let k = free_position(world.picture[CHANNEL_MASK])?;
    world.picture[LAST_CHANNEL_TAG] += 1;
    let number = number(world.picture[LAST_CHANNEL_TAG], k);
    world.picture[CHANNEL_MASK] |= 1 << k;
    world.picture[channel_record(k)..][..4].copy_from_slice(&[number, owner, base, 1]);
    Some(())
}

/// A small picture that isn't sound.
pub fn some_unsound(random: &mut Random) -> Vec<u32> {
    loop {
        let steps = random.below(16);
        let mut world = World::lively(random, steps);
        for _ in 0..random.between(1, 3) {
            change_somewhere(random, &mut world);
        }
        if first_broken(&world.picture).is_some() {
            return world.picture;
        }
    }
}
