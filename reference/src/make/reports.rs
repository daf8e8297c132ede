//! Trials of the report: tops and tables of every kind, trees of every shape, jobs in every state, pictures that aren't
//! sound or are too long, and lines that aren't trials.

use super::damage::{Damage, DAMAGES};
use super::jobs::{deep, family, launched, shuffled, wide, Launched, TREE_MIX};
use super::sound::{change_somewhere, damaged};
use super::world::{World, LIVELY};
use super::Maker;
use crate::fresh::fresh_picture;
use crate::jobs::tree;
use crate::picture::*;
use crate::trial::{write_runs, LONGEST_PICTURE, MOST_LINES};

pub fn listed(maker: &mut Maker) {
    tops(maker);
    tables(maker);
    shapes(maker);
    removals(maker);
    launched_trees(maker);
    states(maker);
    unsound(maker);
    too_long(maker);
    not_trials(maker);
}

pub fn one_more(maker: &mut Maker) {
    let mut world = if maker.random.once_in(2) { random_tree(maker) } else { random_history(maker) };
    let top = if maker.random.once_in(3) { 0 } else { world.some_job(&mut maker.random) };
    let enough = live_job(&world.picture, JobNumber(top)).map_or(2, |top| members(&world, top));
    let lines = match maker.random.below(8) {
        0 => 0,
        1 => enough - 1,
        2 => maker.random.below(POSITIONS),
        3..=5 => enough,
        _ => enough + maker.random.below(4),
    };
    if maker.random.once_in(10) {
        change_somewhere(&mut maker.random, &mut world);
    }
    maker.report(top, lines, &world.picture);
}

/// A tree with jobs in any state at positions in any order, nobody being current.
fn random_tree(maker: &mut Maker) -> World {
    let count = maker.random.between(1, 31) as usize;
    let mut world = shuffled(maker, count, false, false);
    for job in world.jobs() {
        let some = maker.random.between(2, 126);
        *world.job_field(job, job::PRIORITY) = maker.random.one_of(&[0, 1, some, GREATEST_PRIORITY]);
        *world.job_field(job, job::TIMEOUT) = maker.random.one_of(&[0, 0, 1, some, LONGEST_TIMEOUT as u32, NOBODY]);
    }
    world.make_current(NOBODY);
    world
}

/// A picture after a history in which trees grow, or any other.
fn random_history(maker: &mut Maker) -> World {
    let mut world = World::usual(&mut maker.random);
    let steps = maker.random.below(80);
    let mix = if maker.random.once_in(4) { LIVELY } else { TREE_MIX };
    world.live(&mut maker.random, steps, mix);
    world
}

/// How many members the tree of the job at this position has.
fn members(world: &World, top: usize) -> usize {
    tree(&world.picture, top).count_ones() as usize
}

/// Live tops, and numbers that name no live job: a tag or a position that isn't the job's, bit 15, a channel's number.
fn tops(maker: &mut Maker) {
    let (mut world, child, grandchild, stranger) = family();
    for top in [0, child, grandchild, stranger] {
        maker.report(top, 4, &world.picture);
    }
    let channel = world.open(child, 4);
    world.call(1, [0x5, stranger, 0, 0, 0, 0, 0, 0], b"");
    for dead in [
        child + 0x1_0000,
        number(0, position(child)),
        child + 1,
        number(tag(child), 31),
        32,
        stranger,
        0x0000_FFFF,
        0x0000_8000,
        child | 0x8000,
        child | 0x8000_0000,
        channel,
        NOBODY,
    ] {
        maker.report(dead, 2, &world.picture);
    }
    maker.report(stranger, 0, &world.picture);
}

/// Tables that are empty, too short by one, just enough, longer by one, and the longest.
fn tables(maker: &mut Maker) {
    let (world, child, _, stranger) = family();
    for top in [0, child] {
        let enough = members(&world, position(top));
        for lines in [0, enough - 1, enough, enough + 1] {
            maker.report(top, lines, &world.picture);
        }
    }
    for lines in [0, 1, MOST_LINES] {
        maker.report(stranger, lines, &world.picture);
    }
}

/// Chains and flat trees of every position, from the top, the middle and the end, at positions in any order.
fn shapes(maker: &mut Maker) {
    let chain = deep(maker, POSITIONS - 1, true);
    let flat = wide(maker, POSITIONS - 1, false, true);
    for world in [&chain, &flat] {
        for lines in [POSITIONS - 1, POSITIONS] {
            maker.report(0, lines, &world.picture);
        }
        for place in [16, 31] {
            let top = world.jobs()[place];
            maker.report(top, members(world, place), &world.picture);
        }
    }
    let below_child = wide(maker, POSITIONS - 1, true, false);
    maker.report(below_child.jobs()[1], POSITIONS - 1, &below_child.picture);
    for (count, falling, chain) in [(31, true, true), (5, true, true), (9, false, true), (12, false, false)] {
        let world = shuffled(maker, count, falling, chain);
        let mut jobs = world.jobs();
        jobs.sort_by_key(|&number| tag(number));
        for top in [0, jobs[count / 2]] {
            maker.report(top, members(&world, position(top)), &world.picture);
        }
    }
}

/// Members that are gone, and others that stand at their positions with greater tags.
fn removals(maker: &mut Maker) {
    let mut world = deep(maker, 4, true);
    let jobs = world.jobs();
    let sister = world.create_for(jobs[1], 4);
    maker.report(0, 6, &world.picture);
    world.call(1, [0x5, jobs[2], 0, 0, 0, 0, 0, 0], b"");
    for top in [0, jobs[1], jobs[2], jobs[4]] {
        maker.report(top, 3, &world.picture);
    }
    world.make_current(0);
    let again = world.create_for(sister, 4);
    world.create_for(again, 4);
    for top in [0, sister, again, jobs[2]] {
        maker.report(top, members(&world, position(top)), &world.picture);
    }
}

/// Trees that a launcher has made for others, whole, and with a desk or with the launcher ended.
fn launched_trees(maker: &mut Maker) {
    let (world, jobs) = launched();
    let Launched { launcher, desks, helpers, tank, .. } = jobs;
    for top in [0, launcher, desks[0], desks[1], helpers[0], tank] {
        maker.report(top, members(&world, position(top)), &world.picture);
    }
    for ended in [desks[0], launcher] {
        let mut world = world.clone();
        world.call(1, [0x5, ended, 0, 0, 0, 0, 0, 0], b"");
        for top in [launcher, desks[1], helpers[0], tank] {
            maker.report(top, 3, &world.picture);
        }
    }
}

/// Suspended for one frame, for the longest time, without end and while waiting, at every kind of priority; nobody current.
fn states(maker: &mut Maker) {
    for (timeout, waits) in [(0, false), (1, false), (32_767, false), (NOBODY, false), (NOBODY, true)] {
        let (mut world, child, grandchild, stranger) = family();
        for (job, priority) in [(child, 0), (grandchild, 127)] {
            *world.job_field(job, job::PRIORITY) = priority;
            *world.job_field(job, job::TIMEOUT) = timeout;
            *world.job_field(job, job::WAIT) = if waits { stranger } else { 0 };
            *world.job_field(job, job::KEY) = 0x7777_7777;
        }
        maker.report(child, 2, &world.picture);
        *world.job_field(0, job::TIMEOUT) = timeout;
        world.make_current(NOBODY);
        maker.report(0, 3, &world.picture);
    }
    let (mut world, child, grandchild, _) = family();
    world.make_current(grandchild);
    maker.report(child, 2, &world.picture);
    maker.report(grandchild, 1, &world.picture);
}

/// Pictures that aren't sound: that comes before a dead top and an empty table.
fn unsound(maker: &mut Maker) {
    for damage in [
        Damage::LongwordSeven,
        Damage::Timeout,
        Damage::JobTagTwice,
        Damage::JobOwner,
        Damage::OwnerTag,
        Damage::BlockKind,
        Damage::Current,
    ] {
        let rules = DAMAGES.into_iter().find(|&(known, _)| known == damage).map_or(&[][..], |(_, rules)| rules);
        let picture = damaged(&mut maker.random, damage, rules);
        maker.report(0, 3, &picture);
        maker.report(0x0000_FFFF, 0, &picture);
    }
    let fresh = fresh_picture(1_024, 256);
    for length in [0, 1_020] {
        maker.report(0, 1, &fresh[..length]);
    }
}

/// Pictures that are sound but for their length, which is above the greatest N: every call refuses them.
fn too_long(maker: &mut Maker) {
    maker.report(0, 1, &World::new(GREATEST_LENGTH + STEP, 8_192).picture);
    let mut world = World::new(LONGEST_PICTURE, 8_192);
    world.create(true, 4);
    maker.report(0, 3, &world.picture);
    maker.report(0x0000_FFFF, 0, &world.picture);
    maker.trap(1, b"", &[0x0, 1, 2, 3, 4, 5, 6, 7], &world.picture);
    maker.trap(2, b"PIPE_4", &[0x1, 0, 0, 0, 0, 0, 0, 0], &world.picture);
    maker.pick(&world.picture);
    maker.tick(&world.picture);
    for stated in [LONGEST_PICTURE, GREATEST_LENGTH] {
        maker.fresh(stated as u32, 8_192, &world.picture);
    }
    world.picture[LENGTH] = GREATEST_LENGTH as u32;
    maker.report(0, 3, &world.picture);
}

/// Lines that aren't trials, beside some that just are.
fn not_trials(maker: &mut Maker) {
    let mut fresh = Vec::new();
    write_runs(&fresh_picture(1_024, 256), &mut fresh);
    let fresh = String::from_utf8_lossy(&fresh).into_owned();
    let small = fresh.to_ascii_lowercase();
    for line in [
        format!("F2 - {fresh}"),
        format!("F2 00000000 {fresh}"),
        format!("F2 0000000000000001 {fresh}"),
        format!("f2 0000000000000001 {small}"),
        format!("F2 0000000000000001 {fresh} -"),
        "F2 0000000000000001 -".into(),
        format!("F2 000000000000000100000000 {fresh}"),
        format!("F2 0000000000000041 {fresh}"),
        format!("F2 0000000080000001 {fresh}"),
        format!("F2 00000000FFFFFFFF {fresh}"),
        format!("F2 000000000000000G {fresh}"),
        format!("F2 00000000x0002 {fresh}"),
        format!("F200 0000000000000001 {fresh}"),
        format!("F200000000 0000000000000001 {fresh}"),
        "F1 - 00000000x400000000000x0010".into(),
        "F1 - 00000000x400000000000x0011".into(),
        "F1 - 00000000x4001".into(),
        "F2 0000000000000000 00000000x400000000000x0010".into(),
        "F2 0000000000000000 00000000x400000000000x0011".into(),
        "F2 0000000000000000 00000000x4010".into(),
    ] {
        maker.raw(line.as_bytes());
    }
}
