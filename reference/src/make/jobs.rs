//! Trials of the job calls: every key, deep and wide trees, waits, full tables and the last tag.

use super::world::{Act, Mix, World, LIVELY};
use super::{random_step, without_current_and_unsound, Maker};
use crate::picture::*;

const CALLS: [Act; 9] = [
    Act::AskSystem,
    Act::Create,
    Act::Ask,
    Act::EndInactive,
    Act::EndForced,
    Act::Suspend,
    Act::Release,
    Act::Activate,
    Act::SetPriority,
];

/// Steps that grow trees.
pub const TREE_MIX: &Mix = &[
    (Act::Create, 14),
    (Act::Activate, 14),
    (Act::Pick, 8),
    (Act::Take, 3),
    (Act::Open, 3),
    (Act::Suspend, 3),
    (Act::Release, 1),
    (Act::SetPriority, 2),
    (Act::EndForced, 1),
    (Act::EndInactive, 1),
];

pub fn listed(maker: &mut Maker) {
    without_current_and_unsound(maker, &CALLS);
    creations(maker);
    tables_used_up(maker);
    free_positions(maker);
    deep_and_wide(maker);
    waits(maker);
    asks(maker);
    suspensions(maker);
    activations(maker);
    owners(maker);
    checks_for_another(maker);
    launched_trees(maker);
}

pub fn one_more(maker: &mut Maker) {
    let mix = if maker.random.once_in(2) { TREE_MIX } else { LIVELY };
    random_step(maker, &CALLS, mix);
}

fn call(maker: &mut Maker, world: &World, call: u32, d1: u32, d2: u32, d3: u32, a1: u32) {
    let a0 = maker.random.longword();
    maker.trap(1, b"", &[call, d1, d2, d3, a0, a1, 0x66, 0x77], &world.picture);
}

/// A small family: job 0 owns a child, which owns a grandchild; an unowned job stands beside them. All are active.
pub fn family() -> (World, u32, u32, u32) {
    let mut world = World::new(1_024, 256);
    let child = world.create(true, 20);
    *world.job_field(child, job::PRIORITY) = 5;
    let grandchild = world.create_for(child, 40);
    *world.job_field(grandchild, job::PRIORITY) = 6;
    let stranger = world.create(false, 20);
    *world.job_field(stranger, job::PRIORITY) = 7;
    (world, child, grandchild, stranger)
}

/// $0 and $1: owners, sizes and their limits, and the order of the checks.
fn creations(maker: &mut Maker) {
    let (world, child, grandchild, stranger) = family();
    call(maker, &world, 0x0, 1, 2, 3, 5);
    let mut other = world.clone();
    other.make_current(grandchild);
    call(maker, &other, 0x0, 1, 2, 3, 5);
    for owner in [
        0,
        child,
        grandchild,
        stranger,
        child + 0x1_0000,
        1,
        0xFFFF,
        0x8000,
        0x7FFF_FFFF,
        0x8000_0000,
        NOBODY,
        0x8001_0001,
    ] {
        call(maker, &other, 0x1, owner, 10, 10, 0x1234);
        call(maker, &other, 0x1, owner, 10, 3, 0);
    }
    let fresh = World::new(1_024, 256);
    for (code, data) in [
        (1_428, 60),
        (1_429, 60),
        (1_427, 60),
        (1_428, 61),
        (0, 4),
        (0, 3),
        (0, 0),
        (12, 4),
        (13, 4),
        (0, 1_488),
        (0, 1_489),
        (1_484, 4),
        (1_485, 4),
        (1_488, 0),
    ] {
        call(maker, &fresh, 0x1, 0, code, data, 0);
    }
    for (code, data) in [
        (NOBODY, 4),
        (4, NOBODY),
        (NOBODY, NOBODY),
        (0x8000_0000, 0x8000_0000),
        (0xFFFF_FFE0, 0x20),
        (0xFFFF_FFF0, 4),
        (0, 0xFFFF_FFF0),
        (NOBODY, 3),
    ] {
        call(maker, &fresh, 0x1, NOBODY, code, data, NOBODY);
    }
    // Free blocks between jobs: the lowest that is long enough is taken.
    let mut holes = World::new(1_024, 256);
    let jobs: Vec<u32> = [20, 20, 60, 20, 100, 20].iter().map(|&room| holes.create(false, room)).collect();
    for k in [0, 2, 4] {
        holes.call(1, [0x5, jobs[k], 0, 0, 0, 0, 0, 0], b"");
        holes.pick();
    }
    for room in [28, 32, 33, 64, 65, 112, 113, 1_000, 1_200] {
        call(maker, &holes, 0x1, 0, room - 4, 4, 0);
    }
}

/// Every position in use, and the last tag.
fn tables_used_up(maker: &mut Maker) {
    let mut full = World::new(1_536, 128);
    for k in 0..POSITIONS as u32 - 1 {
        full.create(k % 2 == 0, 4);
    }
    call(maker, &full, 0x1, 0, 0, 4, 0);
    call(maker, &full, 0x1, 0, 0, 3, 0);
    call(maker, &full, 0x1, 40, 0, 4, 0);
    full.picture[LAST_JOB_TAG] = LAST_TAG;
    call(maker, &full, 0x1, NOBODY, 0, 4, 0);
    for k in [1, 17, 31] {
        let mut one_left = full.clone();
        one_left.picture[LAST_JOB_TAG] = 31;
        let job = one_left.picture[job_record(k)];
        call(maker, &one_left, 0x4, job, 0, 9, 0);
        one_left.call(1, [0x5, job, 0, 0, 0, 0, 0, 0], b"");
        one_left.pick();
        call(maker, &one_left, 0x1, 0, 0, 4, 0);
        call(maker, &one_left, 0x1, 0, 4_000, 4, 0);
        call(maker, &one_left, 0x4, job, 0, 0, 0);
    }
    for last in [LAST_TAG - 2, LAST_TAG - 1, LAST_TAG] {
        let mut world = World::new(1_024, 256);
        world.create(true, 4);
        world.picture[LAST_JOB_TAG] = last;
        for (owner, room, data) in [(0, 4, 4), (NOBODY, 4, 4), (0, 9_999, 4), (0, 0, 3), (31, 4, 4)] {
            call(maker, &world, 0x1, owner, room, data, 0);
        }
        if last < LAST_TAG {
            let greatest = world.create(true, 4);
            call(maker, &world, 0x4, greatest, 0, 0, 0);
            call(maker, &world, 0x2, 0, 0, 0, 0);
        }
    }
}

/// Each position as the lowest free one, some above it free too, and their blocks with them.
fn free_positions(maker: &mut Maker) {
    let mut full = World::new(1_024, 128);
    let jobs: Vec<u32> = (1..POSITIONS).map(|_| full.create(false, 4)).collect();
    for lowest in 0..jobs.len() {
        let mut some_left = full.clone();
        for (k, &job) in jobs.iter().enumerate().skip(lowest) {
            if k == lowest || maker.random.once_in(2) {
                some_left.call(1, [0x5, job, 0, 0, 0, 0, 0, 0], b"");
                some_left.make_current(0);
            }
        }
        call(maker, &some_left, 0x1, 0, 0, 4, 0);
    }
}

/// A tree in which each job owns the next, at positions in any order.
pub fn deep(maker: &mut Maker, depth: usize, active: bool) -> World {
    let mut world = World::new(1_024, 128);
    let mut owner = 0;
    for _ in 0..depth {
        owner = world.create_for(owner, 4);
        if active {
            *world.job_field(owner, job::PRIORITY) = maker.random.between(1, 127);
        }
    }
    world
}

/// A tree whose tags don't rise with positions: jobs that stood there before have given theirs up one by one.
pub fn shuffled(maker: &mut Maker, count: usize, falling: bool, chain: bool) -> World {
    let mut world = World::new(1_024, 128);
    let mut before: Vec<u32> = (0..count).map(|_| world.create(false, 4)).collect();
    if !falling {
        maker.random.shuffle(&mut before);
    }
    let mut members = vec![0];
    while let Some(old) = before.pop() {
        let current = world.picture[CURRENT];
        world.call(1, [0x5, old, 0, 0, 0, 0, 0, 0], b"");
        world.make_current(current);
        let owner = if chain { members[members.len() - 1] } else { maker.random.one_of(&members) };
        members.push(world.create_for(owner, 4));
    }
    world
}

/// A tree in which job 0, or its first child, owns all the others.
pub fn wide(maker: &mut Maker, width: usize, below_child: bool, active: bool) -> World {
    let mut world = World::new(1_024, 128);
    let top = if below_child { world.create(true, 4) } else { 0 };
    for _ in 0..width - usize::from(below_child) {
        let job = world.create_for(top, 4);
        if active {
            *world.job_field(job, job::PRIORITY) = maker.random.between(1, 127);
        }
    }
    world
}

/// Asks and ends at the top, inside and at the leaves of trees of many shapes.
fn deep_and_wide(maker: &mut Maker) {
    for depth in [1, 2, 3, 7, 31] {
        for active in [false, true] {
            let world = deep(maker, depth, active);
            let jobs = world.jobs();
            for place in [1, depth / 2 + 1, depth] {
                let job = jobs[place];
                call(maker, &world, 0x5, job, 0, 0x77, 0);
                if depth != 31 || place == 1 {
                    call(maker, &world, 0x4, job, 0, 0x77, 0);
                    call(maker, &world, 0x2, job, 0, 0, 0);
                    call(maker, &world, 0x2, jobs[depth], job, 0, 0);
                }
            }
        }
    }
    for (count, falling, chain) in [
        (2, true, true),
        (4, true, true),
        (7, true, true),
        (31, true, true),
        (6, false, true),
        (6, false, false),
        (9, false, false),
        (12, false, false),
    ] {
        let world = shuffled(maker, count, falling, chain);
        let mut jobs = world.jobs();
        jobs.sort_by_key(|&number| tag(number));
        let asked = if count > 12 { vec![1, 16] } else { (0..count).collect() };
        for place in asked {
            call(maker, &world, 0x2, jobs[place], 0, 0, 0);
            call(maker, &world, 0x2, jobs[place], jobs[1], 0, 0);
        }
        for place in [1, count / 2 + 1] {
            call(maker, &world, 0x5, jobs[place], 0, 0x33, 0);
        }
    }
    for width in [2, 8, 31] {
        for below_child in [false, true] {
            let world = wide(maker, width, below_child, below_child);
            let jobs = world.jobs();
            call(maker, &world, 0x5, jobs[1], 0, 0x55, 0);
            call(maker, &world, 0x4, jobs[width], 0, 0x55, 0);
            call(maker, &world, 0x2, jobs[width / 2], 0, 0, 0);
        }
    }
    // One active member anywhere in the tree, suspended too, refuses $4; outside the tree it does not.
    for (place, timeout) in [(1, 0), (3, 0), (5, 7), (5, NOBODY), (6, 0)] {
        let mut world = deep(maker, 5, false);
        world.create(false, 4);
        let jobs = world.jobs();
        *world.job_field(jobs[place], job::PRIORITY) = 1;
        *world.job_field(jobs[place], job::TIMEOUT) = timeout;
        for top in [1, 3, 5] {
            call(maker, &world, 0x4, jobs[top], 0, 0, 0);
        }
    }
    // Trees with plain blocks and channels, some of others between, and free neighbours of every kind.
    for round in 0..12 {
        let (mut world, child, grandchild, stranger) = family();
        let owners = [child, stranger, grandchild, 0, child, grandchild, grandchild, stranger, child];
        for k in 0..9 {
            let owner = owners[(k + round) % 9];
            if (k + round / 2) % 3 == 0 {
                let channel = world.open(owner, 5 + k as u32);
                world.send(channel, b'a' + k as u8);
            } else {
                let room = world.take(owner, 8 + 4 * k as u32);
                world.picture[(room / 4) as usize] = 0xB10C_0000 + k as u32;
            }
        }
        world.create_for(grandchild, 4 + 16 * round as u32);
        let top = [child, grandchild, stranger][round % 3];
        call(maker, &world, 0x5, top, 0, 0xFEED, 0);
        world.make_current(top);
        call(maker, &world, 0x5, 0xFFFF, 0, 0xFEED, 0);
    }
    for (d1, d3) in [(0, 0), (0x1_0000, 0), (0xFFFF, 0), (NOBODY, 1), (0x7FFF, 0), (33, 0)] {
        let (world, _, _, _) = family();
        call(maker, &world, 0x4, d1, 0, d3, 0);
        call(maker, &world, 0x5, d1, 0, d3, 0);
    }
}

/// Waits inside the tree, out of it, into it and past it, by active and inactive jobs, and rings.
fn waits(maker: &mut Maker) {
    for from in 0..4usize {
        for to in 1..4usize {
            if from == to {
                continue;
            }
            let (mut world, child, grandchild, stranger) = family();
            let jobs = [0, child, grandchild, stranger];
            if from == 0 {
                world.make_current(stranger);
            }
            *world.job_field(jobs[from], job::TIMEOUT) = WITHOUT_END as u32;
            *world.job_field(jobs[from], job::WAIT) = jobs[to];
            *world.job_field(jobs[from], job::KEY) = 0x1111;
            for top in [child, grandchild, stranger] {
                call(maker, &world, 0x5, top, 0, 0x8765_4321, 0);
            }
            *world.job_field(jobs[from], job::PRIORITY) = 0;
            call(maker, &world, 0x5, jobs[to], 0, 0xFFFF_FFF3, 0);
            call(maker, &world, 0x9, jobs[from], 0, 0, 0);
            call(maker, &world, 0x8, jobs[from], 0, 4, 0);
        }
    }
    let (mut ring, child, grandchild, stranger) = family();
    for (from, to) in [(child, grandchild), (grandchild, stranger), (stranger, child)] {
        *ring.job_field(from, job::TIMEOUT) = WITHOUT_END as u32;
        *ring.job_field(from, job::WAIT) = to;
    }
    for job in [child, grandchild, stranger] {
        call(maker, &ring, 0x5, job, 0, 0x99, 0);
        call(maker, &ring, 0x9, job, 0, 0x99, 0);
    }
}

/// $2: tops and members, live or not, suspended or not, and tags that don't rise with positions.
fn asks(maker: &mut Maker) {
    let (mut world, child, grandchild, stranger) = family();
    *world.job_field(grandchild, job::TIMEOUT) = 5;
    *world.job_field(stranger, job::TIMEOUT) = NOBODY;
    *world.job_field(stranger, job::PRIORITY) = 127;
    let all = [0, child, grandchild, stranger];
    for top in all {
        for asked in all {
            call(maker, &world, 0x2, asked, top, 9, 9);
        }
        call(maker, &world, 0x2, 0xFFFF, top, 9, 9);
    }
    for (asked, top) in [
        (0, 0xFFFF),
        (0, NOBODY),
        (NOBODY, 0),
        (0x8000, 0),
        (child + 0x1_0000, 0),
        (0, child + 0x1_0000),
        (33, 0),
        (0, 33),
        (0x7FFF, 0x7FFF),
    ] {
        call(maker, &world, 0x2, asked, top, 9, 9);
    }
    // Positions used again have greater tags than those behind them.
    world.call(1, [0x5, child, 0, 0, 0, 0, 0, 0], b"");
    world.pick();
    let again = world.create(true, 4);
    *world.job_field(again, job::PRIORITY) = 3;
    let below = world.create_for(again, 4);
    let sister = world.create(true, 4);
    for asked in [0, again, below, sister, stranger, child] {
        call(maker, &world, 0x2, asked, 0, 0, 0);
        call(maker, &world, 0x2, asked, again, 0, 0);
    }
}

/// $8 and $9: timeouts one below, at and above every limit, on jobs in every state.
fn suspensions(maker: &mut Maker) {
    let (mut world, child, grandchild, stranger) = family();
    *world.job_field(child, job::ACCUMULATED) = 100;
    *world.job_field(child, job::KEY) = 0xFFFF_FFFE;
    *world.job_field(grandchild, job::PRIORITY) = 0;
    *world.job_field(stranger, job::TIMEOUT) = WITHOUT_END as u32;
    *world.job_field(stranger, job::WAIT) = child;
    *world.job_field(stranger, job::KEY) = 12;
    for timeout in [1, 2, 0, 32_766, 32_767, 32_768, 0xFFFF, 0xFFFE, 0x1_0000, 0x1234_0001, 0x1234_FFFF, NOBODY] {
        call(maker, &world, 0x8, child, 0, timeout, 0);
    }
    for job in [0, child, grandchild, stranger, 0xFFFF, 0x8000, NOBODY, child + 0x1_0000, 32] {
        call(maker, &world, 0x8, job, 0, 3, 0);
        call(maker, &world, 0x8, job, 0, 3, 1);
        call(maker, &world, 0x8, job, 0, 0xFFFF, 0);
        call(maker, &world, 0x8, job, 0, 0, 0x8000_0000);
        call(maker, &world, 0x9, job, 0, 3, 5);
    }
    for timeout in [1, 32_767, NOBODY] {
        *world.job_field(grandchild, job::TIMEOUT) = timeout;
        *world.job_field(grandchild, job::KEY) = 77;
        call(maker, &world, 0x9, grandchild, 0, 0, 0);
        call(maker, &world, 0x8, grandchild, 0, 9, 0);
    }
}

/// $A and $B: priorities and D3 at every limit, job 0, the caller, and waiting for an owner or one owned.
fn activations(maker: &mut Maker) {
    let (mut world, child, grandchild, stranger) = family();
    *world.job_field(0, job::ACCUMULATED) = 50;
    *world.job_field(0, job::KEY) = 5;
    *world.job_field(grandchild, job::PRIORITY) = 0;
    *world.job_field(grandchild, job::KEY) = 6;
    *world.job_field(child, job::ACCUMULATED) = 70;
    for priority in [0, 1, 2, 126, 127, 128, 255, 256, 0x101, 0xFFFF_FF7F, NOBODY] {
        call(maker, &world, 0xA, grandchild, priority, 0, 0);
        call(maker, &world, 0xB, child, priority, 0, 0);
        call(maker, &world, 0xB, 0, priority, 0, 0);
    }
    for d3 in [0, 1, 0xFFFF, 0xFFFE, 0x7FFF, 0x8000, 0x1_0000, 0x1234_FFFF, NOBODY] {
        call(maker, &world, 0xA, grandchild, 9, d3, 0);
    }
    for job in [0, child, stranger, 0xFFFF, NOBODY, grandchild + 0x1_0000, 33] {
        for (priority, d3) in [(9, 0), (0, 0), (9, 5)] {
            call(maker, &world, 0xA, job, priority, d3, 0);
        }
        call(maker, &world, 0xB, job, 9, 0, 0);
        call(maker, &world, 0xB, job, 200, 0, 0);
    }
    // A suspended inactive job stays suspended; the caller waits for one that it owns, and for its owner.
    *world.job_field(grandchild, job::TIMEOUT) = 8;
    call(maker, &world, 0xA, grandchild, 9, 0xFFFF, 0);
    world.make_current(child);
    call(maker, &world, 0xA, grandchild, 9, 0xFFFF, 0);
    *world.job_field(grandchild, job::TIMEOUT) = WITHOUT_END as u32;
    *world.job_field(grandchild, job::WAIT) = child;
    call(maker, &world, 0xA, grandchild, 9, 0xFFFF, 0);
    call(maker, &world, 0xB, grandchild, 0, 0, 0);
    // Job 0 inactive: it is activated, but nobody waits for it.
    *world.job_field(0, job::PRIORITY) = 0;
    *world.job_field(0, job::ACCUMULATED) = 0;
    for (priority, d3) in [(9, 0), (9, 0xFFFF), (0, 0xFFFF), (128, 0), (9, 1)] {
        call(maker, &world, 0xA, 0, priority, d3, 0);
    }
    *world.job_field(child, job::PRIORITY) = 3;
    let (mut world, child, grandchild, _) = family();
    *world.job_field(child, job::PRIORITY) = 0;
    world.make_current(grandchild);
    call(maker, &world, 0xA, child, 127, 0xFFFF, 0);
    call(maker, &world, 0xB, 0xFFFF, 0, 0, 0);
    call(maker, &world, 0x8, 0xFFFF, 0, 0xFFFF, 0);
    call(maker, &world, 0x9, 0xFFFF, 0, 0, 0);
}

/// $1 by jobs of a family for each of them, and for an inactive, a suspended and a waiting one.
fn owners(maker: &mut Maker) {
    let (mut world, child, grandchild, stranger) = family();
    let sister = world.create_for(0, 4);
    *world.job_field(sister, job::PRIORITY) = 8;
    let family = [0, child, grandchild, stranger, sister];
    for caller in family {
        world.make_current(caller);
        for owner in family {
            call(maker, &world, 0x1, owner, 10, 10, 0x1234);
        }
    }
    let [inactive, suspended, waiting] = [stranger, child, stranger].map(|owner| world.create_for(owner, 4));
    for (job, timeout, wait) in [(suspended, 6, 0), (waiting, NOBODY, suspended)] {
        *world.job_field(job, job::PRIORITY) = 9;
        *world.job_field(job, job::TIMEOUT) = timeout;
        *world.job_field(job, job::WAIT) = wait;
    }
    for caller in [0, child, stranger] {
        world.make_current(caller);
        for owner in [inactive, suspended, waiting] {
            call(maker, &world, 0x1, owner, 10, 10, 0x1234);
        }
    }
}

/// Every check of $1, in its order, where D1 names a job that has nothing to do with the caller.
fn checks_for_another(maker: &mut Maker) {
    let (mut world, child, _, stranger) = family();
    world.make_current(child);
    for dead in [stranger + 0x1_0000, position(stranger) as u32, stranger | 0x8000] {
        call(maker, &world, 0x1, dead, NOBODY, 3, 0);
    }
    for (code, data) in [(NOBODY, 0), (0, 3), (NOBODY, 4), (0, NOBODY), (1_324, 4), (1_325, 4), (0, 4)] {
        call(maker, &world, 0x1, stranger, code, data, 0);
    }
    let mut full = world.clone();
    while full.picture[JOB_MASK] != u32::MAX {
        full.create_for(stranger, 4);
    }
    let mut last = world.clone();
    last.picture[LAST_JOB_TAG] = LAST_TAG;
    for world in [&full, &last] {
        for (owner, code, data) in
            [(stranger + 0x1_0000, 0, 4), (stranger, NOBODY, 3), (stranger, NOBODY, 4), (stranger, 0, 4)]
        {
            call(maker, world, 0x1, owner, code, data, 0);
        }
    }
    last.picture[LAST_JOB_TAG] = LAST_TAG - 1;
    call(maker, &last, 0x1, stranger, NOBODY, 4, 0);
    call(maker, &last, 0x1, stranger, 0, 4, 0);
}

/// The jobs of a launcher's picture.
pub struct Launched {
    pub launcher: u32,
    pub desks: [u32; 2],
    pub helpers: [u32; 2],
    pub helpers_helper: u32,
    pub tank: u32,
    pub tanks_helper: u32,
}

/// A launcher that job 0 owns is current. It has made two desks for itself, a helper for each, a helper's helper for the
/// first, and a helper for a tank that nobody owns, with memory and a queue here and there. Only job 0 and it are active.
pub fn launched() -> (World, Launched) {
    let mut world = World::new(1_024, 256);
    let tank = world.create(false, 4);
    let launcher = world.create(true, 20);
    *world.job_field(launcher, job::PRIORITY) = 64;
    world.make_current(launcher);
    let desks = [launcher; 2].map(|owner| world.create_for(owner, 20));
    let helpers = desks.map(|owner| world.create_for(owner, 4));
    let tanks_helper = world.create_for(tank, 4);
    let helpers_helper = world.create_for(helpers[0], 4);
    for (memory, queue) in [(helpers[0], tanks_helper), (helpers[1], helpers_helper)] {
        world.take(memory, 20);
        world.open(queue, 6);
    }
    (world, Launched { launcher, desks, helpers, helpers_helper, tank, tanks_helper })
}

/// Asks and ends in trees that a launcher has made for others.
fn launched_trees(maker: &mut Maker) {
    let (world, jobs) = launched();
    let Launched { launcher, desks, helpers, helpers_helper, tank, tanks_helper } = jobs;
    for top in [launcher, desks[0], desks[1], helpers[0], helpers_helper, tank, tanks_helper] {
        call(maker, &world, 0x5, top, 0, 0x2222, 0);
    }
    for top in [launcher, desks[0], helpers[1], tank] {
        call(maker, &world, 0x4, top, 0, 0x2222, 0);
    }
    for top in [launcher, desks[0], tank] {
        for asked in [helpers[0], helpers[1], helpers_helper, tanks_helper] {
            call(maker, &world, 0x2, asked, top, 0, 0);
        }
    }
    // An active helper, suspended too, refuses $4 for those above it, and for nobody else.
    for (active, timeout) in [(helpers[0], 0), (helpers_helper, 9), (tanks_helper, 0)] {
        let mut world = world.clone();
        *world.job_field(launcher, job::PRIORITY) = 0;
        *world.job_field(active, job::PRIORITY) = 1;
        *world.job_field(active, job::TIMEOUT) = timeout;
        world.make_current(0);
        for top in [launcher, desks[0], tank] {
            call(maker, &world, 0x4, top, 0, 0, 0);
        }
    }
    // The launcher waits for a helper that it has made: the helper's owner ends, or another's.
    for helper in [helpers[0], tanks_helper] {
        let mut world = world.clone();
        *world.job_field(launcher, job::TIMEOUT) = WITHOUT_END as u32;
        *world.job_field(launcher, job::WAIT) = helper;
        world.make_current(0);
        for top in [desks[0], tank] {
            call(maker, &world, 0x5, top, 0, 0x3333, 0);
        }
    }
}
