//! Trials of pick and tick: ties, the hold, nobody ready, keys to deliver, and timeouts at every limit.

use super::world::{World, LIVELY};
use super::Maker;
use crate::picture::*;

pub fn listed(maker: &mut Maker) {
    for _ in 0..6 {
        let picture = super::sound::some_unsound(&mut maker.random);
        maker.pick(&picture);
        maker.tick(&picture);
    }
    desk_bench(maker);
    ties(maker);
    hold(maker);
    nobody_ready(maker);
    keys(maker);
    timeouts(maker);
}

pub fn one_more(maker: &mut Maker) {
    let mut world = World::usual(&mut maker.random);
    let steps = maker.random.below(40);
    world.live(&mut maker.random, steps, LIVELY);
    for job in world.jobs() {
        if maker.random.once_in(3) {
            *world.job_field(job, job::KEY) = maker.random.longword();
        }
        let (priority, timeout) = (*world.job_field(job, job::PRIORITY), *world.job_field(job, job::TIMEOUT));
        if ready(priority, timeout) && maker.random.once_in(2) {
            *world.job_field(job, job::ACCUMULATED) = maker.random.between(0, HOLD);
        }
    }
    if maker.random.once_in(3) {
        maker.tick(&world.picture);
    } else {
        maker.pick(&world.picture);
    }
}

/// Jobs at positions 0, 1, 2 and so on with these priorities, all ready but where the priority is 0.
fn with_priorities(priorities: &[u32]) -> World {
    let mut world = World::new(1_024, 128);
    for (k, &priority) in priorities.iter().enumerate() {
        let job = if k == 0 { 0 } else { world.create(true, 4) };
        *world.job_field(job, job::PRIORITY) = priority;
    }
    if priorities[0] == 0 {
        world.make_current(NOBODY);
    }
    world
}

/// Positions 0, 1, 2 ready at 32, 64, 127, all accumulated 0: picks 0, 2, 1, 2, 0, 1, 2, 0.
fn desk_bench(maker: &mut Maker) {
    let mut world = with_priorities(&[32, 64, 127]);
    for _ in 0..8 {
        maker.pick(&world.picture);
        world.pick();
    }
}

fn ties(maker: &mut Maker) {
    for priorities in [&[5, 5][..], &[5, 5, 5], &[0, 7, 7, 7], &[1, 1, 1, 1, 1], &[0, 0, 3, 3], &[127, 127, 127]] {
        for accumulated in [0, 1, 8_190, HOLD] {
            let mut world = with_priorities(priorities);
            for job in world.jobs() {
                if *world.job_field(job, job::PRIORITY) > 0 {
                    *world.job_field(job, job::ACCUMULATED) = accumulated;
                }
            }
            maker.pick(&world.picture);
            let last = *world.jobs().last().unwrap_or(&0);
            let more = world.job_field(last, job::ACCUMULATED);
            *more = (*more + 1).min(HOLD);
            maker.pick(&world.picture);
        }
    }
    let mut all = with_priorities(&[3; POSITIONS]);
    maker.pick(&all.picture);
    let last = all.picture[job_record(31)];
    *all.job_field(last, job::ACCUMULATED) = 1;
    maker.pick(&all.picture);
}

/// Accumulated is held at 8,191.
fn hold(maker: &mut Maker) {
    for priority in [1, 2, 32, 126, 127] {
        for below in [0, 1, 2, 31, 32, 33, 126, 127, 128] {
            if below > priority + 1 && below != 128 {
                continue;
            }
            let mut world = with_priorities(&[priority, priority, 9]);
            let jobs = world.jobs();
            *world.job_field(jobs[0], job::ACCUMULATED) = HOLD - below;
            *world.job_field(jobs[1], job::ACCUMULATED) = HOLD - below;
            *world.job_field(jobs[2], job::ACCUMULATED) = HOLD;
            maker.pick(&world.picture);
        }
    }
}

fn nobody_ready(maker: &mut Maker) {
    let mut world = with_priorities(&[0]);
    maker.pick(&world.picture);
    maker.tick(&world.picture);
    world = with_priorities(&[0, 0, 0]);
    maker.pick(&world.picture);
    for timeout in [1, 2, 32_767, NOBODY] {
        world = with_priorities(&[9, 0, 5]);
        world.make_current(NOBODY);
        for job in [0, world.jobs()[2]] {
            *world.job_field(job, job::TIMEOUT) = timeout;
            *world.job_field(job, job::KEY) = 0x5555;
        }
        maker.pick(&world.picture);
        maker.tick(&world.picture);
    }
}

fn keys(maker: &mut Maker) {
    for key in [1, 0xFFFF_FFFF, 0xFFFF_FFF0, 0x8000_0000, 0x7FFF_FFFF, 0x1234_5678] {
        let mut world = with_priorities(&[32, 64, 64]);
        let jobs = world.jobs();
        *world.job_field(jobs[1], job::KEY) = key;
        *world.job_field(jobs[2], job::KEY) = !key;
        for _ in 0..3 {
            maker.pick(&world.picture);
            world.pick();
        }
        world.make_current(NOBODY);
        maker.pick(&world.picture);
        maker.tick(&world.picture);
    }
}

fn timeouts(maker: &mut Maker) {
    for timeout in [1, 2, 3, 255, 256, 32_766, 32_767, NOBODY] {
        for priority in [0, 1, 127] {
            let mut world = with_priorities(&[32, priority, 5, 0]);
            let jobs = world.jobs();
            *world.job_field(jobs[1], job::TIMEOUT) = timeout;
            *world.job_field(jobs[1], job::KEY) = 7;
            *world.job_field(jobs[3], job::TIMEOUT) = 2;
            maker.tick(&world.picture);
            maker.pick(&world.picture);
        }
    }
    let mut world = with_priorities(&[32, 5, 6]);
    let jobs = world.jobs();
    *world.job_field(jobs[1], job::TIMEOUT) = NOBODY;
    *world.job_field(jobs[1], job::WAIT) = jobs[2];
    maker.tick(&world.picture);
    maker.pick(&world.picture);
}
