//! Trials of channels and queues: every key, names of every wrong kind, rings filled and emptied round the end.

use super::world::{Act, Mix, World};
use super::{random_step, without_current_and_unsound, Maker};
use crate::picture::*;

const CALLS: [Act; 5] = [Act::Open, Act::Close, Act::Pending, Act::Fetch, Act::Send];

/// Steps that open, fill, empty and close.
const QUEUE_MIX: &Mix = &[
    (Act::Open, 8),
    (Act::Close, 3),
    (Act::Send, 16),
    (Act::Fetch, 8),
    (Act::Take, 3),
    (Act::Free, 2),
    (Act::Create, 2),
    (Act::Activate, 1),
    (Act::EndForced, 1),
];

pub fn listed(maker: &mut Maker) {
    without_current_and_unsound(maker, &CALLS);
    names(maker);
    openings(maker);
    free_positions(maker);
    closings(maker);
    rings(maker);
    numbers(maker);
}

pub fn one_more(maker: &mut Maker) {
    random_step(maker, &CALLS, QUEUE_MIX);
}

fn open(maker: &mut Maker, world: &World, job: u32, name: &[u8]) {
    let a0 = maker.random.longword();
    maker.trap(2, name, &[0x1, job, 2, 3, a0, 5, 6, 7], &world.picture);
}

fn close(maker: &mut Maker, world: &World, channel: u32, name: &[u8]) {
    maker.trap(2, name, &[0x2, 1, 2, 3, channel, 5, 6, 7], &world.picture);
}

fn queue_call(maker: &mut Maker, world: &World, call: u32, channel: u32, d1: u32, d3: u32) {
    maker.trap(3, b"", &[call, d1, 0x22, d3, channel, 0x55, 0x66, 0x77], &world.picture);
}

fn names(maker: &mut Maker) {
    let world = World::new(1_024, 256);
    let names: &[&[u8]] = &[
        b"",
        b"P",
        b"PIP",
        b"PIPE",
        b"pipe",
        b"PiPe",
        b"pIpE_7",
        b"PIPE_7",
        b"pipe_7",
        b"PIPE_",
        b"PIPE_0",
        b"PIPE_00",
        b"PIPE_00000",
        b"PIPE_1",
        b"PIPE_01",
        b"PIPE_00001",
        b"PIPE_000001",
        b"PIPE_000000",
        b"PIPE_32766",
        b"PIPE_32767",
        b"PIPE_99999",
        b"PIPE_65537",
        b"PIPE_65536",
        b"PIPE_100000",
        b"PIPE_4294967297",
        b"PIPE_12a",
        b"PIPE_a",
        b"PIPE_-1",
        b"PIPE_+1",
        b"PIPE_ 1",
        b"PIPE_1 ",
        b"PIPE_1_",
        b"PIPE__1",
        b"PIPE_1.0",
        b"PIPE1",
        b"PIPE 1",
        b"PIPEX",
        b"PIPE-1",
        b"PIPES_1",
        b"XPIPE_1",
        b" PIPE_1",
        b"PIPF_1",
        b"QIPE_1",
        b"PJPE_1",
        b"PIQE_1",
        b"SER1",
        b"CON_",
        b"PIPE\0",
        b"PIPE_\x001",
        b"PIPE_1\0",
        b"\xD0IPE_1",
        b"0IPE_1",
        b"PIPE_:",
        b"PIPE_/",
        b"PIPE\x7F5",
        b"PIPE?5",
        b"\xFF\xFE",
        b"PIPE_\xB1",
        b"pIPE_992",
        b"PIPE_993",
        b"PIPE_00992",
        b"Pipe_16",
        b"PIPE_17",
    ];
    for name in names {
        open(maker, &world, 0, name);
    }
    let long = [&b"PIPE_1"[..], &[b'0'; 300]].concat();
    open(maker, &world, 0, &long);
    open(maker, &world, 0, &[b'P'; 1_000]);
    // A bad job comes before a bad name, and a bad name before full tables.
    for name in names.iter().step_by(9) {
        open(maker, &world, 5, name);
    }
    let big = World::new(16_384, 8_300);
    for name in [&b"PIPE_32766"[..], b"PIPE_32765", b"PIPE_32751", b"PIPE_32750"] {
        open(maker, &big, 0x8000, name);
    }
    let just = World::new(16_384, 8_200);
    open(maker, &just, 0, b"PIPE_32766");
    let short = World::new(16_384, 8_196);
    for name in [&b"PIPE_32766"[..], b"PIPE_32753", b"PIPE_32752", b"PIPE_32751"] {
        open(maker, &short, 0, name);
    }
}

fn openings(maker: &mut Maker) {
    let mut world = World::new(1_024, 256);
    let child = world.create(true, 20);
    for job in [0, child, child + 0x1_0000, 0xFFFF, 0x8000, NOBODY, 0x7FFF, 0x7FFF_FFFF, 1, 32] {
        open(maker, &world, job, b"PIPE_5");
        open(maker, &world, job, b"PIPE");
    }
    for length in [1, 15, 16, 17, 991, 992, 993] {
        open(maker, &world, child, format!("PIPE_{length}").as_bytes());
    }
    // Every position in use, before the tag, before the room.
    let mut full = World::new(1_024, 512);
    for k in 0..POSITIONS as u32 {
        full.open(0, k % 3 + 1);
    }
    for name in [&b"PIPE_5"[..], b"PIPE_30000", b"PIPE_0", b"PIPE", b"PIP"] {
        open(maker, &full, 0, name);
    }
    for k in [0, 13, 31] {
        let mut one_left = full.clone();
        let channel = one_left.picture[channel_record(k)];
        one_left.call(2, [0x2, 0, 0, 0, channel, 0, 0, 0], b"");
        open(maker, &one_left, 0, b"PIPE_2");
        open(maker, &one_left, 0, b"PIPE_900");
        close(maker, &one_left, channel, b"");
    }
    for last in [LAST_TAG - 1, LAST_TAG] {
        let mut world = World::new(1_024, 256);
        world.open(0, 3);
        world.picture[LAST_CHANNEL_TAG] = last;
        for name in [&b"PIPE_5"[..], b"PIPE_30000", b"PIPE_0"] {
            open(maker, &world, 0, name);
        }
    }
}

/// Each position as the lowest free one, some above it free too, and their queues with them.
fn free_positions(maker: &mut Maker) {
    let mut full = World::new(1_024, 512);
    let channels: Vec<u32> = (0..POSITIONS).map(|_| full.open(0, 1)).collect();
    for lowest in 0..channels.len() {
        let mut some_left = full.clone();
        for (k, &channel) in channels.iter().enumerate().skip(lowest) {
            if k == lowest || maker.random.once_in(2) {
                some_left.call(2, [0x2, 0, 0, 0, channel, 0, 0, 0], b"");
            }
        }
        open(maker, &some_left, 0, b"PIPE_1");
    }
}

fn closings(maker: &mut Maker) {
    for closed in 0..8usize {
        let mut world = World::new(1_024, 64);
        let channels: Vec<u32> = [3, 20, 8].iter().map(|&length| world.open(0, length)).collect();
        for &channel in &channels {
            for byte in b"abc" {
                world.send(channel, *byte);
            }
        }
        if closed & 1 == 1 {
            let rest = world.blocks_of(block::FREE)[0];
            world.take(0, world.picture[rest] - 16);
        }
        let first = [0, 0, 1, 2][closed / 2];
        if closed >= 2 {
            world.call(2, [0x2, 0, 0, 0, channels[first], 0, 0, 0], b"");
        }
        for &channel in &channels {
            close(maker, &world, channel, b"PIPE_1");
        }
    }
}

/// Rings of lengths 1 to 5, 16, 17 and the longest that fit, filled and emptied round the end several times.
fn rings(maker: &mut Maker) {
    for length in [1, 2, 3, 4, 5, 16, 17] {
        let mut world = World::new(1_024, 64);
        let channel = world.open(0, length);
        let mut byte = maker.random.longword() as u8;
        for round in 0..3 * length + 2 {
            let index_goes_round = round % length == 0 || round % length == length - 1;
            if length <= 5 && round < 2 * length || index_goes_round && round < 2 * length + 1 {
                let (d1, d3) = (maker.random.longword(), maker.random.longword() & 0xFFFF_0000);
                queue_call(maker, &world, 0x5, channel, d1, d3);
                queue_call(maker, &world, 0x1, channel, d1, d3);
                queue_call(maker, &world, 0x0, channel, d1, d3);
            }
            byte = byte.wrapping_mul(5).wrapping_add(113);
            if round < length {
                world.send(channel, byte);
            } else {
                world.fetch(channel);
                if round % 3 != 0 {
                    world.send(channel, byte);
                }
            }
        }
        for _ in 0..length {
            world.fetch(channel);
        }
        queue_call(maker, &world, 0x1, channel, 1, 0);
        queue_call(maker, &world, 0x0, channel, 1, 0);
        queue_call(maker, &world, 0x5, channel, 0x1FF, 0);
    }
    // The longest queues that fit, at the ends of their bytes.
    for (picture_length, heap_length, length) in [(1_024, 256, 992), (16_384, 8_200, 32_766), (16_384, 8_196, 32_752)] {
        for (index, count) in [
            (0, 0),
            (0, 1),
            (length - 1, 0),
            (length - 1, 1),
            (length - 1, 2),
            (length - 2, 1),
            (5, length - 1),
            (5, length),
            (0, length),
            (0, length - 1),
        ] {
            let mut world = World::new(picture_length, heap_length);
            let channel = world.open(0, length);
            world.picture[HEAP + block::HEADER + queue::INDEX] = index;
            world.picture[HEAP + block::HEADER + queue::COUNT] = count;
            let at = HEAP + block::HEADER + queue::BYTES + (index / 4) as usize;
            world.picture[at] = 0x0102_0304;
            let call = maker.random.one_of(&[0x1, 0x5]);
            queue_call(maker, &world, call, channel, 0xABCD_EF99, 0);
            queue_call(maker, &world, 0x6 - call, channel, 0xABCD_EF99, 0);
        }
    }
}

/// Numbers that are live, stale, of the other kind or none, and D3 before full or empty.
fn numbers(maker: &mut Maker) {
    let mut world = World::new(1_024, 256);
    let child = world.create(true, 20);
    let old = world.open(0, 4);
    world.call(2, [0x2, 0, 0, 0, old, 0, 0, 0], b"");
    let full = world.open(child, 2);
    world.send(full, 1);
    world.send(full, 2);
    let empty = world.open(0, 2);
    for channel in [old, full, empty, full + 0x1_0000, child, 0, 1, 32, 0xFFFF, NOBODY, full | 0x8000, empty & 0xFFFF] {
        for d3 in [0, 1, 0xFFFF, 0x8000, 0x0001_0000] {
            let call = maker.random.one_of(&[0x0, 0x1, 0x5]);
            queue_call(maker, &world, call, channel, 0x7E, d3);
        }
        close(maker, &world, channel, b"");
    }
    for call in [0x0, 0x1, 0x5] {
        for channel in [full, empty, old] {
            for d3 in [0, 1, 0xFFFF_0000, NOBODY] {
                queue_call(maker, &world, call, channel, 0x7E, d3);
            }
        }
    }
}
