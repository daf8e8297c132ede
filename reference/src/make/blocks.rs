//! Trials of $6, $18 and $19: every key, every limit, every neighbourhood.

use super::world::{Act, Mix, World};
use super::{random_step, without_current_and_unsound, Maker};
use crate::picture::*;

const CALLS: [Act; 3] = [Act::AskFree, Act::Take, Act::Free];

/// Steps that fill and thin out the heap.
const HEAP_MIX: &Mix = &[
    (Act::Take, 14),
    (Act::Free, 8),
    (Act::Open, 3),
    (Act::Close, 2),
    (Act::Create, 4),
    (Act::EndForced, 1),
    (Act::Activate, 1),
    (Act::Pick, 1),
];

pub fn listed(maker: &mut Maker) {
    without_current_and_unsound(maker, &CALLS);
    ask_free(maker);
    take_from_fresh(maker);
    take_with_holes(maker);
    take_owners(maker);
    free_neighbourhoods(maker);
    free_wrong_places(maker);
}

pub fn one_more(maker: &mut Maker) {
    random_step(maker, &CALLS, HEAP_MIX);
}

fn ask(maker: &mut Maker, world: &World) {
    let registers = [0x6, 11, 22, 33, 44, 55, 66, 77];
    maker.trap(1, b"", &registers, &world.picture);
}

fn take(maker: &mut Maker, world: &World, bytes: u32, owner: u32) {
    let registers = [0x18, bytes, owner, maker.random.longword(), 4, 5, 6, 7];
    maker.trap(1, b"", &registers, &world.picture);
}

fn free(maker: &mut Maker, world: &World, room: u32) {
    let registers = [0x19, 1, 2, 3, room, 5, 6, 7];
    maker.trap(1, b"", &registers, &world.picture);
}

/// The longest free transient block: the whole area, none, 16 bytes, the first, the last and one between.
fn ask_free(maker: &mut Maker) {
    for (length, heap_length) in [(1_024, 256), (1_024, 4), (1_024, 628), (16_384, 4), (16_384, 15_988)] {
        ask(maker, &World::new(length, heap_length));
    }
    let mut full = World::new(1_024, 256);
    full.create(true, 1_488);
    ask(maker, &full);
    for left in [16, 32, 48] {
        let mut world = World::new(1_024, 256);
        world.create(false, 1_488 - left);
        ask(maker, &world);
    }
    // Jobs of several sizes side by side, some of them ended, so that the free blocks differ.
    for ended in [0b001, 0b010, 0b100, 0b101, 0b111, 0b11010, 0b10101, 0b01010] {
        let mut world = World::new(1_024, 256);
        let jobs: Vec<u32> = [100, 300, 200, 64, 16].iter().map(|&room| world.create(false, room)).collect();
        world.create(false, 400);
        for (k, &job) in jobs.iter().enumerate() {
            if ended >> k & 1 == 1 {
                world.call(1, [0x5, job, 0, 0, 0, 0, 0, 0], b"");
                world.pick();
            }
        }
        ask(maker, &world);
    }
}

/// Lengths one below, at and above every limit, in fresh pictures.
fn take_from_fresh(maker: &mut Maker) {
    for bytes in [0, 1, 2, 15, 16, 17, 100, 0x7FFF_FFFE, 0x7FFF_FFFF, 0x8000_0000, 0x8000_0001, 0xFFFF_FFF0, NOBODY] {
        take(maker, &World::new(1_024, 256), bytes, 0);
    }
    for (length, heap_length) in [(1_024, 4), (1_024, 8), (1_024, 256), (1_024, 628), (16_384, 15_988)] {
        let most = 4 * heap_length as u32 - 16;
        for bytes in [
            most.saturating_sub(17),
            most.saturating_sub(16),
            most.saturating_sub(15),
            most.saturating_sub(1),
            most,
            most + 1,
            most + 16,
        ] {
            take(maker, &World::new(length, heap_length), bytes, 0);
        }
    }
    // The desk bench: 100, then 1, then 848 or 849.
    let mut world = World::new(1_024, 256);
    for bytes in [100, 1] {
        take(maker, &world, bytes, 0);
        world.take(0, bytes);
    }
    take(maker, &world, 848, 0);
    take(maker, &world, 849, 0);
}

/// Holes of 32 and 64 bytes below the rest: the lowest that is long enough is taken, of it the low end.
fn take_with_holes(maker: &mut Maker) {
    for (holes, filled) in [([16, 48], false), ([48, 16], false), ([16, 48], true), ([48, 48], true), ([0, 0], true)] {
        let mut world = World::new(1_024, 64);
        let mut to_free = Vec::new();
        for hole in holes {
            to_free.push(world.take(0, hole.max(1)));
            world.take(0, 16);
        }
        if filled {
            let rest = world.blocks_of(block::FREE).into_iter().find(|&at| at < 456);
            if let Some(rest) = rest {
                let left = world.picture[rest] - 16;
                if left > 0 {
                    world.take(0, left);
                }
            }
        }
        if holes != [0, 0] {
            to_free.into_iter().for_each(|room| world.free(room));
        }
        // Rooms may hold anything; what is free keeps its old bytes until it is placed.
        for at in world.blocks_of(block::FREE) {
            if world.picture[at] >= 32 && at < 456 {
                world.picture[at + block::HEADER + 1] = 0xDEAD_BEEF;
            }
        }
        for bytes in [1, 15, 16, 17, 31, 32, 33, 47, 48, 49, 80] {
            take(maker, &world, bytes, 0x8000);
        }
    }
}

/// Owners that are live, dead or the current job, and the order of the checks.
fn take_owners(maker: &mut Maker) {
    let mut world = World::new(1_024, 256);
    let first = world.create(true, 20);
    let second = world.create(false, 20);
    world.call(1, [0x5, first, 0, 0, 0, 0, 0, 0], b"");
    world.pick();
    for owner in [0, first, second, second + 0x1_0000, second & 0xFFFF, 0xFFFF, 0x8000, 0x7FFF, NOBODY, 0x1234_8000, 32]
    {
        take(maker, &world, 40, owner);
        take(maker, &world, 0, owner);
        take(maker, &world, 5_000, owner);
    }
}

/// A block between neighbours that are free or not, first, last or between; queues stand between too.
fn free_neighbourhoods(maker: &mut Maker) {
    for blocks in 1..=4usize {
        for freed in 0..1 << blocks {
            for filled in [false, true] {
                if blocks == 4 && maker.random.once_in(2) {
                    continue;
                }
                let mut world = World::new(1_024, 48);
                let mut rooms = Vec::new();
                for k in 0..blocks {
                    rooms.push(world.take(0, 10 + 8 * k as u32));
                }
                if filled {
                    let rest = world.heap_headers().pop().unwrap_or(HEAP);
                    let left = world.picture[rest] - block::HEADER_BYTES;
                    if world.picture[rest + block::KIND] == block::FREE && left > 0 {
                        rooms.push(world.take(0, left));
                    }
                }
                for room in &rooms {
                    world.picture[(room / 4) as usize] = 0xAAAA_0000 | room;
                }
                let mut kept = Vec::new();
                for (k, &room) in rooms.iter().enumerate() {
                    if k < blocks && freed >> k & 1 == 1 {
                        world.free(room);
                    } else {
                        kept.push(room);
                    }
                }
                if !kept.is_empty() {
                    let room = maker.random.one_of(&kept);
                    free(maker, &world, room);
                }
            }
        }
    }
    // The last block of a full heap ends at the transient area's free block, which stays apart.
    let mut world = World::new(1_024, 4);
    world.picture[HEAP + block::KIND] = block::PLAIN;
    free(maker, &world, 4 * HEAP as u32 + 16);
}

/// Every A0 that isn't the first byte after a plain block's header.
fn free_wrong_places(maker: &mut Maker) {
    let mut world = World::new(1_024, 256);
    let below = world.take(0, 30);
    let room = world.take(0, 100);
    world.open(0, 9);
    world.create(true, 40);
    world.free(below);
    // What looks like a header stands in the room of a plain block, and is none.
    let inside = (room / 4) as usize;
    world.picture[inside + 4..inside + 8].copy_from_slice(&[32, block::PLAIN, 0, 0]);
    let mut places = vec![0, 1, 15, 16, 17, 32, 4 * HEAP as u32, NOBODY, 0xFFFF_FFF0, 0x8000_0000 | room, 4_096, 4_112];
    for at in [world.heap_headers(), world.transient_headers()].concat() {
        places.extend([4 * at as u32, 4 * at as u32 + 16]);
    }
    for offset in [1, 2, 3, 4, 8, 12, 16, 32, 48] {
        places.extend([room - offset, room + offset]);
    }
    for place in places {
        free(maker, &world, place);
    }
}
