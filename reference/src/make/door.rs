//! Trials of the door: every trap, call and key, registers of every count, random names, and lines that aren't trials.

use super::sound::some_unsound;
use super::world::{Act, World, CALLS, LIVELY};
use super::{without_current_and_unsound, write_step, Maker};
use crate::fresh::fresh_picture;
use crate::picture::*;
use crate::trial::{write_runs, LONGEST_NAME};

pub fn listed(maker: &mut Maker) {
    without_current_and_unsound(maker, &CALLS);
    not_trials(maker);
    every_trap_and_call(maker);
    every_register_count(maker);
}

pub fn one_more(maker: &mut Maker) {
    let unsound = maker.random.once_in(4);
    let mut world = World::usual(&mut maker.random);
    let steps = maker.random.below(28);
    world.live(&mut maker.random, steps, LIVELY);
    if unsound {
        world.picture = some_unsound(&mut maker.random);
    } else if !world.has_current() && !maker.random.once_in(8) {
        world.pick();
    }
    if maker.random.once_in(3) {
        random_registers(maker, &world);
    } else if unsound {
        let registers: [u32; 8] = std::array::from_fn(|_| maker.random.longword() >> 24);
        let trap = maker.random.between(1, 3);
        maker.trap(trap, b"PIPE_1", &registers, &world.picture);
    } else {
        let mut acts = CALLS.to_vec();
        acts.extend([Act::Pick, Act::Tick]);
        let act = maker.random.one_of(&acts);
        let step = world.step_of(&mut maker.random, act);
        write_step(maker, step, &world.picture);
    }
}

/// Any registers and any name.
fn random_registers(maker: &mut Maker, world: &World) {
    let trap = if maker.random.once_in(6) { maker.random.between(0, 0xEF) } else { maker.random.between(1, 3) };
    let mut registers: Vec<u32> = (0..8).map(|_| maker.random.longword() >> maker.random.below(32)).collect();
    registers[0] = if maker.random.once_in(3) { maker.random.longword() } else { maker.random.between(0, 0x1A) };
    let count = if maker.random.once_in(10) { maker.random.below(17) } else { 8 };
    registers.resize(count, 0x7777_7777);
    let name: Vec<u8> = match maker.random.below(3) {
        0 => Vec::new(),
        1 => (0..maker.random.below(12)).map(|_| maker.random.longword() as u8).collect(),
        _ => World::some_name(&mut maker.random),
    };
    maker.trap(trap, &name, &registers, &world.picture);
}

/// Every call number near the known ones on every trap, all 32 bits of D0, and traps that don't exist.
fn every_trap_and_call(maker: &mut Maker) {
    let picture = fresh_picture(1_024, 256);
    for trap in 0..=4 {
        for call in 0..=0x1A {
            maker.trap(trap, b"PIPE_3", &[call, 0, 0, 0, 0, 0, 0, 0], &picture);
        }
    }
    for trap in 1..=3 {
        for call in [0x20, 0x100, 0x101, 0x105, 0x1_0000, 0x1_0001, 0x8000_0001, 0x8000_0018, NOBODY, 0xFFFF_FF00] {
            maker.trap(trap, b"PIPE_3", &[call, 0, 0, 0, 0, 0, 0, 0], &picture);
        }
    }
    for name in [&b""[..], b"PIPE", b"pipe_", b"PIPE_0", b"PIPE_9", b"PIPE9", b"SER1", b"PIPE_32767"] {
        maker.trap(2, name, &[0x1, 0, 0, 0, 0, 0, 0, 0], &picture);
    }
    for trap in 0..=0xEF {
        maker.trap(trap, b"", &[0, 0, 0, 0, 0, 0, 0, 0], &picture);
    }
}

fn every_register_count(maker: &mut Maker) {
    for count in 0..=16 {
        let registers: Vec<u32> = (0..count).map(|k| if k == 0 { 0x18 } else { k }).collect();
        let mut picture = fresh_picture(1_024, 256);
        maker.trap(1, b"", &registers, &picture);
        picture[CURRENT] = NOBODY;
        maker.trap(2, b"PIPE_1", &registers, &picture);
        maker.trap(3, b"", &registers, &picture[..count as usize]);
    }
    let picture = fresh_picture(1_024, 256);
    for name in [&[][..], &[0; 1], &[b'P'; 999], &[b'P'; LONGEST_NAME]] {
        maker.trap(2, name, &[1, 0, 0, 0, 0, 0, 0, 0], &picture);
        maker.trap(1, name, &[0, 0, 0, 0, 0, 0, 0, 0], &picture);
    }
}

/// Lines that aren't trials, beside some that just are.
fn not_trials(maker: &mut Maker) {
    let mut fresh = Vec::new();
    write_runs(&fresh_picture(1_024, 256), &mut fresh);
    let fresh = String::from_utf8_lossy(&fresh).into_owned();
    let small = fresh.to_ascii_lowercase();
    let zeros = "0".repeat(64);
    let name_over = "50".repeat(LONGEST_NAME + 1);
    let lines = [
        String::new(),
        " ".into(),
        "  ".into(),
        "01".into(),
        "01 -".into(),
        "01 - ".into(),
        "01  -".into(),
        " 01 - -".into(),
        "01 - - ".into(),
        "01 - - -".into(),
        "01  - -".into(),
        "- - -".into(),
        "0 - -".into(),
        "1 - -".into(),
        "011 - -".into(),
        "0G - -".into(),
        "G1 - -".into(),
        "+1 - -".into(),
        "01\t- -".into(),
        "01 - -\r".into(),
        "01 -- -".into(),
        "01 - --".into(),
        "01 0000000 -".into(),
        "01 000000000 -".into(),
        "01 0000000G -".into(),
        "01 00000000x0001 -".into(),
        "01 -00000000 -".into(),
        format!("01 {} -", "0".repeat(16 * 8)),
        format!("01 {} -", "0".repeat(17 * 8)),
        format!("01 {zeros} 0000000"),
        format!("01 {zeros} 00000000"),
        format!("01 {zeros} 000000000"),
        format!("01 {zeros} x0001"),
        format!("01 {zeros} 00000000x"),
        format!("01 {zeros} 00000000x1"),
        format!("01 {zeros} 00000000x001"),
        format!("01 {zeros} 00000000x0000"),
        format!("01 {zeros} 00000000x0001"),
        format!("01 {zeros} 00000000X0001"),
        format!("01 {zeros} 00000000x00010"),
        format!("01 {zeros} 00000000x4000"),
        format!("01 {zeros} 00000000x4001"),
        format!("01 {zeros} 00000000xFFFF"),
        format!("01 {zeros} 00000000x3FFF00000000"),
        format!("01 {zeros} 00000000x3FFF00000000x0002"),
        format!("01 {zeros} 00000000x400000000000"),
        format!("01 {zeros} 00000000x0001x0001"),
        format!("01 {zeros} {fresh}-"),
        format!("01 {zeros} {fresh}"),
        format!("01 {zeros} {small}"),
        format!("02{} {zeros} {fresh}", "506970655f39"),
        format!("02{} {zeros} {fresh}", "506970655F3"),
        format!("02{name_over} {zeros} {fresh}"),
        format!("F0 - {fresh}"),
        format!("f0 - {fresh}"),
        format!("F1 {zeros} {fresh}"),
        format!("F000 - {fresh}"),
        format!("F100 - {fresh}"),
        format!("F0F0 - {fresh}"),
        "F0 - -".into(),
        "F1 - -".into(),
        "f1 00000001 -".into(),
        "F2 - -".into(),
        "F3 - -".into(),
        "FA - -".into(),
        "FD - -".into(),
        "FE - -".into(),
        "FE00000000 - -".into(),
        "FE0000000 - -".into(),
        "FE000000000 - -".into(),
        "FEFFFFFFFF 0 -".into(),
        "FEFFFFFFFF 00 -".into(),
        "FEFFFFFFFF 000141 -".into(),
        "feffffffff 000161 -".into(),
        "FEFFFFFFFF 000141 0".into(),
        "FEFFFFFFFF 000141 0x".into(),
        "FEFFFFFFFF 00014G -".into(),
        "FEFFFFFFFF  -".into(),
        "FEFFFFFFFF -".into(),
        "FE0000000G - -".into(),
        "FF - -".into(),
        "FF00000400 - -".into(),
        "FF0000040000000100 - -".into(),
        "FF000004000000010 - -".into(),
        "FF00000400000001000 - -".into(),
        "FF000004000000010G - -".into(),
        "ff0000040000000100 - 00000000x0400".into(),
        "FF0000040000000100 FFFFFFFF 00000000x0400".into(),
        "FF0000040000000100 0 00000000x0400".into(),
        "FF0000040000000100  00000000x0400".into(),
        "EF - -".into(),
        "ef - -".into(),
        "00 - -".into(),
        "04 - 00000000".into(),
        "trial".into(),
        "?".into(),
        "\u{e9}1 - -".into(),
    ];
    for line in lines {
        maker.raw(line.as_bytes());
    }
}
