//! 100,000 calls of the manager by the methods of a picture: the same ones that tools/bench/inside.main makes inside.

use krowjyvan::{JobNumber, Key, Picture};

const ROUNDS: usize = 25_000;

fn round(hub: &mut Picture) -> Result<(), Key> {
    hub.mt_inf()?;
    let room = hub.mt_alchp(100, JobNumber::ZERO)?;
    hub.mt_rechp(room.first_byte)?;
    hub.mt_free().map(drop)
}

fn main() -> Result<(), Key> {
    let mut hub = Picture::fresh(1_024, 256)?;
    for _ in 0..ROUNDS {
        round(&mut hub)?;
    }
    println!("done");
    Ok(())
}
