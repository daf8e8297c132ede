//! The methods of a picture: each is the trap that it names, and what it tells is what the registers hold.

use krowjyvan::constants::*;
use krowjyvan::{
    error_text, lent, ChannelNumber, Created, Information, JobInformation, JobLine, JobNumber, Key, Picked, Picture,
    Record, Registers, Room, SYSTEM_TEXT,
};

fn hub() -> Picture {
    Picture::fresh(1_024, 256).unwrap()
}

/// Sees that a method does to the picture what the trap does with these registers, and tells this.
fn same<T: PartialEq + std::fmt::Debug>(
    hub: &Picture,
    (trap, mut registers, name): (u32, Registers, &[u8]),
    method: impl FnOnce(&mut Picture) -> Result<T, Key>,
    told: T,
) {
    let (mut by_trap, mut by_method) = (hub.clone(), hub.clone());
    assert_eq!(by_trap.trap(trap, &mut registers, name), Ok(()));
    assert_eq!(method(&mut by_method), Ok(told));
    assert_eq!(by_method.longwords(), by_trap.longwords());
}

#[test]
fn each_method_is_its_trap() {
    let mut hub = hub();
    let desk = hub.mt_cjob(Some(JobNumber::ZERO), 60, 40, 0).unwrap();
    let other = hub.mt_cjob(None, 60, 40, 0).unwrap();
    hub.mt_activ(desk.job, 100, true).unwrap();
    assert_eq!(hub.pick().unwrap().job, Some(desk.job));
    let helper = hub.mt_cjob(Some(desk.job), 8, 4, 0).unwrap();
    hub.mt_susjb(helper.job, 9).unwrap();
    assert_eq!(hub.pick().unwrap().job, Some(desk.job));
    let room = hub.mt_alchp(20, helper.job).unwrap();
    let queue = hub.io_open(helper.job, b"PIPE_8").unwrap();
    hub.io_sbyte(queue, 200).unwrap();
    let (d, o, h, q) = (desk.job.0, other.job.0, helper.job.0, queue.0);
    let record = |job: JobNumber| Record { job, byte: 32 + 32 * job.position() };
    let next = Created { job: JobNumber(0x0004_0004), first_byte: helper.first_byte + 32 };
    let of =
        |next, owner, priority, suspended, first_byte| JobInformation { next, owner, priority, suspended, first_byte };

    let current = Information { current: desk.job, version: *b"1.00" };
    same(&hub, (1, [0x0, 0, 0, 0, 0, 0, 0, 0], b""), |hub| hub.mt_inf(), current);
    same(&hub, (1, [0x1, d, 60, 40, 0, 5, 0, 0], b""), |hub| hub.mt_cjob(Some(desk.job), 60, 40, 5), next);
    same(&hub, (1, [0x1, NOBODY, 60, 40, 0, 0, 0, 0], b""), |hub| hub.mt_cjob(None, 60, 40, 0), next);
    let last = of(None, Some(desk.job), 0, true, helper.first_byte);
    same(&hub, (1, [0x2, h, d, 0, 0, 0, 0, 0], b""), |hub| hub.mt_jinf(helper.job, desk.job), last);
    let first = of(Some(helper.job), Some(JobNumber::ZERO), 100, false, desk.first_byte);
    same(&hub, (1, [0x2, d, 0, 0, 0, 0, 0, 0], b""), |hub| hub.mt_jinf(JobNumber::CURRENT, JobNumber::ZERO), first);
    let alone = of(None, None, 0, false, other.first_byte);
    same(&hub, (1, [0x2, o, o, 0, 0, 0, 0, 0], b""), |hub| hub.mt_jinf(other.job, other.job), alone);
    same(&hub, (1, [0x4, h, 0, 0, 0, 0, 0, 0], b""), |hub| hub.mt_rjob(helper.job, 0), ());
    same(&hub, (1, [0x5, d, 0, 77, 0, 0, 0, 0], b""), |hub| hub.mt_frjob(desk.job, 77), ());
    let longest = 4 * (1_024 - 392 - 256) - 128 - 128 - 32 - 16;
    same(&hub, (1, [0x6, 0, 0, 0, 0, 0, 0, 0], b""), |hub| hub.mt_free(), longest);
    same(&hub, (1, [0x8, o, 0, 3, 0, 0, 0, 0], b""), |hub| hub.mt_susjb(other.job, 3), record(other.job));
    let endless = u32::MAX;
    same(
        &hub,
        (1, [0x8, o, 0, endless, 0, 0, 0, 0], b""),
        |hub| hub.mt_susjb(other.job, WITHOUT_END),
        record(other.job),
    );
    same(&hub, (1, [0x9, h, 0, 0, 0, 0, 0, 0], b""), |hub| hub.mt_reljb(helper.job), record(helper.job));
    same(&hub, (1, [0xA, o, 127, 0, 0, 0, 0, 0], b""), |hub| hub.mt_activ(other.job, 127, false), record(other.job));
    same(&hub, (1, [0xA, o, 3, endless, 0, 0, 0, 0], b""), |hub| hub.mt_activ(other.job, 3, true), record(other.job));
    same(&hub, (1, [0xB, o, 7, 0, 0, 0, 0, 0], b""), |hub| hub.mt_prior(other.job, 7), record(other.job));
    let behind = Room { first_byte: room.first_byte + 96, length: 48 };
    same(&hub, (1, [0x18, 40, h, 0, 0, 0, 0, 0], b""), |hub| hub.mt_alchp(40, helper.job), behind);
    same(&hub, (1, [0x19, 0, 0, 0, room.first_byte, 0, 0, 0], b""), |hub| hub.mt_rechp(room.first_byte), ());
    let second = ChannelNumber(0x0002_0001);
    same(&hub, (2, [0x1, h, 0, 0, 0, 0, 0, 0], b"PIPE_3"), |hub| hub.io_open(helper.job, b"PIPE_3"), second);
    same(&hub, (2, [0x2, 0, 0, 0, q, 0, 0, 0], b""), |hub| hub.io_close(queue), ());
    same(&hub, (3, [0x0, 0, 0, 0, q, 0, 0, 0], b""), |hub| hub.io_pend(queue), true);
    same(&hub, (3, [0x1, 0, 0, 0, q, 0, 0, 0], b""), |hub| hub.io_fbyte(queue), 200);
    same(&hub, (3, [0x5, 9, 0, 0, q, 0, 0, 0], b""), |hub| hub.io_sbyte(queue, 9), ());
}

#[test]
fn the_fish_tank() {
    let mut hub = hub();
    let four = hub.mt_cjob(Some(JobNumber::ZERO), 60, 40, 0).unwrap().job;
    let five = hub.mt_cjob(Some(JobNumber::ZERO), 60, 40, 0).unwrap().job;
    let tank = hub.io_open(four, b"PIPE_8").unwrap();
    hub.io_sbyte(tank, 8).unwrap();
    hub.mt_frjob(four, 0).unwrap();
    assert_eq!(hub.pick(), Ok(Picked { job: Some(JobNumber::ZERO), key: 0 }));
    let pond = hub.io_open(five, b"PIPE_8").unwrap();
    hub.io_sbyte(pond, 2).unwrap();
    assert_eq!(tank.position(), pond.position());
    assert_eq!(hub.io_fbyte(tank), Err(Key::CHANNEL_NOT_OPEN));
    assert_eq!(hub.io_fbyte(pond), Ok(2));
    assert_eq!(hub.mt_prior(four, 1), Err(Key::INVALID_JOB));
}

#[test]
fn the_owner_of_a_new_job() {
    let mut hub = hub();
    for nobody in [JobNumber::CURRENT, JobNumber(0x8000_0000), JobNumber(0x0009_0009)] {
        assert_eq!(hub.mt_cjob(Some(nobody), 0, 4, 0), Err(Key::INVALID_JOB));
    }
    assert_eq!(hub.mt_cjob(None, 0, 3, 0), Err(Key::BAD_PARAMETER));
    let desk = hub.mt_cjob(None, 0, 4, 0).unwrap().job;
    let helper = hub.mt_cjob(Some(desk), 0, 4, 0).unwrap().job;
    let of_zero = hub.mt_cjob(Some(JobNumber::ZERO), 0, 4, 0).unwrap().job;
    assert_eq!(hub.current(), Some(JobNumber::ZERO));
    assert_eq!(hub.mt_jinf(desk, desk).unwrap().owner, None);
    assert_eq!(hub.mt_jinf(helper, desk).unwrap().owner, Some(desk));
    assert_eq!(hub.mt_jinf(of_zero, JobNumber::ZERO).unwrap().owner, Some(JobNumber::ZERO));
    assert_eq!(hub.mt_jinf(helper, JobNumber::ZERO), Err(Key::INVALID_JOB));
    assert_eq!(hub.mt_jinf(helper, JobNumber::CURRENT), Err(Key::INVALID_JOB));
}

#[test]
fn helpers_that_a_launcher_makes_go_with_their_desks() {
    let mut hub = hub();
    let tank = hub.mt_cjob(None, 0, 4, 0).unwrap().job;
    let launcher = hub.mt_cjob(Some(JobNumber::ZERO), 0, 4, 0).unwrap().job;
    hub.mt_activ(launcher, 64, true).unwrap();
    assert_eq!(hub.pick().unwrap().job, Some(launcher));
    let [four, five] = [launcher; 2].map(|owner| hub.mt_cjob(Some(owner), 0, 4, 0).unwrap().job);
    let [of_four, of_five, of_tank] = [four, five, tank].map(|owner| hub.mt_cjob(Some(owner), 0, 4, 0).unwrap().job);
    let queue = hub.io_open(of_four, b"PIPE_8").unwrap();
    let jobs = |hub: &Picture, top| hub.report_tree(top).map(|lines| lines.iter().map(|line| line.number).collect());
    assert_eq!(jobs(&hub, launcher), Ok(vec![launcher, four, five, of_four, of_five]));
    hub.mt_rjob(four, 0).unwrap();
    assert_eq!(jobs(&hub, launcher), Ok(vec![launcher, five, of_five]));
    hub.pick().unwrap();
    assert_eq!(hub.io_pend(queue), Err(Key::CHANNEL_NOT_OPEN));
    assert_eq!(hub.mt_prior(of_four, 1), Err(Key::INVALID_JOB));
    hub.mt_frjob(launcher, 0).unwrap();
    assert_eq!(jobs(&hub, JobNumber::ZERO), Ok(vec![JobNumber::ZERO]));
    assert_eq!(jobs(&hub, tank), Ok(vec![tank, of_tank]));
}

#[test]
fn turns() {
    let mut hub = hub();
    let desk = hub.mt_cjob(Some(JobNumber::ZERO), 0, 4, 0).unwrap().job;
    let record = hub.mt_activ(desk, 5, true).unwrap();
    assert_eq!((record.job, record.byte), (desk, 32 + 32 * desk.position()));
    assert_eq!((hub.current(), hub.mt_inf()), (None, Err(Key::INVALID_JOB)));
    assert_eq!(hub.pick().unwrap().job, Some(desk));
    assert_eq!(hub.current(), Some(desk));
    assert_eq!(hub.mt_activ(desk, 5, false), Err(Key::NOT_COMPLETE));
    hub.mt_susjb(JobNumber::CURRENT, 2).unwrap();
    assert_eq!(hub.pick(), Ok(Picked { job: None, key: 0 }));
    hub.tick().unwrap();
    assert_eq!(hub.pick().unwrap().job, None);
    hub.tick().unwrap();
    assert_eq!(hub.pick().unwrap().job, Some(desk));
    let other = hub.mt_cjob(Some(desk), 0, 4, 0).unwrap().job;
    hub.mt_susjb(other, 9).unwrap();
    hub.pick().unwrap();
    assert!(hub.mt_jinf(other, desk).unwrap().suspended);
    hub.mt_reljb(other).unwrap();
    hub.pick().unwrap();
    assert!(!hub.mt_jinf(other, desk).unwrap().suspended);
    assert_eq!(hub.mt_susjb(desk, -2), Err(Key::BAD_PARAMETER));
    hub.mt_susjb(desk, WITHOUT_END).unwrap();
    hub.tick().unwrap();
    assert_eq!(hub.pick(), Ok(Picked { job: None, key: 0 }));
}

/// A hub with a desk that has a helper, which is suspended, and with a job of nobody's.
fn workshop() -> (Picture, [JobNumber; 3]) {
    let mut hub = hub();
    let desk = hub.mt_cjob(Some(JobNumber::ZERO), 0, 4, 0).unwrap().job;
    let other = hub.mt_cjob(None, 0, 4, 0).unwrap().job;
    hub.mt_activ(desk, 100, true).unwrap();
    assert_eq!(hub.pick().unwrap().job, Some(desk));
    let helper = hub.mt_cjob(Some(desk), 0, 4, 0).unwrap().job;
    hub.mt_susjb(helper, 9).unwrap();
    (hub, [desk, other, helper])
}

#[test]
fn a_report_tells_of_each_job_of_a_tree() {
    let (mut hub, [desk, other, helper]) = workshop();
    let before = hub.clone();
    let line = |number, owner, depth, priority, suspended| JobLine { number, owner, depth, priority, suspended };
    let all = vec![
        line(JobNumber::ZERO, None, 0, 32, true),
        line(desk, Some(JobNumber::ZERO), 1, 100, false),
        line(helper, Some(desk), 2, 0, true),
    ];
    assert_eq!((hub.current(), hub.report_tree(JobNumber::ZERO)), (None, Ok(all.clone())));
    let below = vec![line(desk, Some(JobNumber::ZERO), 0, 100, false), line(helper, Some(desk), 1, 0, true)];
    assert_eq!(hub.report_tree(desk), Ok(below));
    assert_eq!(hub.report_tree(other), Ok(vec![line(other, None, 0, 0, false)]));
    for dead in [JobNumber::CURRENT, JobNumber(desk.0 + TAG_WEIGHT), JobNumber(desk.0 | 0x8000), JobNumber(4)] {
        assert_eq!(hub.report_tree(dead), Err(Key::INVALID_JOB));
    }
    assert_eq!(hub, before);
    hub.pick().unwrap();
    for (line, behind) in all.iter().zip(all.iter().skip(1).map(Some).chain([None])) {
        let told = hub.mt_jinf(line.number, JobNumber::ZERO).unwrap();
        assert_eq!(told.next, behind.map(|line| line.number));
        assert_eq!((told.owner, told.priority, told.suspended), (line.owner, line.priority, line.suspended));
    }
}

#[test]
fn any_table_is_answered() {
    let (hub, [desk, other, helper]) = workshop();
    let desks = [desk.0, 0, 0, 100, 0, helper.0, desk.0, 1, 0, 1];
    for length in 0..400 {
        let mut table = vec![0xAAAA_AAAA; length];
        let answer = lent::report_tree(hub.longwords(), desk.0, &mut table);
        let written = if length < desks.len() { 0 } else { desks.len() };
        assert_eq!(answer, if written == 0 { (BUFFER_OVERFLOW, 0) } else { (DONE, 2) });
        assert_eq!(table[..written], desks[..written]);
        assert!(table[written..].iter().all(|&longword| longword == 0xAAAA_AAAA));
        assert_eq!(lent::report_tree(hub.longwords(), other.0 + TAG_WEIGHT, &mut table), (INVALID_JOB, 0));
        assert_eq!(lent::report_tree(&[], 0, &mut table), (NOT_SOUND, 0));
        assert_eq!(table[..written], desks[..written]);
    }
}

#[test]
fn a_wait_ends_with_the_key_of_the_removal() {
    let mut hub = hub();
    let desk = hub.mt_cjob(None, 0, 4, 0).unwrap().job;
    hub.mt_activ(desk, 1, true).unwrap();
    assert_eq!(hub.pick().unwrap().job, Some(desk));
    assert_eq!(hub.mt_rjob(desk, -20), Err(Key::NOT_COMPLETE));
    hub.mt_frjob(JobNumber::CURRENT, -20).unwrap();
    let turn = hub.pick().unwrap();
    assert_eq!(turn, Picked { job: Some(JobNumber::ZERO), key: -20 });
    assert_eq!(turn.delivered().unwrap().to_string(), "read only (-20)");
    assert_eq!(hub.pick().unwrap().delivered(), None);
    let desk = hub.mt_cjob(None, 0, 4, 0).unwrap().job;
    assert_eq!(hub.mt_rjob(desk, 0), Ok(()));
    hub.pick().unwrap();
    assert_eq!(hub.mt_rjob(desk, 0), Err(Key::INVALID_JOB));
    assert_eq!(hub.mt_frjob(JobNumber::ZERO, 0), Err(Key::BAD_PARAMETER));
}

#[test]
fn any_key_is_delivered_by_an_ordinary_removal() {
    for key in [-20, -16, 0, 5] {
        let mut hub = hub();
        let desk = hub.mt_cjob(None, 0, 4, 0).unwrap().job;
        let other = hub.mt_cjob(None, 0, 4, 0).unwrap().job;
        hub.mt_activ(other, 1, false).unwrap();
        assert_eq!(hub.pick().unwrap().job, Some(JobNumber::ZERO));
        hub.mt_activ(desk, 1, true).unwrap();
        assert_eq!(hub.pick().unwrap().job, Some(other));
        hub.mt_prior(desk, 0).unwrap();
        assert_eq!(hub.pick().unwrap().job, Some(other));
        hub.mt_rjob(desk, key).unwrap();
        let turns: Vec<Picked> = (0..2).map(|_| hub.pick().unwrap()).collect();
        assert!(turns.contains(&Picked { job: Some(JobNumber::ZERO), key }), "{turns:?}");
    }
}

#[test]
fn memory() {
    let mut hub = hub();
    let empty = hub.clone();
    let room = hub.mt_alchp(100, JobNumber::CURRENT).unwrap();
    assert_eq!(room, Room { first_byte: 1_584, length: 112 });
    hub.longwords_mut()[room.indices()].fill(7);
    assert_eq!(hub.mt_inf().map(|told| told.current), Ok(JobNumber::ZERO));
    hub.longwords_mut()[room.indices()].fill(0);
    assert_eq!(hub.mt_alchp(5_000, JobNumber::ZERO), Err(Key::OUT_OF_MEMORY));
    assert_eq!(hub.mt_alchp(0, JobNumber::ZERO), Err(Key::BAD_PARAMETER));
    assert_eq!(hub.mt_rechp(room.first_byte + 4), Err(Key::BAD_PARAMETER));
    assert_eq!(hub.mt_rechp(room.first_byte), Ok(()));
    assert_eq!(hub, empty);
    let longest = hub.mt_free().unwrap();
    let made = hub.mt_cjob(None, longest - 4, 4, 0).unwrap();
    assert_eq!(hub.mt_free(), Ok(0));
    hub.mt_frjob(made.job, 0).unwrap();
    hub.pick().unwrap();
    assert_eq!(hub.mt_free(), Ok(longest));
}

#[test]
fn queues() {
    let mut hub = hub();
    assert_eq!(hub.io_open(JobNumber::ZERO, b"SER"), Err(Key::NOT_FOUND));
    assert_eq!(hub.io_open(JobNumber::ZERO, b"PIPE_x"), Err(Key::BAD_NAME));
    let queue = hub.io_open(JobNumber::CURRENT, b"pipe_2").unwrap();
    assert_eq!(hub.io_pend(queue), Ok(false));
    hub.io_sbyte(queue, 250).unwrap();
    hub.io_sbyte(queue, 7).unwrap();
    assert_eq!(hub.io_sbyte(queue, 9), Err(Key::NOT_COMPLETE));
    assert_eq!(hub.io_pend(queue), Ok(true));
    assert_eq!((hub.io_fbyte(queue), hub.io_fbyte(queue)), (Ok(250), Ok(7)));
    assert_eq!(hub.io_close(queue), Ok(()));
    assert_eq!(hub.io_close(queue), Err(Key::CHANNEL_NOT_OPEN));
    assert_eq!(hub.io_pend(queue), Err(Key::CHANNEL_NOT_OPEN));
    assert_eq!(hub.io_fbyte(ChannelNumber(0)), Err(Key::CHANNEL_NOT_OPEN));
}

#[test]
fn any_longwords_are_answered() {
    for longwords in [vec![], vec![7; 5], vec![0; 1_024], vec![0xFFFF_FFFF; 20_000]] {
        let mut picture = Picture::from_longwords(longwords.clone());
        let mut registers = [MT_INF, 1, 2, 3, 4, 5, 6, 7];
        assert_eq!(picture.trap(TRAP_1, &mut registers, b""), Err(Key::NOT_SOUND));
        assert_eq!(registers, [-16_i32 as u32, 1, 2, 3, 4, 5, 6, 7]);
        assert_eq!(picture.pick(), Err(Key::NOT_SOUND));
        assert_eq!(picture.tick(), Err(Key::NOT_SOUND));
        assert_eq!(picture.report_tree(JobNumber::ZERO), Err(Key::NOT_SOUND));
        assert_eq!(picture.into_longwords(), longwords);
    }
    for (n, h) in [(0, 0), (1_024, 0), (1_024, 255), (1_023, 256), (u32::MAX, 256), (16_388, 256), (1_024, 632)] {
        assert_eq!(Picture::fresh(n, h), Err(Key::OUT_OF_RANGE));
    }
    for (n, h) in [(1_024, 4), (1_024, 628), (16_384, 256)] {
        let picture = Picture::fresh(n, h).unwrap();
        assert_eq!((picture.longwords().len(), picture.longwords()[HEAP_WORD]), (n as usize, h));
    }
    assert_eq!(hub().trap(9, &mut [0; 8], b""), Err(Key::BAD_PARAMETER));
}

#[test]
fn any_slices_are_answered() {
    let mut picture = hub().into_longwords();
    for count in (0..8).chain(9..12) {
        let mut registers = vec![0; count];
        assert_eq!(lent::call(&mut picture, TRAP_1, &mut registers, b""), BAD_PARAMETER);
        assert_eq!(registers, vec![0; count]);
    }
    assert_eq!(lent::call(&mut [], TRAP_1, &mut [0; 8], b""), NOT_SOUND);
    assert_eq!(lent::pick(&mut []), (NOBODY, NOT_SOUND));
    assert_eq!(lent::tick(&mut []), NOT_SOUND);
    assert_eq!(lent::fresh(&mut [], 0, 0), OUT_OF_RANGE);
    assert_eq!(lent::error_text(9, b"\0\x01a", b"xx"), (NOT_FOUND, &b""[..]));
    assert_eq!(lent::error_text(-3, SYSTEM_TEXT, SYSTEM_TEXT), (DONE, &b"out of memory"[..]));
}

#[test]
fn numbers_and_keys_show_themselves() {
    let job = JobNumber(0x0007_0003);
    assert_eq!((job.tag(), job.position()), (7, 3));
    assert_eq!(format!("{job} {job:>10} {job:?}"), "$00070003  $00070003 JobNumber($00070003)");
    assert_eq!(ChannelNumber(1).to_string(), "$00000001");
    assert_eq!(Key::check(-99).unwrap_err().to_string(), "key -99");
    assert_eq!(Key::BAD_NAME.number(), -12);
    assert_eq!(format!("{:?} {:?}", Key::NOT_SOUND, Key::check(5)), "Key::NOT_SOUND (-16) Err(Key(5))");
    assert_eq!(format!("{:?}", Key::check(-5)), "Err(Key::BUFFER_OVERFLOW (-5))");
}

#[test]
fn keys_have_the_guides_text() {
    assert_eq!(Key::CHANNEL_NOT_OPEN.to_string(), "channel not open (-6)");
    assert_eq!(Key::OUT_OF_MEMORY.text(), Some("out of memory"));
    let texts: Vec<&[u8]> = (1..=21).map(|key| error_text(-key, SYSTEM_TEXT, &[]).unwrap()).collect();
    assert_eq!(texts[20], b"bad line (syntax error in BASIC)");
    assert_eq!(texts.iter().map(|text| text.len() + 2).sum::<usize>(), SYSTEM_TEXT.len());
    assert_eq!(error_text(-22, SYSTEM_TEXT, &[]), Err(Key::NOT_FOUND));
    let driver = b"?\0\x05valve\0\0";
    assert_eq!(error_text(1, SYSTEM_TEXT, driver), Ok(&b"valve"[..]));
    assert_eq!(error_text(1, SYSTEM_TEXT, driver).unwrap().as_ptr(), driver[3..].as_ptr());
    assert_eq!(error_text(8, SYSTEM_TEXT, driver), Ok(&b""[..]));
    assert_eq!(error_text(9, SYSTEM_TEXT, driver), Err(Key::NOT_FOUND));
    assert_eq!(error_text(0, SYSTEM_TEXT, driver), Err(Key::NOT_FOUND));
}

#[test]
fn pictures_in_threads_of_their_own() {
    let alone = {
        let mut hub = hub();
        run(&mut hub);
        hub
    };
    let hubs: Vec<Picture> = std::thread::scope(|scope| {
        let threads: Vec<_> = (0..4)
            .map(|_| {
                scope.spawn(|| {
                    let mut hub = hub();
                    run(&mut hub);
                    hub
                })
            })
            .collect();
        threads.into_iter().map(|thread| thread.join().unwrap()).collect()
    });
    assert!(hubs.iter().all(|hub| *hub == alone));
}

#[test]
fn reports_of_one_picture_at_once() {
    let (hub, _) = workshop();
    let alone = hub.report_tree(JobNumber::ZERO);
    std::thread::scope(|scope| {
        for _ in 0..4 {
            scope.spawn(|| (0..1_000).for_each(|_| assert_eq!(hub.report_tree(JobNumber::ZERO), alone)));
        }
    });
}

/// A few hundred calls.
fn run(hub: &mut Picture) {
    for round in 0..100 {
        let job = hub.mt_cjob(None, round, 4, 0).unwrap().job;
        let queue = hub.io_open(job, b"PIPE_20").unwrap();
        hub.io_sbyte(queue, round as u8).unwrap();
        if round % 10 != 0 {
            hub.mt_frjob(job, 0).unwrap();
        }
        hub.tick().unwrap();
        hub.pick().unwrap();
    }
}
