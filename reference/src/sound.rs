//! When a picture is sound: every rule by its name, in the paper's order, and one fast test of them all.

use std::ops::Range;

use crate::picture::*;

/// One of the two tables.
#[derive(Clone, Copy, PartialEq, Eq, PartialOrd, Ord, Debug)]
pub enum Table {
    Jobs,
    Channels,
}

/// The rules of soundness by name. A rule of both tables is a rule of each.
///
/// N is the lent length. Position 0 of the job table is job 0. A job or channel is live if its mask bit is set.
#[derive(Clone, Copy, PartialEq, Eq, PartialOrd, Ord, Debug)]
pub enum Rule {
    /// "N of them: 1,024 to 16,384, a multiple of 4"; longword 0 holds N.
    SizeStated,
    /// Longword 7 holds 0.
    SevenZero,
    /// "H is a multiple of 4, at least 4, and leaves the transient area at least 4"
    HeapStated,
    /// "block base (0 for job 0)"
    ZeroBase,
    /// "priority 0 to 127", in every job record.
    PriorityWithin,
    /// "accumulated 0 to 8,191", in every job record.
    AccumulatedWithin,
    /// "timeout (signed: 0 not suspended, -1 without end, else 1 to 32,767 frames left)", in every job record.
    TimeoutWithin,
    /// "Channel record: number, owner, block base, 1"
    EndsInOne,
    /// "Unused records are all zero"
    Blank(Table),
    /// "A number is tag × 65,536 + position": the position at which its record stands.
    Positioned(Table),
    /// "Job 0 has number 0 and always exists"
    ZeroExists,
    /// "Other tags run from 1 to 32,767"
    TagWithin(Table),
    /// "none is used twice"
    TagOnce(Table),
    /// "whole length in bytes (a multiple of 16, at least 16)"
    LengthWhole,
    /// "kind 0 free, 1 plain, 2 queue, 3 job"
    KindKnown,
    /// "start address for a job, else 0"
    StartZero,
    /// "A free header is length, 0, 0, 0"
    FreeBlank,
    /// "A queue's room: length n (1 to 32,766, the block being 32 + n rounded up to 16), index of the oldest byte
    /// (below n), count (0 to n), 0"
    QueueRoom,
    /// "blocks tile each area exactly"
    Tiles,
    /// "no two free blocks touch within an area"
    Untouched,
    /// "kinds 1 and 2 only in the heap, kind 3 only in the transient area"
    KindFits,
    /// "match one to one": a block of the table's kind is that of exactly one entry, its base and its owner.
    BlockMatched(Table),
    /// "match one to one": a live entry, but for job 0, has a block of the table's kind, at its base and with its owner.
    EntryMatched(Table),
    /// "every owner is live, or $FFFFFFFF for a job": in records.
    OwnerLive(Table),
    /// "every owner is live, or $FFFFFFFF for a job": in blocks.
    HolderLive,
    /// "a job's owner has a smaller tag"
    OwnerOlder,
    /// "job 0 is unowned"
    ZeroUnowned,
    /// "tags don't pass the last given"
    TagGiven(Table),
    /// "the last given, which is at most 32,767"
    LastWithin(Table),
    /// "longword 1 is nobody or a ready job"
    CurrentReady,
    /// "a job waits only for a live job other than 0 or itself, and only with timeout -1"
    WaitAllowed,
    /// "accumulated is 0 unless ready"
    IdleZero,
}

/// Whether a rule holds of a picture that has its tables.
type Test = fn(&Reading) -> bool;

/// Every rule with its test, in the paper's order.
const RULES: [(Rule, Test); 41] = {
    use Rule::*;
    use Table::*;
    [
        (SizeStated, |r| crate::fresh::length_is_good(r.length()) && r.picture[LENGTH] as usize == r.length()),
        (SevenZero, |r| r.picture[SPARE] == 0),
        (HeapStated, |r| {
            let h = r.picture[HEAP_LENGTH] as usize;
            h.is_multiple_of(STEP) && h >= STEP && HEAP + h + STEP <= r.length()
        }),
        (ZeroBase, |r| r.record(Jobs, 0)[job::BASE] == 0),
        (PriorityWithin, |r| r.records(Jobs).all(|(_, record)| record[job::PRIORITY] <= GREATEST_PRIORITY)),
        (AccumulatedWithin, |r| r.records(Jobs).all(|(_, record)| record[job::ACCUMULATED] <= HOLD)),
        (TimeoutWithin, |r| {
            r.records(Jobs).all(|(_, record)| (WITHOUT_END..=LONGEST_TIMEOUT).contains(&(record[job::TIMEOUT] as i32)))
        }),
        (EndsInOne, |r| r.entries(Channels).all(|(_, record)| record[channel::ONE] == 1)),
        (Blank(Jobs), |r| r.is_blank(Jobs)),
        (Blank(Channels), |r| r.is_blank(Channels)),
        (Positioned(Jobs), |r| r.is_positioned(Jobs)),
        (Positioned(Channels), |r| r.is_positioned(Channels)),
        (ZeroExists, |r| in_use(r.picture[JOB_MASK], 0) && r.record(Jobs, 0)[NUMBER] == 0),
        (TagWithin(Jobs), |r| r.tags(Jobs).all(|tag| (1..=LAST_TAG).contains(&tag))),
        (TagWithin(Channels), |r| r.tags(Channels).all(|tag| (1..=LAST_TAG).contains(&tag))),
        (TagOnce(Jobs), |r| all_different(r.tags(Jobs))),
        (TagOnce(Channels), |r| all_different(r.tags(Channels))),
        (LengthWhole, |r| {
            r.headers().all(|header| {
                header[block::LENGTH] >= block::HEADER_BYTES && header[block::LENGTH] % block::HEADER_BYTES == 0
            })
        }),
        (KindKnown, |r| r.headers().all(|header| header[block::KIND] <= block::JOB)),
        (StartZero, |r| r.headers().all(|header| header[block::KIND] == block::JOB || header[block::START] == 0)),
        (FreeBlank, |r| {
            r.headers().all(|header| header[block::KIND] != block::FREE || header[block::OWNER..] == [0, 0])
        }),
        (QueueRoom, |r| {
            r.blocks_of(block::QUEUE).all(|at| queue_holds(r.picture[at], &r.picture[at + block::HEADER..]))
        }),
        (Tiles, |r| r.tiled),
        (Untouched, |r| {
            [&r.heap, &r.transient].iter().all(|headers| {
                headers.windows(2).all(|pair| pair.iter().any(|at| r.picture[at + block::KIND] != block::FREE))
            })
        }),
        (KindFits, |r| {
            r.heap.iter().all(|at| r.picture[at + block::KIND] != block::JOB)
                && r.transient.iter().all(|at| ![block::PLAIN, block::QUEUE].contains(&r.picture[at + block::KIND]))
        }),
        (BlockMatched(Jobs), |r| r.blocks_are_matched(Jobs)),
        (EntryMatched(Jobs), |r| r.entries_are_matched(Jobs)),
        (BlockMatched(Channels), |r| r.blocks_are_matched(Channels)),
        (EntryMatched(Channels), |r| r.entries_are_matched(Channels)),
        (OwnerLive(Jobs), |r| r.entries(Jobs).all(|(_, record)| record[OWNER] == NOBODY || r.is_live(record[OWNER]))),
        (OwnerLive(Channels), |r| r.entries(Channels).all(|(_, record)| r.is_live(record[OWNER]))),
        (HolderLive, |r| {
            r.headers().all(|header| match header[block::KIND] {
                block::FREE => true,
                block::JOB if header[block::OWNER] == NOBODY => true,
                _ => r.is_live(header[block::OWNER]),
            })
        }),
        (OwnerOlder, |r| {
            r.entries(Jobs).all(|(_, record)| record[OWNER] == NOBODY || tag(record[OWNER]) < tag(record[NUMBER]))
        }),
        (ZeroUnowned, |r| r.record(Jobs, 0)[OWNER] == NOBODY),
        (TagGiven(Jobs), |r| r.tags_are_given(Jobs)),
        (TagGiven(Channels), |r| r.tags_are_given(Channels)),
        (LastWithin(Jobs), |r| r.picture[LAST_JOB_TAG] <= LAST_TAG),
        (LastWithin(Channels), |r| r.picture[LAST_CHANNEL_TAG] <= LAST_TAG),
        (CurrentReady, |r| current_holds(r.picture)),
        (WaitAllowed, |r| {
            r.entries(Jobs).all(|(_, record)| {
                let wait = record[job::WAIT];
                wait == 0 || wait != record[NUMBER] && r.is_live(wait) && record[job::TIMEOUT] as i32 == WITHOUT_END
            })
        }),
        (IdleZero, |r| {
            r.entries(Jobs)
                .all(|(_, record)| record[job::ACCUMULATED] == 0 || ready(record[job::PRIORITY], record[job::TIMEOUT]))
        }),
    ]
};

/// The first three fields of a record, in both tables.
const NUMBER: usize = 0;
const OWNER: usize = 1;
const BASE: usize = 2;

/// The block length in bytes of a queue of n bytes.
fn queue_block(n: u32) -> u64 {
    crate::blocks::rounded(u64::from(queue::BEFORE_BYTES) + u64::from(n))
}

fn all_different(tags: impl Iterator<Item = u32>) -> bool {
    let mut seen = Vec::new();
    tags.into_iter().all(|tag| !seen.contains(&tag) && (seen.push(tag), true).1)
}

/// A picture that has its tables, with the headers that the walk of each area meets.
///
/// A walk goes on as long as a whole header stands in the area and its length is a multiple of 4 and at least 16;
/// the area is tiled if it ends at the area's end.
struct Reading<'a> {
    picture: &'a [u32],
    heap: Vec<usize>,
    transient: Vec<usize>,
    tiled: bool,
}

impl<'a> Reading<'a> {
    fn new(picture: &'a [u32]) -> Self {
        let n = picture.len();
        let border = (HEAP + picture[HEAP_LENGTH] as usize).min(n);
        let (heap, heap_tiled) = headers_of(picture, HEAP..border);
        let (transient, transient_tiled) = headers_of(picture, border..n);
        Reading { picture, heap, transient, tiled: heap_tiled && transient_tiled }
    }

    fn length(&self) -> usize {
        self.picture.len()
    }

    fn mask(&self, table: Table) -> u32 {
        match table {
            Table::Jobs => self.picture[JOB_MASK],
            Table::Channels => self.picture[CHANNEL_MASK],
        }
    }

    /// All records of a table with their positions.
    fn records(&self, table: Table) -> impl Iterator<Item = (usize, &'a [u32])> + use<'a> {
        let (start, size) = match table {
            Table::Jobs => (JOB_RECORDS, JOB_RECORD),
            Table::Channels => (CHANNEL_RECORDS, CHANNEL_RECORD),
        };
        self.picture[start..start + POSITIONS * size].chunks_exact(size).enumerate()
    }

    fn record(&self, table: Table, position: usize) -> &'a [u32] {
        self.records(table).nth(position).unwrap_or_default().1
    }

    /// The records in use.
    fn entries(&self, table: Table) -> impl Iterator<Item = (usize, &'a [u32])> + use<'a> {
        let mask = self.mask(table);
        self.records(table).filter(move |&(k, _)| in_use(mask, k))
    }

    /// The records in use but for job 0's, which has no block and no tag of the series.
    fn numbered(&self, table: Table) -> impl Iterator<Item = &'a [u32]> + use<'a> {
        let first = usize::from(table == Table::Jobs);
        self.entries(table).filter(move |&(k, _)| k >= first).map(|(_, record)| record)
    }

    fn tags(&self, table: Table) -> impl Iterator<Item = u32> + use<'a> {
        self.numbered(table).map(|record| tag(record[NUMBER]))
    }

    fn is_blank(&self, table: Table) -> bool {
        let mask = self.mask(table);
        self.records(table).all(|(k, record)| in_use(mask, k) || record.iter().all(|&longword| longword == 0))
    }

    fn is_positioned(&self, table: Table) -> bool {
        self.entries(table).all(|(k, record)| position(record[NUMBER]) == k)
    }

    fn tags_are_given(&self, table: Table) -> bool {
        let last = match table {
            Table::Jobs => self.picture[LAST_JOB_TAG],
            Table::Channels => self.picture[LAST_CHANNEL_TAG],
        };
        self.entries(table).all(|(_, record)| tag(record[NUMBER]) <= last)
    }

    fn header_places(&self) -> impl Iterator<Item = usize> + '_ {
        self.heap.iter().chain(&self.transient).copied()
    }

    fn headers(&self) -> impl Iterator<Item = &'a [u32]> + '_ {
        self.header_places().map(|at| &self.picture[at..at + block::HEADER])
    }

    fn blocks_of(&self, kind: u32) -> impl Iterator<Item = usize> + '_ {
        self.header_places().filter(move |at| self.picture[at + block::KIND] == kind)
    }

    /// The blocks of the table's kind.
    fn homes(&self, table: Table) -> impl Iterator<Item = usize> + '_ {
        self.blocks_of(match table {
            Table::Jobs => block::JOB,
            Table::Channels => block::QUEUE,
        })
    }

    /// Whether the block at this place is that of a record: its base is the header's first byte, and owners are equal.
    fn pair(&self, record: &[u32], at: usize) -> bool {
        record[BASE] == 4 * at as u32 && record[OWNER] == self.picture[at + block::OWNER]
    }

    fn blocks_are_matched(&self, table: Table) -> bool {
        self.homes(table).all(|at| self.numbered(table).filter(|record| self.pair(record, at)).count() == 1)
    }

    fn entries_are_matched(&self, table: Table) -> bool {
        self.numbered(table).all(|record| self.homes(table).any(|at| self.pair(record, at)))
    }

    fn is_live(&self, number: u32) -> bool {
        live_job(self.picture, JobNumber(number)).is_some()
    }
}

/// The headers that the walk of an area meets, and whether it ends at the area's end.
fn headers_of(picture: &[u32], area: Range<usize>) -> (Vec<usize>, bool) {
    let mut headers = Vec::new();
    let mut at = area.start;
    while at + block::HEADER <= area.end {
        headers.push(at);
        let length = picture[at + block::LENGTH];
        if length < block::HEADER_BYTES || !length.is_multiple_of(4) {
            return (headers, false);
        }
        at += (length / 4) as usize;
    }
    (headers, at == area.end)
}

/// Every broken rule, in the paper's order. A picture too short for its tables breaks the first rule only.
pub fn broken(picture: &[u32]) -> Vec<Rule> {
    if picture.len() < HEAP {
        return vec![Rule::SizeStated];
    }
    let reading = Reading::new(picture);
    RULES.iter().filter(|(_, holds)| !holds(&reading)).map(|&(rule, _)| rule).collect()
}

/// The first broken rule in the paper's order, or none where the picture is sound.
pub fn first_broken(picture: &[u32]) -> Option<Rule> {
    if picture.len() < HEAP {
        return Some(Rule::SizeStated);
    }
    let reading = Reading::new(picture);
    RULES.iter().find(|(_, holds)| !holds(&reading)).map(|&(rule, _)| rule)
}

/// Whether the picture is sound: one walk of each area and one pass over each table.
pub fn is_sound(picture: &[u32]) -> bool {
    if !sizes_hold(picture) {
        return false;
    }
    let mut blocks = Blocks { marked: [0; MARKS], jobs: 0, queues: 0 };
    blocks.heap_holds(picture)
        && blocks.transient_holds(picture)
        && blocks.jobs_hold(picture)
        && blocks.channels_hold(picture)
        && current_holds(picture)
}

/// The rules of sizes and of single longwords before the records.
fn sizes_hold(picture: &[u32]) -> bool {
    let n = picture.len();
    crate::fresh::length_is_good(n)
        && picture[LENGTH] as usize == n
        && crate::fresh::heap_length_is_good(n, picture[HEAP_LENGTH] as usize)
        && picture[LAST_JOB_TAG] <= LAST_TAG
        && picture[LAST_CHANNEL_TAG] <= LAST_TAG
        && in_use(picture[JOB_MASK], 0)
        && picture[SPARE] == 0
}

/// The rule of longword 1, over records that hold.
fn current_holds(picture: &[u32]) -> bool {
    let current = picture[CURRENT];
    current == NOBODY
        || live_job(picture, JobNumber(current)).is_some_and(|position| {
            let record = job_record(position);
            ready(picture[record + job::PRIORITY], picture[record + job::TIMEOUT])
        })
}

/// One mark for each place of 16 bytes.
const MARKS: usize = GREATEST_LENGTH / STEP / 64;

/// What the walks have met: the places of job and queue blocks, marked, and how many there are that no record has.
struct Blocks {
    marked: [u64; MARKS],
    jobs: u32,
    queues: u32,
}

impl Blocks {
    fn mark(&mut self, at: usize) {
        self.marked[at / STEP / 64] |= 1 << (at / STEP % 64);
    }

    /// Whether a block that is marked stands at the base; its mark goes, so that no other record has it.
    fn unmark(&mut self, base: u32, area: Range<usize>) -> bool {
        let at = (base / 4) as usize;
        if !base.is_multiple_of(block::HEADER_BYTES) || !area.contains(&at) {
            return false;
        }
        let (longword, bit) = (&mut self.marked[at / STEP / 64], 1 << (at / STEP % 64));
        let was = *longword & bit != 0;
        *longword &= !bit;
        was
    }

    fn heap_holds(&mut self, picture: &[u32]) -> bool {
        let end = HEAP + picture[HEAP_LENGTH] as usize;
        let mut at = HEAP;
        let mut below_is_free = false;
        while at < end {
            let Some(&[length, kind, owner, start]) = picture[at..].first_chunk() else { return false };
            if !length_holds(length, end - at) || start != 0 {
                return false;
            }
            match kind {
                block::FREE if owner == 0 && !below_is_free => {}
                block::PLAIN if live_job(picture, JobNumber(owner)).is_some() => {}
                block::QUEUE if queue_holds(length, &picture[at + block::HEADER..]) => {
                    self.mark(at);
                    self.queues += 1;
                }
                _ => return false,
            }
            below_is_free = kind == block::FREE;
            at += (length / 4) as usize;
        }
        true
    }

    fn transient_holds(&mut self, picture: &[u32]) -> bool {
        let end = picture.len();
        let mut at = HEAP + picture[HEAP_LENGTH] as usize;
        let mut below_is_free = false;
        while at < end {
            let Some(&[length, kind, owner, start]) = picture[at..].first_chunk() else { return false };
            if !length_holds(length, end - at) {
                return false;
            }
            match kind {
                block::FREE if owner == 0 && start == 0 && !below_is_free => {}
                block::JOB => {
                    self.mark(at);
                    self.jobs += 1;
                }
                _ => return false,
            }
            below_is_free = kind == block::FREE;
            at += (length / 4) as usize;
        }
        true
    }

    fn jobs_hold(&mut self, picture: &[u32]) -> bool {
        let mask = picture[JOB_MASK];
        let last = picture[LAST_JOB_TAG];
        let area = HEAP + picture[HEAP_LENGTH] as usize..picture.len();
        let mut tags = [0; POSITIONS];
        let mut live = 0;
        let (records, _) = picture[JOB_RECORDS..CHANNEL_RECORDS].as_chunks::<JOB_RECORD>();
        for (k, record) in records.iter().enumerate() {
            if !in_use(mask, k) {
                if *record != [0; JOB_RECORD] {
                    return false;
                }
                continue;
            }
            let [number, owner, base, priority, accumulated, timeout, wait, _] = *record;
            if k == 0 {
                if number != 0 || owner != NOBODY || base != 0 {
                    return false;
                }
            } else {
                let tag = tag(number);
                if position(number) != k || tag < 1 || tag > last || tags[..live].contains(&tag) {
                    return false;
                }
                tags[live] = tag;
                live += 1;
                if owner != NOBODY
                    && (crate::picture::tag(owner) >= tag || live_job(picture, JobNumber(owner)).is_none())
                {
                    return false;
                }
                if !self.unmark(base, area.clone()) || picture[(base / 4) as usize + block::OWNER] != owner {
                    return false;
                }
            }
            if priority > GREATEST_PRIORITY
                || accumulated > HOLD
                || accumulated != 0 && !ready(priority, timeout)
                || !(WITHOUT_END..=LONGEST_TIMEOUT).contains(&(timeout as i32))
            {
                return false;
            }
            if wait != 0
                && (timeout as i32 != WITHOUT_END || wait == number || live_job(picture, JobNumber(wait)).is_none())
            {
                return false;
            }
        }
        self.jobs as usize == live
    }

    fn channels_hold(&mut self, picture: &[u32]) -> bool {
        let mask = picture[CHANNEL_MASK];
        let last = picture[LAST_CHANNEL_TAG];
        let area = HEAP..HEAP + picture[HEAP_LENGTH] as usize;
        let mut tags = [0; POSITIONS];
        let mut live = 0;
        let (records, _) = picture[CHANNEL_RECORDS..HEAP].as_chunks::<CHANNEL_RECORD>();
        for (k, record) in records.iter().enumerate() {
            if !in_use(mask, k) {
                if *record != [0; CHANNEL_RECORD] {
                    return false;
                }
                continue;
            }
            let [number, owner, base, one] = *record;
            let tag = tag(number);
            if position(number) != k || tag < 1 || tag > last || tags[..live].contains(&tag) || one != 1 {
                return false;
            }
            tags[live] = tag;
            live += 1;
            if live_job(picture, JobNumber(owner)).is_none()
                || !self.unmark(base, area.clone())
                || picture[(base / 4) as usize + block::OWNER] != owner
            {
                return false;
            }
        }
        self.queues as usize == live
    }
}

/// Whether a block's length is a multiple of 16, at least 16, and ends within what is left of its area.
fn length_holds(length: u32, left: usize) -> bool {
    length >= block::HEADER_BYTES && length.is_multiple_of(block::HEADER_BYTES) && (length / 4) as usize <= left
}

/// The rules of a queue's room, in a block of this length that lies within its area.
fn queue_holds(length: u32, room: &[u32]) -> bool {
    if length < queue::BEFORE_BYTES {
        return false;
    }
    let Some(&[n, index, count, zero]) = room.first_chunk() else { return false };
    (1..=queue::LONGEST).contains(&n) && u64::from(length) == queue_block(n) && index < n && count <= n && zero == 0
}

#[cfg(test)]
mod tests {
    use super::*;
    use crate::fresh::fresh_picture;
    use crate::make;
    use crate::manager::call;
    use crate::random::Random;

    const CHILD: usize = 1;
    const STRANGER: usize = 2;
    const JOB_1: u32 = 0x0001_0001;
    const JOB_2: u32 = 0x0002_0002;

    /// Job 0 with a plain block, a child with a channel, and an unowned job; all that is free lies above.
    ///
    /// Plain at 392 (32 bytes), queue of 5 at 400 (48), free at 412; jobs at 648 (32) and 656 (48), free at 668.
    fn furnished() -> Vec<u32> {
        let mut picture = fresh_picture(1_024, 256);
        for (trap, registers, name) in [
            (1, [0x18, 16, 0, 0, 0, 0, 0, 0], &b""[..]),
            (1, [0x1, 0, 4, 4, 0, 0x1000, 0, 0], b""),
            (1, [0x1, NOBODY, 4, 28, 0, 0x2000, 0, 0], b""),
            (2, [0x1, JOB_1, 0, 0, 0, 0, 0, 0], b"PIPE_5"),
            (3, [0x5, 0x41, 0, 0, 0x0001_0000, 0, 0, 0], b""),
        ] {
            assert_eq!(call(trap, &mut registers.clone(), name, &mut picture), 0);
        }
        let headers: Vec<&[u32]> = [392, 400, 412, 648, 656, 668].map(|at| &picture[at..at + 4]).to_vec();
        assert_eq!(headers[0], [32, 1, 0, 0]);
        assert_eq!(headers[1], [48, 2, JOB_1, 0]);
        assert_eq!(headers[2], [944, 0, 0, 0]);
        assert_eq!(headers[3], [32, 3, 0, 0x1000]);
        assert_eq!(headers[4], [48, 3, NOBODY, 0x2000]);
        assert_eq!(headers[5], [1_424, 0, 0, 0]);
        picture
    }

    fn child(field: usize) -> usize {
        job_record(CHILD) + field
    }

    fn stranger(field: usize) -> usize {
        job_record(STRANGER) + field
    }

    #[test]
    fn each_rule_is_broken_alone_by_hand() {
        use Rule::*;
        use Table::*;
        let without_end = WITHOUT_END as u32;
        let cases: &[(Rule, &[(usize, u32)])] = &[
            (SizeStated, &[(LENGTH, 1_028)]),
            (SevenZero, &[(SPARE, 1)]),
            (ZeroBase, &[(job_record(0) + job::BASE, 16)]),
            (PriorityWithin, &[(child(job::PRIORITY), 128)]),
            (AccumulatedWithin, &[(job_record(0) + job::ACCUMULATED, 8_192)]),
            (TimeoutWithin, &[(child(job::TIMEOUT), 32_768)]),
            (TimeoutWithin, &[(child(job::TIMEOUT), 0xFFFF_FFFE)]),
            (TimeoutWithin, &[(child(job::TIMEOUT), 0x8000_0000)]),
            (EndsInOne, &[(channel_record(0) + channel::ONE, 0)]),
            (Blank(Jobs), &[(job_record(3) + job::KEY, 1)]),
            (Blank(Jobs), &[(job_record(31), 1)]),
            (Blank(Channels), &[(channel_record(31) + channel::ONE, 1)]),
            (Positioned(Jobs), &[(child(job::NUMBER), 0x0001_0003), (channel_record(0) + 1, 0), (400 + 2, 0)]),
            (Positioned(Channels), &[(channel_record(0), 0x0001_0001)]),
            (
                ZeroExists,
                &[
                    (8, 0x0001_0000),
                    (CURRENT, 0x0001_0000),
                    (392 + 2, JOB_1),
                    (child(job::OWNER), NOBODY),
                    (648 + 2, NOBODY),
                ],
            ),
            (TagWithin(Jobs), &[(stranger(job::NUMBER), 2)]),
            (TagWithin(Channels), &[(channel_record(0), 0)]),
            (TagOnce(Jobs), &[(stranger(job::NUMBER), 0x0001_0002)]),
            (
                TagOnce(Channels),
                &[
                    (CHANNEL_MASK, 3),
                    (268, 0x0001_0001),
                    (269, JOB_1),
                    (270, 4 * 412),
                    (271, 1),
                    (412, 48),
                    (413, 2),
                    (414, JOB_1),
                    (416, 5),
                    (424, 896),
                ],
            ),
            (LengthWhole, &[(656, 40), (666, 1_432), (668, 0)]),
            (KindKnown, &[(392 + 1, 4)]),
            (StartZero, &[(392 + 3, 1)]),
            (StartZero, &[(400 + 3, 1)]),
            (FreeBlank, &[(412 + 2, 1)]),
            (QueueRoom, &[(404, 17)]),
            (QueueRoom, &[(404, 32_766)]),
            (QueueRoom, &[(405, 5)]),
            (QueueRoom, &[(406, 6)]),
            (QueueRoom, &[(407, 1)]),
            (Tiles, &[(412, 960)]),
            (Tiles, &[(668, 1_440)]),
            (Untouched, &[(412, 16), (416, 928)]),
            (Untouched, &[(668, 1_408), (1_020, 16)]),
            (KindFits, &[(668 + 1, 1)]),
            (KindFits, &[(412 + 1, 3), (JOB_MASK, 15), (32, 0x0003_0003), (34, 1_648), (LAST_JOB_TAG, 3)]),
            (EntryMatched(Jobs), &[(JOB_MASK, 15), (32, 0x0003_0003), (34, 0), (LAST_JOB_TAG, 3)]),
            (BlockMatched(Jobs), &[(JOB_MASK, 15), (32, 0x0003_0003), (34, 4 * 648), (LAST_JOB_TAG, 3)]),
            (BlockMatched(Jobs), &[(668 + 1, 3)]),
            (
                BlockMatched(Channels),
                &[(CHANNEL_MASK, 3), (268, 0x0002_0001), (269, JOB_1), (270, 1_600), (271, 1), (LAST_CHANNEL_TAG, 2)],
            ),
            (
                EntryMatched(Channels),
                &[(CHANNEL_MASK, 3), (268, 0x0002_0001), (269, 0), (271, 1), (LAST_CHANNEL_TAG, 2)],
            ),
            (BlockMatched(Channels), &[(412 + 1, 2), (416, 900)]),
            (HolderLive, &[(392 + 2, NOBODY)]),
            (HolderLive, &[(392 + 2, 0x0002_0001)]),
            (OwnerOlder, &[(child(job::OWNER), JOB_2), (648 + 2, JOB_2)]),
            (OwnerOlder, &[(child(job::OWNER), JOB_1), (648 + 2, JOB_1)]),
            (TagGiven(Jobs), &[(LAST_JOB_TAG, 1)]),
            (TagGiven(Channels), &[(LAST_CHANNEL_TAG, 0)]),
            (LastWithin(Jobs), &[(LAST_JOB_TAG, 32_768)]),
            (LastWithin(Channels), &[(LAST_CHANNEL_TAG, 0x8000_0000)]),
            (CurrentReady, &[(CURRENT, JOB_1)]),
            (CurrentReady, &[(CURRENT, 0x0001_0000)]),
            (CurrentReady, &[(CURRENT, 0xFFFF)]),
            (WaitAllowed, &[(child(job::WAIT), JOB_1), (child(job::TIMEOUT), without_end)]),
            (WaitAllowed, &[(child(job::WAIT), 0x0001_0002), (child(job::TIMEOUT), without_end)]),
            (WaitAllowed, &[(child(job::WAIT), JOB_2)]),
            (WaitAllowed, &[(child(job::WAIT), JOB_2), (child(job::TIMEOUT), 5)]),
            (IdleZero, &[(child(job::ACCUMULATED), 1)]),
            (IdleZero, &[(child(job::PRIORITY), 5), (child(job::TIMEOUT), 5), (child(job::ACCUMULATED), 1)]),
        ];
        for (rule, changes) in cases {
            let mut picture = furnished();
            changes.iter().for_each(|&(place, longword)| picture[place] = longword);
            assert_eq!(broken(&picture), [*rule], "{changes:?}");
            assert!(!is_sound(&picture), "{rule:?} {changes:?}");
        }
        for (rule, _) in RULES {
            let alone = rule == HeapStated || cases.iter().any(|case| case.0 == rule);
            assert_ne!(alone, NEVER_ALONE.contains(&rule), "{rule:?}");
        }
    }

    #[test]
    fn the_heap_can_be_too_short_or_too_long() {
        for heap_length in [0, 632] {
            let mut picture = fresh_picture(1_024, 256);
            picture[HEAP_LENGTH] = heap_length;
            picture[HEAP] = 4 * 632;
            assert_eq!(broken(&picture), [Rule::HeapStated]);
            assert!(!is_sound(&picture));
        }
    }

    /// The rules that can't be broken alone: whoever owns a record owns its block, and no tag is smaller than job 0's.
    const NEVER_ALONE: [Rule; 3] = [Rule::OwnerLive(Table::Jobs), Rule::OwnerLive(Table::Channels), Rule::ZeroUnowned];

    #[test]
    fn rules_that_are_broken_together() {
        use Rule::*;
        use Table::*;
        let together: &[(&[Rule], &[(usize, u32)])] = &[
            (
                &[ZeroExists, ZeroUnowned],
                &[
                    (9, 0),
                    (11, 0),
                    (JOB_MASK, 6),
                    (CURRENT, NOBODY),
                    (392 + 2, JOB_1),
                    (child(1), NOBODY),
                    (648 + 2, NOBODY),
                ],
            ),
            (&[BlockMatched(Jobs), EntryMatched(Jobs)], &[(648 + 2, NOBODY)]),
            (&[BlockMatched(Jobs), EntryMatched(Jobs)], &[(stranger(job::OWNER), 0)]),
            (&[BlockMatched(Channels), EntryMatched(Channels)], &[(400 + 2, 0)]),
            (&[BlockMatched(Channels), EntryMatched(Channels)], &[(channel_record(0) + 1, JOB_2)]),
            (&[OwnerLive(Jobs), HolderLive], &[(stranger(job::OWNER), 0x0001_0002), (656 + 2, 0x0001_0002)]),
            (&[OwnerLive(Channels), HolderLive], &[(channel_record(0) + 1, NOBODY), (400 + 2, NOBODY)]),
            (&[OwnerOlder, ZeroUnowned], &[(9, JOB_1)]),
            (&[OwnerOlder, ZeroUnowned], &[(9, 0)]),
        ];
        for (rules, changes) in together {
            let mut picture = furnished();
            changes.iter().for_each(|&(place, longword)| picture[place] = longword);
            assert_eq!(broken(&picture), *rules, "{changes:?}");
            assert!(!is_sound(&picture), "{rules:?} {changes:?}");
        }
        for rule in NEVER_ALONE {
            assert!(together.iter().any(|case| case.0.contains(&rule)), "{rule:?}");
        }
    }

    #[test]
    fn what_may_be_anything_keeps_the_picture_sound() {
        let without_end = WITHOUT_END as u32;
        let cases: &[&[(usize, u32)]] = &[
            &[],
            // Keys to deliver, start addresses, queue bytes and padding, room of any block.
            &[
                (job_record(0) + job::KEY, 0xDEAD),
                (child(job::KEY), NOBODY),
                (648 + 3, NOBODY),
                (408, NOBODY),
                (409, 7),
            ],
            &[(411, 1), (396, 2), (654, 3), (430, 4), (700, 5)],
            // Rings of waiting jobs, inactive waiters, timeout -1 without a wait.
            &[(child(6), JOB_2), (child(5), without_end), (stranger(6), JOB_1), (stranger(5), without_end)],
            &[(child(job::TIMEOUT), without_end)],
            &[(child(job::TIMEOUT), 32_767), (stranger(job::TIMEOUT), 1)],
            &[(LAST_JOB_TAG, 32_767), (LAST_CHANNEL_TAG, 32_767)],
            &[(CURRENT, NOBODY)],
            &[(CURRENT, JOB_1), (child(job::PRIORITY), 127), (child(job::ACCUMULATED), 8_191)],
            &[(405, 4), (406, 5)],
            &[(404, 16)],
            // Blocks without room, and no free block at all.
            &[(392, 16), (396, 16), (397, 1)],
            &[(412 + 1, 1)],
        ];
        for changes in cases {
            let mut picture = furnished();
            changes.iter().for_each(|&(place, longword)| picture[place] = longword);
            assert_eq!(broken(&picture), [], "{changes:?}");
            assert!(is_sound(&picture), "{changes:?}");
        }
    }

    #[test]
    fn any_lent_length_gets_its_answer() {
        let picture = furnished();
        for length in 0..picture.len() {
            assert!(!is_sound(&picture[..length]));
            assert!(first_broken(&picture[..length]).is_some());
        }
        for length in [1_025, 1_028, 2_048, 16_384, 16_388, 20_000] {
            let mut longer = picture.clone();
            longer.resize(length, 0);
            assert!(!is_sound(&longer));
            longer[LENGTH] = length as u32;
            assert!(!is_sound(&longer));
        }
        let mut too_great = fresh_picture(16_384, 256);
        too_great.resize(16_388, 0);
        too_great[LENGTH] = 16_388;
        too_great[648] += 16;
        assert_eq!(broken(&too_great), [Rule::SizeStated]);
        assert!(!is_sound(&too_great));
        for filling in [0, 1, NOBODY] {
            assert!(!is_sound(&vec![filling; 1_024]));
        }
    }

    #[test]
    fn sizes_are_broken_first() {
        let mut picture = furnished();
        picture.push(0);
        picture[LENGTH] += 1;
        assert_eq!(first_broken(&picture), Some(Rule::SizeStated));
        for heap_length in [257, 0, 632, 636, 0xFFFF_FFFC] {
            let mut picture = furnished();
            picture[HEAP_LENGTH] = heap_length;
            assert_eq!(first_broken(&picture), Some(Rule::HeapStated));
            assert!(!is_sound(&picture));
        }
    }

    #[test]
    fn limits_are_those_of_unused_records_too() {
        for (field, rule) in [
            (job::PRIORITY, Rule::PriorityWithin),
            (job::ACCUMULATED, Rule::AccumulatedWithin),
            (job::TIMEOUT, Rule::TimeoutWithin),
        ] {
            let mut picture = furnished();
            picture[job_record(31) + field] = 0x8000_0000;
            assert_eq!(broken(&picture), [rule, Rule::Blank(Table::Jobs)]);
        }
    }

    #[test]
    fn the_fast_test_and_the_rules_agree() {
        let mut random = Random::new(7);
        let mut sound = 0;
        for _ in 0..60_000 {
            let picture = make::changed_picture(&mut random);
            let first = first_broken(&picture);
            assert_eq!(is_sound(&picture), first.is_none(), "{first:?}");
            assert_eq!(first, broken(&picture).first().copied());
            sound += u32::from(first.is_none());
        }
        assert!((3_000..57_000).contains(&sound), "{sound} of 60,000 were sound");
        for (damage, rules) in make::damage::DAMAGES {
            for _ in (0..40).filter(|_| !make::damage::NEVER_ALONE.contains(&damage)) {
                assert!(!is_sound(&make::damaged_picture(&mut random, damage, rules)), "{damage:?}");
            }
        }
    }
}
