//! How a sound picture is damaged, and which rules of soundness that breaks.

use crate::sound::Rule;

/// What is wrong with a damaged picture.
#[derive(Clone, Copy, PartialEq, Eq, Debug)]
pub enum Damage {
    /// N is less than 1,024.
    PictureLength,
    /// N is no multiple of 4; then blocks can't tile.
    PictureMultiple,
    /// Longword 0 isn't N.
    LongwordZero,
    /// Longword 7 isn't 0.
    LongwordSeven,
    /// H is no multiple of 4; then blocks can't tile.
    HeapMultiple,
    /// H is 0.
    HeapLength,
    /// H leaves the transient area nothing.
    TransientLength,
    /// Job 0 has a block base.
    JobZeroBase,
    /// A priority is above 127.
    Priority,
    /// Accumulated is above 8,191.
    Accumulated,
    /// A timeout is neither 0 nor -1 nor 1 to 32,767.
    Timeout,
    /// A channel record doesn't end in 1.
    ChannelOne,
    /// An unused job record isn't all zero.
    UnusedJobRecords,
    /// An unused channel record isn't all zero.
    UnusedChannelRecords,
    /// A job's number has another position.
    JobPosition,
    /// A channel's number has another position.
    ChannelPosition,
    /// Job 0 has a tag.
    JobZeroNumber,
    /// Job 0 is gone.
    JobZeroExists,
    /// A job's tag is 0.
    JobTag,
    /// A channel's tag is 0.
    ChannelTag,
    /// Two jobs have one tag.
    JobTagTwice,
    /// Two channels have one tag.
    ChannelTagTwice,
    /// A block's length is no multiple of 16.
    BlockLength,
    /// A block's kind is above 3.
    BlockKind,
    /// A plain block or a queue has a start address.
    StartAddress,
    /// A free block has an owner.
    FreeHeader,
    /// A queue's length is above 32,766.
    QueueLength,
    /// A queue's block isn't 32 + n rounded up.
    QueueBlock,
    /// A queue's index isn't below n.
    QueueIndex,
    /// A queue's count is above n.
    QueueCount,
    /// The longword behind a queue's count isn't 0.
    QueueZero,
    /// The last block of an area ends outside it.
    Tiling,
    /// Two free blocks touch.
    FreeTouch,
    /// A plain block or a queue stands in the transient area.
    HeapKinds,
    /// A job's block stands in the heap.
    TransientKind,
    /// A job has no block of its own.
    JobBlock,
    /// A kind 3 block is no job's.
    BlockJob,
    /// A job's record and its block have different owners.
    JobBlockOwner,
    /// A channel has no block of its own.
    ChannelBlock,
    /// A kind 2 block is no channel's.
    BlockChannel,
    /// A channel's record and its block have different owners.
    ChannelBlockOwner,
    /// A job's owner is dead.
    JobOwner,
    /// A channel's owner is dead or nobody.
    ChannelOwner,
    /// A plain block's owner is dead or nobody.
    PlainOwner,
    /// A job's owner has no smaller tag.
    OwnerTag,
    /// Job 0 is owned.
    JobZeroOwner,
    /// A job's tag passes the last given.
    JobTagGiven,
    /// A channel's tag passes the last given.
    ChannelTagGiven,
    /// The last job tag given is above 32,767.
    LastJobTag,
    /// The last channel tag given is above 32,767.
    LastChannelTag,
    /// The current job isn't ready or isn't live.
    Current,
    /// A job waits for itself or for a dead job.
    WaitedFor,
    /// A job waits with another timeout than -1.
    WaitTimeout,
    /// A job that isn't ready has accumulated something.
    AccumulatedReady,
}

/// Every damage with the rules that it breaks: one of them or more, and no others.
pub const DAMAGES: [(Damage, &[Rule]); 54] = {
    use crate::sound::Table::*;
    use Damage::*;
    use Rule::*;
    [
        (PictureLength, &[SizeStated]),
        (PictureMultiple, &[SizeStated]),
        (LongwordZero, &[SizeStated]),
        (LongwordSeven, &[SevenZero]),
        (HeapMultiple, &[HeapStated]),
        (HeapLength, &[HeapStated]),
        (TransientLength, &[HeapStated]),
        (JobZeroBase, &[ZeroBase]),
        (Priority, &[PriorityWithin]),
        (Accumulated, &[AccumulatedWithin]),
        (Timeout, &[TimeoutWithin]),
        (ChannelOne, &[EndsInOne]),
        (UnusedJobRecords, &[PriorityWithin, AccumulatedWithin, TimeoutWithin, Blank(Jobs)]),
        (UnusedChannelRecords, &[Blank(Channels)]),
        (JobPosition, &[Positioned(Jobs)]),
        (ChannelPosition, &[Positioned(Channels)]),
        (JobZeroNumber, &[ZeroExists]),
        (JobZeroExists, &[ZeroExists, ZeroUnowned]),
        (JobTag, &[TagWithin(Jobs)]),
        (ChannelTag, &[TagWithin(Channels)]),
        (JobTagTwice, &[TagOnce(Jobs)]),
        (ChannelTagTwice, &[TagOnce(Channels)]),
        (BlockLength, &[LengthWhole]),
        (BlockKind, &[KindKnown]),
        (StartAddress, &[StartZero]),
        (FreeHeader, &[FreeBlank]),
        (QueueLength, &[QueueRoom]),
        (QueueBlock, &[QueueRoom]),
        (QueueIndex, &[QueueRoom]),
        (QueueCount, &[QueueRoom]),
        (QueueZero, &[QueueRoom]),
        (Tiling, &[Tiles]),
        (FreeTouch, &[Untouched]),
        (HeapKinds, &[KindFits]),
        (TransientKind, &[KindFits]),
        (JobBlock, &[BlockMatched(Jobs), EntryMatched(Jobs)]),
        (BlockJob, &[BlockMatched(Jobs)]),
        (JobBlockOwner, &[BlockMatched(Jobs), EntryMatched(Jobs)]),
        (ChannelBlock, &[BlockMatched(Channels), EntryMatched(Channels)]),
        (BlockChannel, &[BlockMatched(Channels)]),
        (ChannelBlockOwner, &[BlockMatched(Channels), EntryMatched(Channels)]),
        (JobOwner, &[OwnerLive(Jobs), HolderLive]),
        (ChannelOwner, &[OwnerLive(Channels), HolderLive]),
        (PlainOwner, &[HolderLive]),
        (OwnerTag, &[OwnerOlder]),
        (JobZeroOwner, &[OwnerOlder, ZeroUnowned]),
        (JobTagGiven, &[TagGiven(Jobs)]),
        (ChannelTagGiven, &[TagGiven(Channels)]),
        (LastJobTag, &[LastWithin(Jobs)]),
        (LastChannelTag, &[LastWithin(Channels)]),
        (Current, &[CurrentReady]),
        (WaitedFor, &[WaitAllowed]),
        (WaitTimeout, &[WaitAllowed]),
        (AccumulatedReady, &[IdleZero]),
    ]
};

/// The damages that can't be alone.
pub const NEVER_ALONE: [Damage; 2] = [Damage::PictureMultiple, Damage::HeapMultiple];
