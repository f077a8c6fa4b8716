//! Planted differences, to test the comparison itself: `--plant NAME` picks one,
//! and what came back is changed by it before it is compared. The library, the
//! reference model and bench-trace stay as they are.

use std::ops::Range;
use std::os::unix::process::ExitStatusExt;
use std::process::{ExitStatus, Output};
use std::sync::OnceLock;

use oracle::access::load;
use oracle::covered::Covered;
use oracle::dropped::History;
use oracle::fetches::FETCHED_BYTES;
use oracle::flat::Flat;
use oracle::frames::{COLUMNS, FRAME_BYTES, LEAST_EXTERNAL, ROWS};
use oracle::gen::{Frame, Transfer, RANGE_BYTES};
use oracle::geometry::{
    external_offset, sram_size, L1d, L1p, EXTERNAL_BASE, L1D_BYTES, L1P_BYTES, L2,
};
use oracle::load::Load;
use oracle::machine::{SERVER_L1D, SERVER_L1P, SERVER_L2};
use oracle::trace::{decode, ANSWER_BYTES};
use oracle::transfers::LONGEST_TRANSFER;
use oracle::writer::Put;
use oracle::{Answer, Command, Program, Unaligned};

use crate::boundary::{
    self, column_sums, dirty_marks, l1p_holds, l2_holds, Buffer, CAnswer, CFetched, CFramed, CLeft,
    CLine, CRecord, CRun, CRunNumber, CShortRun, FrameCalls, Lent,
};
use crate::pair::{Ours, SMALL};

/// The planted differences; `PLANTS` says what each does.
#[derive(Clone, Copy, PartialEq, Eq, Debug)]
enum Plant {
    ReadValue,
    ReadOrder,
    WriteNumber,
    NoBool,
    L1dByte,
    L2Byte,
    ExternalByte,
    ExternalFar,
    Panic,
    FreshNumber,
    FreshRecord,
    RunCounts,
    RunAnswer,
    RunLater,
    RunRecord,
    ViewNumber,
    ViewBytes,
    ViewNumberAlone,
    FlatNumber,
    FlatValue,
    FlatWriteback,
    FlatEnd,
    FlatSram,
    RefusedPadding,
    PaddingSeen,
    RunPadding,
    ViewPadding,
    FreshKept,
    WritebackDirty,
    RunDirty,
    FlatRun,
    SramLeftDirty,
    ModeZeroSkips,
    EmptiedOrder,
    BlockDropsSram,
    BlockTakesBoth,
    InvalidateWrites,
    RunSramDirty,
    FlatGlobalSram,
    FlatModeZero,
    FlatRunSram,
    FlatRunModeZero,
    FlatByte,
    ShortRunDigit,
    ShortRunBehind,
    ShortRunNumber,
    ShortRunRefused,
    ShortRunByte,
    PutByte,
    PutPoint,
    PutOrder,
    PutRun,
    PutAgain,
    DataNumber,
    DataServer,
    DataVictim,
    ValueBehind,
    ViewNeighbour,
    FillNeighbour,
    FetchNeighbour,
    SramLeftover,
    ExternalLeftover,
    HeldByte,
    HeldLast,
    DroppedUnsaid,
    DroppedFlat,
    KeptOverDrop,
    KeptOverMode,
    LoadByte,
    LoadLater,
    LoadPartial,
    LoadLength,
    LoadOrder,
    LoadRun,
    KeptOverL2,
    FreezeLost,
    FreezeNumber,
    FrozenByte,
    FrozenOrder,
    FrozenWriteOrder,
    FrozenClean,
    FrozenFill,
    FrozenEmpties,
    FrozenL2Order,
    FrozenHalves,
    FrozenBehind,
    ModeThaws,
    FreshFrozen,
    RunFreeze,
    RunFreezeNumber,
    RunThaws,
    PutFreeze,
    FlatFreeze,
    DataFrozen,
    CountVictim,
    CountIntoL2,
    CountAgain,
    CountAgainL2,
    CountWriteback,
    CountGlobal,
    CountDropped,
    CountHalves,
    CountMode,
    CountFresh,
    CountRun,
    CountL1dUntested,
    CountL2Untested,
    CountsAdded,
    DataCount,
    LeftBeforeHalves,
    LeftComing,
    LeftComingL2,
    LeftHit,
    LeftL2Hit,
    LeftWriteMiss,
    LeftFrozen,
    LeftPast,
    LeftSilent,
    LeftUpper,
    LeftAddress,
    LeftRefused,
    LeftCommand,
    LeftFresh,
    LeftByRecords,
    MovedClean,
    MovedCleanL1d,
    MovedIntoL2,
    MovedIntoSram,
    MovedFrozen,
    MovedPast,
    MovedWrite,
    MovedTwice,
    MovedRefused,
    MovedCommand,
    MovedBytes,
    DataLeft,
    DataMoved,
    UnalignedDown,
    UnalignedFirst,
    UnalignedServer,
    UnalignedValue,
    UnalignedStored,
    UnalignedUnchecked,
    UnalignedMultiple,
    UnalignedShort,
    UnalignedWide,
    UnalignedMoves,
    UnalignedCounts,
    UnalignedBound,
    UnalignedLeft,
    UnalignedBytes,
    FlatUnaligned,
    FlatUnalignedWrite,
    HeldUnaligned,
    DataUnaligned,
    UnalignedBehind,
    TransferHeld,
    TransferLost,
    TransferInside,
    TransferOutHeld,
    TransferFrozen,
    TransferUses,
    TransferCount,
    TransferUpdates,
    TransferSnoops,
    TransferDrops,
    TransferLast,
    TransferLimit,
    TransferOrder,
    TransferAligned,
    TransferClears,
    TransferBehind,
    TransferBuffer,
    TransferServer,
    TransferCounts,
    TransferParts,
    FlatTransfer,
    FlatTransferOut,
    FlatTransferNumber,
    FlatUncovered,
    HeldTransfer,
    DataTransfer,
    TransferNeighbour,
    FrameUncovered,
    FrameNoL2,
    FrameOnePlace,
    FrameOtherPlace,
    FrameNoTransfer,
    FrameDown,
    FrameFrozen,
    FrameLast,
    FrameRows,
    FrameNarrow,
    FrameTurn,
    FrameTurnBack,
    FrameTurnTaken,
    FrameTurnKept,
    FrameCovers,
    FrameMoves,
    FrameAddsUp,
    FrameOrder,
    FrameLonger,
    FrameLeast,
    FramePixels,
    FrameCount,
    FrameByCalls,
    FrameByPixels,
    FlatFrame,
    FlatFrameSums,
    FlatFrameNumber,
    FlatFrameTurn,
    FlatFrameUnread,
    DataFrame,
    FrameBeside,
    L1pLooks,
    L1pHitWay,
    L1pHitServer,
    L1pPast,
    L1pPastWay,
    L1pComing,
    L1pUnfilled,
    L1pFrozen,
    L1pL2Order,
    L1pHalves,
    L1pIntoL1d,
    L1pCounts,
    L1pValue,
    L1pOrder,
    L1pAligned,
    L1pRubbish,
    L1pLength,
    L1pDirty,
    L1pWrites,
    L1pUpdates,
    L1pEvicted,
    L1pWriteback,
    L1pFirst,
    L1pInvalidate,
    L1pGlobal,
    L1pBeside,
    L1pMode,
    L1pModeBytes,
    L1pMar,
    L1pTransfer,
    L1pFrame,
    L1pFresh,
    L1pFreshBytes,
    L1pBlock,
    L1pCleared,
    L1pAllServer,
    L1pRun,
    L1pByRecords,
    L1pMoved,
    FlatFetch,
    FlatFetchNumber,
    FlatWritten,
    FlatUnfetched,
    DataFetch,
    FetchBeside,
    BenchOutput,
    BenchStatus,
}

/// A planted difference with its name and what it does.
pub struct Planted {
    plant: Plant,
    pub name: &'static str,
    pub about: &'static str,
}

const fn planted(plant: Plant, name: &'static str, about: &'static str) -> Planted {
    Planted { plant, name, about }
}

pub const PLANTS: [Planted; 261] = [
    planted(Plant::ReadValue, "read-value", "a 4-byte read from L2 cache gets 1 more"),
    planted(Plant::ReadOrder, "read-order", "a read hit in L1D turns its set's order around"),
    planted(Plant::WriteNumber, "write-number", "a write refused with 6 gets 5"),
    planted(Plant::NoBool, "no-bool", "a valid byte of L1D that is no bool comes back as 1"),
    planted(Plant::L1dByte, "l1d-byte", "L1D invalidate all changes L1D's last byte"),
    planted(Plant::L2Byte, "l2-byte", "a call refused with 9 changes L2's first byte"),
    planted(Plant::ExternalByte, "external-byte", "L2 block writeback changes external memory"),
    planted(Plant::ExternalFar, "external-far", "a write hit changes external memory at 1 MiB"),
    planted(Plant::Panic, "panic", "a change to mode 2 panics"),
    planted(Plant::FreshNumber, "fresh-number", "a fresh start refused with 1 gets 2"),
    planted(Plant::FreshRecord, "fresh-record", "a fresh start sets MAR 129's bit"),
    planted(Plant::RunCounts, "run-counts", "a run stopped by 12 has consumed 1 byte more"),
    planted(Plant::RunAnswer, "run-answer", "a run's third answer has another server"),
    planted(Plant::RunLater, "run-later", "a run stopped by 11 changes a later answer byte"),
    planted(Plant::RunRecord, "run-record", "a run with two answers changes MAR 129's bit"),
    planted(Plant::ViewNumber, "view-number", "a view refused with 5 gets 4"),
    planted(Plant::ViewBytes, "view-bytes", "the last byte of an accepted view is wrong"),
    planted(Plant::ViewNumberAlone, "view-number-alone", "the second call gets 4 for a 5"),
    planted(Plant::FlatNumber, "flat-number", "a write refused with 6 gets 5 by flat memory"),
    planted(Plant::FlatValue, "flat-value", "a 2-byte read gets 1 more by flat memory"),
    planted(Plant::FlatWriteback, "flat-writeback", "a global writeback changes flat memory"),
    planted(Plant::FlatEnd, "flat-end", "the end of a list changes flat external memory"),
    planted(Plant::FlatSram, "flat-sram", "the end of a list changes flat SRAM"),
    planted(Plant::RefusedPadding, "refused-padding", "a call refused with 4 changes padding"),
    planted(Plant::PaddingSeen, "padding-seen", "a call with padding other than 0 gets 2"),
    planted(Plant::RunPadding, "run-padding", "a run refused with 2 changes padding"),
    planted(Plant::ViewPadding, "view-padding", "a view changes padding"),
    planted(Plant::FreshKept, "fresh-kept", "a refused fresh start keeps the record"),
    planted(Plant::WritebackDirty, "writeback-dirty", "a global writeback leaves a line dirty"),
    planted(Plant::RunDirty, "run-dirty", "a run that ends in one leaves a line dirty"),
    planted(Plant::FlatRun, "flat-run", "a run that ends in one changes flat memory"),
    planted(Plant::SramLeftDirty, "sram-left-dirty", "a global writeback leaves out SRAM's lines"),
    planted(Plant::ModeZeroSkips, "mode-0-skips", "a global writeback does nothing in mode 0"),
    planted(Plant::EmptiedOrder, "emptied-order", "sets that a global writeback empties are fresh"),
    planted(Plant::BlockDropsSram, "block-drops-sram", "L2 block writebacks drop SRAM's lines"),
    planted(Plant::BlockTakesBoth, "block-takes-both", "L2 block commands take 128 bytes of SRAM"),
    planted(Plant::InvalidateWrites, "invalidate-writes", "L2 block invalidate sends SRAM home"),
    planted(Plant::RunSramDirty, "run-sram-dirty", "a run that ends in one leaves SRAM dirty"),
    planted(Plant::FlatGlobalSram, "flat-writeback-sram", "a global writeback changes flat SRAM"),
    planted(Plant::FlatModeZero, "flat-mode-0", "one in mode 0 changes flat external memory"),
    planted(Plant::FlatRunSram, "flat-run-sram", "a run that ends in one changes flat SRAM"),
    planted(Plant::FlatRunModeZero, "flat-run-mode-0", "a run that ends in that does so"),
    planted(Plant::FlatByte, "flat-byte", "a 1-byte read gets 1 more by flat memory"),
    planted(Plant::ShortRunDigit, "short-run-digit", "the last of four digits of a run is wrong"),
    planted(Plant::ShortRunBehind, "short-run-behind", "a run of three has a digit behind them"),
    planted(Plant::ShortRunNumber, "short-run-number", "the number of run 4,680 is 1 more"),
    planted(Plant::ShortRunRefused, "short-run-refused", "a number comes with 18"),
    planted(Plant::ShortRunByte, "short-run-byte", "the write of a short run goes past L2"),
    planted(Plant::PutByte, "put-byte", "a command refused with 16 leaves a byte behind"),
    planted(Plant::PutPoint, "put-point", "the point behind a mode change is one more"),
    planted(Plant::PutOrder, "put-order", "16 comes before 11 where no byte is left"),
    planted(Plant::PutRun, "put-run", "a run over two commands put has one answer more"),
    planted(Plant::PutAgain, "put-again", "a trace that ends in 09 is another written again"),
    planted(Plant::DataNumber, "data-number", "one of two runs: a write of an odd value gets 6"),
    planted(Plant::DataServer, "data-server", "..: a read of an odd value has another server"),
    planted(Plant::DataVictim, "data-victim", "..: a read of an odd value turns an order around"),
    planted(Plant::ValueBehind, "value-behind", "..: a read answers the byte behind it too"),
    planted(Plant::ViewNeighbour, "view-neighbour", "..: a view shows the line beside it"),
    planted(Plant::FillNeighbour, "fill-neighbour", "..: L1D is filled with the line beside it"),
    planted(Plant::FetchNeighbour, "fetch-neighbour", "..: L2 fetches the line beside it"),
    planted(Plant::SramLeftover, "sram-leftover", "..: what L1D drops goes into SRAM's sum"),
    planted(Plant::ExternalLeftover, "external-leftover", "..: a mode change sums up L1D's bytes"),
    planted(Plant::HeldByte, "held-byte", "a 1-byte read of a list with drops gets 1 more"),
    planted(Plant::HeldLast, "held-last", "a byte may read as the last one written alone"),
    planted(Plant::DroppedUnsaid, "dropped-unsaid", "lines that were dropped are not noted"),
    planted(Plant::DroppedFlat, "dropped-flat", "1 more goes to flat memory with drops"),
    planted(Plant::KeptOverDrop, "kept-over-drop", "a byte keeps its value over a drop"),
    planted(Plant::KeptOverMode, "kept-over-mode", "a byte keeps its value over a mode change"),
    planted(Plant::LoadByte, "load-byte", "the last byte of a load is another"),
    planted(Plant::LoadLater, "load-later", "a load changes the byte behind its trace"),
    planted(Plant::LoadPartial, "load-partial", "a load refused with 16 leaves a code behind"),
    planted(Plant::LoadLength, "load-length", "the length of a load of one write is one less"),
    planted(Plant::LoadOrder, "load-order", "16 comes before 1 where there is no output"),
    planted(Plant::LoadRun, "load-run", "a run over a load refuses its last access"),
    planted(Plant::KeptOverL2, "kept-over-l2", "a byte keeps its value over L2's drop of SRAM"),
    planted(Plant::FreezeLost, "freeze-lost", "a freeze leaves L1D thawed"),
    planted(Plant::FreezeNumber, "freeze-number", "a freeze refused with 17 gets 9"),
    planted(Plant::FrozenByte, "frozen-byte", "a record that keeps neither 0 nor 1 is accepted"),
    planted(Plant::FrozenOrder, "frozen-order", "a frozen read hit uses its way"),
    planted(Plant::FrozenWriteOrder, "frozen-write-order", "a frozen write hit uses its way"),
    planted(Plant::FrozenClean, "frozen-clean", "a frozen write hit leaves its line clean"),
    planted(Plant::FrozenFill, "frozen-fill", "a frozen read miss fills a way of L1D"),
    planted(Plant::FrozenEmpties, "frozen-empties", "a frozen read miss empties a way of L1D"),
    planted(Plant::FrozenL2Order, "frozen-l2-order", "a frozen read miss uses no way of L2"),
    planted(Plant::FrozenHalves, "frozen-halves", "halves stay in a frozen L1D without their line"),
    planted(Plant::FrozenBehind, "frozen-behind", "a frozen read miss goes past a line of L2"),
    planted(Plant::ModeThaws, "mode-thaws", "a mode change thaws L1D"),
    planted(Plant::FreshFrozen, "fresh-frozen", "a fresh start keeps the freeze"),
    planted(Plant::RunFreeze, "run-freeze", "a run that begins with a freeze is stopped by 11"),
    planted(Plant::RunFreezeNumber, "run-freeze-number", "a freeze in a run gets 9 for 17"),
    planted(Plant::RunThaws, "run-thaws", "a run that ends in a freeze leaves L1D thawed"),
    planted(Plant::PutFreeze, "put-freeze", "code 12 is refused by the writer with 11"),
    planted(Plant::FlatFreeze, "flat-freeze", "a freeze changes flat memory"),
    planted(
        Plant::DataFrozen,
        "data-frozen",
        "..: a frozen hit on an odd value turns an order around",
    ),
    planted(
        Plant::CountVictim,
        "count-victim",
        "a dirty line that leaves for a read is counted on",
    ),
    planted(Plant::CountIntoL2, "count-into-l2", "a line of L1D makes one of L2 dirty uncounted"),
    planted(Plant::CountAgain, "count-again", "a write to a dirty line of L1D counts it again"),
    planted(Plant::CountAgainL2, "count-again-l2", "a write to a dirty line of L2 counts it again"),
    planted(Plant::CountWriteback, "count-writeback", "L1D block writeback does not count down"),
    planted(Plant::CountGlobal, "count-global", "a global writeback does not count L2 down"),
    planted(Plant::CountDropped, "count-dropped", "what invalidates L1D does not count down"),
    planted(
        Plant::CountHalves,
        "count-halves",
        "halves that L2 block invalidate drops are counted on",
    ),
    planted(Plant::CountMode, "count-mode", "a mode change keeps L2's count"),
    planted(Plant::CountFresh, "count-fresh", "a fresh start keeps L1D's count"),
    planted(Plant::CountRun, "count-run", "a run counts one line of L2 more"),
    planted(
        Plant::CountL1dUntested,
        "count-l1d-untested",
        "a wrong count of L1D alone is accepted",
    ),
    planted(Plant::CountL2Untested, "count-l2-untested", "a wrong count of L2 alone is accepted"),
    planted(Plant::CountsAdded, "counts-added", "wrong counts with the right sum are accepted"),
    planted(Plant::DataCount, "data-count", "..: a write of an odd value counts a line more"),
    planted(
        Plant::LeftBeforeHalves,
        "left-before-halves",
        "an L2 line is told clean that a half makes dirty",
    ),
    planted(Plant::LeftComing, "left-coming", "L1D tells the line that comes as the one that left"),
    planted(Plant::LeftComingL2, "left-coming-l2", "L2 tells the line that comes"),
    planted(Plant::LeftHit, "left-hit", "a hit in L1D tells an empty way"),
    planted(Plant::LeftL2Hit, "left-l2-hit", "a hit in L2 tells an empty way there"),
    planted(Plant::LeftWriteMiss, "left-write-miss", "a write miss tells an empty way of L1D"),
    planted(Plant::LeftFrozen, "left-frozen", "a frozen read miss tells the line that it spares"),
    planted(Plant::LeftPast, "left-past", "an access past the caches tells empty ways"),
    planted(Plant::LeftSilent, "left-silent", "a write that puts a line out of L2 tells none"),
    planted(Plant::LeftUpper, "left-upper", "L2 tells the address of the upper half"),
    planted(Plant::LeftAddress, "left-address", "an empty way of L1D comes with an address"),
    planted(Plant::LeftRefused, "left-refused", "a refused call tells an empty way"),
    planted(Plant::LeftCommand, "left-command", "L2 writeback all tells an empty way"),
    planted(Plant::LeftFresh, "left-fresh", "a fresh start tells an empty way"),
    planted(Plant::LeftByRecords, "left-by-records", "a dirty line is clean by the records"),
    planted(Plant::MovedClean, "moved-clean", "a clean line that leaves L2 counts as written"),
    planted(Plant::MovedCleanL1d, "moved-clean-l1d", "one that leaves L1D in mode 0 does so"),
    planted(Plant::MovedIntoL2, "moved-into-l2", "a line that goes from L1D into L2 counts"),
    planted(Plant::MovedIntoSram, "moved-into-sram", "a line that goes from L1D into SRAM counts"),
    planted(Plant::MovedFrozen, "moved-frozen", "a frozen read miss in mode 0 counts a line"),
    planted(Plant::MovedPast, "moved-past", "an access past the caches counts a word"),
    planted(Plant::MovedWrite, "moved-write", "a write that L2 fetches for counts its own bytes"),
    planted(Plant::MovedTwice, "moved-twice", "a half counts beside the line that takes it out"),
    planted(Plant::MovedRefused, "moved-refused", "a refused access counts its bytes"),
    planted(Plant::MovedCommand, "moved-command", "L2 block writeback counts a line"),
    planted(Plant::MovedBytes, "moved-bytes", "by the bytes of memory a line of L2 is half read"),
    planted(Plant::DataLeft, "data-left", "..: a read of an odd value tells a way that was empty"),
    planted(Plant::DataMoved, "data-moved", "..: a read of an odd value counts no byte"),
    planted(Plant::UnalignedDown, "unaligned-down", "a non-aligned access: its highest byte first"),
    planted(Plant::UnalignedFirst, "unaligned-first", "..: of two lines only the first is used"),
    planted(Plant::UnalignedServer, "unaligned-server", "..: the server is that of the last byte"),
    planted(
        Plant::UnalignedValue,
        "unaligned-value",
        "..: a read has its bytes the other way round",
    ),
    planted(
        Plant::UnalignedStored,
        "unaligned-stored",
        "..: a write puts them the other way round",
    ),
    planted(Plant::UnalignedUnchecked, "unaligned-unchecked", "..: its last byte is not checked"),
    planted(Plant::UnalignedMultiple, "unaligned-multiple", "..: 4 for no multiple of the size"),
    planted(Plant::UnalignedShort, "unaligned-short", "..: sizes 1 and 2 are accepted"),
    planted(Plant::UnalignedWide, "unaligned-wide", "..: a write that 6 is due for gets 5"),
    planted(Plant::UnalignedMoves, "unaligned-moves", "..: a write refused with 5 moves a byte"),
    planted(
        Plant::UnalignedCounts,
        "unaligned-counts",
        "..: the counts are those of the last byte",
    ),
    planted(Plant::UnalignedBound, "unaligned-bound", "..: counts of 256 are one more"),
    planted(Plant::UnalignedLeft, "unaligned-left", "..: it tells what its last byte put out"),
    planted(Plant::UnalignedBytes, "unaligned-bytes", "..: its single bytes have a lower server"),
    planted(Plant::FlatUnaligned, "flat-unaligned", "..: by flat memory it is aligned"),
    planted(
        Plant::FlatUnalignedWrite,
        "flat-unaligned-write",
        "..: flat memory lacks a byte of it",
    ),
    planted(Plant::HeldUnaligned, "held-unaligned", "..: in a list with drops it reads 1 more"),
    planted(Plant::DataUnaligned, "data-unaligned", "..: with data other servers, in two runs"),
    planted(
        Plant::UnalignedBehind,
        "unaligned-behind",
        "..: one of 4 bytes answers 8, in two runs",
    ),
    planted(Plant::TransferHeld, "transfer-held", "a transfer: L1D keeps the lines of SRAM, clean"),
    planted(Plant::TransferLost, "transfer-lost", "..: dirty lines of SRAM do not go home"),
    planted(Plant::TransferInside, "transfer-inside", "..: a line that reaches out of it stays"),
    planted(Plant::TransferOutHeld, "transfer-out-held", "..: one out leaves L1D as it is"),
    planted(Plant::TransferFrozen, "transfer-frozen", "..: a frozen L1D is left as it is"),
    planted(Plant::TransferUses, "transfer-uses", "..: the ways of lines that leave are used"),
    planted(Plant::TransferCount, "transfer-count", "..: lines that go home are counted on"),
    planted(
        Plant::TransferUpdates,
        "transfer-updates",
        "..: one in changes L1D's line of external memory",
    ),
    planted(Plant::TransferSnoops, "transfer-snoops", "..: one out takes L1D's bytes of it"),
    planted(Plant::TransferDrops, "transfer-drops", "..: one in to it makes L2's lines invalid"),
    planted(Plant::TransferLast, "transfer-last", "..: its last byte is not moved"),
    planted(Plant::TransferLimit, "transfer-limit", "..: one of 262,144 bytes is accepted"),
    planted(Plant::TransferOrder, "transfer-order", "..: 14 comes before 13"),
    planted(Plant::TransferAligned, "transfer-aligned", "..: 13 comes before 4"),
    planted(Plant::TransferClears, "transfer-clears", "..: a refused one out clears its buffer"),
    planted(Plant::TransferBehind, "transfer-behind", "..: one out writes behind its buffer"),
    planted(Plant::TransferBuffer, "transfer-buffer", "..: one in changes its buffer"),
    planted(Plant::TransferServer, "transfer-server", "..: it tells a server"),
    planted(Plant::TransferCounts, "transfer-counts", "..: it counts external bytes"),
    planted(Plant::TransferParts, "transfer-parts", "..: by its parts a byte is another"),
    planted(Plant::FlatTransfer, "flat-transfer", "..: flat memory lacks its last byte"),
    planted(Plant::FlatTransferOut, "flat-transfer-out", "..: by flat memory one out is zero"),
    planted(Plant::FlatTransferNumber, "flat-transfer-number", "..: flat memory says 5 for 14"),
    planted(Plant::FlatUncovered, "flat-uncovered", "..: one that is not covered joins a list"),
    planted(Plant::HeldTransfer, "held-transfer", "..: in a list with drops it writes 1 more"),
    planted(Plant::DataTransfer, "data-transfer", "..: with odd data it gets 14, in two runs"),
    planted(
        Plant::TransferNeighbour,
        "transfer-neighbour",
        "..: one out brings the word beside it, in two runs",
    ),
    planted(
        Plant::FrameUncovered,
        "frame-uncovered",
        "a frame: neither command goes over its place",
    ),
    planted(Plant::FrameNoL2, "frame-no-l2", "..: the command of L2 is left out"),
    planted(Plant::FrameOnePlace, "frame-one-place", "..: every one goes to 80000000h"),
    planted(Plant::FrameOtherPlace, "frame-other-place", "..: the two places are exchanged"),
    planted(Plant::FrameNoTransfer, "frame-no-transfer", "..: the pixels are not moved"),
    planted(Plant::FrameDown, "frame-down", "..: it is read from the last pixel to the first"),
    planted(Plant::FrameFrozen, "frame-frozen", "..: it is read into a frozen L1D"),
    planted(Plant::FrameLast, "frame-last", "..: its last pixel is not read"),
    planted(Plant::FrameRows, "frame-rows", "..: rows are added up"),
    planted(Plant::FrameNarrow, "frame-narrow", "..: sums have 8 bits"),
    planted(Plant::FrameTurn, "frame-turn", "..: a turn above 1 is taken for 1"),
    planted(Plant::FrameTurnBack, "frame-turn-back", "..: a refused one gives its turn back whole"),
    planted(Plant::FrameTurnTaken, "frame-turn-taken", "..: a refused one takes its turn"),
    planted(
        Plant::FrameTurnKept,
        "frame-turn-kept",
        "..: an accepted one leaves the turn as it was",
    ),
    planted(Plant::FrameCovers, "frame-covers", "..: one refused with 20 has made its commands"),
    planted(Plant::FrameMoves, "frame-moves", "..: one refused with 20 has moved its pixels"),
    planted(Plant::FrameAddsUp, "frame-adds-up", "..: one refused with 20 has sums"),
    planted(Plant::FrameOrder, "frame-order", "..: 20 comes before 19"),
    planted(Plant::FrameLonger, "frame-longer", "..: one with more pixels is accepted"),
    planted(Plant::FrameLeast, "frame-least", "..: 6,144 bytes of external memory get 19"),
    planted(Plant::FramePixels, "frame-pixels", "..: it changes its pixels"),
    planted(Plant::FrameCount, "frame-count", "..: dirty lines that it sends home are counted on"),
    planted(Plant::FrameByCalls, "frame-by-calls", "..: by its calls a pixel is another"),
    planted(Plant::FrameByPixels, "frame-by-pixels", "..: by its pixels a sum is another"),
    planted(Plant::FlatFrame, "flat-frame", "..: flat memory lacks its last pixel"),
    planted(Plant::FlatFrameSums, "flat-frame-sums", "..: by flat memory a sum is another"),
    planted(Plant::FlatFrameNumber, "flat-frame-number", "..: flat memory says 20 for 19"),
    planted(Plant::FlatFrameTurn, "flat-frame-turn", "..: by flat memory the turn stays"),
    planted(
        Plant::FlatFrameUnread,
        "flat-frame-unread",
        "..: it does not count as an access to its place",
    ),
    planted(Plant::DataFrame, "data-frame", "..: with odd pixels it gets 20, in two runs"),
    planted(
        Plant::FrameBeside,
        "frame-beside",
        "..: all of external memory is added up, in two runs",
    ),
    planted(Plant::L1pLooks, "l1p-looks", "a fetch: it takes what L1D holds of its line"),
    planted(Plant::L1pHitWay, "l1p-hit-way", "..: a hit tells an empty way"),
    planted(Plant::L1pHitServer, "l1p-hit-server", "..: L1P's server is L1D's"),
    planted(Plant::L1pPast, "l1p-past", "..: with MAR bit 0 it comes into L1P"),
    planted(Plant::L1pPastWay, "l1p-past-way", "..: with MAR bit 0 it tells an empty way"),
    planted(
        Plant::L1pComing,
        "l1p-coming",
        "..: it tells the line that comes as the one that left",
    ),
    planted(Plant::L1pUnfilled, "l1p-unfilled", "..: its bytes do not come into L1P"),
    planted(Plant::L1pFrozen, "l1p-frozen", "..: while L1D is frozen it fills nothing"),
    planted(Plant::L1pL2Order, "l1p-l2-order", "..: it uses no way of L2"),
    planted(
        Plant::L1pHalves,
        "l1p-halves",
        "..: halves stay in L1D without the line that it puts out of L2",
    ),
    planted(Plant::L1pIntoL1d, "l1p-into-l1d", "..: it comes into L1D as well"),
    planted(Plant::L1pCounts, "l1p-counts", "..: in mode 0 it counts 64 bytes"),
    planted(Plant::L1pValue, "l1p-value", "..: its first bytes are the value too"),
    planted(Plant::L1pOrder, "l1p-order", "..: 5 comes before 15"),
    planted(Plant::L1pAligned, "l1p-aligned", "..: 4 comes for 15"),
    planted(Plant::L1pRubbish, "l1p-rubbish", "..: a refused one has bytes"),
    planted(Plant::L1pLength, "l1p-length", "the length of L1P's buffer is not checked"),
    planted(Plant::L1pDirty, "l1p-dirty", "a dirty line of L1P is accepted"),
    planted(Plant::L1pWrites, "l1p-writes", "a write drops the line of L1P"),
    planted(Plant::L1pUpdates, "l1p-updates", "a write hit changes L1P's byte too"),
    planted(
        Plant::L1pEvicted,
        "l1p-evicted",
        "an L2 line that is put out takes its lines out of L1P",
    ),
    planted(Plant::L1pWriteback, "l1p-writeback", "L2 writebacks drop lines of L1P"),
    planted(
        Plant::L1pFirst,
        "l1p-first",
        "of the four lines inside an L2 line the first alone is dropped",
    ),
    planted(Plant::L1pInvalidate, "l1p-invalidate", "L2 block invalidate drops none"),
    planted(Plant::L1pGlobal, "l1p-global", "L2 writeback-invalidate all drops none"),
    planted(
        Plant::L1pBeside,
        "l1p-beside",
        "L2 block commands drop the block's lines that L2 does not hold",
    ),
    planted(Plant::L1pMode, "l1p-mode", "a mode change drops none"),
    planted(Plant::L1pModeBytes, "l1p-mode-bytes", "a mode change sets L1P's bytes zero"),
    planted(Plant::L1pMar, "l1p-mar", "a MAR bit becomes 0 while L1P alone holds a line"),
    planted(Plant::L1pTransfer, "l1p-transfer", "a transfer in drops the lines of L1P"),
    planted(Plant::L1pFrame, "l1p-frame", "a frame drops none"),
    planted(Plant::L1pFresh, "l1p-fresh", "a fresh start keeps L1P's lines"),
    planted(Plant::L1pFreshBytes, "l1p-fresh-bytes", "a fresh start keeps L1P's bytes"),
    planted(Plant::L1pBlock, "l1p-block", "L1P block invalidate takes 64 bytes for a line"),
    planted(Plant::L1pCleared, "l1p-cleared", "L1P invalidate all sets its bytes zero"),
    planted(Plant::L1pAllServer, "l1p-all-server", "L1P invalidate all has L1P as its server"),
    planted(
        Plant::L1pRun,
        "l1p-run",
        "a run that ends in L2 writeback-invalidate all leaves a line in L1P",
    ),
    planted(Plant::L1pByRecords, "l1p-by-records", "a line that left L1P is none by the records"),
    planted(Plant::L1pMoved, "l1p-moved", "by the bytes of memory a fetch reads 64 at most"),
    planted(Plant::FlatFetch, "flat-fetch", "by flat memory the last byte of a fetch is another"),
    planted(Plant::FlatFetchNumber, "flat-fetch-number", "flat memory says 5 for 15"),
    planted(
        Plant::FlatWritten,
        "flat-written",
        "bytes that were written are set against flat memory too",
    ),
    planted(Plant::FlatUnfetched, "flat-unfetched", "a fetch is no access for external transfers"),
    planted(
        Plant::DataFetch,
        "data-fetch",
        "a fetch: with an odd byte it has another server, in two runs",
    ),
    planted(Plant::FetchBeside, "fetch-beside", "..: it brings the line beside it, in two runs"),
    planted(Plant::BenchOutput, "bench-output", "bench-trace prints a line more after an 8"),
    planted(Plant::BenchStatus, "bench-status", "bench-trace fails after a 7"),
];

static CHOSEN: OnceLock<Plant> = OnceLock::new();

/// The planted difference of this name.
pub fn find(name: &str) -> Result<&'static Planted, String> {
    let found = PLANTS.iter().find(|planted| planted.name == name);
    found.ok_or(format!("there is no planted difference '{name}'"))
}

/// From here on this difference is planted.
pub fn choose(planted: &Planted) {
    CHOSEN.set(planted.plant).expect("one difference is planted at most");
}

/// Makes a byte one more, if there is one: two changes are no way back.
fn change(byte: Option<&mut u8>) {
    if let Some(byte) = byte {
        *byte = byte.wrapping_add(1);
    }
}

/// Whether this is a global L2 writeback.
fn is_global(command: &Command) -> bool {
    matches!(command, Command::L2WritebackAll | Command::L2WritebackInvalidateAll)
}

/// Makes the first line that L2 holds dirty.
fn make_dirty(record: &mut CRecord) {
    let mut lines = record.l2.iter_mut().flat_map(|set| &mut set.lines);
    if let Some(line) = lines.find(|line| line.valid == 1) {
        line.dirty = 1;
    }
}

/// L2 and external memory before a call.
pub struct Before {
    l2: Vec<u8>,
    ext: Vec<u8>,
}

/// What a difference needs that puts bytes back.
pub fn before(command: &Command, l2: &[u8], ext: &[u8]) -> Option<Before> {
    let wanted = match CHOSEN.get()? {
        Plant::SramLeftDirty | Plant::ModeZeroSkips => is_global(command),
        Plant::BlockDropsSram => is_l2_block(command),
        _ => false,
    };
    wanted.then(|| Before { l2: l2.to_vec(), ext: ext.to_vec() })
}

/// Whether this is a block command of L2.
fn is_l2_block(command: &Command) -> bool {
    matches!(
        command,
        Command::L2BlockWriteback { .. }
            | Command::L2BlockWritebackInvalidate { .. }
            | Command::L2BlockInvalidate { .. }
    )
}

/// The lines of SRAM that an L2 command took out of L1D, by set and way.
fn sram_lines_taken(passed: &CRecord, record: &CRecord) -> Vec<(usize, usize, CLine)> {
    let mut taken = Vec::new();
    for (set, (held, now)) in passed.l1d.iter().zip(&record.l1d).enumerate() {
        for (way, line) in held.lines.iter().enumerate() {
            if line.valid == 1 && line.address < EXTERNAL_BASE && now.lines[way].valid == 0 {
                taken.push((set, way, *line));
            }
        }
    }
    taken
}

/// The bytes of a line of SRAM.
fn sram_bytes(line: &CLine) -> Range<usize> {
    let from = line.address as usize;
    from..from + L1d::LINE as usize
}

/// What an L2 command has left in L1D and in the memories after it was accepted:
/// mistakes in reaching the lines of L1D.
fn reached(
    plant: Plant,
    command: &Command,
    record: &mut CRecord,
    passed: &CRecord,
    lent: Lent,
    before: Option<Before>,
) {
    let taken = sram_lines_taken(passed, record);
    let dirty = taken.iter().filter(|(_, _, line)| line.dirty == 1);
    match (plant, before) {
        (Plant::SramLeftDirty, Some(before)) => {
            for (set, way, line) in dirty {
                record.l1d[*set].lines[*way] = *line;
                lent.l2[sram_bytes(line)].copy_from_slice(&before.l2[sram_bytes(line)]);
            }
        }
        (Plant::ModeZeroSkips, Some(before)) if record.mode == 0 => {
            record.l1d = passed.l1d;
            lent.l2.copy_from_slice(&before.l2);
            lent.ext.copy_from_slice(&before.ext);
        }
        (Plant::BlockDropsSram, Some(before)) => {
            for (_, _, line) in dirty {
                lent.l2[sram_bytes(line)].copy_from_slice(&before.l2[sram_bytes(line)]);
            }
        }
        (Plant::EmptiedOrder, _) if is_global(command) => {
            for (held, now) in passed.l1d.iter().zip(&mut record.l1d) {
                if held.lines.iter().any(|line| line.valid == 1) {
                    now.order = [1, 0];
                }
            }
        }
        (Plant::BlockTakesBoth, _) if is_l2_block(command) => {
            for (_, _, line) in &taken {
                let other = line.address ^ L1d::LINE;
                let mut ways = record.l1d[L1d::set_of(other)].lines.iter_mut();
                if let Some(half) = ways.find(|way| way.valid == 1 && way.address == other) {
                    (half.valid, half.dirty, half.address) = (0, 0, 0);
                }
            }
        }
        (Plant::InvalidateWrites, _) if matches!(command, Command::L2BlockInvalidate { .. }) => {
            for (set, way, line) in dirty {
                let from = L1d::offset(*set, *way);
                let bytes = &lent.l1d[from..from + L1d::LINE as usize];
                lent.l2[sram_bytes(line)].copy_from_slice(bytes);
            }
        }
        _ => {}
    }
}

/// Uses the way of an L1D set that holds this line, if one does.
fn use_way(record: &mut CRecord, line: u32) {
    let set = &mut record.l1d[L1d::set_of(line)];
    if let Some(way) = set.lines.iter().position(|held| held.valid == 1 && held.address == line) {
        set.order = [way as u8, 1 - way as u8];
    }
}

/// What an access has left in a frozen L1D, and in L2, after it was accepted: mistakes
/// in what is frozen and what is not.
fn accessed_frozen(
    plant: Plant,
    command: &Command,
    called: &mut CAnswer,
    record: &mut CRecord,
    passed: &CRecord,
    ext: &[u8],
) {
    let (size, address, is_read) = match *command {
        Command::Read { size, address } => (size, address, true),
        Command::Write { size, address, .. } => (size, address, false),
        _ => return,
    };
    let mar = if address < EXTERNAL_BASE + RANGE_BYTES { passed.mar128 } else { passed.mar129 };
    if address >= EXTERNAL_BASE && mar == 0 {
        return;
    }
    let (line, set) = (L1d::line_address(address), L1d::set_of(address));
    let hit = called.server == SERVER_L1D;
    let held = &passed.l1d[set].lines;
    let free = held.iter().position(|line| line.valid == 0);
    let way = free.unwrap_or(usize::from(passed.l1d[set].order[1]));
    let l2_set = L2::set_of(passed.mode.into(), address).filter(|_| address >= EXTERNAL_BASE);
    match plant {
        Plant::FrozenOrder if hit && is_read => use_way(record, line),
        Plant::FrozenWriteOrder if hit && !is_read => use_way(record, line),
        Plant::FrozenClean if hit && !is_read => {
            for (now, was) in record.l1d[set].lines.iter_mut().zip(held) {
                now.dirty = was.dirty;
            }
        }
        Plant::FrozenFill if !hit && is_read => {
            let filled = &mut record.l1d[set].lines[way];
            (filled.valid, filled.dirty, filled.address) = (1, 0, line);
            use_way(record, line);
        }
        Plant::FrozenEmpties if !hit && is_read => {
            let emptied = &mut record.l1d[set].lines[way];
            (emptied.valid, emptied.dirty, emptied.address) = (0, 0, 0);
        }
        Plant::FrozenL2Order if !hit && is_read => {
            if let Some(set) = l2_set {
                record.l2[set].order = passed.l2[set].order;
            }
        }
        Plant::FrozenHalves if !hit && is_read => record.l1d = passed.l1d,
        Plant::FrozenBehind if called.server == SERVER_L2 && is_read => {
            called.value = load(ext, external_offset(address), size);
        }
        _ => {}
    }
}

/// The counts after an accepted call: mistakes in keeping them.
fn counted(plant: Plant, command: &Command, server: u8, record: &mut CRecord, passed: &CRecord) {
    let read = matches!(command, Command::Read { .. });
    let write = matches!(command, Command::Write { .. });
    let same = (record.dirty_l1d, record.dirty_l2) == (passed.dirty_l1d, passed.dirty_l2);
    let (l1d, l2) = (record.dirty_l1d, record.dirty_l2);
    match (plant, command) {
        (Plant::CountVictim, _) if read => record.dirty_l1d = l1d.max(passed.dirty_l1d),
        (Plant::CountIntoL2, _) if !write => record.dirty_l2 = l2.min(passed.dirty_l2),
        (Plant::CountAgain, _) if write && same && server == SERVER_L1D => record.dirty_l1d += 1,
        (Plant::CountAgainL2, _) if write && same && server == SERVER_L2 => record.dirty_l2 += 1,
        (Plant::CountWriteback, Command::L1dBlockWritebackInvalidate { .. })
        | (Plant::CountDropped, Command::L1dBlockInvalidate { .. } | Command::L1dInvalidateAll)
        | (Plant::CountHalves, Command::L2BlockInvalidate { .. }) => {
            record.dirty_l1d = passed.dirty_l1d;
        }
        (Plant::CountGlobal, _) if is_global(command) => record.dirty_l2 = passed.dirty_l2,
        (Plant::CountMode, Command::Mode { .. }) => record.dirty_l2 = passed.dirty_l2,
        _ => {}
    }
}

/// What a call reports: mistakes in telling which line was put out, and in counting bytes.
fn reported(plant: Plant, command: &Command, called: &mut CAnswer, passed: &CRecord) {
    let (size, address, write) = match *command {
        Command::Read { size, address } => (size, address, false),
        Command::Write { size, address, .. } => (size, address, true),
        _ => {
            match (plant, command, called.number) {
                (Plant::LeftCommand, Command::L2WritebackAll, 0) => called.l2_left = CLeft::EMPTY,
                (Plant::MovedCommand, Command::L2BlockWriteback { .. }, 0) => {
                    called.external_written = L2::LINE;
                }
                (Plant::LeftRefused, _, 1..) => called.l1d_left = CLeft::EMPTY,
                _ => {}
            }
            return;
        }
    };
    if called.number != 0 {
        match plant {
            Plant::LeftRefused => called.l1d_left = CLeft::EMPTY,
            Plant::MovedRefused => called.external_read = size.min(8),
            _ => {}
        }
        return;
    }
    let mar = if address < EXTERNAL_BASE + RANGE_BYTES { passed.mar128 } else { passed.mar129 };
    let past = address >= EXTERNAL_BASE && mar == 0;
    let frozen = passed.frozen == 1;
    let miss = called.server != SERVER_L1D && !past;
    let (l1d, l2) = (called.l1d_left, called.l2_left);
    let to_sram = l1d.address < EXTERNAL_BASE;
    // Beside a line that is written out there would be more than 128 bytes.
    let out = called.external_written > 0;
    match plant {
        Plant::LeftBeforeHalves if l2.kind == 3 => {
            let set = L2::set_of(passed.mode.into(), address);
            let mut ways = set.into_iter().flat_map(|set| &passed.l2[set].lines);
            if ways.any(|line| line.valid == 1 && line.address == l2.address && line.dirty == 0) {
                called.l2_left = CLeft::clean(l2.address);
            }
        }
        Plant::LeftComing if l1d.is_line() => {
            called.l1d_left.address = L1d::line_address(address);
        }
        Plant::LeftComingL2 if l2.is_line() => {
            called.l2_left.address = L2::line_address(address);
        }
        Plant::LeftHit if called.server == SERVER_L1D => called.l1d_left = CLeft::EMPTY,
        Plant::LeftL2Hit if called.server == SERVER_L2 => called.l2_left = CLeft::EMPTY,
        Plant::LeftWriteMiss if write && miss => called.l1d_left = CLeft::EMPTY,
        Plant::LeftFrozen if !write && miss && frozen => {
            let set = &passed.l1d[L1d::set_of(address)];
            let last = set.lines[usize::from(set.order[1])];
            if set.lines.iter().all(|line| line.valid == 1) {
                called.l1d_left = CLeft { address: last.address, kind: 2 + last.dirty };
            }
        }
        Plant::LeftPast if past => {
            (called.l1d_left, called.l2_left) = (CLeft::EMPTY, CLeft::EMPTY);
        }
        Plant::LeftSilent if write && l2.is_line() => called.l2_left = CLeft::NONE,
        Plant::LeftUpper if l2.is_line() => called.l2_left.address += L1d::LINE,
        Plant::LeftAddress if l1d.kind == 1 => {
            called.l1d_left.address = L1d::line_address(address);
        }
        Plant::MovedClean if l2.kind == 2 => called.external_written += L2::LINE,
        Plant::MovedCleanL1d if l1d.kind == 2 && passed.mode == 0 => {
            called.external_written += L1d::LINE;
        }
        Plant::MovedIntoL2 if l1d.kind == 3 && !to_sram && passed.mode != 0 && !out => {
            called.external_written = L1d::LINE;
        }
        Plant::MovedIntoSram if l1d.kind == 3 && to_sram && !out => {
            called.external_written = L1d::LINE;
        }
        Plant::MovedFrozen if frozen && !past && !write && called.external_read == size => {
            called.external_read = L1d::LINE;
        }
        Plant::MovedPast if past => {
            called.external_read = called.external_read.min(1) * 4;
            called.external_written = called.external_written.min(1) * 4;
        }
        Plant::MovedWrite if write && called.external_read == L2::LINE && !out => {
            called.external_written = size;
        }
        Plant::MovedTwice if l1d.kind == 3 && l2.kind == 3 => called.external_written += L1d::LINE,
        _ => {}
    }
}

/// What the records before and after a call tell of the ways that it chose.
pub fn left_by_records(told: &mut (CLeft, CLeft)) {
    if CHOSEN.get() == Some(&Plant::LeftByRecords) {
        for left in [&mut told.0, &mut told.1] {
            left.kind = left.kind.min(2);
        }
    }
}

/// How many bytes were read and written, by the bytes of the memories.
pub fn moved(bytes: &mut (u32, u32)) {
    if CHOSEN.get() == Some(&Plant::MovedBytes) {
        bytes.0 = bytes.0.min(L1d::LINE);
    }
}

/// Whether a mistaken test of the counts takes them for right.
fn untested(plant: Plant, passed: &CRecord) -> bool {
    let (l1d, l2) = dirty_marks(passed);
    let (l1d_right, l2_right) = (passed.dirty_l1d == l1d, passed.dirty_l2 == l2);
    let sum = passed.dirty_l1d.wrapping_add(passed.dirty_l2);
    match plant {
        Plant::CountL1dUntested => !l1d_right && l2_right,
        Plant::CountL2Untested => l1d_right && !l2_right,
        Plant::CountsAdded => !l1d_right && sum == l1d + l2,
        _ => false,
    }
}

/// Whether both counts of a record are those of its lines.
fn counts_are_right(record: &CRecord) -> bool {
    (record.dirty_l1d, record.dirty_l2) == dirty_marks(record)
}

/// Counts that were right follow a mistake in the marks: it has to be found by itself.
fn counts_follow(record: &mut CRecord, right: bool) {
    if right {
        (record.dirty_l1d, record.dirty_l2) = dirty_marks(record);
    }
}

/// What a direct call gave back, and the record and the memories after it.
pub fn direct(
    command: &Command,
    called: &mut CAnswer,
    record: &mut CRecord,
    passed: &CRecord,
    lent: Lent,
    before: Option<Before>,
) {
    let Some(plant) = CHOSEN.get() else { return };
    let (accepted, server) = (called.number == 0, called.server);
    let right = counts_are_right(record);
    let mut lent = lent;
    beside_l1p(*plant, command, called, record, passed, &mut lent);
    marked(*plant, command, called, record, passed, lent, before);
    reported(*plant, command, called, passed);
    counts_follow(record, right);
    if accepted {
        counted(*plant, command, server, record, passed);
    } else if called.number == 2 && untested(*plant, passed) {
        called.number = 0;
    }
}

/// The same, but for mistakes in the counts.
fn marked(
    plant: Plant,
    command: &Command,
    called: &mut CAnswer,
    record: &mut CRecord,
    passed: &CRecord,
    lent: Lent,
    before: Option<Before>,
) {
    let accepted = called.number == 0;
    if accepted && (is_global(command) || is_l2_block(command)) {
        let lent = Lent {
            l1d: &mut *lent.l1d,
            l2: &mut *lent.l2,
            ext: &mut *lent.ext,
            l1p: &mut *lent.l1p,
        };
        reached(plant, command, record, passed, lent, before);
    }
    if accepted && passed.frozen == 1 {
        accessed_frozen(plant, command, called, record, passed, lent.ext);
    }
    match (plant, *command) {
        (Plant::FreezeLost, Command::Freeze { .. }) if accepted => record.frozen = 0,
        (Plant::FreezeNumber, Command::Freeze { .. }) if called.number == 17 => called.number = 9,
        (Plant::FrozenByte, _) if called.number == 2 && passed.frozen > 1 => called.number = 0,
        (Plant::ModeThaws, Command::Mode { .. }) if accepted => record.frozen = 0,
        (Plant::ReadValue, Command::Read { size: 4, .. }) if called.server == SERVER_L2 => {
            called.value += 1;
        }
        (Plant::ReadOrder, Command::Read { address, .. }) if called.server == SERVER_L1D => {
            record.l1d[L1d::set_of(address)].order.swap(0, 1);
        }
        (Plant::WriteNumber, Command::Write { .. }) if called.number == 6 => called.number = 5,
        (Plant::NoBool, _) => {
            for line in record.l1d.iter_mut().flat_map(|set| &mut set.lines) {
                line.valid = line.valid.min(1);
            }
        }
        (Plant::L1dByte, Command::L1dInvalidateAll) if accepted => change(lent.l1d.last_mut()),
        (Plant::L2Byte, _) if called.number == 9 => change(lent.l2.first_mut()),
        (Plant::ExternalByte, Command::L2BlockWriteback { .. }) if accepted => {
            change(lent.ext.first_mut());
        }
        // Of a long memory this byte is not compared after every call.
        (Plant::ExternalFar, Command::Write { .. }) if called.server == SERVER_L1D => {
            change(lent.ext.get_mut(SMALL));
        }
        (Plant::Panic, Command::Mode { mode: 2 }) if accepted => panic!("planted"),
        (Plant::RefusedPadding, _) if called.number == 4 => change(Some(record.some_padding())),
        (Plant::PaddingSeen, _) if accepted && *passed.clone().some_padding() != 0 => {
            *record = *passed;
            *called = CAnswer::refused(2);
        }
        (Plant::WritebackDirty, _) if accepted && is_global(command) => make_dirty(record),
        (Plant::ShortRunByte, Command::Write { size: 1, address: 0x8000_2000, value: 2 })
            if called.server == SERVER_L2 =>
        {
            change(lent.ext.get_mut(0x2000));
        }
        _ => {}
    }
}

/// The four lines of L1P inside one of L2.
fn inside(l2_line: u32) -> impl Iterator<Item = u32> {
    (0..L2::LINE).step_by(L1p::LINE as usize).map(move |place| l2_line + place)
}

/// Empties the way of L1P that holds this line, if one does.
fn drop_l1p(record: &mut CRecord, line: u32) {
    if l1p_holds(record, line) {
        let held = &mut record.l1p[L1p::set_of(line)].lines[0];
        (held.valid, held.dirty, held.address) = (0, 0, 0);
    }
}

/// Puts a line of L1P back that the record had before.
fn keep_l1p(record: &mut CRecord, passed: &CRecord, line: u32) {
    if l1p_holds(passed, line) {
        record.l1p[L1p::set_of(line)] = passed.l1p[L1p::set_of(line)];
    }
}

/// Whether a call was refused by the length of L1P's buffer alone.
fn by_l1p_length(number: u8, passed: &CRecord, lent: &Lent) -> bool {
    let others = lent.l1d.len() == L1D_BYTES
        && lent.l2.len() == passed.l2len as usize
        && lent.ext.len() == passed.extlen as usize;
    number == 1 && others && lent.l1p.len() != L1P_BYTES
}

/// Whether a record is refused for dirty lines of L1P alone, as far as can be seen at them.
fn dirty_in_l1p(number: u8, passed: &CRecord) -> bool {
    let mut lines = passed.l1p.iter().map(|set| &set.lines[0]);
    number == 2 && lines.any(|line| (line.valid, line.dirty) == (1, 1))
}

/// The base and end of an L2 block command.
fn block_of(command: &Command) -> Option<Range<u32>> {
    match *command {
        Command::L2BlockWriteback { base, count }
        | Command::L2BlockWritebackInvalidate { base, count }
        | Command::L2BlockInvalidate { base, count } => {
            Some(base..base.saturating_add(count.saturating_mul(4)))
        }
        _ => None,
    }
}

/// What commands and data accesses have left in L1P (02, U4): mistakes in what reaches it.
fn beside_l1p(
    plant: Plant,
    command: &Command,
    called: &mut CAnswer,
    record: &mut CRecord,
    passed: &CRecord,
    lent: &mut Lent,
) {
    if plant == Plant::L1pLength && by_l1p_length(called.number, passed, lent)
        || plant == Plant::L1pDirty && dirty_in_l1p(called.number, passed)
    {
        called.number = 0;
    }
    if let (Plant::L1pMar, Command::Mar { number, .. }, 10) = (plant, command, called.number) {
        let l1d = passed.l1d.iter().flat_map(|set| &set.lines);
        let mut others = l1d.chain(passed.l2.iter().flat_map(|set| &set.lines));
        if !others.any(|line| line.valid == 1 && line.address >> 24 == *number) {
            *(if *number == 128 { &mut record.mar128 } else { &mut record.mar129 }) = 0;
            called.number = 0;
        }
    }
    if called.number != 0 {
        return;
    }
    let l2_lines: Vec<u32> = passed
        .l2
        .iter()
        .flat_map(|set| &set.lines)
        .filter(|line| line.valid == 1)
        .map(|line| line.address)
        .collect();
    let global_drop = matches!(command, Command::L2WritebackInvalidateAll);
    match (plant, *command) {
        (Plant::L1pWrites, Command::Write { address, .. }) => drop_l1p(record, address),
        (Plant::L1pUpdates, Command::Write { address, .. }) if called.server == SERVER_L1D => {
            if l1p_holds(record, address) {
                let at = L1p::offset(L1p::set_of(address)) + (address % L1p::LINE) as usize;
                change(lent.l1p.get_mut(at));
            }
        }
        (Plant::L1pEvicted, Command::Read { .. } | Command::Write { .. })
            if called.l2_left.is_line() =>
        {
            inside(called.l2_left.address).for_each(|line| drop_l1p(record, line));
        }
        (Plant::L1pWriteback, Command::L2WritebackAll) => {
            l2_lines.into_iter().flat_map(inside).for_each(|line| drop_l1p(record, line));
        }
        (Plant::L1pWriteback, Command::L2BlockWriteback { .. }) => {
            let block = block_of(command).unwrap_or_default();
            let touched = l2_lines.into_iter().filter(|line| block.contains(line));
            touched.flat_map(inside).for_each(|line| drop_l1p(record, line));
        }
        (Plant::L1pFirst, _) if is_global(command) || is_l2_block(command) => {
            let behind = |line: u32| inside(line).skip(1);
            l2_lines.into_iter().flat_map(behind).for_each(|line| keep_l1p(record, passed, line));
        }
        (Plant::L1pInvalidate, Command::L2BlockInvalidate { .. }) => record.l1p = passed.l1p,
        (Plant::L1pGlobal, _) if global_drop => record.l1p = passed.l1p,
        (Plant::L1pBeside, Command::L2BlockWritebackInvalidate { .. })
        | (Plant::L1pBeside, Command::L2BlockInvalidate { .. }) => {
            let block = block_of(command).unwrap_or_default();
            let lines: Vec<u32> = passed.l1p.iter().map(|set| set.lines[0].address).collect();
            let lines = lines.into_iter().filter(|line| block.contains(line));
            lines.filter(|&line| !l2_holds(passed, line)).for_each(|line| drop_l1p(record, line));
        }
        // SRAM that is gone in the new mode would make the record ill formed.
        (Plant::L1pMode, Command::Mode { .. }) => {
            let sram = sram_size(record.l2len, record.mode.into());
            let lines: Vec<CLine> = passed.l1p.iter().map(|set| set.lines[0]).collect();
            for line in lines.iter().filter(|line| line.valid == 1) {
                if line.address < sram || line.address >= EXTERNAL_BASE {
                    keep_l1p(record, passed, line.address);
                }
            }
        }
        (Plant::L1pModeBytes, Command::Mode { .. }) => lent.l1p.fill(0),
        _ => {}
    }
}

/// What a fetch or an invalidation of L1P gave back, and the record and the memories after it.
/// `before` is our side as it was, where the difference wants it.
pub fn program(
    call: &Program,
    called: &mut CFetched,
    record: &mut CRecord,
    passed: &CRecord,
    lent: Lent,
    before: Option<&Ours>,
) {
    let Some(plant) = CHOSEN.get() else { return };
    let number = called.answer.number;
    let refused = match *plant {
        Plant::L1pLength => by_l1p_length(number, passed, &lent),
        Plant::L1pDirty => dirty_in_l1p(number, passed),
        _ => false,
    };
    if refused {
        called.answer.number = 0;
    }
    match (*plant, *call) {
        (Plant::L1pBlock, Program::InvalidateBlock { .. }) if number == 0 => {
            let lines = passed.l1p.iter().map(|set| set.lines[0]).filter(|line| line.valid == 1);
            let gone = lines.filter(|line| !l1p_holds(record, line.address));
            let beside: Vec<u32> = gone.map(|line| line.address ^ L1p::LINE).collect();
            beside.into_iter().for_each(|line| drop_l1p(record, line));
        }
        (Plant::L1pCleared, Program::InvalidateAll) if number == 0 => lent.l1p.fill(0),
        (Plant::L1pAllServer, Program::InvalidateAll) if number == 0 => {
            called.answer.server = SERVER_L1P;
        }
        (_, Program::Fetch { address }) if number == 0 => {
            fetched(*plant, address, called, record, passed, lent, before);
        }
        (_, Program::Fetch { address }) => refused_fetch(*plant, address, called, passed),
        _ => {}
    }
}

/// A fetch that was refused.
fn refused_fetch(plant: Plant, address: u32, called: &mut CFetched, passed: &CRecord) {
    let sram = sram_size(passed.l2len, passed.mode.into());
    let end = EXTERNAL_BASE.saturating_add(passed.extlen);
    let outside = address >= sram && !(EXTERNAL_BASE..end).contains(&address);
    let number = &mut called.answer.number;
    match plant {
        Plant::L1pOrder if *number == 15 && outside => *number = 5,
        Plant::L1pAligned if *number == 15 => *number = 4,
        Plant::L1pRubbish if *number == 5 => called.bytes[FETCHED_BYTES - 1] = 0xB7,
        _ => {}
    }
}

/// A fetch that was accepted.
fn fetched(
    plant: Plant,
    address: u32,
    called: &mut CFetched,
    record: &mut CRecord,
    passed: &CRecord,
    lent: Lent,
    before: Option<&Ours>,
) {
    let hit = called.answer.server == SERVER_L1P;
    let chose = called.l1p_left.kind != 0;
    let set = L1p::set_of(address);
    let l1d_set = L1d::set_of(address);
    let l1d_line = L1d::line_address(address);
    let at = |line: &CLine| line.valid == 1 && line.address == l1d_line;
    match plant {
        Plant::L1pLooks if chose => {
            // An L2 line that left may have taken it out by now.
            if let Some(way) = record.l1d[l1d_set].lines.iter().position(at) {
                let from = L1d::offset(l1d_set, way) + (address - l1d_line) as usize;
                called.bytes.copy_from_slice(&lent.l1d[from..from + FETCHED_BYTES]);
                let to = L1p::offset(set);
                lent.l1p[to..to + FETCHED_BYTES].copy_from_slice(&called.bytes);
            }
        }
        Plant::L1pHitWay if hit => called.l1p_left = CLeft::EMPTY,
        Plant::L1pHitServer if hit => called.answer.server = SERVER_L1D,
        Plant::L1pPast if !hit && !chose => {
            let line = &mut record.l1p[set].lines[0];
            (line.valid, line.dirty, line.address) = (1, 0, address);
        }
        Plant::L1pPastWay if !hit && !chose => called.l1p_left = CLeft::EMPTY,
        Plant::L1pComing if called.l1p_left.is_line() => called.l1p_left.address = address,
        Plant::L1pUnfilled if chose => {
            if let Some(before) = before {
                lent.l1p.copy_from_slice(&before.l1p);
            }
        }
        Plant::L1pFrozen if passed.frozen == 1 && chose => {
            record.l1p[set] = passed.l1p[set];
            called.l1p_left = CLeft::NONE;
        }
        Plant::L1pL2Order if chose && address >= EXTERNAL_BASE => {
            if let Some(set) = L2::set_of(passed.mode.into(), address) {
                record.l2[set].order = passed.l2[set].order;
            }
        }
        Plant::L1pHalves if called.answer.l2_left.is_line() => {
            record.l1d = passed.l1d;
            (record.dirty_l1d, record.dirty_l2) = dirty_marks(record);
        }
        Plant::L1pIntoL1d if chose => {
            let lines = &mut record.l1d[l1d_set].lines;
            let free = lines.iter().position(|line| line.valid == 0);
            if let (false, Some(way)) = (lines.iter().any(at), free) {
                let line = &mut lines[way];
                (line.valid, line.dirty, line.address) = (1, 0, l1d_line);
            }
        }
        Plant::L1pCounts if chose && called.answer.external_read == L1p::LINE => {
            called.answer.external_read = L1d::LINE;
        }
        Plant::L1pValue => called.answer.value = load(&called.bytes, 0, 8),
        Plant::L1pEvicted if called.answer.l2_left.is_line() => {
            inside(called.answer.l2_left.address)
                .filter(|&line| line != address)
                .for_each(|line| drop_l1p(record, line));
        }
        _ => {}
    }
}

/// What the records tell of a fetch's way of L1P.
pub fn fetched_by_records(told: &mut CLeft) {
    if CHOSEN.get() == Some(&Plant::L1pByRecords) && told.is_line() {
        *told = CLeft::EMPTY;
    }
}

/// What the bytes of memory tell of a fetch.
pub fn moved_fetch(bytes: &mut (u32, u32)) {
    if CHOSEN.get() == Some(&Plant::L1pMoved) {
        bytes.0 = bytes.0.min(L1d::LINE);
    }
}

/// What flat memory says of a fetch.
pub fn fetch_flat(number: &mut u8, bytes: &mut [u8; FETCHED_BYTES]) {
    match CHOSEN.get() {
        Some(Plant::FlatFetch) if *number == 0 => change(bytes.last_mut()),
        Some(Plant::FlatFetchNumber) if *number == 15 => *number = 5,
        _ => {}
    }
}

/// Whether a byte counts as written.
pub fn was_written(written: bool) -> bool {
    written && CHOSEN.get() != Some(&Plant::FlatWritten)
}

/// Whether a fetch does not count as an access for external transfers.
pub fn unfetched() -> bool {
    CHOSEN.get() == Some(&Plant::FlatUnfetched)
}

/// What a fetch of one of two runs gave back.
pub fn steered_fetch(call: &Program, called: &mut CFetched, ext: &[u8]) {
    let Program::Fetch { address } = *call else { return };
    if called.answer.number != 0 {
        return;
    }
    match CHOSEN.get() {
        Some(Plant::DataFetch) if called.bytes[0] % 2 == 1 => called.answer.server ^= 1,
        Some(Plant::FetchBeside) if address >= EXTERNAL_BASE => {
            let from = external_offset(address) + FETCHED_BYTES;
            if let Some(line) = ext.get(from..from + FETCHED_BYTES) {
                called.bytes.copy_from_slice(line);
            }
        }
        _ => {}
    }
}

/// Whether this difference needs our side as it was before a non-aligned access, a transfer, a
/// frame or a fetch.
pub fn wants_copy() -> bool {
    matches!(
        CHOSEN.get(),
        Some(
            Plant::UnalignedDown
                | Plant::UnalignedServer
                | Plant::UnalignedStored
                | Plant::UnalignedCounts
                | Plant::UnalignedLeft
                | Plant::TransferLost
                | Plant::TransferLast
                | Plant::FrameUncovered
                | Plant::FrameNoL2
                | Plant::FrameOnePlace
                | Plant::FrameOtherPlace
                | Plant::FrameNoTransfer
                | Plant::FrameDown
                | Plant::FrameFrozen
                | Plant::FrameTurn
                | Plant::L1pUnfilled
        )
    )
}

/// The same value with the bytes of this size the other way round.
fn turned(size: u32, value: u64) -> u64 {
    value.swap_bytes() >> (64 - 8 * size)
}

/// Where the byte at an address stands, in SRAM or in external memory itself.
fn home_byte<'a>(passed: &CRecord, lent: &'a mut Lent, address: u32) -> Option<&'a mut u8> {
    match address.checked_sub(EXTERNAL_BASE) {
        Some(offset) => lent.ext.get_mut(offset as usize),
        None if address < sram_size(passed.l2len, passed.mode.into()) => {
            lent.l2.get_mut(address as usize)
        }
        None => None,
    }
}

/// What a non-aligned access gave back, and the record and the memories after it: mistakes in
/// making one access of many.
pub fn unaligned(
    access: &Unaligned,
    called: &mut CAnswer,
    record: &mut CRecord,
    passed: &CRecord,
    mut lent: Lent,
    before: Option<Ours>,
) {
    let Some(plant) = CHOSEN.get() else { return };
    let (size, address, is_write) = (access.size(), access.address(), access.is_write());
    let accepted = called.number == 0;
    match plant {
        Plant::UnalignedMultiple if accepted && address % size != 0 => {
            *record = *passed;
            *called = CAnswer::refused(4);
        }
        Plant::UnalignedShort if called.number == 3 && matches!(size, 1 | 2) => called.number = 0,
        Plant::UnalignedWide if called.number == 6 => called.number = 5,
        Plant::UnalignedUnchecked if called.number == 5 => {
            let mut there = |byte| {
                let at = address.checked_add(byte);
                at.is_some_and(|at| home_byte(passed, &mut lent, at).is_some())
            };
            if (0..size - 1).all(&mut there) {
                called.number = 0;
            }
        }
        Plant::UnalignedMoves if called.number == 5 && is_write => {
            change(home_byte(passed, &mut lent, address));
        }
        Plant::UnalignedValue if accepted => called.value = turned(size, called.value),
        Plant::UnalignedFirst if accepted && passed.frozen == 0 => {
            let (first, last) = (L1d::set_of(address), L1d::set_of(address + size - 1));
            if first != last {
                record.l1d[last].order = passed.l1d[last].order;
            }
        }
        Plant::UnalignedBound if accepted => {
            for count in [&mut called.external_read, &mut called.external_written] {
                *count += u32::from(*count == 256);
            }
        }
        _ if accepted => {
            if let Some(before) = before {
                unaligned_bytes(*plant, access, called, record, lent, before);
            }
        }
        _ => {}
    }
}

/// The same, by the single bytes of an access that was accepted, made from what stood there
/// before.
fn unaligned_bytes(
    plant: Plant,
    access: &Unaligned,
    called: &mut CAnswer,
    record: &mut CRecord,
    lent: Lent,
    mut before: Ours,
) {
    let access = match (plant, *access) {
        (Plant::UnalignedStored, Unaligned::Write { size, address, value }) => {
            Unaligned::Write { size, address, value: turned(size, value) }
        }
        (_, access) => access,
    };
    let (copy, copied) = before.lent();
    let bytes = boundary::by_bytes(copy, &access, copied, plant == Plant::UnalignedDown);
    let Some(last) = bytes.last() else { return };
    match plant {
        Plant::UnalignedServer => called.server = last.server,
        Plant::UnalignedCounts => {
            called.external_read = last.external_read;
            called.external_written = last.external_written;
        }
        Plant::UnalignedLeft => {
            let put_out = |left: &CLeft| left.is_line();
            let l1d = bytes.iter().map(|byte| byte.l1d_left).rfind(put_out);
            let l2 = bytes.iter().map(|byte| byte.l2_left).rfind(put_out);
            called.l1d_left = l1d.unwrap_or(CLeft::NONE);
            called.l2_left = l2.unwrap_or(CLeft::NONE);
        }
        Plant::UnalignedDown | Plant::UnalignedStored => {
            *record = **before.record;
            lent.l1d.copy_from_slice(&before.l1d);
            lent.l2.copy_from_slice(&before.l2);
            lent.ext.copy_from_slice(&before.ext);
        }
        _ => {}
    }
}

/// What the single bytes of a non-aligned access answer together.
pub fn summed(told: &mut CAnswer) {
    if CHOSEN.get() == Some(&Plant::UnalignedBytes) && told.server == SERVER_L2 {
        told.server -= 1;
    }
}

/// What flat memory says of a non-aligned access.
pub fn unaligned_flat(access: &Unaligned, flat: &mut Flat, number: &mut u8, value: &mut u64) {
    match (CHOSEN.get(), *access) {
        (Some(Plant::FlatUnaligned), Unaligned::Read { size, address }) if *number == 0 => {
            let address = address - address % size;
            (*number, *value) = flat.apply_unaligned(&Unaligned::Read { size, address });
        }
        (Some(Plant::FlatUnalignedWrite), Unaligned::Write { size, address, .. })
            if *number == 0 =>
        {
            let last = address + size - 1;
            let (_, byte) = flat.read(1, last);
            flat.write(1, last, (byte + 1) & 0xFF);
        }
        _ => {}
    }
}

/// The answer of a non-aligned access, as it is set against what its bytes held.
pub fn unaligned_history(access: &Unaligned, answer: &mut Answer) {
    let read = !access.is_write() && answer.number == 0;
    if CHOSEN.get() == Some(&Plant::HeldUnaligned) && read {
        answer.value ^= 1;
    }
}

/// What a non-aligned access of one of two runs gave back: data has steered it.
pub fn steered_unaligned(access: &Unaligned, called: &mut CAnswer, ext: &[u8]) {
    if called.number != 0 || access.is_write() {
        return;
    }
    match CHOSEN.get() {
        Some(Plant::DataUnaligned) if called.value % 2 == 1 => called.server = 5 - called.server,
        Some(Plant::UnalignedBehind) if access.size() == 4 && access.address() >= EXTERNAL_BASE => {
            let from = external_offset(access.address()) + 4;
            if from + 4 <= ext.len() {
                called.value |= load(ext, from, 4) << 32;
            }
        }
        _ => {}
    }
}

/// Whether a length is wrong, and whether so many bytes from an address on lie in one memory.
fn is_wrong_length(length: usize) -> bool {
    length == 0 || length % 4 != 0 || length > LONGEST_TRANSFER
}

fn is_in_memory(passed: &CRecord, transfer: &Transfer) -> bool {
    let sram = u128::from(sram_size(passed.l2len, passed.mode.into()));
    let (first, base) = (u128::from(transfer.address), u128::from(EXTERNAL_BASE));
    let end = first + transfer.length as u128;
    end <= sram || first >= base && end <= base + u128::from(passed.extlen)
}

/// What a transfer gave back, its buffer, and the record and the memories after it.
pub fn transfer(
    transfer: &Transfer,
    called: &mut CAnswer,
    record: &mut CRecord,
    passed: &CRecord,
    lent: Lent,
    buffer: &mut Buffer,
    before: Option<&Ours>,
) {
    let Some(plant) = CHOSEN.get() else { return };
    if (*plant, called.number) == (Plant::L1pTransfer, 0) && transfer.is_in() {
        let first = L1p::line_address(transfer.address);
        let end = transfer.address + transfer.length as u32;
        (first..end).step_by(L1p::LINE as usize).for_each(|line| drop_l1p(record, line));
    }
    if called.number == 0 {
        let right = counts_are_right(record);
        transferred(*plant, transfer, record, passed, lent, buffer, before);
        counts_follow(record, right);
        match plant {
            Plant::TransferCount => record.dirty_l1d = passed.dirty_l1d,
            Plant::TransferServer => {
                called.server = if transfer.address < EXTERNAL_BASE { 2 } else { 4 };
            }
            Plant::TransferCounts if transfer.address >= EXTERNAL_BASE => {
                called.external_read = L1d::LINE;
            }
            _ => {}
        }
        return;
    }
    let in_memory = is_in_memory(passed, transfer);
    let too_long_by_4 = transfer.length == LONGEST_TRANSFER + 4;
    match (plant, called.number) {
        (Plant::TransferLimit, 13) if too_long_by_4 && in_memory => called.number = 0,
        (Plant::TransferOrder, 13) if !in_memory => called.number = 14,
        (Plant::TransferAligned, 4) if is_wrong_length(transfer.length) => called.number = 13,
        (Plant::TransferClears, _) if !transfer.is_in() => buffer.bytes_mut().fill(0),
        _ => {}
    }
}

/// The same of one that was accepted: mistakes in what it does to L1D, to L2 and to the bytes.
fn transferred(
    plant: Plant,
    transfer: &Transfer,
    record: &mut CRecord,
    passed: &CRecord,
    lent: Lent,
    buffer: &mut Buffer,
    before: Option<&Ours>,
) {
    let (first, length) = (transfer.address, transfer.length);
    let (end, is_in) = (first + length as u32, transfer.is_in());
    let external = first >= EXTERNAL_BASE;
    let taken = sram_lines_taken(passed, record);
    // Which bytes of a line of L1D are moved, if any are.
    let shared = |line: u32| {
        let (from, to) = (line.max(first), (line + L1d::LINE).min(end));
        (from < to).then(|| (from - line) as usize..(to - line) as usize)
    };
    match (plant, before) {
        (Plant::TransferHeld, _) => {
            for (set, way, line) in taken {
                record.l1d[set].lines[way] = line;
                record.l1d[set].lines[way].dirty = 0;
            }
        }
        (Plant::TransferLost, Some(before)) => {
            for (_, _, line) in taken.iter().filter(|(_, _, line)| line.dirty == 1) {
                let Some(part) = shared(line.address) else { continue };
                for (place, at) in sram_bytes(line).enumerate() {
                    if !part.contains(&place) {
                        lent.l2[at] = before.l2[at];
                    } else if !is_in {
                        lent.l2[at] = before.l2[at];
                        buffer.bytes_mut()[at - first as usize] = before.l2[at];
                    }
                }
            }
        }
        (Plant::TransferInside, _) => {
            for (set, way, line) in taken {
                if line.address < first || end < line.address + L1d::LINE {
                    record.l1d[set].lines[way] = line;
                }
            }
        }
        (Plant::TransferOutHeld, _) if !is_in => record.l1d = passed.l1d,
        (Plant::TransferFrozen, _) if passed.frozen == 1 => record.l1d = passed.l1d,
        (Plant::TransferUses, _) => {
            for (set, way, _) in taken {
                record.l1d[set].order = [way as u8, 1 - way as u8];
            }
        }
        (Plant::TransferUpdates | Plant::TransferSnoops, _) if external => {
            for (set, held) in passed.l1d.iter().enumerate() {
                for (way, line) in held.lines.iter().enumerate().filter(|(_, line)| line.valid == 1)
                {
                    let Some(part) = shared(line.address) else { continue };
                    let from = L1d::offset(set, way);
                    let data = &mut lent.l1d[from + part.start..from + part.end];
                    let at = (line.address as usize + part.start) - first as usize;
                    let bytes = &mut buffer.bytes_mut()[at..at + part.len()];
                    match (plant, is_in) {
                        (Plant::TransferUpdates, true) => data.copy_from_slice(bytes),
                        (Plant::TransferSnoops, false) => bytes.copy_from_slice(data),
                        _ => {}
                    }
                }
            }
        }
        (Plant::TransferDrops, _) if external && is_in => {
            for set in &mut record.l2 {
                for line in set.lines.iter_mut().filter(|line| line.valid == 1) {
                    if line.address < end && first < line.address + L2::LINE {
                        (line.valid, line.dirty, line.address) = (0, 0, 0);
                    }
                }
            }
        }
        (Plant::TransferLast, Some(before)) => {
            let last = length - 1;
            match (is_in, external) {
                (true, true) => {
                    let at = external_offset(first) + last;
                    lent.ext[at] = before.ext[at];
                }
                (true, false) => lent.l2[end as usize - 1] = before.l2[end as usize - 1],
                _ => buffer.bytes_mut()[last] = transfer.buffer().unwrap_or_default()[last],
            }
        }
        (Plant::TransferBehind, _) if !is_in => change(Some(buffer.behind())),
        (Plant::TransferBuffer, _) if is_in => change(buffer.bytes_mut().first_mut()),
        _ => {}
    }
}

/// The bytes that a transfer moved, by its parts.
pub fn in_parts(stretch: &mut [u8]) {
    if CHOSEN.get() == Some(&Plant::TransferParts) {
        change(stretch.last_mut());
    }
}

/// Whether a transfer joins a list that is set against flat memory.
pub fn joins(joins: bool) -> bool {
    joins || CHOSEN.get() == Some(&Plant::FlatUncovered)
}

/// What flat memory says of a transfer.
pub fn transfer_flat(transfer: &Transfer, flat: &mut Flat, number: &mut u8, bytes: &mut [u8]) {
    match CHOSEN.get() {
        Some(Plant::FlatTransfer) if *number == 0 && transfer.is_in() => {
            let last = transfer.address + transfer.length as u32 - 1;
            let (_, byte) = flat.read(1, last);
            flat.write(1, last, (byte + 1) & 0xFF);
        }
        Some(Plant::FlatTransferOut) if *number == 0 && !transfer.is_in() => bytes.fill(0),
        Some(Plant::FlatTransferNumber) if *number == 14 => *number = 5,
        _ => {}
    }
}

/// What is known of the bytes after a transfer in.
pub fn transfer_history(address: u32, bytes: &[u8], history: &mut History) {
    if let (Some(Plant::HeldTransfer), Some(first)) = (CHOSEN.get(), bytes.first()) {
        history.flat.write(1, address, u64::from(first.wrapping_add(1)));
    }
}

/// What a transfer of one of two runs gave back: data has steered it.
pub fn steered_transfer(transfer: &Transfer, called: &mut CAnswer, buffer: &mut [u8], ext: &[u8]) {
    if called.number != 0 {
        return;
    }
    match CHOSEN.get() {
        Some(Plant::DataTransfer) if buffer[0] % 2 == 1 => called.number = 14,
        Some(Plant::TransferNeighbour)
            if !transfer.is_in() && transfer.address >= EXTERNAL_BASE =>
        {
            let from = external_offset(transfer.address) + 4;
            if from + buffer.len() <= ext.len() {
                buffer.copy_from_slice(&ext[from..from + buffer.len()]);
            }
        }
        _ => {}
    }
}

/// What a frame gave back, its pixels, and the record and the memories after it.
pub fn frame(
    frame: &Frame,
    called: &mut CFramed,
    record: &mut CRecord,
    passed: &CRecord,
    mut lent: Lent,
    pixels: &mut Buffer,
    before: Option<&Ours>,
) {
    let Some(plant) = CHOSEN.get() else { return };
    let taken = 1 - frame.turn % 2;
    if called.number != 0 {
        refused_frame(*plant, frame, called, &mut lent, pixels.bytes());
        if (*plant, called.number) == (Plant::FrameCovers, 20) {
            FrameCalls::of(frame).cover(record, &mut lent);
        }
        return;
    }
    match plant {
        Plant::FrameTurnKept => called.turn = 1 - taken,
        Plant::FrameLeast if passed.extlen == LEAST_EXTERNAL => called.number = 19,
        Plant::FrameLast => {
            called.sums[COLUMNS - 1] -= u32::from(pixels.bytes()[FRAME_BYTES - 1]);
        }
        Plant::FrameRows => {
            called.sums = [0; COLUMNS];
            for (row, sum) in pixels.bytes().chunks(COLUMNS).zip(&mut called.sums) {
                *sum = row.iter().map(|&pixel| u32::from(pixel)).sum();
            }
        }
        Plant::FrameNarrow => called.sums.iter_mut().for_each(|sum| *sum &= 0xFF),
        Plant::FramePixels => change(pixels.bytes_mut().last_mut()),
        Plant::FrameCount => record.dirty_l1d = passed.dirty_l1d,
        Plant::L1pFrame => record.l1p = passed.l1p,
        _ => {
            if let Some(before) = before {
                mistaken_calls(*plant, frame, called, record, lent, pixels.bytes(), before.clone());
            }
        }
    }
}

/// The same of one that was refused.
fn refused_frame(
    plant: Plant,
    frame: &Frame,
    called: &mut CFramed,
    lent: &mut Lent,
    pixels: &[u8],
) {
    match (plant, called.number) {
        (Plant::FrameTurnBack, _) => called.turn = frame.turn,
        (Plant::FrameTurnTaken, _) => called.turn = 1 - called.turn,
        (Plant::FrameOrder, 19) if frame.length != FRAME_BYTES => called.number = 20,
        (Plant::FrameLonger, 20) if frame.length > FRAME_BYTES => called.number = 0,
        (Plant::FrameAddsUp, 20) => called.sums = column_sums(pixels),
        (Plant::FrameMoves, 20) => {
            for (byte, pixel) in lent.ext.iter_mut().zip(pixels) {
                *byte = *pixel;
            }
        }
        _ => {}
    }
}

/// One that was accepted, made of other calls from what stood there before.
fn mistaken_calls(
    plant: Plant,
    frame: &Frame,
    called: &mut CFramed,
    record: &mut CRecord,
    lent: Lent,
    pixels: &[u8],
    mut before: Ours,
) {
    let [first, second] = [0, 1].map(|turn| FrameCalls::of(&Frame { turn, ..*frame }));
    let right = FrameCalls::of(frame);
    let calls = match plant {
        Plant::FrameUncovered => FrameCalls { l2_command: false, l1d_command: false, ..right },
        Plant::FrameNoL2 => FrameCalls { l2_command: false, ..right },
        Plant::FrameOnePlace => first,
        Plant::FrameOtherPlace if right.place == first.place => second,
        Plant::FrameOtherPlace => first,
        Plant::FrameNoTransfer => FrameCalls { transfer: false, ..right },
        Plant::FrameDown => FrameCalls { downwards: true, ..right },
        Plant::FrameTurn if frame.turn > 1 => {
            called.turn = 0;
            second
        }
        Plant::FrameFrozen if before.record.frozen == 1 => {
            before.record.frozen = 0;
            right
        }
        _ => return,
    };
    let (copy, copied) = before.lent();
    called.sums = column_sums(&calls.make(copy, pixels, copied));
    before.record.frozen = record.frozen;
    *record = **before.record;
    lent.l1d.copy_from_slice(&before.l1d);
    lent.l2.copy_from_slice(&before.l2);
    lent.ext.copy_from_slice(&before.ext);
}

/// What each pixel was read as, by the calls of a frame.
pub fn by_calls(read: &mut [u8]) {
    if CHOSEN.get() == Some(&Plant::FrameByCalls) {
        change(read.last_mut());
    }
}

/// The sums of a frame, by its pixels.
pub fn pixel_sums(sums: &mut [u32; COLUMNS]) {
    if CHOSEN.get() == Some(&Plant::FrameByPixels) {
        sums[COLUMNS - 1] += 1;
    }
}

/// What flat memory says of a frame.
pub fn frame_flat(frame: &Frame, flat: &mut Flat, framed: &mut CFramed) {
    let accepted = framed.number == 0;
    match CHOSEN.get() {
        Some(Plant::FlatFrame) if accepted => {
            let last = FrameCalls::of(frame).place + FRAME_BYTES as u32 - 1;
            let (_, byte) = flat.read(1, last);
            flat.write(1, last, (byte + 1) & 0xFF);
        }
        Some(Plant::FlatFrameSums) if accepted => framed.sums[0] += ROWS as u32,
        Some(Plant::FlatFrameNumber) if framed.number == 19 => framed.number = 20,
        Some(Plant::FlatFrameTurn) if accepted => framed.turn = frame.turn % 2,
        _ => {}
    }
}

/// What an accepted frame means for the transfers behind it, where its reads count for nothing;
/// whether they do so.
pub fn unread(frame: &Frame, covered: &mut Covered) -> bool {
    let planted = CHOSEN.get() == Some(&Plant::FlatFrameUnread);
    for command in FrameCalls::of(frame).commands().iter().filter(|_| planted) {
        covered.command(command, true);
    }
    planted
}

/// What a frame of one of two runs gave back: data has steered it.
pub fn steered_frame(framed: &mut CFramed, pixels: &[u8], ext: &[u8]) {
    if framed.number != 0 {
        return;
    }
    match CHOSEN.get() {
        Some(Plant::DataFrame) if pixels[0] % 2 == 1 => framed.number = 20,
        Some(Plant::FrameBeside) => {
            framed.sums[0] += ext.iter().map(|&byte| u32::from(byte)).sum::<u32>()
        }
        _ => {}
    }
}

/// Whether the last command of a whole trace is a global L2 writeback.
fn ends_globally(trace: &[u8]) -> bool {
    let (mut place, mut last) = (0, None);
    while let Some((command, length)) = decode(&trace[place..]) {
        place += length;
        last = Some(command);
    }
    last.is_some_and(|command| is_global(&command))
}

/// Whether the first command of a trace freezes or thaws L1D.
fn first_is_freeze(trace: &[u8]) -> bool {
    matches!(decode(trace), Some((Command::Freeze { .. }, _)))
}

/// L1D holds the last line of SRAM's first 8 Kbytes, dirty, if there is SRAM.
fn hold_sram_line(record: &mut CRecord) {
    if sram_size(record.l2len, record.mode.into()) > 0 {
        let line = &mut record.l1d[127].lines[0];
        (line.valid, line.dirty, line.address) = (1, 1, 127 * L1d::LINE);
    }
}

/// What a fresh start gave back, and the record after it.
pub fn fresh(
    called: &mut CAnswer,
    record: &mut CRecord,
    passed: &CRecord,
    l1p: &mut [u8],
    stood: &[u8],
) {
    match CHOSEN.get() {
        Some(Plant::L1pFresh) => record.l1p = passed.l1p,
        Some(Plant::L1pFreshBytes) => l1p.copy_from_slice(stood),
        _ => {}
    }
    match CHOSEN.get() {
        Some(Plant::FreshNumber) if called.number == 1 => called.number = 2,
        Some(Plant::FreshRecord) if called.number == 0 => record.mar129 = 1,
        Some(Plant::FreshKept) if called.number == 1 => *record = *passed,
        Some(Plant::CountFresh) if called.number == 0 => record.dirty_l1d = passed.dirty_l1d,
        Some(Plant::FreshFrozen) if called.number == 0 && passed.frozen == 1 => record.frozen = 1,
        Some(Plant::LeftFresh) if called.number == 0 => called.l1d_left = CLeft::EMPTY,
        _ => {}
    }
}

/// What a run gave back, its answer bytes, and the record after it.
pub fn run(run: &mut CRun, answers: &mut [u8], record: &mut CRecord, trace: &[u8]) {
    let behind = run.count * ANSWER_BYTES;
    let right = counts_are_right(record);
    match CHOSEN.get() {
        Some(Plant::RunCounts) if run.stop == 12 => run.consumed += 1,
        Some(Plant::RunAnswer) if run.count >= 3 => change(answers.get_mut(2 * ANSWER_BYTES + 1)),
        Some(Plant::RunLater) if run.stop == 11 => change(answers.get_mut(behind)),
        Some(Plant::RunRecord) if run.count >= 2 => record.mar129 ^= 1,
        Some(Plant::RunPadding) if run.stop == 2 => change(Some(record.some_padding())),
        // A code that is a whole command.
        Some(Plant::RunDirty) if run.stop == 0 && trace.last() == Some(&2) => make_dirty(record),
        Some(Plant::L1pRun) if run.stop == 0 && trace.last() == Some(&3) => {
            let line = &mut record.l1p[L1p::SETS - 1].lines[0];
            (line.valid, line.dirty, line.address) = (1, 0, (L1p::SETS as u32 - 1) * L1p::LINE);
        }
        Some(Plant::RunFreeze) if run.stop == 0 && first_is_freeze(trace) => run.stop = 11,
        Some(Plant::RunFreezeNumber) => {
            let mut numbers =
                answers[..behind].chunks_mut(ANSWER_BYTES).map(|answer| &mut answer[0]);
            if let Some(number) = numbers.find(|number| **number == 17) {
                *number = 9;
            }
        }
        Some(Plant::RunThaws) if run.stop == 0 && trace.ends_with(&[12, 1]) => record.frozen = 0,
        Some(Plant::RunSramDirty) if run.stop == 0 && ends_globally(trace) => {
            hold_sram_line(record);
        }
        _ => {}
    }
    counts_follow(record, right && CHOSEN.get().is_some());
    if CHOSEN.get() == Some(&Plant::CountRun) && run.count > 0 {
        record.dirty_l2 += 1;
    }
}

/// The number of a view, the bytes that it wrote, and the record after it.
pub fn view(number: &mut u8, seen: &mut [u8], record: &mut CRecord) {
    match CHOSEN.get() {
        Some(Plant::ViewPadding) => change(Some(record.some_padding())),
        Some(Plant::ViewNumber) if *number == 5 => *number = 4,
        Some(Plant::ViewBytes) if *number == 0 => change(seen.get_mut(63)),
        _ => {}
    }
}

/// What the view's second call gave back, the number alone.
pub fn view_number(number: &mut u8) {
    if CHOSEN.get() == Some(&Plant::ViewNumberAlone) && *number == 5 {
        *number = 4;
    }
}

/// What a call of one of two runs gave back, and the record and the memories after
/// it: data has steered it.
pub fn steered(command: &Command, called: &mut CAnswer, record: &mut CRecord, lent: Lent) {
    let Some(plant) = CHOSEN.get() else { return };
    if called.number != 0 {
        return;
    }
    let sum = |bytes: &[u8]| bytes.iter().fold(0, |sum, byte| sum ^ byte);
    match (plant, *command) {
        (Plant::DataNumber, Command::Write { value, .. }) if value % 2 == 1 => called.number = 6,
        (Plant::DataServer, Command::Read { .. }) if called.value % 2 == 1 => {
            called.server = 5 - called.server;
        }
        (Plant::DataVictim, Command::Read { address, .. }) if called.value % 2 == 1 => {
            record.l1d[L1d::set_of(address)].order.swap(0, 1);
        }
        (Plant::DataCount, Command::Write { value, .. }) if value % 2 == 1 => record.dirty_l1d += 1,
        (Plant::DataLeft, Command::Read { .. })
            if called.value % 2 == 1 && called.l1d_left.is_line() =>
        {
            called.l1d_left = CLeft::EMPTY;
        }
        (Plant::DataMoved, Command::Read { .. }) if called.value % 2 == 1 => {
            called.external_read = 0;
        }
        (Plant::DataFrozen, Command::Read { address, .. })
            if called.value % 2 == 1 && record.frozen == 1 && called.server == SERVER_L1D =>
        {
            record.l1d[L1d::set_of(address)].order.swap(0, 1);
        }
        (Plant::ValueBehind, Command::Read { size: size @ 1..8, address })
            if address >= EXTERNAL_BASE =>
        {
            let behind = lent.ext.get(external_offset(address) + size as usize);
            called.value |= u64::from(behind.copied().unwrap_or(0)) << (8 * size);
        }
        (Plant::FillNeighbour, Command::Read { address, .. }) if called.server != SERVER_L1D => {
            let line = L1d::line_address(address);
            let set = L1d::set_of(address);
            for (way, held) in record.l1d[set].lines.iter().enumerate() {
                if held.valid == 1 && held.address == line && line >= EXTERNAL_BASE {
                    let from = external_offset(line ^ L1d::LINE);
                    let to = L1d::offset(set, way);
                    lent.l1d[to..to + 64].copy_from_slice(&lent.ext[from..from + 64]);
                }
            }
        }
        (Plant::FetchNeighbour, Command::Read { address, .. }) if called.server == 4 => {
            let line = L2::line_address(address);
            let mode = record.mode.into();
            let Some(set) = L2::set_of(mode, address) else { return };
            for (way, held) in record.l2[set].lines.iter().enumerate() {
                let from = external_offset(line ^ L2::LINE);
                if held.valid == 1 && held.address == line && from + 128 <= lent.ext.len() {
                    let to = L2::offset(sram_size(record.l2len, mode), L2::sets(mode), set, way);
                    lent.l2[to..to + 128].copy_from_slice(&lent.ext[from..from + 128]);
                }
            }
        }
        (Plant::SramLeftover, Command::L1dInvalidateAll) => lent.l2[0] ^= sum(lent.l1d),
        (Plant::ExternalLeftover, Command::Mode { .. }) => {
            lent.ext[0] ^= sum(lent.l1d);
        }
        _ => {}
    }
}

/// What a view in one of two runs showed.
pub fn steered_view(address: u32, number: u8, seen: &mut [u8], ext: &[u8]) {
    let planted = CHOSEN.get() == Some(&Plant::ViewNeighbour);
    if planted && number == 0 && address >= EXTERNAL_BASE {
        let from = external_offset(address ^ L1d::LINE);
        seen.copy_from_slice(&ext[from..from + 64]);
    }
}

/// The short run of a number.
pub fn short_run_of(run: &mut CShortRun) {
    match CHOSEN.get() {
        Some(Plant::ShortRunDigit) if run.length == 4 => change(run.digits.last_mut()),
        Some(Plant::ShortRunBehind) if run.length == 3 => change(run.digits.last_mut()),
        _ => {}
    }
}

/// The number of a short run.
pub fn short_run_number(of: &mut CRunNumber) {
    match CHOSEN.get() {
        Some(Plant::ShortRunNumber) if of.run == 4_680 => of.run += 1,
        Some(Plant::ShortRunRefused) if of.number == 18 => of.run = 1,
        _ => {}
    }
}

/// What flat memory says of a call's answer.
pub fn flat_answer(command: &Command, number: &mut u8, value: &mut u64) {
    match (CHOSEN.get(), command) {
        (Some(Plant::FlatNumber), _) if *number == 6 => *number = 5,
        (Some(Plant::FlatValue), Command::Read { size: 2, .. }) if *number == 0 => *value += 1,
        (Some(Plant::FlatByte), Command::Read { size: 1, .. }) if *number == 0 => *value += 1,
        _ => {}
    }
}

/// Flat memory before a call.
pub fn flat_freeze(command: &Command, flat: &mut Flat) {
    if let (Some(Plant::FlatFreeze), Command::Freeze { .. }) = (CHOSEN.get(), command) {
        change(flat.ext.last_mut());
    }
}

/// Flat memory after a global writeback.
pub fn flat_writeback(flat: &mut Flat) {
    match CHOSEN.get() {
        Some(Plant::FlatWriteback) => change(flat.ext.last_mut()),
        Some(Plant::FlatGlobalSram) => change(flat.sram.last_mut()),
        // In mode 0 all of L2 is SRAM.
        Some(Plant::FlatModeZero) if flat.s == flat.l => change(flat.ext.last_mut()),
        _ => {}
    }
}

/// Flat memory after a run that ends in a global writeback.
pub fn flat_run(flat: &mut Flat) {
    match CHOSEN.get() {
        Some(Plant::FlatRun) => change(flat.ext.last_mut()),
        Some(Plant::FlatRunSram) => change(flat.sram.last_mut()),
        Some(Plant::FlatRunModeZero) if flat.s == flat.l => change(flat.ext.last_mut()),
        _ => {}
    }
}

/// Flat memory at the end of a list.
pub fn flat_end(flat: &mut Flat) {
    match CHOSEN.get() {
        Some(Plant::FlatEnd) => change(flat.ext.last_mut()),
        Some(Plant::FlatSram) => change(flat.sram.last_mut()),
        _ => {}
    }
}

/// The answer of a call, as it is set against what its bytes held.
pub fn history_answer(command: &Command, answer: &mut Answer) {
    if let (Some(Plant::HeldByte), Command::Read { size: 1, .. }) = (CHOSEN.get(), command) {
        answer.value = answer.value.wrapping_add(1) & 0xFF;
    }
}

/// Whether bytes keep their values over this call, whatever it does to them.
pub fn keeps_over(command: &Command) -> bool {
    match CHOSEN.get() {
        Some(Plant::KeptOverMode) => matches!(command, Command::Mode { .. }),
        // From there a block does not come to external memory.
        Some(Plant::KeptOverL2) => {
            matches!(command, Command::L2BlockInvalidate { base, .. } if *base < EXTERNAL_BASE / 2)
        }
        Some(Plant::KeptOverDrop) => matches!(
            command,
            Command::L2BlockInvalidate { .. }
                | Command::L1dBlockInvalidate { .. }
                | Command::L1dInvalidateAll
        ),
        _ => false,
    }
}

/// What is known of the bytes after a call.
pub fn history(command: &Command, history: &mut History) {
    match (CHOSEN.get(), *command) {
        (Some(Plant::HeldLast), _) => {
            for (address, held) in &mut history.held {
                held.retain(|value| history.last.get(address).is_none_or(|last| last == value));
            }
        }
        (Some(Plant::DroppedUnsaid), _) => history.dropped.clear(),
        (Some(Plant::DroppedFlat), Command::Write { size: 1, address, value }) => {
            history.flat.write(1, address, (value + 1) & 0xFF);
        }
        _ => {}
    }
}

/// What putting a command at a point gave back, and the output after it.
pub fn put(code: u32, at: usize, out: &mut [u8], put: &mut Put) {
    match CHOSEN.get() {
        Some(Plant::PutByte) if put.number == 16 => change(out.get_mut(at)),
        Some(Plant::PutPoint) if put.number == 0 && code == 10 => put.at += 1,
        Some(Plant::PutFreeze) if put.number == 0 && code == 12 => put.number = 11,
        Some(Plant::PutOrder) if put.number == 11 && at >= out.len() => put.number = 16,
        _ => {}
    }
}

/// What a run over commands that were put gave back.
pub fn put_run(run: &mut CRun) {
    if CHOSEN.get() == Some(&Plant::PutRun) && run.count >= 2 {
        run.count += 1;
    }
}

/// Whether a trace that was written again is the same.
pub fn same_again(written: &[u8], trace: &[u8]) -> bool {
    let other = CHOSEN.get() == Some(&Plant::PutAgain) && trace.last() == Some(&9);
    written == trace && !other
}

/// What making a load gave back, and the output after it.
pub fn load_made(out: &mut [u8], load: &mut Load) {
    let behind = load.length;
    match CHOSEN.get() {
        Some(Plant::LoadByte) if load.number == 0 => change(out[..behind].last_mut()),
        Some(Plant::LoadLater) if load.number == 0 => change(out.get_mut(behind)),
        Some(Plant::LoadPartial) if load.number == 16 => change(out.first_mut()),
        Some(Plant::LoadLength) if load.length == 12 => load.length -= 1,
        Some(Plant::LoadOrder) if load.number == 1 && out.is_empty() => load.number = 16,
        _ => {}
    }
}

/// What a run over a load gave back.
pub fn load_run(run: &mut CRun, answers: &mut [u8]) {
    if CHOSEN.get() == Some(&Plant::LoadRun) && run.count > 0 {
        answers[(run.count - 1) * ANSWER_BYTES] = 5;
    }
}

/// What bench-trace printed, and how it ended.
pub fn bench(output: &mut Output) {
    let printed =
        |line: &str| format!("\n{}", String::from_utf8_lossy(&output.stdout)).contains(line);
    match CHOSEN.get() {
        Some(Plant::BenchOutput) if printed("\n8 ") => output.stdout.extend(b"end\n"),
        // Exit status 1, as wait gives it.
        Some(Plant::BenchStatus) if printed("\n7 ") => output.status = ExitStatus::from_raw(1 << 8),
        _ => {}
    }
}
