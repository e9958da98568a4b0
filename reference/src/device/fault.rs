//! Planted faults: errors that look reasonable, switched on one at a time to
//! show that the generator's default seeds find them. No fault is on by itself. Those of
//! W-207 stand in `fault/sanitize.rs`, those of W-208 in `fault/pool.rs`.

pub mod pool;
pub mod sanitize;

use pool::WrongPool;
use sanitize::{WrongDisabled, WrongEnding, WrongRow, WrongStart, WrongTime};

/// One planted fault of the model or of the host's side.
#[derive(Clone, Copy, Debug, PartialEq, Eq)]
pub enum Fault {
    OverflowCountWraps,
    FirstOverflowTimeOverwritten,
    OverflowKeptAfterClear,
    HandleAfter65535IsZero,
    SurplusHandlesPass,
    ClearAllWithoutOverflow,
    ClearLogBeforeLength,
    MoreWhileHeld,
    MoreWhenFull,
    MoreWithOverflow,
    MoreWhenAllCarried,
    ClearTakesNewerRecords,
    HandlesBeginAgainWhenEmpty,
    ClockGoesBack,
    PolicyLogFourAlwaysSet,
    GetLogOffsetIgnored,
    UnitSumWraps,
    OverlapByEndsOnly,
    PoisonRoomOneMore,
    PoisonRoomOneLess,
    AddressSumWraps,
    OutsideBeforeUnaligned,
    PartAfterDroppedWithoutFlag,
    PoisonTimeOverwritten,
    TouchingEntriesMerged,
    RecordsNotCut,
    MoreFlagAt126,
    OverflowFlagByRange,
    InjectWithoutEvent,
    InjectEventOfCovered,
    InjectEventAtLimit,
    InjectRefusedWithFullLog,
    InjectLostWithFullLog,
    InjectOverflowNotCounted,
    InjectEventInLines,
    InjectEventAddressIn32Bits,
    InjectEventWithoutLength,
    InjectEventAtCallersTime,
    /// A flag bit of Clear Event Records, by its number.
    ClearFlagIgnored(u8),
    ClearFlagsIgnored,
    ClearFlagsIgnoredWithClearAll,
    ClearFlagsIgnoredWithoutClearAll,
    ClearAllRefused,
    /// A reserved byte of Clear Event Records, by its place in the payload.
    ClearByteIgnored(usize),
    ClearBytesIgnored,
    ClearBytesIgnoredWithClearAll,
    ClearBytesOver127Ignored,
    ClearBytesRefusedTogether,
    ClearReservedIgnoredWithoutHandles,
    ClearReservedBeforeLength,
    ClearReservedAfterHandles,
    ClearReservedClears,
    ClearReservedIs16h,
    /// A mode of Set Event Interrupt Policy: 2 or 3.
    ModeTaken(u8),
    ModesTaken,
    /// A byte of Set Event Interrupt Policy, by its place in the payload.
    ModeIgnoredOfByte(usize),
    ModeOfFirstByteOnly,
    ModeBeforeLength,
    ModeAfterSettingsBefore,
    ModeAfterAllSettings,
    ModeDisablesItsLog,
    ModeIs16h,
    SettingBitsReserved,
    GetLabelsEnd(WrongEnd),
    SetLabelsEnd(WrongEnd),
    GetLabelsOffsetIn16Bits,
    GetLabelsLengthIn16Bits,
    SetLabelsOffsetIn16Bits,
    GetLabelsOffsetIgnored,
    SetLabelsOffsetIgnored,
    GetLabelsOver2048Taken,
    GetLabelsCutAt2048,
    GetLabelsOf2048Refused,
    GetLabelsOfNoneRefused,
    GetLabelsLongerTaken,
    GetLabelsClears,
    SetLabelsOfNoDataIs16h,
    SetLabelsShortTaken,
    SetLabelsByteMore,
    SetLabelsByteLess,
    SetLabelsRestCleared,
    SetLabelsReservedWritten,
    SetLabelsOred,
    SetLabelsWritesWhatFits,
    SetLabelsReserved(WrongReserved),
    SetLabelsHasReply,
    SetLabelsReportsEvent,
    LabelsNotKept,
    RefusalClearsLabels,
    SetTimestampClearsLabels,
    ClearPoisonWritesLabels,
    SetLabelsEffectIs0,
    GetLabelsEffectIs6,
    LabelsNotInEffectsLog,
    LabelsLastInEffectsLog,
    EffectsSizeIs48,
    GetLogEndsAt48,
    LabelSizeIs0,
    LabelSizeIs2048,
    /// A row of the table of durations, by its place from 0.
    SanitizeRow(usize, WrongRow),
    SanitizeTime(WrongTime),
    SanitizeStart(WrongStart),
    Ending(WrongEnding),
    Disabled(WrongDisabled),
    Pool(WrongPool),
    BytePastReply,
    BufferWrittenOnRefusal,
    RoomAfterOpcode,
    RoomAfterLength,
    RoomAfterOwnChecks,
    RoomAfterChange,
    RoomByReply,
    Room2048Refused,
    PayloadLimitAfterOpcode,
    EventOf127Taken,
    EventOf129Taken,
    EventLogBeforeSize,
    RefusedMakeKeepsDevice,
    RefusedMakeIsPersistent,
    RefusedMakeIsOfMostUnits,
    LaterMakeKeepsClock,
    LaterMakeKeepsPolicy,
    LaterMakeKeepsPoison,
    LaterMakeKeepsFlag,
    LaterMakeKeepsHandles,
    HighestWaitingOneMore,
    NoneWaitingIs0,
    WaitingCountsRecords,
    TotalCountsDropped,
    TotalCountsEntries,
    RefusedEventIsStored,
    RefusedMediaIsDropped,
    RefusedLineIsClean,
    VectorOnEveryRecord,
    VectorOfCountedEvent,
    VectorOfHandle1Only,
    VectorWhileDisabled,
    VectorOfLog4Is0,
    VectorIsSetting,
    RefusedEventHasVector,
    InjectVectorNotTold,
    InjectVectorOfCovered,
    RoomAfterReserved,
    ReservedBeforePayloadLimit,
    AreaAfterPayloadLimit,
    AreaAfterOpcode,
    AreaAfterLength,
    AreaAfterOwnChecks,
    AreaAfterChange,
    AreaIs2h,
    AreaLongerTaken,
    AreaShorterTaken,
    AreaOfNoneTaken,
    AreaOfLabelsAlone,
    AreaOfLastBytes,
    AreaForOneCommand,
    AreaClearsStore,
    AreaClearsRest,
    MakeClearsStore,
    RefusedMakeClearsStore,
    MakeLends4096,
    LabelBytesOfLentAlone,
    GetLabelsOldBytes,
    SetLabelsHasVector,
    HostExactRoomRefused,
    HostWritesWhatFits,
    HandlesOver255Taken,
    HandlesBeforeRoom,
    RequestReservedJudged,
    RequestFlagsMasked,
    RequestReservedNotWritten,
    AddressBitsIgnored,
    RecordZerosIgnored,
    ByteAfterFlagsIgnored,
    PlaceFrom1,
    ReservedBeforeLength,
    CountInOneByte,
    SurplusBytesTaken,
    AskedIgnored,
    ReplyOverMailboxRefused,
    FlagBitsReserved,
    FlagBitsNotWritten,
    IdentifyZerosReserved,
    IdentifyLastSizeEarly,
    IdentifyLabelSizeJudged,
    RoomBeforeReading,
    WalkOddLineFirst,
    WalkOddLineLost,
    WalkSecondHalfSkipped,
    WalkFirstHalfTwice,
    WalkStopsAt126,
    WalkJoinsNeighbours,
    WalkInLentArea,
    WalkRefusedIsEmpty,
}

/// How a fault judges the end of a range of labels.
#[derive(Clone, Copy, Debug, PartialEq, Eq)]
pub enum WrongEnd {
    In32Bits,
    In16Bits,
    At4096Refused,
    At4097Taken,
    OfOffsetAlone,
    OfNoneAt4096Refused,
    OfNoneAnywhere,
}

/// How a fault judges the reserved bytes of Set LSA, or what it does then.
#[derive(Clone, Copy, Debug, PartialEq, Eq)]
pub enum WrongReserved {
    Ignored,
    IgnoredWithoutData,
    /// By its place in the payload.
    ByteIgnored(usize),
    AddedIn8Bits,
    AddedIn16Bits,
    Xored,
    NegativeTaken,
    BeforeLength,
    Is16h,
    Writes,
}

/// A fault with its name for `--fault` and what it does.
pub struct FaultLine {
    pub fault: Fault,
    pub name: &'static str,
    pub what: &'static str,
}

const fn line(fault: Fault, name: &'static str, what: &'static str) -> FaultLine {
    FaultLine { fault, name, what }
}

/// The planted faults that bench and probe can both see.
pub const FAULTS: &[FaultLine] = &[
    line(
        Fault::OverflowCountWraps,
        "overflow-count-wraps",
        "the overflow count goes from 65,535 to 0",
    ),
    line(
        Fault::FirstOverflowTimeOverwritten,
        "first-overflow-time-overwritten",
        "each overflow sets the first overflow time too",
    ),
    line(
        Fault::OverflowKeptAfterClear,
        "overflow-kept-after-clear",
        "overflow count and times stay when records go",
    ),
    line(
        Fault::HandleAfter65535IsZero,
        "handle-after-65535-is-0",
        "after handle 65,535 comes 0",
    ),
    line(
        Fault::SurplusHandlesPass,
        "surplus-handles-pass",
        "the handle check ends when the log runs out",
    ),
    line(
        Fault::ClearAllWithoutOverflow,
        "clear-all-without-overflow",
        "Clear All is accepted with overflow count 0",
    ),
    line(
        Fault::ClearLogBeforeLength,
        "clear-log-before-length",
        "Clear Event Records gives 0002h for the log before 0016h for 6 + 2n",
    ),
    line(
        Fault::MoreWhileHeld,
        "more-while-held",
        "More is set while the log holds a record, as before W-201",
    ),
    line(
        Fault::MoreWhenFull,
        "more-when-full",
        "More is set when the log holds eight records",
    ),
    line(
        Fault::MoreWithOverflow,
        "more-with-overflow",
        "More is set while the overflow count is not 0",
    ),
    line(
        Fault::MoreWhenAllCarried,
        "more-when-all-carried",
        "More is set when the reply carries just the records held",
    ),
    line(
        Fault::ClearTakesNewerRecords,
        "clear-takes-newer-records",
        "Clear Event Records with right handles empties the log",
    ),
    line(
        Fault::HandlesBeginAgainWhenEmpty,
        "handles-begin-again-when-empty",
        "a clear that leaves the log empty sets its next handle to 1",
    ),
    line(
        Fault::ClockGoesBack,
        "clock-goes-back",
        "a caller's clock behind the setting takes the device time back",
    ),
    line(
        Fault::PolicyLogFourAlwaysSet,
        "policy-log-4-always-set",
        "four policy bytes disable log 4",
    ),
    line(
        Fault::GetLogOffsetIgnored,
        "get-log-offset-ignored",
        "Get Log replies from offset 0",
    ),
    line(
        Fault::UnitSumWraps,
        "unit-sum-wraps",
        "make adds the units in 16 bits",
    ),
    line(
        Fault::OverlapByEndsOnly,
        "overlap-by-ends-only",
        "a media report looks for entries at its two ends only",
    ),
    line(
        Fault::PoisonRoomOneMore,
        "poison-room-257",
        "the list takes 257 entries",
    ),
    line(
        Fault::PoisonRoomOneLess,
        "poison-room-255",
        "the list takes 255 entries",
    ),
    line(
        Fault::AddressSumWraps,
        "address-sum-wraps",
        "an end address is worked out in 64 bits and wraps",
    ),
    line(
        Fault::OutsideBeforeUnaligned,
        "outside-before-unaligned",
        "000Fh is given before 0002h",
    ),
    line(
        Fault::PartAfterDroppedWithoutFlag,
        "part-after-dropped-without-flag",
        "Clear Poison drops the part after and leaves the overflow flag",
    ),
    line(
        Fault::PoisonTimeOverwritten,
        "poison-time-overwritten",
        "each drop sets the overflow time",
    ),
    line(
        Fault::TouchingEntriesMerged,
        "touching-entries-merged",
        "a run that touches an entry of its type before it is joined to it",
    ),
    line(
        Fault::RecordsNotCut,
        "records-not-cut",
        "Get Poison List replies whole entries",
    ),
    line(
        Fault::MoreFlagAt126,
        "more-flag-at-126",
        "Get Poison List sets bit 0 with exactly 126 entries",
    ),
    line(
        Fault::OverflowFlagByRange,
        "overflow-flag-by-range",
        "Get Poison List gives the overflow flag only beside a record",
    ),
    line(
        Fault::InjectWithoutEvent,
        "inject-without-event",
        "an injection reports no event",
    ),
    line(
        Fault::InjectEventOfCovered,
        "inject-event-of-covered",
        "an injection of a covered line reports an event too",
    ),
    line(
        Fault::InjectEventAtLimit,
        "inject-event-at-limit",
        "an injection that is refused with 0010h reports an event",
    ),
    line(
        Fault::InjectRefusedWithFullLog,
        "inject-refused-with-full-log",
        "an injection is refused with 0010h while log 0 is full",
    ),
    line(
        Fault::InjectLostWithFullLog,
        "inject-lost-with-full-log",
        "an injection adds no entry while log 0 is full",
    ),
    line(
        Fault::InjectOverflowNotCounted,
        "inject-overflow-not-counted",
        "an injection's event is not counted while log 0 is full",
    ),
    line(
        Fault::InjectEventInLines,
        "inject-event-in-lines",
        "an injection's event holds the line's number, not its address",
    ),
    line(
        Fault::InjectEventAddressIn32Bits,
        "inject-event-address-in-32-bits",
        "an injection's event holds 32 bits of the address",
    ),
    line(
        Fault::InjectEventWithoutLength,
        "inject-event-without-length",
        "byte 16 of an injection's event is 0",
    ),
    line(
        Fault::InjectEventAtCallersTime,
        "inject-event-at-callers-time",
        "an injection's event has the caller's time, not the device time",
    ),
    line(
        Fault::ClearFlagIgnored(1),
        "clear-flag-1-ignored",
        "flag bit 1 of Clear Event Records is not looked at",
    ),
    line(
        Fault::ClearFlagIgnored(2),
        "clear-flag-2-ignored",
        "flag bit 2 of Clear Event Records is not looked at",
    ),
    line(
        Fault::ClearFlagIgnored(3),
        "clear-flag-3-ignored",
        "flag bit 3 of Clear Event Records is not looked at",
    ),
    line(
        Fault::ClearFlagIgnored(4),
        "clear-flag-4-ignored",
        "flag bit 4 of Clear Event Records is not looked at",
    ),
    line(
        Fault::ClearFlagIgnored(5),
        "clear-flag-5-ignored",
        "flag bit 5 of Clear Event Records is not looked at",
    ),
    line(
        Fault::ClearFlagIgnored(6),
        "clear-flag-6-ignored",
        "flag bit 6 of Clear Event Records is not looked at",
    ),
    line(
        Fault::ClearFlagIgnored(7),
        "clear-flag-7-ignored",
        "flag bit 7 of Clear Event Records is not looked at",
    ),
    line(
        Fault::ClearFlagsIgnored,
        "clear-flags-ignored",
        "flag bits 1 to 7 of Clear Event Records are not looked at, as before W-205",
    ),
    line(
        Fault::ClearFlagsIgnoredWithClearAll,
        "clear-flags-ignored-with-clear-all",
        "flag bits 1 to 7 are not looked at where Clear All is set",
    ),
    line(
        Fault::ClearFlagsIgnoredWithoutClearAll,
        "clear-flags-ignored-without-clear-all",
        "flag bits 1 to 7 are looked at only where Clear All is set",
    ),
    line(
        Fault::ClearAllRefused,
        "clear-all-refused",
        "Clear All is refused as a reserved flag bit",
    ),
    line(
        Fault::ClearByteIgnored(3),
        "clear-byte-3-ignored",
        "reserved byte 3 of Clear Event Records is not looked at",
    ),
    line(
        Fault::ClearByteIgnored(4),
        "clear-byte-4-ignored",
        "reserved byte 4 of Clear Event Records is not looked at",
    ),
    line(
        Fault::ClearByteIgnored(5),
        "clear-byte-5-ignored",
        "reserved byte 5 of Clear Event Records is not looked at",
    ),
    line(
        Fault::ClearBytesIgnored,
        "clear-bytes-ignored",
        "the reserved bytes of Clear Event Records are not looked at, as before W-205",
    ),
    line(
        Fault::ClearBytesIgnoredWithClearAll,
        "clear-bytes-ignored-with-clear-all",
        "the reserved bytes are not looked at where Clear All is set",
    ),
    line(
        Fault::ClearBytesOver127Ignored,
        "clear-bytes-over-127-ignored",
        "a reserved byte over 127 is not looked at",
    ),
    line(
        Fault::ClearBytesRefusedTogether,
        "clear-bytes-refused-together",
        "the reserved bytes are refused only if none of the three is zero",
    ),
    line(
        Fault::ClearReservedIgnoredWithoutHandles,
        "clear-reserved-ignored-without-handles",
        "flag bits 1 to 7 and reserved bytes are looked at only where n is not 0",
    ),
    line(
        Fault::ClearReservedBeforeLength,
        "clear-reserved-before-length",
        "Clear Event Records gives 0002h for reserved places before 0016h for 6 + 2n",
    ),
    line(
        Fault::ClearReservedAfterHandles,
        "clear-reserved-after-handles",
        "Clear Event Records gives 000Eh before 0002h for reserved places",
    ),
    line(
        Fault::ClearReservedClears,
        "clear-reserved-clears",
        "a Clear that is refused for reserved places takes the records that it names",
    ),
    line(
        Fault::ClearReservedIs16h,
        "clear-reserved-is-16h",
        "Clear Event Records gives 0016h for reserved places",
    ),
    line(
        Fault::ModeTaken(2),
        "mode-2-taken",
        "Set Event Interrupt Policy takes mode 2 and disables the log",
    ),
    line(
        Fault::ModeTaken(3),
        "mode-3-taken",
        "Set Event Interrupt Policy takes mode 3 and disables the log",
    ),
    line(
        Fault::ModesTaken,
        "modes-taken",
        "Set Event Interrupt Policy takes modes 2 and 3, as before W-205",
    ),
    line(
        Fault::ModeIgnoredOfByte(0),
        "mode-ignored-of-byte-0",
        "the mode of policy byte 0 is not looked at",
    ),
    line(
        Fault::ModeIgnoredOfByte(1),
        "mode-ignored-of-byte-1",
        "the mode of policy byte 1 is not looked at",
    ),
    line(
        Fault::ModeIgnoredOfByte(2),
        "mode-ignored-of-byte-2",
        "the mode of policy byte 2 is not looked at",
    ),
    line(
        Fault::ModeIgnoredOfByte(3),
        "mode-ignored-of-byte-3",
        "the mode of policy byte 3 is not looked at",
    ),
    line(
        Fault::ModeIgnoredOfByte(4),
        "mode-ignored-of-byte-4",
        "the mode of policy byte 4 is not looked at",
    ),
    line(
        Fault::ModeOfFirstByteOnly,
        "mode-of-first-byte-only",
        "the mode of the first policy byte alone is looked at",
    ),
    line(
        Fault::ModeBeforeLength,
        "mode-before-length",
        "Set Event Interrupt Policy gives 0002h for a mode before 0016h",
    ),
    line(
        Fault::ModeAfterSettingsBefore,
        "mode-after-settings-before",
        "a refused Set sets the logs before the one with the mode",
    ),
    line(
        Fault::ModeAfterAllSettings,
        "mode-after-all-settings",
        "a Set that is refused for a mode sets all logs given",
    ),
    line(
        Fault::ModeDisablesItsLog,
        "mode-disables-its-log",
        "a Set that is refused for a mode disables the log with it",
    ),
    line(
        Fault::ModeIs16h,
        "mode-is-16h",
        "Set Event Interrupt Policy gives 0016h for a mode",
    ),
    line(
        Fault::SettingBitsReserved,
        "setting-bits-reserved",
        "bits 2 to 7 of a policy byte are refused too",
    ),
    line(
        Fault::GetLabelsEnd(WrongEnd::In32Bits),
        "get-labels-end-in-32-bits",
        "the end of a Get LSA is added up in 32 bits",
    ),
    line(
        Fault::GetLabelsEnd(WrongEnd::In16Bits),
        "get-labels-end-in-16-bits",
        "the end of a Get LSA is added up in 16 bits",
    ),
    line(
        Fault::GetLabelsEnd(WrongEnd::At4096Refused),
        "get-labels-end-4096-refused",
        "a Get LSA up to the area's end is refused",
    ),
    line(
        Fault::GetLabelsEnd(WrongEnd::At4097Taken),
        "get-labels-end-4097-taken",
        "a Get LSA one byte past the area's end is taken",
    ),
    line(
        Fault::GetLabelsEnd(WrongEnd::OfOffsetAlone),
        "get-labels-end-of-offset-alone",
        "a Get LSA is judged by its offset alone",
    ),
    line(
        Fault::GetLabelsEnd(WrongEnd::OfNoneAt4096Refused),
        "get-labels-of-none-at-4096-refused",
        "a Get LSA of no bytes at offset 4,096 is refused",
    ),
    line(
        Fault::GetLabelsEnd(WrongEnd::OfNoneAnywhere),
        "get-labels-of-none-anywhere",
        "a Get LSA of no bytes is taken at any offset",
    ),
    line(
        Fault::SetLabelsEnd(WrongEnd::In32Bits),
        "set-labels-end-in-32-bits",
        "the end of a Set LSA is added up in 32 bits",
    ),
    line(
        Fault::SetLabelsEnd(WrongEnd::In16Bits),
        "set-labels-end-in-16-bits",
        "the end of a Set LSA is added up in 16 bits",
    ),
    line(
        Fault::SetLabelsEnd(WrongEnd::At4096Refused),
        "set-labels-end-4096-refused",
        "a Set LSA up to the area's end is refused",
    ),
    line(
        Fault::SetLabelsEnd(WrongEnd::At4097Taken),
        "set-labels-end-4097-taken",
        "a Set LSA one byte past the area's end is taken",
    ),
    line(
        Fault::SetLabelsEnd(WrongEnd::OfOffsetAlone),
        "set-labels-end-of-offset-alone",
        "a Set LSA is judged by its offset alone",
    ),
    line(
        Fault::SetLabelsEnd(WrongEnd::OfNoneAt4096Refused),
        "set-labels-of-none-at-4096-refused",
        "a Set LSA of no bytes at offset 4,096 is refused",
    ),
    line(
        Fault::SetLabelsEnd(WrongEnd::OfNoneAnywhere),
        "set-labels-of-none-anywhere",
        "a Set LSA of no bytes is taken at any offset",
    ),
    line(
        Fault::GetLabelsOffsetIn16Bits,
        "get-labels-offset-in-16-bits",
        "the offset of Get LSA is read from its low two bytes",
    ),
    line(
        Fault::GetLabelsLengthIn16Bits,
        "get-labels-length-in-16-bits",
        "the length of Get LSA is read from its low two bytes",
    ),
    line(
        Fault::SetLabelsOffsetIn16Bits,
        "set-labels-offset-in-16-bits",
        "the offset of Set LSA is read from its low two bytes",
    ),
    line(
        Fault::GetLabelsOffsetIgnored,
        "get-labels-offset-ignored",
        "Get LSA replies the area's first bytes, whatever its offset",
    ),
    line(
        Fault::SetLabelsOffsetIgnored,
        "set-labels-offset-ignored",
        "Set LSA writes the area's first bytes, whatever its offset",
    ),
    line(
        Fault::GetLabelsOver2048Taken,
        "get-labels-over-2048-taken",
        "Get LSA takes a length over 2,048",
    ),
    line(
        Fault::GetLabelsCutAt2048,
        "get-labels-cut-at-2048",
        "Get LSA replies the first 2,048 bytes of a longer range",
    ),
    line(
        Fault::GetLabelsOf2048Refused,
        "get-labels-of-2048-refused",
        "Get LSA refuses a length of 2,048",
    ),
    line(
        Fault::GetLabelsOfNoneRefused,
        "get-labels-of-none-refused",
        "Get LSA refuses a length of 0",
    ),
    line(
        Fault::GetLabelsLongerTaken,
        "get-labels-longer-taken",
        "Get LSA takes a payload over 8 bytes",
    ),
    line(
        Fault::GetLabelsClears,
        "get-labels-clears",
        "Get LSA clears the bytes that it reads",
    ),
    line(
        Fault::SetLabelsOfNoDataIs16h,
        "set-labels-of-no-data-is-16h",
        "a Set LSA without data is refused with 0016h",
    ),
    line(
        Fault::SetLabelsShortTaken,
        "set-labels-short-taken",
        "a Set LSA of 4 to 7 bytes is taken as one without data",
    ),
    line(
        Fault::SetLabelsByteMore,
        "set-labels-byte-more",
        "Set LSA sets the byte after its data to 0",
    ),
    line(
        Fault::SetLabelsByteLess,
        "set-labels-byte-less",
        "Set LSA does not write the last byte of its data",
    ),
    line(
        Fault::SetLabelsRestCleared,
        "set-labels-rest-cleared",
        "Set LSA clears the area after its data",
    ),
    line(
        Fault::SetLabelsReservedWritten,
        "set-labels-reserved-written",
        "Set LSA writes its reserved bytes before its data",
    ),
    line(
        Fault::SetLabelsOred,
        "set-labels-ored",
        "Set LSA sets bits and clears none",
    ),
    line(
        Fault::SetLabelsWritesWhatFits,
        "set-labels-writes-what-fits",
        "a Set LSA past the area's end writes what fits before 0002h",
    ),
    line(
        Fault::SetLabelsReserved(WrongReserved::Ignored),
        "set-labels-reserved-ignored",
        "the reserved bytes of Set LSA are not looked at",
    ),
    line(
        Fault::SetLabelsReserved(WrongReserved::IgnoredWithoutData),
        "set-labels-reserved-ignored-without-data",
        "the reserved bytes of a Set LSA without data are not looked at",
    ),
    line(
        Fault::SetLabelsReserved(WrongReserved::ByteIgnored(4)),
        "set-labels-byte-4-ignored",
        "reserved byte 4 of Set LSA is not looked at",
    ),
    line(
        Fault::SetLabelsReserved(WrongReserved::ByteIgnored(5)),
        "set-labels-byte-5-ignored",
        "reserved byte 5 of Set LSA is not looked at",
    ),
    line(
        Fault::SetLabelsReserved(WrongReserved::ByteIgnored(6)),
        "set-labels-byte-6-ignored",
        "reserved byte 6 of Set LSA is not looked at",
    ),
    line(
        Fault::SetLabelsReserved(WrongReserved::ByteIgnored(7)),
        "set-labels-byte-7-ignored",
        "reserved byte 7 of Set LSA is not looked at",
    ),
    line(
        Fault::SetLabelsReserved(WrongReserved::AddedIn8Bits),
        "set-labels-reserved-added-in-8-bits",
        "the reserved bytes of Set LSA are added up in 8 bits",
    ),
    line(
        Fault::SetLabelsReserved(WrongReserved::AddedIn16Bits),
        "set-labels-reserved-added-in-16-bits",
        "the reserved bytes of Set LSA are added up as two numbers in 16 bits",
    ),
    line(
        Fault::SetLabelsReserved(WrongReserved::Xored),
        "set-labels-reserved-xored",
        "the reserved bytes of Set LSA are joined by exclusive or",
    ),
    line(
        Fault::SetLabelsReserved(WrongReserved::NegativeTaken),
        "set-labels-reserved-negative-taken",
        "Set LSA takes a byte 7 over 127, as the sign of a reserved number",
    ),
    line(
        Fault::SetLabelsReserved(WrongReserved::BeforeLength),
        "set-labels-reserved-before-length",
        "Set LSA gives 0002h for reserved bytes before 0016h",
    ),
    line(
        Fault::SetLabelsReserved(WrongReserved::Is16h),
        "set-labels-reserved-is-16h",
        "Set LSA gives 0016h for reserved bytes",
    ),
    line(
        Fault::SetLabelsReserved(WrongReserved::Writes),
        "set-labels-reserved-writes",
        "a Set LSA that is refused for reserved bytes writes its data",
    ),
    line(
        Fault::SetLabelsHasReply,
        "set-labels-has-reply",
        "Set LSA replies its data",
    ),
    line(
        Fault::SetLabelsReportsEvent,
        "set-labels-reports-event",
        "Set LSA reports an event to log 0",
    ),
    line(
        Fault::LabelsNotKept,
        "labels-not-kept",
        "every command is lent an area of zeros",
    ),
    line(
        Fault::RefusalClearsLabels,
        "refusal-clears-labels",
        "a refused command clears the label area",
    ),
    line(
        Fault::SetTimestampClearsLabels,
        "set-timestamp-clears-labels",
        "Set Timestamp clears the label area",
    ),
    line(
        Fault::ClearPoisonWritesLabels,
        "clear-poison-writes-labels",
        "Clear Poison writes its data to the label area",
    ),
    line(
        Fault::SetLabelsEffectIs0,
        "set-labels-effect-is-0",
        "the effect of 4103h is 0",
    ),
    line(
        Fault::GetLabelsEffectIs6,
        "get-labels-effect-is-6",
        "the effect of 4102h is 6",
    ),
    line(
        Fault::LabelsNotInEffectsLog,
        "labels-not-in-effects-log",
        "4102h and 4103h are not in the effects log, as before W-206",
    ),
    line(
        Fault::LabelsLastInEffectsLog,
        "labels-last-in-effects-log",
        "4102h and 4103h stand last in the effects log",
    ),
    line(
        Fault::EffectsSizeIs48,
        "effects-size-is-48",
        "Get Supported Logs gives the effects log's size as 48",
    ),
    line(
        Fault::GetLogEndsAt48,
        "get-log-ends-at-48",
        "Get Log refuses what lies past byte 48 of the effects log",
    ),
    line(
        Fault::LabelSizeIs0,
        "label-size-is-0",
        "Identify's label size is 0, as before W-206",
    ),
    line(
        Fault::LabelSizeIs2048,
        "label-size-is-2048",
        "Identify's label size is 2,048",
    ),
];

/// The planted faults that probe alone can see: those about the lent buffer,
/// about calls and answers that bench does not print, about later makes and about label
/// areas of any size.
pub const PROBE_FAULTS: &[FaultLine] = &[
    line(
        Fault::BytePastReply,
        "byte-past-reply",
        "the byte after the reply is set to 0",
    ),
    line(
        Fault::BufferWrittenOnRefusal,
        "buffer-written-on-refusal",
        "a refused command fills the buffer with zeros",
    ),
    line(
        Fault::RoomAfterOpcode,
        "room-after-opcode",
        "0003h is given before 0100h",
    ),
    line(
        Fault::RoomAfterLength,
        "room-after-length",
        "0016h is given before 0100h",
    ),
    line(
        Fault::RoomAfterOwnChecks,
        "room-after-own-checks",
        "the command's own checks come before 0100h",
    ),
    line(
        Fault::RoomAfterChange,
        "room-after-change",
        "a command that is refused with 0100h changes the device",
    ),
    line(
        Fault::RoomByReply,
        "room-by-reply",
        "0100h is given only if the reply does not fit",
    ),
    line(
        Fault::Room2048Refused,
        "room-2048-refused",
        "0100h is given for a buffer of 2,048 bytes",
    ),
    line(
        Fault::PayloadLimitAfterOpcode,
        "payload-limit-after-opcode",
        "0003h is given before 0016h for a payload over 2,048 bytes",
    ),
    line(
        Fault::EventOf127Taken,
        "event-of-127-taken",
        "an event record of 127 bytes is taken",
    ),
    line(
        Fault::EventOf129Taken,
        "event-of-129-taken",
        "an event record of 129 bytes is taken",
    ),
    line(
        Fault::EventLogBeforeSize,
        "event-log-before-size",
        "an event report gives 0002h for the log before 0016h",
    ),
    line(
        Fault::RefusedMakeKeepsDevice,
        "refused-make-keeps-device",
        "the old device is used on after a refused make",
    ),
    line(
        Fault::RefusedMakeIsPersistent,
        "refused-make-is-persistent",
        "the device beside a refused make has a persistent unit",
    ),
    line(
        Fault::RefusedMakeIsOfMostUnits,
        "refused-make-is-of-most-units",
        "the device beside a refused make has 1,023 volatile units",
    ),
    line(
        Fault::LaterMakeKeepsClock,
        "later-make-keeps-clock",
        "a later make keeps the old device's clock",
    ),
    line(
        Fault::LaterMakeKeepsPolicy,
        "later-make-keeps-policy",
        "a later make keeps the old device's policy",
    ),
    line(
        Fault::LaterMakeKeepsPoison,
        "later-make-keeps-poison",
        "a later make keeps the old device's poison list",
    ),
    line(
        Fault::LaterMakeKeepsFlag,
        "later-make-keeps-flag",
        "a later make keeps the old device's poison overflow flag and time",
    ),
    line(
        Fault::LaterMakeKeepsHandles,
        "later-make-keeps-handles",
        "a later make goes on with the old device's event handles",
    ),
    line(
        Fault::HighestWaitingOneMore,
        "highest-waiting-one-more",
        "event status gives the highest log waiting plus one",
    ),
    line(
        Fault::NoneWaitingIs0,
        "none-waiting-is-0",
        "event status gives log 0 as the highest if none is waiting",
    ),
    line(
        Fault::WaitingCountsRecords,
        "waiting-counts-records",
        "event status counts records, not logs",
    ),
    line(
        Fault::TotalCountsDropped,
        "total-counts-dropped",
        "the damage total counts dropped lines too",
    ),
    line(
        Fault::TotalCountsEntries,
        "total-counts-entries",
        "the damage total counts entries, not lines",
    ),
    line(
        Fault::RefusedEventIsStored,
        "refused-event-is-stored",
        "a refused event report answers stored",
    ),
    line(
        Fault::RefusedMediaIsDropped,
        "refused-media-is-dropped",
        "a refused media report answers its lines as dropped",
    ),
    line(
        Fault::RefusedLineIsClean,
        "refused-line-is-clean",
        "a refused line test answers Clean",
    ),
    line(
        Fault::VectorOnEveryRecord,
        "vector-on-every-record",
        "every stored record carries the vector",
    ),
    line(
        Fault::VectorOfCountedEvent,
        "vector-of-counted-event",
        "an event that is counted as overflow carries the vector",
    ),
    line(
        Fault::VectorOfHandle1Only,
        "vector-of-handle-1-only",
        "a log's vector is carried by its first record with handle 1 only",
    ),
    line(
        Fault::VectorWhileDisabled,
        "vector-while-disabled",
        "the vector is carried although the log's interrupts are disabled",
    ),
    line(
        Fault::VectorOfLog4Is0,
        "vector-of-log-4-is-0",
        "log 4 has the vector 0 of its setting 01h",
    ),
    line(
        Fault::VectorIsSetting,
        "vector-is-setting",
        "the log's setting is carried in place of its vector",
    ),
    line(
        Fault::RefusedEventHasVector,
        "refused-event-has-vector",
        "a refused event report carries vector 2",
    ),
    line(
        Fault::InjectVectorNotTold,
        "inject-vector-not-told",
        "an injection carries no vector",
    ),
    line(
        Fault::InjectVectorOfCovered,
        "inject-vector-of-covered",
        "an injection of a covered line carries the vector while log 0 is empty",
    ),
    line(
        Fault::RoomAfterReserved,
        "room-after-reserved",
        "0002h for a reserved place or a mode is given before 0100h",
    ),
    line(
        Fault::ReservedBeforePayloadLimit,
        "reserved-before-payload-limit",
        "0002h for a reserved place or a mode is given before 0016h for a payload over 2,048 bytes",
    ),
    line(
        Fault::AreaAfterPayloadLimit,
        "area-after-payload-limit",
        "0016h for a payload over 2,048 bytes is given before 0100h for the label area",
    ),
    line(
        Fault::AreaAfterOpcode,
        "area-after-opcode",
        "0003h is given before 0100h for the label area",
    ),
    line(
        Fault::AreaAfterLength,
        "area-after-length",
        "0016h is given before 0100h for the label area",
    ),
    line(
        Fault::AreaAfterOwnChecks,
        "area-after-own-checks",
        "the command's own checks come before 0100h for the label area",
    ),
    line(
        Fault::AreaAfterChange,
        "area-after-change",
        "a command that is refused for its label area changes device and area",
    ),
    line(
        Fault::AreaIs2h,
        "area-is-2h",
        "0002h is given for a label area that is not of 4,096 bytes",
    ),
    line(
        Fault::AreaLongerTaken,
        "area-longer-taken",
        "a label area over 4,096 bytes is taken",
    ),
    line(
        Fault::AreaShorterTaken,
        "area-shorter-taken",
        "a label area under 4,096 bytes is taken",
    ),
    line(
        Fault::AreaOfNoneTaken,
        "area-of-none-taken",
        "an empty label area is taken by commands that have nothing to do with it",
    ),
    line(
        Fault::AreaOfLabelsAlone,
        "area-of-labels-alone",
        "the label area is looked at by Get LSA and Set LSA alone",
    ),
    line(
        Fault::AreaOfLastBytes,
        "area-of-last-bytes",
        "the store's last bytes are lent, not its first",
    ),
    line(
        Fault::AreaForOneCommand,
        "area-for-one-command",
        "a size of the label area holds for one command",
    ),
    line(
        Fault::AreaClearsStore,
        "area-clears-store",
        "a size of the label area clears the store",
    ),
    line(
        Fault::AreaClearsRest,
        "area-clears-rest",
        "a size of the label area clears the bytes past it",
    ),
    line(
        Fault::MakeClearsStore,
        "make-clears-store",
        "a make clears the store",
    ),
    line(
        Fault::RefusedMakeClearsStore,
        "refused-make-clears-store",
        "a refused make clears the store",
    ),
    line(
        Fault::MakeLends4096,
        "make-lends-4096",
        "4,096 bytes of label area are lent after a make",
    ),
    line(
        Fault::LabelBytesOfLentAlone,
        "label-bytes-of-lent-alone",
        "bytes of the store past the area lent are shown as 0",
    ),
    line(
        Fault::GetLabelsOldBytes,
        "get-labels-old-bytes",
        "Get LSA leaves the buffer as it was",
    ),
    line(
        Fault::SetLabelsHasVector,
        "set-labels-has-vector",
        "Set LSA carries vector 2",
    ),
];

/// The planted faults of the host's side (W-202), which probe alone can see, in the
/// records RQ, RP, RW and WK.
pub const HOST_FAULTS: &[FaultLine] = &[
    line(
        Fault::HostExactRoomRefused,
        "host-exact-room-refused",
        "0100h is given for a room of just the bytes needed",
    ),
    line(
        Fault::HostWritesWhatFits,
        "host-writes-what-fits",
        "a room that is too small gets as many bytes as fit before 0100h",
    ),
    line(
        Fault::HandlesOver255Taken,
        "handles-over-255-taken",
        "over 255 handles are taken, the count in 8 bits",
    ),
    line(
        Fault::HandlesBeforeRoom,
        "handles-before-room",
        "0016h for over 255 handles is given before 0100h",
    ),
    line(
        Fault::RequestReservedJudged,
        "request-reserved-judged",
        "0002h is given for a request with a reserved flag bit or a mode of 2 or 3",
    ),
    line(
        Fault::RequestFlagsMasked,
        "request-flags-masked",
        "flag bits 1 to 7 of a Clear Event Records are built as 0",
    ),
    line(
        Fault::RequestReservedNotWritten,
        "request-reserved-not-written",
        "the reserved bytes of a Clear Event Records built are those of the room",
    ),
    line(
        Fault::AddressBitsIgnored,
        "address-bits-ignored",
        "bits 3 to 5 of a poison record's address are not looked at",
    ),
    line(
        Fault::RecordZerosIgnored,
        "record-zeros-ignored",
        "the zero bytes of a poison record are not looked at",
    ),
    line(
        Fault::ByteAfterFlagsIgnored,
        "byte-after-flags-ignored",
        "the zero byte after a reply's flags is not looked at",
    ),
    line(
        Fault::PlaceFrom1,
        "place-from-1",
        "the place of a reserved bit is counted from 1",
    ),
    line(
        Fault::ReservedBeforeLength,
        "reserved-before-length",
        "0002h for the fields before the records is given before 0016h",
    ),
    line(
        Fault::CountInOneByte,
        "count-in-one-byte",
        "the count of a reply is read from its low byte",
    ),
    line(
        Fault::SurplusBytesTaken,
        "surplus-bytes-taken",
        "a reply longer than it says is read",
    ),
    line(
        Fault::AskedIgnored,
        "asked-ignored",
        "a Get Log reply of any length is read",
    ),
    line(
        Fault::ReplyOverMailboxRefused,
        "reply-over-mailbox-refused",
        "0016h is given for a reply over 2,048 bytes",
    ),
    line(
        Fault::FlagBitsReserved,
        "flag-bits-reserved",
        "bits 2 to 7 of a reply's flags are reserved",
    ),
    line(
        Fault::FlagBitsNotWritten,
        "flag-bits-not-written",
        "bits 2 to 7 of a poison list's flags are not written again",
    ),
    line(
        Fault::IdentifyZerosReserved,
        "identify-zeros-reserved",
        "the fields that Identify gives as 0 are reserved",
    ),
    line(
        Fault::IdentifyLastSizeEarly,
        "identify-last-size-early",
        "the size of log 4 is read from the two bytes before it",
    ),
    line(
        Fault::IdentifyLabelSizeJudged,
        "identify-label-size-judged",
        "0002h is given for a captured label size that is not 4,096",
    ),
    line(
        Fault::RoomBeforeReading,
        "room-before-reading",
        "0100h for a reply written again is given before its reading",
    ),
    line(
        Fault::WalkOddLineFirst,
        "walk-odd-line-first",
        "the odd line of a halved range goes to the first half",
    ),
    line(
        Fault::WalkOddLineLost,
        "walk-odd-line-lost",
        "both halves of a halved range have as many lines",
    ),
    line(
        Fault::WalkSecondHalfSkipped,
        "walk-second-half-skipped",
        "the second half of a halved range is not asked for",
    ),
    line(
        Fault::WalkFirstHalfTwice,
        "walk-first-half-twice",
        "the first half of a halved range is asked for twice, if it is not halved again",
    ),
    line(
        Fault::WalkStopsAt126,
        "walk-stops-at-126",
        "the walk gives the first reply's records, whatever it says of more",
    ),
    line(
        Fault::WalkJoinsNeighbours,
        "walk-joins-neighbours",
        "parts of an entry cut by halving are joined again",
    ),
    line(
        Fault::WalkInLentArea,
        "walk-in-lent-area",
        "a walk is refused while another size than 4,096 is lent for labels",
    ),
    line(
        Fault::WalkRefusedIsEmpty,
        "walk-refused-is-empty",
        "a walk over a refused range succeeds with no records",
    ),
];

/// Whether a fault is one of the host's side: it shows in no stream without such a record.
pub fn of_host(fault: Fault) -> bool {
    let mut all = HOST_FAULTS.iter().chain(sanitize::HOST_FAULTS);
    all.any(|line| line.fault == fault)
}

/// Whether a fault is one of the pool manager's mailbox: it shows in no stream without one of
/// its commands.
pub fn of_pool(fault: Fault) -> bool {
    pool::PROBE_FAULTS.iter().any(|line| line.fault == fault)
}
