//! Planted faults of document 02, W-207: the kinds of errors about Sanitize, its time, its end
//! and disabled media, and the lines that name them.

use super::{line, Fault, FaultLine};
use crate::device::numbers::{opcode, Refusal};
use crate::device::sanitize::Untimed;

/// How a row of the table of durations is wrong.
#[derive(Clone, Copy, Debug, PartialEq, Eq)]
pub enum WrongRow {
    OneUnitLess,
    OneUnitMore,
    OneSecondMore,
}

/// How the time of the work is wrong.
#[derive(Clone, Copy, Debug, PartialEq, Eq)]
pub enum WrongTime {
    Later,
    Earlier,
    AtNextCall,
    Wraps,
    StaysAtMost,
    ElapsedWraps,
    ByDeviceClock,
    EarlierCallIsBegin,
    SetTimestampEnds,
    SetTimestampBegins,
    ByVolatile,
    ByPersistent,
    InMicroseconds,
    In32Bits,
}

/// How the command and its start are wrong.
#[derive(Clone, Copy, Debug, PartialEq, Eq)]
pub enum WrongStart {
    TakesPayload,
    IsSuccess,
    ChangesNothing,
    HasReply,
    EmptiesLogs,
    ClearsLabels,
    ReportsEvent,
    EffectIs0,
    EffectIs64,
    NotInEffectsLog,
    BeforePoisonInEffectsLog,
    EffectsSizeIs56,
    GetLogEndsAt56,
    HasVector,
    WritesBuffer,
}

/// How the ending is wrong: by which calls it happens, and what it leaves.
#[derive(Clone, Copy, Debug, PartialEq, Eq)]
pub enum WrongEnding {
    OnSuccessOnly,
    NotOnRefusal(Refusal),
    NotByEvents,
    NotByRefusedEvents,
    NotByMedia,
    NotByRefusedMedia,
    ByCommandsOnly,
    NotByReads,
    NotBySanitize,
    AfterCall,
    LogsAfterCall,
    LogsKept,
    Log0Only,
    Log4Kept,
    OverflowCountsKept,
    OverflowTimesKept,
    HandlesRestarted,
    ListEmptied,
    FlagCleared,
    PolicyReset,
    ClockReset,
    LabelsCleared,
    MediaStaysDisabled,
    HappensAgain,
    ReportsEvent,
    VectorByOldLog,
}

/// What is wrong while media is disabled.
#[derive(Clone, Copy, Debug, PartialEq, Eq)]
pub enum WrongDisabled {
    LineAsEnabled,
    LineBeforeChecks,
    LineWithType,
    LineIsUnknown,
    DamagedFirst,
    UnknownFirst,
    RefusedLineIsDisabled,
    /// By the command's opcode, as those below.
    NotRefused(u16),
    AfterOwnChecks(u16),
    BeforeLength(u16),
    RefusedButDone(u16),
    AlsoRefused(u16),
    CoveredInjected,
    Is6h,
    SanitizeIs7h,
    SanitizeBeginsAgain,
    SanitizeStartedAgain,
    MediaRefused,
    EventsRefused,
    StatusIsNone,
    TotalIs0,
    KeptByMake,
    WalkRefused,
    /// By a call that carries no time.
    EndedBy(Untimed),
}

/// Those that bench and probe can both see.
pub const FAULTS: &[FaultLine] = &[
    line(
        Fault::SanitizeRow(0, WrongRow::OneUnitLess),
        "sanitize-4-s-to-1-units",
        "2 units do not take 4 seconds but those of the next row",
    ),
    line(
        Fault::SanitizeRow(0, WrongRow::OneUnitMore),
        "sanitize-4-s-to-3-units",
        "3 units take 4 seconds, as 2 units do",
    ),
    line(
        Fault::SanitizeRow(0, WrongRow::OneSecondMore),
        "sanitize-5-s-for-4-s",
        "5 seconds stand in the table for 4",
    ),
    line(
        Fault::SanitizeRow(1, WrongRow::OneUnitLess),
        "sanitize-8-s-to-3-units",
        "4 units do not take 8 seconds but those of the next row",
    ),
    line(
        Fault::SanitizeRow(1, WrongRow::OneUnitMore),
        "sanitize-8-s-to-5-units",
        "5 units take 8 seconds, as 4 units do",
    ),
    line(
        Fault::SanitizeRow(1, WrongRow::OneSecondMore),
        "sanitize-9-s-for-8-s",
        "9 seconds stand in the table for 8",
    ),
    line(
        Fault::SanitizeRow(2, WrongRow::OneUnitLess),
        "sanitize-15-s-to-7-units",
        "8 units do not take 15 seconds but those of the next row",
    ),
    line(
        Fault::SanitizeRow(2, WrongRow::OneUnitMore),
        "sanitize-15-s-to-9-units",
        "9 units take 15 seconds, as 8 units do",
    ),
    line(
        Fault::SanitizeRow(2, WrongRow::OneSecondMore),
        "sanitize-16-s-for-15-s",
        "16 seconds stand in the table for 15",
    ),
    line(
        Fault::SanitizeRow(3, WrongRow::OneUnitLess),
        "sanitize-30-s-to-15-units",
        "16 units do not take 30 seconds but those of the next row",
    ),
    line(
        Fault::SanitizeRow(3, WrongRow::OneUnitMore),
        "sanitize-30-s-to-17-units",
        "17 units take 30 seconds, as 16 units do",
    ),
    line(
        Fault::SanitizeRow(3, WrongRow::OneSecondMore),
        "sanitize-31-s-for-30-s",
        "31 seconds stand in the table for 30",
    ),
    line(
        Fault::SanitizeRow(4, WrongRow::OneUnitLess),
        "sanitize-60-s-to-31-units",
        "32 units do not take 60 seconds but those of the next row",
    ),
    line(
        Fault::SanitizeRow(4, WrongRow::OneUnitMore),
        "sanitize-60-s-to-33-units",
        "33 units take 60 seconds, as 32 units do",
    ),
    line(
        Fault::SanitizeRow(4, WrongRow::OneSecondMore),
        "sanitize-61-s-for-60-s",
        "61 seconds stand in the table for 60",
    ),
    line(
        Fault::SanitizeRow(5, WrongRow::OneUnitLess),
        "sanitize-120-s-to-63-units",
        "64 units do not take 120 seconds but those of the next row",
    ),
    line(
        Fault::SanitizeRow(5, WrongRow::OneUnitMore),
        "sanitize-120-s-to-65-units",
        "65 units take 120 seconds, as 64 units do",
    ),
    line(
        Fault::SanitizeRow(5, WrongRow::OneSecondMore),
        "sanitize-121-s-for-120-s",
        "121 seconds stand in the table for 120",
    ),
    line(
        Fault::SanitizeRow(6, WrongRow::OneUnitLess),
        "sanitize-240-s-to-127-units",
        "128 units do not take 240 seconds but those of the next row",
    ),
    line(
        Fault::SanitizeRow(6, WrongRow::OneUnitMore),
        "sanitize-240-s-to-129-units",
        "129 units take 240 seconds, as 128 units do",
    ),
    line(
        Fault::SanitizeRow(6, WrongRow::OneSecondMore),
        "sanitize-241-s-for-240-s",
        "241 seconds stand in the table for 240",
    ),
    line(
        Fault::SanitizeRow(7, WrongRow::OneUnitLess),
        "sanitize-480-s-to-255-units",
        "256 units do not take 480 seconds but those of the next row",
    ),
    line(
        Fault::SanitizeRow(7, WrongRow::OneUnitMore),
        "sanitize-480-s-to-257-units",
        "257 units take 480 seconds, as 256 units do",
    ),
    line(
        Fault::SanitizeRow(7, WrongRow::OneSecondMore),
        "sanitize-481-s-for-480-s",
        "481 seconds stand in the table for 480",
    ),
    line(
        Fault::SanitizeRow(8, WrongRow::OneUnitLess),
        "sanitize-900-s-to-511-units",
        "512 units do not take 900 seconds but those of the next row",
    ),
    line(
        Fault::SanitizeRow(8, WrongRow::OneUnitMore),
        "sanitize-900-s-to-513-units",
        "513 units take 900 seconds, as 512 units do",
    ),
    line(
        Fault::SanitizeRow(8, WrongRow::OneSecondMore),
        "sanitize-901-s-for-900-s",
        "901 seconds stand in the table for 900",
    ),
    line(
        Fault::SanitizeRow(9, WrongRow::OneSecondMore),
        "sanitize-1801-s-for-1800-s",
        "1,801 seconds stand in the table for 1,800",
    ),
    line(
        Fault::SanitizeTime(WrongTime::Later),
        "sanitize-due-later",
        "the work is due one nanosecond later",
    ),
    line(
        Fault::SanitizeTime(WrongTime::Earlier),
        "sanitize-due-earlier",
        "the work is due one nanosecond earlier",
    ),
    line(
        Fault::SanitizeTime(WrongTime::AtNextCall),
        "sanitize-due-at-next-call",
        "the next call with a time ends the work",
    ),
    line(
        Fault::SanitizeTime(WrongTime::Wraps),
        "sanitize-due-wraps",
        "the due time is added up in 64 bits and wraps",
    ),
    line(
        Fault::SanitizeTime(WrongTime::StaysAtMost),
        "sanitize-due-stays-at-most",
        "a due time above 2^64-1 is 2^64-1",
    ),
    line(
        Fault::SanitizeTime(WrongTime::ElapsedWraps),
        "sanitize-elapsed-wraps",
        "a time before the beginning is far past it",
    ),
    line(
        Fault::SanitizeTime(WrongTime::ByDeviceClock),
        "sanitize-by-device-clock",
        "beginning and due time are of the device time",
    ),
    line(
        Fault::SanitizeTime(WrongTime::EarlierCallIsBegin),
        "sanitize-earlier-call-is-begin",
        "a call before the beginning becomes the beginning",
    ),
    line(
        Fault::SanitizeTime(WrongTime::SetTimestampEnds),
        "sanitize-ended-by-set-timestamp",
        "Set Timestamp ends the work",
    ),
    line(
        Fault::SanitizeTime(WrongTime::SetTimestampBegins),
        "sanitize-begins-at-set-timestamp",
        "Set Timestamp is a new beginning of the work",
    ),
    line(
        Fault::SanitizeTime(WrongTime::ByVolatile),
        "sanitize-by-volatile",
        "the duration is that of the volatile units alone",
    ),
    line(
        Fault::SanitizeTime(WrongTime::ByPersistent),
        "sanitize-by-persistent",
        "the duration is that of the persistent units alone",
    ),
    line(
        Fault::SanitizeTime(WrongTime::InMicroseconds),
        "sanitize-in-microseconds",
        "the duration is worked out in microseconds",
    ),
    line(
        Fault::SanitizeTime(WrongTime::In32Bits),
        "sanitize-in-32-bits",
        "the duration is worked out in 32 bits",
    ),
    line(
        Fault::SanitizeStart(WrongStart::TakesPayload),
        "sanitize-takes-payload",
        "Sanitize takes a payload of any length",
    ),
    line(
        Fault::SanitizeStart(WrongStart::IsSuccess),
        "sanitize-is-success",
        "Sanitize answers 0000h",
    ),
    line(
        Fault::SanitizeStart(WrongStart::ChangesNothing),
        "sanitize-changes-nothing",
        "Sanitize answers 0001h and leaves the device as it was",
    ),
    line(
        Fault::SanitizeStart(WrongStart::HasReply),
        "sanitize-has-reply",
        "Sanitize replies the caller's time",
    ),
    line(
        Fault::SanitizeStart(WrongStart::EmptiesLogs),
        "sanitize-empties-logs",
        "the logs are emptied at the start",
    ),
    line(
        Fault::SanitizeStart(WrongStart::ClearsLabels),
        "sanitize-clears-labels",
        "Sanitize clears the label area",
    ),
    line(
        Fault::SanitizeStart(WrongStart::ReportsEvent),
        "sanitize-reports-event",
        "Sanitize reports an event to log 0",
    ),
    line(
        Fault::SanitizeStart(WrongStart::EffectIs0),
        "sanitize-effect-is-0",
        "the effect of 4400h is 0",
    ),
    line(
        Fault::SanitizeStart(WrongStart::EffectIs64),
        "sanitize-effect-is-64",
        "the effect of 4400h is 64, not 64h",
    ),
    line(
        Fault::SanitizeStart(WrongStart::NotInEffectsLog),
        "sanitize-not-in-effects-log",
        "the effects log has 56 bytes, as before W-207",
    ),
    line(
        Fault::SanitizeStart(WrongStart::BeforePoisonInEffectsLog),
        "sanitize-before-poison-in-effects-log",
        "4400h stands before 4300h in the effects log",
    ),
    line(
        Fault::SanitizeStart(WrongStart::EffectsSizeIs56),
        "effects-size-is-56",
        "Get Supported Logs gives the effects log's size as 56",
    ),
    line(
        Fault::SanitizeStart(WrongStart::GetLogEndsAt56),
        "get-log-ends-at-56",
        "Get Log refuses what lies past byte 56 of the effects log",
    ),
    line(
        Fault::Ending(WrongEnding::OnSuccessOnly),
        "ending-on-success-only",
        "an ending is lost where the call is refused",
    ),
    line(
        Fault::Ending(WrongEnding::NotOnRefusal(Refusal::InvalidInput)),
        "ending-not-on-2h",
        "an ending is lost where the call is refused with 0002h",
    ),
    line(
        Fault::Ending(WrongEnding::NotOnRefusal(Refusal::Unsupported)),
        "ending-not-on-3h",
        "an ending is lost where the call is refused with 0003h",
    ),
    line(
        Fault::Ending(WrongEnding::NotOnRefusal(Refusal::InvalidHandle)),
        "ending-not-on-eh",
        "an ending is lost where the call is refused with 000Eh",
    ),
    line(
        Fault::Ending(WrongEnding::NotOnRefusal(Refusal::InvalidPhysicalAddress)),
        "ending-not-on-fh",
        "an ending is lost where the call is refused with 000Fh",
    ),
    line(
        Fault::Ending(WrongEnding::NotOnRefusal(Refusal::InjectPoisonLimit)),
        "ending-not-on-10h",
        "an ending is lost where the call is refused with 0010h",
    ),
    line(
        Fault::Ending(WrongEnding::NotOnRefusal(Refusal::InvalidPayloadLength)),
        "ending-not-on-16h",
        "an ending is lost where the call is refused with 0016h",
    ),
    line(
        Fault::Ending(WrongEnding::NotOnRefusal(Refusal::InvalidLog)),
        "ending-not-on-17h",
        "an ending is lost where the call is refused with 0017h",
    ),
    line(
        Fault::Ending(WrongEnding::NotByEvents),
        "ending-not-by-events",
        "an event report ends nothing",
    ),
    line(
        Fault::Ending(WrongEnding::NotByRefusedEvents),
        "ending-not-by-refused-events",
        "a refused event report ends nothing",
    ),
    line(
        Fault::Ending(WrongEnding::NotByMedia),
        "ending-not-by-media",
        "a media report ends nothing",
    ),
    line(
        Fault::Ending(WrongEnding::NotByRefusedMedia),
        "ending-not-by-refused-media",
        "a refused media report ends nothing",
    ),
    line(
        Fault::Ending(WrongEnding::ByCommandsOnly),
        "ending-by-commands-only",
        "event and media reports end nothing",
    ),
    line(
        Fault::Ending(WrongEnding::NotByReads),
        "ending-not-by-reads",
        "a command that only replies ends nothing",
    ),
    line(
        Fault::Ending(WrongEnding::NotBySanitize),
        "ending-not-by-sanitize",
        "a Sanitize at a due time is refused with 0006h",
    ),
    line(
        Fault::Ending(WrongEnding::AfterCall),
        "ending-after-call",
        "the call is done on the device before the ending",
    ),
    line(
        Fault::Ending(WrongEnding::LogsAfterCall),
        "ending-empties-logs-after-call",
        "media is enabled before the call and the logs are emptied after it",
    ),
    line(
        Fault::Ending(WrongEnding::LogsKept),
        "ending-keeps-logs",
        "an ending leaves the logs as they were",
    ),
    line(
        Fault::Ending(WrongEnding::Log0Only),
        "ending-empties-log-0-only",
        "an ending empties log 0 alone",
    ),
    line(
        Fault::Ending(WrongEnding::Log4Kept),
        "ending-keeps-log-4",
        "an ending empties logs 0 to 3",
    ),
    line(
        Fault::Ending(WrongEnding::OverflowCountsKept),
        "ending-keeps-overflow-counts",
        "an ending leaves the overflow counts",
    ),
    line(
        Fault::Ending(WrongEnding::OverflowTimesKept),
        "ending-keeps-overflow-times",
        "an ending leaves the overflow times",
    ),
    line(
        Fault::Ending(WrongEnding::HandlesRestarted),
        "ending-restarts-handles",
        "handles start at 1 after an ending",
    ),
    line(
        Fault::Ending(WrongEnding::ListEmptied),
        "ending-empties-list",
        "an ending empties the poison list and keeps its flag",
    ),
    line(
        Fault::Ending(WrongEnding::FlagCleared),
        "ending-clears-flag",
        "an ending clears the poison overflow flag",
    ),
    line(
        Fault::Ending(WrongEnding::PolicyReset),
        "ending-resets-policy",
        "an ending disables the interrupts of all logs",
    ),
    line(
        Fault::Ending(WrongEnding::ClockReset),
        "ending-resets-clock",
        "an ending makes the clock one that is not set",
    ),
    line(
        Fault::Ending(WrongEnding::LabelsCleared),
        "ending-clears-labels",
        "a command that ends the work clears the label area",
    ),
    line(
        Fault::Ending(WrongEnding::MediaStaysDisabled),
        "ending-leaves-media-disabled",
        "an ending empties the logs and leaves media disabled",
    ),
    line(
        Fault::Ending(WrongEnding::HappensAgain),
        "ending-happens-again",
        "each call after a due time empties the logs again",
    ),
    line(
        Fault::Ending(WrongEnding::ReportsEvent),
        "ending-reports-event",
        "an ending reports an event to log 0",
    ),
    line(
        Fault::Disabled(WrongDisabled::EndedBy(Untimed::Line)),
        "disabled-ended-by-line-test",
        "a line test ends the work",
    ),
    line(
        Fault::Disabled(WrongDisabled::LineAsEnabled),
        "disabled-line-as-enabled",
        "a line test answers as if media were enabled",
    ),
    line(
        Fault::Disabled(WrongDisabled::LineBeforeChecks),
        "disabled-line-before-checks",
        "a line test answers Disabled before its address checks",
    ),
    line(
        Fault::Disabled(WrongDisabled::LineWithType),
        "disabled-line-with-type",
        "Disabled comes with the type of the line's entry",
    ),
    line(
        Fault::Disabled(WrongDisabled::LineIsUnknown),
        "disabled-line-is-unknown",
        "a line test answers Unknown while media is disabled",
    ),
    line(
        Fault::Disabled(WrongDisabled::DamagedFirst),
        "disabled-damaged-first",
        "a line test answers Damaged for a covered line while media is disabled",
    ),
    line(
        Fault::Disabled(WrongDisabled::UnknownFirst),
        "disabled-unknown-first",
        "a line test answers Unknown for an uncovered line with the flag set while media is disabled",
    ),
    line(
        Fault::Disabled(WrongDisabled::NotRefused(opcode::INJECT_POISON)),
        "disabled-inject-taken",
        "Inject Poison is taken while media is disabled",
    ),
    line(
        Fault::Disabled(WrongDisabled::NotRefused(opcode::CLEAR_POISON)),
        "disabled-clear-taken",
        "Clear Poison is taken while media is disabled",
    ),
    line(
        Fault::Disabled(WrongDisabled::NotRefused(opcode::GET_LSA)),
        "disabled-get-labels-taken",
        "Get LSA is taken while media is disabled",
    ),
    line(
        Fault::Disabled(WrongDisabled::NotRefused(opcode::SET_LSA)),
        "disabled-set-labels-taken",
        "Set LSA is taken while media is disabled",
    ),
    line(
        Fault::Disabled(WrongDisabled::AfterOwnChecks(opcode::INJECT_POISON)),
        "disabled-inject-after-own-checks",
        "Inject Poison's own checks come before 0007h",
    ),
    line(
        Fault::Disabled(WrongDisabled::AfterOwnChecks(opcode::CLEAR_POISON)),
        "disabled-clear-after-own-checks",
        "Clear Poison's own checks come before 0007h",
    ),
    line(
        Fault::Disabled(WrongDisabled::AfterOwnChecks(opcode::GET_LSA)),
        "disabled-get-labels-after-own-checks",
        "Get LSA's own checks come before 0007h",
    ),
    line(
        Fault::Disabled(WrongDisabled::AfterOwnChecks(opcode::SET_LSA)),
        "disabled-set-labels-after-own-checks",
        "Set LSA's own checks come before 0007h",
    ),
    line(
        Fault::Disabled(WrongDisabled::BeforeLength(opcode::INJECT_POISON)),
        "disabled-inject-before-length",
        "Inject Poison gives 0007h before 0016h",
    ),
    line(
        Fault::Disabled(WrongDisabled::BeforeLength(opcode::CLEAR_POISON)),
        "disabled-clear-before-length",
        "Clear Poison gives 0007h before 0016h",
    ),
    line(
        Fault::Disabled(WrongDisabled::BeforeLength(opcode::GET_LSA)),
        "disabled-get-labels-before-length",
        "Get LSA gives 0007h before 0016h",
    ),
    line(
        Fault::Disabled(WrongDisabled::BeforeLength(opcode::SET_LSA)),
        "disabled-set-labels-before-length",
        "Set LSA gives 0007h before 0016h",
    ),
    line(
        Fault::Disabled(WrongDisabled::BeforeLength(opcode::SANITIZE)),
        "disabled-sanitize-before-length",
        "Sanitize gives 0006h before 0016h",
    ),
    line(
        Fault::Disabled(WrongDisabled::RefusedButDone(opcode::INJECT_POISON)),
        "disabled-inject-done",
        "Inject Poison gives 0007h and does its work all the same",
    ),
    line(
        Fault::Disabled(WrongDisabled::RefusedButDone(opcode::CLEAR_POISON)),
        "disabled-clear-done",
        "Clear Poison gives 0007h and does its work all the same",
    ),
    line(
        Fault::Disabled(WrongDisabled::RefusedButDone(opcode::SANITIZE)),
        "disabled-sanitize-done",
        "Sanitize while one runs gives 0006h and begins again all the same",
    ),
    line(
        Fault::Disabled(WrongDisabled::RefusedButDone(opcode::SET_LSA)),
        "disabled-set-labels-done",
        "Set LSA gives 0007h and does its work all the same",
    ),
    line(
        Fault::Disabled(WrongDisabled::AlsoRefused(opcode::GET_EVENT_RECORDS)),
        "disabled-0100h-refused",
        "Get Event Records is refused with 0007h too",
    ),
    line(
        Fault::Disabled(WrongDisabled::AlsoRefused(opcode::CLEAR_EVENT_RECORDS)),
        "disabled-0101h-refused",
        "Clear Event Records is refused with 0007h too",
    ),
    line(
        Fault::Disabled(WrongDisabled::AlsoRefused(opcode::GET_POLICY)),
        "disabled-0102h-refused",
        "Get Event Interrupt Policy is refused with 0007h too",
    ),
    line(
        Fault::Disabled(WrongDisabled::AlsoRefused(opcode::SET_POLICY)),
        "disabled-0103h-refused",
        "Set Event Interrupt Policy is refused with 0007h too",
    ),
    line(
        Fault::Disabled(WrongDisabled::AlsoRefused(opcode::GET_TIMESTAMP)),
        "disabled-0300h-refused",
        "Get Timestamp is refused with 0007h too",
    ),
    line(
        Fault::Disabled(WrongDisabled::AlsoRefused(opcode::SET_TIMESTAMP)),
        "disabled-0301h-refused",
        "Set Timestamp is refused with 0007h too",
    ),
    line(
        Fault::Disabled(WrongDisabled::AlsoRefused(opcode::GET_SUPPORTED_LOGS)),
        "disabled-0400h-refused",
        "Get Supported Logs is refused with 0007h too",
    ),
    line(
        Fault::Disabled(WrongDisabled::AlsoRefused(opcode::GET_LOG)),
        "disabled-0401h-refused",
        "Get Log is refused with 0007h too",
    ),
    line(
        Fault::Disabled(WrongDisabled::AlsoRefused(opcode::IDENTIFY)),
        "disabled-4000h-refused",
        "Identify is refused with 0007h too",
    ),
    line(
        Fault::Disabled(WrongDisabled::AlsoRefused(opcode::GET_POISON_LIST)),
        "disabled-4300h-refused",
        "Get Poison List is refused with 0007h too",
    ),
    line(
        Fault::Disabled(WrongDisabled::CoveredInjected),
        "disabled-covered-injected",
        "an injection of a covered line is Success while media is disabled",
    ),
    line(
        Fault::Disabled(WrongDisabled::Is6h),
        "disabled-is-6h",
        "0006h is given for 0007h",
    ),
    line(
        Fault::Disabled(WrongDisabled::SanitizeIs7h),
        "disabled-sanitize-is-7h",
        "Sanitize while one runs gives 0007h",
    ),
    line(
        Fault::Disabled(WrongDisabled::SanitizeBeginsAgain),
        "disabled-sanitize-begins-again",
        "Sanitize while one runs begins again with 0001h",
    ),
    line(
        Fault::Disabled(WrongDisabled::SanitizeStartedAgain),
        "disabled-sanitize-started-again",
        "Sanitize while one runs gives 0001h and changes nothing",
    ),
    line(
        Fault::Disabled(WrongDisabled::MediaRefused),
        "disabled-media-refused",
        "a media report is refused with 0007h while media is disabled",
    ),
    line(
        Fault::Disabled(WrongDisabled::EventsRefused),
        "disabled-events-refused",
        "an event report is refused with 0007h while media is disabled",
    ),
];

/// Those that probe alone can see.
pub const PROBE_FAULTS: &[FaultLine] = &[
    line(
        Fault::SanitizeStart(WrongStart::HasVector),
        "sanitize-has-vector",
        "Sanitize carries vector 2",
    ),
    line(
        Fault::SanitizeStart(WrongStart::WritesBuffer),
        "sanitize-writes-buffer",
        "Sanitize fills the buffer with zeros",
    ),
    line(
        Fault::Ending(WrongEnding::VectorByOldLog),
        "ending-vector-by-old-log",
        "an event at a due time carries its vector only if its log was empty before the ending",
    ),
    line(
        Fault::Ending(WrongEnding::NotOnRefusal(Refusal::ReplyBufferTooSmall)),
        "ending-not-on-100h",
        "an ending is lost where the call is refused with 0100h",
    ),
    line(
        Fault::Disabled(WrongDisabled::RefusedLineIsDisabled),
        "disabled-refused-line",
        "a refused line test answers Disabled while media is disabled",
    ),
    line(
        Fault::Disabled(WrongDisabled::EndedBy(Untimed::Status)),
        "disabled-ended-by-status",
        "event status ends the work",
    ),
    line(
        Fault::Disabled(WrongDisabled::EndedBy(Untimed::Total)),
        "disabled-ended-by-total",
        "the damage total ends the work",
    ),
    line(
        Fault::Disabled(WrongDisabled::StatusIsNone),
        "disabled-status-is-none",
        "event status gives no log waiting while media is disabled",
    ),
    line(
        Fault::Disabled(WrongDisabled::TotalIs0),
        "disabled-total-is-0",
        "the damage total is 0 while media is disabled",
    ),
    line(
        Fault::Disabled(WrongDisabled::KeptByMake),
        "disabled-kept-by-make",
        "a later make keeps media disabled",
    ),
];

/// Those of the walk, which show only where a stream has one.
pub const HOST_FAULTS: &[FaultLine] = &[
    line(
        Fault::Disabled(WrongDisabled::WalkRefused),
        "disabled-walk-refused",
        "a walk gives 0007h while media is disabled",
    ),
    line(
        Fault::Disabled(WrongDisabled::EndedBy(Untimed::Walk)),
        "disabled-ended-by-walk",
        "a walk ends the work",
    ),
];
