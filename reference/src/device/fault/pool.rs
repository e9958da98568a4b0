//! Planted faults of document 02, W-208: the kinds of errors about the pool manager's mailbox,
//! and the lines that name them.

use super::{line, Fault, FaultLine};
use crate::device::numbers::opcode;
use crate::device::Check;

/// How the pool manager's mailbox is wrong.
#[derive(Clone, Copy, Debug, PartialEq, Eq)]
pub enum WrongPool {
    /// The first check comes directly after the second one.
    After(Check, Check),
    /// A check that is left out.
    Without(Check),
    RoomByReply,
    Room2048Refused,
    PayloadOf2048Refused,
    PayloadOf2049Taken,
    UnknownIs15h,
    OpcodeIn15Bits,
    OthersAre3h,
    MediaBeforeMailbox,
    /// By the command's opcode, as those below.
    Taken(u16),
    Refused(u16),
    RefusedButDone(u16),
    RefusedWhileDisabled(u16),
    ListsEighth(u16),
    ListsSix(u16),
    FirstListsSeven,
    FirstSizeIs28,
    SizeOfFirst,
    LogOfFirst,
    EndOfFirst,
    BytesOfFirst,
    EndIn32Bits,
    IdentifierIgnored,
    RangeBeforeIdentifier,
    LabelSizeIs0,
    TimeIsCallers,
    TimeIs0,
    EndsWork,
    EndsWorkAfterwards,
    RefusedEndsWork,
    RepliesAfterEnding,
    LogsEmptyWhileDisabled,
    BeginsWorkAgain,
    EarlierIsBegin,
    OthersReported,
    SetsClock,
    ClearsRecords,
    ClearsOverflow,
    DisablesInterrupts,
    ClearsFlag,
    BytePastReply,
    RestCleared,
    WritesOnRefusal,
    ByLentArea,
    ClearsStore,
    Lends4096,
    HasVectorColumn,
}

/// Those about the first mailbox, which bench and probe can both see.
pub const FAULTS: &[FaultLine] = &[
    line(
        Fault::Pool(WrongPool::FirstListsSeven),
        "first-effects-log-lists-seven",
        "the first mailbox's effects log has the seven commands of the pool's",
    ),
    line(
        Fault::Pool(WrongPool::FirstSizeIs28),
        "first-effects-size-is-28",
        "the first mailbox gives the effects log's size as 28",
    ),
];

/// Those of its own commands, which show only where a stream has one.
pub const PROBE_FAULTS: &[FaultLine] = &[
    line(
        Fault::Pool(WrongPool::After(Check::Room, Check::PayloadLimit)),
        "pool-room-after-payload-limit",
        "0016h for a payload over 2,048 bytes is given before 0100h",
    ),
    line(
        Fault::Pool(WrongPool::After(Check::Room, Check::Opcode)),
        "pool-room-after-opcode",
        "0003h is given before 0100h",
    ),
    line(
        Fault::Pool(WrongPool::After(Check::Room, Check::Mailbox)),
        "pool-room-after-mailbox",
        "0015h is given before 0100h",
    ),
    line(
        Fault::Pool(WrongPool::After(Check::Room, Check::Length)),
        "pool-room-after-length",
        "0016h for a wrong length is given before 0100h",
    ),
    line(
        Fault::Pool(WrongPool::After(Check::Room, Check::Own)),
        "pool-room-after-own-checks",
        "the command's own checks come before 0100h",
    ),
    line(
        Fault::Pool(WrongPool::Without(Check::Room)),
        "pool-room-not-looked-at",
        "a reply buffer of any size is taken",
    ),
    line(
        Fault::Pool(WrongPool::RoomByReply),
        "pool-room-by-reply",
        "0100h is given only if the reply does not fit",
    ),
    line(
        Fault::Pool(WrongPool::Room2048Refused),
        "pool-room-2048-refused",
        "0100h is given for a buffer of 2,048 bytes",
    ),
    line(
        Fault::Pool(WrongPool::After(Check::PayloadLimit, Check::Opcode)),
        "pool-payload-limit-after-opcode",
        "0003h is given before 0016h for a payload over 2,048 bytes",
    ),
    line(
        Fault::Pool(WrongPool::After(Check::PayloadLimit, Check::Mailbox)),
        "pool-payload-limit-after-mailbox",
        "0003h and 0015h are given before 0016h for a payload over 2,048 bytes",
    ),
    line(
        Fault::Pool(WrongPool::After(Check::Mailbox, Check::Room)),
        "pool-mailbox-before-payload-limit",
        "0015h is given before 0016h for a payload over 2,048 bytes",
    ),
    line(
        Fault::Pool(WrongPool::Without(Check::PayloadLimit)),
        "pool-payload-limit-not-looked-at",
        "a payload over 2,048 bytes is looked at like any other",
    ),
    line(
        Fault::Pool(WrongPool::PayloadOf2048Refused),
        "pool-payload-of-2048-over",
        "a payload of 2,048 bytes counts as over the limit",
    ),
    line(
        Fault::Pool(WrongPool::PayloadOf2049Taken),
        "pool-payload-of-2049-not-over",
        "a payload of 2,049 bytes does not count as over the limit",
    ),
    line(
        Fault::Pool(WrongPool::UnknownIs15h),
        "pool-unknown-is-15h",
        "0015h is given for an opcode that the device has not",
    ),
    line(
        Fault::Pool(WrongPool::OpcodeIn15Bits),
        "pool-opcode-in-15-bits",
        "the greatest bit of an opcode is not looked at",
    ),
    line(
        Fault::Pool(WrongPool::OthersAre3h),
        "pool-others-are-3h",
        "0003h is given for an opcode that the device has and this mailbox has not",
    ),
    line(
        Fault::Pool(WrongPool::After(Check::Mailbox, Check::Length)),
        "pool-mailbox-after-length",
        "0016h for a wrong length is given before 0015h",
    ),
    line(
        Fault::Pool(WrongPool::Without(Check::Mailbox)),
        "pool-mailbox-not-looked-at",
        "every command of the device is answered",
    ),
    line(
        Fault::Pool(WrongPool::MediaBeforeMailbox),
        "pool-media-before-mailbox",
        "0006h and 0007h are given before 0015h while media is disabled",
    ),
    line(
        Fault::Pool(WrongPool::Taken(opcode::CLEAR_EVENT_RECORDS)),
        "pool-0101h-taken",
        "Clear Event Records is taken by the pool's mailbox",
    ),
    line(
        Fault::Pool(WrongPool::Taken(opcode::SET_POLICY)),
        "pool-0103h-taken",
        "Set Event Interrupt Policy is taken by the pool's mailbox",
    ),
    line(
        Fault::Pool(WrongPool::Taken(opcode::SET_TIMESTAMP)),
        "pool-0301h-taken",
        "Set Timestamp is taken by the pool's mailbox",
    ),
    line(
        Fault::Pool(WrongPool::Taken(opcode::GET_LSA)),
        "pool-4102h-taken",
        "Get LSA is taken by the pool's mailbox",
    ),
    line(
        Fault::Pool(WrongPool::Taken(opcode::SET_LSA)),
        "pool-4103h-taken",
        "Set LSA is taken by the pool's mailbox",
    ),
    line(
        Fault::Pool(WrongPool::Taken(opcode::INJECT_POISON)),
        "pool-4301h-taken",
        "Inject Poison is taken by the pool's mailbox",
    ),
    line(
        Fault::Pool(WrongPool::Taken(opcode::CLEAR_POISON)),
        "pool-4302h-taken",
        "Clear Poison is taken by the pool's mailbox",
    ),
    line(
        Fault::Pool(WrongPool::Taken(opcode::SANITIZE)),
        "pool-4400h-taken",
        "Sanitize is taken by the pool's mailbox",
    ),
    line(
        Fault::Pool(WrongPool::Refused(opcode::GET_EVENT_RECORDS)),
        "pool-0100h-refused",
        "Get Event Records is refused with 0015h",
    ),
    line(
        Fault::Pool(WrongPool::Refused(opcode::GET_POLICY)),
        "pool-0102h-refused",
        "Get Event Interrupt Policy is refused with 0015h",
    ),
    line(
        Fault::Pool(WrongPool::Refused(opcode::GET_TIMESTAMP)),
        "pool-0300h-refused",
        "Get Timestamp is refused with 0015h",
    ),
    line(
        Fault::Pool(WrongPool::Refused(opcode::GET_SUPPORTED_LOGS)),
        "pool-0400h-refused",
        "Get Supported Logs is refused with 0015h",
    ),
    line(
        Fault::Pool(WrongPool::Refused(opcode::GET_LOG)),
        "pool-0401h-refused",
        "Get Log is refused with 0015h",
    ),
    line(
        Fault::Pool(WrongPool::Refused(opcode::IDENTIFY)),
        "pool-4000h-refused",
        "Identify is refused with 0015h",
    ),
    line(
        Fault::Pool(WrongPool::Refused(opcode::GET_POISON_LIST)),
        "pool-4300h-refused",
        "Get Poison List is refused with 0015h",
    ),
    line(
        Fault::Pool(WrongPool::RefusedButDone(opcode::CLEAR_EVENT_RECORDS)),
        "pool-0101h-done",
        "Clear Event Records is refused with 0015h and done all the same",
    ),
    line(
        Fault::Pool(WrongPool::RefusedButDone(opcode::SET_POLICY)),
        "pool-0103h-done",
        "Set Event Interrupt Policy is refused with 0015h and done all the same",
    ),
    line(
        Fault::Pool(WrongPool::RefusedButDone(opcode::SET_TIMESTAMP)),
        "pool-0301h-done",
        "Set Timestamp is refused with 0015h and done all the same",
    ),
    line(
        Fault::Pool(WrongPool::RefusedButDone(opcode::INJECT_POISON)),
        "pool-4301h-done",
        "Inject Poison is refused with 0015h and done all the same",
    ),
    line(
        Fault::Pool(WrongPool::RefusedButDone(opcode::CLEAR_POISON)),
        "pool-4302h-done",
        "Clear Poison is refused with 0015h and done all the same",
    ),
    line(
        Fault::Pool(WrongPool::RefusedButDone(opcode::SANITIZE)),
        "pool-4400h-done",
        "Sanitize is refused with 0015h and done all the same",
    ),
    line(
        Fault::Pool(WrongPool::RefusedWhileDisabled(opcode::GET_EVENT_RECORDS)),
        "pool-0100h-refused-while-disabled",
        "Get Event Records is refused with 0007h while media is disabled",
    ),
    line(
        Fault::Pool(WrongPool::RefusedWhileDisabled(opcode::GET_POLICY)),
        "pool-0102h-refused-while-disabled",
        "Get Event Interrupt Policy is refused with 0007h while media is disabled",
    ),
    line(
        Fault::Pool(WrongPool::RefusedWhileDisabled(opcode::GET_TIMESTAMP)),
        "pool-0300h-refused-while-disabled",
        "Get Timestamp is refused with 0007h while media is disabled",
    ),
    line(
        Fault::Pool(WrongPool::RefusedWhileDisabled(opcode::GET_SUPPORTED_LOGS)),
        "pool-0400h-refused-while-disabled",
        "Get Supported Logs is refused with 0007h while media is disabled",
    ),
    line(
        Fault::Pool(WrongPool::RefusedWhileDisabled(opcode::GET_LOG)),
        "pool-0401h-refused-while-disabled",
        "Get Log is refused with 0007h while media is disabled",
    ),
    line(
        Fault::Pool(WrongPool::RefusedWhileDisabled(opcode::IDENTIFY)),
        "pool-4000h-refused-while-disabled",
        "Identify is refused with 0007h while media is disabled",
    ),
    line(
        Fault::Pool(WrongPool::RefusedWhileDisabled(opcode::GET_POISON_LIST)),
        "pool-4300h-refused-while-disabled",
        "Get Poison List is refused with 0007h while media is disabled",
    ),
    line(
        Fault::Pool(WrongPool::ListsEighth(opcode::CLEAR_EVENT_RECORDS)),
        "pool-effects-log-lists-0101h",
        "this mailbox's effects log has 0101h too",
    ),
    line(
        Fault::Pool(WrongPool::ListsEighth(opcode::SANITIZE)),
        "pool-effects-log-lists-4400h",
        "this mailbox's effects log has 4400h too",
    ),
    line(
        Fault::Pool(WrongPool::ListsSix(opcode::GET_POISON_LIST)),
        "pool-effects-log-without-4300h",
        "this mailbox's effects log has not 4300h",
    ),
    line(
        Fault::Pool(WrongPool::SizeOfFirst),
        "pool-effects-size-of-first",
        "Get Supported Logs gives the size of the first mailbox's effects log",
    ),
    line(
        Fault::Pool(WrongPool::LogOfFirst),
        "pool-effects-log-of-first",
        "Get Log reads the first mailbox's effects log",
    ),
    line(
        Fault::Pool(WrongPool::EndOfFirst),
        "pool-get-log-end-of-first",
        "Get Log's end is that of the first mailbox's effects log, zeros past byte 28",
    ),
    line(
        Fault::Pool(WrongPool::BytesOfFirst),
        "pool-get-log-bytes-of-first",
        "Get Log replies the first 28 bytes of the first mailbox's effects log",
    ),
    line(
        Fault::Pool(WrongPool::EndIn32Bits),
        "pool-get-log-end-in-32-bits",
        "Get Log adds offset and length in 32 bits",
    ),
    line(
        Fault::Pool(WrongPool::IdentifierIgnored),
        "pool-get-log-identifier-ignored",
        "Get Log takes any identifier",
    ),
    line(
        Fault::Pool(WrongPool::RangeBeforeIdentifier),
        "pool-get-log-range-before-identifier",
        "Get Log gives 0002h before 0017h",
    ),
    line(
        Fault::Pool(WrongPool::LabelSizeIs0),
        "pool-label-size-is-0",
        "Identify's label size is 0, since no label area is lent",
    ),
    line(
        Fault::Pool(WrongPool::TimeIsCallers),
        "pool-time-is-callers",
        "Get Timestamp replies the caller's time",
    ),
    line(
        Fault::Pool(WrongPool::TimeIs0),
        "pool-time-is-not-given",
        "Get Timestamp replies the device time of caller's time 0",
    ),
    line(
        Fault::Pool(WrongPool::EndsWork),
        "pool-ends-work",
        "a command first ends a Sanitize that is due",
    ),
    line(
        Fault::Pool(WrongPool::EndsWorkAfterwards),
        "pool-ends-work-afterwards",
        "a command ends a Sanitize that is due after its reply",
    ),
    line(
        Fault::Pool(WrongPool::RefusedEndsWork),
        "pool-refused-ends-work",
        "a refused command ends a Sanitize that is due",
    ),
    line(
        Fault::Pool(WrongPool::RepliesAfterEnding),
        "pool-replies-after-ending",
        "a command at a due time replies as after the ending and changes nothing",
    ),
    line(
        Fault::Pool(WrongPool::LogsEmptyWhileDisabled),
        "pool-logs-empty-while-disabled",
        "Get Event Records shows no record while media is disabled",
    ),
    line(
        Fault::Pool(WrongPool::BeginsWorkAgain),
        "pool-begins-work-again",
        "a command is a new beginning of the work that runs",
    ),
    line(
        Fault::Pool(WrongPool::EarlierIsBegin),
        "pool-earlier-is-begin",
        "a command before the beginning of the work becomes its beginning",
    ),
    line(
        Fault::Pool(WrongPool::OthersReported),
        "pool-others-reported",
        "a command that is refused with 0015h reports an event to log 0",
    ),
    line(
        Fault::Pool(WrongPool::SetsClock),
        "pool-sets-clock",
        "Get Timestamp sets the clock to what it replies",
    ),
    line(
        Fault::Pool(WrongPool::ClearsRecords),
        "pool-clears-records",
        "Get Event Records empties the log",
    ),
    line(
        Fault::Pool(WrongPool::ClearsOverflow),
        "pool-clears-overflow",
        "Get Event Records makes the overflow count 0",
    ),
    line(
        Fault::Pool(WrongPool::DisablesInterrupts),
        "pool-disables-interrupts",
        "Get Event Interrupt Policy disables the interrupts of all logs",
    ),
    line(
        Fault::Pool(WrongPool::ClearsFlag),
        "pool-clears-flag",
        "Get Poison List clears the overflow flag",
    ),
    line(
        Fault::Pool(WrongPool::BytePastReply),
        "pool-byte-past-reply",
        "the byte after the reply is altered",
    ),
    line(
        Fault::Pool(WrongPool::RestCleared),
        "pool-rest-cleared",
        "the bytes after the reply are set to 0",
    ),
    line(
        Fault::Pool(WrongPool::WritesOnRefusal),
        "pool-writes-on-refusal",
        "a refused command fills the buffer with zeros",
    ),
    line(
        Fault::Pool(WrongPool::ByLentArea),
        "pool-by-lent-area",
        "0100h is given while the label area lent to the first mailbox is not of 4,096 bytes",
    ),
    line(
        Fault::Pool(WrongPool::ClearsStore),
        "pool-clears-store",
        "a command clears the label store",
    ),
    line(
        Fault::Pool(WrongPool::Lends4096),
        "pool-lends-4096",
        "4,096 bytes of label area are lent to the first mailbox after a command",
    ),
    line(
        Fault::Pool(WrongPool::HasVectorColumn),
        "pool-has-vector-column",
        "the line ends in a vector column",
    ),
];
