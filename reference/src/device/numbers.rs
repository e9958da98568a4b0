//! Sizes and return numbers of document 01 ("Numbers", "Return numbers"), and
//! the little-endian helpers ("Sources and rank": all numbers little-endian).

/// A line is 64 bytes.
pub const LINE: u128 = 64;
/// A unit is 256 MiB.
pub const UNIT: u128 = 256 * 1024 * 1024;
/// Volatile plus persistent units are 1 to this.
pub const MOST_UNITS: u64 = 1023;
/// Payload and reply are at most this long; a shorter reply buffer is refused.
pub const MAILBOX: usize = 2048;
/// Event logs 0 to 4.
pub const LOGS: usize = 5;
/// Bytes of an event record.
pub const RECORD: usize = 128;
/// Records a log has room for.
pub const LOG_ROOM: usize = 8;
/// Records a Get Event Records reply has room for after its first 32 bytes.
pub const EVENT_RECORDS: usize = (MAILBOX - 32) / RECORD;
/// Entries the poison list has room for.
pub const POISON_ROOM: usize = 256;
/// Records a Get Poison List reply has room for.
pub const POISON_RECORDS: usize = 126;
/// Bytes of the label area that the caller lends with each command (W-206).
pub const LABEL_AREA: usize = 4096;

/// The opcodes: the twelve of document 01 and those that a landed request brought.
pub mod opcode {
    pub const GET_EVENT_RECORDS: u16 = 0x0100;
    pub const CLEAR_EVENT_RECORDS: u16 = 0x0101;
    pub const GET_POLICY: u16 = 0x0102;
    pub const SET_POLICY: u16 = 0x0103;
    pub const GET_TIMESTAMP: u16 = 0x0300;
    pub const SET_TIMESTAMP: u16 = 0x0301;
    pub const GET_SUPPORTED_LOGS: u16 = 0x0400;
    pub const GET_LOG: u16 = 0x0401;
    pub const IDENTIFY: u16 = 0x4000;
    pub const GET_LSA: u16 = 0x4102;
    pub const SET_LSA: u16 = 0x4103;
    pub const GET_POISON_LIST: u16 = 0x4300;
    pub const INJECT_POISON: u16 = 0x4301;
    pub const CLEAR_POISON: u16 = 0x4302;
    pub const SANITIZE: u16 = 0x4400;
    /// A row of the list of the commands.
    #[derive(Clone, Copy, Debug, PartialEq, Eq)]
    pub struct Command {
        pub code: u16,
        /// The effect in the Command Effects Log.
        pub effect: u16,
        /// Whether the pool manager's mailbox has it too (W-208).
        pub pool: bool,
    }

    const fn row(code: u16, effect: u16, pool: bool) -> Command {
        Command { code, effect, pool }
    }

    /// All commands, ascending. "Effects: 0101h 10h, 0103h 2, 0301h 8, the rest 0"; "4103h with
    /// effect 6" (W-206); 4400h with "effect 64h" (W-207). The pool manager's mailbox "may use
    /// 0100h, 0102h, 0300h, 0400h, 0401h, 4000h and 4300h" (W-208).
    pub const COMMANDS: [Command; 15] = [
        row(GET_EVENT_RECORDS, 0, true),
        row(CLEAR_EVENT_RECORDS, 0x10, false),
        row(GET_POLICY, 0, true),
        row(SET_POLICY, 2, false),
        row(GET_TIMESTAMP, 0, true),
        row(SET_TIMESTAMP, 8, false),
        row(GET_SUPPORTED_LOGS, 0, true),
        row(GET_LOG, 0, true),
        row(IDENTIFY, 0, true),
        row(GET_LSA, 0, false),
        row(SET_LSA, 6, false),
        row(GET_POISON_LIST, 0, true),
        row(INJECT_POISON, 0, false),
        row(CLEAR_POISON, 0, false),
        row(SANITIZE, 0x64, false),
    ];
    /// Their opcodes.
    pub const ALL: [u16; 15] = {
        let mut codes = [0; 15];
        let mut at = 0;
        while at < codes.len() {
            codes[at] = COMMANDS[at].code;
            at += 1;
        }
        codes
    };
    /// The commands on the poison list.
    pub const POISON: [u16; 3] = [GET_POISON_LIST, INJECT_POISON, CLEAR_POISON];
    /// The twelve of document 01, ascending, which are those of the host's side "whatever
    /// has landed" (document 10).
    pub const HOST: [u16; 12] = [
        GET_EVENT_RECORDS,
        CLEAR_EVENT_RECORDS,
        GET_POLICY,
        SET_POLICY,
        GET_TIMESTAMP,
        SET_TIMESTAMP,
        GET_SUPPORTED_LOGS,
        GET_LOG,
        IDENTIFY,
        GET_POISON_LIST,
        INJECT_POISON,
        CLEAR_POISON,
    ];
}

/// The return number of a command that succeeds.
pub const SUCCESS: u16 = 0x0000;
/// "Sanitize .. answers 0001h, started, with no reply; that is no refusal" (W-207).
pub const STARTED: u16 = 0x0001;

/// The refusals of document 01's table "Return numbers" and of the landed requests. Success
/// and 0001h, started, are not among them: a call answers `Ok` or one of these.
#[derive(Clone, Copy, Debug, PartialEq, Eq)]
pub enum Refusal {
    InvalidInput,
    Unsupported,
    Busy,
    MediaDisabled,
    InvalidHandle,
    InvalidPhysicalAddress,
    InjectPoisonLimit,
    UnsupportedMailbox,
    InvalidPayloadLength,
    InvalidLog,
    ReplyBufferTooSmall,
}

impl Refusal {
    /// The return number.
    pub fn number(self) -> u16 {
        match self {
            Refusal::InvalidInput => 0x0002,
            Refusal::Unsupported => 0x0003,
            Refusal::Busy => 0x0006,
            Refusal::MediaDisabled => 0x0007,
            Refusal::InvalidHandle => 0x000e,
            Refusal::InvalidPhysicalAddress => 0x000f,
            Refusal::InjectPoisonLimit => 0x0010,
            Refusal::UnsupportedMailbox => 0x0015,
            Refusal::InvalidPayloadLength => 0x0016,
            Refusal::InvalidLog => 0x0017,
            Refusal::ReplyBufferTooSmall => 0x0100,
        }
    }

    /// The refusal of a return number; None for Success and for 0001h.
    pub fn of(number: u16) -> Option<Refusal> {
        ALL_REFUSALS
            .into_iter()
            .find(|refusal| refusal.number() == number)
    }
}

const ALL_REFUSALS: [Refusal; 11] = [
    Refusal::InvalidInput,
    Refusal::Unsupported,
    Refusal::Busy,
    Refusal::MediaDisabled,
    Refusal::InvalidHandle,
    Refusal::InvalidPhysicalAddress,
    Refusal::InjectPoisonLimit,
    Refusal::UnsupportedMailbox,
    Refusal::InvalidPayloadLength,
    Refusal::InvalidLog,
    Refusal::ReplyBufferTooSmall,
];

/// The names of the return numbers as the case tool writes them.
pub const RETURN_NAMES: [(u64, &str); 13] = [
    (0x0000, "success"),
    (0x0001, "started"),
    (0x0002, "invalid-input"),
    (0x0003, "unsupported"),
    (0x0006, "busy"),
    (0x0007, "media-disabled"),
    (0x000e, "invalid-handle"),
    (0x000f, "invalid-physical-address"),
    (0x0010, "inject-poison-limit"),
    (0x0015, "unsupported-mailbox"),
    (0x0016, "invalid-payload-length"),
    (0x0017, "invalid-log"),
    (0x0100, "reply-buffer-too-small"),
];

/// The return number of a call: 0 for Success.
pub fn number_of<T>(answer: &Result<T, Refusal>) -> u16 {
    answer.as_ref().err().map_or(0, |refusal| refusal.number())
}

/// The name of a return number.
pub fn return_name(number: u64) -> &'static str {
    let found = RETURN_NAMES.iter().find(|(known, _)| *known == number);
    found.map_or("number-not-in-the-documents", |(_, name)| *name)
}

/// The little-endian number in up to 8 bytes.
pub fn number(bytes: &[u8]) -> u64 {
    bytes
        .iter()
        .rev()
        .fold(0, |sum, byte| (sum << 8) | u64::from(*byte))
}
