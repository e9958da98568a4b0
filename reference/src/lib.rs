//! The independent second program of the project, written from documents 00, 01
//! and 10 and the landed requests of document 02 alone: a model of the device,
//! the host's side of its mailbox, the bench and probe protocols over both, a
//! generator of adversarial streams, a comparison with another program, and a case
//! tool.

pub mod bench;
pub mod case;
pub mod compare;
pub mod device;
pub mod format;
pub mod generate;
pub mod host;
pub mod line;
pub mod probe;
pub mod random;
pub mod source;
pub mod stream;
