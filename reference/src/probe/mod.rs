//! The program `probe` (document 10): every call of the device and of the host's
//! side, any buffer.

pub mod host;
pub mod record;
pub mod run;

pub use run::{lines_of, run, Probe, Store};
