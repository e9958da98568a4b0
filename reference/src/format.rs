//! The two program formats: document 01's `bench` and document 10's `probe`.

use crate::device::fault::{pool, sanitize, FaultLine, FAULTS, HOST_FAULTS, PROBE_FAULTS};
use crate::device::Config;
use crate::{bench, probe};
use std::io::{self, BufRead, Write};

/// A program format.
#[derive(Clone, Copy, Debug, PartialEq, Eq)]
pub enum Format {
    Bench,
    Probe,
}

impl Format {
    /// The format of this name.
    pub fn named(name: &str) -> Option<Format> {
        match name {
            "bench" => Some(Format::Bench),
            "probe" => Some(Format::Probe),
            _ => None,
        }
    }

    /// Runs a stream of this format and writes the lines.
    pub fn run(
        self,
        input: impl BufRead,
        output: &mut impl Write,
        config: Config,
    ) -> io::Result<()> {
        match self {
            Format::Bench => bench::run(input, output, config),
            Format::Probe => probe::run(input, output, config),
        }
    }

    /// The lines a stream of this format gives, as one text.
    pub fn lines_of(self, stream: &[u8], config: Config) -> Vec<u8> {
        match self {
            Format::Bench => bench::lines_of(stream, config),
            Format::Probe => probe::lines_of(stream, config),
        }
    }

    /// The planted faults that this format can see.
    pub fn faults(self) -> Vec<&'static FaultLine> {
        let both = FAULTS.iter().chain(sanitize::FAULTS).chain(pool::FAULTS);
        match self {
            Format::Bench => both.collect(),
            Format::Probe => {
                let device = both.chain(PROBE_FAULTS).chain(sanitize::PROBE_FAULTS);
                let device = device.chain(pool::PROBE_FAULTS);
                let host = sanitize::HOST_FAULTS.iter().chain(HOST_FAULTS);
                device.chain(host).collect()
            }
        }
    }
}
