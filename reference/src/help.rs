//! The help pages.

pub const GENERAL: &str = "\
The independent second program, written from documents 00, 01 and 10 and the landed
requests of document 02 alone.

  reference bench       the bench protocol: records in, a line for each out
  reference probe       the probe protocol: every call, the host's side, any buffer
  reference generate    an adversarial stream by seed
  reference profiles    the kinds of generated streams
  reference compare     generated streams through another program and the model
  reference faults      the planted faults of the model
  reference encode      case text to records of bench or probe
  reference decode      records to case text
  reference explain     an output in words
  reference check       the stated answers of a case against an output

Each subcommand has --help. The case text is described in CASES.md.
";

const PAGES: &[(&str, &str)] = &[
    (
        "bench",
        "\
reference bench [--fault NAME] < STREAM

Reads bench records from standard input and prints a line for each, as document
01 \"Bench program\" says. Exit status 0, after BAD and a refused NW too.

  --fault NAME  with a planted fault of `reference faults`
",
    ),
    (
        "probe",
        "\
reference probe [--fault NAME] < STREAM

Reads probe records from standard input and prints a line for each, as document
10 says for the records of the base and those of W-202, W-206 and W-208, with the vector
column of W-204. Exit status 0, after BAD too.

  --fault NAME  with a planted fault of `reference faults --format probe`
",
    ),
    (
        "generate",
        "\
reference generate --seed N [--format F] [--profile P] [--stream K]
                   [--records N] > STREAM

Writes the stream of a seed. The seed chooses the profile unless one is named.

  --format F    bench (so if not given) or probe
  --profile P   a profile of `reference profiles` for the format
  --stream K    stream number K, from 0, of a profile with several streams a seed
  --records N   N records where the profile is a loop, at most N elsewhere; a bad
                rest of the stream is not counted, nor is what a probe stream has
                between: ES, DT, AR, AB, PC and commands refused for what they are lent
",
    ),
    (
        "profiles",
        "\
reference profiles [--format F]

Lists the profiles of a format: bench (so if not given) or probe.
",
    ),
    (
        "encode",
        "\
reference encode [CASEFILE] > STREAM

Turns case text (a file or standard input) into the records of the program that
its first line names, bench if it names none. An error gives exit status 1 and
FILE:LINE: what was expected.
",
    ),
    (
        "decode",
        "\
reference decode [--format F] < STREAM

Prints the case text of a stream; a bad rest is one `bytes` line.

  --format F  bench (so if not given) or probe
",
    ),
    (
        "explain",
        "\
reference explain CASEFILE [--program PATH] [--timeout SECONDS] [< OUTPUT]

Prints in words what a program answered to each record of the case: its output
on standard input, or that of PATH run on the encoded case. PATH is a bench or a
probe, as the first line of the case says.

  --program PATH     a path, or a path and arguments with blanks between them
  --timeout SECONDS  for PATH (60)
",
    ),
    (
        "check",
        "\
reference check CASEFILE [--program PATH] [--timeout SECONDS] [< OUTPUT]

Says pass or fail for each answer that the case states after `=>`; the output is
read from standard input, or from PATH run on the encoded case. PATH is a bench or
a probe, as the first line of the case says. The last line is `N passed, M failed`;
exit status 1 if M is not 0.

  --program PATH     a path, or a path and arguments with blanks between them
  --timeout SECONDS  for PATH (60)
",
    ),
    (
        "compare",
        "\
reference compare --program PATH [--format F] [--seeds A..B] [--profile P]
                  [--without-host] [--all] [--timeout SECONDS]
reference compare --fault NAME|all [--format F] [--seeds A..B] [--profile P]
                  [--without-host]

Runs the streams of the seeds through PATH and through the model and compares
the lines. The last line is `N passed, M failed`, counting streams; exit status 1
if M is not 0.

With --fault the model with that planted fault takes PATH's place; N counts the
faults that the seeds find and M those that they do not.

  --program PATH     a path, or a path and arguments with blanks between them
  --format F         bench (so if not given) or probe
  --seeds A..B       the seeds from A to B - 1 (0..458), or one seed: --seeds A
  --profile P        this profile for all seeds, not the one that a seed chooses
  --without-host     takes the records of the host's side (RQ, RP, RW, WK) out of the
                     streams, for a program over the device's library alone
  --all              prints the first difference of every stream, not of one
  --timeout SECONDS  for each stream (60)
  --fault NAME       a planted fault of `reference faults` for the format, or all
",
    ),
    (
        "faults",
        "\
reference faults [--format F]

Lists the planted faults for --fault that a format can see: bench (so if not
given) or probe, which sees those of bench too.
",
    ),
];

/// The page of a subcommand.
pub fn page(name: &str) -> Option<&'static str> {
    let found = PAGES.iter().find(|(known, _)| *known == name);
    found.map(|(_, page)| *page)
}
