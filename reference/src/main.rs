//! The command line of the second program: one subcommand for each tool.

mod arguments;
mod help;

use arguments::Arguments;
use reference::case::encode::{self, Case};
use reference::case::{check, explain, words};
use reference::compare::{self, Plan, Subject};
use reference::device::fault::FaultLine;
use reference::device::Config;
use reference::format::Format;
use reference::generate::{profile_named, profile_of, profiles, Profile, DEFAULT_SEEDS};
use std::io::{self, BufReader, BufWriter, Read, Write};
use std::process::ExitCode;
use std::time::Duration;

/// What a subcommand gives: an exit status, or a message for status 1.
type Outcome = Result<ExitCode, String>;

fn main() -> ExitCode {
    let mut words = std::env::args().skip(1);
    let name = words.next().unwrap_or_default();
    let rest: Vec<String> = words.collect();
    if ["", "--help", "-h", "help"].contains(&name.as_str()) {
        print!("{}", help::GENERAL);
        return ExitCode::SUCCESS;
    }
    let Some(page) = help::page(&name) else {
        eprintln!("reference: expected a subcommand, not `{name}`; see reference --help");
        return ExitCode::FAILURE;
    };
    if rest.iter().any(|word| word == "--help" || word == "-h") {
        print!("{page}");
        return ExitCode::SUCCESS;
    }
    let outcome = match name.as_str() {
        "bench" => run_format(Format::Bench, rest),
        "probe" => run_format(Format::Probe, rest),
        "generate" => run_generate(rest),
        "profiles" => run_profiles(rest),
        "encode" => run_encode(rest),
        "decode" => run_decode(rest),
        "explain" => run_explain(rest),
        "check" => run_check(rest),
        "compare" => run_compare(rest),
        _ => run_faults(rest),
    };
    outcome.unwrap_or_else(|message| {
        eprintln!("{message}");
        ExitCode::FAILURE
    })
}

/// Writes to standard output; a reader that has gone away is no error.
fn print_bytes(bytes: &[u8]) -> Outcome {
    match io::stdout().lock().write_all(bytes) {
        Err(error) if error.kind() != io::ErrorKind::BrokenPipe => Err(error.to_string()),
        _ => Ok(ExitCode::SUCCESS),
    }
}

fn run_format(format: Format, words: Vec<String>) -> Outcome {
    let mut arguments = Arguments::new(words);
    let mut config = Config::default();
    if let Some(name) = arguments.value("--fault")? {
        config.fault = Some(fault_named(format, &name)?.fault);
    }
    arguments.end(0)?;
    let input = BufReader::with_capacity(1 << 16, io::stdin().lock());
    let mut output = BufWriter::with_capacity(1 << 16, io::stdout().lock());
    let done = format.run(input, &mut output, config);
    let done = done.and_then(|()| output.flush());
    match done {
        Err(error) if error.kind() != io::ErrorKind::BrokenPipe => Err(error.to_string()),
        _ => Ok(ExitCode::SUCCESS),
    }
}

fn run_generate(words: Vec<String>) -> Outcome {
    let mut arguments = Arguments::new(words);
    let seed = arguments.number("--seed")?.ok_or("expected --seed N")?;
    let records = arguments.number("--records")?.map(|n| n as usize);
    let part = arguments.number("--stream")?.unwrap_or(0) as usize;
    let name = arguments.value("--profile")?;
    let format = arguments.format()?;
    arguments.end(0)?;
    let profile = match &name {
        Some(name) => named_profile(format, name)?,
        None => profile_of(format, seed),
    };
    print_bytes(&profile.stream_of(format, seed, part, records))
}

fn named_profile(format: Format, name: &str) -> Result<&'static Profile, String> {
    profile_named(format, name).ok_or(format!(
        "expected a profile of `reference profiles`, not `{name}`"
    ))
}

fn run_profiles(words: Vec<String>) -> Outcome {
    let mut arguments = Arguments::new(words);
    let format = arguments.format()?;
    arguments.end(0)?;
    let lines = profiles(format).into_iter();
    let lines = lines.map(|profile| format!("{:<23} {}\n", profile.name, profile.what));
    print_bytes(lines.collect::<String>().as_bytes())
}

/// The text of a file, or of standard input without a name or with `-`.
fn read_text(name: Option<&String>) -> Result<(String, String), String> {
    let mut text = String::new();
    match name.map(String::as_str) {
        None | Some("-") => {
            let read = io::stdin().lock().read_to_string(&mut text);
            read.map_err(|error| format!("standard input: {error}"))?;
            Ok(("standard input".to_string(), text))
        }
        Some(name) => {
            let read = std::fs::read_to_string(name);
            let text = read.map_err(|error| format!("{name}: {error}"))?;
            Ok((name.to_string(), text))
        }
    }
}

fn run_encode(words: Vec<String>) -> Outcome {
    let arguments = Arguments::new(words);
    let names = arguments.end(1)?;
    let (name, text) = read_text(names.first())?;
    let case = encode::case(&name, &text).map_err(|error| error.to_string())?;
    print_bytes(&case.stream())
}

fn run_decode(words: Vec<String>) -> Outcome {
    let mut arguments = Arguments::new(words);
    let format = arguments.format()?;
    arguments.end(0)?;
    let mut stream = Vec::new();
    let read = io::stdin().lock().read_to_end(&mut stream);
    read.map_err(|error| error.to_string())?;
    print_bytes(words::stream_words(format, &stream).as_bytes())
}

/// The case and the output for it, from a program or standard input.
fn case_and_output(words: Vec<String>) -> Result<(Case, String), String> {
    let mut arguments = Arguments::new(words);
    let program = arguments.value("--program")?;
    let timeout = arguments.timeout()?;
    let names = arguments.end(1)?;
    let name = names.first().ok_or("expected a case file")?;
    let (name, text) = read_text(Some(name))?;
    let case = encode::case(&name, &text).map_err(|error| error.to_string())?;
    let output = match program {
        Some(program) => {
            let output = Subject::program(&program).output(case.stream(), timeout)?;
            String::from_utf8_lossy(&output).to_string()
        }
        None => read_text(None)?.1,
    };
    Ok((case, output))
}

fn run_explain(words: Vec<String>) -> Outcome {
    let (case, output) = case_and_output(words)?;
    print_bytes(explain::explain(&case, &output).as_bytes())
}

fn run_check(words: Vec<String>) -> Outcome {
    let (case, output) = case_and_output(words)?;
    let report = check::check(&case, &output);
    for line in &report.lines {
        println!("{line}");
    }
    Ok(totals(report.passed, report.failed))
}

/// The last line of a check, and the exit status.
fn totals(passed: usize, failed: usize) -> ExitCode {
    println!("{passed} passed, {failed} failed");
    match failed {
        0 => ExitCode::SUCCESS,
        _ => ExitCode::FAILURE,
    }
}

fn run_compare(words: Vec<String>) -> Outcome {
    let mut arguments = Arguments::new(words);
    let program = arguments.value("--program")?;
    let fault = arguments.value("--fault")?;
    let format = arguments.format()?;
    let plan = Plan {
        format,
        seeds: arguments.seeds()?.unwrap_or(DEFAULT_SEEDS),
        profile: arguments.value("--profile")?,
        without_host: arguments.flag("--without-host"),
        timeout: arguments.timeout()?,
    };
    let all_differences = arguments.flag("--all");
    arguments.end(0)?;
    if let Some(name) = plan.profile.as_deref() {
        named_profile(format, name)?;
    }
    let program = match (program, fault) {
        (Some(program), None) => program,
        (None, Some(name)) => return compare_faults(&plan, &name),
        _ => return Err("expected --program PATH or --fault NAME".to_string()),
    };
    let subject = Subject::program(&program);
    let mut shown = 0;
    // One difference is printed unless all are asked for; all are counted.
    let (passed, failed) = compare::run(&plan, &subject, &mut |difference| {
        shown += 1;
        if shown == 1 || all_differences {
            println!("{difference}");
        }
    });
    Ok(totals(passed, failed))
}

fn fault_named(format: Format, name: &str) -> Result<&'static FaultLine, String> {
    let mut faults = format.faults().into_iter();
    let found = faults.find(|line| line.name == name);
    found.ok_or(format!(
        "expected a fault of `reference faults`, not `{name}`"
    ))
}

/// For each fault: whether the seeds find it. A fault found is a pass.
fn compare_faults(plan: &Plan, name: &str) -> Outcome {
    let chosen: Vec<&FaultLine> = match name {
        "all" => plan.format.faults(),
        name => vec![fault_named(plan.format, name)?],
    };
    let places = compare::find_faults(plan, &chosen);
    for (line, place) in chosen.iter().zip(&places) {
        match place {
            Some(place) => println!("found {}: {place}", line.name),
            None => println!("not found {}", line.name),
        }
    }
    let found = places.iter().flatten().count();
    Ok(totals(found, places.len() - found))
}

fn run_faults(words: Vec<String>) -> Outcome {
    let mut arguments = Arguments::new(words);
    let format = arguments.format()?;
    arguments.end(0)?;
    let lines = format.faults().into_iter();
    let lines = lines.map(|line| format!("{:<40} {}\n", line.name, line.what));
    print_bytes(lines.collect::<String>().as_bytes())
}

impl Arguments {
    /// Takes `--format bench` or `--format probe`; bench if none is given.
    fn format(&mut self) -> Result<Format, String> {
        match self.value("--format")? {
            Some(name) => {
                let format = Format::named(&name);
                format.ok_or(format!("expected --format bench or probe, not `{name}`"))
            }
            None => Ok(Format::Bench),
        }
    }

    fn timeout(&mut self) -> Result<Duration, String> {
        let seconds = self.number("--timeout")?.unwrap_or(60);
        Ok(Duration::from_secs(seconds))
    }
}
