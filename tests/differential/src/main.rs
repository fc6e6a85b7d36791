//! Compares the library with the reference and prints what was covered.
//!
//! `differential [--files N] [--records N] [--seed S] [--first] [--trace] [--write PATH]`: pairs of files to merge, N
//! of them at random, and histories; then files for the one-writer run, N / 4 of them at random; then the systematic
//! files of all versions, then random ones until there are N files and N records carried out, these in seasons that
//! share a tally; and the answers rule of the library alone. `--first` ends at the first difference and looks for nothing
//! else: no rule is checked of the reference. `--trace` names each file before it is run; `--write` puts them all into one
//! file, each after its length in four bytes, the low one first. `differential --outside CASE` says what one case of
//! `outside` comes to.

use differential::compare::Comparer;
use differential::histories::Histories;
use differential::merges::Merger;
use differential::profiles::Profiles;
use differential::ranges::Ranges;
use differential::rng::Rng;
use differential::seasons::Seasons;
use differential::stops::Stops;
use differential::ways::Ways;
use differential::{answers, coverage, outside, random, systematic};
use std::collections::BTreeMap;
use std::fs::File;
use std::io::{BufWriter, Write};
use std::path::Path;
use std::process::ExitCode;

const DEFAULT_FILES: u64 = 20_000;
const DEFAULT_SEED: u64 = 0x6E75_7861_6C64_6572;
const MOST_FAILURES: u64 = 10;

struct Options {
    files: u64,
    records: u64,
    seed: u64,
    first: bool,
    trace: bool,
    write: Option<String>,
    outside: Option<String>,
}

fn options() -> Result<Options, String> {
    let mut options = Options {
        files: DEFAULT_FILES,
        records: 0,
        seed: DEFAULT_SEED,
        first: false,
        trace: false,
        write: None,
        outside: None,
    };
    let mut words = std::env::args().skip(1);
    while let Some(word) = words.next() {
        if word == "--write" {
            options.write = Some(words.next().ok_or("--write needs a path")?);
            continue;
        }
        if word == "--outside" {
            options.outside = Some(words.next().ok_or("--outside needs a case")?);
            continue;
        }
        let mut number = || {
            let value = words.next().ok_or(format!("{word} needs a number"))?;
            value.parse().map_err(|_| format!("{value} is no number"))
        };
        match word.as_str() {
            "--files" => options.files = number()?,
            "--records" => options.records = number()?,
            "--seed" => options.seed = number()?,
            "--first" => options.first = true,
            "--trace" => options.trace = true,
            _ => return Err(format!("unknown word {word}")),
        }
    }
    Ok(options)
}

struct Session {
    comparer: Comparer,
    ways: Ways,
    profiles: Profiles,
    ranges: Ranges,
    stops: Stops,
    seasons: Seasons,
    histories: Histories,
    rng: Rng,
    first: bool,
    trace: bool,
    written: Option<BufWriter<File>>,
    passed: u64,
    failed: u64,
}

impl Session {
    fn file(&mut self, name: &str, file: &[u8]) {
        if self.failed == MOST_FAILURES {
            return;
        }
        self.begin(name, file);
        let mut rule = Ok(());
        if !self.first {
            self.histories.run_of(file, &mut self.rng);
            rule = answers::check(file, &mut self.ways, &mut self.ranges, &mut self.stops);
        }
        let compared = rule
            .and_then(|()| self.comparer.file(file, &mut self.rng))
            .and_then(|()| self.seasons.file(file, &mut self.comparer, &mut self.rng))
            .and_then(|()| self.seasons.average(&mut self.rng));
        self.end(name, file, compared);
    }

    /// A file for the one-writer run.
    fn one_writer(&mut self, name: &str, file: &[u8]) {
        if self.failed == MOST_FAILURES {
            return;
        }
        self.begin(name, file);
        let rule = if self.first { Ok(()) } else { self.profiles.check(file) };
        let compared = rule.and_then(|()| self.comparer.one_writer(file, &mut self.rng));
        self.end(name, file, compared);
    }

    fn begin(&mut self, name: &str, file: &[u8]) {
        if self.trace {
            println!("file {} ({name}), {} bytes", self.passed + self.failed, file.len());
        }
        if let Some(out) = &mut self.written {
            let length = (file.len() as u32).to_le_bytes();
            let put = out.write_all(&length).and_then(|()| out.write_all(file));
            put.expect("the files cannot be written");
        }
    }

    fn end(&mut self, name: &str, file: &[u8], compared: Result<(), String>) {
        let number = self.passed + self.failed;
        match compared {
            Ok(()) => self.passed += 1,
            Err(why) => {
                self.failed += 1;
                println!("FAILED: file {number} ({name}): {why}");
                self.end_at_first();
                self.keep(number, file);
            }
        }
    }

    fn tell_histories(&self) {
        for why in self.histories.failures.iter().take(MOST_FAILURES as usize) {
            println!("FAILED: file of a history: {why}");
            self.end_at_first();
        }
    }

    /// With `--first` one difference is enough.
    fn end_at_first(&self) {
        if self.first {
            std::process::exit(1);
        }
    }

    /// Leaves a failing file beside the build.
    fn keep(&self, number: u64, file: &[u8]) {
        let folder = std::env::var_os("CARGO_TARGET_DIR").unwrap_or_else(|| ".".into());
        let path = Path::new(&folder).join(format!("differential-{number}.schedule"));
        match std::fs::write(&path, file) {
            Ok(()) => println!("  kept as {}", path.display()),
            Err(why) => println!("  not kept: {why}"),
        }
    }
}

fn main() -> ExitCode {
    let options = match options() {
        Ok(options) => options,
        Err(why) => {
            eprintln!("differential: {why}");
            return ExitCode::from(2);
        }
    };
    if let Some(case) = &options.outside {
        match outside::case(case) {
            Ok(verdict) => println!("{verdict}"),
            Err(why) => println!("FAILED: {why}"),
        }
        return ExitCode::SUCCESS;
    }
    let mut session = Session {
        comparer: Comparer::new(random::LONGEST_FILE),
        ways: Ways::default(),
        profiles: Profiles::default(),
        ranges: Ranges::default(),
        stops: Stops::default(),
        seasons: Seasons::default(),
        histories: Histories::new(),
        rng: Rng::new(!options.seed),
        first: options.first,
        trace: options.trace,
        written: options
            .write
            .map(|path| BufWriter::new(File::create(path).expect("no such path"))),
        passed: 0,
        failed: 0,
    };
    let mut rng = Rng::new(options.seed);
    let mut merger = Merger::default();
    let mut merges = merger.systematic(&mut rng);
    for _ in 0..options.files {
        merges = merges.and_then(|()| merger.random(&mut rng));
    }
    match merges {
        Ok(()) => session.passed += merger.pairs,
        Err(why) => {
            session.failed += 1;
            println!("FAILED: file pair {}: {why}", merger.pairs);
            session.end_at_first();
        }
    }
    println!("{} pairs of files merged or refused", merger.pairs);
    session.histories.edges(&mut session.rng);
    for _ in 0..options.files {
        session.histories.round(&mut session.rng);
        let schedule = random::short(&mut rng);
        session.histories.run_of(&schedule, &mut session.rng);
    }
    if options.first {
        session.tell_histories();
    }
    let before = session.passed + session.failed;
    Profiles::each(&mut |name, file| session.one_writer(name, &file));
    for _ in 0..options.files / 4 {
        let (name, file) = Profiles::random(&mut rng);
        session.one_writer(name, &file);
    }
    println!("{} files for the one-writer run", session.passed + session.failed - before);
    if options.first {
        // a few of each kind find most differences
        for version in [3, 2, 1] {
            let mut seen: BTreeMap<&str, u64> = BTreeMap::new();
            systematic::each(version, &mut |name, file| {
                let number = seen.entry(name).or_default();
                *number += 1;
                if number.is_power_of_two() {
                    session.file(name, &file);
                }
            });
        }
        let mut number = 0;
        for version in [3, 2, 1] {
            systematic::each(version, &mut |name, file| {
                number += 1;
                if name == "fault" || number % 37 == 0 {
                    session.file(name, &file);
                }
            });
        }
    }
    let before = session.passed + session.failed;
    for version in [1, 2, 3] {
        systematic::each(version, &mut |name, file| session.file(name, &file));
    }
    let systematic = session.passed + session.failed - before;
    let mut files = 0;
    while (files < options.files || session.comparer.records < options.records)
        && session.failed < MOST_FAILURES
    {
        let (name, file) = random::file(&mut rng);
        session.file(name, &file);
        files += 1;
    }
    session.tell_histories();
    if !options.first {
        match outside::case("answers") {
            Ok(verdict) => println!("from outside, {verdict}"),
            Err(why) => {
                session.failed += 1;
                println!("FAILED: from outside, {why}");
            }
        }
    }
    let mut missing = session.ways.report();
    for (index, counter) in session.comparer.counters.iter().enumerate() {
        missing.extend(coverage::report(index, counter));
    }
    for (index, states) in session.comparer.states.iter().enumerate() {
        missing.extend(states.report(index));
    }
    missing.extend(session.profiles.report(&session.comparer.one_writer));
    missing.extend(session.seasons.report());
    missing.extend(merger.missing());
    missing.extend(session.histories.report());
    let mut wrong: Vec<String> = missing.iter().map(|what| format!("{what} was never reached")).collect();
    wrong.extend(session.ranges.report());
    wrong.extend(session.stops.report());
    for what in &wrong {
        println!("FAILED: {what}");
    }
    println!(
        "seed {}: {systematic} systematic and {files} random files, {} records",
        options.seed, session.comparer.records
    );
    let mut failed = session.failed + (wrong.len() + session.histories.failures.len()) as u64;
    if systematic == 0 || files == 0 {
        println!("FAILED: there were no files of one kind");
        failed += 1;
    }
    println!("{} histories", session.histories.passed);
    let passed = session.passed + session.histories.passed;
    println!("{passed} passed, {failed} failed");
    if failed == 0 {
        ExitCode::SUCCESS
    } else {
        ExitCode::FAILURE
    }
}
