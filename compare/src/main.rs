//! Compares the proved library and the proved player with the second program.

#![forbid(unsafe_code)]

use compare::faulty::{self, Fault, Faulty, RECORD_FAULTS, STREAM_FAULTS};
use compare::interface::{image_in_words, of_hex, outcome_in_words, Case};
use compare::proved::Proved;
use compare::run::{records, streams, Part, StreamDifference, Tally};
use compare::second_side::Second;
use compare::streams::{second_plays, Program, Stream};
use std::io;
use std::path::PathBuf;
use std::process::ExitCode;
use std::time::Instant;

const USAGE: &str = "\
usage: compare --play PLAYER [--seed N] [--count N] [--flips N] [--runs N] [--streams N] [--one-in N] [--numbers]
       compare --self-test [--seed N] [--numbers]
       compare --again 'CALL' | --again 'stream HEX' --play PLAYER

  --play PLAYER the words that start the proved player, an emulator's before its own; not needed with --streams 0
  --seed N      the seed of the generated cases (1)
  --count N     about so many generated records, beside the fixed ones (1000000)
  --flips N     about so many reached states in which each bit of a sum or of slices left is flipped (3000)
  --runs N      runs from a fresh start that are held to the old rules, one in four over thousands of slices (400)
  --streams N   generated streams, beside the fixed ones (20000); 0: no streams at all
  --one-in N    of the fixed streams one in N, beside those that document 01 gives or that fail (1)
  --numbers     also shows how often each number was given back; with --self-test, how soon the fixed cases alone find each fault
  --self-test   compares the second program with copies that have a fault; each must be found
  --again       runs a call or a stream of a printed difference once more

exit status: 0 no difference, 1 a difference (or a fault not found), 2 not run
";

struct Arguments {
    play: Option<String>,
    seed: u64,
    count: u64,
    flips: u64,
    runs: u64,
    streams: u64,
    one_in: usize,
    numbers: bool,
    self_test: bool,
    again: Option<String>,
    play_with: Option<Fault>,
}

fn arguments() -> Result<Arguments, String> {
    let mut found = Arguments {
        play: None,
        seed: 1,
        count: 1_000_000,
        flips: 3_000,
        runs: 400,
        streams: 20_000,
        one_in: 1,
        numbers: false,
        self_test: false,
        again: None,
        play_with: None,
    };
    let mut given = std::env::args().skip(1);
    while let Some(name) = given.next() {
        let mut value = || given.next().ok_or(format!("{name} wants a value"));
        let number = |value: String| {
            value
                .parse()
                .map_err(|_| format!("{name} wants a number, not {value}"))
        };
        match name.as_str() {
            "--play" => found.play = Some(value()?),
            "--seed" => found.seed = number(value()?)?,
            "--count" => found.count = number(value()?)?,
            "--flips" => found.flips = number(value()?)?,
            "--runs" => found.runs = number(value()?)?,
            "--streams" => found.streams = number(value()?)?,
            "--one-in" => found.one_in = number(value()?)?.max(1) as usize,
            "--numbers" => found.numbers = true,
            "--self-test" => found.self_test = true,
            "--again" => found.again = Some(value()?),
            // The self-test starts this program so, as a player with a fault.
            "--play-with-fault" => {
                let name = value()?;
                found.play_with = Some(faulty::named(&name).ok_or(format!("no fault {name}"))?);
            }
            _ => return Err(format!("{name} is not known")),
        }
    }
    Ok(found)
}

fn main() -> ExitCode {
    let result = arguments().and_then(|arguments| match run(&arguments) {
        Ok(result) => result.map(ExitCode::from),
        Err(error) => {
            eprintln!("compare: the player could not be run: {error}");
            Ok(ExitCode::from(2))
        }
    });
    result.unwrap_or_else(|error| {
        eprint!("compare: {error}\n\n{USAGE}");
        ExitCode::from(2)
    })
}

/// The exit status; an inner error is about the arguments.
fn run(arguments: &Arguments) -> io::Result<Result<u8, String>> {
    if let Some(fault) = arguments.play_with {
        faulty::play(fault, io::stdin().lock(), io::stdout().lock());
        return Ok(Ok(0));
    }
    if arguments.self_test {
        return Ok(Ok(u8::from(!self_test(arguments.seed, arguments.numbers)?)));
    }
    if let Some(line) = &arguments.again {
        return again(line, arguments);
    }
    if arguments.play.is_none() && arguments.streams > 0 {
        return Ok(Err("--play is missing (or say --streams 0)".to_string()));
    }

    let start = Instant::now();
    let mut tally = Tally::default();
    let part = |generated| Part {
        fixed: true,
        generated,
        one_in: arguments.one_in,
        flips: arguments.flips,
        runs: arguments.runs,
        seed: arguments.seed,
    };
    let found = records(&Proved, part(arguments.count), &mut tally);
    let mut difference = found.map(|found| found.in_words(&Proved, "proved"));
    if let (None, Some(play)) = (&difference, player(arguments)) {
        if arguments.streams > 0 {
            let found = streams(&play, part(arguments.streams), &mut tally)?;
            if let Some(found) = found {
                difference = Some(found.in_words(&play, "proved")?);
            }
        }
    }
    if arguments.numbers {
        print!("{}", tally.numbers_in_words());
    }
    if let Some(difference) = &difference {
        print!("{difference}");
    }
    println!("{}", tally.flips.in_words());
    println!("{}", tally.beside.in_words());
    let retired = tally.retired();
    if retired > 0 {
        println!("11 or 15, which are retired, were told {retired} times");
    }
    println!(
        "compared {} records ({} calls) and {} streams ({} lines), seed {}, {} s: {}",
        tally.records,
        tally.calls,
        tally.streams,
        tally.lines,
        arguments.seed,
        start.elapsed().as_secs(),
        match difference {
            None => "no difference",
            Some(_) => "A DIFFERENCE",
        }
    );
    Ok(Ok(u8::from(difference.is_some() || retired > 0)))
}

fn player(arguments: &Arguments) -> Option<Program> {
    let mut words = arguments.play.as_ref()?.split_whitespace();
    Some(Program {
        path: PathBuf::from(words.next()?),
        arguments: words.map(str::to_string).collect(),
    })
}

/// One call or one stream again, with both answers.
fn again(line: &str, arguments: &Arguments) -> io::Result<Result<u8, String>> {
    if let Some(digits) = line.strip_prefix("stream ") {
        let Some(input) = of_hex(digits.trim()) else {
            return Ok(Err("--again: no hex digits".to_string()));
        };
        let Some(play) = player(arguments) else {
            return Ok(Err("--again: a stream wants --play".to_string()));
        };
        let stream = Stream::new("again", input);
        let (one, other) = (play.play(&stream)?, second_plays(&stream));
        if one == other {
            print!("no difference:\n{}", String::from_utf8_lossy(&one));
        } else {
            print!("{}", StreamDifference { stream }.in_words(&play, "proved")?);
        }
        return Ok(Ok(u8::from(one != other)));
    }
    let Some(case) = Case::of_line(line) else {
        return Ok(Err("--again: no call".to_string()));
    };
    let (one, other) = (case.run(&Proved), case.run(&Second));
    if let Some(image) = image_in_words(&case) {
        println!("{image}");
    }
    println!("proved {}", outcome_in_words(&one, &other));
    println!("second {}", outcome_in_words(&other, &one));
    Ok(Ok(u8::from(one != other)))
}

/// After how many cases a fault is found, if it is; none where these cases were not tried.
type Tried = Option<Option<u64>>;

/// Each fault must be found; without one, nothing may differ. The fixed and the generated cases together are one comparison: most
/// faults are found soonest by the generated ones, and the fixed ones are tried where these find nothing, or on every fault.
fn self_test(seed: u64, on_every_fault: bool) -> io::Result<bool> {
    const RECORDS: u64 = 100_000;
    const STREAMS: u64 = 2_000;
    const FLIPS: u64 = 25;
    const RUNS: u64 = 8;
    let start = Instant::now();
    let mut good = true;
    let parts = |generated| {
        let part = |fixed, generated, flips, runs| Part {
            fixed,
            generated,
            one_in: 1,
            flips,
            runs,
            seed,
        };
        (part(true, 0, 0, 0), part(false, generated, FLIPS, RUNS))
    };
    let mut tell = |name: &str, what: &str, unit: &str, fixed: Tried, generated: Option<u64>| {
        let found = generated.or(fixed.flatten()).is_some();
        good &= found;
        let said = |count: Option<u64>| count.map_or("not".to_string(), |count| count.to_string());
        println!(
            "{} {name:<16} by fixed {unit} {:>6}, by generated {:>6}  ({what})",
            if found { "found    " } else { "NOT FOUND" },
            fixed.map_or("-".to_string(), said),
            said(generated),
        );
    };

    for (fault, name, what) in RECORD_FAULTS {
        let found = |part| {
            let mut tally = Tally::default();
            records(&Faulty(fault), part, &mut tally).map(|_| tally.records)
        };
        let (fixed, generated) = parts(RECORDS);
        let generated = found(generated);
        let fixed = (on_every_fault || generated.is_none()).then(|| found(fixed));
        tell(name, what, "records", fixed, generated);
    }
    let this = std::env::current_exe()?;
    let faulty_player = |name: &str| Program {
        path: this.clone(),
        arguments: vec!["--play-with-fault".to_string(), name.to_string()],
    };
    for (_, name, what) in STREAM_FAULTS {
        let found = |part| -> io::Result<Option<u64>> {
            let mut tally = Tally::default();
            Ok(streams(&faulty_player(name), part, &mut tally)?.map(|_| tally.streams))
        };
        let (fixed, generated) = parts(STREAMS);
        let generated = found(generated)?;
        let wanted = on_every_fault || generated.is_none();
        let fixed = wanted.then(|| found(fixed)).transpose()?;
        tell(name, what, "streams", fixed, generated);
    }

    // Without a fault the copy agrees, so each fault above was found for what it is.
    let part = |generated| Part {
        fixed: true,
        generated,
        one_in: 1,
        flips: FLIPS,
        runs: RUNS,
        seed,
    };
    let mut tally = Tally::default();
    if let Some(found) = records(&Faulty(Fault::Faultless), part(RECORDS), &mut tally) {
        print!("{}", found.in_words(&Faulty(Fault::Faultless), "copy"));
        good = false;
    }
    let player = faulty_player("none");
    if let Some(found) = streams(&player, part(STREAMS), &mut tally)? {
        print!("{}", found.in_words(&player, "copy")?);
        good = false;
    }
    println!(
        "self-test: {} faults, {} records and {} streams without a fault, seed {seed}, {} s: {}",
        RECORD_FAULTS.len() + STREAM_FAULTS.len(),
        tally.records,
        tally.streams,
        start.elapsed().as_secs(),
        if good {
            "each fault found, no false difference"
        } else {
            "FAILED"
        }
    );
    Ok(good)
}
