//! Makes cases, shows them, and compares a program's answers with those of the unchanged Rust. See README.md.

use beside::answer::{differences, hex, Answer, NAMES};
use beside::cases::{Case, Cases, SORTS};
use beside::frame::CAPACITY_MAX;
use beside::{marked, wire, with_stack};
use sawp_diameter::diameter::inside::{self, RECORD};
use std::collections::HashMap;
use std::io::{BufReader, BufWriter, Read, Write};
use std::path::PathBuf;
use std::process::{Command, ExitCode, Stdio};
use std::sync::mpsc::channel;

const USAGE: &str = "usage:
  oracle sorts                  how many cases each sort has
  oracle check                  the marked messages (docs/FORMAT.md, 10), answered by the Rust
  oracle show SORT NUMBER       a case and its answer, to be read
  oracle frame SORT NUMBER      a case as a frame, for a program
  oracle answer SORT NUMBER     its answer, as a program should write it
  oracle inputs FOLDER          the messages that instructions are counted for
  oracle records FILE           what the Rust reads in a message of any length, as `bench/ours records` writes ours
  oracle sample FOLDER          a few cases of each sort, answer and flags: FOLDER/frames and FOLDER/answers
  oracle compare -- PROGRAM...  all cases against a program that answers frames
options, before `--`:
  --seed N (1)   --scale N (1)  so many times the random cases   --real FOLDER  real messages, *.bin
  --sort NAME    only this sort, may be given again              --every N (1)  only each Nth case
  --first N (5)  differences shown of each sort                  --restart N    a new process after N cases
  --room N       leave out cases with a store of more than N records";

struct Options {
    words: Vec<String>,
    program: Vec<String>,
    seed: u64,
    scale: u64,
    real: Option<PathBuf>,
    sorts: Vec<&'static str>,
    every: u64,
    first: u64,
    restart: u64,
    room: u64,
}

fn main() -> ExitCode {
    let options = match options() {
        Ok(options) => options,
        Err(why) => return usage(&why),
    };
    let cases = Cases::new(options.seed, options.scale, options.real.as_deref());
    let words: Vec<&str> = options.words.iter().map(String::as_str).collect();
    match words[..] {
        ["sorts"] => {
            for sort in SORTS {
                println!("{sort:12} {}", cases.count(sort));
            }
            ExitCode::SUCCESS
        }
        ["check"] => check(&cases),
        ["show" | "frame" | "answer", sort, number] => match one(&cases, sort, number) {
            Ok(case) => {
                match words[0] {
                    "show" => show(&case),
                    "frame" => put(&case.frame.to_bytes()),
                    _ => put(&case.answer.to_bytes()),
                }
                ExitCode::SUCCESS
            }
            Err(why) => usage(&why),
        },
        ["inputs", folder] => {
            for (name, bytes) in wire::measured() {
                std::fs::write(format!("{folder}/{name}.bin"), &bytes).expect("FOLDER can be written");
                println!("{name}.bin {} bytes", bytes.len());
            }
            ExitCode::SUCCESS
        }
        ["records", file] => {
            let bytes = std::fs::read(file).expect("FILE can be read");
            with_stack(|| put(&records(&bytes)));
            ExitCode::SUCCESS
        }
        ["sample", folder] => {
            with_stack(|| sample(&cases, &options, folder)).expect("FOLDER can be written");
            ExitCode::SUCCESS
        }
        ["compare"] if !options.program.is_empty() => compare(&cases, &options),
        _ => usage("nothing to do"),
    }
}

fn usage(why: &str) -> ExitCode {
    eprintln!("{why}\n{USAGE}");
    ExitCode::from(2)
}

fn options() -> Result<Options, String> {
    let mut o = Options {
        words: Vec::new(),
        program: Vec::new(),
        seed: 1,
        scale: 1,
        real: None,
        sorts: Vec::new(),
        every: 1,
        first: 5,
        restart: 0,
        room: CAPACITY_MAX as u64,
    };
    let mut args = std::env::args().skip(1);
    while let Some(arg) = args.next() {
        if arg == "--" {
            o.program = args.by_ref().collect();
        } else if let Some(name) = arg.strip_prefix("--") {
            let value = args.next().ok_or(format!("--{name} needs a value"))?;
            let count = || {
                value
                    .parse::<u64>()
                    .map_err(|_| format!("--{name} {value}: not a number"))
            };
            match name {
                "seed" => o.seed = count()?,
                "scale" => o.scale = count()?,
                "every" => o.every = count()?.max(1),
                "first" => o.first = count()?,
                "restart" => o.restart = count()?,
                "room" => o.room = count()?,
                "real" => o.real = Some(value.into()),
                "sort" => o.sorts.push(sort_named(&value)?),
                _ => return Err(format!("no option --{name}")),
            }
        } else {
            o.words.push(arg);
        }
    }
    if o.sorts.is_empty() {
        o.sorts = SORTS.to_vec();
    }
    Ok(o)
}

fn sort_named(name: &str) -> Result<&'static str, String> {
    SORTS.into_iter().find(|s| *s == name).ok_or(format!("no sort {name}"))
}

fn put(bytes: &[u8]) {
    std::io::stdout().write_all(bytes).expect("standard output");
}

/// The header as on the wire, flags, counts and length as numbers of 8 bytes, and all records. A refusal is nothing.
fn records(bytes: &[u8]) -> Vec<u8> {
    let Ok(read) = inside::message(bytes) else {
        return Vec::new();
    };
    let mut out: Vec<u8> = read.header.into_iter().flatten().collect();
    for n in [read.flags as usize, read.records.len(), read.tried, read.length] {
        out.extend((n as u64).to_be_bytes());
    }
    out.extend(read.records.concat());
    out
}

// ---- a sample

/// So many cases of each sort, answer and flags are in a sample, and one alone where the input is long.
const SAMPLED: usize = 16;
const LONG: usize = 1_000;

fn sample(cases: &Cases, options: &Options, folder: &str) -> std::io::Result<()> {
    let mut taken: HashMap<(&str, u8, u8), usize> = HashMap::new();
    let (mut frames, mut answers) = (Vec::new(), Vec::new());
    for &sort in &options.sorts {
        for number in (0..cases.count(sort)).step_by(options.every as usize) {
            let case = cases.case(sort, number);
            let flags = case.answer.accepted.as_ref().map_or(0, |a| a.flags);
            let n = taken.entry((sort, case.answer.number, flags)).or_default();
            let most = if case.frame.bytes.len() > LONG { 1 } else { SAMPLED };
            if *n < most && case.frame.capacity as u64 <= options.room {
                *n += 1;
                frames.extend(case.frame.to_bytes());
                answers.extend(case.answer.to_bytes());
            }
        }
    }
    std::fs::write(format!("{folder}/frames"), frames)?;
    std::fs::write(format!("{folder}/answers"), answers)?;
    println!("{} cases", taken.values().sum::<usize>());
    Ok(())
}

// ---- one case

fn one(cases: &Cases, sort: &str, number: &str) -> Result<Case, String> {
    let sort = sort_named(sort)?;
    let number = number.parse::<u64>().map_err(|_| format!("{number}: not a number"))?;
    if number >= cases.count(sort) {
        return Err(format!("{sort} has {} cases", cases.count(sort)));
    }
    Ok(with_stack(|| cases.case(sort, number)))
}

fn show(case: &Case) {
    let f = &case.frame;
    let function = ["message", "header alone", "one AVP"][f.function as usize];
    println!(
        "{} {}: {function}, limit {}, capacity {}, {} bytes",
        case.sort,
        case.number,
        f.limit,
        f.capacity,
        f.bytes.len()
    );
    println!("{}", hex(&f.bytes));
    let a = &case.answer;
    println!("answer {} {}, amount {}", a.number, NAMES[a.number as usize], a.amount);
    if let Some(given) = &a.accepted {
        if let Some(header) = &given.header {
            println!("header {}", hex(header));
        }
        println!(
            "flags {}, records {}, tried {}, length {}",
            given.flags, given.records, given.tried, given.length
        );
        for record in a.store.chunks(RECORD).take(given.records as usize) {
            println!("{}", hex(record));
        }
    }
}

// ---- the marked messages

fn check(cases: &Cases) -> ExitCode {
    println!("sha256 of the Rust file: {}", sawp_diameter::SHA256);
    let mut wrong = 0;
    for (i, m) in marked::MARKED.iter().enumerate() {
        let answer = with_stack(|| cases.case("marked", i as u64)).answer;
        let records: Vec<_> = answer
            .store
            .chunks(RECORD)
            .take(answer.accepted.as_ref().map_or(0, |a| a.records as usize))
            .map(|r| {
                let word = |at: usize| u32::from_be_bytes(r[at..at + 4].try_into().unwrap());
                let value = u64::from_be_bytes(r[24..32].try_into().unwrap());
                (r[16], word(0), r[17], r[18], word(4) & 0xFF_FFFF, value, word(32))
            })
            .collect();
        let given = answer
            .accepted
            .as_ref()
            .map_or((0, 0, 0), |a| (a.flags, a.tried, a.length));
        let right = (answer.number, answer.amount, given) == (m.number, m.amount, m.accepted) && records == m.records;
        if !right {
            wrong += 1;
            println!(
                "{}: answer {} {}, {given:?}, {records:?}",
                m.name, answer.number, answer.amount
            );
        }
    }
    println!("marked: {} answered, {wrong} wrong", marked::MARKED.len());
    ExitCode::from((wrong > 0) as u8)
}

// ---- comparing

#[derive(Clone, Default)]
struct Count {
    cases: u64,
    differ: u64,
    numbers: [u64; NAMES.len()],
}

// Frames are written in lots of this many.
const LOT: usize = 64;

fn compare(cases: &Cases, options: &Options) -> ExitCode {
    println!("sha256 of the Rust file: {}", sawp_diameter::SHA256);
    println!(
        "seed {}, scale {}, every {}",
        options.seed, options.scale, options.every
    );
    let asked: Vec<(&'static str, u64)> = options
        .sorts
        .iter()
        .flat_map(|&sort| {
            (0..cases.count(sort))
                .step_by(options.every as usize)
                .map(move |n| (sort, n))
        })
        .collect();
    let each = if options.restart == 0 {
        asked.len().max(1)
    } else {
        options.restart as usize
    };
    let mut counts = vec![Count::default(); SORTS.len()];
    let mut trouble = None;
    for part in asked.chunks(each) {
        if let Err(why) = ask(cases, options, part, &mut counts) {
            trouble = Some(why);
            break;
        }
    }

    println!(
        "{:12} {:>9} {:>7}   {}",
        "sort",
        "cases",
        "differ",
        NAMES.map(|n| format!("{n:>10}")).join(" ")
    );
    let mut total = Count::default();
    for (sort, count) in SORTS.iter().zip(&counts).filter(|(_, count)| count.cases > 0) {
        line(sort, count);
        total.cases += count.cases;
        total.differ += count.differ;
        for (sum, n) in total.numbers.iter_mut().zip(count.numbers) {
            *sum += n;
        }
    }
    line("all", &total);
    if total.cases == 0 {
        trouble.get_or_insert("nothing was compared".to_string());
    }
    if let Some(why) = trouble {
        println!("stopped: {why}");
        return ExitCode::from(2);
    }
    ExitCode::from((total.differ > 0) as u8)
}

fn line(name: &str, count: &Count) {
    let numbers = count.numbers.map(|n| format!("{n:>10}")).join(" ");
    println!("{name:12} {:>9} {:>7}   {numbers}", count.cases, count.differ);
}

// One process: a thread makes cases and writes frames, and this one reads answers and compares.
fn ask(cases: &Cases, options: &Options, asked: &[(&'static str, u64)], counts: &mut [Count]) -> Result<(), String> {
    let mut child = Command::new(&options.program[0])
        .args(&options.program[1..])
        .stdin(Stdio::piped())
        .stdout(Stdio::piped())
        .spawn()
        .map_err(|e| format!("{}: {e}", options.program[0]))?;
    let mut frames = BufWriter::with_capacity(1 << 16, child.stdin.take().expect("a pipe"));
    let mut answers = BufReader::with_capacity(1 << 16, child.stdout.take().expect("a pipe"));
    // no bound but that of the pipe: a program may hold back its answers until it has read more
    let (send, receive) = channel::<Vec<Case>>();

    let compared = std::thread::scope(|scope| {
        std::thread::Builder::new()
            .stack_size(1 << 30)
            .spawn_scoped(scope, move || {
                for lot in asked.chunks(LOT) {
                    let mut lot: Vec<Case> = lot.iter().map(|&(sort, number)| cases.case(sort, number)).collect();
                    lot.retain(|case| case.frame.capacity as u64 <= options.room);
                    let bytes: Vec<u8> = lot.iter().flat_map(|case| case.frame.to_bytes()).collect();
                    // an error here is a program that has ended: the other side says so
                    if send.send(lot).is_err() || frames.write_all(&bytes).is_err() || frames.flush().is_err() {
                        return;
                    }
                }
            })
            .expect("a thread");
        // the receiver goes when this ends, so that the thread above ends too
        let receive = receive;
        for case in receive.iter().flatten() {
            let program = Answer::read(&mut answers, case.frame.function, case.frame.capacity)
                .map_err(|e| format!("no whole answer to {} {}: {e}", case.sort, case.number));
            match program {
                Ok(program) => compare_one(&case, &program, options.first, counts),
                Err(why) => {
                    let _ = child.kill();
                    return Err(why);
                }
            }
        }
        Ok(())
    });
    compared?;
    let mut more = Vec::new();
    answers.read_to_end(&mut more).map_err(|e| e.to_string())?;
    let status = child.wait().map_err(|e| e.to_string())?;
    if !more.is_empty() {
        return Err(format!("{} bytes after the last answer", more.len()));
    }
    if !status.success() {
        return Err(format!("the program ended with {status}"));
    }
    Ok(())
}

fn compare_one(case: &Case, program: &Answer, first: u64, counts: &mut [Count]) {
    let sort = SORTS.iter().position(|s| *s == case.sort).expect("a sort");
    let count = &mut counts[sort];
    count.cases += 1;
    count.numbers[case.answer.number as usize] += 1;
    if *program == case.answer {
        return;
    }
    count.differ += 1;
    if count.differ <= first {
        for difference in differences(&case.answer, program) {
            println!("{} {}: {difference}", case.sort, case.number);
        }
    }
}
