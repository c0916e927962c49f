//! The capacity desk of a proved gateway: opens one from a plan, loads points, sends commands, shows shares. `desk --help` says how.

mod board;
mod call;
mod language;
mod plan_lines;
mod progress;
mod session;
mod stop;
mod style;
mod words;

use std::fs::File;
use std::io::{self, BufRead, BufReader, BufWriter, IsTerminal, Read, Write};
use std::process::ExitCode;

use session::Session;
use stop::Stop;
use style::Style;
use words::printable;

/// What `--help` says; the words of a script stand in it.
const HELP: &str = include_str!("help.txt");

/// The longest line that is read.
const LONGEST_LINE: u64 = 100_000;

/// What the command line asks for.
#[derive(Default)]
struct Options {
    files: Vec<String>,
    ascii: bool,
    brief: bool,
    check: bool,
}

/// Reads the command line: options, or what to say instead.
fn options(arguments: impl Iterator<Item = String>) -> Result<Options, Result<String, String>> {
    let mut options = Options::default();
    let mut only_files = false;
    for argument in arguments {
        match argument.as_str() {
            _ if only_files => options.files.push(argument),
            "--help" | "-h" => return Err(Ok(HELP.to_string())),
            "--version" => return Err(Ok(format!("desk {}\n", env!("CARGO_PKG_VERSION")))),
            "--ascii" => options.ascii = true,
            "--brief" => options.brief = true,
            "--check" => options.check = true,
            "--" => only_files = true,
            _ if argument.len() > 1 && argument.starts_with('-') => {
                return Err(Err(format!("desk: there is no option {argument}; desk --help lists them")));
            }
            _ => options.files.push(argument),
        }
    }
    if options.files.is_empty() {
        options.files.push("-".to_string());
    }
    Ok(options)
}

fn main() -> ExitCode {
    let options = match options(std::env::args().skip(1)) {
        Ok(options) => options,
        Err(Ok(said)) => {
            // A reader that has gone away wants no more.
            let _ = io::stdout().write_all(said.as_bytes());
            return ExitCode::SUCCESS;
        }
        Err(Err(reason)) => {
            eprintln!("{reason}");
            return ExitCode::from(2);
        }
    };
    let style = Style::of_terminal(options.ascii, io::stdout().is_terminal());
    let mut out = BufWriter::new(io::stdout().lock());
    let mut worst = 0;
    for file in &options.files {
        let status = run_file(file, &options, style, &mut out);
        worst = worst.max(status);
        if status == 2 {
            break;
        }
    }
    if out.flush().is_err() {
        worst = worst.max(1);
    }
    ExitCode::from(worst)
}

/// Runs one script and gives back its exit status: 0 all well, 1 something was refused or differs, 2 a bad line.
fn run_file(file: &str, options: &Options, style: Style, out: &mut impl Write) -> u8 {
    let (name, input): (&str, Box<dyn Read>) = match file {
        "-" => ("standard input", Box::new(io::stdin())),
        path => match File::open(path) {
            Ok(opened) => (path, Box::new(opened)),
            Err(error) => {
                let _ = out.flush();
                eprintln!("desk: {path}: {error}");
                return 2;
            }
        },
    };
    if file == "-" && io::stdin().is_terminal() {
        eprintln!("desk: reading what you type; 'help' lists the words, Ctrl-D ends.");
    }
    let mut session = Session::new(style, options.brief, options.check);
    let stopped = run(&mut BufReader::new(input), io::stdout().is_terminal(), &mut session, out);
    // What was said comes before what went wrong, also where both go to one screen.
    let _ = out.flush();
    match stopped {
        Ok(()) => match session.troubles() {
            Some(troubles) => {
                eprintln!("desk: {name}: {troubles}");
                1
            }
            None => 0,
        },
        Err(Stop::Bad { line, reason, text }) => {
            eprintln!("{name}:{line}: {}", printable(&reason));
            if !text.trim().is_empty() {
                eprintln!("    {}", shortened(text.trim()));
            }
            eprintln!("desk: nothing after this line was run");
            2
        }
        Err(Stop::Gone) => 1,
        Err(Stop::Unreadable(error)) => {
            eprintln!("desk: {name}: {error}");
            2
        }
    }
}

/// Runs a script line by line, so that what is typed is answered at once and nothing after a bad line runs.
fn run(input: &mut impl BufRead, watched: bool, session: &mut Session, out: &mut impl Write) -> Result<(), Stop> {
    let mut line = 0;
    let mut octets = Vec::new();
    loop {
        octets.clear();
        let length = input.take(LONGEST_LINE + 1).read_until(b'\n', &mut octets).map_err(Stop::Unreadable)?;
        line += 1;
        if length == 0 {
            return session.end(line - 1, out);
        }
        if length as u64 > LONGEST_LINE {
            return Err(Stop::bad(line, format!("this line is longer than {LONGEST_LINE} octets")));
        }
        let Ok(text) = std::str::from_utf8(&octets) else {
            return Err(Stop::bad(line, "this line is no UTF-8 text").with_text(&String::from_utf8_lossy(&octets)));
        };
        let text = if line == 1 { text.trim_start_matches('\u{FEFF}') } else { text };
        session.line(line, text, out)?;
        // A person who looks on wants to see it now.
        if watched {
            out.flush()?;
        }
    }
}

/// A line as it is shown back: not more of it than helps.
fn shortened(text: &str) -> String {
    let mut shown = printable(&text.chars().take(90).collect::<String>());
    if text.chars().nth(90).is_some() {
        shown.push_str(" ..");
    }
    shown
}
