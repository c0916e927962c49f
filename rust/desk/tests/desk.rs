//! Runs `desk` as a person does: the examples against stored outputs and the paper, damaged scripts, the command line.

use std::io::Write;
use std::path::PathBuf;
use std::process::{Command, Output, Stdio};

/// The repository's folder of examples.
fn example(name: &str) -> PathBuf {
    PathBuf::from(env!("CARGO_MANIFEST_DIR")).join("../../examples").join(name)
}

/// The text of a file.
fn text(path: &PathBuf) -> String {
    std::fs::read_to_string(path).unwrap_or_else(|error| panic!("{}: {error}", path.display()))
}

/// `desk` as it is started here: by itself, or by the program that `KHUVELTER_RUNNER` names (rust/machine says why).
fn starting() -> Command {
    let desk = env!("CARGO_BIN_EXE_desk");
    let Some(runner) = std::env::var_os("KHUVELTER_RUNNER") else {
        return Command::new(desk);
    };
    let mut command = Command::new(runner);
    command.arg(desk);
    command
}

/// Runs `desk` with words and something on standard input.
fn desk(words: &[&str], input: &[u8]) -> Output {
    let mut child = starting()
        .args(words)
        .env("LC_ALL", "C.UTF-8")
        .env_remove("NO_COLOR")
        .stdin(Stdio::piped())
        .stdout(Stdio::piped())
        .stderr(Stdio::piped())
        .spawn()
        .unwrap();
    // It may stop at a bad line before it has read everything.
    let _ = child.stdin.take().unwrap().write_all(input);
    child.wait_with_output().unwrap()
}

/// What was said on standard output.
fn said(output: &Output) -> String {
    String::from_utf8(output.stdout.clone()).unwrap()
}

/// What was said on standard error.
fn complained(output: &Output) -> String {
    String::from_utf8(output.stderr.clone()).unwrap()
}

/// Runs an example and holds it to its stored output.
fn as_stored(name: &str) -> String {
    let output = desk(&[example(&format!("{name}.desk")).to_str().unwrap()], b"");
    assert_eq!(complained(&output), "");
    assert_eq!(output.status.code(), Some(0));
    let stored = PathBuf::from(env!("CARGO_MANIFEST_DIR")).join(format!("tests/expected/{name}.txt"));
    assert!(said(&output) == text(&stored), "desk no longer says what {} has:\n{}", stored.display(), said(&output));
    said(&output)
}

// ---- the examples

/// The answers to cases a to f, typed in from the paper (the confirmations and terminations of b, e and f by its rules).
const PAPER: &str = "
    a 64 01 07 00 07 00 00 00 00 14
    a 01 02 14 00 07 00 03 00 00 00 0A 00 00 01
    a 0F 01 14 00 07 00 05 00 00 2A 00 00 00 03
    a 64 01 0A 00 07 00 00 00 00 14
    b 64 01 07 00 07 00 00 00 00 15
    b 01 01 15 00 07 00 0A 00 00 01
    b 64 01 0A 00 07 00 00 00 00 15
    c 64 01 47 00 07 00 00 00 00 01
    e 65 01 07 00 07 00 00 00 00 C5
    e 0F 01 25 00 07 00 05 00 00 2A 00 00 00 03
    e 65 01 0A 00 07 00 00 00 00 C5
    e 66 01 07 00 07 00 05 00 00
    e 0F 01 05 00 07 00 05 00 00 00 00 00 00 03
    f 64 01 07 00 09 00 00 00 00 14
    f 64 01 0A 00 09 00 00 00 00 14
";

#[test]
fn one_gateway_answers_as_on_paper() {
    let said = as_stored("one-gateway");
    let mut case = ' ';
    let mut answered = Vec::new();
    for line in said.lines() {
        if line.as_bytes().get(1) == Some(&b'.') {
            case = line.chars().next().unwrap();
        }
        if let Some(octets) = line.strip_prefix("< ") {
            answered.push(format!("{case} {octets}"));
        }
    }
    let paper: Vec<_> = PAPER.lines().map(str::trim).filter(|line| !line.is_empty()).collect();
    assert_eq!(answered, paper);
    for octets in [48, 30, 10, 34, 20] {
        assert!(said.contains(&format!(", {octets} octets")), "{octets}");
    }
    assert!(said.contains("refused, number 4: answer memory shorter than the answer"));
    assert!(said.contains("silent (number 1)"));
    // 4 answers in a and its two repeats, one in each other case, and the read.
    assert_eq!(said.matches("= as expected").count(), 9);
}

/// A station as the test reckons it, from the script's text alone.
#[derive(Clone, PartialEq, Debug)]
struct Reckoned {
    ca: u32,
    reservation: u32,
    ceiling: u32,
    held: u32,
}

/// Document 01: held < c, and held < r or free > unmet.
fn admitted(capacity: u32, stations: &[Reckoned], at: usize) -> bool {
    let free = capacity - stations.iter().map(|s| s.held).sum::<u32>();
    let unmet: u32 = stations.iter().filter(|s| s.held < s.reservation).map(|s| s.reservation - s.held).sum();
    let s = &stations[at];
    s.held < s.ceiling && (s.held < s.reservation || free > unmet)
}

/// How many more points a station gets, granted one by one.
fn granted(capacity: u32, stations: &[Reckoned], at: usize) -> u32 {
    let mut stations = stations.to_vec();
    let before = stations[at].held;
    while admitted(capacity, &stations, at) {
        stations[at].held += 1;
    }
    stations[at].held - before
}

/// The stations of a script's first plan, and the points of its first `load` lines of points.
fn reckoned(script: &str, load: usize) -> Vec<Reckoned> {
    let mut stations: Vec<Reckoned> = Vec::new();
    let mut loads = 0;
    for line in script.lines() {
        let words: Vec<_> = line.split_whitespace().collect();
        match words[..] {
            ["station", ca, "reserve", r, "ceiling", c] => {
                let [ca, reservation, ceiling] = [ca, r, c].map(|word| word.parse().unwrap());
                stations.push(Reckoned { ca, reservation, ceiling, held: 0 });
            }
            ["points", ca, range, ..] if loads < load => {
                let (first, last) = range.split_once("..").unwrap();
                let ca: u32 = ca.parse().unwrap();
                let station = stations.iter_mut().find(|station| station.ca == ca).unwrap();
                station.held += last.parse::<u32>().unwrap() - first.parse::<u32>().unwrap() + 1;
                loads += 1;
            }
            _ => {}
        }
    }
    stations
}

/// The numbers of the boards in what was said: each a list of rows CA, reserved, ceiling, held, unmet, can take now.
fn boards(said: &str) -> Vec<Vec<[u32; 6]>> {
    let mut boards: Vec<Vec<[u32; 6]>> = Vec::new();
    for line in said.lines() {
        let numbers: Vec<u32> = line.split_whitespace().map_while(|word| word.parse().ok()).collect();
        if line.contains("can take now  ") {
            boards.push(Vec::new());
        } else if let (Some(board), Ok(row)) = (boards.last_mut(), <[u32; 6]>::try_from(numbers)) {
            board.push(row);
        }
    }
    boards
}

#[test]
fn sixty_four_stations_are_reckoned_again() {
    let said = as_stored("sixty-four-stations");
    let script = text(&example("sixty-four-stations.desk"));
    let first_load = script.split("shares").next().unwrap().matches("\npoints ").count();
    let stations = reckoned(&script, first_load);
    assert_eq!(stations.len(), 64);

    let boards = boards(&said);
    assert_eq!(boards.len(), 2);
    let rows: Vec<[u32; 6]> = stations
        .iter()
        .enumerate()
        .map(|(at, s)| {
            let unmet = s.reservation.saturating_sub(s.held);
            [s.ca, s.reservation, s.ceiling, s.held, unmet, granted(4096, &stations, at)]
        })
        .collect();
    assert_eq!(boards[0], rows);

    let held: u32 = stations.iter().map(|s| s.held).sum();
    let sold: u32 = stations.iter().map(|s| s.reservation).sum();
    let unmet: u32 = rows.iter().map(|row| row[4]).sum();
    let total = |name: &str, number: u32| {
        let line = said.lines().find(|line| line.trim_start().starts_with(name)).unwrap();
        assert_eq!(line[name.len() + 2..].split_whitespace().next().unwrap(), number.to_string(), "{line}");
    };
    total("capacity", 4096);
    total("held", held);
    total("free", 4096 - held);
    total("unmet", unmet);
    total("open to all", 4096 - held - unmet);
    total("may still be sold", 4096 - sold);

    // The script then gives site 404 what is open to all, and station 105 the four points that it has reserved and not held.
    let mut later = stations;
    later.iter_mut().find(|s| s.ca == 404).unwrap().held += 4096 - held - unmet;
    later.iter_mut().find(|s| s.ca == 105).unwrap().held += 4;
    let takes: Vec<_> = (0..64).map(|at| granted(4096, &later, at)).collect();
    assert_eq!(boards[1].iter().map(|row| row[5]).collect::<Vec<_>>(), takes);
    assert_eq!(boards[1].iter().map(|row| row[3]).sum::<u32>(), later.iter().map(|s| s.held).sum::<u32>());

    // All of them together, by document 01's packing: 243 / (3 + element) objects in an ASDU, six octets before them.
    let points = |name: &str| -> u32 {
        let lines = script.lines().filter(|line| line.starts_with("points ") && line.contains(name));
        let ranges = lines.filter_map(|line| line.split_whitespace().nth(2)?.split_once(".."));
        ranges.map(|(first, last)| last.parse::<u32>().unwrap() - first.parse::<u32>().unwrap() + 1).sum()
    };
    // The batch of 107 was refused.
    let runs = [(points("M_SP_NA_1") - 107, 4), (points("M_ME_NC_1"), 8), (points("M_IT_NA_1"), 8)];
    let asdus: u32 = runs.iter().map(|(count, object)| count.div_ceil(243 / object)).sum();
    let octets: u32 = runs.iter().map(|(count, object)| count * object).sum::<u32>() + 6 * asdus + 20;
    let [(single, _), (float, _), (total, _)] = runs;
    let line =
        format!("done: {} ASDUs, {octets} octets: {single} M_SP_NA_1, {float} M_ME_NC_1, {total} M_IT_NA_1", asdus + 2);
    assert!(said.contains(&line), "{line}");
}

#[test]
fn plain_signs_where_utf_8_is_not_to_be_had() {
    let path = example("one-gateway.desk");
    let path = path.to_str().unwrap();
    let plain = said(&desk(&["--ascii", path], b""));
    assert!(plain.is_ascii());
    assert!(plain.contains("|###########+++++......|"));
    let posix = starting().arg(path).env("LC_ALL", "POSIX").output().unwrap();
    assert_eq!(said(&posix), plain);
}

// ---- damaged scripts

/// Document 01's gateway, open.
const OPEN: &str = "capacity 8\nstation 7 reserve 2 ceiling 4\nopen\n";

/// Scripts with a bad line, its number, and a part of the reason.
const DAMAGED: &[(&str, usize, &str)] = &[
    ("capcity 8", 1, "'capcity' is no word of the desk; is it 'capacity'?"),
    ("frobnicate", 1, "'frobnicate' is no word of the desk; 'desk --help' lists them"),
    ("capacity", 1, "a capacity is missing at the end of the line"),
    ("capacity eight", 1, "'eight' stands where a capacity should"),
    ("capacity 4,096", 1, "it is a number, without signs and commas"),
    ("capacity -1", 1, "it is a number, without signs and commas"),
    ("capacity +1", 1, "it is a number, without signs and commas"),
    ("capacity 99999999999999999999999", 1, "the largest is 4294967295"),
    ("capacity 8 9", 1, "'9' is too much: 'capacity' ends before it"),
    ("capacity 8\ncapacity 9", 2, "this plan has a capacity already"),
    ("station 7 reserve 2 ceiling 4", 1, "a plan starts with its capacity"),
    ("capacity 8\nstation 65536 reserve 2 ceiling 4", 2, "the largest is 65535"),
    ("capacity 8\nstation 7 2 4", 2, "'2' stands where 'reserve' should"),
    ("capacity 8\nstation 7 reserve 2", 2, "'ceiling' is missing"),
    ("open", 1, "there is no plan"),
    ("check", 1, "there is no plan"),
    ("shares", 1, "no gateway is open"),
    ("point 7 10 type 1", 1, "no gateway is open"),
    ("interrogate 7", 1, "no gateway is open"),
    ("OPEN point 7", 4, "an address in a station (IOA) is missing"),
    ("OPEN point 7 10", 4, "'type' is missing"),
    ("OPEN point 7 10 type M_XX_NA_1", 4, "'M_XX_NA_1' is no type: give its number, or its name"),
    ("OPEN point 7 10 type 256", 4, "the largest is 255"),
    ("OPEN point 7 10 type 1 value 1", 4, "octets have two hex digits each"),
    ("OPEN point 7 10 type 1 value 01 02", 4, "the value has 2 octets, but type 1 has 1"),
    ("OPEN point 7 10 type 1 value XY", 4, "'XY' stands where a value should"),
    ("OPEN point 7 10 type 1 group", 4, "a group is missing"),
    ("OPEN points 7 10 type 1", 4, "stands where a range of addresses"),
    ("OPEN points 7 10..9 type 1", 4, "runs backwards"),
    ("OPEN points 7 0..16777215 type 1", 4, "more than any gateway"),
    ("OPEN points 7 0..16777216 type 1", 4, "the largest is 16777215"),
    ("OPEN batch\npoint 7 1 type 1\nshares", 6, "only points stand in a batch; the one of line 4"),
    ("OPEN end", 4, "there is no batch to end"),
    ("OPEN station 8 reserve 0 ceiling 0", 4, "a plan starts with its capacity"),
    ("OPEN send", 4, "an ASDU is missing"),
    ("OPEN send 64 01 06 00 07 00 00 00 00 1", 4, "'1' is no octet"),
    ("OPEN send 64 01 06 00 07 00 00 00 00 14 confirm", 4, "type 100 is no process command"),
    ("OPEN send 2D 01 06 00 07 00 0A 00 00 01", 4, "a process command needs a proposal"),
    ("OPEN send 2D 01 06 00 07 00 0A 00 00 01 confirm update 7", 4, "(IOA) is missing"),
    ("OPEN interrogate 7 group 17", 4, "17 is not a group: 1 to 16"),
    ("OPEN counters 7 group 0", 4, "0 is not a counter group: 1 to 4"),
    ("OPEN read 7", 4, "(IOA) is missing"),
    ("expect 64", 1, "there is no call above"),
    ("OPEN shares\nexpect number 0", 5, "there is no call above"),
    ("show nothing", 1, "'nothing' stands where 'full' or 'brief' should"),
];

#[test]
fn a_bad_line_is_refused_with_file_line_and_reason_and_nothing_after_it_runs() {
    for (script, line, reason) in DAMAGED {
        let script = script.replace("OPEN ", OPEN);
        let whole = format!("{script}\nsay AFTERWARDS\n");
        let output = desk(&[], whole.as_bytes());
        let (said, complained) = (said(&output), complained(&output));
        assert_eq!(output.status.code(), Some(2), "{script}\n{said}{complained}");
        assert!(complained.starts_with(&format!("standard input:{line}: ")), "{script}\n{complained}");
        assert!(complained.contains(reason), "{script}\n{complained}");
        assert!(complained.contains("nothing after this line was run"), "{script}");
        assert!(complained.contains(script.lines().last().unwrap().trim()), "{script}\n{complained}");
        assert!(!said.contains("AFTERWARDS"), "{script}");
        assert_eq!(said.contains("open: 8 points, 1 station"), script.contains("open\n"), "{script}\n{said}");
    }
}

#[test]
fn a_file_is_named_with_its_line() {
    let path = std::env::temp_dir().join(format!("damaged-{}.desk", std::process::id()));
    std::fs::write(&path, "# a comment\n\ncapacity 8\nstation seven\n").unwrap();
    let output = desk(&[path.to_str().unwrap()], b"");
    std::fs::remove_file(&path).unwrap();
    assert_eq!(output.status.code(), Some(2));
    assert!(complained(&output).starts_with(&format!("{}:4: 'seven' stands where", path.display())));
    let output = desk(&[path.to_str().unwrap()], b"");
    assert_eq!(output.status.code(), Some(2));
    assert!(complained(&output).contains(path.to_str().unwrap()));
}

#[test]
fn a_batch_without_end_registers_nothing() {
    let output = desk(&[], format!("{OPEN}batch\npoint 7 1 type 1\n").as_bytes());
    assert_eq!(output.status.code(), Some(2));
    assert!(complained(&output).contains("the batch of line 4 has no 'end'; its points were not registered"));
}

#[test]
fn lines_that_are_no_text_or_too_long_are_refused() {
    let output = desk(&[], b"capacity 8\n\xFF\xFE\nsay AFTERWARDS\n");
    assert_eq!(output.status.code(), Some(2));
    assert!(complained(&output).starts_with("standard input:2: this line is no UTF-8 text"));
    let mut long = b"capacity 8\n".to_vec();
    long.extend([b'x'; 200_000]);
    let output = desk(&[], &long);
    assert_eq!(output.status.code(), Some(2));
    assert!(complained(&output).starts_with("standard input:2: this line is longer than 100000 octets"));
    // Nothing in a script moves the cursor of the terminal that it is shown on.
    let output = desk(&[], b"say \x1b[2J\x07\n\x1b[2J\n");
    assert_eq!(output.status.code(), Some(2));
    assert!(!said(&output).contains('\x1b') && !complained(&output).contains('\x1b'));
    // Windows line ends and a byte order mark are fine.
    let output = desk(&[], b"\xEF\xBB\xBFcapacity 8\r\nstation 7 reserve 2 ceiling 4\r\nopen\r\n");
    assert_eq!((output.status.code(), said(&output).as_str()), (Some(0), "open: 8 points, 1 station\n"));
    // An empty script does nothing, well.
    let output = desk(&[], b"");
    assert_eq!((output.status.code(), said(&output).as_str()), (Some(0), ""));
}

#[test]
fn whatever_octets_are_spoilt_it_ends_with_a_status_of_its_own() {
    let script = text(&example("one-gateway.desk")).into_bytes();
    let mut drawn: u64 = 0x2545_F491_4F6C_DD1D;
    let mut below = |limit: usize| {
        drawn ^= drawn << 13;
        drawn ^= drawn >> 7;
        drawn ^= drawn << 17;
        (drawn % limit as u64) as usize
    };
    let mut statuses = [0; 3];
    for _ in 0..300 {
        let mut spoilt = script.clone();
        for _ in 0..=below(3) {
            let at = below(spoilt.len());
            match below(4) {
                0 => spoilt[at] = below(256) as u8,
                1 => spoilt[at] ^= 1 << below(8),
                2 => drop(spoilt.drain(at..(at + below(40)).min(script.len()).min(spoilt.len()))),
                _ => spoilt.insert(at, b"0123456789AFx .\n"[below(16)]),
            }
        }
        let output = desk(&[], &spoilt);
        let status = output.status.code().unwrap_or(101);
        assert!((0..=2).contains(&status), "{}\n{}", String::from_utf8_lossy(&spoilt), complained(&output));
        assert_eq!(status == 2, complained(&output).starts_with("standard input:"));
        statuses[status as usize] += 1;
    }
    assert!(statuses.iter().all(|&seen| seen > 10), "{statuses:?}");
}

// ---- what a person meets

#[test]
fn a_faulty_plan_is_told_in_sentences_with_lines() {
    let script =
        "capacity 8\nstation 9 reserve 5 ceiling 4\nstation 7 reserve 4 ceiling 9\nstation 65535 reserve 0 ceiling 0\n";
    let sentences = "The plan cannot be opened.
  line 2: Station 9 reserves 5 points, more than its ceiling of 4.
  line 3: Station 7 stands after station 9, but stations go by ascending address.
  line 3: Station 7 has a ceiling of 9, more than the gateway's 8 points.
  line 4: Station 65535 cannot be planned: in a command that address means every station.
  The reservations add up to 9, 1 more than the gateway's 8 points.
";
    let checked = desk(&["--check"], script.as_bytes());
    assert_eq!((checked.status.code(), said(&checked).as_str()), (Some(1), sentences));
    let opened = desk(&[], format!("{script}open\n").as_bytes());
    assert_eq!(opened.status.code(), Some(1));
    let refused =
        "  line 5: refused, number 10: invalid plan or K, or table memory below 48 × K + 8 × stations + 64 octets\n";
    assert_eq!(said(&opened), format!("{sentences}{refused}"));
    let expected = desk(&[], format!("{script}check\nexpect number 10\nopen\nexpect number 10\n").as_bytes());
    assert_eq!(expected.status.code(), Some(0));
}

#[test]
fn a_plan_is_checked_without_anything_being_opened() {
    let output = desk(&["--check", example("sixty-four-stations.desk").to_str().unwrap()], b"");
    assert_eq!(output.status.code(), Some(0));
    let sentences = "The plan can be opened.
  4096 points, 64 stations, 197184 octets of table
  3520 points are reserved, 576 may still be sold (capacity minus all reservations)
";
    assert_eq!(said(&output), sentences);
    let poor = desk(&["--check"], b"capacity 8\nstation 7 reserve 0 ceiling 3\nstation 8 reserve 0 ceiling 0\n");
    assert!(said(&poor).contains("the ceilings add up to 3, so 5 points can never be used"));
    assert!(said(&poor).contains("station 8 has a ceiling of 0 and can hold nothing"));
}

#[test]
fn refusals_are_told_with_line_number_and_words_and_counted() {
    // Document 01, cases i and j, one by one.
    let script = "capacity 5\nstation 1 reserve 2 ceiling 5\nstation 2 reserve 2 ceiling 2\nopen
points 1 1..3 type 1\npoint 1 4 type 1\npoints 2 1..2 type 1\npoint 2 3 type 1\nremove 2 1\npoint 1 4 type 1\npoint 2 1 type 1\n";
    let output = desk(&[], script.as_bytes());
    let said = said(&output);
    assert_eq!(output.status.code(), Some(1));
    assert!(said.contains("line 6: refused, number 20: held < c, not admitted\n    point CA 1 IOA 4\n"));
    assert!(said.contains("line 8: refused, number 19: ceiling: held = c\n    point CA 2 IOA 3\n"));
    assert!(said.contains("line 10: refused, number 20"));
    assert!(complained(&output).contains("standard input: 3 refusals that were not expected"));
}

#[test]
fn a_refused_batch_names_the_line_of_the_faulty_point() {
    let script =
        format!("{OPEN}batch\npoint 7 1 type 1\npoint 7 2 type 1\npoint 7 1 type 3\nend\nexpect number 16\nshares\n");
    let output = desk(&[], script.as_bytes());
    assert_eq!(output.status.code(), Some(0));
    assert!(said(&output).contains("line 8: refused, number 16: address stands earlier in the batch"));
    assert!(said(&output).contains("point 2, counted from 0 (line 7, CA 7 IOA 1)"));
    assert_eq!(boards(&said(&output)), [[[7, 2, 4, 0, 2, 4]]]);
}

#[test]
fn what_is_not_as_expected_is_shown_and_counted() {
    let script = format!("{OPEN}connect\nexpect 46 01 04 00 07 00 00 00 00 00\ninterrogate 7\nexpect number 1\n");
    let output = desk(&[], script.as_bytes());
    assert_eq!(output.status.code(), Some(1));
    let said = said(&output);
    assert!(said.contains("NOT AS EXPECTED (line 4)"));
    assert!(said.contains("the answer has 10 octets, expected 10; octet 4, counted from 0, is 00, expected 07"));
    assert!(said.contains("expected number 1, got 0"));
    assert!(complained(&output).contains("2 calls were not as expected"));
}

#[test]
fn a_process_command_tells_every_connection_and_answers_the_one() {
    let script = format!(
        "{OPEN}point 7 10 type 1 value 00
send 2D 01 06 00 07 00 0A 00 00 01 confirm update 7 10 type 1 value 01
expect told 01 01 03 00 07 00 0A 00 00 01
expect 2D 01 07 00 07 00 0A 00 00 01
send 2D 01 08 00 07 00 0A 00 00 01 reject
expect 2D 01 49 00 07 00 0A 00 00 01
send 2D 01 06 00 07 00 0A 00 00 01 confirm reply type 100 0A 00 00 01
expect number 6
send 2D 01 06 00 07 00 0A 00 00 01 room 9 confirm
expect number 4
send 64 01 06
expect number 2
"
    );
    let output = desk(&[], script.as_bytes());
    assert_eq!((output.status.code(), complained(&output).as_str()), (Some(0), ""), "{}", said(&output));
    assert!(said(&output).contains("* 01 01 03 00 07 00 0A 00 00 01\n    M_SP_NA_1 single point, spontaneous, CA 7"));
}

#[test]
fn thousands_of_points_one_by_one() {
    let mut script = String::from("capacity 4096\nstation 7 reserve 4000 ceiling 4096\nopen\n");
    (0..4000).for_each(|ioa| script.push_str(&format!("point 7 {ioa} type 13 value 00 00 C8 42 00\n")));
    script.push_str("show brief\ninterrogate 7\n");
    let output = desk(&[], script.as_bytes());
    assert_eq!((output.status.code(), complained(&output).as_str()), (Some(0), ""));
    assert!(said(&output).contains("registered: 4000 points\n"));
    // 243 / 8 = 30 in an ASDU: 133 full ones and 10 objects, 4,000 × 8 octets and 134 headers, confirmation and termination.
    assert!(said(&output).contains("done: 136 ASDUs, 32824 octets: 4000 M_ME_NC_1"), "{}", said(&output));
}

#[test]
fn help_and_usage() {
    for word in ["--help", "-h"] {
        let help = desk(&[word], b"");
        assert_eq!(help.status.code(), Some(0));
        assert!(said(&help).contains("desk examples/one-gateway.desk"));
        assert!(said(&help).lines().all(|line| line.chars().count() <= 100));
    }
    let wrong = desk(&["--colour"], b"");
    assert_eq!(wrong.status.code(), Some(2));
    assert!(complained(&wrong).contains("there is no option --colour"));
    let missing = desk(&["no-such-file.desk"], b"");
    assert_eq!(missing.status.code(), Some(2));
    assert!(complained(&missing).starts_with("desk: no-such-file.desk: "));
}
