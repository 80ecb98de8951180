//! Runs a built program as its user does, on files and pipes, and holds what it prints to the oracle, byte for byte: `programs fit PROGRAM`, at the
//! top of the repository. A crash, an exit status other than 0, a word on standard error or input that is not read to its end counts as different.

use oracle::pmf::listing;
use std::fs::{self, File};
use std::io::Write;
use std::path::{Path, PathBuf};
use std::process::{Child, Command, ExitCode, Stdio};
use std::time::Duration;

/// The bytes of the longest file: 16 terms and 100 stars.
const LONGEST: usize = 31_775;
/// Where in a file the number of its terms and its mode stand.
const TERMS: usize = 5;
const MODE: usize = 6;
/// Stands behind the last record of replay_files.
const MARK: u8 = 255;
/// Differences that are printed; all are counted.
const SHOWN: usize = 10;
const MB: usize = 1 << 20;

/// How standard input comes.
#[derive(Clone, Copy)]
enum Feed {
    File,
    Pipe,
    /// Parts of so many bytes, with a pause of milliseconds after each.
    Parts(usize, u64),
}

struct Held {
    program: PathBuf,
    room: PathBuf,
    runs: usize,
    fits: usize,
    differences: usize,
}

fn feed(child: &mut Child, input: &[u8], size: usize, pause: u64) -> Result<(), String> {
    let mut stdin = child.stdin.take().expect("a pipe");
    for part in input.chunks(size) {
        stdin
            .write_all(part)
            .and_then(|()| stdin.flush())
            .map_err(|e| format!("its input is not read to the end: {e}"))?;
        if pause > 0 {
            std::thread::sleep(Duration::from_millis(pause));
        }
    }
    Ok(())
}

/// The first line that differs, or the lengths where one listing is the beginning of the other.
fn first_difference(printed: &[u8], expected: &[u8]) -> String {
    let lines = |bytes: &[u8]| -> Vec<String> {
        let text = String::from_utf8_lossy(bytes);
        text.lines().map(String::from).collect()
    };
    let (ours, theirs) = (lines(printed), lines(expected));
    match ours.iter().zip(&theirs).find(|(a, b)| a != b) {
        Some((a, b)) => format!("{a:?} in place of {b:?}"),
        None => format!("{} bytes in place of {}", printed.len(), expected.len()),
    }
}

impl Held {
    /// What the program prints with this standard input, where it ends as it should.
    fn output(
        &self,
        stdin: Stdio,
        write: impl Fn(&mut Child) -> Result<(), String>,
    ) -> Result<Vec<u8>, String> {
        let mut child = Command::new(&self.program)
            .stdin(stdin)
            .stdout(Stdio::piped())
            .stderr(Stdio::piped())
            .spawn()
            .map_err(|e| format!("it does not start: {e}"))?;
        let fed = write(&mut child);
        let made = child.wait_with_output().map_err(|e| e.to_string())?;
        fed?;
        if !made.status.success() {
            return Err(format!("it ends with {}", made.status));
        }
        match made.stderr.is_empty() {
            true => Ok(made.stdout),
            false => Err(format!("it says {}", String::from_utf8_lossy(&made.stderr))),
        }
    }

    fn run(&self, input: &[u8], how: Feed) -> Result<Vec<u8>, String> {
        match how {
            Feed::File => {
                let path = self.room.join("input");
                fs::write(&path, input).map_err(|e| e.to_string())?;
                let file = File::open(&path).map_err(|e| e.to_string())?;
                self.output(file.into(), |_| Ok(()))
            }
            Feed::Pipe => self.output(Stdio::piped(), |child| feed(child, input, MB, 0)),
            Feed::Parts(size, pause) => {
                self.output(Stdio::piped(), |child| feed(child, input, size, pause))
            }
        }
    }

    fn different(&mut self, what: &str, why: &str) {
        self.differences += 1;
        if self.differences <= SHOWN {
            println!("different: {what}: {why}");
        }
    }

    fn held_to(&mut self, what: &str, expected: &[u8], printed: Result<Vec<u8>, String>) {
        self.runs += 1;
        self.fits += usize::from(expected.starts_with(b"fit"));
        match printed {
            Ok(printed) if printed == expected => {}
            Ok(printed) => self.different(what, &first_difference(&printed, expected)),
            Err(why) => self.different(what, &why),
        }
    }

    /// Runs the program on a file, which the oracle fits beside it.
    fn hold(&mut self, what: &str, input: &[u8], how: Feed) {
        let expected = listing(input);
        let printed = self.run(input, how);
        self.held_to(what, expected.as_bytes(), printed);
    }
}

fn read(path: &Path) -> Result<Vec<u8>, String> {
    fs::read(path).map_err(|e| format!("{}: {e}", path.display()))
}

/// The files of a folder with this ending.
fn ending(folder: &str, extension: &str) -> Result<Vec<PathBuf>, String> {
    let entries = fs::read_dir(folder).map_err(|e| format!("{folder}: {e}"))?;
    let mut paths: Vec<PathBuf> = entries.flatten().map(|entry| entry.path()).collect();
    paths.retain(|path| path.extension().is_some_and(|e| e == extension));
    paths.sort();
    Ok(paths)
}

/// The files of examples/ against their stored listings.
fn examples(held: &mut Held) -> Result<(), String> {
    let paths = ending("examples", "pmf")?;
    let listings = ending("examples", "listing")?;
    if paths.is_empty() || paths.len() != listings.len() {
        let (files, listings) = (paths.len(), listings.len());
        return Err(format!(
            "examples/ has {files} files and {listings} listings"
        ));
    }
    for path in paths {
        let (input, stored) = (read(&path)?, read(&path.with_extension("listing"))?);
        if listing(&input).as_bytes() != stored {
            return Err(format!("{}: the oracle lists it otherwise", path.display()));
        }
        for (how, name) in [(Feed::File, "file"), (Feed::Pipe, "pipe")] {
            let printed = held.run(&input, how);
            held.held_to(&format!("{}, {name}", path.display()), &stored, printed);
        }
    }
    Ok(())
}

/// The files of replay_files' records (oracle/README.md), each with the listing stored for it.
fn records(stored: &[u8]) -> Option<Vec<(Vec<u8>, Vec<u8>)>> {
    let (mut left, mut base, mut files) = (stored, Vec::new(), Vec::new());
    let take = |count: usize, left: &mut &[u8]| -> Option<Vec<u8>> {
        let taken = left.get(..count)?.to_vec();
        *left = &left[count..];
        Some(taken)
    };
    loop {
        let kind = take(1, &mut left)?[0];
        if kind == MARK {
            return left.is_empty().then_some(files);
        }
        let x = u32::from_le_bytes(take(4, &mut left)?.try_into().ok()?) as usize;
        let mut file: Vec<u8> = base.clone();
        match kind {
            0 => {
                file = take(x, &mut left)?;
                base = file.clone();
            }
            1 => file.truncate(x),
            2 => file[x..x + 1].copy_from_slice(&take(1, &mut left)?),
            3 => file[x..x + 8].copy_from_slice(&take(8, &mut left)?),
            4 => file.resize(file.len() + x, 0),
            _ => return None,
        }
        let length = u16::from_le_bytes(take(2, &mut left)?.try_into().ok()?);
        files.push((file, take(usize::from(length), &mut left)?));
    }
}

/// The files of replay_files, as many as its `stdout` counts.
fn replayed() -> Result<Vec<Vec<u8>>, String> {
    let folder = Path::new("crates/replay_files");
    let stored = read(&folder.join("stdin"))?;
    let records = records(&stored).ok_or("crates/replay_files/stdin can't be read")?;
    let counts = String::from_utf8_lossy(&read(&folder.join("stdout"))?).into_owned();
    if !counts.starts_with(&format!("files {}\n", records.len())) {
        return Err(format!(
            "{} records, and the counts are {counts}",
            records.len()
        ));
    }
    match records
        .iter()
        .find(|(file, stored)| listing(file).as_bytes() != stored)
    {
        Some(_) => Err("crates/replay_files/stdin is not the oracle's".into()),
        None => Ok(records.into_iter().map(|(file, _)| file).collect()),
    }
}

/// A file with so many bytes, cut or with a byte repeated behind it.
fn sized(file: &[u8], length: usize, filler: u8) -> Vec<u8> {
    let mut sized = file.to_vec();
    sized.resize(length, filler);
    sized
}

/// Lengths around that of the longest file, in each mode.
fn around(held: &mut Held, longest: &[u8]) {
    for mode in [0, 1, 3] {
        let mut file = longest.to_vec();
        file[MODE] = mode;
        for length in (LONGEST - 40..=LONGEST + 40).chain([LONGEST - 1000, LONGEST + 1000]) {
            let what = format!("the longest file in mode {mode} with {length} bytes");
            held.hold(&what, &sized(&file, length, 0), Feed::File);
            held.hold(&what, &sized(&file, length, 255), Feed::Pipe);
        }
        // the last bytes count
        file[LONGEST - 1] ^= 1;
        held.hold("its last byte changed", &file, Feed::Pipe);
        file[LONGEST - 1] = 127;
        file[LONGEST - 2] = 240;
        held.hold("its last number infinite", &file, Feed::Pipe);
    }
}

/// Lengths far above: of zeros, of a header and junk, of good files and junk. What is refused first in the header is refused.
fn far_above(held: &mut Held, longest: &[u8]) -> Result<(), String> {
    let short = read(Path::new("examples/document-01.pmf"))?;
    let mut terms = short.clone();
    terms[TERMS] = 17;
    let heads: [(&str, &[u8]); 5] = [
        ("zeros", &[]),
        ("the header of a file", &short[..9]),
        ("the file of docs/SCOPE.md 11.3.5", &short),
        ("the header of 17 terms", &terms),
        ("the longest file", longest),
    ];
    let room = LONGEST + 1;
    let buffer = 65_536;
    let mut lengths = vec![2 * room, MB, 20 * MB];
    for near in [room + buffer, room + 2 * buffer, buffer] {
        lengths.extend([near - 1, near, near + 1]);
    }
    for (name, head) in heads {
        for &length in &lengths {
            for (filler, how) in [(0, Feed::Pipe), (171, Feed::File)] {
                let what = format!("{name}, then bytes {filler} to {length}");
                held.hold(&what, &sized(head, length, filler), how);
            }
        }
    }
    Ok(())
}

/// Input that comes slowly, none, and a read that fails, which ends the input.
fn slowly(held: &mut Held, longest: &[u8]) -> Result<(), String> {
    let night = read(Path::new("examples/night.pmf"))?;
    for (size, pause) in [(1, 0), (7, 0), (313, 1), (1024, 2), (4096, 20)] {
        let how = Feed::Parts(size, pause);
        held.hold(&format!("night.pmf in parts of {size}"), &night, how);
        held.hold(
            &format!("its first part of {size} alone"),
            &night[..size],
            how,
        );
        held.hold(
            &format!("the longest file in parts of {size}"),
            longest,
            how,
        );
        let longer = sized(longest, 100_000, 0);
        held.hold(&format!("a longer one in parts of {size}"), &longer, how);
    }
    held.hold("nothing, in a file", &[], Feed::File);
    held.hold("nothing, in a pipe", &[], Feed::Pipe);
    let folder = File::open("examples").map_err(|e| e.to_string())?;
    let printed = held.output(folder.into(), |_| Ok(()));
    held.held_to(
        "a folder, which can't be read",
        listing(&[]).as_bytes(),
        printed,
    );
    Ok(())
}

/// A part of the test, and how many runs it makes.
fn part(
    held: &mut Held,
    name: &str,
    make: impl FnOnce(&mut Held) -> Result<(), String>,
) -> Result<(), String> {
    let (runs, fits) = (held.runs, held.fits);
    make(held)?;
    println!(
        "{name}: {} runs, {} of them fits",
        held.runs - runs,
        held.fits - fits
    );
    Ok(())
}

fn fit(held: &mut Held) -> Result<(), String> {
    let files = replayed()?;
    let is_longest = |file: &&Vec<u8>| file.len() == LONGEST && listing(file).starts_with("fit");
    let longest = files
        .iter()
        .find(is_longest)
        .ok_or("no record is a longest file")?;
    part(held, "examples", examples)?;
    part(held, "around the longest file", |held| {
        around(held, longest);
        Ok(())
    })?;
    part(held, "far above it", |held| far_above(held, longest))?;
    part(held, "slowly, nothing, unreadable", |held| {
        slowly(held, longest)
    })?;
    part(held, "replay_files", |held| {
        for (i, file) in files.iter().enumerate() {
            held.hold(&format!("record {i} of replay_files"), file, Feed::Pipe);
        }
        Ok(())
    })
}

fn main() -> ExitCode {
    let args: Vec<String> = std::env::args().skip(1).collect();
    let [name, program] = &args[..] else {
        eprintln!("programs fit PROGRAM");
        return ExitCode::from(2);
    };
    let room = Path::new("target/programs").to_path_buf();
    let mut held = Held {
        program: program.into(),
        room,
        runs: 0,
        fits: 0,
        differences: 0,
    };
    let done = match name.as_str() {
        "fit" => fit(&mut held),
        _ => Err(format!("no program {name} is known here")),
    };
    if let Err(why) = &done {
        println!("{why}");
    }
    println!(
        "{program}: {} runs, {} different",
        held.runs, held.differences
    );
    match done.is_ok() && held.differences == 0 && held.runs > 0 {
        true => ExitCode::SUCCESS,
        false => ExitCode::FAILURE,
    }
}
