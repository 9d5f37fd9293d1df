//! Writes request files for `tools/compare`, the same ones each time: `generate FOLDER`.
//!
//! Short files come first, so that a first difference shows in a short one. A wrong line ends a run, so it comes late.

use std::env;
use std::fs;
use std::io;
use std::path::PathBuf;
use std::process::ExitCode;

const DEVICES: [u64; 2] = [0, 1];
const PLENTY: u64 = 1_000_000;
const MOST_A: u64 = 99_999;
const MOST_B: u64 = 99_999_999_999_999;
/// The last corrected reading that the time kind takes.
const LAST_READING: u64 = (1 << 41) - 1;
/// Some of them are below 8 in their low bits.
const HIGH_SERIES: [u64; 8] = [8, 9, 10, 255, 258, 65_538, 80_000, MOST_A];

/// SplitMix64.
struct Random(u64);

impl Random {
    fn next(&mut self) -> u64 {
        self.0 = self.0.wrapping_add(0x9e37_79b9_7f4a_7c15);
        let mut x = self.0;
        x = (x ^ (x >> 30)).wrapping_mul(0xbf58_476d_1ce4_e5b9);
        x = (x ^ (x >> 27)).wrapping_mul(0x94d0_49bb_1331_11eb);
        x ^ (x >> 31)
    }

    fn below(&mut self, bound: u64) -> u64 {
        self.next() % bound
    }

    fn one_in(&mut self, bound: u64) -> bool {
        self.below(bound) == 0
    }

    fn pick<T: Copy>(&mut self, choices: &[T]) -> T {
        choices[self.below(choices.len() as u64) as usize]
    }
}

fn request(letter: char, a: u64, b: u64) -> Vec<u8> {
    format!("{letter}{a:>5}{b:>14}\n").into_bytes()
}

/// The bytes of a request file.
#[derive(Clone)]
struct Script(Vec<u8>);

impl Script {
    fn new() -> Script {
        Script(Vec::new())
    }

    fn serial(device: u64, sectors: u64, block: u64) -> Script {
        Script::new().line('D', device, sectors).line('S', block, 0)
    }

    fn time(device: u64, sectors: u64, lease: u64, box_number: u64, correction: u64) -> Script {
        Script::new().line('D', device, sectors).line('T', lease, 0).line('B', box_number, correction)
    }

    fn add(&mut self, letter: char, a: u64, b: u64) {
        self.raw(&request(letter, a, b));
    }

    fn give(&mut self, series: u64, reading: u64) {
        self.add('G', series, reading);
    }

    fn cut(&mut self, tear: u64, supply: u64) {
        self.add('C', tear, supply);
    }

    fn raw(&mut self, bytes: &[u8]) {
        self.0.extend_from_slice(bytes);
    }

    fn line(mut self, letter: char, a: u64, b: u64) -> Script {
        self.add(letter, a, b);
        self
    }

    fn then(mut self, bytes: &[u8]) -> Script {
        self.raw(bytes);
        self
    }
}

struct Folder {
    path: PathBuf,
    files: usize,
}

impl Folder {
    fn add(&mut self, family: &str, script: Script) -> io::Result<()> {
        self.files += 1;
        fs::write(self.path.join(format!("{:04}-{family}", self.files)), script.0)
    }
}

/// Cases that were worked out by hand.
fn worked(folder: &mut Folder) -> io::Result<()> {
    for device in DEVICES {
        let mut script = Script::serial(device, 10, 3);
        script.give(2, 0);
        script.cut(0, 1);
        script.give(2, 0);
        script.cut(0, 9);
        script.give(2, 0);
        folder.add("worked", script)?;
    }
    let mut script = Script::time(0, 10, 1, 1, 0);
    for _ in 0..6 {
        script.give(3, 1000);
    }
    folder.add("worked", script)
}

/// Every setting at its limits and just outside.
fn settings(folder: &mut Folder) -> io::Result<()> {
    let requests = |mut script: Script| {
        for series in (0..9).chain([0, 7]) {
            script.give(series, 200_000);
        }
        script.cut(7, 3);
        script.give(1, 200_000);
        script.give(1, 900_000);
        script.give(1, 900_000);
        script
    };
    for device in [0, 1, 2, 256, 65_536, MOST_A] {
        for sectors in [0, 1, 9, 10, 11, 2047, 2048, 2049, 65_546, (1 << 32) + 10, MOST_B] {
            folder.add("sectors", requests(Script::serial(device, sectors, 1)))?;
        }
    }
    for device in DEVICES {
        for block in [0, 1, 2, 9_999, 10_000, 10_001, 65_537, MOST_A] {
            folder.add("block", requests(Script::serial(device, 10, block)))?;
        }
        for lease in [0, 1, 2, 59_999, 60_000, 60_001, 65_537, MOST_A] {
            folder.add("lease", requests(Script::time(device, 10, lease, 5, 0)))?;
        }
        for box_number in [0, 1, 126, 127, 128, 255, 256, 65_536, MOST_A] {
            folder.add("box", requests(Script::time(device, 10, 1, box_number, 0)))?;
        }
        for correction in [0, 1, 126, 127, 128, 129, 253, 254, 255, 256, 509, 1 << 32, MOST_B] {
            folder.add("correction", requests(Script::time(device, 10, 1, 5, correction)))?;
        }
    }
    Ok(())
}

/// The first and the last lawful reading under a correction, with their neighbours; each series on its own.
fn readings(folder: &mut Folder) -> io::Result<()> {
    for correction in [0, 1, 3, 126, 127, 128, 129, 253, 255] {
        let shift = 1000 * i64::from(correction as u8 as i8);
        for sectors in [10, 300] {
            let mut script = Script::time(1, sectors, 1 + correction, 127, correction);
            for (series, limit) in (0..).zip([-shift, -shift, LAST_READING as i64 - shift]) {
                for reading in (limit - 2..=limit + 2).chain([limit - 999, limit + 1001]) {
                    script.give(series, reading.max(0) as u64);
                }
                script.cut(9, PLENTY);
            }
            for series in [4, 8] {
                script.give(series, MOST_B);
                script.give(series, 0);
            }
            script.cut(0, 0);
            for reading in [500_000, MOST_B] {
                script.give(5, reading);
                script.give(8, reading);
            }
            folder.add("readings", script)?;
        }
    }
    Ok(())
}

/// The lawful lines of each stage, behind a script that leads to the stage.
fn stages() -> Vec<(Script, Vec<u8>)> {
    let device = Script::new();
    let kind = Script::new().line('D', 1, 12);
    let box_stage = kind.clone().line('T', 20, 0);
    let mut serial = kind.clone().line('S', 2, 0);
    let mut time = box_stage.clone().line('B', 77, 254);
    for script in [&mut serial, &mut time] {
        for series in 0..8 {
            script.give(series, 10_000 + series);
        }
        script.cut(1, 5);
        script.give(3, 10_100);
    }
    vec![
        (device, request('D', 1, 12)),
        (kind.clone(), request('S', 2, 0)),
        (kind, request('T', 20, 0)),
        (box_stage, request('B', 77, 254)),
        (serial, request('G', 5, 12_345)),
        (time.clone(), request('G', 6, 12_345)),
        (time, request('C', 17, 8)),
    ]
}

/// A right-justified field in which something is wrong.
fn wrong_fields(width: usize) -> Vec<Vec<u8>> {
    let short: [&[u8]; 17] = [
        b"", b"00", b"01", b"1 2", b"1 ", b"0 ", b"+1", b"-1", b"1a", b"0x1", b"1.0", b"1\t", b"\t1", b"\x001",
        b"\xe9", b"1\n", b"\n1",
    ];
    let mut fields: Vec<Vec<u8>> = Vec::new();
    for text in short {
        let mut field = vec![b' '; width - text.len()];
        field.extend_from_slice(text);
        fields.push(field);
    }
    for byte in [b'0', b'x', b'\t', 0, 0xff] {
        fields.push(vec![byte; width]);
    }
    let mut leading = vec![b'9'; width];
    leading[0] = b'0';
    fields.push(leading);
    fields
}

/// Each kind of wrong line at each stage. Lawful lines follow most of them and must not be taken any more.
fn wrong_lines(folder: &mut Folder) -> io::Result<()> {
    for (script, line) in stages() {
        let more = request('G', 1, 0);
        for letter in *b"DSTBGCdgX 0\0\r\n\xc3\xff" {
            let mut wrong = line.clone();
            wrong[0] = letter;
            folder.add("letter", script.clone().then(&wrong).then(&more))?;
        }
        for (start, end) in [(1, 6), (6, 20)] {
            for field in wrong_fields(end - start) {
                let mut wrong = line.clone();
                wrong[start..end].copy_from_slice(&field);
                folder.add("field", script.clone().then(&wrong).then(&more))?;
            }
        }
        let mut not_zero = line.clone();
        not_zero[19] = b'1';
        folder.add("not-zero", script.clone().then(&not_zero).then(&more))?;
        for length in [1, 2, 5, 6, 7, 13, 19, 20] {
            folder.add("short", script.clone().then(&line[..length]).then(b"\n").then(&more))?;
            folder.add("unended", script.clone().then(&line[..length]))?;
        }
        for extra in [1, 2, 30, 5_000, 200_000] {
            let long = script.clone().then(&line[..20]).then(&vec![b' '; extra]);
            folder.add("long", long.clone().then(b"\n").then(&more))?;
            folder.add("long-unended", long)?;
        }
        for end in [&b"\r\n"[..], b"0\n", b"\0\n"] {
            folder.add("end", script.clone().then(&line[..20]).then(end).then(&more))?;
        }
    }
    Ok(())
}

/// Lines with two faults: a number that is out of its range, and no line feed where it belongs.
fn twice_wrong(folder: &mut Folder) -> io::Result<()> {
    let kind = Script::new().line('D', 0, 10);
    let box_stage = kind.clone().line('T', 1, 0);
    let running = kind.clone().line('S', 1, 0);
    for (script, line) in [
        (Script::new(), request('D', 2, 9)),
        (kind.clone(), request('S', 0, 0)),
        (kind, request('T', 0, 0)),
        (box_stage, request('B', 128, 256)),
        (running, request('G', 8, 0)),
    ] {
        folder.add("twice-wrong", script.clone().then(&line[..20]))?;
        folder.add("twice-wrong", script.then(&line[..20]).then(b" \n"))?;
    }
    Ok(())
}

/// Files that are hardly request files, and lawful lines with a few bytes changed.
fn noise(folder: &mut Folder, random: &mut Random) -> io::Result<()> {
    folder.add("empty", Script::new())?;
    folder.add("line-feed", Script::new().then(b"\n"))?;
    folder.add("line-feeds", Script::new().then(&[b'\n'; 3000]))?;
    for byte in [b' ', b'D', 0, 0xff] {
        folder.add("no-line-feed", Script::new().then(&vec![byte; 70_000]))?;
    }
    for _ in 0..8 {
        let length = 1 + random.below(6_000);
        let bytes: Vec<u8> = (0..length).map(|_| random.next() as u8).collect();
        folder.add("bytes", Script::new().then(&bytes))?;
    }
    for (script, line) in stages() {
        for _ in 0..12 {
            let mut script = script.clone();
            for _ in 0..20 {
                let mut line = line.clone();
                for _ in 0..=random.below(3) {
                    let column = random.below(21) as usize;
                    line[column] = random.pick(b" 0123456789 0 1 GC\n\r-x\xe9");
                }
                script.raw(&line);
            }
            folder.add("changed", script)?;
        }
    }
    Ok(())
}

/// Which of the eight series is asked: mostly one of them, so that the others' records have to be carried.
fn some_series(random: &mut Random, favourite: u64) -> u64 {
    if random.one_in(60) {
        random.pick(&HIGH_SERIES)
    } else if random.one_in(3) {
        random.below(8)
    } else {
        favourite
    }
}

fn some_supply(random: &mut Random) -> u64 {
    match random.below(10) {
        0 => MOST_B,
        1 | 2 => 20 + random.below(300),
        _ => random.below(21),
    }
}

fn some_tear(random: &mut Random) -> u64 {
    match random.below(8) {
        0 => MOST_A - random.below(200),
        _ => random.below(70),
    }
}

/// Small rings that close often, at random.
fn small_rings(folder: &mut Folder, random: &mut Random) -> io::Result<()> {
    for sectors in 10..=13 {
        for device in DEVICES {
            for block in [1, 1, 2] {
                let mut script = Script::serial(device, sectors, block);
                let mut favourite = 0;
                for _ in 0..900 {
                    if random.one_in(12) {
                        script.cut(some_tear(random), some_supply(random));
                    } else if random.one_in(25) {
                        favourite = random.below(8);
                    } else {
                        script.give(some_series(random, favourite), random.below(3));
                    }
                }
                folder.add("small", script)?;
            }
        }
    }
    Ok(())
}

/// The dearest reservation, with seven carries, cut at one operation and at every tear.
///
/// Every request reserves a block: of one rank, or of the one millisecond by which the readings rise. Two rounds over all
/// series put their records side by side; one series then goes on until the next record but one would lie on the first of
/// the others.
fn sweep(mut script: Script, sectors: u64, supply: u64) -> Script {
    let mut reading = 1_000;
    for tear in 0..=40 {
        let dear = (tear + supply) % 8;
        let rounds = (0..16).map(|turn| dear + turn);
        for series in rounds.chain((8..sectors).map(|_| dear)) {
            script.give(series % 8, reading);
            reading += 1;
        }
        script.cut(tear, supply);
        for _ in 0..3 {
            script.give(dear, reading);
            reading += 1;
        }
        script.cut(tear, PLENTY);
    }
    for series in 0..8 {
        script.give(series, reading);
    }
    script
}

fn sweeps(folder: &mut Folder) -> io::Result<()> {
    for supply in 0..=20 {
        for device in DEVICES {
            for sectors in 10..=13 {
                folder.add("sweep-serial", sweep(Script::serial(device, sectors, 1), sectors, supply))?;
            }
            folder.add("sweep-time", sweep(Script::time(device, 10, 1, 9, 0), 10, supply))?;
        }
    }
    Ok(())
}

/// Long serial runs on rings of every size.
fn serial_runs(folder: &mut Folder, random: &mut Random) -> io::Result<()> {
    for (sectors, block) in [(10, 3), (11, 100), (17, 1), (64, 7), (500, 2), (1024, 10_000), (2047, 1), (2048, 1)] {
        for device in DEVICES {
            let mut script = Script::serial(device, sectors, block);
            for _ in 0..4_000 {
                if random.one_in(150) {
                    let supply = if random.one_in(3) { some_supply(random) } else { PLENTY };
                    script.cut(some_tear(random), supply);
                } else {
                    let favourite = random.below(8);
                    script.give(some_series(random, favourite), random.below(MOST_B + 1));
                }
            }
            folder.add("serial", script)?;
        }
    }
    Ok(())
}

/// Long runs of the time kind: readings rise, stand, fall back, and now and then are not lawful.
fn time_runs(folder: &mut Folder, random: &mut Random) -> io::Result<()> {
    for (sectors, lease) in [(10, 1), (11, 2), (12, 50), (13, 1), (40, 1_000), (777, 1), (2048, 60_000)] {
        for device in DEVICES {
            let correction = random.below(256);
            let mut script = Script::time(device, sectors, lease, random.below(128), correction);
            let mut reading = 0;
            for _ in 0..4_000 {
                match random.below(40) {
                    0 => script.cut(some_tear(random), some_supply(random)),
                    1 => script.cut(some_tear(random), PLENTY),
                    2 => reading -= random.below(1 + reading / 2),
                    3 => reading += random.below(60_000 * lease),
                    4 => script.give(random.below(8), LAST_READING + 130_000 + random.below(1_000)),
                    step => {
                        reading += step % 4;
                        let favourite = random.below(8);
                        script.give(some_series(random, favourite), reading);
                    }
                }
            }
            folder.add("time", script)?;
        }
    }
    Ok(())
}

/// The last millisecond of the time kind, asked for until its ranks run out.
/// The serial kind at its top: 99,999 cuts lose a block of 10,000 each, the last block is smaller, and the requests past the top
/// are denied, also after a cut.
fn last_labels(folder: &mut Folder) -> io::Result<()> {
    let mut script = Script::serial(0, 10, 10_000);
    for _ in 0..99_999 {
        script.give(0, 0);
        script.cut(0, 999_999);
    }
    for _ in 0..10_001 {
        script.give(0, 0);
    }
    script.cut(0, 9);
    script.give(0, 0);
    script.give(1, 0);
    folder.add("last-labels", script)
}

fn last_ranks(folder: &mut Folder) -> io::Result<()> {
    for device in DEVICES {
        for (lease, correction, reading) in [
            (1, 0, LAST_READING),
            (60_000, 0, LAST_READING - 1),
            (3, 127, LAST_READING - 127_000),
            (2, 128, LAST_READING + 128_000),
        ] {
            let mut script = Script::time(device, 10, lease, 127, correction);
            script.give(1, reading);
            for _ in 0..4_200 {
                script.give(6, reading);
            }
            script.give(6, reading - 5_000);
            script.cut(3, 1);
            for series in [1, 6, 2, 2, 6] {
                script.give(series, reading);
            }
            script.cut(32, PLENTY);
            for series in (0..8).chain(0..8) {
                script.give(series, reading);
            }
            script.give(6, reading + 2);
            script.give(6, 0);
            folder.add("last-ranks", script)?;
        }
    }
    Ok(())
}

/// Lawful files that end where a read of 4, 24 or 64 KiB does.
fn whole_reads(folder: &mut Folder) -> io::Result<()> {
    for lines in [4_096, 65_536] {
        let mut script = Script::serial(0, 20, 50);
        for line in 2..lines {
            script.give(line % 8, line);
        }
        folder.add("whole-reads", script)?;
    }
    Ok(())
}

/// Runs until the first supply is used up, and until the line numbers are.
fn long_runs(folder: &mut Folder) -> io::Result<()> {
    let mut script = Script::serial(1, 10, 1);
    for series in 0..7 {
        script.give(series, 0);
    }
    // Two requests take nine writes and nine flushes.
    for _ in 0..PLENTY / 9 + 50 {
        script.give(7, 0);
    }
    script.cut(20, MOST_B);
    for series in (0..8).chain(0..8) {
        script.give(series, 0);
    }
    folder.add("first-supply", script)?;

    let mut script = Script::serial(0, 10, 10_000);
    for line in 3..=999_999 {
        if line % 5_000 == 0 {
            script.cut(line % 33, MOST_B);
        } else {
            script.give(line / 3 % 8, line);
        }
    }
    script.raw(b"a line too many, which is not looked at\n");
    script.give(0, 0);
    folder.add("line-numbers", script)
}

fn generate(path: PathBuf) -> io::Result<()> {
    let mut folder = Folder { path, files: 0 };
    let mut random = Random(1);
    worked(&mut folder)?;
    settings(&mut folder)?;
    readings(&mut folder)?;
    wrong_lines(&mut folder)?;
    twice_wrong(&mut folder)?;
    noise(&mut folder, &mut random)?;
    small_rings(&mut folder, &mut random)?;
    sweeps(&mut folder)?;
    serial_runs(&mut folder, &mut random)?;
    time_runs(&mut folder, &mut random)?;
    last_ranks(&mut folder)?;
    last_labels(&mut folder)?;
    whole_reads(&mut folder)?;
    long_runs(&mut folder)
}

fn main() -> ExitCode {
    let mut words = env::args_os().skip(1);
    match (words.next(), words.next()) {
        (Some(path), None) => match generate(PathBuf::from(path)) {
            Ok(()) => ExitCode::SUCCESS,
            Err(error) => {
                eprintln!("generate: {error}");
                ExitCode::FAILURE
            }
        },
        _ => {
            eprintln!("usage: generate FOLDER");
            ExitCode::from(2)
        }
    }
}
