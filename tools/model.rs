//! The rules of request files once more, written apart from the proved code, so that the two can be compared.
//!
//! `model` reads a request file on standard input and prints the answers. `model crc` prints the CRC-32 of what it reads.

use std::env;
use std::fmt;
use std::io::{self, BufRead, BufReader, BufWriter, Read, Write};
use std::process::ExitCode;

const MEMORY: usize = 65_536;
const SECTOR: usize = 32;
const SUMMED: usize = 28;
const SECTORS_MIN: u64 = 10;
const SECTORS_MAX: u64 = 2_048;
const FIRST_SUPPLY: u64 = 1_000_000;
const SERIES: usize = 8;
const LAST_SEQUENCE: u64 = (1 << 62) - 1;
/// The most records that one reservation writes: seven carries and its own.
const MOST_WRITES: u64 = 8;
const LAST_LINE: u64 = 999_999;
/// One byte more than a request line has: enough to see that a line is too long.
const KEPT_OF_A_LINE: u64 = 22;

// Checksum.

static TABLE: [u32; 256] = table();

const fn table() -> [u32; 256] {
    let mut table = [0; 256];
    let mut i = 0;
    while i < table.len() {
        let mut register = i as u32;
        let mut bit = 0;
        while bit < 8 {
            let out = register & 1;
            register >>= 1;
            if out == 1 {
                register ^= 0xedb8_8320;
            }
            bit += 1;
        }
        table[i] = register;
        i += 1;
    }
    table
}

/// CRC-32 of bytes that come in pieces.
struct Crc(u32);

impl Crc {
    fn new() -> Crc {
        Crc(u32::MAX)
    }

    fn feed(&mut self, bytes: &[u8]) {
        for &byte in bytes {
            let [low, ..] = self.0.to_le_bytes();
            self.0 = TABLE[usize::from(low ^ byte)] ^ (self.0 >> 8);
        }
    }

    fn value(&self) -> u32 {
        !self.0
    }
}

fn crc32(bytes: &[u8]) -> u32 {
    let mut crc = Crc::new();
    crc.feed(bytes);
    crc.value()
}

// Records.

type Sector = [u8; SECTOR];

#[derive(Clone, Copy)]
struct Record {
    series: usize,
    sequence: u64,
    end: u64,
}

enum Content {
    Blank,
    Foreign,
    Record(Record),
}

fn is_sound(sector: &Sector) -> bool {
    crc32(&sector[..SUMMED]).to_le_bytes() == sector[SUMMED..]
}

fn number_at(sector: &Sector, start: usize) -> u64 {
    let mut bytes = [0; 8];
    bytes.copy_from_slice(&sector[start..start + 8]);
    u64::from_le_bytes(bytes)
}

fn encode(tag: u8, record: Record) -> Sector {
    let mut sector = [0; SECTOR];
    sector[0] = tag;
    sector[1] = record.series as u8;
    sector[4..12].copy_from_slice(&record.sequence.to_le_bytes());
    sector[12..20].copy_from_slice(&record.end.to_le_bytes());
    let sum = crc32(&sector[..SUMMED]);
    sector[SUMMED..].copy_from_slice(&sum.to_le_bytes());
    sector
}

/// What sector `place` of `sectors` holds for a server of this kind.
fn content(sector: &Sector, place: usize, sectors: usize, kind: &Kind) -> Content {
    if !is_sound(sector) {
        return Content::Blank;
    }
    let record = Record { series: usize::from(sector[1]), sequence: number_at(sector, 4), end: number_at(sector, 12) };
    let zeros = sector[2..4].iter().chain(&sector[20..SUMMED]).all(|&byte| byte == 0);
    let lawful = sector[0] == kind.tag()
        && record.series < SERIES
        && zeros
        && (1..=LAST_SEQUENCE).contains(&record.sequence)
        && (1..=kind.top() + 1).contains(&record.end)
        && sector_of(record.sequence, sectors) == place;
    if lawful {
        Content::Record(record)
    } else {
        Content::Foreign
    }
}

fn sector_of(sequence: u64, sectors: usize) -> usize {
    (sequence % sectors as u64) as usize
}

// Disk.

#[derive(Clone, Copy, PartialEq)]
enum Device {
    Faithful,
    Torn,
}

/// A write that is not yet kept: the sector, and what it held before.
struct Held {
    place: usize,
    old: Sector,
}

/// A write or flush found no supply.
struct Dark;

struct Disk {
    device: Device,
    sectors: usize,
    memory: Vec<u8>,
    held: Option<Held>,
    supply: u64,
}

impl Disk {
    fn new(device: Device, sectors: usize) -> Disk {
        Disk { device, sectors, memory: vec![0; MEMORY], held: None, supply: FIRST_SUPPLY }
    }

    fn read(&self, place: usize) -> Sector {
        let mut sector = [0; SECTOR];
        sector.copy_from_slice(&self.memory[SECTOR * place..SECTOR * (place + 1)]);
        sector
    }

    fn store(&mut self, place: usize, sector: &Sector) {
        self.memory[SECTOR * place..SECTOR * (place + 1)].copy_from_slice(sector);
    }

    fn spend(&mut self) -> Result<(), Dark> {
        self.supply = self.supply.checked_sub(1).ok_or(Dark)?;
        Ok(())
    }

    fn write(&mut self, place: usize, sector: &Sector) -> Result<(), Dark> {
        self.spend()?;
        if self.device == Device::Torn {
            self.held = Some(Held { place, old: self.read(place) });
        }
        self.store(place, sector);
        Ok(())
    }

    fn flush(&mut self) -> Result<(), Dark> {
        self.spend()?;
        self.held = None;
        Ok(())
    }

    fn cut(&mut self, tear: u64, supply: u64) {
        if let Some(Held { place, old }) = self.held.take() {
            let new = self.read(place);
            let torn_at = (tear % (SECTOR as u64 + 1)) as usize;
            let mut left = old;
            left[..torn_at].copy_from_slice(&new[..torn_at]);
            // A mixture of the two never passes for a record of its own.
            if left != new && is_sound(&left) {
                left = old;
            }
            self.store(place, &left);
        }
        self.supply = supply;
    }
}

// Kind.

enum Kind {
    Serial { block: u64 },
    Time { lease: u64, box_number: u64, correction: i8 },
}

impl Kind {
    fn tag(&self) -> u8 {
        match self {
            Kind::Serial { .. } => 1,
            Kind::Time { .. } => 2,
        }
    }

    fn top(&self) -> u64 {
        match self {
            Kind::Serial { .. } => 999_999_998,
            Kind::Time { .. } => (1 << 53) - 1,
        }
    }

    fn block(&self) -> u64 {
        match self {
            Kind::Serial { block } => *block,
            Kind::Time { lease, .. } => 4096 * lease,
        }
    }

    /// The least rank at this reading, if the reading is lawful. A reading has at most 14 digits.
    fn floor(&self, reading: u64) -> Option<u64> {
        match self {
            Kind::Serial { .. } => Some(0),
            Kind::Time { correction, .. } => {
                let corrected = reading as i64 + 1000 * i64::from(*correction);
                if (0..1 << 41).contains(&corrected) {
                    Some(4096 * corrected as u64)
                } else {
                    None
                }
            }
        }
    }

    fn identifier(&self, series: usize, rank: u64) -> u64 {
        match self {
            Kind::Serial { .. } => rank + 1,
            Kind::Time { box_number, .. } => {
                let worker = 8 * box_number + series as u64;
                (rank / 4096) << 22 | worker << 12 | rank % 4096
            }
        }
    }
}

// Denials.

enum Denial {
    Malformed { column: u64 },
    SectorCount,
    Setting,
    Foreign { place: usize },
    LiveInGap { place: usize },
    Down,
    Series,
    Reading,
    Rank,
    Sequence,
    Dark { place: usize },
}

impl Denial {
    fn code(&self) -> u64 {
        match self {
            Denial::Malformed { .. } => 2,
            Denial::SectorCount => 3,
            Denial::Setting => 4,
            Denial::Foreign { .. } => 5,
            Denial::LiveInGap { .. } => 6,
            Denial::Down => 7,
            Denial::Series => 8,
            Denial::Reading => 9,
            Denial::Rank => 10,
            Denial::Sequence => 11,
            Denial::Dark { .. } => 12,
        }
    }

    fn last_number(&self) -> u64 {
        match self {
            Denial::Malformed { column } => *column,
            Denial::Foreign { place } | Denial::LiveInGap { place } | Denial::Dark { place } => *place as u64,
            _ => 0,
        }
    }

    fn ends_the_run(&self) -> bool {
        (2..=6).contains(&self.code())
    }
}

// Server.

/// The live record of a series; all 0 for a series without one.
#[derive(Clone, Copy, Default)]
struct Live {
    sequence: u64,
    end: u64,
}

struct Server {
    disk: Disk,
    kind: Kind,
    up: bool,
    top_record: u64,
    lives: [Live; SERIES],
    nexts: [u64; SERIES],
}

impl Server {
    fn new(disk: Disk, kind: Kind) -> Result<Server, Denial> {
        let mut server =
            Server { disk, kind, up: false, top_record: 0, lives: [Live::default(); SERIES], nexts: [0; SERIES] };
        server.wake()?;
        Ok(server)
    }

    fn content(&self, place: usize) -> Content {
        content(&self.disk.read(place), place, self.disk.sectors, &self.kind)
    }

    /// The live record in a sector, if that is what it holds.
    fn live_at(&self, place: usize) -> Option<Record> {
        match self.content(place) {
            Content::Record(record) if record.sequence == self.lives[record.series].sequence => Some(record),
            _ => None,
        }
    }

    /// The sector of the record that comes `ahead` after the top record: the gap is 1 ahead.
    fn ahead(&self, ahead: u64) -> usize {
        sector_of(self.top_record + ahead, self.disk.sectors)
    }

    /// Reads all sectors and starts every series at its end.
    fn wake(&mut self) -> Result<(), Denial> {
        self.up = false;
        self.top_record = 0;
        self.lives = [Live::default(); SERIES];
        for place in 0..self.disk.sectors {
            match self.content(place) {
                Content::Blank => (),
                Content::Foreign => return Err(Denial::Foreign { place }),
                Content::Record(record) => self.note(record),
            }
        }
        let gap = self.ahead(1);
        if self.live_at(gap).is_some() {
            return Err(Denial::LiveInGap { place: gap });
        }
        for (next, live) in self.nexts.iter_mut().zip(&self.lives) {
            *next = live.end;
        }
        self.up = true;
        Ok(())
    }

    fn note(&mut self, Record { series, sequence, end }: Record) {
        self.top_record = self.top_record.max(sequence);
        if sequence > self.lives[series].sequence {
            self.lives[series] = Live { sequence, end };
        }
    }

    /// Writes a record with the next sequence number into the gap, and flushes.
    fn append(&mut self, series: usize, end: u64) -> Result<(), Denial> {
        let place = self.ahead(1);
        let record = Record { series, sequence: self.top_record + 1, end };
        let sector = encode(self.kind.tag(), record);
        let stored = self.disk.write(place, &sector).and_then(|()| self.disk.flush());
        if let Err(Dark) = stored {
            self.up = false;
            return Err(Denial::Dark { place });
        }
        self.note(record);
        Ok(())
    }

    fn reserve(&mut self, series: usize, end: u64) -> Result<(), Denial> {
        if self.top_record + MOST_WRITES > LAST_SEQUENCE {
            return Err(Denial::Sequence);
        }
        loop {
            match self.live_at(self.ahead(2)) {
                Some(other) if other.series != series => self.append(other.series, other.end)?,
                _ => return self.append(series, end),
            }
        }
    }

    fn give(&mut self, series: u64, reading: u64) -> Result<u64, Denial> {
        if !self.up {
            return Err(Denial::Down);
        }
        if series >= SERIES as u64 {
            return Err(Denial::Series);
        }
        let series = series as usize;
        let floor = self.kind.floor(reading).ok_or(Denial::Reading)?;
        let rank = floor.max(self.nexts[series]);
        let top = self.kind.top();
        if rank > top {
            return Err(Denial::Rank);
        }
        if rank >= self.lives[series].end {
            self.reserve(series, (rank + self.kind.block()).min(top + 1))?;
        }
        self.nexts[series] = rank + 1;
        Ok(self.kind.identifier(series, rank))
    }

    fn cut(&mut self, tear: u64, supply: u64) -> Result<u64, Denial> {
        self.disk.cut(tear, supply);
        self.wake()?;
        Ok(self.top_record)
    }
}

// Simulator.

struct Request {
    letter: u8,
    a: u64,
    b: u64,
}

/// Reads a request line, of which only some letters are lawful. It tells the first item that is wrong.
fn parse(line: &[u8], lawful: &[u8]) -> Result<Request, Denial> {
    let wrong_at = |column| Denial::Malformed { column };
    let letter = *line.first().filter(|letter| lawful.contains(letter)).ok_or_else(|| wrong_at(1))?;
    let a = line.get(1..6).and_then(field).ok_or_else(|| wrong_at(2))?;
    let b = line.get(6..20).and_then(field).ok_or_else(|| wrong_at(7))?;
    if matches!(letter, b'S' | b'T') && b != 0 {
        return Err(wrong_at(7));
    }
    if line[20..] != *b"\n" {
        return Err(wrong_at(21));
    }
    Ok(Request { letter, a, b })
}

/// A whole number behind spaces, without leading zeros.
fn field(bytes: &[u8]) -> Option<u64> {
    let start = bytes.iter().position(|&byte| byte != b' ')?;
    let digits = &bytes[start..];
    if digits[0] == b'0' && digits.len() > 1 {
        return None;
    }
    digits.iter().try_fold(0, |number, &byte| match byte {
        b'0'..=b'9' => Some(10 * number + u64::from(byte - b'0')),
        _ => None,
    })
}

/// What the next line has to be, with what the lines before it have set.
enum Stage {
    Device,
    Kind { device: Device, sectors: usize },
    Box { device: Device, sectors: usize, lease: u64 },
    Running(Server),
    Ended,
}

impl Stage {
    fn letters(&self) -> &'static [u8] {
        match self {
            Stage::Device => b"D",
            Stage::Kind { .. } => b"ST",
            Stage::Box { .. } => b"B",
            Stage::Running(_) => b"GC",
            Stage::Ended => b"",
        }
    }
}

struct PrintLine {
    number: u64,
    series: u64,
    code: u64,
    last: u64,
}

impl fmt::Display for PrintLine {
    fn fmt(&self, f: &mut fmt::Formatter<'_>) -> fmt::Result {
        writeln!(f, "{:>6}{:>4}{:>3}{:>20}", self.number, self.series, self.code, self.last)
    }
}

struct Simulator {
    taken: u64,
    stage: Stage,
}

impl Simulator {
    fn new() -> Simulator {
        Simulator { taken: 0, stage: Stage::Device }
    }

    fn has_ended(&self) -> bool {
        matches!(self.stage, Stage::Ended)
    }

    fn take(&mut self, line: &[u8]) -> PrintLine {
        self.taken = self.taken.saturating_add(1);
        let mut print = PrintLine { number: self.taken.min(LAST_LINE), series: 0, code: 0, last: 0 };
        let answer = self.read(line).and_then(|request| {
            if request.letter == b'G' && request.a < SERIES as u64 {
                print.series = request.a;
            }
            self.act(request)
        });
        match answer {
            Ok(number) => print.last = number,
            Err(denial) => {
                print.code = denial.code();
                print.last = denial.last_number();
                if denial.ends_the_run() {
                    self.stage = Stage::Ended;
                }
            }
        }
        print
    }

    fn read(&self, line: &[u8]) -> Result<Request, Denial> {
        if self.taken > LAST_LINE || self.has_ended() {
            return Err(Denial::Malformed { column: 0 });
        }
        parse(line, self.stage.letters())
    }

    fn act(&mut self, Request { letter, a, b }: Request) -> Result<u64, Denial> {
        match (&mut self.stage, letter) {
            (Stage::Running(server), b'G') => return server.give(a, b),
            (Stage::Running(server), b'C') => return server.cut(a, b),
            (Stage::Device, b'D') => {
                let sectors = in_range(b, SECTORS_MIN, SECTORS_MAX, Denial::SectorCount)? as usize;
                let device = match a {
                    0 => Device::Faithful,
                    1 => Device::Torn,
                    _ => return Err(Denial::Setting),
                };
                self.stage = Stage::Kind { device, sectors };
            }
            (&mut Stage::Kind { device, sectors }, b'S') => {
                let block = in_range(a, 1, 10_000, Denial::Setting)?;
                self.stage = Stage::Running(Server::new(Disk::new(device, sectors), Kind::Serial { block })?);
            }
            (&mut Stage::Kind { device, sectors }, b'T') => {
                let lease = in_range(a, 1, 60_000, Denial::Setting)?;
                self.stage = Stage::Box { device, sectors, lease };
            }
            (&mut Stage::Box { device, sectors, lease }, b'B') => {
                let box_number = in_range(a, 0, 127, Denial::Setting)?;
                let correction = in_range(b, 0, 255, Denial::Setting)? as u8 as i8;
                let kind = Kind::Time { lease, box_number, correction };
                self.stage = Stage::Running(Server::new(Disk::new(device, sectors), kind)?);
            }
            _ => unreachable!("the letter is lawful at this stage"),
        }
        Ok(0)
    }
}

fn in_range(number: u64, least: u64, most: u64, denial: Denial) -> Result<u64, Denial> {
    if (least..=most).contains(&number) {
        Ok(number)
    } else {
        Err(denial)
    }
}

// Programs.

/// Answers each line until the input or the run ends. A line that is too long is malformed, so its rest is never needed.
fn simulate(mut input: impl BufRead, mut output: impl Write) -> io::Result<()> {
    let mut simulator = Simulator::new();
    let mut line = Vec::new();
    while !simulator.has_ended() {
        line.clear();
        input.by_ref().take(KEPT_OF_A_LINE).read_until(b'\n', &mut line)?;
        if line.is_empty() {
            break;
        }
        write!(output, "{}", simulator.take(&line))?;
    }
    output.flush()
}

fn print_crc(mut input: impl BufRead, mut output: impl Write) -> io::Result<()> {
    let mut crc = Crc::new();
    loop {
        let bytes = input.fill_buf()?;
        if bytes.is_empty() {
            break;
        }
        crc.feed(bytes);
        let length = bytes.len();
        input.consume(length);
    }
    writeln!(output, "{:08X}", crc.value())?;
    output.flush()
}

fn main() -> ExitCode {
    let input = BufReader::with_capacity(1 << 16, io::stdin());
    let output = BufWriter::with_capacity(1 << 16, io::stdout());
    let words: Vec<String> = env::args().skip(1).collect();
    let done = match words.iter().map(String::as_str).collect::<Vec<_>>()[..] {
        [] => simulate(input, output),
        ["crc"] => print_crc(input, output),
        _ => {
            eprintln!("usage: model [crc]");
            return ExitCode::from(2);
        }
    };
    match done {
        Ok(()) => ExitCode::SUCCESS,
        Err(error) => {
            eprintln!("model: {error}");
            ExitCode::FAILURE
        }
    }
}
