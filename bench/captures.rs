//! Makes captures of serial lines: `captures FRAMING MEGABYTES DIRECTORY`.
//!
//! Every byte comes from the seed below, so each run and each machine measures the same captures.

use std::{env, fs, io, path::Path};

const SEED: u64 = 0x2545_F491_4F6C_DD1D;

/// Xorshift: good enough to choose fields and places, and the same everywhere.
struct Rng(u64);

impl Rng {
    fn next(&mut self) -> u64 {
        self.0 ^= self.0 << 13;
        self.0 ^= self.0 >> 7;
        self.0 ^= self.0 << 17;
        self.0
    }

    fn below(&mut self, n: usize) -> usize {
        ((self.next() >> 32) * n as u64 >> 32) as usize
    }

    fn one_in(&mut self, n: usize) -> bool {
        self.below(n) == 0
    }

    fn byte(&mut self) -> u8 {
        self.below(256) as u8
    }

    fn bytes(&mut self, n: usize) -> Vec<u8> {
        (0..n).map(|_| self.byte()).collect()
    }
}

// Payloads from the module.

type Payload = fn(&mut Rng) -> Vec<u8>;

/// A plain address: 0 to 100, or 120.
fn address(rng: &mut Rng) -> u8 {
    match rng.below(102) {
        101 => 120,
        a => a as u8,
    }
}

fn simple(rng: &mut Rng, len: usize) -> Vec<u8> {
    let head = [address(rng), rng.below(0x80) as u8];
    [&head[..], &rng.bytes(len)].concat()
}

fn extended(rng: &mut Rng, len: usize) -> Vec<u8> {
    let head = [address(rng), 0xA0];
    let count = [(len >> 8) as u8, len as u8];
    [&head[..], &rng.bytes(10), &count, &rng.bytes(len)].concat()
}

fn response(rng: &mut Rng) -> Vec<u8> {
    vec![0xDB, 0xA1, rng.byte(), rng.below(2) as u8]
}

fn standard(rng: &mut Rng) -> Vec<u8> {
    let head = [address(rng), 0x81, rng.byte(), 0x01];
    [&head[..], &rng.bytes(19)].concat()
}

fn remote(rng: &mut Rng) -> Vec<u8> {
    let head = [address(rng), 0x81, 0x0F, 0x01];
    [&head[..], &rng.bytes(16)].concat()
}

fn status(rng: &mut Rng) -> Vec<u8> {
    if rng.one_in(2) { standard(rng) } else { remote(rng) }
}

/// What a module says of itself when it is set up: its information, its settings in any order, that it failed, now and then a list that is none.
fn setup(rng: &mut Rng) -> Vec<u8> {
    let widths = [(0x00, 4), (0x01, 4), (0x02, 2), (0x03, 1), (0x04, 1), (0x05, 1), (0x06, 1), (0x07, 4), (0x08, 1), (0x09, 1), (0x0A, 16), (0x0C, 2), (0xFF, 1)];
    match rng.below(8) {
        0 => [&[0xDB, 0xF1][..], &rng.bytes(15)].concat(),
        1 => vec![0xDB, 0xF0, rng.below(2) as u8],
        2 => vec![0xDB, 0xF8, 0x11, rng.below(3) as u8],
        3 => vec![0xDB, 0xF3, 0xFF],
        _ => {
            let mut payload = vec![0xDB, 0xF3];
            let first = rng.below(widths.len());
            for i in 0..1 + rng.below(widths.len()) {
                let (id, width) = widths[(first + i * 5) % widths.len()];
                payload.push(id);
                payload.extend(rng.bytes(width));
            }
            if rng.one_in(8) {
                payload.pop();
            }
            payload
        }
    }
}

/// A short message.
fn short(rng: &mut Rng) -> Vec<u8> {
    let len = rng.below(8);
    if rng.one_in(2) { simple(rng, len) } else { response(rng) }
}

/// A payload of 256 bytes, the longest.
fn longest(rng: &mut Rng) -> Vec<u8> {
    if rng.one_in(2) { simple(rng, 254) } else { extended(rng, 242) }
}

/// A message in which one of the first bytes or the length is wrong, so that most are refused.
fn spoilt(rng: &mut Rng) -> Vec<u8> {
    let mut payload = match rng.below(3) {
        0 => response(rng),
        1 => status(rng),
        _ => extended(rng, 4),
    };
    match rng.below(3) {
        0 => payload.truncate(1 + rng.below(payload.len())),
        1 => payload.push(rng.byte()),
        _ => payload[rng.below(4)] = rng.byte(),
    }
    payload
}

/// Any message.
fn message(rng: &mut Rng) -> Vec<u8> {
    let len = rng.below(80);
    match rng.below(16) {
        0..=3 => simple(rng, len / 2),
        4..=6 => extended(rng, len),
        7 => longest(rng),
        8..=9 => response(rng),
        10..=14 => status(rng),
        _ => spoilt(rng),
    }
}

// Frames.

#[derive(Clone, Copy)]
enum Framing {
    Ascii,
    Binary,
}

use Framing::{Ascii, Binary};

fn ascii_frame(payload: &[u8], checksum: u8) -> Vec<u8> {
    let digit = |v: u8| b"0123456789ABCDEF"[v as usize];
    let bytes = payload.iter().chain([&checksum]);
    let digits = bytes.flat_map(|b| [digit(b >> 4), digit(b & 15)]);
    [b':'].into_iter().chain(digits).chain(*b"\r\n").collect()
}

fn binary_frame(payload: &[u8], checksum: u8, footer: &[u8]) -> Vec<u8> {
    let length = (0x8000 + payload.len() as u16).to_be_bytes();
    [&[0xA5, 0x5A], &length[..], payload, &[checksum], footer].concat()
}

/// The frame of a payload, its checksum off by `error`. In binary framing the footer is there or missing, by chance.
fn frame_off_by(rng: &mut Rng, framing: Framing, payload: Payload, error: u8) -> Vec<u8> {
    let payload = payload(rng);
    let sum = payload.iter().fold(0u8, |sum, b| sum.wrapping_add(*b));
    let xor = payload.iter().fold(0, |xor, b| xor ^ b);
    match framing {
        Ascii => ascii_frame(&payload, sum.wrapping_neg().wrapping_add(error)),
        Binary => binary_frame(&payload, xor ^ error, if rng.one_in(2) { &[0x04] } else { &[] }),
    }
}

fn frame(rng: &mut Rng, framing: Framing, payload: Payload) -> Vec<u8> {
    frame_off_by(rng, framing, payload, 0)
}

/// Changes, removes or inserts a byte of a frame.
fn corrupt(rng: &mut Rng, frame: &mut Vec<u8>) {
    let at = rng.below(frame.len());
    match rng.below(3) {
        0 => frame[at] = rng.byte(),
        1 => {
            frame.remove(at);
        }
        _ => frame.insert(at, rng.byte()),
    }
}

// What a capture is made of: each call gives the next bytes of the line.

type Source = fn(&mut Rng, Framing) -> Vec<u8>;

/// Messages of every kind. One frame in 50 is corrupted, and before one in 50 there is noise.
fn mixed(rng: &mut Rng, framing: Framing) -> Vec<u8> {
    let noise = if rng.one_in(50) { 1 + rng.below(40) } else { 0 };
    let mut next = frame(rng, framing, message);
    if rng.one_in(50) {
        corrupt(rng, &mut next);
    }
    [rng.bytes(noise), next].concat()
}

fn statuses(rng: &mut Rng, framing: Framing) -> Vec<u8> {
    frame(rng, framing, status)
}

fn long(rng: &mut Rng, framing: Framing) -> Vec<u8> {
    frame(rng, framing, longest)
}

/// Three frames with a wrong checksum, then a good one.
fn badsums(rng: &mut Rng, framing: Framing) -> Vec<u8> {
    let mut line = Vec::new();
    for _ in 0..3 {
        let error = 1 + rng.below(255) as u8;
        line.extend(frame_off_by(rng, framing, message, error));
    }
    line.extend(frame(rng, framing, message));
    line
}

fn setups(rng: &mut Rng, framing: Framing) -> Vec<u8> {
    frame(rng, framing, setup)
}

/// A frame that is cut short three times out of four, so that the next one follows in its midst.
fn truncated(rng: &mut Rng, framing: Framing) -> Vec<u8> {
    let mut next = frame(rng, framing, message);
    if !rng.one_in(4) {
        next.truncate(1 + rng.below(next.len() - 1));
    }
    next
}

/// Runs of colons and of digits, now and then longer than any frame, and some frames.
fn colons(rng: &mut Rng, framing: Framing) -> Vec<u8> {
    let longest_run = if rng.one_in(20) { 700 } else { 24 };
    let run = 1 + rng.below(longest_run);
    match rng.below(8) {
        0..=2 => vec![b':'; run],
        3..=5 => (0..run).map(|_| b"0123456789ABCDEF"[rng.below(16)]).collect(),
        6 => b"\r\n".to_vec(),
        _ => frame(rng, framing, response),
    }
}

/// Runs of starts that overlap: each claims the longest payload, and its bytes are the next starts.
fn overlap(rng: &mut Rng, framing: Framing) -> Vec<u8> {
    let run = [0xA5, 0x5A, 0x81, 0x00].repeat(1 + rng.below(2000));
    [run, frame(rng, framing, message)].concat()
}

/// Starts that fail late, over and over, and nothing else: of all lines, nearly the most bytes judged for each byte. In binary framing each start claims the
/// longest payload and fails at its checksum, the 261st byte, and the next one begins 4 bytes behind it: 66 for each. In ASCII framing each fails at its 515th
/// digit, and then each digit fails by itself: 2 for each digit.
fn worst(_: &mut Rng, framing: Framing) -> Vec<u8> {
    match framing {
        Ascii => [&b":"[..], &b"0123456789ABCDEF".repeat(33)[..515]].concat(),
        Binary => vec![0xA5, 0x5A, 0x81, 0x00],
    }
}

/// Runs of the first start byte, some with the second behind them, and some frames.
fn storm(rng: &mut Rng, framing: Framing) -> Vec<u8> {
    let run = vec![0xA5; 1 + rng.below(100)];
    match rng.below(8) {
        0 => [run, frame(rng, framing, message)].concat(),
        1..=3 => [run, vec![0x5A]].concat(),
        _ => run,
    }
}

/// Short frames with any number of footers, some inside the length that a start before them claims, which fails behind them.
fn footers(rng: &mut Rng, framing: Framing) -> Vec<u8> {
    let claims = if rng.one_in(4) { vec![0xA5, 0x5A, 0x80, 1 + rng.below(60) as u8] } else { Vec::new() };
    let more = if rng.one_in(4) { rng.below(4) } else { 0 };
    [claims, frame(rng, framing, response), vec![0x04; more]].concat()
}

/// What a terminal sends at the end of a line: CR, LF or both, and once in four times more of them.
fn line_end(rng: &mut Rng) -> &'static [u8] {
    match rng.below(16) {
        0..=3 => b"\r",
        4..=7 => b"\n",
        8..=11 => b"\r\n",
        12 => b"\n\n",
        13 => b"\n\r",
        14 => b"\r\n\n",
        _ => b"\r\r\n",
    }
}

/// A line of a terminal: a short frame, once in 16 times with a wrong checksum, with any ending behind it.
fn line(rng: &mut Rng, framing: Framing) -> Vec<u8> {
    let error = if rng.one_in(16) { 1 + rng.below(255) as u8 } else { 0 };
    let mut line = frame_off_by(rng, framing, short, error);
    line.truncate(line.len() - 2);
    line.extend(line_end(rng));
    line
}

/// Lines of terminals. One in 16 is cut short, one in 16 is corrupted, and before one in 16 there is noise, half of it CRs and LFs.
fn endings(rng: &mut Rng, framing: Framing) -> Vec<u8> {
    let mut next = line(rng, framing);
    let len = 1 + rng.below(8);
    match rng.below(32) {
        0 | 1 => next.truncate(1 + rng.below(next.len() - 1)),
        2 | 3 => corrupt(rng, &mut next),
        4 => return [rng.bytes(len), next].concat(),
        5 => return [(0..len).map(|_| b"\r\n"[rng.below(2)]).collect(), next].concat(),
        _ => (),
    }
    next
}

fn random(rng: &mut Rng, _: Framing) -> Vec<u8> {
    rng.bytes(4096)
}

fn sources(framing: Framing) -> Vec<(&'static str, Source)> {
    match framing {
        Ascii => vec![
            ("mixed", mixed),
            ("status", statuses),
            ("long", long),
            ("badsums", badsums),
            ("truncated", truncated),
            ("colons", colons),
            ("setup", setups),
            ("endings", endings),
            ("worst", worst),
        ],
        Binary => vec![
            ("mixed", mixed),
            ("long", long),
            ("overlap", overlap),
            ("storm", storm),
            ("truncated", truncated),
            ("footers", footers),
            ("random", random),
            ("worst", worst),
        ],
    }
}

fn capture(source: Source, framing: Framing, size: usize) -> Vec<u8> {
    let mut rng = Rng(SEED);
    let mut line = Vec::with_capacity(size + 16_384);
    while line.len() < size {
        line.extend(source(&mut rng, framing));
    }
    line.truncate(size);
    line
}

fn main() -> io::Result<()> {
    let args: Vec<String> = env::args().collect();
    let usage = "usage: captures ascii|binary MEGABYTES DIRECTORY";
    let [_, framing, megabytes, directory] = &args[..] else { panic!("{usage}") };
    let framing = match &framing[..] {
        "ascii" => Ascii,
        "binary" => Binary,
        _ => panic!("{usage}"),
    };
    let size = megabytes.parse::<usize>().expect(usage) * 1_000_000;
    fs::create_dir_all(directory)?;
    for (name, source) in sources(framing) {
        fs::write(Path::new(directory).join(name), capture(source, framing, size))?;
    }
    println!("captures {directory}: {megabytes} MB each, seed {SEED:016X}");
    Ok(())
}
