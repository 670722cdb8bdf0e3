//! Random numbers, segments, payloads and messages. A case depends on the seed, its family and its index alone, so that it can be run again by itself.
use crate::boundary::{FromModule, Information, Options, Status, ToModule};
use crate::frames::{frame, Format, Framing};
use crate::messages::{width, WIDTHS};

pub struct Random(u64);

impl Random {
    /// The numbers are mixed one after the other: the state moves on by a fixed step, and states of two cases that are a few steps apart would give the same
    /// numbers.
    pub fn new(seed: u64, family: u64, index: u64) -> Random {
        let of_family = Random(seed).next() ^ family;
        Random(Random(of_family).next() ^ index)
    }

    /// The next 64 bits (splitmix64).
    pub fn next(&mut self) -> u64 {
        self.0 = self.0.wrapping_add(0x9E37_79B9_7F4A_7C15);
        let mut z = self.0;
        z = (z ^ (z >> 30)).wrapping_mul(0xBF58_476D_1CE4_E5B9);
        z = (z ^ (z >> 27)).wrapping_mul(0x94D0_49BB_1331_11EB);
        z ^ (z >> 31)
    }

    /// A number below n.
    pub fn below(&mut self, n: usize) -> usize {
        (self.next() % n as u64) as usize
    }

    pub fn within(&mut self, low: usize, high: usize) -> usize {
        low + self.below(high - low + 1)
    }

    /// True once in n times.
    pub fn once_in(&mut self, n: usize) -> bool {
        self.below(n) == 0
    }

    pub fn byte(&mut self) -> u8 {
        self.next() as u8
    }

    pub fn bit(&mut self) -> u8 {
        self.byte() & 1
    }

    pub fn pick<T: Copy>(&mut self, of: &[T]) -> T {
        of[self.below(of.len())]
    }

    pub fn bytes(&mut self, n: usize) -> Vec<u8> {
        (0..n).map(|_| self.byte()).collect()
    }

    pub fn bytes_of(&mut self, n: usize, of: &[u8]) -> Vec<u8> {
        (0..n).map(|_| self.pick(of)).collect()
    }
}

pub fn framing(r: &mut Random) -> Framing {
    r.pick(&[Framing::Binary, Framing::Ascii])
}

pub fn format(r: &mut Random) -> Format {
    r.pick(&Format::ALL)
}

/// The length of a payload: mostly short, at its edges often.
fn payload_len(r: &mut Random) -> usize {
    match r.below(12) {
        0 => r.pick(&[1, 2, 255, 256]),
        1 => r.within(1, 256),
        _ => r.within(1, 24),
    }
}

pub fn payload(r: &mut Random) -> Vec<u8> {
    let n = payload_len(r);
    match r.below(4) {
        0 => r.bytes_of(n, &[0xA5, 0x5A, 0x80, 0x81, 0x00, 0x04]),
        1 => r.bytes_of(n, &[0x00, 0xFF, 0x3A, 0x0D, 0x0A]),
        _ => r.bytes(n),
    }
}

/// Bytes that look like starts and parts of frames.
fn garbage(r: &mut Random, f: Framing, n: usize) -> Vec<u8> {
    let kind = r.below(4);
    match (f, kind) {
        (_, 0) => r.bytes(n),
        (Framing::Binary, 1) => r.bytes_of(n, &[0xA5, 0x5A]),
        (Framing::Binary, 2) => r.bytes_of(n, &[0xA5, 0x5A, 0x80, 0x81, 0x00, 0x01, 0x02, 0x03, 0x04]),
        (Framing::Binary, _) => [0xA5, 0x5A, 0x80, 0x01].iter().cycle().skip(r.below(4)).take(n).copied().collect(),
        (Framing::Ascii, 1) => r.bytes_of(n, b"::0A\r\n"),
        (Framing::Ascii, 2) => r.bytes_of(n, b":0123456789ABCDEFabcdefX\r\n"),
        (Framing::Ascii, _) => r.bytes_of(n, b":00\r\n"),
    }
}

/// A start with a length that what follows may or may not fill.
fn stray_start(r: &mut Random, f: Framing) -> Vec<u8> {
    match f {
        Framing::Binary => {
            let low = match r.below(3) {
                0 => r.byte(),
                _ => r.byte() % 24,
            };
            vec![0xA5, 0x5A, r.pick(&[0x80, 0x80, 0x80, 0x81, 0x7F]), low]
        }
        Framing::Ascii => {
            let n = match r.below(8) {
                0 => r.within(508, 518),
                _ => r.below(24),
            };
            [b":".to_vec(), r.bytes_of(n, b"0123456789ABCDEF")].concat()
        }
    }
}

/// Starts that fail as late as the longest frame ends, one after the other: nearly the most bytes judged for each byte.
fn worst(r: &mut Random, f: Framing) -> Vec<u8> {
    match f {
        Framing::Binary => [0xA5, 0x5A, 0x81, 0x00].repeat(r.within(1, 200)),
        Framing::Ascii => [b":".to_vec(), r.bytes_of(515, b"0123456789ABCDEF")].concat().repeat(r.within(1, 2)),
    }
}

/// A line whose digits sum to 0, with any count of them: the count alone decides about it.
fn long_line(r: &mut Random) -> Vec<u8> {
    let n = r.pick(&[0, 1, 2, 3, 4, 5, 511, 512, 513, 514, 515, 516]);
    let end = r.pick(&[&b"\r\n"[..], b"\r", b"\n", b"\r\r\n", b"X", b":"]);
    [b":".to_vec(), vec![b'0'; n], end.to_vec()].concat()
}

/// A frame; in binary framing with its footer, or without, or with some bytes too many that look like one; in ASCII framing with any ending.
fn sent(r: &mut Random, f: Framing) -> Vec<u8> {
    let mut s = frame(f, &payload(r));
    match (f, r.below(8)) {
        (Framing::Binary, 0..=2) => drop(s.pop()),
        (Framing::Binary, 3) => s.extend(optional(r, f)),
        (Framing::Ascii, 0..=3) => {
            s.truncate(s.len() - 2);
            s.extend(r.pick(&ENDINGS));
        }
        _ => {}
    }
    s
}

/// What may stand behind the digits of a frame in place of CR LF, which other frames have.
const ENDINGS: [&[u8]; 10] = [b"\r", b"\r", b"\n", b"\n", b"\n\n", b"\n\r", b"\r\r\n", b"\r\n\n", b"\r\n\r\n", b""];

/// Bytes that look like the optional one of a frame before them: its footer, or the LF behind its CR.
fn optional(r: &mut Random, f: Framing) -> Vec<u8> {
    let byte = match f {
        Framing::Binary => 0x04,
        Framing::Ascii => 0x0A,
    };
    vec![byte; r.within(1, 3)]
}

/// A frame with one thing wrong.
fn damaged(r: &mut Random, f: Framing) -> Vec<u8> {
    let mut s = sent(r, f);
    let at = r.below(s.len());
    let n = s.len();
    match r.below(9) {
        0 => s[at] ^= 1 << r.below(8),
        1 => s[at] = r.byte(),
        2 => drop(s.remove(at)),
        3 => s.insert(at, r.byte()),
        4 => s.truncate(at),
        5 => s = s[at..].to_vec(),
        6 => s[n - 1] = r.byte(),
        7 => s[n - r.within(2, 4)] ^= 1,
        _ => s.make_ascii_lowercase(),
    }
    s
}

/// A part of a segment.
fn part(r: &mut Random, f: Framing) -> Vec<u8> {
    match r.below(10) {
        0..=3 => sent(r, f),
        4 | 5 => damaged(r, f),
        6 => {
            let n = r.below(40);
            garbage(r, f, n)
        }
        7 | 8 => stray_start(r, f),
        _ if r.once_in(2) => optional(r, f),
        _ if r.once_in(8) => worst(r, f),
        _ if f == Framing::Ascii => long_line(r),
        _ => frame(Framing::Ascii, &payload(r)),
    }
}

/// A segment: frames, damage and strays in any order.
pub fn segment(r: &mut Random, f: Framing) -> Vec<u8> {
    let parts = r.below(6);
    let mut s = Vec::new();
    for _ in 0..parts {
        s.extend(part(r, f));
    }
    s
}

/// A segment, often with bytes in front that look like the optional one of a frame before it.
pub fn next_segment(r: &mut Random, f: Framing) -> Vec<u8> {
    let front = if r.once_in(3) { optional(r, f) } else { Vec::new() };
    [front, segment(r, f)].concat()
}

/// What fills the array of a state made by hand: such segments, with any bytes between.
pub fn held(r: &mut Random, f: Framing) -> Vec<u8> {
    let mut s = Vec::new();
    while s.len() < 517 {
        s.extend(next_segment(r, f));
        let n = r.below(100);
        s.extend(r.bytes(n));
    }
    s.truncate(517);
    s
}

/// A segment of starts that claim long frames, one after the other, with some frames between.
pub fn storm(r: &mut Random, f: Framing, size: usize) -> Vec<u8> {
    let mut s = Vec::new();
    while s.len() < size {
        s.extend(stray_start(r, f));
        if r.once_in(4) {
            s.extend(sent(r, f));
        }
        if r.once_in(8) {
            let n = r.below(300);
            s.extend(garbage(r, f, n));
        }
        if r.once_in(40) {
            s.extend(worst(r, f));
        }
    }
    s.truncate(size);
    s
}

const ADDRESSES: [u8; 12] = [0, 1, 2, 99, 100, 101, 119, 120, 121, 0x7F, 0x80, 0xDB];
const COMMANDS: [u8; 12] = [0, 1, 0x7F, 0x80, 0x81, 0x82, 0xA0, 0xA0, 0xA1, 0xA2, 0xF2, 0xFF];
const SETUPS: [u8; 10] = [0xF0, 0xF1, 0xF2, 0xF3, 0xF8, 0xFD, 0xFE, 0xFF, 0xF4, 0xA1];
const EXTENDED: [u32; 10] = [0, 1, 0xFFFF, 0x10000, 0x7FFF_FFFF, 0x8000_0000, 0x8000_0001, 0xFFFF_FFFD, 0xFFFF_FFFE, 0xFFFF_FFFF];

fn address(r: &mut Random) -> u8 {
    match r.below(8) {
        0 => r.byte(),
        1..=3 => r.pick(&ADDRESSES),
        _ => r.pick(&[0, 1, 100, 120]),
    }
}

fn extended_address(r: &mut Random) -> u32 {
    match r.below(4) {
        0 => r.next() as u32,
        _ => r.pick(&EXTENDED),
    }
}

/// An option string that is whole, or cut, or has an option too many or an unknown one, or a wrong retry byte, or no FF.
fn option_string(r: &mut Random) -> Vec<u8> {
    let mut s = Vec::new();
    let mut ids: Vec<u8> = (1..=8).filter(|_| r.once_in(2)).collect();
    for i in 0..ids.len() {
        let j = r.below(ids.len());
        ids.swap(i, j);
    }
    if r.once_in(8) {
        ids.push(r.pick(&[0, 1, 2, 3, 4, 5, 6, 7, 8, 9, 0x10, 0xFE]));
    }
    for id in ids {
        s.push(id);
        match id {
            2 => s.push(retry(r)),
            3..=5 => s.extend([r.pick(&[0, 3, 0xFF]), r.pick(&[0, 1, 0xFF])]),
            _ => {}
        }
    }
    if !r.once_in(10) {
        s.push(0xFF);
    }
    if r.once_in(10) {
        s.truncate(r.below(s.len() + 1));
    }
    s
}

fn retry(r: &mut Random) -> u8 {
    match r.below(8) {
        0 => r.byte(),
        1 => r.pick(&[0x10, 0x80, 0x90, 0xFF]),
        _ => r.pick(&[0x00, 0x01, 0x0F, 0x81, 0x8F]),
    }
}

/// Data, mostly short, sometimes so long that a payload passes 256 bytes.
pub fn data(r: &mut Random) -> Vec<u8> {
    let n = match r.below(10) {
        0 => r.within(225, 260),
        1 => 0,
        _ => r.below(12),
    };
    r.bytes(n)
}

/// A settings list: identifiers in any order, each with data of its width; now and then one that is unknown or repeated, a list that is cut or has a byte too
/// many, or any bytes.
pub fn settings_list(r: &mut Random) -> Vec<u8> {
    if r.once_in(10) {
        let n = r.below(8);
        return r.bytes_of(n, &[0x00, 0x02, 0x03, 0x04, 0x05, 0x0A, 0x0B, 0x0C, 0xFF]);
    }
    let one_in = r.pick(&[1, 2, 2, 4, 8]);
    let mut ids: Vec<u8> = WIDTHS.iter().map(|w| w.0).filter(|_| r.once_in(one_in)).collect();
    if r.once_in(6) {
        ids.push(r.pick(&[0x0B, 0x0D, 0x0E, 0x10, 0x7F, 0x80, 0xFE]));
    }
    if r.once_in(6) && !ids.is_empty() {
        let again = r.pick(&ids);
        ids.push(again);
    }
    for i in 0..ids.len() {
        let j = r.below(ids.len());
        ids.swap(i, j);
    }
    let mut s = Vec::new();
    for id in ids {
        let n = width(id).unwrap_or_else(|| r.below(3));
        s.push(id);
        s.extend(r.bytes(n));
    }
    match r.below(12) {
        0 => s.truncate(r.below(s.len() + 1)),
        1 => s.push(r.pick(&[0x00, 0x03, 0x0B, 0xFF])),
        2 => drop(s.pop()),
        _ => {}
    }
    s
}

/// Data of a message; where they should be a settings list, mostly one that is nearly right.
pub fn data_for(r: &mut Random, is_list: bool) -> Vec<u8> {
    if is_list && !r.once_in(8) {
        return settings_list(r);
    }
    data(r)
}

fn extended_to(r: &mut Random) -> Vec<u8> {
    let mut s = vec![address(r), 0xA0, r.byte()];
    if r.once_in(3) {
        s[0] = 0x80;
        s.extend(extended_address(r).to_be_bytes());
    }
    s.extend(option_string(r));
    if r.once_in(12) {
        s.truncate(r.below(8));
    } else {
        s.extend(data(r));
    }
    s
}

fn change(r: &mut Random) -> Vec<u8> {
    let mut s = [vec![address(r), 0x80, 0x01], r.bytes(4), vec![0; 8]].concat();
    if r.once_in(3) {
        let at = r.within(2, 14);
        s[at] = r.byte();
    }
    resized(r, s)
}

fn extended_from(r: &mut Random) -> Vec<u8> {
    let body = data(r);
    let size = match r.below(5) {
        0 => r.pick(&[0, body.len() + 1, body.len() + 256, 0xFFF2]),
        _ => body.len(),
    };
    let s = [vec![address(r), 0xA0, r.byte()], r.bytes(9), vec![(size >> 8) as u8, size as u8], body].concat();
    match r.below(8) {
        0 => s[..r.below(16).min(s.len())].to_vec(),
        _ => s,
    }
}

fn status(r: &mut Random) -> Vec<u8> {
    let n = r.pick(&[20, 23]);
    let mut s = [vec![address(r), 0x81, 0x0F, 0x01], r.bytes(n - 4)].concat();
    match r.below(4) {
        0 => s[2] = r.byte(),
        1 => s[3] = r.pick(&[0, 1, 2]),
        _ => {}
    }
    resized(r, s)
}

fn response(r: &mut Random) -> Vec<u8> {
    let s = vec![0xDB, r.pick(&[0xA1, 0xA1, 0xA1, 0xA0, 0x00, 0xF3]), r.byte(), r.pick(&[0, 1, 0, 1, 2, 0xFF])];
    resized(r, s)
}

/// DB with each command and what nearly belongs behind it, to the module or from it.
fn setup(r: &mut Random) -> Vec<u8> {
    let command = r.pick(&SETUPS);
    let rest = match command {
        0xF0 => r.pick(&[&[][..], &[0x01], &[0x01], &[0x00], &[0x02], &[0x11]]).to_vec(),
        0xF1 if !r.once_in(4) => {
            let n = r.pick(&[14, 15, 15, 15, 16]);
            r.bytes(n)
        }
        0xF2 => settings_list(r),
        0xF3 if r.once_in(4) => r.pick(&[&[][..], &[0xFF], &[0xFF, 0x00], &[0x00], &[0xFF, 0xFF]]).to_vec(),
        0xF3 => settings_list(r),
        0xF8 => vec![r.pick(&[0x11, 0x11, 0x11, 0x10, 0x01]), r.pick(&[0, 1, 0, 1, 2, 0xFF])],
        _ if r.once_in(4) => r.bytes_of(1, &[0x00, 0x01, 0xFF]),
        _ => Vec::new(),
    };
    let s = [vec![0xDB, command], rest].concat();
    match r.below(40) {
        0 => [s, vec![0x5A; 300]].concat(),
        _ => resized(r, s),
    }
}

/// Now and then one byte shorter or longer.
fn resized(r: &mut Random, mut s: Vec<u8>) -> Vec<u8> {
    match r.below(8) {
        0 => drop(s.pop()),
        1 => s.push(r.bit()),
        _ => {}
    }
    s
}

/// A payload that is nearly a message of some kind.
pub fn message(r: &mut Random) -> Vec<u8> {
    match r.below(11) {
        0 | 1 => extended_to(r),
        2 => change(r),
        3 => extended_from(r),
        4 => status(r),
        5 => response(r),
        6 => [vec![address(r), r.pick(&COMMANDS)], data(r)].concat(),
        7..=9 => setup(r),
        _ => {
            let n = r.pick(&[0, 1, 2, 3, 4, 7, 14, 15, 20, 23, 255, 256, 257, 300]);
            let mut s = r.bytes(n);
            if n > 1 {
                s[0] = address(r);
                s[1] = r.pick(&COMMANDS);
            }
            s
        }
    }
}

/// Numbers of a message to the module: fields that its kind does not have are filled too.
pub fn to_module(r: &mut Random) -> ToModule {
    let options = Options {
        mac_ack: r.bit(),
        has_retries: r.bit(),
        retries: retry(r),
        has_lower_delay: r.bit(),
        lower_delay: r.next() as u16,
        has_upper_delay: r.bit(),
        upper_delay: r.next() as u16,
        has_interval: r.bit(),
        interval: r.next() as u16,
        parallel: r.bit(),
        no_response: r.bit(),
        sleep: r.bit(),
    };
    ToModule {
        kind: kind(r, 7),
        refusal: r.byte(),
        address: address(r),
        command: command(r),
        response_id: r.byte(),
        extended: extended_address(r),
        options,
        signals: r.next() as u16,
        mask: r.next() as u16,
        start: r.next() as usize,
    }
}

/// A kind: one of those that there are, or the number behind them, or now and then any.
fn kind(r: &mut Random, behind: usize) -> u8 {
    match r.below(12) {
        0 => r.byte(),
        _ => r.within(1, behind) as u8,
    }
}

fn command(r: &mut Random) -> u8 {
    match r.below(2) {
        0 => r.pick(&COMMANDS),
        _ => r.pick(&SETUPS),
    }
}

/// Numbers of a message from the module, likewise.
pub fn from_module(r: &mut Random) -> FromModule {
    let status = Status {
        identifier: r.byte(),
        serial: r.next() as u32,
        destination: r.byte(),
        time: r.next() as u16,
        relays: r.byte(),
        supply: r.next() as u16,
        unused: r.byte(),
        di: r.byte(),
        di_changed: r.byte(),
        ad1: r.byte(),
        ad2: r.byte(),
        ad3: r.byte(),
        ad4: r.byte(),
        correction: r.byte(),
        signals: r.next() as u16,
        mask: r.next() as u16,
        interrupts: r.next() as u16,
    };
    let information = Information {
        application: r.next() as u32,
        version: r.next() as u32,
        device: r.byte(),
        serial: r.next() as u32,
        silent: r.byte(),
        network: r.byte(),
    };
    FromModule {
        kind: kind(r, 8),
        refusal: r.byte(),
        address: address(r),
        command: command(r),
        response_id: r.byte(),
        result: r.pick(&[0, 1, 0, 1, 2, 0xFF]),
        lqi: r.byte(),
        source: extended_address(r),
        destination: extended_address(r),
        status,
        information,
        start: r.next() as usize,
    }
}
