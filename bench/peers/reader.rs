//! A line reader for both framings in safe Rust, with the interface of the proved one: the state goes in and comes out by value. It may be made by
//! hand, so each call judges the held bytes anew.

#![allow(dead_code)] // The interface is whole, even where the digest does not ask.

use crate::ascii::{self, Ending, Judged};
use crate::find::find;

/// How a frame is written.
#[derive(Clone, Copy)]
pub enum Framing {
    Binary,
    Ascii,
}

/// Whether the footer of a binary frame may be missing.
#[derive(Clone, Copy)]
pub enum Footer {
    Optional,
    Required,
}

/// How frames are read.
#[derive(Clone, Copy)]
pub enum Format {
    Binary(Footer),
    Ascii(Ending),
}

pub enum Refusal {
    /// 13: the buffer is too short.
    Buffer,
    /// 15: the chunk is too long.
    Chunk,
    /// 16: the state holds more bytes than a frame can have.
    State,
}

/// The first `count` of `held` are the held bytes. Where `follows`, the optional byte of the frame that was handed out last may follow: its footer, or the LF
/// behind its CR.
pub struct Reader {
    pub format: Format,
    pub held: [u8; Reader::MAX_ASCII],
    pub count: usize,
    pub follows: bool,
}

pub enum FeedAnswer {
    Frame { taken: usize, noise: usize, len: usize },
    NeedsMore { taken: usize, noise: usize },
    Refused(Refusal),
}

pub struct Fed {
    pub reader: Reader,
    pub answer: FeedAnswer,
}

pub enum QuietAnswer {
    Frame { noise: usize, len: usize },
    Empty { noise: usize },
    Refused(Refusal),
}

pub struct Quieted {
    pub reader: Reader,
    pub answer: QuietAnswer,
}

const FOOTER: u8 = 0x04;

/// Judges what begins with the A5 at the front of `s`. Where the footer is optional, a frame is complete at its checksum.
fn judge_binary(footer: Footer, s: &[u8]) -> Judged {
    let (len, body) = match s {
        [_] | [_, 0x5A] | [_, 0x5A, _] => return Judged::Undecided,
        [_, 0x5A, high, low, body @ ..] => match u16::from_be_bytes([*high, *low]) {
            length @ 0x8001..=0x8100 => (usize::from(length - 0x8000), body),
            _ => return Judged::Failed(4),
        },
        _ => return Judged::Failed(2),
    };
    let Some((payload, rest)) = body.split_at_checked(len) else { return Judged::Undecided };
    let xor = payload.iter().fold(0, |xor, b| xor ^ b);
    match (rest, footer) {
        ([], _) => Judged::Undecided,
        ([checksum, ..], _) if *checksum != xor => Judged::Failed(len + 5),
        (_, Footer::Optional) => Judged::Frame { used: len + 5, len },
        ([_], _) => Judged::Undecided,
        ([_, FOOTER, ..], _) => Judged::Frame { used: len + 6, len },
        _ => Judged::Failed(len + 6),
    }
}

impl Framing {
    /// The format by default.
    pub fn format(self) -> Format {
        match self {
            Framing::Binary => Format::Binary(Footer::Optional),
            Framing::Ascii => Format::Ascii(Ending::CrLf),
        }
    }
}

impl Format {
    fn start(self) -> u8 {
        match self {
            Format::Binary(_) => 0xA5,
            Format::Ascii(_) => b':',
        }
    }

    fn limit(self) -> usize {
        match self {
            Format::Binary(_) => Reader::MAX_BINARY,
            Format::Ascii(_) => Reader::MAX_ASCII,
        }
    }

    /// The byte that may follow a complete frame and belongs to it.
    fn optional(self) -> Option<u8> {
        match self {
            Format::Binary(Footer::Optional) => Some(FOOTER),
            Format::Ascii(Ending::Any) => Some(b'\n'),
            _ => None,
        }
    }

    /// Whether it may follow a frame whose last byte is `last`: an LF belongs to the frame only behind its CR.
    fn may_follow(self, last: u8) -> bool {
        match self {
            Format::Binary(Footer::Optional) => true,
            Format::Ascii(Ending::Any) => last == b'\r',
            _ => false,
        }
    }

    /// Judges what begins with the start byte at the front of `s`.
    fn judge(self, s: &[u8]) -> Judged {
        match self {
            Format::Binary(footer) => judge_binary(footer, s),
            Format::Ascii(ending) => ascii::judge(s, ending, |digits| ascii::decode(digits, &mut [0; 257])),
        }
    }

    /// Takes the payload out of the frame at the front of `s`.
    fn unpack(self, s: &[u8], payload: &mut [u8]) {
        match self {
            Format::Binary(_) => payload.copy_from_slice(&s[4..4 + payload.len()]),
            Format::Ascii(_) => {
                ascii::decode(&s[1..1 + 2 * payload.len()], payload);
            }
        }
    }
}

enum End {
    Frame { used: usize, len: usize },
    Undecided,
    Passed,
}

/// Where a scan stopped, and how far bytes were judged.
struct Found {
    place: usize,
    reach: usize,
    end: End,
}

/// Judges the places of `s` from `place` to `stop` in order, up to the first that does not fail; where `ended`, the segment's end makes undecided ones fail.
/// Bytes up to `reach` were judged before.
fn scan(format: Format, s: &[u8], mut place: usize, stop: usize, mut reach: usize, ended: bool) -> Found {
    while place < stop {
        if s[place] != format.start() {
            let Some(skipped) = find(format.start(), &s[place..stop]) else { break };
            place += skipped;
        }
        match format.judge(&s[place..]) {
            Judged::Frame { used, len } => {
                return Found { place, reach: reach.max(place + used), end: End::Frame { used, len } };
            }
            Judged::Undecided if !ended => {
                return Found { place, reach: reach.max(place), end: End::Undecided };
            }
            Judged::Undecided => (),
            Judged::Failed(judged) => reach = reach.max(place + judged),
        }
        place += 1;
    }
    Found { place: stop, reach: reach.max(stop), end: End::Passed }
}

impl Reader {
    pub const MAX_PAYLOAD: usize = 256;
    pub const MAX_BINARY: usize = 262;
    pub const MAX_ASCII: usize = ascii::MAX_FRAME;
    pub const MAX_CHUNK: usize = 65_536;

    pub fn new(framing: Framing) -> Self {
        Reader::open(framing.format())
    }

    pub fn open(format: Format) -> Self {
        Reader { format, held: [0; Self::MAX_ASCII], count: 0, follows: false }
    }

    fn refusal(&self, chunk: &[u8], buf: &[u8]) -> Option<Refusal> {
        if self.count > self.format.limit() {
            Some(Refusal::State)
        } else if buf.len() < Self::MAX_PAYLOAD {
            Some(Refusal::Buffer)
        } else if chunk.len() > Self::MAX_CHUNK {
            Some(Refusal::Chunk)
        } else {
            None
        }
    }

    fn hold(&mut self, s: &[u8]) {
        self.held[..s.len()].copy_from_slice(s);
        self.count = s.len();
    }

    /// Keeps only the held bytes from `start` to `end`.
    fn keep(&mut self, start: usize, end: usize) {
        if start > 0 {
            self.held.copy_within(start..end, 0);
        }
        self.count = end - start;
    }

    /// Finds the next frame in a chunk from `from` on, where nothing is held, the chunk was judged up to `reach` and `noise` bytes before it were settled.
    #[inline(always)]
    fn feed_chunk(&mut self, chunk: &[u8], from: usize, reach: usize, noise: usize, buf: &mut [u8]) -> FeedAnswer {
        let Found { place, reach, end } = scan(self.format, chunk, from, chunk.len(), reach, false);
        let noise = noise + place - from;
        if let End::Frame { used, len } = end {
            self.format.unpack(&chunk[place..], &mut buf[..len]);
            self.hold(&chunk[place + used..reach]);
            self.follows = self.format.may_follow(chunk[place + used - 1]);
            return FeedAnswer::Frame { taken: reach, noise, len };
        }
        self.hold(&chunk[place..]);
        FeedAnswer::NeedsMore { taken: chunk.len(), noise }
    }

    /// Finds the next frame where bytes are held: at the places among them first, then in the chunk. What is held is filled up from the chunk to the length
    /// of the longest frame, which decides its first place, and is moved up as places fail.
    fn feed_held(&mut self, chunk: &[u8], buf: &mut [u8]) -> FeedAnswer {
        let mut old = self.count; // bytes held before this call
        let mut judged = 0; // bytes of the chunk
        let mut settled = 0;
        loop {
            let rest = &chunk[self.count - old..];
            let more = rest.len().min(self.format.limit() - self.count);
            self.held[self.count..self.count + more].copy_from_slice(&rest[..more]);
            self.count += more;
            let Found { place, reach, end } = scan(self.format, &self.held[..self.count], 0, old, old + judged, false);
            settled += place;
            judged = reach - old;
            match end {
                End::Frame { used, len } => {
                    self.format.unpack(&self.held[place..], &mut buf[..len]);
                    self.follows = self.format.may_follow(self.held[place + used - 1]);
                    self.keep(place + used, reach);
                    return FeedAnswer::Frame { taken: judged, noise: settled, len };
                }
                End::Passed => {
                    self.count = 0;
                    return self.feed_chunk(chunk, 0, judged, settled, buf);
                }
                End::Undecided => {
                    self.keep(place, self.count);
                    old -= place;
                    if self.count - old == chunk.len() {
                        return FeedAnswer::NeedsMore { taken: chunk.len(), noise: settled };
                    }
                }
            }
        }
    }

    /// Passes over the optional byte of the last frame, if it follows: the first held byte or, where none is held, the first of the chunk. Gives how many
    /// bytes of the chunk it is. Without a byte of either the mark stays.
    fn pass_optional(&mut self, chunk: &[u8]) -> usize {
        if !self.follows {
            return 0;
        }
        self.follows = self.count == 0 && chunk.is_empty();
        let optional = self.format.optional();
        match (&self.held[..self.count], chunk) {
            ([], [next, ..]) => usize::from(optional == Some(*next)),
            ([next, ..], _) if optional == Some(*next) => {
                self.keep(1, self.count);
                0
            }
            _ => 0,
        }
    }

    /// Takes bytes of a chunk until the next frame is settled, whose payload goes to the front of `buf`. Inlined, it does not copy the state.
    #[inline(always)]
    pub fn feed(mut self, chunk: &[u8], buf: &mut [u8]) -> Fed {
        if let Some(refusal) = self.refusal(chunk, buf) {
            return Fed { reader: self, answer: FeedAnswer::Refused(refusal) };
        }
        let from = self.pass_optional(chunk);
        let answer = if self.count == 0 { self.feed_chunk(chunk, from, 0, 0, buf) } else { self.feed_held(chunk, buf) };
        Fed { reader: self, answer }
    }

    /// The held bytes end their segment: gives the next frame in them.
    pub fn quiet(mut self, buf: &mut [u8]) -> Quieted {
        if let Some(refusal) = self.refusal(&[], buf) {
            return Quieted { reader: self, answer: QuietAnswer::Refused(refusal) };
        }
        self.pass_optional(&[]);
        let Found { place, end, .. } = scan(self.format, &self.held[..self.count], 0, self.count, 0, true);
        let End::Frame { used, len } = end else {
            return Quieted { reader: Reader::open(self.format), answer: QuietAnswer::Empty { noise: place } };
        };
        self.format.unpack(&self.held[place..], &mut buf[..len]);
        self.follows = self.format.may_follow(self.held[place + used - 1]);
        self.keep(place + used, self.count);
        Quieted { reader: self, answer: QuietAnswer::Frame { noise: place, len } }
    }
}
