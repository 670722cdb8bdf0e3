//! Document 01's frames, leftmost rule and line reader, with CR 2, CR 7, CR 9 and CR 14 of document 02, byte by byte. Nothing is shared with the library:
//! this is a second reading of the same text.

/// How frames are written.
#[derive(Clone, Copy, Debug, PartialEq)]
pub enum Framing {
    Binary,
    Ascii,
}

/// How frames are read: binary ones whose 04 may be missing, or may not; ASCII ones that end with CR LF, or with any of CR, LF and both.
#[derive(Clone, Copy, Debug, PartialEq)]
pub enum Format {
    Optional,
    Required,
    Strict,
    AnyEnding,
}

impl Format {
    pub const ALL: [Format; 4] = [Format::Optional, Format::Required, Format::Strict, Format::AnyEnding];

    pub fn framing(self) -> Framing {
        match self {
            Format::Optional | Format::Required => Framing::Binary,
            Format::Strict | Format::AnyEnding => Framing::Ascii,
        }
    }

    /// The longest frame, which is also the most that a reader's state may hold.
    pub fn limit(self) -> usize {
        match self.framing() {
            Framing::Binary => 262,
            Framing::Ascii => 517,
        }
    }

    /// How many bytes are judged at most for each byte of a segment.
    pub fn most_judged(self) -> usize {
        match self.framing() {
            Framing::Binary => 262,
            Framing::Ascii => 2,
        }
    }

    /// The byte that, next to a complete frame, may belong to it.
    pub fn optional(self) -> Option<u8> {
        match self {
            Format::Optional => Some(0x04),
            Format::AnyEnding => Some(0x0A),
            Format::Required | Format::Strict => None,
        }
    }

    /// Whether such a byte belongs to a complete frame that ends with `last`: an LF only where that is a CR.
    fn may_follow(self, last: u8) -> bool {
        match self {
            Format::Optional => true,
            Format::AnyEnding => last == 0x0D,
            Format::Required | Format::Strict => false,
        }
    }
}

/// What bytes are, judged in order from the first.
#[derive(Clone, Debug, PartialEq)]
pub enum Verdict {
    /// They run out before a failure and before the end.
    Cut,
    /// The last of `size` bytes fails a check.
    Fails { refusal: u8, size: usize },
    /// A frame, decided by the last of `size` bytes.
    Frame { size: usize, payload: Vec<u8> },
}

impl Verdict {
    /// How many bytes were judged where n were there: those up to and with the deciding one, or all where none decides.
    fn judged(&self, n: usize) -> usize {
        match self {
            Verdict::Cut => n,
            Verdict::Fails { size, .. } | Verdict::Frame { size, .. } => *size,
        }
    }
}

/// The verdict where byte i, counted from 0, fails.
fn fails(refusal: u8, i: usize) -> Verdict {
    Verdict::Fails { refusal, size: i + 1 }
}

pub fn judge(format: Format, s: &[u8]) -> Verdict {
    match format {
        Format::Optional => judge_binary(s, false),
        Format::Required => judge_binary(s, true),
        Format::Strict => judge_ascii(s, false),
        Format::AnyEnding => judge_ascii(s, true),
    }
}

fn judge_binary(s: &[u8], needs_footer: bool) -> Verdict {
    let mut length = 0;
    let mut xor = 0;
    for (i, &b) in s.iter().enumerate() {
        match i {
            0 if b != 0xA5 => return fails(1, i),
            1 if b != 0x5A => return fails(1, i),
            0..=2 => {}
            3 => {
                let word = s[2] as usize * 256 + b as usize;
                if !(0x8001..=0x8100).contains(&word) {
                    return fails(3, i);
                }
                length = word - 0x8000;
            }
            _ if i < 4 + length => xor ^= b,
            _ if i == 4 + length => {
                if b != xor {
                    return fails(4, i);
                }
                if !needs_footer {
                    return Verdict::Frame { size: i + 1, payload: s[4..4 + length].to_vec() };
                }
            }
            _ if b != 0x04 => return fails(5, i),
            _ => return Verdict::Frame { size: i + 1, payload: s[4..4 + length].to_vec() },
        }
    }
    Verdict::Cut
}

fn judge_ascii(s: &[u8], takes_any_ending: bool) -> Verdict {
    let mut digits: Vec<u8> = Vec::new();
    let mut payload: Option<Vec<u8>> = None;
    for (i, &b) in s.iter().enumerate() {
        if i == 0 {
            if b != b':' {
                return fails(1, i);
            }
        } else if let Some(payload) = payload.take() {
            if b != 0x0A {
                return fails(5, i);
            }
            return Verdict::Frame { size: i + 1, payload };
        } else if b.is_ascii_digit() || (b'A'..=b'F').contains(&b) {
            if digits.len() == 514 {
                return fails(3, i);
            }
            digits.push(b);
        } else if b == 0x0D || (takes_any_ending && b == 0x0A) {
            match line(&digits) {
                Ok(payload) if takes_any_ending => return Verdict::Frame { size: i + 1, payload },
                Ok(bytes) => payload = Some(bytes),
                Err(number) => return fails(number, i),
            }
        } else {
            return fails(6, i);
        }
    }
    Verdict::Cut
}

/// The payload of a line's digits: 3 for their count, then 4 for the sum.
fn line(digits: &[u8]) -> Result<Vec<u8>, u8> {
    if digits.len() % 2 == 1 || digits.len() < 4 {
        return Err(3);
    }
    let text = std::str::from_utf8(digits).unwrap();
    let mut bytes: Vec<u8> = (0..digits.len() / 2).map(|k| u8::from_str_radix(&text[2 * k..2 * k + 2], 16).unwrap()).collect();
    if bytes.iter().map(|&b| b as usize).sum::<usize>() % 256 != 0 {
        return Err(4);
    }
    bytes.pop();
    Ok(bytes)
}

/// The frame of a payload of 1 to 256 bytes.
pub fn frame(framing: Framing, payload: &[u8]) -> Vec<u8> {
    match framing {
        Framing::Binary => {
            let word = 0x8000 + payload.len();
            let mut out = vec![0xA5, 0x5A, (word >> 8) as u8, word as u8];
            out.extend_from_slice(payload);
            out.push(payload.iter().fold(0, |x, b| x ^ b));
            out.push(0x04);
            out
        }
        Framing::Ascii => {
            let sum: usize = payload.iter().map(|&b| b as usize).sum();
            let check = (256 - sum % 256) % 256;
            let text: String = payload.iter().map(|b| format!("{b:02X}")).collect();
            format!(":{text}{check:02X}\r\n").into_bytes()
        }
    }
}

/// Whether the byte next to the frame of `size` bytes at the front of `s` belongs to it although the frame is complete without it.
fn has_optional(format: Format, s: &[u8], size: usize) -> bool {
    format.may_follow(s[size - 1]) && s.get(size).copied() == format.optional()
}

/// A single read into a buffer of `room` bytes: bytes used and payload, or the refusal.
pub fn read_frame(format: Format, s: &[u8], room: usize) -> Result<(usize, Vec<u8>), u8> {
    match judge(format, s) {
        Verdict::Cut => Err(2),
        Verdict::Fails { refusal, .. } => Err(refusal),
        Verdict::Frame { payload, .. } if room < payload.len() => Err(13),
        Verdict::Frame { size, payload } => Ok((size + has_optional(format, s, size) as usize, payload)),
    }
}

/// A payload written into a buffer of `room` bytes: the frame, or the refusal.
pub fn write_frame(framing: Framing, payload: &[u8], room: usize) -> Result<Vec<u8>, u8> {
    if payload.is_empty() || payload.len() > 256 {
        return Err(14);
    }
    let out = frame(framing, payload);
    if room < out.len() {
        return Err(13);
    }
    Ok(out)
}

/// What the leftmost rule makes of a segment: the payloads, the places of their frames, how far before the first untaken byte each of these began, the noise,
/// and the rule's own count of judged bytes.
#[derive(Clone, Default)]
pub struct Output {
    pub frames: Vec<Vec<u8>>,
    pub places: Vec<usize>,
    pub began: Vec<usize>,
    pub noise: usize,
    pub judged: usize,
}

/// The leftmost rule over a whole segment, from a place on. It counts the bytes judged at each place at which it stands; it never stands at an optional byte
/// behind a frame. Of a segment whose first `taken` bytes were held from the start, a reader that hands out a frame has taken these, and all up to the
/// furthest byte that was judged at the frame's place or an earlier one.
fn rule(format: Format, segment: &[u8], mut place: usize, taken: usize) -> Output {
    let mut output = Output::default();
    let mut furthest = taken;
    while place < segment.len() {
        let rest = &segment[place..];
        let verdict = judge(format, rest);
        let judged = verdict.judged(rest.len());
        output.judged += judged;
        furthest = furthest.max(place + judged);
        match verdict {
            Verdict::Frame { size, payload } => {
                output.frames.push(payload);
                output.places.push(place);
                output.began.push(furthest - place);
                place += size + has_optional(format, rest, size) as usize;
            }
            _ => {
                output.noise += 1;
                place += 1;
            }
        }
    }
    output
}

/// The bytes judged at the places of a line in order, up to and with the first that does not fail, where a call stops. Where the segment has ended with the
/// line, an undecided place fails too.
fn judged_to_stop(format: Format, line: &[u8], has_ended: bool) -> usize {
    let mut judged = 0;
    for place in 0..line.len() {
        let rest = &line[place..];
        let verdict = judge(format, rest);
        judged += verdict.judged(rest.len());
        match verdict {
            Verdict::Fails { .. } => {}
            Verdict::Cut if has_ended => {}
            Verdict::Cut | Verdict::Frame { .. } => break,
        }
    }
    judged
}

/// What a reader remembers between calls: undecided bytes, whether the optional byte of the frame that it gave last may follow, and how many of the held
/// bytes were judged at the place of the first. Beside it, what no reader of the library knows: `place`, where in the segment the first held byte stands, or
/// the next one where none is held.
#[derive(Clone, Debug, Default, PartialEq)]
pub struct State {
    pub held: Vec<u8>,
    pub follows: bool,
    pub judged: usize,
    pub place: usize,
}

impl State {
    /// Whether the next byte of the line, the first held one or else the first of `chunk`, is the optional byte that may follow.
    pub fn meets_optional(&self, format: Format, chunk: &[u8]) -> bool {
        let next = self.held.iter().chain(chunk).next();
        self.follows && next.is_some() && next.copied() == format.optional()
    }

    /// The held bytes and then `rest`, without an optional byte in front, which is not judged.
    fn judgeable(&self, format: Format, rest: &[u8]) -> Vec<u8> {
        let line = [&self.held, rest].concat();
        line[self.meets_optional(format, rest) as usize..].to_vec()
    }

    /// How many of these are not counted again at the first place: as many as were judged there before, and no more than are judged there. Behind an optional
    /// byte there are none: the state's number was of the place of that byte.
    pub fn counted_before(&self, format: Format, rest: &[u8]) -> usize {
        if self.meets_optional(format, rest) {
            return 0;
        }
        let line = self.judgeable(format, rest);
        self.judged.min(judge(format, &line).judged(line.len()))
    }

    /// The bytes that a call judges in this state.
    fn judged_by_call(&self, format: Format, chunk: &[u8], has_ended: bool) -> usize {
        judged_to_stop(format, &self.judgeable(format, chunk), has_ended) - self.counted_before(format, chunk)
    }

    /// The rule from this state on, where the held bytes come first in the segment and then `rest`. It counts all that it judges but what was counted before.
    pub fn rule(&self, format: Format, rest: &[u8]) -> Output {
        let segment = [&self.held, rest].concat();
        let mut output = rule(format, &segment, self.meets_optional(format, rest) as usize, self.held.len());
        output.judged -= self.counted_before(format, rest);
        output
    }

    /// Where in the segment the first byte stands that was not taken.
    fn untaken(&self) -> usize {
        self.place + self.held.len()
    }
}

/// What a line or quiet call does, where it is not refused. Where it gives a frame, `began` is how far before the first untaken byte that began.
#[derive(Clone, Debug, PartialEq)]
pub struct Call {
    pub taken: usize,
    pub noise: usize,
    pub judged: usize,
    pub payload: Option<Vec<u8>>,
    pub began: usize,
    pub state: State,
}

/// The line call by the taking rule: a further byte is taken only while the held bytes are empty or have passed every check without completing a frame.
/// Before that the optional byte that may follow is passed over; it is taken if it was not held. All bytes held when more are needed were judged at the place
/// of the first; behind a frame none were. The place moves on by each byte that is dropped or handed out.
pub fn feed(format: Format, state: &State, chunk: &[u8]) -> Call {
    let judged = state.judged_by_call(format, chunk, false);
    let mut held = state.held.clone();
    let mut place = state.place;
    let mut taken = 0;
    let mut noise = 0;
    if state.meets_optional(format, chunk) {
        place += 1;
        if held.is_empty() {
            taken += 1;
        } else {
            held.remove(0);
        }
    }
    loop {
        while !held.is_empty() {
            match judge(format, &held) {
                Verdict::Cut => break,
                Verdict::Fails { .. } => {
                    held.remove(0);
                    place += 1;
                    noise += 1;
                }
                Verdict::Frame { size, payload } => {
                    let began = state.untaken() + taken - place;
                    let follows = format.may_follow(held[size - 1]);
                    held.drain(..size);
                    let state = State { held, follows, judged: 0, place: place + size };
                    return Call { taken, noise, judged, payload: Some(payload), began, state };
                }
            }
        }
        if taken == chunk.len() {
            break;
        }
        held.push(chunk[taken]);
        taken += 1;
    }
    let nothing_came = state.held.is_empty() && chunk.is_empty();
    let count = held.len();
    let state = State { held, follows: state.follows && nothing_came, judged: count, place };
    Call { taken, noise, judged, payload: None, began: 0, state }
}

/// The quiet call: the held bytes end the segment, so an unfinished frame fails like any other, and no optional byte comes any more but a held one. The first
/// untaken byte would stand at the segment's end. Behind "empty" the next segment begins.
pub fn quiet(format: Format, state: &State) -> Call {
    let judged = state.judged_by_call(format, &[], true);
    let mut held = state.held.clone();
    let mut place = state.place;
    let mut noise = 0;
    if state.meets_optional(format, &[]) {
        held.remove(0);
        place += 1;
    }
    while !held.is_empty() {
        if let Verdict::Frame { size, payload } = judge(format, &held) {
            let began = state.untaken() - place;
            let follows = format.may_follow(held[size - 1]);
            held.drain(..size);
            let state = State { held, follows, judged: 0, place: place + size };
            return Call { taken: 0, noise, judged, payload: Some(payload), began, state };
        }
        held.remove(0);
        place += 1;
        noise += 1;
    }
    Call { taken: 0, noise, judged, payload: None, began: 0, state: State::default() }
}
