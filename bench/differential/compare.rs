//! The cases: each runs the library and the model on the same input and compares every number, every byte of a buffer and the state.
use crate::boundary::{self as library, Answer, Fed, FromModule, Reader, Reading, ToModule, Writing};
use crate::frames::{self, Call, Format, Framing, Output, State};
use crate::messages;
use crate::random::{self, Random};
use crate::Tally;

/// A difference, told in words and bytes.
pub type Outcome = Result<(), String>;

fn same<T: PartialEq + std::fmt::Debug>(what: &str, input: &dyn Fn() -> String, library: T, model: T) -> Outcome {
    if library == model {
        return Ok(());
    }
    Err(format!("{what}: {}\n  library {library:?}\n  model   {model:?}", input()))
}

fn hex(s: &[u8]) -> String {
    s.iter().map(|b| format!("{b:02X}")).collect()
}

/// A buffer with a pattern in it, so that every byte that a call stores shows.
fn patterned(r: &mut Random, room: usize) -> Vec<u8> {
    let first = r.byte();
    (0..room).map(|i| first.wrapping_add((i as u8).wrapping_mul(37))).collect()
}

/// The buffer with these bytes in its front.
fn in_front(bytes: &[u8], buf: &[u8]) -> Vec<u8> {
    [bytes, &buf[bytes.len()..]].concat()
}

fn format_number(format: Format) -> u8 {
    match format {
        Format::Optional => 0,
        Format::Strict => 1,
        Format::Required => 2,
        Format::AnyEnding => 3,
    }
}

fn framing_number(framing: Framing) -> u8 {
    match framing {
        Framing::Binary => 0,
        Framing::Ascii => 1,
    }
}

/// The first number that stands for no format or no framing, or any other.
fn unknown_number(r: &mut Random, first: u8) -> u8 {
    let any = r.within(first as usize, 255) as u8;
    r.pick(&[first, any])
}

/// A format and its number, or now and then a number that stands for none.
fn any_format(r: &mut Random) -> (Option<Format>, u8) {
    if r.once_in(50) {
        return (None, unknown_number(r, 4));
    }
    let f = random::format(r);
    (Some(f), format_number(f))
}

/// A framing and its number, or now and then a number that stands for none: 2 and 3, which stand for formats, do not.
fn any_framing(r: &mut Random) -> (Option<Framing>, u8) {
    if r.once_in(50) {
        let first = r.pick(&[2, 3]);
        return (None, unknown_number(r, first));
    }
    let f = random::framing(r);
    (Some(f), framing_number(f))
}

/// The room of a buffer for `need` bytes: enough, or one too few, or any.
fn room_for(r: &mut Random, need: usize) -> usize {
    match r.below(6) {
        0 => need.saturating_sub(1),
        1 => need,
        2 => r.below(need + 2),
        _ => need + r.below(20),
    }
}

/// A single read of a segment's front.
pub fn single_read(r: &mut Random, tally: &mut Tally) -> Outcome {
    let (f, number) = any_format(r);
    let s = random::segment(r, f.unwrap_or(Format::Strict).framing());
    let need = f.and_then(|f| frames::read_frame(f, &s, 256).ok()).map_or(8, |x| x.1.len());
    let room = room_for(r, need);
    let before = patterned(r, room);
    let expected = f.map_or(Err(messages::UNKNOWN), |f| frames::read_frame(f, &s, room));
    let (answer, after) = match &expected {
        Ok((used, p)) => (Reading { refusal: 0, used: *used, len: p.len() }, in_front(p, &before)),
        Err(refusal) => (Reading { refusal: *refusal, used: 0, len: 0 }, before.clone()),
    };
    let mut buf = before;
    let got = library::read_frame(number, &s, &mut buf);
    tally.case_read(f);
    tally.refusal(got.refusal);
    tally.single_read(f, &s, got);
    let input = || format!("read_frame format {number} room {room} bytes {}", hex(&s));
    same("answer", &input, got, answer)?;
    same("buffer", &input, buf, after)
}

/// A written frame, compared with the model's: numbers and the whole buffer.
fn written(call: &str, tally: &mut Tally, before: &[u8], expected: Result<Vec<u8>, u8>, got: Writing, buf: &[u8]) -> Outcome {
    let (answer, after) = match &expected {
        Ok(out) => (Writing { refusal: 0, len: out.len() }, in_front(out, before)),
        Err(refusal) => (Writing { refusal: *refusal, len: 0 }, before.to_vec()),
    };
    tally.refusal(got.refusal);
    tally.add("frames written", got.refusal == 0);
    let input = || call.to_string();
    same("answer", &input, got, answer)?;
    same("buffer", &input, buf, &after[..])
}

/// A bare payload written as a frame.
pub fn single_write(r: &mut Random, tally: &mut Tally) -> Outcome {
    let (f, number) = any_framing(r);
    let p = match r.below(10) {
        0 => Vec::new(),
        1 => {
            let n = r.within(255, 260);
            r.bytes(n)
        }
        _ => random::payload(r),
    };
    let need = f.map_or(8, |f| frames::frame(f, &p).len());
    let room = room_for(r, need);
    let before = patterned(r, room);
    let expected = f.map_or(Err(messages::UNKNOWN), |f| frames::write_frame(f, &p, room));
    let mut buf = before.clone();
    let got = library::write_frame(number, &p, &mut buf);
    tally.case_written(f);
    written(&format!("write_frame framing {number} room {room} payload {}", hex(&p)), tally, &before, expected, got, &buf)
}

/// A payload read in both directions.
pub fn payload(r: &mut Random, tally: &mut Tally) -> Outcome {
    let p = match r.below(20) {
        0 => random::payload(r),
        _ => random::message(r),
    };
    let input = || format!("payload {}", hex(&p));
    let to = library::read_to_module(&p);
    let from = library::read_from_module(&p);
    tally.case_read(None);
    tally.refusal(to.refusal);
    tally.refusal(from.refusal);
    tally.to_kinds[to.kind as usize % 8] += 1;
    tally.from_kinds[from.kind as usize % 8] += 1;
    same("to the module", &input, to, messages::read_to_module(&p))?;
    same("from the module", &input, from, messages::read_from_module(&p))
}

/// Which of the five message writers is tried: the first three write to the module.
fn write_with(which: usize, r: &mut Random, number: u8, buf: &mut [u8], text: &mut String) -> (Result<Vec<u8>, u8>, Writing) {
    let (to, from) = (random::to_module(r), random::from_module(r));
    match which {
        0 => {
            let data = random::data_for(r, to.kind == 5);
            let body = hex(&data);
            *text = format!("write_request {to:?} data {body}");
            (messages::request(&to, &data), library::write_request(number, to, &data, buf))
        }
        1 => {
            let kind = if r.once_in(4) { to.kind } else { 4 };
            let change = ToModule { kind, ..to };
            *text = format!("write_output_change {change:?}");
            (messages::output_change(&change), library::write_output_change(number, change, buf))
        }
        2 => {
            let kind = if r.once_in(4) { to.kind } else { 6 };
            let command = ToModule { kind, ..to };
            *text = format!("write_setup {command:?}");
            (messages::setup(&command), library::write_setup(number, command, buf))
        }
        3 => {
            let data = random::data_for(r, from.kind == 6);
            let body = hex(&data);
            *text = format!("write_delivery {from:?} data {body}");
            (messages::delivery(&from, &data), library::write_delivery(number, from, &data, buf))
        }
        _ => {
            let kind = if r.once_in(4) { 7 } else { from.kind };
            let notice = FromModule { kind, ..from };
            *text = format!("write_notice {notice:?}");
            (messages::notice(&notice), library::write_notice(number, notice, buf))
        }
    }
}

/// A message written as a frame, and where it is written read back.
pub fn message_write(r: &mut Random, tally: &mut Tally) -> Outcome {
    let (f, number) = any_framing(r);
    let room = match r.below(4) {
        0 => r.below(60),
        1 => r.within(255, 520),
        _ => 600,
    };
    let before = patterned(r, room);
    let mut buf = before.clone();
    let mut text = String::new();
    let which = r.below(5);
    let (payload, got) = write_with(which, r, number, &mut buf, &mut text);
    tally.case_written(f);
    let expected = match f {
        None => Err(messages::UNKNOWN),
        Some(f) => payload.clone().and_then(|p| frames::write_frame(f, &p, room)),
    };
    let call = format!("{text} framing {number} room {room}");
    written(&call, tally, &before, expected, got, &buf)?;
    if got.refusal != 0 {
        return Ok(());
    }
    let p = payload.unwrap();
    for format in Format::ALL.into_iter().filter(|x| Some(x.framing()) == f) {
        let mut back = [0; 256];
        let read = library::read_frame(format_number(format), &buf, &mut back);
        same("read back", &|| call.clone(), read, Reading { refusal: 0, used: got.len, len: p.len() })?;
        same("payload read back", &|| call.clone(), &back[..p.len()], &p[..])?;
    }
    let known = if which < 3 { library::read_to_module(&p).refusal } else { library::read_from_module(&p).refusal };
    same("message read back", &|| call.clone(), known, 0)
}

/// A settings list walked by index, from the first setting to the one behind the last, and then at any index.
pub fn walk(r: &mut Random, tally: &mut Tally) -> Outcome {
    let list = match r.below(20) {
        0 => random::data(r),
        _ => random::settings_list(r),
    };
    tally.case_read(None);
    let mut index = 0;
    loop {
        let input = || format!("setting_at index {index} list {}", hex(&list));
        let got = library::setting_at(&list, index);
        tally.add("settings found", got.is_found != 0);
        same("setting", &input, got, messages::setting_at(&list, index))?;
        if got.is_found == 0 {
            tally.refusal(got.refusal);
            break;
        }
        index += 1;
    }
    let far = index + r.pick(&[1, 2, 12, 255, 256, 65536, usize::MAX - 14]);
    same("setting", &|| format!("setting_at index {far} list {}", hex(&list)), library::setting_at(&list, far), messages::setting_at(&list, far))
}

/// A reader of the library beside the model's state, whether that is as it was made by hand, how many bytes of the segment were taken, held ones of a state
/// made by hand among them, and what the library's answers make up together.
#[derive(Clone)]
struct Pair {
    format: Format,
    reader: Reader,
    state: State,
    is_made: bool,
    taken: usize,
    given: Output,
}

/// What a call was given, for a report.
fn told(name: &str, r: &Reader, chunk: &[u8], room: usize) -> String {
    let state = format!("format {} follows {} judged {} count {} held {}", r.format, r.follows, r.judged, r.count, hex(&r.held));
    format!("{name} {state} chunk ({}) {} room {room}", chunk.len(), hex(chunk))
}

impl Pair {
    fn new(format: Format) -> Pair {
        let reader = library::new_reader(format_number(format));
        Pair { format, reader, state: State::default(), is_made: false, taken: 0, given: Output::default() }
    }

    fn over_limit(&self) -> bool {
        self.reader.count > self.format.limit()
    }

    /// Whether the state says that more bytes were judged than it holds.
    fn overstates(&self) -> bool {
        self.reader.judged > self.reader.count
    }

    fn has_unknown_mark(&self) -> bool {
        self.reader.follows > 1
    }

    /// The state, if it is as it was made by hand.
    fn made(&self) -> Option<&Reader> {
        self.is_made.then_some(&self.reader)
    }

    /// A refused call: its number, zeros, state and buffer as they were.
    fn refused(&self, refusal: u8, input: &dyn Fn() -> String, got: Fed, buf: &[u8], before: &[u8]) -> Outcome {
        same("answer", input, got.answer, Answer { refusal, ..Default::default() })?;
        same("state", input, got.reader, self.reader)?;
        same("buffer", input, buf, before)
    }

    /// A call that is not refused: its numbers, the state that follows and the whole buffer.
    fn answered(&mut self, call: Call, fresh: bool, input: &dyn Fn() -> String, got: Fed, buf: &[u8], before: &[u8]) -> Outcome {
        let (len, after) = match &call.payload {
            Some(p) => (p.len(), in_front(p, before)),
            None => (0, before.to_vec()),
        };
        let is_frame = call.payload.is_some() as u8;
        let held = &call.state.held;
        let answer = Answer { refusal: 0, is_frame, taken: call.taken, noise: call.noise, judged: call.judged, len, began: call.began };
        same("answer", input, got.answer, answer)?;
        same("buffer", input, buf, &after[..])?;
        same("format", input, got.reader.format, self.reader.format)?;
        same("count", input, got.reader.count, held.len())?;
        same("held bytes", input, &got.reader.held[..held.len()], &held[..])?;
        same("mark", input, got.reader.follows, call.state.follows as u8)?;
        same("held bytes judged", input, got.reader.judged, call.state.judged)?;
        if fresh {
            same("fresh state", input, got.reader, Pair::new(self.format).reader)?;
        }
        self.reader = got.reader;
        self.state = call.state;
        self.is_made = false;
        self.taken += got.answer.taken;
        self.given.noise += got.answer.noise;
        self.given.judged += got.answer.judged;
        if let Some(p) = call.payload {
            self.given.frames.push(p);
            self.given.places.push(self.taken - got.answer.began);
            self.given.began.push(got.answer.began);
        }
        Ok(())
    }

    /// A line call. Gives the bytes taken and whether a frame came out.
    fn feed(&mut self, r: &mut Random, tally: &mut Tally, chunk: &[u8], room: usize) -> Result<(usize, bool), String> {
        let before = patterned(r, room);
        let mut buf = before.clone();
        let got = library::feed(self.reader, chunk, &mut buf);
        tally.refusal(got.answer.refusal);
        tally.call("line calls", self.format, self.made(), got.answer.refusal);
        let was = self.reader;
        let input = || told("feed", &was, chunk, room);
        let refusal = match () {
            _ if self.has_unknown_mark() => messages::UNKNOWN,
            _ if self.over_limit() || self.overstates() => 16,
            _ if room < 256 => 13,
            _ if chunk.len() > 65536 => 15,
            _ => 0,
        };
        if refusal != 0 {
            self.refused(refusal, &input, got, &buf, &before)?;
            return Ok((0, false));
        }
        let call = frames::feed(self.format, &self.state, chunk);
        let (taken, is_frame) = (call.taken, call.payload.is_some());
        tally.add("line calls that give a frame", is_frame);
        tally.add("line calls that give a frame with taken bytes behind it", is_frame && !call.state.held.is_empty());
        tally.add("line calls that give a frame that ends with an LF alone", self.format == Format::AnyEnding && is_frame && !call.state.follows);
        tally.optional_in_line(self.format, &self.state, chunk);
        self.answered(call, false, &input, got, &buf, &before)?;
        Ok((taken, is_frame))
    }

    /// A quiet call. Gives whether a frame came out.
    fn quiet(&mut self, r: &mut Random, tally: &mut Tally, room: usize) -> Result<bool, String> {
        let before = patterned(r, room);
        let mut buf = before.clone();
        let got = library::quiet(self.reader, &mut buf);
        tally.refusal(got.answer.refusal);
        tally.call("quiet calls", self.format, self.made(), got.answer.refusal);
        let was = self.reader;
        let input = || told("quiet", &was, &[], room);
        let refusal = match () {
            _ if self.has_unknown_mark() => messages::UNKNOWN,
            _ if self.over_limit() || self.overstates() => 16,
            _ if room < 256 => 13,
            _ => 0,
        };
        if refusal != 0 {
            self.refused(refusal, &input, got, &buf, &before)?;
            return Ok(false);
        }
        let call = frames::quiet(self.format, &self.state);
        let is_frame = call.payload.is_some();
        tally.add("quiet calls that give a frame", is_frame);
        tally.add("quiet calls that give a frame with taken bytes behind it", is_frame && !call.state.held.is_empty());
        tally.optional_in_quiet(self.format, &self.state, &call);
        self.answered(call, !is_frame, &input, got, &buf, &before)?;
        Ok(is_frame)
    }

    /// A line call and a quiet call, each on this state.
    fn each_call(&self, r: &mut Random, tally: &mut Tally, chunk: &[u8]) -> Outcome {
        let room = r.pick(&[0, 255, 256, 257, 300, 600]);
        self.clone().feed(r, tally, chunk, room)?;
        self.clone().quiet(r, tally, room).map(drop)
    }

    /// Now and then a call that is refused, with any chunk.
    fn maybe_refused(&mut self, r: &mut Random, tally: &mut Tally) -> Outcome {
        if !r.once_in(12) {
            return Ok(());
        }
        let short = r.below(256);
        match r.below(4) {
            0 => drop(self.quiet(r, tally, short)?),
            1 if r.once_in(20) => {
                let extra = r.below(5);
                let long = vec![r.pick(&[0xA5, b':', 0]); 65537 + extra];
                let room = r.pick(&[0, 255, 256, 300]);
                self.feed(r, tally, &long, room)?;
            }
            _ => {
                let n = r.below(20);
                let chunk = r.bytes(n);
                self.feed(r, tally, &chunk, short)?;
            }
        }
        Ok(())
    }

    /// A whole chunk: its rest again until more bytes are needed, or now and then only until all of it is taken.
    fn chunk(&mut self, r: &mut Random, tally: &mut Tally, mut rest: &[u8]) -> Outcome {
        let is_split = self.state.held.is_empty() && self.state.meets_optional(self.format, rest);
        tally.optional_apart(self.format, is_split);
        loop {
            self.maybe_refused(r, tally)?;
            let room = 256 + r.below(8);
            let (taken, is_frame) = self.feed(r, tally, rest, room)?;
            rest = &rest[taken..];
            if !is_frame || (rest.is_empty() && r.once_in(4)) {
                return Ok(());
            }
        }
    }

    /// The end of a segment: quiet until empty.
    fn end(&mut self, r: &mut Random, tally: &mut Tally) -> Outcome {
        loop {
            self.maybe_refused(r, tally)?;
            let room = 256 + r.below(8);
            if !self.quiet(r, tally, room)? {
                return Ok(());
            }
        }
    }

    /// Frames and noise since `start` are those of the leftmost rule over the whole segment, whose bytes that were not held then are `rest`. The numbers of
    /// judged bytes that the calls gave, quiet ones too, make up the rule's own count, which is bounded by the segment's length. How far back each frame
    /// began does not depend on the cuts: from behind the furthest byte that the rule has judged to the frame's place. Counted back from behind the bytes
    /// taken, which at a quiet call are all of the segment, it leads to that place.
    fn by_rule(&self, start: &State, rest: &[u8], tally: &mut Tally) -> Outcome {
        let output = start.rule(self.format, rest);
        tally.frames += output.frames.len();
        tally.noise += output.noise;
        tally.judged += output.judged;
        let input = || format!("segment {:?} from {start:?} {}", self.format, hex(rest));
        let size = start.held.len() + rest.len();
        same("payloads of the segment", &input, &self.given.frames, &output.frames)?;
        same("how far back the frames of the segment began", &input, &self.given.began, &output.began)?;
        same("places of the frames of the segment", &input, &self.given.places, &output.places)?;
        same("bytes taken of the segment", &input, self.taken, size)?;
        same("noise of the segment", &input, self.given.noise, output.noise)?;
        same("judged bytes of the segment", &input, self.given.judged, output.judged)?;
        same("judged bytes within their bound", &input, self.given.judged <= self.format.most_judged() * size, true)
    }
}

/// Random cuts of n bytes: none, every byte, short, or any, with some empty chunks.
fn cuts(r: &mut Random, n: usize) -> Vec<usize> {
    let most = match r.below(4) {
        0 => n,
        1 => 1,
        2 => 8,
        _ => 300,
    };
    let mut left = n;
    let mut sizes = Vec::new();
    while left > 0 {
        let size = match most {
            1 => 1,
            _ if most == n => n,
            _ if r.once_in(8) => 0,
            _ => r.within(1, most).min(left),
        };
        sizes.push(size);
        left -= size;
    }
    sizes
}

/// Feeds a segment in cuts, then the quiet. Gives whether an optional byte might have followed when the quiet came.
fn drive(pair: &mut Pair, r: &mut Random, tally: &mut Tally, segment: &[u8]) -> Result<bool, String> {
    let mut rest = segment;
    for size in cuts(r, segment.len()) {
        let (chunk, more) = rest.split_at(size);
        pair.chunk(r, tally, chunk)?;
        rest = more;
    }
    if r.once_in(4) {
        pair.chunk(r, tally, &[])?;
    }
    let is_marked = pair.state.follows && pair.state.held.is_empty();
    pair.end(r, tally)?;
    Ok(is_marked)
}

/// One or two segments through one reader, in random cuts.
pub fn segment(r: &mut Random, tally: &mut Tally) -> Outcome {
    let mut pair = Pair::new(random::format(r));
    tally.case_read(Some(pair.format));
    let mut was_marked = false;
    for _ in 0..r.within(1, 2) {
        let s = random::next_segment(r, pair.format.framing());
        tally.optional_after_quiet(pair.format, was_marked && s.first().copied() == pair.format.optional());
        was_marked = drive(&mut pair, r, tally, &s)?;
        pair.by_rule(&State::default(), &s, tally)?;
        pair.taken = 0;
        pair.given = Output::default();
    }
    Ok(())
}

/// How many bytes a state that holds `count` says were judged: none, all of them, some of them, or more.
fn judged_number(r: &mut Random, count: usize) -> usize {
    match r.below(12) {
        0 => r.pick(&[count.saturating_add(1), 262, 263, 517, 518, 65536, usize::MAX]),
        1..=3 => 0,
        4..=6 => count,
        _ => r.below(count.min(517) + 1),
    }
}

/// What comes behind the held bytes of a state made by hand: nothing, a segment, or the bytes that stood behind them before they were cut off, so that what
/// they begin goes on.
fn behind(r: &mut Random, f: Framing, cut_off: &[u8]) -> Vec<u8> {
    match r.below(3) {
        0 => Vec::new(),
        1 => random::next_segment(r, f),
        _ => cut_off.to_vec(),
    }
}

/// A state made by hand: any bytes up to the limit and above it, with and without the mark, and any number of judged bytes. It gets a call of each kind by
/// itself, and then chunks and the quiet. One whose mark is neither 0 nor 1, whose bytes are over the limit, or whose number of judged bytes is over theirs,
/// gets the call of each kind alone, which is refused.
pub fn made_state(r: &mut Random, tally: &mut Tally) -> Outcome {
    let mut pair = Pair::new(random::format(r));
    tally.case_read(Some(pair.format));
    let limit = pair.format.limit();
    pair.is_made = true;
    pair.reader.held.copy_from_slice(&random::held(r, pair.format.framing()));
    let over = r.within(limit + 1, 600);
    pair.reader.count = match r.below(8) {
        0 => r.pick(&[limit + 1, 517, 518, over, 65536, usize::MAX]),
        1 => r.pick(&[limit - 1, limit]),
        2 | 3 => r.below(3),
        _ => r.below(limit + 1),
    };
    pair.reader.follows = match r.below(16) {
        0 => unknown_number(r, 2),
        1..=5 => 0,
        _ => 1,
    };
    pair.reader.judged = judged_number(r, pair.reader.count);
    tally.add("states whose mark is neither 0 nor 1", pair.has_unknown_mark());
    tally.add("states that say of more bytes than they hold that they were judged", pair.overstates() && !pair.over_limit());
    if pair.has_unknown_mark() || pair.over_limit() || pair.overstates() {
        let n = if r.once_in(50) { 65537 } else { r.below(30) };
        let chunk = r.bytes(n);
        return pair.each_call(r, tally, &chunk);
    }
    let (held, cut_off) = pair.reader.held.split_at(pair.reader.count);
    let rest = behind(r, pair.format.framing(), cut_off);
    let start = State { held: held.to_vec(), follows: pair.reader.follows == 1, judged: pair.reader.judged, place: 0 };
    tally.judged_in_state(pair.format, &start);
    tally.held_in_state(pair.format, &start, &rest);
    pair.state = start.clone();
    pair.taken = start.held.len();
    pair.each_call(r, tally, &rest)?;
    drive(&mut pair, r, tally, &rest)?;
    pair.by_rule(&start, &rest, tally)
}

/// A state whose format number stands for none, with any mark and any number of judged bytes.
pub fn unknown_format(r: &mut Random, tally: &mut Tally) -> Outcome {
    let number = unknown_number(r, 4);
    tally.case_read(None);
    let mut reader = library::new_reader(number);
    same("new reader", &|| format!("format {number}"), reader, Reader { format: number, held: [0; 517], count: 0, follows: 0, judged: 0 })?;
    let bytes = r.bytes(517);
    reader.held.copy_from_slice(&bytes);
    reader.count = r.below(600);
    reader.follows = r.byte();
    reader.judged = judged_number(r, reader.count);
    let (n, room) = (r.below(40), r.pick(&[0, 255, 256, 300]));
    let chunk = r.bytes(n);
    let before = patterned(r, room);
    let mut buf = before.clone();
    let refused = Fed { reader, answer: Answer { refusal: messages::UNKNOWN, ..Default::default() } };
    let fed = library::feed(reader, &chunk, &mut buf);
    tally.refusal(fed.answer.refusal);
    same("state and answer", &|| told("feed", &reader, &chunk, room), fed, refused)?;
    let quieted = library::quiet(reader, &mut buf);
    tally.refusal(quieted.answer.refusal);
    same("state and answer", &|| told("quiet", &reader, &[], room), quieted, refused)?;
    same("buffer", &|| told("feed and quiet", &reader, &chunk, room), buf, before)
}

/// Chunks at the limit of 65,536 bytes and over it, with storms of stray starts in them.
pub fn long_chunk(r: &mut Random, tally: &mut Tally) -> Outcome {
    let mut pair = Pair::new(random::format(r));
    tally.case_read(Some(pair.format));
    let size = r.pick(&[65535, 65536, 65537, 65600]);
    let s = random::storm(r, pair.format.framing(), size);
    if size <= 65536 {
        pair.chunk(r, tally, &s)?;
        pair.end(r, tally)?;
        return pair.by_rule(&State::default(), &s, tally);
    }
    for room in [0, 255, 256] {
        pair.feed(r, tally, &s, room)?;
    }
    pair.chunk(r, tally, &s[..65536])?;
    pair.chunk(r, tally, &s[65536..])?;
    pair.end(r, tally)?;
    pair.by_rule(&State::default(), &s, tally)
}
