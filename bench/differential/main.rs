//! Runs the library across its boundary and a model of documents 01 and 02 on the same random input, and reports the first difference.
//! Use: differential [SEED [CASES [FAMILY INDEX]]]. CASES is the least number of cases in all; FAMILY and INDEX run one case again.
mod boundary;
mod compare;
mod frames;
mod messages;
mod random;

use boundary::{Reader, Reading};
use frames::{Call, Format, Framing, State};
use random::Random;
use std::collections::BTreeMap;

/// What was seen on the way: of the cases of each family how many read in each format, and in none, and how many wrote in each framing, and in none; of states
/// and calls, which the key names in two parts, how many were in each format; and all the rest.
#[derive(Default)]
pub struct Tally {
    family: &'static str,
    reading: BTreeMap<&'static str, [usize; 5]>,
    writing: BTreeMap<&'static str, [usize; 3]>,
    formats: BTreeMap<(&'static str, &'static str), [usize; 4]>,
    refusals: BTreeMap<u8, usize>,
    calls: BTreeMap<&'static str, usize>,
    pub to_kinds: [usize; 8],
    pub from_kinds: [usize; 8],
    pub frames: usize,
    pub noise: usize,
    pub judged: usize,
}

impl Tally {
    /// A case that reads in a format, or in none.
    pub fn case_read(&mut self, format: Option<Format>) {
        self.reading.entry(self.family).or_default()[format.map_or(4, |f| f as usize)] += 1;
    }

    /// A case that writes in a framing, or in none.
    pub fn case_written(&mut self, framing: Option<Framing>) {
        self.writing.entry(self.family).or_default()[framing.map_or(2, |f| f as usize)] += 1;
    }

    fn in_format(&mut self, format: Format, key: (&'static str, &'static str), seen: bool) {
        self.formats.entry(key).or_default()[format as usize] += seen as usize;
    }

    /// A line or quiet call, and what it was given where its state was made by hand.
    pub fn call(&mut self, kind: &'static str, format: Format, made: Option<&Reader>, refusal: u8) {
        self.in_format(format, (kind, ""), true);
        let Some(state) = made else { return };
        let is_answered = refusal == 0;
        let has_mark = is_answered && state.follows == 1;
        let has_judged = is_answered && state.judged > 0;
        self.in_format(format, (kind, "on states made by hand"), true);
        self.in_format(format, (kind, "on states made by hand, answered, judged number over 0"), has_judged);
        self.in_format(format, (kind, "on states made by hand, answered, mark set"), has_mark);
        self.in_format(format, (kind, "on states made by hand, answered, mark set, judged number over 0"), has_mark && has_judged);
        self.in_format(format, (kind, "on states made by hand, refused"), !is_answered);
    }

    /// What a state made by hand holds, and what comes of it with the bytes behind it.
    pub fn held_in_state(&mut self, format: Format, state: &State, rest: &[u8]) {
        let alone = state.rule(format, &[]);
        let joined = state.rule(format, rest);
        let is_finished = |place: &usize| *place < state.held.len() && !alone.places.contains(place);
        self.in_format(format, ("states made by hand", "that hold two frames or more"), alone.frames.len() > 1);
        self.in_format(format, ("states made by hand", "that hold a frame and noise"), !alone.frames.is_empty() && alone.noise > 0);
        self.in_format(
            format,
            ("states made by hand", "that hold the start of a frame that ends behind them"),
            joined.places.iter().any(is_finished),
        );
    }

    pub fn refusal(&mut self, number: u8) {
        *self.refusals.entry(number).or_default() += 1;
    }

    pub fn add(&mut self, what: &'static str, seen: bool) {
        *self.calls.entry(what).or_default() += seen as usize;
    }

    /// A single read of `s`, told apart by its format.
    pub fn single_read(&mut self, format: Option<Format>, s: &[u8], reading: Reading) {
        let is_frame = reading.refusal == 0;
        let has_footer = reading.used == reading.len + 6;
        self.add("single reads of a frame with an optional footer", format == Some(Format::Optional) && is_frame && has_footer);
        self.add("single reads of a frame without one", format == Some(Format::Optional) && is_frame && !has_footer);
        self.add("single reads of a frame with a required footer", format == Some(Format::Required) && is_frame);
        self.add("single reads of an ASCII frame", format == Some(Format::Strict) && is_frame);
        self.add("single reads with a required footer refused with 5", format == Some(Format::Required) && reading.refusal == 5);
        self.add("single reads in ASCII refused with 5", format == Some(Format::Strict) && reading.refusal == 5);
        if format == Some(Format::AnyEnding) {
            self.single_read_of_any_ending(s, reading);
        }
    }

    fn single_read_of_any_ending(&mut self, s: &[u8], reading: Reading) {
        let is_frame = reading.refusal == 0;
        let has_both = reading.used == 2 * reading.len + 5;
        let end = s.iter().skip(1).take(515).find(|b| !matches!(b, b'0'..=b'9' | b'A'..=b'F'));
        let is_cr = end == Some(&0x0D);
        let is_lf = end == Some(&0x0A);
        self.add("single reads with any ending of a frame with CR LF", is_frame && is_cr && has_both);
        self.add("single reads with any ending of a frame with CR", is_frame && is_cr && !has_both);
        self.add("single reads with any ending of a frame with LF", is_frame && is_lf);
        self.add("single reads with any ending refused with 3 at LF", is_lf && reading.refusal == 3);
        self.add("single reads with any ending refused with 4 at LF", is_lf && reading.refusal == 4);
        self.add("single reads with any ending refused with 6", reading.refusal == 6);
    }

    /// What a line call makes of the mark and of an optional byte.
    pub fn optional_in_line(&mut self, format: Format, state: &State, chunk: &[u8]) {
        let words = Words::of(format);
        let is_held = !state.held.is_empty();
        let meets = state.meets_optional(format, chunk);
        let has_mark = state.follows && format.optional().is_some();
        let nothing_came = !is_held && chunk.is_empty();
        let second = state.held.iter().chain(chunk).nth(1);
        self.add(words.taken, meets && !is_held);
        self.add(words.dropped, meets && is_held);
        self.add(words.doubled, meets && second.copied() == format.optional());
        self.add(words.kept, has_mark && nothing_came);
        self.add(words.ended, has_mark && !meets && !nothing_came);
        self.add("marks without a meaning", state.follows && !has_mark);
    }

    /// The same of a quiet call.
    pub fn optional_in_quiet(&mut self, format: Format, state: &State, call: &Call) {
        let words = Words::of(format);
        self.add(words.dropped_by_quiet, state.meets_optional(format, &[]));
        self.add(words.behind_quiet, call.payload.is_some() && call.state.meets_optional(format, &[]));
    }

    /// What a state made by hand says of the bytes judged at its first held place.
    pub fn judged_in_state(&mut self, format: Format, state: &State) {
        let meets = state.meets_optional(format, &[]);
        let counted = state.counted_before(format, &[]);
        self.add("states of whose bytes some were judged, but not all", 0 < state.judged && state.judged < state.held.len());
        self.add("states that say that more bytes were judged than the rule judges there", !meets && counted < state.judged);
        self.add("states whose bytes were judged at the place of a held optional one", meets && 0 < state.judged);
    }

    pub fn optional_apart(&mut self, format: Format, seen: bool) {
        self.add(Words::of(format).apart, seen);
    }

    pub fn optional_after_quiet(&mut self, format: Format, seen: bool) {
        self.add(Words::of(format).after_quiet, seen);
    }
}

/// What is counted of optional bytes, in words.
struct Words {
    taken: &'static str,
    dropped: &'static str,
    doubled: &'static str,
    kept: &'static str,
    ended: &'static str,
    dropped_by_quiet: &'static str,
    behind_quiet: &'static str,
    apart: &'static str,
    after_quiet: &'static str,
}

impl Words {
    /// The words for a format: where it has no optional byte, those for footers, of which none is seen there.
    fn of(format: Format) -> &'static Words {
        match format {
            Format::AnyEnding => &LINE_FEEDS,
            Format::Optional | Format::Required | Format::Strict => &FOOTERS,
        }
    }
}

static FOOTERS: Words = Words {
    taken: "footers taken from a chunk",
    dropped: "held footers dropped by a line call",
    doubled: "footers with a second one behind them",
    kept: "marks of a footer kept by an empty chunk",
    ended: "marks of a footer that another byte ends",
    dropped_by_quiet: "held footers dropped by a quiet call",
    behind_quiet: "frames of a quiet with a held footer behind them",
    apart: "footers that a chunk's end parts from their frames",
    after_quiet: "footers after a quiet, which are noise",
};

static LINE_FEEDS: Words = Words {
    taken: "LFs taken from a chunk",
    dropped: "held LFs dropped by a line call",
    doubled: "LFs with a second one behind them",
    kept: "marks of an LF kept by an empty chunk",
    ended: "marks of an LF that another byte ends",
    dropped_by_quiet: "held LFs dropped by a quiet call",
    behind_quiet: "frames of a quiet with a held LF behind them",
    apart: "LFs that a chunk's end parts from their frames",
    after_quiet: "LFs after a quiet, which are noise",
};

type Case = fn(&mut Random, &mut Tally) -> compare::Outcome;

/// The families, with the usual number of cases of each. Another number of cases is shared out likewise.
const FAMILIES: [(&str, Case, u64); 9] = [
    ("single reads", compare::single_read, 700_000),
    ("bare payloads written", compare::single_write, 100_000),
    ("payloads read in both directions", compare::payload, 300_000),
    ("messages written", compare::message_write, 250_000),
    ("segments through a reader", compare::segment, 300_000),
    ("states made by hand", compare::made_state, 200_000),
    ("states of no format", compare::unknown_format, 5_000),
    ("chunks about 65,536 bytes", compare::long_chunk, 100),
    ("settings lists walked", compare::walk, 100_000),
];

fn run(seed: u64, family: usize, indices: std::ops::Range<u64>, tally: &mut Tally) {
    let (name, case, _) = FAMILIES[family];
    tally.family = name;
    for index in indices {
        if let Err(difference) = case(&mut Random::new(seed, family as u64, index), tally) {
            println!("DIFFERENCE in seed {seed}, family {family} ({name}), index {index}\n{difference}");
            std::process::exit(1);
        }
    }
}

/// The headings of the formats, in the order of `Format::ALL`.
const FORMATS: [&str; 4] = ["binary, 04 optional", "binary, 04 required", "ASCII, CR LF", "ASCII, any ending"];

/// A row of a table: what was counted, each count, and their sum.
fn row(what: &str, counts: &[usize]) {
    let cells: Vec<String> = counts.iter().map(usize::to_string).collect();
    println!("| {what} | {} | {} |", cells.join(" | "), counts.iter().sum::<usize>());
}

fn head(what: &str, headings: &[&str]) {
    println!("\n| {what} | {} | all |\n|---|{}", headings.join(" | "), "---|".repeat(headings.len() + 1));
}

fn tables(tally: &Tally) {
    head("cases that read", &[&FORMATS[..], &["no format"]].concat());
    tally.reading.iter().for_each(|(what, counts)| row(what, counts));
    row("all of these", &[0, 1, 2, 3, 4].map(|i| tally.reading.values().map(|counts| counts[i]).sum()));
    head("cases that write", &["binary", "ASCII", "no framing"]);
    tally.writing.iter().for_each(|(what, counts)| row(what, counts));
    head("states and calls", &FORMATS);
    tally.formats.iter().for_each(|((kind, what), counts)| row(format!("{kind} {what}").trim(), counts));
    println!();
}

fn report(tally: &Tally) {
    for (what, count) in &tally.calls {
        println!("  {what}: {count}");
    }
    println!("  segments by the leftmost rule: {} frames, {} bytes of noise, {} bytes judged", tally.frames, tally.noise, tally.judged);
    println!("  kinds read to the module (refused, simple, extended, to an extended address, change, settings, setup): {:?}", &tally.to_kinds[..7]);
    println!("  kinds read from the module (refused, simple, extended, response, standard, remote, settings, report): {:?}", tally.from_kinds);
    for (number, count) in &tally.refusals {
        println!("  refusal {number}: {count}");
    }
    tables(tally);
}

/// Something that is counted and was never seen.
fn unseen(tally: &Tally) -> Option<String> {
    let refusal = (1..=17).find(|n| !tally.refusals.contains_key(n)).map(|n| format!("refusal {n}"));
    let call = tally.calls.iter().find(|x| *x.1 == 0).map(|x| x.0.to_string());
    let in_format = tally.formats.iter().find(|x| x.1.contains(&0)).map(|((kind, what), _)| format!("{kind} {what} in one of the formats"));
    refusal.or(call).or(in_format)
}

fn main() {
    let args: Vec<u64> = std::env::args().skip(1).map(|a| a.parse().expect("a number")).collect();
    let usual: u64 = FAMILIES.iter().map(|f| f.2).sum();
    let seed = args.first().copied().unwrap_or(1);
    let cases = args.get(1).copied().unwrap_or(usual);
    let mut tally = Tally::default();
    if let [_, _, family, index] = args[..] {
        run(seed, family as usize, index..index + 1, &mut tally);
        println!("no difference in seed {seed}, family {family}, index {index}");
        return;
    }
    println!("seed {seed}, {cases} cases or a few more");
    let mut total = 0;
    for (family, (name, _, count)) in FAMILIES.iter().enumerate() {
        let count = (count * cases).div_ceil(usual);
        run(seed, family, 0..count, &mut tally);
        println!("{name}: {count}");
        total += count;
    }
    report(&tally);
    println!("{total} cases, no difference");
    if let Some(what) = unseen(&tally) {
        println!("never seen: {what}");
        std::process::exit(1);
    }
}
