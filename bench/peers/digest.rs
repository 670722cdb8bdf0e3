//! digest FORMAT SIZE: feeds standard input to a line reader in chunks of SIZE bytes and prints what came out of it. FORMAT is binary, where the footer may
//! be missing, required, where it may not, ascii, where frames end with CR LF, or any, where they end with CR, LF or both.

mod ascii;
mod find;
mod reader;

use ascii::Ending;
use reader::{FeedAnswer, Footer, Format, Framing, QuietAnswer, Reader};
use std::io::{self, Read};

#[derive(Default)]
struct Totals {
    frames: usize,
    noise: usize,
    digest: u64,
}

impl Totals {
    /// A byte at place i counts i + 1 times: as often as it is in the sum of a suffix. So written, the digest costs the same in every language, as no
    /// compiler makes vector code of it.
    fn add(&mut self, payload: &[u8]) {
        let (mut suffix, mut sum) = (0, 0);
        for &b in payload.iter().rev() {
            suffix += u64::from(b);
            sum += suffix;
        }
        self.frames += 1;
        self.digest = self.digest.rotate_left(5) ^ sum;
    }

    fn feed_all(&mut self, mut reader: Reader, mut chunk: &[u8], buf: &mut [u8]) -> Reader {
        loop {
            let fed = reader.feed(chunk, buf);
            reader = fed.reader;
            match fed.answer {
                FeedAnswer::Frame { taken, noise, len } => {
                    self.noise += noise;
                    self.add(&buf[..len]);
                    chunk = &chunk[taken..];
                }
                FeedAnswer::NeedsMore { noise, .. } => {
                    self.noise += noise;
                    return reader;
                }
                FeedAnswer::Refused(_) => unreachable!("state, buffer and chunk are in range"),
            }
        }
    }

    fn quiet_all(&mut self, mut reader: Reader, buf: &mut [u8]) {
        loop {
            let quieted = reader.quiet(buf);
            reader = quieted.reader;
            match quieted.answer {
                QuietAnswer::Frame { noise, len } => {
                    self.noise += noise;
                    self.add(&buf[..len]);
                }
                QuietAnswer::Empty { noise } => {
                    self.noise += noise;
                    return;
                }
                QuietAnswer::Refused(_) => unreachable!("state and buffer are in range"),
            }
        }
    }
}

fn main() {
    let args: Vec<String> = std::env::args().collect();
    let usage = "usage: digest binary|required|ascii|any SIZE";
    let [_, format, size] = &args[..] else { panic!("{usage}") };
    let mut reader = match &format[..] {
        "binary" => Reader::new(Framing::Binary),
        "required" => Reader::open(Format::Binary(Footer::Required)),
        "ascii" => Reader::new(Framing::Ascii),
        "any" => Reader::open(Format::Ascii(Ending::Any)),
        _ => panic!("{usage}"),
    };
    let size: usize = size.parse().expect(usage);
    let mut totals = Totals::default();
    let mut buf = [0; Reader::MAX_PAYLOAD];
    let mut input = vec![0; Reader::MAX_CHUNK];
    let mut stdin = io::stdin().lock();
    while let Ok(got @ 1..) = stdin.read(&mut input) {
        for chunk in input[..got].chunks(size) {
            reader = totals.feed_all(reader, chunk, &mut buf);
        }
    }
    totals.quiet_all(reader, &mut buf);
    println!("frames {}\nnoise {}\ndigest {:016X}", totals.frames, totals.noise, totals.digest);
}
