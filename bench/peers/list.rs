//! booth-list in safe Rust: reads ASCII frames from standard input and prints a line for each.

mod ascii;
mod find;

use ascii::{decode, judge, Ending, Judged, MAX_FRAME};
use find::find;
use std::io::{self, Read, Write};

const CHUNK: usize = 65_536;

static PAIRS: [[u8; 2]; 256] = {
    let digits = b"0123456789ABCDEF";
    let mut pairs = [[0; 2]; 256];
    let mut b = 0;
    while b < 256 {
        pairs[b] = [digits[b / 16], digits[b % 16]];
        b += 1;
    }
    pairs
};

fn put_hex(to: &mut [u8], bytes: &[u8]) {
    for (pair, &b) in to.chunks_exact_mut(2).zip(bytes) {
        pair.copy_from_slice(&PAIRS[usize::from(b)]);
    }
}

/// Whether bytes are a settings list: known identifiers, none twice, each followed by its data.
fn is_settings(list: &[u8]) -> bool {
    let mut seen = 0u16; // the low four bits tell the known identifiers apart
    let mut at = 0;
    while let Some(&id) = list.get(at) {
        let width = match id {
            0x00 | 0x01 | 0x07 => 4,
            0x02 | 0x0C => 2,
            0x03..=0x06 | 0x08 | 0x09 | 0xFF => 1,
            0x0A => 16,
            _ => return false,
        };
        let mark = 1 << (id & 15);
        if seen & mark != 0 {
            return false;
        }
        seen |= mark;
        at += 1 + width;
    }
    at == list.len()
}

/// Lines, collected in a buffer. The fields of a line are filled in at constant places, so that only whole lines are checked against the buffer's end.
struct Output {
    buffer: Vec<u8>,
    len: usize,
}

impl Output {
    /// Appends a line, or the front of one.
    #[inline]
    fn line<const N: usize>(&mut self, text: &[u8; N]) -> &mut [u8; N] {
        let line = self.buffer[self.len..].first_chunk_mut().expect("no line is twice as long as its frame");
        *line = *text;
        self.len += N;
        line
    }

    fn data(&mut self, data: &[u8]) {
        if data.is_empty() {
            self.line(b"-\n");
            return;
        }
        put_hex(&mut self.buffer[self.len..][..2 * data.len()], data);
        self.len += 2 * data.len();
        self.line(b"\n");
    }

    fn response(&mut self, rest: &[u8]) -> Result<(), u8> {
        match rest {
            [id, 0] => put_hex(&mut self.line(b"response .. fail\n")[9..], &[*id]),
            [id, 1] => put_hex(&mut self.line(b"response .. ok\n")[9..], &[*id]),
            [_, _] => return Err(11),
            _ => return Err(7),
        }
        Ok(())
    }

    fn settings(&mut self, command: u8, rest: &[u8]) -> Result<(), u8> {
        put_hex(&mut self.line(b"settings .. ")[9..], &[command]);
        self.data(rest);
        Ok(())
    }

    /// What the module says of itself.
    fn itself(&mut self, command: u8, rest: &[u8]) -> Result<(), u8> {
        match (command, rest) {
            (0xA1, _) => self.response(rest),
            (0xF0, [1]) | (0xF1, [_, _, _, _, _, _, _, _, _, _, _, _, _, _, _]) | (0xF3, [0xFF]) | (0xF8, [0x11, 0 | 1]) => {
                self.settings(command, rest)
            }
            (0xF3, _) if is_settings(rest) => self.settings(command, rest),
            (0xF3, _) => Err(17),
            (0xF0, [_]) | (0xF8, [_, _]) => Err(11),
            (0xF0 | 0xF1 | 0xF8, _) => Err(7),
            _ => Err(9),
        }
    }

    fn simple(&mut self, address: u8, command: u8, data: &[u8]) -> Result<(), u8> {
        let line = self.line(b"simple .. .. ");
        put_hex(&mut line[7..], &[address]);
        put_hex(&mut line[10..], &[command]);
        self.data(data);
        Ok(())
    }

    fn extended(&mut self, p: &[u8]) -> Result<(), u8> {
        let (head, data) = p.split_first_chunk::<14>().ok_or(7)?;
        if usize::from(u16::from_be_bytes([head[12], head[13]])) != data.len() {
            return Err(12);
        }
        let line = self.line(b"extended .. .. ........ ........ .. ");
        put_hex(&mut line[9..], &head[..1]);
        put_hex(&mut line[12..], &head[2..3]);
        put_hex(&mut line[15..], &head[3..7]);
        put_hex(&mut line[24..], &head[7..11]);
        put_hex(&mut line[33..], &head[11..12]);
        self.data(data);
        Ok(())
    }

    fn standard(&mut self, p: &[u8; 23]) -> Result<(), u8> {
        if p[3] != 0x01 {
            return Err(11);
        }
        let line = self.line(b"standard .. ........ .. .... ..\n");
        put_hex(&mut line[9..], &p[..1]);
        put_hex(&mut line[12..], &p[5..9]);
        put_hex(&mut line[21..], &p[4..5]);
        put_hex(&mut line[24..], &p[13..15]);
        put_hex(&mut line[29..], &p[16..17]);
        Ok(())
    }

    fn remote(&mut self, p: &[u8; 20]) -> Result<(), u8> {
        if p[2..4] != [0x0F, 0x01] {
            return Err(11);
        }
        let line = self.line(b"remote .. ........ .. ....\n");
        put_hex(&mut line[7..], &p[..1]);
        put_hex(&mut line[10..], &p[5..9]);
        put_hex(&mut line[19..], &p[4..5]);
        put_hex(&mut line[22..], &p[13..15]);
        Ok(())
    }

    fn status(&mut self, p: &[u8]) -> Result<(), u8> {
        if let Ok(p) = p.try_into() {
            self.standard(p)
        } else if let Ok(p) = p.try_into() {
            self.remote(p)
        } else {
            Err(7)
        }
    }

    /// Appends the line for a payload, if it is not refused.
    fn message(&mut self, p: &[u8]) -> Result<(), u8> {
        match p {
            [] | [_] => Err(7),
            [0xDB, command, rest @ ..] => self.itself(*command, rest),
            [101..=119 | 121.., ..] => Err(8),
            [address, command @ ..=0x7F, data @ ..] => self.simple(*address, *command, data),
            [_, 0x81, ..] => self.status(p),
            [_, 0xA0, ..] => self.extended(p),
            _ => Err(9),
        }
    }

    fn payload(&mut self, p: &[u8]) {
        match self.message(p) {
            Ok(()) => (),
            Err(refusal @ ..=9) => self.line(b"refused .\n")[8] = b'0' + refusal,
            Err(refusal) => self.line(b"refused 1.\n")[9] = b'0' + refusal - 10,
        }
    }

    fn write_to(&mut self, mut to: impl Write) -> io::Result<()> {
        to.write_all(&self.buffer[..self.len])?;
        self.len = 0;
        Ok(())
    }
}

/// Prints the frames in `s` and gives the number of bytes that are decided, and of those that are in frames.
fn print_frames(s: &[u8], out: &mut Output) -> (usize, usize) {
    let mut payload = [0; MAX_FRAME / 2];
    let mut framed = 0;
    let mut at = 0;
    while at < s.len() {
        if s[at] != b':' {
            let Some(skipped) = find(b':', &s[at..]) else { return (s.len(), framed) };
            at += skipped;
        }
        match judge(&s[at..], Ending::CrLf, |digits| decode(digits, &mut payload)) {
            Judged::Undecided => break,
            // The next place is one behind the colon, but up to the failing byte stand digits or a CR, which start no frame.
            Judged::Failed(judged) => at += judged - 1,
            Judged::Frame { used, len } => {
                out.payload(&payload[..len]);
                framed += used;
                at += used;
            }
        }
    }
    (at, framed)
}

fn main() -> io::Result<()> {
    let mut input = vec![0; MAX_FRAME + CHUNK];
    let mut out = Output { buffer: vec![0; 2 * input.len()], len: 0 };
    let mut stdin = io::stdin().lock();
    let mut stdout = io::stdout().lock();
    let (mut held, mut noise) = (0, 0);
    while let Ok(got @ 1..) = stdin.read(&mut input[held..held + CHUNK]) {
        let n = held + got;
        let (decided, framed) = print_frames(&input[..n], &mut out);
        out.write_to(&mut stdout)?;
        input.copy_within(decided..n, 0);
        held = n - decided;
        noise += decided - framed;
    }
    // What is held is a start and its digits, among which there is no other start: at the end it is noise.
    writeln!(stdout, "noise {}", noise + held)
}
