//! The payloads of documents 01 and 02: what they mean in each direction, and how a message becomes a payload. Written from the text alone.
use crate::boundary::{FromModule, Information, Options, Setting, Status, ToModule};

/// The answer for a format, a framing or a kind that stands for none. It is the boundary's own number, not one of the documents.
pub const UNKNOWN: u8 = 255;

fn plain(address: u8) -> bool {
    matches!(address, 0 | 1..=100 | 120)
}

fn is_extended(address: u32) -> bool {
    matches!(address, 0..=0xFFFF | 0x8000_0000..=0xFFFF_FFFE)
}

fn retry(byte: u8) -> bool {
    matches!(byte, 0x00..=0x0F | 0x81..=0x8F)
}

fn word(p: &[u8], at: usize) -> u16 {
    u16::from_be_bytes([p[at], p[at + 1]])
}

fn long(p: &[u8], at: usize) -> u32 {
    u32::from_be_bytes([p[at], p[at + 1], p[at + 2], p[at + 3]])
}

/// An option string that begins at `at`: the options, and the place behind FF.
fn options(p: &[u8], mut at: usize) -> Option<(Options, usize)> {
    let mut given = [false; 9];
    let mut argument = [0u16; 9];
    loop {
        let id = *p.get(at)? as usize;
        at += 1;
        if id == 0xFF {
            break;
        }
        if id == 0 || id > 8 || given[id] {
            return None;
        }
        given[id] = true;
        let size = [0, 0, 1, 2, 2, 2, 0, 0, 0][id];
        for _ in 0..size {
            argument[id] = argument[id] * 256 + *p.get(at)? as u16;
            at += 1;
        }
        if id == 2 && !retry(argument[2] as u8) {
            return None;
        }
    }
    let has = |id: usize| given[id] as u8;
    let read = Options {
        mac_ack: has(1),
        has_retries: has(2),
        retries: argument[2] as u8,
        has_lower_delay: has(3),
        lower_delay: argument[3],
        has_upper_delay: has(4),
        upper_delay: argument[4],
        has_interval: has(5),
        interval: argument[5],
        parallel: has(6),
        no_response: has(7),
        sleep: has(8),
    };
    Some((read, at))
}

/// An option string in ascending order.
fn option_bytes(o: &Options) -> Vec<u8> {
    let mut out = Vec::new();
    let mut put = |has: u8, bytes: &[u8]| {
        if has != 0 {
            out.extend_from_slice(bytes);
        }
    };
    let two = |id: u8, v: u16| [id, (v >> 8) as u8, v as u8];
    put(o.mac_ack, &[1]);
    put(o.has_retries, &[2, o.retries]);
    put(o.has_lower_delay, &two(3, o.lower_delay));
    put(o.has_upper_delay, &two(4, o.upper_delay));
    put(o.has_interval, &two(5, o.interval));
    put(o.parallel, &[6]);
    put(o.no_response, &[7]);
    put(o.sleep, &[8]);
    out.push(0xFF);
    out
}

/// Sheet 000's identifiers, each with the width of its data.
pub const WIDTHS: [(u8, usize); 13] = [
    (0x00, 4),
    (0x01, 4),
    (0x02, 2),
    (0x03, 1),
    (0x04, 1),
    (0x05, 1),
    (0x06, 1),
    (0x07, 4),
    (0x08, 1),
    (0x09, 1),
    (0x0A, 16),
    (0x0C, 2),
    (0xFF, 1),
];

pub fn width(id: u8) -> Option<usize> {
    WIDTHS.iter().find(|w| w.0 == id).map(|w| w.1)
}

/// The settings of a list in their order, or 17: an identifier that is unknown, repeated or cut.
fn settings(list: &[u8]) -> Result<Vec<Setting>, u8> {
    let mut found: Vec<Setting> = Vec::new();
    let mut at = 0;
    while at < list.len() {
        let identifier = list[at];
        let len = width(identifier).ok_or(17)?;
        if found.iter().any(|s| s.identifier == identifier) || list.len() - at - 1 < len {
            return Err(17);
        }
        found.push(Setting { refusal: 0, is_found: 1, identifier, start: at + 1, len });
        at += 1 + len;
    }
    Ok(found)
}

/// The setting of a list with this index, counted from 0.
pub fn setting_at(list: &[u8], index: usize) -> Setting {
    match settings(list) {
        Ok(found) => found.get(index).copied().unwrap_or_default(),
        Err(refusal) => Setting { refusal, ..Default::default() },
    }
}

pub fn read_to_module(p: &[u8]) -> ToModule {
    to_module(p).unwrap_or_else(|refusal| ToModule { refusal, ..Default::default() })
}

fn to_module(p: &[u8]) -> Result<ToModule, u8> {
    if p.len() < 2 || p.len() > 256 {
        return Err(7);
    }
    let blank = ToModule { address: p[0], ..Default::default() };
    match (p[0], p[1]) {
        (0xDB, 0xF2) => settings(&p[2..]).map(|_| ToModule { kind: 5, start: 2, ..Default::default() }),
        (0xDB, c) if !is_setup(c) => Err(9),
        (0xDB, _) if p.len() != 2 => Err(7),
        (0xDB, c) => Ok(ToModule { kind: 6, command: c, ..Default::default() }),
        (0x80, 0xA0) => extended_to(p, ToModule { kind: 3, address: 0, ..blank }, 7),
        (0x80, _) => Err(9),
        (a, _) if !plain(a) => Err(8),
        (_, 0x00..=0x7F) => Ok(ToModule { kind: 1, command: p[1], start: 2, ..blank }),
        (_, 0x80) => change(p, ToModule { kind: 4, ..blank }),
        (_, 0xA0) => extended_to(p, ToModule { kind: 2, ..blank }, 3),
        _ => Err(9),
    }
}

/// The commands to the module itself with nothing after them.
fn is_setup(command: u8) -> bool {
    matches!(command, 0xF0 | 0xF1 | 0xF3 | 0xFD | 0xFE | 0xFF)
}

fn extended_to(p: &[u8], blank: ToModule, at: usize) -> Result<ToModule, u8> {
    if p.len() < at {
        return Err(7);
    }
    let to = if at == 7 { long(p, 3) } else { 0 };
    if !is_extended(to) {
        return Err(8);
    }
    let (options, start) = options(p, at).ok_or(10)?;
    Ok(ToModule { response_id: p[2], extended: to, options, start, ..blank })
}

fn change(p: &[u8], blank: ToModule) -> Result<ToModule, u8> {
    if p.len() != 15 {
        return Err(7);
    }
    if p[2] != 1 || p[7..].iter().any(|&b| b != 0) {
        return Err(11);
    }
    Ok(ToModule { signals: word(p, 3), mask: word(p, 5), ..blank })
}

pub fn read_from_module(p: &[u8]) -> FromModule {
    from_module(p).unwrap_or_else(|refusal| FromModule { refusal, ..Default::default() })
}

fn from_module(p: &[u8]) -> Result<FromModule, u8> {
    if p.len() < 2 || p.len() > 256 {
        return Err(7);
    }
    let blank = FromModule { address: p[0], ..Default::default() };
    match (p[0], p[1]) {
        (0xDB, 0xA1) => response(p),
        (0xDB, _) => itself(p),
        (a, _) if !plain(a) => Err(8),
        (_, 0x00..=0x7F) => Ok(FromModule { kind: 1, command: p[1], start: 2, ..blank }),
        (_, 0x81) => status(p, blank),
        (_, 0xA0) => extended_from(p, blank),
        _ => Err(9),
    }
}

fn response(p: &[u8]) -> Result<FromModule, u8> {
    if p.len() != 4 {
        return Err(7);
    }
    if p[3] > 1 {
        return Err(11);
    }
    Ok(FromModule { kind: 3, response_id: p[2], result: p[3], ..Default::default() })
}

/// A report of the module on itself, or its settings.
fn itself(p: &[u8]) -> Result<FromModule, u8> {
    let blank = FromModule { kind: 7, command: p[1], ..Default::default() };
    match (p[1], p.len()) {
        (0xF0, 3) if p[2] != 0x01 => Err(11),
        (0xF0, 3) => Ok(blank),
        (0xF1, 17) => {
            let (application, version, serial) = (long(p, 2), long(p, 6), long(p, 11));
            let information = Information { application, version, device: p[10], serial, silent: p[15], network: p[16] };
            Ok(FromModule { information, ..blank })
        }
        (0xF3, 3) if p[2] == 0xFF => Ok(blank),
        (0xF3, _) => settings(&p[2..]).map(|_| FromModule { kind: 6, start: 2, ..Default::default() }),
        (0xF8, 4) if p[2] != 0x11 || p[3] > 1 => Err(11),
        (0xF8, 4) => Ok(FromModule { result: p[3], ..blank }),
        (0xF0 | 0xF1 | 0xF8, _) => Err(7),
        _ => Err(9),
    }
}

fn extended_from(p: &[u8], blank: FromModule) -> Result<FromModule, u8> {
    if p.len() < 14 {
        return Err(7);
    }
    if word(p, 12) as usize != p.len() - 14 {
        return Err(12);
    }
    Ok(FromModule { kind: 2, response_id: p[2], source: long(p, 3), destination: long(p, 7), lqi: p[11], start: 14, ..blank })
}

fn status(p: &[u8], blank: FromModule) -> Result<FromModule, u8> {
    if p.len() != 23 && p.len() != 20 {
        return Err(7);
    }
    if p[3] != 1 || (p.len() == 20 && p[2] != 0x0F) {
        return Err(11);
    }
    let both = Status { serial: long(p, 5), destination: p[9], time: word(p, 10), relays: p[12], ..Default::default() };
    if p.len() == 20 {
        let status = Status { signals: word(p, 13), mask: word(p, 15), interrupts: word(p, 17), unused: p[19], ..both };
        return Ok(FromModule { kind: 5, lqi: p[4], status, ..blank });
    }
    let status = Status {
        identifier: p[2],
        supply: word(p, 13),
        unused: p[15],
        di: p[16],
        di_changed: p[17],
        ad1: p[18],
        ad2: p[19],
        ad3: p[20],
        ad4: p[21],
        correction: p[22],
        ..both
    };
    Ok(FromModule { kind: 4, lqi: p[4], status, ..blank })
}

/// The payload of a message to the module with its data, or the refusal: 8, 9, 10, 17.
pub fn request(m: &ToModule, data: &[u8]) -> Result<Vec<u8>, u8> {
    let mut out = match m.kind {
        1 if !plain(m.address) => return Err(8),
        1 if m.command >= 0x80 => return Err(9),
        1 => vec![m.address, m.command],
        2 if !plain(m.address) => return Err(8),
        2 => vec![m.address, 0xA0, m.response_id],
        3 if !is_extended(m.extended) => return Err(8),
        3 => [&[0x80, 0xA0, m.response_id], &m.extended.to_be_bytes()[..]].concat(),
        5 => settings(data).map(|_| vec![0xDB, 0xF2])?,
        _ => return Err(UNKNOWN),
    };
    if m.kind == 2 || m.kind == 3 {
        if m.options.has_retries != 0 && !retry(m.options.retries) {
            return Err(10);
        }
        out.extend(option_bytes(&m.options));
    }
    out.extend_from_slice(data);
    Ok(out)
}

/// The payload of a change of outputs, or the refusal.
pub fn output_change(m: &ToModule) -> Result<Vec<u8>, u8> {
    if m.kind != 4 {
        return Err(UNKNOWN);
    }
    if !plain(m.address) {
        return Err(8);
    }
    Ok([&[m.address, 0x80, 0x01], &m.signals.to_be_bytes()[..], &m.mask.to_be_bytes()[..], &[0; 8]].concat())
}

/// The payload of a command to the module itself, or the refusal: 9.
pub fn setup(m: &ToModule) -> Result<Vec<u8>, u8> {
    match m.kind {
        6 if is_setup(m.command) => Ok(vec![0xDB, m.command]),
        6 => Err(9),
        _ => Err(UNKNOWN),
    }
}

/// The payload of a message from the module with its data, or the refusal: 8, 9, 17. M is worked out from the data.
pub fn delivery(m: &FromModule, data: &[u8]) -> Result<Vec<u8>, u8> {
    if m.kind == 6 {
        return settings(data).map(|_| [&[0xDB, 0xF3], data].concat());
    }
    if m.kind != 1 && m.kind != 2 {
        return Err(UNKNOWN);
    }
    if !plain(m.address) {
        return Err(8);
    }
    if m.kind == 1 {
        if m.command >= 0x80 {
            return Err(9);
        }
        return Ok([&[m.address, m.command], data].concat());
    }
    let size = (data.len() as u16).to_be_bytes();
    let (from, to) = (m.source.to_be_bytes(), m.destination.to_be_bytes());
    Ok([&[m.address, 0xA0, m.response_id], &from[..], &to[..], &[m.lqi], &size[..], data].concat())
}

/// The payload of a message from the module without data, or the refusal: 8, 9, 11.
pub fn notice(m: &FromModule) -> Result<Vec<u8>, u8> {
    let s = &m.status;
    let (serial, time) = (s.serial.to_be_bytes(), s.time.to_be_bytes());
    match m.kind {
        3 if m.result > 1 => Err(11),
        3 => Ok(vec![0xDB, 0xA1, m.response_id, m.result]),
        4 | 5 if !plain(m.address) => Err(8),
        4 => {
            let head = [m.address, 0x81, s.identifier, 0x01, m.lqi];
            let tail = [s.unused, s.di, s.di_changed, s.ad1, s.ad2, s.ad3, s.ad4, s.correction];
            Ok([&head[..], &serial, &[s.destination], &time, &[s.relays], &s.supply.to_be_bytes(), &tail].concat())
        }
        5 => {
            let head = [m.address, 0x81, 0x0F, 0x01, m.lqi];
            let words = [s.signals.to_be_bytes(), s.mask.to_be_bytes(), s.interrupts.to_be_bytes()].concat();
            Ok([&head[..], &serial, &[s.destination], &time, &[s.relays], &words, &[s.unused]].concat())
        }
        7 => report(m),
        _ => Err(UNKNOWN),
    }
}

/// The payload of a report of the module on itself, or the refusal: 9, 11.
fn report(m: &FromModule) -> Result<Vec<u8>, u8> {
    let i = &m.information;
    let (application, version, serial) = (i.application.to_be_bytes(), i.version.to_be_bytes(), i.serial.to_be_bytes());
    match m.command {
        0xF0 => Ok(vec![0xDB, 0xF0, 0x01]),
        0xF1 => Ok([&[0xDB, 0xF1], &application[..], &version, &[i.device], &serial, &[i.silent, i.network]].concat()),
        0xF3 => Ok(vec![0xDB, 0xF3, 0xFF]),
        0xF8 if m.result > 1 => Err(11),
        0xF8 => Ok(vec![0xDB, 0xF8, 0x11, m.result]),
        _ => Err(9),
    }
}
