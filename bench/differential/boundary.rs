//! The functions of libboundary.a, declared for Rust. A slice crosses as a pointer and a length. A `bool` is declared as a `u8`, so that any other value
//! than 0 and 1 is seen as a difference.

#[repr(C)]
#[derive(Clone, Copy, Debug, PartialEq)]
pub struct Reading {
    pub refusal: u8,
    pub used: usize,
    pub len: usize,
}

#[repr(C)]
#[derive(Clone, Copy, Debug, PartialEq)]
pub struct Writing {
    pub refusal: u8,
    pub len: usize,
}

#[repr(C)]
#[derive(Clone, Copy, Debug, PartialEq)]
pub struct Reader {
    pub format: u8,
    pub held: [u8; 517],
    pub count: usize,
    pub follows: u8,
    pub judged: usize,
}

#[repr(C)]
#[derive(Clone, Copy, Debug, Default, PartialEq)]
pub struct Answer {
    pub refusal: u8,
    pub is_frame: u8,
    pub taken: usize,
    pub noise: usize,
    pub judged: usize,
    pub len: usize,
    pub began: usize,
}

#[repr(C)]
#[derive(Clone, Copy, Debug, PartialEq)]
pub struct Fed {
    pub reader: Reader,
    pub answer: Answer,
}

#[repr(C)]
#[derive(Clone, Copy, Debug, Default, PartialEq)]
pub struct Options {
    pub mac_ack: u8,
    pub has_retries: u8,
    pub retries: u8,
    pub has_lower_delay: u8,
    pub lower_delay: u16,
    pub has_upper_delay: u8,
    pub upper_delay: u16,
    pub has_interval: u8,
    pub interval: u16,
    pub parallel: u8,
    pub no_response: u8,
    pub sleep: u8,
}

#[repr(C)]
#[derive(Clone, Copy, Debug, Default, PartialEq)]
pub struct ToModule {
    pub kind: u8,
    pub refusal: u8,
    pub address: u8,
    pub command: u8,
    pub response_id: u8,
    pub extended: u32,
    pub options: Options,
    pub signals: u16,
    pub mask: u16,
    pub start: usize,
}

#[repr(C)]
#[derive(Clone, Copy, Debug, Default, PartialEq)]
pub struct Status {
    pub identifier: u8,
    pub serial: u32,
    pub destination: u8,
    pub time: u16,
    pub relays: u8,
    pub supply: u16,
    pub unused: u8,
    pub di: u8,
    pub di_changed: u8,
    pub ad1: u8,
    pub ad2: u8,
    pub ad3: u8,
    pub ad4: u8,
    pub correction: u8,
    pub signals: u16,
    pub mask: u16,
    pub interrupts: u16,
}

#[repr(C)]
#[derive(Clone, Copy, Debug, Default, PartialEq)]
pub struct Information {
    pub application: u32,
    pub version: u32,
    pub device: u8,
    pub serial: u32,
    pub silent: u8,
    pub network: u8,
}

#[repr(C)]
#[derive(Clone, Copy, Debug, Default, PartialEq)]
pub struct FromModule {
    pub kind: u8,
    pub refusal: u8,
    pub address: u8,
    pub command: u8,
    pub response_id: u8,
    pub result: u8,
    pub lqi: u8,
    pub source: u32,
    pub destination: u32,
    pub status: Status,
    pub information: Information,
    pub start: usize,
}

#[repr(C)]
#[derive(Clone, Copy, Debug, Default, PartialEq)]
pub struct Setting {
    pub refusal: u8,
    pub is_found: u8,
    pub identifier: u8,
    pub start: usize,
    pub len: usize,
}

mod raw {
    use super::*;
    extern "C" {
        pub fn boundary_read_frame(format: u8, s: *const u8, n: usize, buf: *mut u8, room: usize) -> Reading;
        pub fn boundary_write_frame(framing: u8, p: *const u8, n: usize, buf: *mut u8, room: usize) -> Writing;
        pub fn boundary_new_reader(format: u8) -> Reader;
        pub fn boundary_feed(reader: Reader, chunk: *const u8, n: usize, buf: *mut u8, room: usize) -> Fed;
        pub fn boundary_quiet(reader: Reader, buf: *mut u8, room: usize) -> Fed;
        pub fn boundary_read_to_module(p: *const u8, n: usize) -> ToModule;
        pub fn boundary_read_from_module(p: *const u8, n: usize) -> FromModule;
        pub fn boundary_write_request(framing: u8, m: ToModule, data: *const u8, n: usize, buf: *mut u8, room: usize) -> Writing;
        pub fn boundary_write_output_change(framing: u8, m: ToModule, buf: *mut u8, room: usize) -> Writing;
        pub fn boundary_write_setup(framing: u8, m: ToModule, buf: *mut u8, room: usize) -> Writing;
        pub fn boundary_write_delivery(framing: u8, m: FromModule, data: *const u8, n: usize, buf: *mut u8, room: usize) -> Writing;
        pub fn boundary_write_notice(framing: u8, m: FromModule, buf: *mut u8, room: usize) -> Writing;
        pub fn boundary_setting_at(list: *const u8, n: usize, index: usize) -> Setting;
    }
}

// Safe: every function is proved for all arguments, and each slice is passed with its own length.

pub fn read_frame(format: u8, s: &[u8], buf: &mut [u8]) -> Reading {
    unsafe { raw::boundary_read_frame(format, s.as_ptr(), s.len(), buf.as_mut_ptr(), buf.len()) }
}

pub fn write_frame(framing: u8, payload: &[u8], buf: &mut [u8]) -> Writing {
    unsafe { raw::boundary_write_frame(framing, payload.as_ptr(), payload.len(), buf.as_mut_ptr(), buf.len()) }
}

pub fn new_reader(format: u8) -> Reader {
    unsafe { raw::boundary_new_reader(format) }
}

pub fn feed(reader: Reader, chunk: &[u8], buf: &mut [u8]) -> Fed {
    unsafe { raw::boundary_feed(reader, chunk.as_ptr(), chunk.len(), buf.as_mut_ptr(), buf.len()) }
}

pub fn quiet(reader: Reader, buf: &mut [u8]) -> Fed {
    unsafe { raw::boundary_quiet(reader, buf.as_mut_ptr(), buf.len()) }
}

pub fn read_to_module(payload: &[u8]) -> ToModule {
    unsafe { raw::boundary_read_to_module(payload.as_ptr(), payload.len()) }
}

pub fn read_from_module(payload: &[u8]) -> FromModule {
    unsafe { raw::boundary_read_from_module(payload.as_ptr(), payload.len()) }
}

pub fn write_request(framing: u8, m: ToModule, data: &[u8], buf: &mut [u8]) -> Writing {
    unsafe { raw::boundary_write_request(framing, m, data.as_ptr(), data.len(), buf.as_mut_ptr(), buf.len()) }
}

pub fn write_output_change(framing: u8, m: ToModule, buf: &mut [u8]) -> Writing {
    unsafe { raw::boundary_write_output_change(framing, m, buf.as_mut_ptr(), buf.len()) }
}

pub fn write_setup(framing: u8, m: ToModule, buf: &mut [u8]) -> Writing {
    unsafe { raw::boundary_write_setup(framing, m, buf.as_mut_ptr(), buf.len()) }
}

pub fn write_delivery(framing: u8, m: FromModule, data: &[u8], buf: &mut [u8]) -> Writing {
    unsafe { raw::boundary_write_delivery(framing, m, data.as_ptr(), data.len(), buf.as_mut_ptr(), buf.len()) }
}

pub fn write_notice(framing: u8, m: FromModule, buf: &mut [u8]) -> Writing {
    unsafe { raw::boundary_write_notice(framing, m, buf.as_mut_ptr(), buf.len()) }
}

pub fn setting_at(list: &[u8], index: usize) -> Setting {
    unsafe { raw::boundary_setting_at(list.as_ptr(), list.len(), index) }
}
