//! The structs and exports of include/strm.h.
use std::ffi::c_void;

#[repr(C)]
pub struct Handle {
    pub at: *mut c_void,
    pub is_open: bool,
}

#[repr(C)]
pub struct Choices {
    pub blocks: usize,
    pub entries: usize,
    pub bytes: usize,
    pub reserve: usize,
    pub anew: bool,
}

#[repr(C)]
#[derive(Clone, Copy, Default)]
pub struct Ask {
    pub op: u32,
    pub side: u32,
    pub a: u32,
    pub b: u32,
    pub c: u32,
    pub group: u32,
    pub ignores: bool,
    pub orphaned: bool,
}

#[repr(C)]
#[derive(Clone, Copy, Default)]
pub struct Reply {
    pub bytes: usize,
    pub kind: u32,
    pub value: u32,
    pub prio: u32,
    pub parts: u32,
    pub size: u32,
    pub more_control: bool,
    pub more_data: bool,
}

#[repr(C)]
#[derive(Clone, Copy, Default)]
pub struct Went {
    pub kind: u32,
    pub moved: u32,
}

#[repr(C)]
#[derive(Default)]
pub struct Standing {
    pub messages: usize,
    pub bytes: usize,
}

#[repr(C)]
#[derive(Default)]
pub struct Books {
    pub written: u64,
    pub made: u64,
    pub queued: u64,
    pub inlined: u64,
    pub gone: [u64; 21],
}

#[repr(C)]
#[derive(Default)]
pub struct Left {
    pub blocks: usize,
    pub entries: usize,
    pub bytes: usize,
}

#[repr(C)]
#[derive(Clone, Debug, Default)]
pub struct Cursor {
    pub entry: usize,
    pub byte: usize,
}

#[repr(C)]
#[derive(Default)]
pub struct Entry {
    pub brings: usize,
    pub kind: u32,
    pub queue: u32,
    pub ask: Ask,
    pub reply: Reply,
    pub went: Went,
}

#[link(name = "strm")]
extern "C" {
    pub fn strm_version() -> u32;
    pub fn strm_new(p: *mut Handle, blocks: usize, entries: usize, bytes: usize) -> u32;
    pub fn strm_new_with(p: *mut Handle, choices: *const Choices) -> u32;
    pub fn strm_free(p: *mut Handle);
    pub fn strm_call(p: *mut Handle, ask: *const Ask, bytes: *const u8, n: usize, out: *mut u8, room: usize, reply: *mut Reply) -> u32;
    pub fn strm_write(p: *mut Handle, side: u32, bytes: *const u8, n: usize, reply: *mut Reply) -> u32;
    pub fn strm_read(p: *mut Handle, side: u32, out: *mut u8, room: usize, reply: *mut Reply) -> u32;
    pub fn strm_turn(p: *mut Handle, queue: u32, went: *mut Went) -> u32;
    pub fn strm_runqueues(p: *mut Handle, turns: *mut usize) -> u32;
    pub fn strm_next_entry(p: *mut Handle, at: *mut Cursor, entry: *mut Entry, bytes: *mut u8, room: usize) -> u32;
    pub fn strm_restart(p: *mut Handle) -> u32;
    pub fn strm_cut(p: *mut Handle, t: *mut Handle) -> u32;
    pub fn strm_trace_next(t: *mut Handle, at: *mut Cursor, entry: *mut Entry, bytes: *mut u8, room: usize) -> u32;
    pub fn strm_trace_base(t: *mut Handle, out: *mut u8, room: usize, length: *mut usize) -> u32;
    pub fn strm_trace_free(t: *mut Handle);
    pub fn strm_enabled(p: *mut Handle, place: usize) -> u32;
    pub fn strm_sizes(p: *mut Handle, queue: u32, told: *mut Standing) -> u32;
    pub fn strm_first_size(p: *mut Handle, queue: u32, told: *mut usize) -> u32;
    pub fn strm_ledger(p: *mut Handle, side: u32, told: *mut Books) -> u32;
    pub fn strm_ready(p: *mut Handle, side: u32) -> u32;
    pub fn strm_room(p: *mut Handle, told: *mut Left) -> u32;
    pub fn strm_image(p: *mut Handle, out: *mut u8, room: usize, length: *mut usize) -> u32;
    pub fn strm_restore(p: *mut Handle, blocks: usize, entries: usize, bytes: usize, image: *const u8, n: usize) -> u32;
    pub fn strm_restore_with(p: *mut Handle, choices: *const Choices, image: *const u8, n: usize) -> u32;
}
