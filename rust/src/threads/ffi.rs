//! The structs and exports of include/strm_mt.h.
use crate::ffi::{Ask, Books, Choices, Cursor, Entry, Handle, Reply, Went};

#[repr(C)]
pub struct System {
    _hidden: [u8; 0],
}

#[repr(C)]
pub struct End {
    _hidden: [u8; 0],
}

#[repr(C)]
#[derive(Clone, Copy, Default)]
pub struct Each {
    pub from_master: u64,
    pub from_slave: u64,
}

#[repr(C)]
#[derive(Clone, Copy, Default)]
pub struct Told {
    pub calls: u64,
    pub written: Each,
    pub read: Each,
}

#[repr(C)]
#[derive(Default)]
pub struct Share {
    pub told: Told,
    pub parts: u64,
    pub pair: u32,
    pub side: u32,
    pub group: u32,
    pub ignores: bool,
    pub orphaned: bool,
}

#[repr(C)]
#[derive(Default)]
pub struct Account {
    pub told: Told,
    pub ms: Books,
    pub sm: Books,
}

#[repr(C)]
#[derive(Default)]
pub struct Visit {
    pub queue: u32,
    pub refusal: u32,
    pub went: Went,
}

#[link(name = "strm_mt")]
extern "C" {
    pub fn strm_system_new(made: *mut *mut System, pairs: usize, choices: *const Choices) -> u32;
    pub fn strm_system_free(system: *mut System) -> u32;
    pub fn strm_system_pairs(system: *const System) -> usize;
    pub fn strm_system_claim(system: *mut System, pair: *mut u32) -> u32;
    pub fn strm_system_release(system: *mut System, pair: u32) -> u32;
    pub fn strm_system_open(system: *mut System, pair: u32, master: *mut *mut End) -> u32;
    pub fn strm_system_terminal(system: *mut System, master: *mut *mut End, slave: *mut *mut End) -> u32;
    pub fn strm_system_turn(system: *mut System, pair: u32, visit: *mut Visit) -> u32;
    pub fn strm_system_run(system: *mut System, pair: u32, turns: *mut usize) -> u32;
    pub fn strm_system_audit(system: *mut System, pair: u32, account: *mut Account) -> u32;
    pub fn strm_workers_start(system: *mut System, threads: usize) -> u32;
    pub fn strm_workers_stop(system: *mut System) -> u32;
    pub fn strm_end_open_slave(end: *mut End, slave: *mut *mut End) -> u32;
    pub fn strm_end_split(end: *mut End, second: *mut *mut End) -> u32;
    pub fn strm_end_join(first: *mut End, second: *mut End) -> u32;
    pub fn strm_end_settle(end: *mut End, account: *mut Account) -> u32;
    pub fn strm_end_free(end: *mut End);
    pub fn strm_end_told(end: *const End, share: *mut Share);
    pub fn strm_end_set_group(end: *mut End, group: u32, ignores: bool, orphaned: bool);
    pub fn strm_end_call(end: *mut End, ask: *const Ask, bytes: *const u8, n: usize, out: *mut u8, room: usize, reply: *mut Reply) -> u32;
    pub fn strm_end_run(end: *mut End, turns: *mut usize) -> u32;
    pub fn strm_end_restart(end: *mut End) -> u32;
    pub fn strm_end_cut(end: *mut End, trace: *mut Handle) -> u32;
    pub fn strm_end_trace_next(trace: *mut Handle, at: *mut Cursor, entry: *mut Entry, bytes: *mut u8, room: usize) -> u32;
    pub fn strm_end_trace_base(trace: *mut Handle, out: *mut u8, room: usize, length: *mut usize) -> u32;
    pub fn strm_end_trace_free(trace: *mut Handle);
    pub fn strm_end_ready(end: *mut End, ready: *mut u32) -> u32;
    pub fn strm_end_wait(end: *mut End, what: u32, timeout: i32, ready: *mut u32) -> u32;
    pub fn strm_end_fd(end: *mut End) -> i32;
}
