//! `jpstore.h`.

use std::os::raw::{c_char, c_int, c_void};
use std::ptr::{self, NonNull};

#[repr(C)]
pub struct Handle {
    _private: [u8; 0],
}

#[repr(C)]
#[derive(Default)]
pub struct Options {
    pub batch: u64,
    pub pump: u64,
    pub reserved: [u64; 6],
}

#[repr(C)]
#[derive(Default)]
pub struct FormatOptions {
    pub format: u64,
    pub sparse: u64,
    pub mode: u64,
    pub id: Option<NonNull<c_char>>,
    pub reserved: [u64; 4],
}

#[repr(C)]
#[derive(Clone, Copy)]
pub struct Cause {
    pub refusal: c_int,
    pub system_error: c_int,
    pub change: c_int,
    pub op: c_int,
    pub rev: u64,
    pub mark: *const c_char,
    pub mark_length: usize,
    pub mark_seq: u64,
    pub reserved: [u64; 2],
}

impl Cause {
    pub const NONE: Cause = Cause {
        refusal: 0,
        system_error: 0,
        change: -1,
        op: -1,
        rev: 0,
        mark: ptr::null(),
        mark_length: 0,
        mark_seq: 0,
        reserved: [0; 2],
    };
}

#[repr(C)]
#[derive(Debug, Default)]
pub struct State {
    pub broken: c_int,
    pub half: c_int,
    pub capacity: u64,
    pub documents: u64,
    pub opens: u64,
    pub sectors: u64,
    pub seq: u64,
    pub used: u64,
    /// 32 hexadecimal digits, or zeros.
    pub id: [u8; 32],
    pub id_end: u8,
}

#[repr(C)]
pub struct Marking {
    pub key: *const c_char,
    pub value: *const c_char,
    pub if_mark: c_int,
    pub before: *const c_char,
    pub reserved: [u64; 2],
}

#[repr(C)]
pub struct Change {
    pub kind: c_int,
    pub if_rev: c_int,
    pub rev: u64,
    pub name: *const c_char,
    pub doc: *const c_char,
    pub ops: *const c_char,
    pub schema: *const c_char,
    pub changes: *const Change,
    pub changes_count: usize,
    pub mark: *const Marking,
    pub reserved: [u64; 4],
}

#[repr(C)]
#[derive(Clone, Copy)]
pub struct Outcome {
    pub fault: c_int,
    pub seq: u64,
    pub cause: Cause,
}

extern "C" {
    pub fn jpstore_open(
        path: *const c_char,
        options: *const Options,
        store: *mut *mut Handle,
        cause: *mut Cause,
    ) -> c_int;
    pub fn jpstore_open_memory(sectors: u64, store: *mut *mut Handle, cause: *mut Cause) -> c_int;
    pub fn jpstore_format(
        path: *const c_char,
        sectors: u64,
        options: *const FormatOptions,
        capacity: *mut u64,
        cause: *mut Cause,
    ) -> c_int;
    pub fn jpstore_check(path: *const c_char, state: *mut State, cause: *mut Cause) -> c_int;
    pub fn jpstore_copy_in(
        path: *const c_char,
        new_path: *const c_char,
        sectors: u64,
        format: u64,
        state: *mut State,
        cause: *mut Cause,
    ) -> c_int;
    pub fn jpstore_upgrade(
        path: *const c_char,
        format: u64,
        before: *mut u64,
        cause: *mut Cause,
    ) -> c_int;

    pub fn jpstore_get(
        store: *mut Handle,
        name: *const c_char,
        place: *const c_char,
        value: *mut *const c_char,
        length: *mut usize,
        cause: *mut Cause,
    ) -> c_int;
    pub fn jpstore_query(
        store: *mut Handle,
        name: *const c_char,
        query: *const c_char,
        nodes: *mut *const c_char,
        length: *mut usize,
        cause: *mut Cause,
    ) -> c_int;
    pub fn jpstore_schema(
        store: *mut Handle,
        name: *const c_char,
        schema: *mut *const c_char,
        length: *mut usize,
        cause: *mut Cause,
    ) -> c_int;
    pub fn jpstore_list(
        store: *mut Handle,
        names: *mut *const c_char,
        length: *mut usize,
        cause: *mut Cause,
    ) -> c_int;
    pub fn jpstore_rev(
        store: *mut Handle,
        name: *const c_char,
        rev: *mut u64,
        cause: *mut Cause,
    ) -> c_int;
    pub fn jpstore_mark(
        store: *mut Handle,
        key: *const c_char,
        value: *mut *const c_char,
        length: *mut usize,
        seq: *mut u64,
        cause: *mut Cause,
    ) -> c_int;
    pub fn jpstore_changes(
        store: *mut Handle,
        since: u64,
        max_bytes: u64,
        transactions: *mut *const c_char,
        length: *mut usize,
        from: *mut u64,
        cause: *mut Cause,
    ) -> c_int;
    pub fn jpstore_status(store: *mut Handle, state: *mut State, cause: *mut Cause) -> c_int;

    pub fn jpstore_apply(
        store: *mut Handle,
        change: *const Change,
        seq: *mut u64,
        cause: *mut Cause,
    ) -> c_int;
    pub fn jpstore_group(
        store: *mut Handle,
        changes: *const Change,
        count: usize,
        outcomes: *mut Outcome,
        cause: *mut Cause,
    ) -> c_int;
    pub fn jpstore_snapshot(store: *mut Handle, used: *mut u64, cause: *mut Cause) -> c_int;
    pub fn jpstore_pump(
        store: *mut Handle,
        sectors: u64,
        step: *mut c_int,
        written: *mut u64,
        cause: *mut Cause,
    ) -> c_int;

    pub fn jpstore_feed(
        store: *mut Handle,
        input: *const c_void,
        length: usize,
        replies: *mut *const c_char,
        replies_length: *mut usize,
    ) -> c_int;
    pub fn jpstore_finish(
        store: *mut Handle,
        replies: *mut *const c_char,
        replies_length: *mut usize,
    ) -> c_int;
    pub fn jpstore_system_error(store: *const Handle) -> c_int;
    pub fn jpstore_free(store: *mut Handle);

    pub fn jpstore_version() -> *const c_char;
    pub fn jpstore_version_number() -> c_int;
    pub fn jpstore_refusal_name(refusal: c_int) -> *const c_char;
}
