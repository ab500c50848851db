//! The calls of `juicedelta.h`. Those that take a `&Handle` read, and those that take a `&mut Handle` write.
//!
//! A pointer leads to as many items as the length says that follows it or, in what finds rows, `ids_length`.

use std::collections::hash_map::RandomState;
use std::hash::{BuildHasher, Hasher};
use std::{ffi::c_void, ptr::NonNull};

use crate::{check, Error};

/// A `juicedelta_handle`: all zeros hold nothing.
#[repr(C)]
#[derive(Default)]
pub struct Handle {
    _object: Option<NonNull<c_void>>,
    _count: u64,
}

// SAFETY: what a handle holds is bound to no thread.
unsafe impl Send for Handle {}

// SAFETY: through a shared handle only calls are made that the header gives a `const juicedelta_handle *`. They write
// neither the handle nor what it holds, and the header allows them in several threads at once. A call that writes takes
// the handle as `&mut`, so none is made beside them.
unsafe impl Sync for Handle {}

impl Handle {
    /// What a call opens with two random words, for the hashes of ids.
    pub fn opened(open: impl FnOnce(&mut Self, u64, u64) -> i32) -> Result<Self, Error> {
        // Each state has keys of its own, so what it makes of nothing is random.
        let word = || RandomState::new().build_hasher().finish();
        let mut new = Self::default();
        check(open(&mut new, word(), word())).map(|()| new)
    }
}

impl Drop for Handle {
    fn drop(&mut self) {
        // SAFETY: the handle is as the last call left it.
        unsafe { juicedelta_close(self) };
    }
}

/// The number that a call writes.
pub fn number(call: impl FnOnce(&mut u64) -> i32) -> Result<u64, Error> {
    let mut number = 0;
    check(call(&mut number)).map(|()| number)
}

extern "C" {
    pub fn juicedelta_version() -> u32;
    pub fn juicedelta_words(code: i32, text: *mut u8, length: usize, total: &mut u64) -> i32;
    pub fn juicedelta_close(handle: &mut Handle) -> i32;

    pub fn juicedelta_tree_open(handle: &mut Handle, axes: u32, capacity: u32, first_key: u64, second_key: u64) -> i32;
    pub fn juicedelta_tree_open_dump(
        handle: &mut Handle,
        axes: u32,
        text: *const u8,
        length: usize,
        first_key: u64,
        second_key: u64,
    ) -> i32;
    pub fn juicedelta_tree_open_rows(
        handle: &mut Handle,
        axes: u32,
        capacity: u32,
        ids: *const i64,
        ids_length: usize,
        rects: *const i32,
        rects_length: usize,
        first_key: u64,
        second_key: u64,
        at: &mut u64,
    ) -> i32;
    pub fn juicedelta_tree_open_bytes(
        handle: &mut Handle,
        axes: u32,
        bytes: *const u8,
        length: usize,
        first_key: u64,
        second_key: u64,
    ) -> i32;
    pub fn juicedelta_tree_insert_rows(
        handle: &mut Handle,
        ids: *const i64,
        ids_length: usize,
        rects: *const i32,
        rects_length: usize,
        at: &mut u64,
    ) -> i32;
    pub fn juicedelta_tree_insert(handle: &mut Handle, id: i64, rect: *const i32, length: usize) -> i32;
    pub fn juicedelta_tree_move(handle: &mut Handle, id: i64, rect: *const i32, length: usize) -> i32;
    pub fn juicedelta_tree_remove(handle: &mut Handle, id: i64) -> i32;
    pub fn juicedelta_tree_clear(handle: &mut Handle) -> i32;

    pub fn juicedelta_tree_len(handle: &Handle, rows: &mut u64) -> i32;
    pub fn juicedelta_tree_get(handle: &Handle, id: i64, rect: *mut i32, length: usize) -> i32;
    pub fn juicedelta_tree_count(
        handle: &Handle,
        relation: u32,
        window: *const i32,
        length: usize,
        total: &mut u64,
    ) -> i32;
    pub fn juicedelta_tree_search(
        handle: &Handle,
        relation: u32,
        window: *const i32,
        length: usize,
        ids: *mut i64,
        ids_length: usize,
        total: &mut u64,
    ) -> i32;
    pub fn juicedelta_tree_search_rows(
        handle: &Handle,
        relation: u32,
        window: *const i32,
        length: usize,
        ids: *mut i64,
        ids_length: usize,
        rects: *mut i32,
        rects_length: usize,
        total: &mut u64,
    ) -> i32;
    pub fn juicedelta_tree_nearest(
        handle: &Handle,
        point: *const i32,
        length: usize,
        ids: *mut i64,
        ids_length: usize,
        rects: *mut i32,
        rects_length: usize,
        total: &mut u64,
    ) -> i32;
    pub fn juicedelta_tree_nearest_to(
        handle: &Handle,
        rect: *const i32,
        length: usize,
        ids: *mut i64,
        ids_length: usize,
        rects: *mut i32,
        rects_length: usize,
        total: &mut u64,
    ) -> i32;
    pub fn juicedelta_tree_within(
        handle: &Handle,
        point: *const i32,
        length: usize,
        distance: u64,
        ids: *mut i64,
        ids_length: usize,
        rects: *mut i32,
        rects_length: usize,
        total: &mut u64,
    ) -> i32;
    pub fn juicedelta_tree_bounds(handle: &Handle, rect: *mut i32, length: usize) -> i32;
    pub fn juicedelta_tree_rows(
        handle: &Handle,
        from: u64,
        ids: *mut i64,
        ids_length: usize,
        rects: *mut i32,
        rects_length: usize,
        total: &mut u64,
    ) -> i32;
    pub fn juicedelta_tree_join(
        left: &Handle,
        right: &Handle,
        left_ids: *mut i64,
        left_length: usize,
        right_ids: *mut i64,
        right_length: usize,
        total: &mut u64,
    ) -> i32;
    pub fn juicedelta_tree_join_self(
        handle: &Handle,
        left_ids: *mut i64,
        left_length: usize,
        right_ids: *mut i64,
        right_length: usize,
        total: &mut u64,
    ) -> i32;
    pub fn juicedelta_tree_search_many(
        handle: &Handle,
        relation: u32,
        windows: *const i32,
        windows_length: usize,
        starts: *mut u64,
        starts_length: usize,
        ids: *mut i64,
        ids_length: usize,
        total: &mut u64,
    ) -> i32;
    pub fn juicedelta_tree_count_many(
        handle: &Handle,
        relation: u32,
        windows: *const i32,
        windows_length: usize,
        counts: *mut u64,
        counts_length: usize,
    ) -> i32;
    pub fn juicedelta_tree_nearest_many(
        handle: &Handle,
        points: *const i32,
        points_length: usize,
        k: u64,
        starts: *mut u64,
        starts_length: usize,
        ids: *mut i64,
        ids_length: usize,
        total: &mut u64,
    ) -> i32;
    pub fn juicedelta_tree_to_bytes(handle: &Handle, bytes: *mut u8, length: usize, total: &mut u64) -> i32;
    pub fn juicedelta_tree_dump(handle: &Handle, text: *mut u8, length: usize, total: &mut u64) -> i32;

    pub fn juicedelta_live_open(handle: &mut Handle, axes: u32, capacity: u32, first_key: u64, second_key: u64) -> i32;
    pub fn juicedelta_live_insert(
        handle: &mut Handle,
        id: i64,
        rect: *const i32,
        length: usize,
        changes: &mut u64,
    ) -> i32;
    pub fn juicedelta_live_move(
        handle: &mut Handle,
        id: i64,
        rect: *const i32,
        length: usize,
        changes: &mut u64,
    ) -> i32;
    pub fn juicedelta_live_remove(handle: &mut Handle, id: i64, changes: &mut u64) -> i32;
    pub fn juicedelta_live_watch(
        handle: &mut Handle,
        window: i64,
        rect: *const i32,
        length: usize,
        changes: &mut u64,
    ) -> i32;
    pub fn juicedelta_live_shift(
        handle: &mut Handle,
        window: i64,
        rect: *const i32,
        length: usize,
        changes: &mut u64,
    ) -> i32;
    pub fn juicedelta_live_unwatch(handle: &mut Handle, window: i64, changes: &mut u64) -> i32;
    pub fn juicedelta_live_reserve(handle: &mut Handle, rows: u64, windows: u64, changes: u64) -> i32;
    pub fn juicedelta_live_changes(
        handle: &Handle,
        windows: *mut i64,
        windows_length: usize,
        ids: *mut i64,
        ids_length: usize,
        kinds: *mut u8,
        kinds_length: usize,
        total: &mut u64,
    ) -> i32;
    pub fn juicedelta_live_rows(handle: &Handle, window: i64, ids: *mut i64, ids_length: usize, total: &mut u64)
        -> i32;
    pub fn juicedelta_live_windows(
        handle: &Handle,
        from: u64,
        ids: *mut i64,
        ids_length: usize,
        rects: *mut i32,
        rects_length: usize,
        total: &mut u64,
    ) -> i32;

    pub fn juicedelta_script_open(handle: &mut Handle, capacity: u32, first_key: u64, second_key: u64) -> i32;
    pub fn juicedelta_script_exec(handle: &mut Handle, bytes: *const u8, length: usize) -> i32;
    pub fn juicedelta_script_finish(handle: &mut Handle, refused: &mut u32) -> i32;
    pub fn juicedelta_script_drop_output(handle: &mut Handle) -> i32;
    pub fn juicedelta_script_output_length(handle: &Handle, length: &mut u64) -> i32;
    pub fn juicedelta_script_output(handle: &Handle, buffer: *mut u8, length: usize) -> i32;
}
