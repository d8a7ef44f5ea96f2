//! The exported functions of the proved engine, over slices. All that is unsafe in this crate
//! stands here.
//!
//! This is the layer below [`Heap`](crate::Heap): `w` and `b` are the words and bytes of a heap,
//! numbers are as the C header include/sieddesan.h has them, and every function gives a code, 0 or
//! the number of a [`Refusal`](crate::Refusal). What else it answers is in the words lent as `out`,
//! which a refused call leaves as they were. No function requires anything of what the slices hold,
//! and none panics.
//!
//! ```
//! use collector::engine;
//!
//! let sizes = [2, 2, 0, 0, 1, 0, 0, 4, 0, 1];
//! let mut needed = [0; 2];
//! assert_eq!(engine::needed(&sizes, &mut needed), 0);
//!
//! let mut w = vec![0; needed[0] as usize];
//! let mut b = vec![0; needed[1] as usize];
//! assert_eq!(engine::make_heap(&mut w, &mut b, &sizes), 0);
//!
//! let mut userdata = [0; 2];
//! assert_eq!(engine::make_userdata(&mut w, &b, &mut userdata), 0);
//! assert_eq!(engine::make_userdata(&mut w, &b, &mut userdata), 3, "there is one slot");
//! ```

/// The type of a lent slice.
macro_rules! slice {
    (mut $item:ty) => {
        &mut [$item]
    };
    (const $item:ty) => {
        &[$item]
    };
}

/// Where it starts.
macro_rules! start {
    (mut $slice:ident) => {
        $slice.as_mut_ptr()
    };
    (const $slice:ident) => {
        $slice.as_ptr()
    };
}

/// A row for each function: whether it may write to the words and the bytes of a heap, its numbers,
/// then what else it is lent.
macro_rules! exported {
    ($($(#[$doc:meta])* $name:ident: $symbol:ident $({$words:tt, $bytes:tt})?
        ($($number:ident: $kind:ty),*) [$($lent:ident: $mark:tt $item:ty),*];)*) => {
        // A slice passes as a pointer and a length. The test `declared` of rust/calls holds these
        // declarations to the header, to the archives and to the Rattle source.
        mod symbols {
            unsafe extern "C" {
                $(pub(super) fn $symbol(
                    $(w: *$words u32, _: usize, b: *$bytes u8, _: usize,)?
                    $($number: $kind,)*
                    $($lent: *$mark $item, _: usize,)*
                ) -> u32;)*
            }
        }

        $($(#[$doc])*
        // As many numbers as the exported function has.
        #[allow(clippy::too_many_arguments)]
        #[inline]
        pub fn $name(
            $(w: slice!($words u32), b: slice!($bytes u8),)?
            $($number: $kind,)*
            $($lent: slice!($mark $item),)*
        ) -> u32 {
            // SAFETY: each pointer is that of a live slice, with its length, and no slice that is
            // written overlaps another; the function has no other requirement and writes only to
            // slices lent as `mut`, within their lengths.
            unsafe {
                symbols::$symbol(
                    $(start!($words w), w.len(), start!($bytes b), b.len(),)?
                    $($number,)*
                    $(start!($mark $lent), $lent.len(),)*
                )
            }
        })*

        /// The name of each exported function and the types of its parameters, as they are declared
        /// here.
        ///
        /// ```
        /// let (name, types) = collector::engine::DECLARED[0];
        /// assert_eq!(name, "sieddesan_needed");
        /// assert_eq!(types, ["*const u32", "usize", "*mut u32", "usize"]);
        /// ```
        pub const DECLARED: &[(&str, &[&str])] = &[$((
            stringify!($symbol),
            &[
                $(
                    concat!("*", stringify!($words), " u32"), "usize",
                    concat!("*", stringify!($bytes), " u8"), "usize",
                )?
                $(stringify!($kind),)*
                $(concat!("*", stringify!($mark), " ", stringify!($item)), "usize",)*
            ],
        )),*];
    };
}

exported! {
    /// What a heap of these ten sizes needs. `out`: words, bytes.
    needed: sieddesan_needed () [sizes: const u32, out: mut u32];
    /// Makes a new heap of these ten sizes.
    make_heap: sieddesan_make_heap {mut, mut} () [sizes: const u32];

    /// A string of these bytes, or the one already present. `out`: its handle.
    make_string: sieddesan_make_string {mut, mut} () [s: const u8, out: mut u32];
    /// A table. `out`: its handle.
    make_table: sieddesan_make_table {mut, const} (array: u32, nodes: u32) [out: mut u32];
    /// A prototype; a constant is three words. `out`: its number, and 0.
    make_proto: sieddesan_make_proto {mut, const}
        () [constants: const u32, nested: const u32, out: mut u32];
    /// A Lua closure; an upvalue is two words. `out`: its handle.
    make_lua_closure: sieddesan_make_lua_closure {mut, const}
        (proto: u32, env_index: u32, env_generation: u32) [upvalues: const u32, out: mut u32];
    /// A Rust closure; a value is three words. `out`: its handle.
    make_rust_closure: sieddesan_make_rust_closure {mut, const}
        (env_some: u32, env_index: u32, env_generation: u32) [values: const u32, out: mut u32];
    /// An open upvalue. `out`: its handle.
    make_open_upvalue: sieddesan_make_open_upvalue {mut, const} () [out: mut u32];
    /// An upvalue closed over a value. `out`: its handle.
    make_closed_upvalue: sieddesan_make_closed_upvalue {mut, const}
        (tag: u32, low: u32, high: u32) [out: mut u32];
    /// A userdata. `out`: its handle.
    make_userdata: sieddesan_make_userdata {mut, const} () [out: mut u32];
    /// A thread. `out`: its handle.
    make_thread: sieddesan_make_thread {mut, const}
        (global_index: u32, global_generation: u32, stack: u32) [out: mut u32];

    /// Place `i` of a table's array takes a value.
    table_set: sieddesan_table_set {mut, const}
        (index: u32, generation: u32, i: u32, tag: u32, low: u32, high: u32) [];
    /// Node `j` of a table takes a key and a value.
    table_set_node: sieddesan_table_set_node {mut, const}
        (index: u32, generation: u32, j: u32,
         key_tag: u32, key_low: u32, key_high: u32, tag: u32, low: u32, high: u32) [];
    /// A table takes a metatable, or loses it.
    table_set_meta: sieddesan_table_set_meta {mut, const}
        (index: u32, generation: u32, meta_some: u32, meta_index: u32, meta_generation: u32) [];
    /// An open upvalue is closed over a value.
    upvalue_close: sieddesan_upvalue_close {mut, const}
        (index: u32, generation: u32, tag: u32, low: u32, high: u32) [];
    /// A closed upvalue takes a value.
    upvalue_set: sieddesan_upvalue_set {mut, const}
        (index: u32, generation: u32, tag: u32, low: u32, high: u32) [];
    /// A userdata takes a metatable, or loses it.
    ud_set_meta: sieddesan_ud_set_meta {mut, const}
        (index: u32, generation: u32, meta_some: u32, meta_index: u32, meta_generation: u32) [];
    /// A userdata takes an environment, or loses it.
    ud_set_env: sieddesan_ud_set_env {mut, const}
        (index: u32, generation: u32, env_some: u32, env_index: u32, env_generation: u32) [];
    /// The type `k` takes a metatable, or loses it.
    set_type_meta: sieddesan_set_type_meta {mut, const}
        (k: u32, meta_some: u32, meta_index: u32, meta_generation: u32) [];

    /// A value on top of the main stack.
    push: sieddesan_push {mut, const} (tag: u32, low: u32, high: u32) [];
    /// The value on top of the main stack is taken off. `out`: the value.
    pop: sieddesan_pop {mut, const} () [out: mut u32];
    /// Place `i` of the main stack takes a value.
    stack_set: sieddesan_stack_set {mut, const} (i: u32, tag: u32, low: u32, high: u32) [];
    /// The top of the main stack becomes `n`.
    set_top: sieddesan_set_top {mut, const} (n: u32) [];
    /// An upvalue at the end of the main open list.
    open_push: sieddesan_open_push {mut, const} (index: u32, generation: u32) [];
    /// The first `n` of the main open list stay.
    open_cut: sieddesan_open_cut {mut, const} (n: u32) [];
    /// Frame `i` has function index `n`.
    set_frame: sieddesan_set_frame {mut, const} (i: u32, n: u32) [];
    /// The current frame is `i`.
    set_ci: sieddesan_set_ci {mut, const} (i: u32) [];
    /// The main error value.
    set_error: sieddesan_set_error {mut, const} (tag: u32, low: u32, high: u32) [];
    /// The main hook function.
    set_hook: sieddesan_set_hook {mut, const} (tag: u32, low: u32, high: u32) [];

    /// A value on top of a thread's stack.
    thread_push: sieddesan_thread_push {mut, const}
        (index: u32, generation: u32, tag: u32, low: u32, high: u32) [];
    /// The value on top of a thread's stack is taken off. `out`: the value.
    thread_pop: sieddesan_thread_pop {mut, const} (index: u32, generation: u32) [out: mut u32];
    /// Place `i` of a thread's stack takes a value.
    thread_set: sieddesan_thread_set {mut, const}
        (index: u32, generation: u32, i: u32, tag: u32, low: u32, high: u32) [];
    /// The top of a thread's stack becomes `n`.
    thread_set_top: sieddesan_thread_set_top {mut, const} (index: u32, generation: u32, n: u32) [];
    /// An upvalue at the end of a thread's open list.
    thread_open_push: sieddesan_thread_open_push {mut, const}
        (index: u32, generation: u32, upvalue_index: u32, upvalue_generation: u32) [];
    /// The first `n` of a thread's open list stay.
    thread_open_cut: sieddesan_thread_open_cut {mut, const}
        (index: u32, generation: u32, n: u32) [];
    /// An upvalue at the end of a thread's suspended list.
    thread_suspended_push: sieddesan_thread_suspended_push {mut, const}
        (index: u32, generation: u32, upvalue_index: u32, upvalue_generation: u32) [];
    /// The first `n` of a thread's suspended list stay.
    thread_suspended_cut: sieddesan_thread_suspended_cut {mut, const}
        (index: u32, generation: u32, n: u32) [];
    /// A thread's global table.
    thread_set_global: sieddesan_thread_set_global {mut, const}
        (index: u32, generation: u32, global_index: u32, global_generation: u32) [];
    /// A thread's error value.
    thread_set_error: sieddesan_thread_set_error {mut, const}
        (index: u32, generation: u32, tag: u32, low: u32, high: u32) [];
    /// A thread's hook function.
    thread_set_hook: sieddesan_thread_set_hook {mut, const}
        (index: u32, generation: u32, tag: u32, low: u32, high: u32) [];

    /// The pause in percent. `out`: the one before, low word first.
    set_pause: sieddesan_set_pause {mut, const} (n: u32) [out: mut u32];
    /// The step multiplier in percent. `out`: the one before, low word first.
    set_stepmul: sieddesan_set_stepmul {mut, const} (n: u32) [out: mut u32];
    /// The limit in bytes, 2^64 - 1 for none. `out`: the one before, low word first.
    set_limit: sieddesan_set_limit {mut, const} (limit: u64) [out: mut u32];

    /// One step. `out`: an answer of six words, as in the header.
    gc_singlestep: sieddesan_gc_singlestep {mut, mut} () [out: mut u32];
    /// Steps until the budget is used up or the cycle ends. `out`: six words.
    gc_step: sieddesan_gc_step {mut, mut} (budget: i64) [out: mut u32];
    /// An automatic step. `out`: six words.
    gc_step_auto: sieddesan_gc_step_auto {mut, mut} () [out: mut u32];
    /// An automatic step if it is due. `out`: six words.
    gc_check: sieddesan_gc_check {mut, mut} () [out: mut u32];
    /// A full collection. `out`: six words.
    full_gc: sieddesan_full_gc {mut, mut} () [out: mut u32];
    /// The finalizer that is out is over; it failed where `ok` is 0. `out`: six words.
    finish: sieddesan_finish {mut, mut} (ok: u32) [out: mut u32];

    /// The audit. `out`: 1 for yes, 0 for no.
    audit: sieddesan_audit {const, const} () [out: mut u32];

    /// A counter of the header. `out`: an answer of four words, as in the header's list of reads.
    read_counter: sieddesan_read_counter {const, const} (counter: u32) [out: mut u32];
    /// One of the ten sizes. `out`: four words.
    read_size: sieddesan_read_size {const, const} (size: u32) [out: mut u32];
    /// The userdata whose finalizer is out. `out`: four words.
    read_out: sieddesan_read_out {const, const} () [out: mut u32];
    /// A root that is a handle. `out`: four words.
    read_root: sieddesan_read_root {const, const} (root: u32, index: u32) [out: mut u32];
    /// A field of the main record. `out`: four words.
    read_main: sieddesan_read_main {const, const} (field: u32, index: u32) [out: mut u32];
    /// The length of a working list, or an item. `out`: four words.
    read_list: sieddesan_read_list {const, const}
        (list: u32, field: u32, index: u32) [out: mut u32];
    /// What an arena keeps of its slots. `out`: four words.
    read_arena: sieddesan_read_arena {const, const}
        (kind: u32, field: u32, index: u32) [out: mut u32];
    /// A field of a string. `out`: four words.
    read_string: sieddesan_read_string {const, const}
        (index: u32, generation: u32, field: u32, at: u32) [out: mut u32];
    /// A field of a table. `out`: four words.
    read_table: sieddesan_read_table {const, const}
        (index: u32, generation: u32, field: u32, at: u32) [out: mut u32];
    /// A field of a closure. `out`: four words.
    read_closure: sieddesan_read_closure {const, const}
        (index: u32, generation: u32, field: u32, at: u32) [out: mut u32];
    /// A field of an upvalue. `out`: four words.
    read_upvalue: sieddesan_read_upvalue {const, const}
        (index: u32, generation: u32, field: u32) [out: mut u32];
    /// A field of a userdata. `out`: four words.
    read_userdata: sieddesan_read_userdata {const, const}
        (index: u32, generation: u32, field: u32) [out: mut u32];
    /// A field of a thread. `out`: four words.
    read_thread: sieddesan_read_thread {const, const}
        (index: u32, generation: u32, field: u32, at: u32) [out: mut u32];
    /// A field of a prototype. `out`: four words.
    read_proto: sieddesan_read_proto {const, const}
        (number: u32, field: u32, at: u32) [out: mut u32];
}
