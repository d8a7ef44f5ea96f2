/* The collector for C: every call on numbers and slices alone.
 *
 * A heap is two lent buffers, the words w and the bytes b, and nothing else. A slice passes as a pointer and a count of
 * elements; a pointer must be that of so many live elements (for a count of 0 any pointer that is aligned and not null), and
 * the slices of one call must not overlap. Beyond this no call requires anything: whatever the buffers hold, it answers.
 *
 * The functions are in seven archives, which link together in any order: libengine.a, libmake_engine.a, libstore_engine.a,
 * libmain_engine.a, libthread_engine.a, libstep_engine.a and libaudit_engine.a (`rt lib` in crates/engine writes
 * crates/engine/out/libengine.a, and so for the others).
 *
 * Every function answers a code: 0, or the number of a refusal. Words lent as `out` hold the rest of the answer where the code
 * is 0; they stay as they were where it is not.
 *
 *   1  a buffer is too short, or a size, count, phase or current white stored in the header lies outside its range
 *   8  the damage mark was set before the call, or the call set it
 *   5  finish with no finalizer out; closing a closed upvalue or setting an open one; pop of an empty stack
 *   4  an index, length or size outside its range; a push onto a full stack or list; nesting a prototype that has a parent or
 *      is named twice; a node with nil key and non-nil value, a NaN key, or a key equal to another node's
 *   2  a handle given names no occupied slot of its kind
 *   6  the tracked total would pass 2^31 - 1
 *   3  every slot of the arena is occupied, or every prototype number used
 *   7  gc_check ends with the total above the limit
 *
 * The order in which a call tests: that `out` is long enough (1), if it has one; then 1 and 8 of the heap; then that each
 * number given as a tag or as `some` is one (4); then what is said of the call, in the order given there.
 *
 * How things are given and answered:
 *   handle   two words, index and generation.
 *   value    three words, tag, low and high. Tags: 0 nil, 1 boolean (low 0 is false, else true), 2 light userdata and 3 number
 *            (their 64 bits, low word first), 4 string, 5 table, 6 function, 7 userdata, 8 thread (low is the index of the
 *            handle, high its generation). What a kind has no use for is not looked at, and answered as 0. A tag above 8 given
 *            is 4.
 *   table?   a table's handle that may be missing, three words: `some`, index, generation. 0 is none, and the other two are not
 *            looked at (answered as 0); 1 is the handle. Any other `some` given is 4.
 *   lists    slices of words: a value takes three, an upvalue's handle two, a prototype's number one. A slice that is no whole
 *            number of them is 4.
 */
#ifndef SIEDDESAN_H
#define SIEDDESAN_H

#include <stddef.h>
#include <stdint.h>

#ifdef __cplusplus
extern "C" {
#endif

/* Making a heap. The ten sizes: strings, tables, functions, upvalues, userdata, threads, prototypes, main stack, main open
 * list, frames. */

/* What a heap of these sizes needs. 4 for sizes outside their ranges or not ten of them, then 1 for a short out.
 * out: words, bytes. */
uint32_t sieddesan_needed(const uint32_t *sizes, size_t sizes_len, uint32_t *out, size_t out_len);

/* Makes a new heap of these sizes in the buffers. 4, then 1 for a buffer that is too short. */
uint32_t sieddesan_make_heap(uint32_t *w, size_t w_len, uint8_t *b, size_t b_len, const uint32_t *sizes, size_t sizes_len);

/* Making objects. out: the handle, index and generation, two words. */

/* A string of these bytes, at most 64: 4. One already present answers its handle; else 6, 3. */
uint32_t sieddesan_make_string(uint32_t *w, size_t w_len, uint8_t *b, size_t b_len, const uint8_t *s, size_t s_len,
                               uint32_t *out, size_t out_len);

/* A table with so many array places (0 to 64) and nodes (0, 1, 2, 4, .. 64): 4, 6, 3. */
uint32_t sieddesan_make_table(uint32_t *w, size_t w_len, const uint8_t *b, size_t b_len, uint32_t array, uint32_t nodes,
                              uint32_t *out, size_t out_len);

/* A prototype with these constants (values, at most 16) and nested prototypes (numbers, at most 8): 4, 2, 3. A tag above 8
 * among the constants is 4. out: its number, and 0. */
uint32_t sieddesan_make_proto(uint32_t *w, size_t w_len, const uint8_t *b, size_t b_len,
                              const uint32_t *constants, size_t constants_len, const uint32_t *nested, size_t nested_len,
                              uint32_t *out, size_t out_len);

/* A Lua closure of a prototype, with the table env and these upvalues (handles, at most 16): 4, 2, 6, 3. */
uint32_t sieddesan_make_lua_closure(uint32_t *w, size_t w_len, const uint8_t *b, size_t b_len, uint32_t proto,
                                    uint32_t env_index, uint32_t env_generation,
                                    const uint32_t *upvalues, size_t upvalues_len, uint32_t *out, size_t out_len);

/* A Rust closure with a table env that may be missing and these values (at most 16): 4, 2, 6, 3. A tag above 8 among the
 * values is 4. */
uint32_t sieddesan_make_rust_closure(uint32_t *w, size_t w_len, const uint8_t *b, size_t b_len,
                                     uint32_t env_some, uint32_t env_index, uint32_t env_generation,
                                     const uint32_t *values, size_t values_len, uint32_t *out, size_t out_len);

/* An open upvalue: 6, 3. */
uint32_t sieddesan_make_open_upvalue(uint32_t *w, size_t w_len, const uint8_t *b, size_t b_len,
                                     uint32_t *out, size_t out_len);

/* An upvalue closed over a value: 2, 6, 3. */
uint32_t sieddesan_make_closed_upvalue(uint32_t *w, size_t w_len, const uint8_t *b, size_t b_len,
                                       uint32_t tag, uint32_t low, uint32_t high, uint32_t *out, size_t out_len);

/* A userdata: 6, 3. */
uint32_t sieddesan_make_userdata(uint32_t *w, size_t w_len, const uint8_t *b, size_t b_len, uint32_t *out, size_t out_len);

/* A thread with its global table and a stack of so many places (0 to 64): 4, 2, 6, 3. */
uint32_t sieddesan_make_thread(uint32_t *w, size_t w_len, const uint8_t *b, size_t b_len,
                               uint32_t global_index, uint32_t global_generation, uint32_t stack,
                               uint32_t *out, size_t out_len);

/* Storing in tables, upvalues and userdata, given by handle. */

/* Place i of a table's array takes a value: 4, 2; a table that names nothing is 2 before its places are looked at. */
uint32_t sieddesan_table_set(uint32_t *w, size_t w_len, const uint8_t *b, size_t b_len, uint32_t index, uint32_t generation,
                             uint32_t i, uint32_t tag, uint32_t low, uint32_t high);

/* Node j of a table takes a key and a value; nil for both empties it: 4 for a NaN key or a nil key with a value that is not
 * nil, 2 for a table that names nothing, 4 for the place or a key equal to another node's, 2 for key or value. */
uint32_t sieddesan_table_set_node(uint32_t *w, size_t w_len, const uint8_t *b, size_t b_len,
                                  uint32_t index, uint32_t generation, uint32_t j,
                                  uint32_t key_tag, uint32_t key_low, uint32_t key_high,
                                  uint32_t tag, uint32_t low, uint32_t high);

/* A table takes a metatable, or loses it: 2. */
uint32_t sieddesan_table_set_meta(uint32_t *w, size_t w_len, const uint8_t *b, size_t b_len,
                                  uint32_t index, uint32_t generation,
                                  uint32_t meta_some, uint32_t meta_index, uint32_t meta_generation);

/* An open upvalue is closed over a value: 5, 2; an upvalue that names nothing is 2 before 5. */
uint32_t sieddesan_upvalue_close(uint32_t *w, size_t w_len, const uint8_t *b, size_t b_len,
                                 uint32_t index, uint32_t generation, uint32_t tag, uint32_t low, uint32_t high);

/* A closed upvalue takes a value: 5, 2; an upvalue that names nothing is 2 before 5. */
uint32_t sieddesan_upvalue_set(uint32_t *w, size_t w_len, const uint8_t *b, size_t b_len,
                               uint32_t index, uint32_t generation, uint32_t tag, uint32_t low, uint32_t high);

/* A userdata takes a metatable, or loses it: 2. */
uint32_t sieddesan_ud_set_meta(uint32_t *w, size_t w_len, const uint8_t *b, size_t b_len,
                               uint32_t index, uint32_t generation,
                               uint32_t meta_some, uint32_t meta_index, uint32_t meta_generation);

/* A userdata takes an environment, or loses it: 2. */
uint32_t sieddesan_ud_set_env(uint32_t *w, size_t w_len, const uint8_t *b, size_t b_len,
                              uint32_t index, uint32_t generation,
                              uint32_t env_some, uint32_t env_index, uint32_t env_generation);

/* The type k takes a metatable, or loses it: 4, 2. From 0: nil, boolean, number, string, function, userdata, thread, table,
 * light userdata; these are not the tags of values. */
uint32_t sieddesan_set_type_meta(uint32_t *w, size_t w_len, const uint8_t *b, size_t b_len, uint32_t k,
                                 uint32_t meta_some, uint32_t meta_index, uint32_t meta_generation);

/* The main record: stack, open upvalues, frames, error value, hook function. */

/* A value on top of the stack: 4 if it is full, 2. */
uint32_t sieddesan_push(uint32_t *w, size_t w_len, const uint8_t *b, size_t b_len, uint32_t tag, uint32_t low, uint32_t high);

/* The value on top of the stack is taken off, and stays where it is: 5. out: the value, three words. */
uint32_t sieddesan_pop(uint32_t *w, size_t w_len, const uint8_t *b, size_t b_len, uint32_t *out, size_t out_len);

/* Place i of the stack, also at or above the top, takes a value: 4, 2. */
uint32_t sieddesan_stack_set(uint32_t *w, size_t w_len, const uint8_t *b, size_t b_len, uint32_t i,
                             uint32_t tag, uint32_t low, uint32_t high);

/* The top becomes n; raising fills with nil: 4. */
uint32_t sieddesan_set_top(uint32_t *w, size_t w_len, const uint8_t *b, size_t b_len, uint32_t n);

/* An upvalue's handle at the end of the open list: 4 if it is full, 2. */
uint32_t sieddesan_open_push(uint32_t *w, size_t w_len, const uint8_t *b, size_t b_len, uint32_t index, uint32_t generation);

/* The first n of the open list stay: 4. */
uint32_t sieddesan_open_cut(uint32_t *w, size_t w_len, const uint8_t *b, size_t b_len, uint32_t n);

/* Frame i has function index n (0 to 256): 4. */
uint32_t sieddesan_set_frame(uint32_t *w, size_t w_len, const uint8_t *b, size_t b_len, uint32_t i, uint32_t n);

/* The current frame is i: 4. */
uint32_t sieddesan_set_ci(uint32_t *w, size_t w_len, const uint8_t *b, size_t b_len, uint32_t i);

/* The error value: 2. */
uint32_t sieddesan_set_error(uint32_t *w, size_t w_len, const uint8_t *b, size_t b_len,
                             uint32_t tag, uint32_t low, uint32_t high);

/* The hook function: 2. */
uint32_t sieddesan_set_hook(uint32_t *w, size_t w_len, const uint8_t *b, size_t b_len,
                            uint32_t tag, uint32_t low, uint32_t high);

/* Threads, given by handle. A handle that names no thread is 2 before all that follows. */

/* A value on top of its stack: 4 if it is full, 2. */
uint32_t sieddesan_thread_push(uint32_t *w, size_t w_len, const uint8_t *b, size_t b_len,
                               uint32_t index, uint32_t generation, uint32_t tag, uint32_t low, uint32_t high);

/* The value on top of its stack is taken off, and stays where it is: 5. out: the value, three words. */
uint32_t sieddesan_thread_pop(uint32_t *w, size_t w_len, const uint8_t *b, size_t b_len,
                              uint32_t index, uint32_t generation, uint32_t *out, size_t out_len);

/* Place i of its stack takes a value: 4, 2. */
uint32_t sieddesan_thread_set(uint32_t *w, size_t w_len, const uint8_t *b, size_t b_len,
                              uint32_t index, uint32_t generation, uint32_t i, uint32_t tag, uint32_t low, uint32_t high);

/* The top of its stack becomes n; raising fills with nil: 4. */
uint32_t sieddesan_thread_set_top(uint32_t *w, size_t w_len, const uint8_t *b, size_t b_len,
                                  uint32_t index, uint32_t generation, uint32_t n);

/* An upvalue's handle at the end of its open list, of 16 places: 4 if it is full, 2. */
uint32_t sieddesan_thread_open_push(uint32_t *w, size_t w_len, const uint8_t *b, size_t b_len,
                                    uint32_t index, uint32_t generation,
                                    uint32_t upvalue_index, uint32_t upvalue_generation);

/* The first n of its open list stay: 4. */
uint32_t sieddesan_thread_open_cut(uint32_t *w, size_t w_len, const uint8_t *b, size_t b_len,
                                   uint32_t index, uint32_t generation, uint32_t n);

/* An upvalue's handle at the end of its suspended list, of 16 places: 4 if it is full, 2. */
uint32_t sieddesan_thread_suspended_push(uint32_t *w, size_t w_len, const uint8_t *b, size_t b_len,
                                         uint32_t index, uint32_t generation,
                                         uint32_t upvalue_index, uint32_t upvalue_generation);

/* The first n of its suspended list stay: 4. */
uint32_t sieddesan_thread_suspended_cut(uint32_t *w, size_t w_len, const uint8_t *b, size_t b_len,
                                        uint32_t index, uint32_t generation, uint32_t n);

/* Its global table: 2. */
uint32_t sieddesan_thread_set_global(uint32_t *w, size_t w_len, const uint8_t *b, size_t b_len,
                                     uint32_t index, uint32_t generation,
                                     uint32_t global_index, uint32_t global_generation);

/* Its error value: 2. */
uint32_t sieddesan_thread_set_error(uint32_t *w, size_t w_len, const uint8_t *b, size_t b_len,
                                    uint32_t index, uint32_t generation, uint32_t tag, uint32_t low, uint32_t high);

/* Its hook function: 2. */
uint32_t sieddesan_thread_set_hook(uint32_t *w, size_t w_len, const uint8_t *b, size_t b_len,
                                   uint32_t index, uint32_t generation, uint32_t tag, uint32_t low, uint32_t high);

/* Settings. out: the value before, two words, the low one first. */

/* The pause in percent, any number. */
uint32_t sieddesan_set_pause(uint32_t *w, size_t w_len, const uint8_t *b, size_t b_len, uint32_t n,
                             uint32_t *out, size_t out_len);

/* The step multiplier in percent, any number. */
uint32_t sieddesan_set_stepmul(uint32_t *w, size_t w_len, const uint8_t *b, size_t b_len, uint32_t n,
                               uint32_t *out, size_t out_len);

/* The limit in bytes, any number; 2^64 - 1 is none. A threshold above it becomes the limit. */
uint32_t sieddesan_set_limit(uint32_t *w, size_t w_len, const uint8_t *b, size_t b_len, uint64_t limit,
                             uint32_t *out, size_t out_len);

/* Steps. out, six words: which answer it is, then its numbers, 0 where there are none.
 *   0 stepped: its cost                     4 a finalizer is handed out: the userdata's handle, the method's value
 *   1 unfinished   2 ended   3 passed       5 busy: a finalizer is out   6 failed */

/* One step. */
uint32_t sieddesan_gc_singlestep(uint32_t *w, size_t w_len, uint8_t *b, size_t b_len, uint32_t *out, size_t out_len);

/* Steps until the budget is used up or the cycle ends. */
uint32_t sieddesan_gc_step(uint32_t *w, size_t w_len, uint8_t *b, size_t b_len, int64_t budget,
                           uint32_t *out, size_t out_len);

/* An automatic step. */
uint32_t sieddesan_gc_step_auto(uint32_t *w, size_t w_len, uint8_t *b, size_t b_len, uint32_t *out, size_t out_len);

/* An automatic step if it is due; 7 if the total is then above the limit. */
uint32_t sieddesan_gc_check(uint32_t *w, size_t w_len, uint8_t *b, size_t b_len, uint32_t *out, size_t out_len);

/* A full collection. */
uint32_t sieddesan_full_gc(uint32_t *w, size_t w_len, uint8_t *b, size_t b_len, uint32_t *out, size_t out_len);

/* The finalizer that is out is over, and what it interrupted goes on; it failed where ok is 0: 5, 7. */
uint32_t sieddesan_finish(uint32_t *w, size_t w_len, uint8_t *b, size_t b_len, uint32_t ok, uint32_t *out, size_t out_len);

/* The audit. It changes nothing. */

/* Whether the phase is Pause, each list is within its room, each chain holds every free slot below its arena's fresh index
 * once, and every handle in an occupied record names an occupied slot. out: 1 for yes, 0 for no, one word. */
uint32_t sieddesan_audit(const uint32_t *w, size_t w_len, const uint8_t *b, size_t b_len, uint32_t *out, size_t out_len);

/* Reads. They change nothing. out, four words: which kind of answer it is, then its words, 0 for the rest.
 *   0 a number, low word first      3 a string's handle that may be missing: some, index, generation
 *   1 a value                       4 an upvalue's handle
 *   2 a table's handle that may be  5 an item of a list: its kind (the tag of a table, function, userdata or thread; 9 the
 *     missing: some, index,           main thread), index, generation
 *     generation                    6 a userdata's handle that may be missing: some, index, generation
 * A question that a number asks is given by its place in the list below, from 0 on; a number past it is 4. An index is looked
 * at only by the questions that have one, marked (i); one outside its range is 4. */

/* Prototypes used, limit, pause, stepmul, next creation number, phase, current white, arena and slot of the sweep's cursor,
 * total, peak, estimate, threshold, debt plus 2^63, what the finalizer that is out interrupted, the budget that remains. */
uint32_t sieddesan_read_counter(const uint32_t *w, size_t w_len, const uint8_t *b, size_t b_len, uint32_t counter,
                                uint32_t *out, size_t out_len);

/* One of the ten sizes. */
uint32_t sieddesan_read_size(const uint32_t *w, size_t w_len, const uint8_t *b, size_t b_len, uint32_t size,
                             uint32_t *out, size_t out_len);

/* The userdata whose finalizer is out. */
uint32_t sieddesan_read_out(const uint32_t *w, size_t w_len, const uint8_t *b, size_t b_len, uint32_t *out, size_t out_len);

/* Global, registry, the names __mode and __gc, metatable of a type (i, as set_type_meta counts them). */
uint32_t sieddesan_read_root(const uint32_t *w, size_t w_len, const uint8_t *b, size_t b_len, uint32_t root, uint32_t index,
                             uint32_t *out, size_t out_len);

/* The main record: top, open upvalues, current frame, error value, hook function, place of the stack (i), open upvalue (i),
 * function index of a frame (i). */
uint32_t sieddesan_read_main(const uint32_t *w, size_t w_len, const uint8_t *b, size_t b_len, uint32_t field, uint32_t index,
                             uint32_t *out, size_t out_len);

/* A working list (gray, grayagain, weak, queue): length, item (i). */
uint32_t sieddesan_read_list(const uint32_t *w, size_t w_len, const uint8_t *b, size_t b_len, uint32_t list, uint32_t field,
                             uint32_t index, uint32_t *out, size_t out_len);

/* An arena (strings, tables, functions, upvalues, userdata, threads): head of the chain (index + 1, 0 for none), fresh index,
 * occupied slots, generation (i), colour (i), link (i) of a slot. */
uint32_t sieddesan_read_arena(const uint32_t *w, size_t w_len, const uint8_t *b, size_t b_len, uint32_t kind, uint32_t field,
                              uint32_t index, uint32_t *out, size_t out_len);

/* Objects, given by handle: one that names no occupied slot is 2, after 4 for the question and before 4 for the place. */

/* Length, byte (i). */
uint32_t sieddesan_read_string(const uint32_t *w, size_t w_len, const uint8_t *b, size_t b_len,
                               uint32_t index, uint32_t generation, uint32_t field, uint32_t at,
                               uint32_t *out, size_t out_len);

/* Metatable, array places, nodes, array value (i), key (i) and value (i) of a node. */
uint32_t sieddesan_read_table(const uint32_t *w, size_t w_len, const uint8_t *b, size_t b_len,
                              uint32_t index, uint32_t generation, uint32_t field, uint32_t at,
                              uint32_t *out, size_t out_len);

/* Whether it is a Rust closure, env, prototype, count of upvalues or values, upvalue (i), value (i). */
uint32_t sieddesan_read_closure(const uint32_t *w, size_t w_len, const uint8_t *b, size_t b_len,
                                uint32_t index, uint32_t generation, uint32_t field, uint32_t at,
                                uint32_t *out, size_t out_len);

/* Whether it is closed, its value. */
uint32_t sieddesan_read_upvalue(const uint32_t *w, size_t w_len, const uint8_t *b, size_t b_len,
                                uint32_t index, uint32_t generation, uint32_t field, uint32_t *out, size_t out_len);

/* Metatable, env, creation number, whether it is finalized. */
uint32_t sieddesan_read_userdata(const uint32_t *w, size_t w_len, const uint8_t *b, size_t b_len,
                                 uint32_t index, uint32_t generation, uint32_t field, uint32_t *out, size_t out_len);

/* Global, hook function, error value, places of its stack, top, open and suspended upvalues (how many), open upvalue (i),
 * suspended upvalue (i), place of the stack (i). */
uint32_t sieddesan_read_thread(const uint32_t *w, size_t w_len, const uint8_t *b, size_t b_len,
                               uint32_t index, uint32_t generation, uint32_t field, uint32_t at,
                               uint32_t *out, size_t out_len);

/* A prototype, by its number (4 if it is not used): constants, nested ones, parent (number + 1, 0 for none), constant (i),
 * nested number (i). */
uint32_t sieddesan_read_proto(const uint32_t *w, size_t w_len, const uint8_t *b, size_t b_len,
                              uint32_t number, uint32_t field, uint32_t at, uint32_t *out, size_t out_len);

#ifdef __cplusplus
}
#endif

#endif
