//! Every command of a script: its word, its arguments and the call it makes.

use crate::answer::Answer;
use crate::field::Field;
use crate::heap::Oracle;
use crate::line::Pieces;
use crate::refs::{AnyRef, StrRef, TableRef, ThreadRef, UdRef, UpvalRef};
use crate::value::Value;
use std::fmt;

macro_rules! commands {
    ($($name:ident $word:literal ($($arg:ident: $kind:ty),*) $method:ident;)*) => {
        /// A call with its arguments.
        #[derive(Clone, Debug, PartialEq)]
        pub enum Command {
            $(
                #[doc = concat!("`", $word, "`")]
                $name { $($arg: $kind),* },
            )*
        }

        /// The word of every command with the names of its arguments.
        pub const WORDS: &[(&str, &[&str])] = &[$(($word, &[$(stringify!($arg)),*])),*];

        impl Command {
            /// The word that scripts write for it.
            #[must_use]
            pub fn word(&self) -> &'static str {
                match self {
                    $(Self::$name { .. } => $word,)*
                }
            }

            /// Reads the arguments of a word; none if there is no such word.
            fn after(word: &str, pieces: &mut Pieces) -> Option<Result<Self, String>> {
                match word {
                    $($word => Some(Self::$method(pieces)),)*
                    _ => None,
                }
            }

            $(fn $method(pieces: &mut Pieces) -> Result<Self, String> {
                $(let $arg = <$kind as Field>::take(pieces)?;)*
                pieces.end()?;
                Ok(Self::$name { $($arg),* })
            })*
        }

        impl fmt::Display for Command {
            fn fmt(&self, f: &mut fmt::Formatter<'_>) -> fmt::Result {
                f.write_str(self.word())?;
                match self {
                    $(Self::$name { $($arg),* } => {
                        $(write!(f, " {}", Field::show($arg))?;)*
                    })*
                }
                Ok(())
            }
        }

        impl Oracle {
            /// Makes the call that the command names.
            pub fn call(&mut self, command: Command) -> Answer {
                match command {
                    $(Command::$name { $($arg),* } => Answer::from(self.$method($($arg),*)),)*
                }
            }
        }
    };
}

commands! {
    MakeString "make_string" (bytes: Vec<u8>) make_string;
    MakeTable "make_table" (array: u32, nodes: u32) make_table;
    MakeProto "make_proto" (constants: Vec<Value>, nested: Vec<u32>) make_proto;
    MakeLuaClosure "make_lua_closure" (proto: u32, env: TableRef, upvalues: Vec<UpvalRef>) make_lua_closure;
    MakeRustClosure "make_rust_closure" (env: Option<TableRef>, values: Vec<Value>) make_rust_closure;
    MakeOpenUpvalue "make_open_upvalue" () make_open_upvalue;
    MakeClosedUpvalue "make_closed_upvalue" (v: Value) make_closed_upvalue;
    MakeUserdata "make_userdata" () make_userdata;
    MakeThread "make_thread" (global: TableRef, stack: u32) make_thread;

    TableSet "table_set" (t: TableRef, i: u32, v: Value) table_set;
    TableSetNode "table_set_node" (t: TableRef, j: u32, k: Value, v: Value) table_set_node;
    TableSetMeta "table_set_meta" (t: TableRef, meta: Option<TableRef>) table_set_meta;
    UpvalueClose "upvalue_close" (u: UpvalRef, v: Value) upvalue_close;
    UpvalueSet "upvalue_set" (u: UpvalRef, v: Value) upvalue_set;
    UdSetMeta "ud_set_meta" (d: UdRef, meta: Option<TableRef>) ud_set_meta;
    UdSetEnv "ud_set_env" (d: UdRef, env: Option<TableRef>) ud_set_env;

    ThreadPush "thread_push" (h: ThreadRef, v: Value) thread_push;
    ThreadPop "thread_pop" (h: ThreadRef) thread_pop;
    ThreadSet "thread_set" (h: ThreadRef, i: u32, v: Value) thread_set;
    ThreadSetTop "thread_set_top" (h: ThreadRef, top: u32) thread_set_top;
    ThreadOpenPush "thread_open_push" (h: ThreadRef, u: UpvalRef) thread_open_push;
    ThreadOpenCut "thread_open_cut" (h: ThreadRef, count: u32) thread_open_cut;
    ThreadSuspendedPush "thread_suspended_push" (h: ThreadRef, u: UpvalRef) thread_suspended_push;
    ThreadSuspendedCut "thread_suspended_cut" (h: ThreadRef, count: u32) thread_suspended_cut;
    ThreadSetGlobal "thread_set_global" (h: ThreadRef, t: TableRef) thread_set_global;
    ThreadSetError "thread_set_error" (h: ThreadRef, v: Value) thread_set_error;
    ThreadSetHook "thread_set_hook" (h: ThreadRef, v: Value) thread_set_hook;

    Push "push" (v: Value) push;
    Pop "pop" () pop;
    StackSet "stack_set" (i: u32, v: Value) stack_set;
    SetTop "set_top" (top: u32) set_top;
    OpenPush "open_push" (u: UpvalRef) open_push;
    OpenCut "open_cut" (count: u32) open_cut;
    SetFrame "set_frame" (frame: u32, function: u32) set_frame;
    SetCi "set_ci" (ci: u32) set_ci;
    SetError "set_error" (v: Value) set_error;
    SetHook "set_hook" (v: Value) set_hook;
    SetTypeMeta "set_type_meta" (kind: u32, meta: Option<TableRef>) set_type_meta;

    GcSinglestep "gc_singlestep" () gc_singlestep;
    GcStep "gc_step" (budget: i64) gc_step;
    GcStepAuto "gc_step_auto" () gc_step_auto;
    FullGc "full_gc" () full_gc;
    GcCheck "gc_check" () gc_check;
    Finish "finish" (ok: bool) finish;
    SetPause "set_pause" (percent: u32) set_pause;
    SetStepmul "set_stepmul" (percent: u32) set_stepmul;
    SetLimit "set_limit" (limit: Option<u64>) set_limit;

    Audit "audit" () audit;
    Colour "colour" (handle: AnyRef) colour;
    Record "record" (handle: AnyRef) record;
    StringBytes "string_bytes" (s: StrRef) string_bytes;
    TableGet "table_get" (t: TableRef, i: u32) table_get;
    TableKey "table_key" (t: TableRef, j: u32) table_key;
    TableValue "table_value" (t: TableRef, j: u32) table_value;
    ThreadGet "thread_get" (h: ThreadRef, i: u32) thread_get;
    StackGet "stack_get" (i: u32) stack_get;
    Counters "counters" () counters_line;
    Dump "dump" () snapshot;
}

impl Command {
    /// Reads a line of a script.
    ///
    /// # Errors
    /// A sentence without line number: an unknown word or wrong arguments.
    pub fn parse(line: &str) -> Result<Self, String> {
        let mut pieces = Pieces::of(line)?;
        let word = pieces.word("a command")?;
        match Self::after(&word, &mut pieces) {
            None => Err(format!("unknown command: {word}")),
            Some(read) => read.map_err(|why| format!("wrong arguments: {word}: {why}")),
        }
    }
}
