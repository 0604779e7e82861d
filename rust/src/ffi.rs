//! The declarations of the headers in `c/include` that are used here. The test below compares them with what a C compiler says.

#![allow(non_camel_case_types, reason = "the names are those of the header")]

use core::ffi::{c_char, c_int, c_long, c_uint, c_void};
use core::mem::MaybeUninit;
use core::ptr;
use core::sync::atomic::AtomicU32;
use core::sync::atomic::Ordering::SeqCst;

/// The first number of the library's version, which changes with its binary interface: that of the headers with which the tests
/// below compare this file.
pub const INTERFACE: u32 = match u32::from_str_radix(env!("WW_INTERFACE"), 10) {
    Ok(number) => number,
    Err(_) => panic!("it is a number"),
};

#[repr(C)]
pub struct ww_pool {
    _inside: [u8; 0],
}

#[repr(C)]
pub struct ww_seat {
    _inside: [u8; 0],
}

#[repr(C)]
pub struct ww_class {
    pub pool: *mut ww_pool,
    pub mutexes: u32,
    pub contexts: u32,
    pub is_wait_die: c_int,
    pub permits: u32,
    pub name: *const c_char,
}

#[repr(C)]
#[derive(Default)]
pub struct ww_class_counts {
    pub back_offs: u64,
    pub lock_waits: u64,
    pub context_waits: u64,
    pub permit_waits: u64,
    pub contexts: u64,
    pub context_waiters: u64,
    pub task_contexts: u64,
}

#[repr(C)]
pub struct ww_mutex {
    _inside: [u8; 0],
}

/// It begins with a `ww_mutex`.
#[repr(C)]
pub struct ww_shared_mutex {
    _inside: [u8; 0],
}

/// C alone knows its fields, and writes only some of them when it begins: so it is memory, of which this crate accesses the two
/// fields below. A copy keeps each byte.
#[repr(C)]
pub struct ww_acquire_ctx {
    _memory: [MaybeUninit<u64>; 12],
}

const OWN: usize = 8;
const ACQUIRED: usize = 24;
const CONTENDING_LOCK: usize = 32;
/// In a `ww_mutex`.
const WAITERS: usize = 28;
/// Bits of that word, which `c/admit/slot.h` has.
const IS_OF_NUMBER: u32 = 1 << 29;
const IS_TAKEN: u32 = 1 << 31;

impl ww_acquire_ctx {
    pub const fn uninit() -> Self {
        ww_acquire_ctx { _memory: [MaybeUninit::uninit(); 12] }
    }
}

/// Its seat; null before it has begun, and once it has ended.
///
/// # Safety
///
/// The memory of a context is there.
#[inline]
pub unsafe fn own(ctx: *mut ww_acquire_ctx) -> *mut *mut ww_seat {
    // SAFETY: the field lies there.
    unsafe { ctx.byte_add(OWN).cast() }
}

/// How many locks it has.
///
/// # Safety
///
/// As that of `own`.
#[inline]
pub unsafe fn acquired(ctx: *mut ww_acquire_ctx) -> *mut c_uint {
    // SAFETY: the field lies there.
    unsafe { ctx.byte_add(ACQUIRED).cast() }
}

/// The mutex at which a context got `Deadlock`. As long as this is there the context counts as one that waits for it: so, if it
/// wasn't dropped before, no other mutex gets its number meanwhile.
pub struct Contended(&'static AtomicU32);

impl Contended {
    /// # Safety
    ///
    /// The last lock call of the context returned `-EDEADLK`. The class is never freed.
    pub unsafe fn of(ctx: *mut ww_acquire_ctx) -> Self {
        // SAFETY: the fields lie there. The mutex is one of a number, or of a reader, which the class has until it is freed; its
        // word is accessed atomically alone.
        let waiters = unsafe {
            let mutex: *mut ww_mutex = ctx.byte_add(CONTENDING_LOCK).cast::<*mut ww_mutex>().read();
            AtomicU32::from_ptr(mutex.byte_add(WAITERS).cast())
        };
        waiters.fetch_add(1, SeqCst);
        Contended(waiters)
    }

    /// Whether that was dropped, so that nobody can ask for it any more: its number was put back. A reader's has none to put back.
    pub fn is_gone(&self) -> bool {
        self.0.load(SeqCst) & (IS_OF_NUMBER | IS_TAKEN) == IS_OF_NUMBER
    }
}

impl Drop for Contended {
    fn drop(&mut self) {
        self.0.fetch_sub(1, SeqCst);
    }
}

/// That of `c/include/ww_poll.h`.
#[cfg(feature = "async")]
#[repr(C)]
#[derive(Clone, Copy)]
pub struct ww_waker {
    pub wake: Option<unsafe extern "C" fn(*mut c_void, *mut c_void)>,
    pub r#loop: *mut c_void,
    pub task: *mut c_void,
}

#[cfg(feature = "async")]
#[repr(C)]
#[allow(clippy::struct_field_names, reason = "the names are those of the header")]
pub struct ww_seek {
    pub next_: *mut ww_seek,
    pub of_: *mut c_void,
    pub seat_: *mut ww_seat,
    pub waker_: ww_waker,
    pub served_: u32,
    pub heeds_: u16,
    pub is_within: u16,
}

#[cfg(feature = "async")]
impl ww_seek {
    pub const fn new(is_within: bool) -> Self {
        let waker_ = ww_waker { wake: None, r#loop: ptr::null_mut(), task: ptr::null_mut() };
        let (next_, of_, seat_) = (ptr::null_mut(), ptr::null_mut(), ptr::null_mut());
        ww_seek { next_, of_, seat_, waker_, served_: 0, heeds_: 0, is_within: is_within as u16 }
    }
}

/// As 64-bit Linux has it.
#[repr(C)]
#[derive(Clone, Copy, PartialEq, Eq, PartialOrd, Ord)]
pub struct timespec {
    pub tv_sec: c_long,
    pub tv_nsec: c_long,
}

pub const CLOCK_MONOTONIC: c_int = 1;

/// A suspended context; zeros: none.
#[repr(C)]
#[allow(clippy::struct_field_names, reason = "the names are those of the header")]
pub struct ww_retry {
    pub ticket_: u64,
    pub seat_: u32,
    pub awaits_: u32,
}

/// Who has a mutex or waits for it.
#[repr(C)]
#[derive(Clone, Copy, Default)]
pub struct ww_user {
    pub label: u64,
    pub place: u32,
    pub part: c_uint,
}

pub const WW_NOBODY: c_uint = 0;
pub const WW_HOLDS: c_uint = 1;
pub const WW_READS: c_uint = 2;

#[repr(C)]
#[derive(Clone, Copy)]
pub struct ww_place {
    pub mutex: *mut ww_mutex,
    pub number: u32,
    pub by: ww_user,
}

impl ww_place {
    pub const fn none() -> Self {
        ww_place { mutex: ptr::null_mut(), number: 0, by: ww_user { label: 0, place: 0, part: WW_NOBODY } }
    }
}

#[repr(C)]
pub struct ww_why {
    pub at: ww_place,
    pub wanted: ww_place,
}

#[repr(C)]
#[derive(Default)]
pub struct ww_acquire_counts {
    pub waits: u64,
    pub back_offs: u64,
    pub waited_ns: u64,
}

#[repr(C)]
pub struct ww_table {
    _inside: [u8; 0],
}

pub const WW_TABLE_SHARED: c_uint = 0;
pub const WW_TABLE_EXCLUSIVE: c_uint = 1;
pub const WW_TABLE_WAITS: c_uint = 0;
pub const WW_TABLE_TRIES: c_uint = 1;

#[repr(C)]
pub struct ww_table_user {
    pub key: *const c_void,
    pub length: usize,
    pub owner: u64,
    pub mode: c_uint,
    pub waits: bool,
}

#[repr(C)]
pub struct ww_table_how {
    pub owner: u64,
    pub by: c_uint,
    pub until: *const timespec,
    /// No poll is made here.
    pub waker: *const c_void,
    pub meets: Option<unsafe extern "C" fn(data: *mut c_void, user: *const ww_table_user) -> bool>,
    pub waits: Option<unsafe extern "C" fn(data: *mut c_void, how: *mut ww_table_how) -> c_int>,
    pub data: *mut c_void,
}

/// A function that is shown who uses a key.
pub type sees = unsafe extern "C" fn(data: *mut c_void, user: *const ww_table_user);

/// Flags of `ww_acquire_flags`.
pub const WW_INTERRUPTIBLE: c_uint = 2;
pub const WW_MAY_BE_OLDER: c_uint = 4;

pub const EINTR: c_int = 4;
pub const EAGAIN: c_int = 11;
pub const ENOMEM: c_int = 12;
pub const EBUSY: c_int = 16;
pub const ENOSPC: c_int = 28;
pub const EDEADLK: c_int = 35;
pub const ETIMEDOUT: c_int = 110;
pub const EALREADY: c_int = 114;
#[cfg(feature = "async")]
pub const EINPROGRESS: c_int = 115;

extern "C" {
    pub fn ww_version() -> u32;
    pub fn ww_report_to(
        function: Option<unsafe extern "C" fn(data: *mut c_void, message: *const c_char)>,
        data: *mut c_void,
    );

    pub fn ww_class_open(class: *mut ww_class) -> c_int;
    pub fn ww_class_cancel(class: *mut ww_class) -> c_int;
    pub fn ww_class_stats(class: *mut ww_class, counts: *mut ww_class_counts);

    pub fn ww_acquire_init_checked(ctx: *mut ww_acquire_ctx, class: *mut ww_class) -> c_int;
    pub fn ww_acquire_init_until(ctx: *mut ww_acquire_ctx, class: *mut ww_class, monotonic: *const timespec) -> c_int;
    pub fn ww_acquire_flags(ctx: *mut ww_acquire_ctx, flags: c_uint);
    pub fn ww_acquire_fini(ctx: *mut ww_acquire_ctx);
    pub fn ww_acquire_cancel(ctx: *mut ww_acquire_ctx) -> c_int;
    pub fn ww_acquire_end_reads(ctx: *mut ww_acquire_ctx);

    pub fn ww_number_take(number: *mut u32, class: *mut ww_class) -> c_int;
    pub fn ww_number_leave(number: u32, class: *mut ww_class);
    /// Where that mutex of the library is, as long as the class is open.
    pub fn ww_number_at(number: u32, class: *mut ww_class) -> *mut ww_shared_mutex;
    fn ww_number_lock(number: u32, ctx: *mut ww_acquire_ctx) -> c_int;
    pub fn ww_number_trylock(number: u32, ctx: *mut ww_acquire_ctx) -> c_int;
    fn ww_number_unlock(number: u32, ctx: *mut ww_acquire_ctx) -> c_int;

    pub fn ww_mutex_lock_until(mutex: *mut ww_mutex, ctx: *mut ww_acquire_ctx, monotonic: *const timespec) -> c_int;
    pub fn ww_mutex_trylock(mutex: *mut ww_mutex, ctx: *mut ww_acquire_ctx) -> c_int;
    pub fn ww_mutex_unlock(mutex: *mut ww_mutex);
    pub fn ww_mutex_is_locked(mutex: *mut ww_mutex) -> bool;
    pub fn ww_shared_mutex_lock_shared_until(
        mutex: *mut ww_shared_mutex,
        ctx: *mut ww_acquire_ctx,
        monotonic: *const timespec,
    ) -> c_int;
    pub fn ww_shared_mutex_lock_until(
        mutex: *mut ww_shared_mutex,
        ctx: *mut ww_acquire_ctx,
        monotonic: *const timespec,
    ) -> c_int;
    pub fn ww_shared_mutex_trylock_shared(mutex: *mut ww_shared_mutex, ctx: *mut ww_acquire_ctx) -> c_int;
    pub fn ww_shared_mutex_trylock(mutex: *mut ww_shared_mutex, ctx: *mut ww_acquire_ctx) -> c_int;
    pub fn ww_shared_mutex_downgrade(mutex: *mut ww_shared_mutex, ctx: *mut ww_acquire_ctx);
    pub fn ww_shared_mutex_is_locked(mutex: *const ww_shared_mutex) -> bool;
    pub fn ww_shared_mutex_is_written_by(mutex: *const ww_shared_mutex, ctx: *const ww_acquire_ctx) -> bool;
    pub fn ww_shared_mutex_is_read_by(mutex: *const ww_shared_mutex, ctx: *const ww_acquire_ctx) -> bool;
    pub fn ww_shared_mutex_await(ctx: *mut ww_acquire_ctx, monotonic: *const timespec) -> c_int;

    pub fn ww_acquire_suspend(ctx: *mut ww_acquire_ctx, retry: *mut ww_retry) -> c_int;
    pub fn ww_acquire_resume(
        ctx: *mut ww_acquire_ctx,
        class: *mut ww_class,
        retry: *mut ww_retry,
        monotonic: *const timespec,
    ) -> c_int;
    pub fn ww_retry_drop(retry: *mut ww_retry) -> c_int;

    pub fn ww_acquire_label(ctx: *mut ww_acquire_ctx, label: u64) -> c_int;
    pub fn ww_acquire_why(ctx: *const ww_acquire_ctx, why: *mut ww_why) -> c_int;
    pub fn ww_acquire_cycle(ctx: *const ww_acquire_ctx, path: *mut ww_place, room: usize) -> usize;
    pub fn ww_acquire_count(ctx: *const ww_acquire_ctx, counts: *mut ww_acquire_counts) -> c_int;
    pub fn ww_mutex_users(mutex: *const ww_mutex, users: *mut ww_user, room: usize) -> usize;

    pub fn ww_table_open(table: *mut *mut ww_table, class: *mut ww_class, keys: u32) -> c_int;
    pub fn ww_table_close(table: *mut ww_table) -> c_int;
    pub fn ww_table_lock(
        table: *mut ww_table,
        ctx: *mut ww_acquire_ctx,
        key: *const c_void,
        length: usize,
        mode: c_uint,
        how: *const ww_table_how,
    ) -> c_int;
    pub fn ww_table_unlock(table: *mut ww_table, ctx: *mut ww_acquire_ctx, key: *const c_void, length: usize) -> c_int;
    pub fn ww_table_mark(table: *mut ww_table, ctx: *const ww_acquire_ctx) -> usize;
    pub fn ww_table_unlock_to(table: *mut ww_table, ctx: *mut ww_acquire_ctx, mark: usize);
    pub fn ww_table_see(table: *mut ww_table, key: *const c_void, length: usize, see: sees, data: *mut c_void)
        -> usize;

    // The calls of which those are made that the header compiles into its callers.
    fn ww_try_(seat: *mut ww_seat, lock: u32) -> i32;
    fn ww_unlock_(seat: *mut ww_seat, lock: u32) -> i32;
    fn ww_number_unlock_further_(number: u32, ctx: *mut ww_acquire_ctx, r: c_int) -> c_int;

    /// Of the C library, which std links.
    pub fn clock_gettime(clock: c_int, at: *mut timespec) -> c_int;
}

#[cfg(feature = "debug-library")]
extern "C" {
    pub fn ww_debug_line_(file: *const c_char, line: c_int);
}

#[cfg(feature = "async")]
extern "C" {
    pub fn ww_acquire_init_poll(
        ctx: *mut ww_acquire_ctx,
        class: *mut ww_class,
        seek: *mut ww_seek,
        waker: *const ww_waker,
    ) -> c_int;
    pub fn ww_mutex_lock_poll(mutex: *mut ww_mutex, ctx: *mut ww_acquire_ctx, waker: *const ww_waker) -> c_int;
    pub fn ww_shared_mutex_lock_shared_poll(
        mutex: *mut ww_shared_mutex,
        ctx: *mut ww_acquire_ctx,
        waker: *const ww_waker,
    ) -> c_int;
    pub fn ww_shared_mutex_lock_poll(
        mutex: *mut ww_shared_mutex,
        ctx: *mut ww_acquire_ctx,
        waker: *const ww_waker,
    ) -> c_int;
    pub fn ww_shared_mutex_await_poll(ctx: *mut ww_acquire_ctx, waker: *const ww_waker) -> c_int;
    pub fn ww_acquire_resume_poll(
        ctx: *mut ww_acquire_ctx,
        class: *mut ww_class,
        retry: *mut ww_retry,
        seek: *mut ww_seek,
        waker: *const ww_waker,
    ) -> c_int;
    pub fn ww_seek_end(seek: *mut ww_seek);
    pub fn ww_acquire_end_wait(ctx: *mut ww_acquire_ctx) -> c_int;
    pub fn ww_poll_take_back(ctx: *mut ww_acquire_ctx, seek: *mut ww_seek) -> bool;
}

/// Acquires a shared mutex, to write it or to read it, if that can be at once. It doesn't where the caller may have references that
/// this excludes: to what the context writes, or to what it reads and would write.
///
/// # Safety
///
/// The mutex is of the context's class; the context has begun, and no call of it is on its way.
pub unsafe fn tries_shared(mutex: *mut ww_shared_mutex, ctx: *mut ww_acquire_ctx, writes: bool) -> bool {
    // SAFETY: as asked for here.
    unsafe {
        if ww_shared_mutex_is_written_by(mutex, ctx) {
            false
        } else if writes {
            !ww_shared_mutex_is_read_by(mutex, ctx) && ww_shared_mutex_trylock(mutex, ctx) == 1
        } else {
            ww_shared_mutex_trylock_shared(mutex, ctx) == 1
        }
    }
}

/// Whether the first step of a lock is enough, if it is compiled into the caller.
///
/// # Safety
///
/// The context has begun, no call of it is on its way, and nothing else is done with it meanwhile.
#[cfg(feature = "async")]
#[inline]
pub unsafe fn locks_at_once(number: u32, ctx: *mut ww_acquire_ctx) -> bool {
    // SAFETY: as the caller promises. Only the context's user accesses what is read and written of it here.
    unsafe {
        if cfg!(ww_no_inline) || ww_try_(*own(ctx), number) != 0 {
            return false;
        }
        *acquired(ctx) += 1;
    }
    true
}

/// `ww_number_lock`, as the header compiles it into its callers, by a context that has begun, and hasn't ended.
///
/// # Safety
///
/// That of `ww_number_lock`; nothing else is done with the context meanwhile.
#[inline]
pub unsafe fn lock(number: u32, ctx: *mut ww_acquire_ctx) -> c_int {
    // SAFETY: as the caller promises. Only the context's own thread accesses what is read and written of it here.
    unsafe {
        if cfg!(ww_no_inline) || ww_try_(*own(ctx), number) != 0 {
            return ww_number_lock(number, ctx);
        }
        *acquired(ctx) += 1;
    }
    0
}

/// `ww_number_unlock`, likewise.
///
/// # Safety
///
/// The context holds it.
#[inline]
pub unsafe fn unlock(number: u32, ctx: *mut ww_acquire_ctx) {
    // SAFETY: as above.
    unsafe {
        let r = unlock_at_once(number, ctx);
        if r != 0 {
            unlock_and_wake(number, ctx, r);
        }
    }
}

/// Its first step: 0, or what `unlock_further` takes.
///
/// # Safety
///
/// That of `unlock`.
#[inline]
pub unsafe fn unlock_at_once(number: u32, ctx: *mut ww_acquire_ctx) -> c_int {
    // SAFETY: as above.
    unsafe {
        let r = if cfg!(ww_no_inline) { NOTHING_WAS_DONE } else { ww_unlock_(*own(ctx), number) };
        if r == 0 {
            *acquired(ctx) -= 1;
        }
        r
    }
}

/// A first step that wasn't made.
pub const NOTHING_WAS_DONE: c_int = -1;

/// The other steps. They may call wakers, but don't block.
///
/// # Safety
///
/// That of `unlock`; the first step returned this.
pub unsafe fn unlock_further(number: u32, ctx: *mut ww_acquire_ctx, r: c_int) {
    // SAFETY: as asked for here.
    unsafe {
        if r == NOTHING_WAS_DONE {
            ww_number_unlock(number, ctx);
        } else {
            ww_number_unlock_further_(number, ctx, r);
        }
    }
}

/// # Safety
///
/// That of `unlock_further`.
#[cold]
unsafe fn unlock_and_wake(number: u32, ctx: *mut ww_acquire_ctx, r: c_int) {
    // SAFETY: as asked for here.
    waking_after(|| unsafe { unlock_further(number, ctx, r) });
}

#[cfg(feature = "async")]
use crate::task::waking_after;

/// Without tasks there are no wakers.
#[cfg(not(feature = "async"))]
fn waking_after(call: impl FnOnce()) {
    call();
}

/// `ww_shared_mutex_downgrade`, after which wakers are called.
///
/// # Safety
///
/// The context writes the mutex, and no call of it is on its way.
pub unsafe fn downgrade(mutex: *mut ww_shared_mutex, ctx: *mut ww_acquire_ctx) {
    // SAFETY: as asked for here.
    waking_after(|| unsafe { ww_shared_mutex_downgrade(mutex, ctx) });
}

#[cfg(test)]
mod tests {
    #[cfg(feature = "async")]
    use super::ww_seek;
    use super::{
        timespec, ww_acquire_counts, ww_acquire_ctx, ww_class, ww_class_counts, ww_place, ww_retry, ww_table_how,
        ww_table_user, ww_user, ww_why, ACQUIRED, CONTENDING_LOCK, INTERFACE, OWN, WAITERS,
    };
    use std::fmt::Write as _;
    use std::io::Write;
    use std::mem::{align_of, offset_of, size_of};
    use std::process::{Command, Stdio};
    use std::{env, fs};

    /// What a program in C has to print, and the same as it is here.
    macro_rules! layouts {
        ($( $name:ident: $($field:ident)* ;)*) => {{
            let mut source = String::new();
            let mut here = String::new();
            $(
                source += concat!("SIZE(struct ", stringify!($name), ")\n");
                here += &format!("{} {}\n", size_of::<$name>(), align_of::<$name>());
                $(
                    source += concat!("PLACE(struct ", stringify!($name), ", ", stringify!($field), ")\n");
                    here += &format!("{}\n", offset_of!($name, $field));
                )*
            )*
            (source, here)
        }};
    }

    #[test]
    fn the_layouts_are_those_of_the_header() {
        let (asked, here) = layouts! {
            ww_class: pool mutexes contexts is_wait_die permits name;
            ww_class_counts: back_offs lock_waits context_waits permit_waits contexts context_waiters
                task_contexts;
            ww_acquire_ctx: ;
            timespec: tv_sec tv_nsec;
            ww_retry: ticket_ seat_ awaits_;
            ww_user: label place part;
            ww_place: mutex number by;
            ww_why: at wanted;
            ww_acquire_counts: waits back_offs waited_ns;
            ww_table_user: key length owner mode waits;
            ww_table_how: owner by until waker meets waits data;
        };
        let fields = "PLACE(struct ww_acquire_ctx, own)\nPLACE(struct ww_acquire_ctx, acquired)\n\
                      PLACE(struct ww_acquire_ctx, contending_lock)\nPLACE(struct ww_mutex, waiters)\n";
        let (asked, here) = (asked + fields, here + &format!("{OWN}\n{ACQUIRED}\n{CONTENDING_LOCK}\n{WAITERS}\n"));
        #[cfg(feature = "async")]
        let (asked, here) = {
            let (more, too) = layouts! {
                ww_seek: next_ of_ seat_ waker_ served_ heeds_ is_within;
            };
            (asked + &more, here + &too)
        };
        let source = format!(
            "#include \"ww_poll.h\"\n#include \"ww_retry.h\"\n#include \"ww_table.h\"\n#include \"ww_why.h\"\n#include <stdio.h>\n\
             #define SIZE(it) printf(\"%zu %zu\\n\", sizeof(it), _Alignof(it));\n\
             #define PLACE(it, field) printf(\"%zu\\n\", offsetof(it, field));\n\
             int main(void) {{\n{asked}}}\n"
        );
        let work = env::temp_dir().join(format!("ww_mutex_layouts_{}", std::process::id()));
        fs::create_dir_all(&work).unwrap();
        fs::write(work.join("layouts.c"), source).unwrap();
        let compiled = compiler().args(["layouts.c", "-o", "layouts"]).current_dir(&work).status();
        assert!(compiled.unwrap().success());
        let there = Command::new(work.join("layouts")).output().unwrap().stdout;
        fs::remove_dir_all(&work).unwrap();
        assert_eq!(here, String::from_utf8(there).unwrap());
    }

    fn compiler() -> Command {
        let mut compiler = Command::new(env::var("CC").unwrap_or_else(|_| "cc".into()));
        let (packed, beside) = ("/c/include", "/../c/include");
        compiler.args([packed, beside].map(|include| concat!("-I", env!("CARGO_MANIFEST_DIR")).to_owned() + include));
        compiler
    }

    /// A type in C.
    fn in_c(rust: &str) -> String {
        if let Some(pointee) = rust.strip_prefix("*mut ") {
            return in_c(pointee) + " *";
        }
        if let Some(pointee) = rust.strip_prefix("*const ") {
            return format!("const {} *", in_c(pointee));
        }
        match rust {
            "c_int" => "int",
            "c_uint" => "unsigned int",
            "c_char" => "char",
            "usize" => "size_t",
            "" | "c_void" => "void",
            "i32" => "int32_t",
            "u32" => "uint32_t",
            "u64" => "uint64_t",
            "bool" | "reports" | "sees" => rust,
            other => return format!("struct {other}"),
        }
        .into()
    }

    /// For each function that this file declares a pointer of its type, to which that of the header is assigned. How many there
    /// are. Those of the proved core are compared by `check_prototypes`.
    fn signatures(rust: &str) -> (String, usize) {
        let reports = "Option<unsafe extern \"C\" fn(data: *mut c_void, message: *const c_char)>";
        let rust: Vec<_> = rust.lines().filter(|line| !line.trim_start().starts_with("//")).map(str::trim).collect();
        let rust = rust.join("\n").replace(reports, "reports");
        let mut source = String::from(
            "#define WW_NO_INLINE\n#include \"ww_poll.h\"\n#include \"ww_shared.h\"\n#include \"ww_number.h\"\n\
             #include \"ww_retry.h\"\n#include \"ww_table.h\"\n#include \"ww_why.h\"\n\
             #include \"ww_mutex_debug.h\"\n#include <time.h>\ntypedef void (*reports)(void *, const char *);\n\
             typedef void (*sees)(void *, const struct ww_table_user *);\n",
        );
        let mut count = 0;
        for block in rust.split("\nextern \"C\" {\n").skip(1) {
            let block = block[..block.find("\n}").unwrap()].replace('\n', " ");
            for function in block.split(';').filter_map(|it| it.split_once("fn ")).map(|(_, it)| it) {
                let (name, types) = function.split_once('(').unwrap();
                let (taken, told) = types.split_once(')').unwrap();
                if ["ww_try_", "ww_unlock_"].contains(&name) {
                    continue;
                }
                let types = taken.split(',').filter_map(|it| it.split_once(": ")).map(|(_, it)| in_c(it.trim()));
                let taken = types.collect::<Vec<_>>().join(", ");
                let told = in_c(told.trim().trim_start_matches("-> "));
                let taken = if taken.is_empty() { "void" } else { &taken };
                writeln!(source, "{told} (*p_{name})({taken}) = {name};").unwrap();
                count += 1;
            }
        }
        (source, count)
    }

    #[test]
    fn the_signatures_are_those_of_the_header() {
        let fits = |source: &str| {
            let mut compiler = compiler();
            compiler.args(["-std=gnu11", "-Werror", "-fsyntax-only", "-xc", "-"]);
            let mut compiler = compiler.stdin(Stdio::piped()).stderr(Stdio::piped()).spawn().unwrap();
            compiler.stdin.take().unwrap().write_all(source.as_bytes()).unwrap();
            let ended = compiler.wait_with_output().unwrap();
            if ended.status.success() {
                Ok(())
            } else {
                Err(String::from_utf8(ended.stderr).unwrap())
            }
        };
        let here = include_str!("ffi.rs");
        let (source, count) = signatures(here);
        assert_eq!((fits(&source), count > 45), (Ok(()), true));
        // Planted faults are found.
        for (right, wrong) in [
            ("fn ww_number_lock(number: u32", "fn ww_number_lock(number: u64"),
            ("fn ww_acquire_fini(ctx: *mut ww_acquire_ctx)", "fn ww_acquire_fini(ctx: *mut ww_class)"),
            (
                "fn ww_mutex_is_locked(mutex: *mut ww_mutex) -> bool",
                "fn ww_mutex_is_locked(mutex: *mut ww_mutex) -> c_int",
            ),
            ("fn ww_class_open(class: *mut ww_class)", "fn ww_class_open(class: *mut ww_class, more: c_int)"),
        ] {
            assert!(here.contains(right) && fits(&signatures(&here.replacen(right, wrong, 1)).0).is_err(), "{wrong}");
        }
    }

    #[test]
    fn the_library_has_this_interface() {
        assert_eq!(crate::library_version() / 10_000, INTERFACE);
    }
}
