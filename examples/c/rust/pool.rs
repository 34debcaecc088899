//! A pool of buffers for the threads of a Rust program, over the C library `pool_c`. A buffer gives
//! its memory back as it goes out of scope.
//!
//! What C callers have to keep is kept by the types: a handle is neither copied nor forged, a thread
//! is used by one thread at a time (it is `Send` and not `Sync`), its buffers stay with it (they
//! borrow it), and each pool has a name of its own.

mod raw;
#[cfg(test)]
mod tests;

use raw::{PoolBuffer, PoolConfig, PoolParcel, PoolThread};
use std::cell::UnsafeCell;
use std::fmt;
use std::mem::{self, ManuallyDrop};
use std::ptr;
use std::sync::atomic::{AtomicU32, Ordering};

pub use raw::PoolEnd;

/// Why a call was refused. Nothing has changed then.
#[derive(Clone, Copy, Debug, PartialEq, Eq)]
pub enum Refused {
    /// The buffer or parcel is another thread's or another pool's.
    NotHere,
    /// The range passes an end of the buffer.
    Range,
    /// The thread has used up its turns or its moves.
    Spent,
    /// More bytes than a chunk has.
    TooLarge,
    /// The thread has as many live buffers as it may.
    NoHandle,
    /// The thread's arena has no such region left.
    Full,
    /// The pool has no thread of that number.
    NoThread,
    /// An earlier parcel of the same way was not accepted.
    OutOfOrder,
    /// A measure is outside its limits.
    Shape,
    /// There was no memory.
    NoMemory,
    /// An answer that these types rule out, by its number in C.
    Other(i32),
}

impl fmt::Display for Refused {
    fn fmt(&self, f: &mut fmt::Formatter<'_>) -> fmt::Result {
        write!(f, "refused by the pool: {self:?}")
    }
}

impl std::error::Error for Refused {}

const OK: i32 = 0;
const BUSY: i32 = 1;
const WORN: i32 = 8;

/// Makes a call until no other thread is in its way.
fn done(mut call: impl FnMut() -> i32) -> Result<(), Refused> {
    loop {
        match call() {
            OK => return Ok(()),
            BUSY | WORN => std::thread::yield_now(),
            2 => return Err(Refused::NotHere),
            3 => return Err(Refused::Range),
            4 => return Err(Refused::Spent),
            5 => return Err(Refused::TooLarge),
            6 => return Err(Refused::NoHandle),
            7 => return Err(Refused::Full),
            9 => return Err(Refused::NoThread),
            10 => return Err(Refused::OutOfOrder),
            11 => return Err(Refused::Shape),
            13 => return Err(Refused::NoMemory),
            other => return Err(Refused::Other(other)),
        }
    }
}

/// The measures of a pool, as the header says them.
#[derive(Clone, Copy, Debug)]
pub struct Config {
    pub threads: u32,
    pub page: u32,
    pub order: u32,
    pub arenas: u32,
    pub chunks: u32,
    pub handles: u32,
    pub interval: u32,
}

impl Config {
    /// Chunks of 4 MiB, an arena for each thread but 8 at most, 1,024 live buffers of each thread, and
    /// one of 128 allocations watched.
    pub fn for_threads(threads: u32) -> Config {
        Config {
            threads,
            page: 8192,
            order: 9,
            arenas: threads.clamp(1, 8),
            chunks: 1,
            handles: 1024,
            interval: 128,
        }
    }
}

/// The number of the next pool. No two pools of a program have one name.
static NEXT: AtomicU32 = AtomicU32::new(1);

/// A pool with its threads. Dropped, it is closed.
pub struct Pool {
    threads: Vec<Thread>,
}

impl Pool {
    /// Opens a pool.
    pub fn open(config: Config) -> Result<Pool, Refused> {
        let raw = PoolConfig {
            name: NEXT.fetch_add(1, Ordering::Relaxed),
            threads: config.threads,
            page: config.page,
            order: config.order,
            arenas: config.arenas,
            chunks: config.chunks,
            handles: config.handles,
            interval: config.interval,
        };
        let mut threads: Vec<Thread> = (0..config.threads).map(|_| Thread::empty()).collect();
        let (at, count) = (threads.as_mut_ptr().cast::<PoolThread>(), threads.len());
        // SAFETY: the handles are zeroed, as many as said, and lie side by side: `Thread` is one.
        done(|| unsafe { raw::pool_open(&raw, at, count) })?;
        Ok(Pool { threads })
    }

    /// Its threads, by number. Each may be lent to another thread of the program.
    pub fn threads(&mut self) -> &mut [Thread] {
        &mut self.threads
    }

    /// Closes it, and tells what stood then.
    pub fn close(self) -> Result<PoolEnd, Refused> {
        ManuallyDrop::new(self).end()
    }

    fn end(&mut self) -> Result<PoolEnd, Refused> {
        let mut end = PoolEnd::default();
        for thread in &self.threads {
            // SAFETY: the handle is this pool's, and nothing else uses it: `self` is exclusive.
            done(|| unsafe { raw::pool_settle(thread.raw()) })?;
        }
        let at = self.threads.as_mut_ptr().cast::<PoolThread>();
        // SAFETY: these are the handles of all threads of the pool, by number.
        done(|| unsafe { raw::pool_close(at, self.threads.len(), &mut end) })?;
        self.threads = Vec::new();
        Ok(end)
    }
}

impl Drop for Pool {
    fn drop(&mut self) {
        let _ = self.end();
    }
}

/// A thread of a pool. It is used by one thread of the program at a time.
#[repr(transparent)]
pub struct Thread {
    raw: UnsafeCell<PoolThread>,
}

// SAFETY: a handle may go from one thread to another; see the header.
unsafe impl Send for Thread {}

impl Thread {
    fn empty() -> Thread {
        Thread {
            raw: UnsafeCell::new(PoolThread {
                at: ptr::null_mut(),
                state: 0,
            }),
        }
    }

    fn raw(&self) -> *mut PoolThread {
        self.raw.get()
    }

    /// A new buffer of so many bytes, all 0.
    pub fn alloc(&self, size: u32) -> Result<Buf<'_>, Refused> {
        let mut raw = PoolBuffer::default();
        // SAFETY: `Thread` isn't `Sync`, and no call calls back: so this is the only call by it.
        done(|| unsafe { raw::pool_alloc(self.raw(), size, &mut raw) })?;
        Ok(Buf { thread: self, raw })
    }

    /// The buffer of a parcel, or the parcel again and why.
    pub fn accept(&self, mut parcel: Parcel) -> Result<Buf<'_>, (Refused, Parcel)> {
        let mut raw = PoolBuffer::default();
        // SAFETY: as in `alloc`. Pools have names of their own, so a parcel of another is refused.
        let answer = done(|| unsafe { raw::pool_accept(self.raw(), &mut parcel.raw, &mut raw) });
        match answer {
            Ok(()) => Ok(Buf { thread: self, raw }),
            Err(why) => Err((why, parcel)),
        }
    }

    /// Gives the memory that it keeps for its next buffers back, where other threads may have it.
    pub fn trim(&self) -> Result<(), Refused> {
        // SAFETY: as in `alloc`.
        done(|| unsafe { raw::pool_trim(self.raw()) })
    }
}

/// A window on bytes of a pool, with a count of them, which it gives back as it is dropped.
pub struct Buf<'t> {
    thread: &'t Thread,
    raw: PoolBuffer,
}

impl<'t> Buf<'t> {
    /// How many bytes it has.
    pub fn len(&self) -> u32 {
        self.raw.length
    }

    /// Whether it has none.
    pub fn is_empty(&self) -> bool {
        self.raw.length == 0
    }

    /// Lays bytes over those of the buffer, from `start` on. Others may share these bytes.
    pub fn set(&self, start: u32, bytes: &[u8]) -> Result<(), Refused> {
        let (at, n) = (bytes.as_ptr(), bytes.len());
        // SAFETY: as in `alloc`; `bytes` has `n` bytes.
        done(|| unsafe { raw::pool_set(self.thread.raw(), &self.raw, start, at, n) })
    }

    /// Copies bytes out, from `start` on: those of one moment.
    pub fn get(&self, start: u32, out: &mut [u8]) -> Result<(), Refused> {
        let (at, n) = (out.as_mut_ptr(), out.len());
        // SAFETY: as in `alloc`; `out` has `n` bytes, and nobody else's.
        done(|| unsafe { raw::pool_get(self.thread.raw(), &self.raw, start, at, n) })
    }

    /// Calls `f` with a copy of all bytes: those of one moment.
    pub fn with_bytes<R>(&self, f: impl FnOnce(&[u8]) -> R) -> Result<R, Refused> {
        let mut bytes = vec![0; self.raw.length as usize];
        self.get(0, &mut bytes)?;
        Ok(f(&bytes))
    }

    /// Another buffer on `len` of the bytes, from `start` on.
    pub fn slice(&self, start: u32, len: u32) -> Result<Buf<'t>, Refused> {
        let (thread, mut raw) = (self.thread, PoolBuffer::default());
        // SAFETY: as in `alloc`.
        done(|| unsafe { raw::pool_slice(thread.raw(), &self.raw, start, len, &mut raw) })?;
        Ok(Buf { thread, raw })
    }

    /// Another buffer on the same bytes.
    pub fn retain(&self) -> Result<Buf<'t>, Refused> {
        let (thread, mut raw) = (self.thread, PoolBuffer::default());
        // SAFETY: as in `alloc`.
        done(|| unsafe { raw::pool_retain(thread.raw(), &self.raw, &mut raw) })?;
        Ok(Buf { thread, raw })
    }

    /// How often the bytes are counted over all threads and parcels, at one moment.
    pub fn refcnt(&self) -> Result<u32, Refused> {
        let mut count = 0;
        // SAFETY: as in `alloc`.
        done(|| unsafe { raw::pool_refcnt(self.thread.raw(), &self.raw, &mut count) })?;
        Ok(count)
    }

    /// Has the bytes in which it lies be at least `size` in all, and reaches up to the last of them.
    pub fn capacity(&mut self, size: u32) -> Result<(), Refused> {
        // SAFETY: as in `alloc`.
        done(|| unsafe { raw::pool_capacity(self.thread.raw(), &mut self.raw, size) })
    }

    /// Notes that it was touched.
    pub fn touch(&self) -> Result<(), Refused> {
        // SAFETY: as in `alloc`.
        done(|| unsafe { raw::pool_touch(self.thread.raw(), &self.raw) })
    }

    /// A parcel of it, for the thread of that number; or the buffer again and why.
    pub fn part(self, to: u32) -> Result<Parcel, (Refused, Buf<'t>)> {
        let mut raw = PoolParcel {
            at: ptr::null_mut(),
            state: 0,
        };
        // SAFETY: as in `alloc`; the parcel's handle is empty.
        match done(|| unsafe { raw::pool_part(self.thread.raw(), &self.raw, to, &mut raw) }) {
            Ok(()) => {
                mem::forget(self);
                Ok(Parcel { raw })
            }
            Err(why) => Err((why, self)),
        }
    }

    /// Gives its count back. True where that was the last of all threads and parcels.
    pub fn release(self) -> Result<bool, Refused> {
        ManuallyDrop::new(self).give()
    }

    fn give(&mut self) -> Result<bool, Refused> {
        let mut ended = 0;
        // SAFETY: as in `alloc`.
        done(|| unsafe { raw::pool_release(self.thread.raw(), &self.raw, &mut ended) })?;
        Ok(ended == 1)
    }
}

impl Drop for Buf<'_> {
    fn drop(&mut self) {
        let _ = self.give();
    }
}

/// A buffer on its way to another thread. Dropped, it is left behind: its count is never given back.
pub struct Parcel {
    raw: PoolParcel,
}

// SAFETY: a parcel may go from one thread to another; see the header.
unsafe impl Send for Parcel {}

impl Drop for Parcel {
    fn drop(&mut self) {
        // SAFETY: nothing else uses the handle. An empty one is refused.
        unsafe { raw::pool_leave_parcel(&mut self.raw) };
    }
}
