//! The C header, item by item.

#[repr(C)]
pub struct PoolConfig {
    pub name: u32,
    pub threads: u32,
    pub page: u32,
    pub order: u32,
    pub arenas: u32,
    pub chunks: u32,
    pub handles: u32,
    pub interval: u32,
}

#[repr(C)]
pub struct PoolThread {
    pub at: *mut u8,
    pub state: u32,
}

#[repr(C)]
pub struct PoolParcel {
    pub at: *mut u8,
    pub state: u32,
}

#[repr(C)]
#[derive(Clone, Copy, Default, Debug, PartialEq, Eq)]
pub struct PoolBuffer {
    pub pool: u32,
    pub thread: u32,
    pub place: u32,
    pub generation: u32,
    pub capacity: u32,
    pub offset: u32,
    pub length: u32,
}

#[repr(C)]
#[derive(Clone, Copy, Default, Debug, PartialEq, Eq)]
pub struct PoolEnd {
    pub chunks: u64,
    pub leaks: u64,
}

unsafe extern "C" {
    pub fn pool_open(config: *const PoolConfig, threads: *mut PoolThread, count: usize) -> i32;
    pub fn pool_alloc(thread: *mut PoolThread, size: u32, out: *mut PoolBuffer) -> i32;
    pub fn pool_set(
        thread: *mut PoolThread,
        buffer: *const PoolBuffer,
        start: u32,
        bytes: *const u8,
        length: usize,
    ) -> i32;
    pub fn pool_get(
        thread: *mut PoolThread,
        buffer: *const PoolBuffer,
        start: u32,
        out: *mut u8,
        length: usize,
    ) -> i32;
    pub fn pool_retain(
        thread: *mut PoolThread,
        buffer: *const PoolBuffer,
        out: *mut PoolBuffer,
    ) -> i32;
    pub fn pool_slice(
        thread: *mut PoolThread,
        buffer: *const PoolBuffer,
        start: u32,
        length: u32,
        out: *mut PoolBuffer,
    ) -> i32;
    pub fn pool_release(thread: *mut PoolThread, buffer: *const PoolBuffer, ended: *mut i32)
    -> i32;
    pub fn pool_refcnt(thread: *mut PoolThread, buffer: *const PoolBuffer, count: *mut u32) -> i32;
    pub fn pool_capacity(thread: *mut PoolThread, buffer: *mut PoolBuffer, size: u32) -> i32;
    pub fn pool_touch(thread: *mut PoolThread, buffer: *const PoolBuffer) -> i32;
    pub fn pool_part(
        thread: *mut PoolThread,
        buffer: *const PoolBuffer,
        to: u32,
        out: *mut PoolParcel,
    ) -> i32;
    pub fn pool_accept(
        thread: *mut PoolThread,
        parcel: *mut PoolParcel,
        out: *mut PoolBuffer,
    ) -> i32;
    pub fn pool_leave_parcel(parcel: *mut PoolParcel) -> i32;
    pub fn pool_settle(thread: *mut PoolThread) -> i32;
    pub fn pool_trim(thread: *mut PoolThread) -> i32;
    pub fn pool_close(threads: *mut PoolThread, count: usize, end: *mut PoolEnd) -> i32;
}
