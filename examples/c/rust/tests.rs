use crate::{Config, Pool, Refused, Thread};
use std::sync::mpsc::channel;
use std::thread;

fn small(threads: u32) -> Config {
    Config {
        handles: 4,
        interval: 1,
        ..Config::for_threads(threads)
    }
}

fn byte(turn: u32, hop: u32, i: u32) -> u8 {
    (turn * 31 + hop * 17 + i * 7) as u8
}

#[test]
fn reads_what_was_written() {
    let mut pool = Pool::open(small(1)).unwrap();
    let thread = &pool.threads()[0];
    let buf = thread.alloc(10).unwrap();
    assert_eq!(buf.with_bytes(|bytes| bytes.to_vec()).unwrap(), [0; 10]);
    buf.set(3, b"abc").unwrap();
    let part = buf.slice(4, 5).unwrap();
    let mut out = [9; 5];
    part.get(0, &mut out).unwrap();
    assert_eq!(&out, b"bc\0\0\0");
    assert_eq!(part.get(1, &mut out), Err(Refused::Range));
    assert_eq!(&out, b"bc\0\0\0");
    assert_eq!(buf.refcnt(), Ok(2));
    assert_eq!(part.release(), Ok(false));
    assert_eq!(buf.release(), Ok(true));
}

#[test]
fn a_dropped_buffer_is_released() {
    let mut pool = Pool::open(small(1)).unwrap();
    let thread = &pool.threads()[0];
    for turn in 0..1000 {
        let first = thread.alloc(1 + turn).unwrap();
        let _second = first.retain().unwrap();
    }
    let four: Vec<_> = (0..4).map(|_| thread.alloc(8).unwrap()).collect();
    assert_eq!(thread.alloc(8).err(), Some(Refused::NoHandle));
    drop(four);
    assert_eq!(pool.close().unwrap().leaks, 0);
}

#[test]
fn a_forgotten_buffer_is_a_leak() {
    let mut pool = Pool::open(small(1)).unwrap();
    std::mem::forget(pool.threads()[0].alloc(8).unwrap());
    assert_eq!(pool.close().unwrap().leaks, 1);
}

#[test]
fn a_buffer_gets_longer() {
    let mut pool = Pool::open(small(1)).unwrap();
    let thread = &pool.threads()[0];
    let mut buf = thread.alloc(3).unwrap();
    buf.set(0, b"abc").unwrap();
    buf.capacity(100).unwrap();
    assert!(buf.len() >= 100);
    let same = buf.with_bytes(|bytes| bytes[..3] == *b"abc" && bytes[3..].iter().all(|b| *b == 0));
    assert_eq!(same, Ok(true));
    assert_eq!(buf.capacity(5 << 20), Err(Refused::TooLarge));
}

#[test]
fn another_pool_refuses_a_parcel() {
    let (mut one, mut two) = (Pool::open(small(2)).unwrap(), Pool::open(small(2)).unwrap());
    let parcel = one.threads()[0].alloc(8).unwrap().part(1).ok().unwrap();
    let (why, parcel) = two.threads()[1].accept(parcel).err().unwrap();
    assert_eq!(why, Refused::NotHere);
    let (why, parcel) = one.threads()[0].accept(parcel).err().unwrap();
    assert_eq!(why, Refused::NotHere);
    assert_eq!(
        one.threads()[1].accept(parcel).ok().unwrap().release(),
        Ok(true)
    );
}

#[test]
fn buffers_go_round() {
    const TURNS: u32 = 300;
    let mut pool = Pool::open(Config::for_threads(4)).unwrap();
    let (senders, mut receivers): (Vec<_>, Vec<_>) = (0..4).map(|_| channel()).unzip();
    receivers.rotate_right(1);
    thread::scope(|s| {
        let ends = senders.into_iter().zip(receivers);
        for ((me, thread), (send, receive)) in (0u32..).zip(pool.threads()).zip(ends) {
            s.spawn(move || {
                for turn in 0..TURNS {
                    if me == 0 {
                        send.send(first(thread, turn).part(1).ok().unwrap())
                            .unwrap();
                    }
                    let buf = thread.accept(receive.recv().unwrap()).ok().unwrap();
                    let hop = (me + 3) % 4;
                    let is_right = |(i, b): (u32, &u8)| *b == byte(turn, hop, i);
                    assert_eq!(buf.with_bytes(|b| (0..).zip(b).all(is_right)), Ok(true));
                    if me == 0 {
                        assert_eq!(buf.release(), Ok(true));
                        continue;
                    }
                    let bytes: Vec<u8> = (0..buf.len()).map(|i| byte(turn, me, i)).collect();
                    buf.set(0, &bytes).unwrap();
                    send.send(buf.part((me + 1) % 4).ok().unwrap()).unwrap();
                }
            });
        }
    });
    assert_eq!(pool.close().unwrap().leaks, 0);
}

fn first(thread: &Thread, turn: u32) -> crate::Buf<'_> {
    let buf = thread.alloc(1 + turn * 13 % 2000).unwrap();
    let bytes: Vec<u8> = (0..buf.len()).map(|i| byte(turn, 0, i)).collect();
    buf.set(0, &bytes).unwrap();
    buf
}
