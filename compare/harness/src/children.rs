//! Calls that may want more memory than there is: each is made in a process of its own, which may hold so much and no more.
use crate::answer::{Answer, MEMORY};
use crate::sides::{Call, ROOM, Side};
use crate::walk::{PORT, Walk};
use std::ffi::c_int;
use std::panic;

/// How many bytes a process may hold.
const MOST: u64 = 1 << 31;

/// How many seconds it may take.
const SECONDS: u32 = 20;

/// The number of the limit on the bytes of a process.
const RLIMIT_AS: c_int = 9;

#[repr(C)]
struct Limits {
    now: u64,
    most: u64,
}

unsafe extern "C" {
    fn fork() -> c_int;
    fn pipe(ends: *mut c_int) -> c_int;
    fn read(file: c_int, bytes: *mut u8, count: usize) -> isize;
    fn write(file: c_int, bytes: *const u8, count: usize) -> isize;
    fn close(file: c_int) -> c_int;
    fn waitpid(child: c_int, status: *mut c_int, options: c_int) -> c_int;
    fn setrlimit(resource: c_int, limits: *const Limits) -> c_int;
    fn alarm(seconds: u32) -> u32;
    fn _exit(status: c_int) -> !;
}

/// Makes the call in the child, and ends it.
fn answer_from_child(call: &Call<'_>, side: Side, input: &[u8], end: c_int) -> ! {
    let limits = Limits {
        now: MOST,
        most: MOST,
    };
    let mut room = vec![0; ROOM];
    // SAFETY: the limits outlive the call; nothing else here takes an address.
    unsafe {
        setrlimit(RLIMIT_AS, &limits);
        alarm(SECONDS);
        close(2);
    }
    let made = panic::catch_unwind(panic::AssertUnwindSafe(|| {
        call.make(side, input, &mut room)
    }));
    // SAFETY: so many bytes are in the room.
    unsafe {
        match made {
            Ok(count) => {
                write(end, room.as_ptr(), count.min(ROOM));
                _exit(0)
            }
            Err(_) => _exit(101),
        }
    }
}

/// What a process of its own answers, or that it was ended. Called while no other thread runs.
pub fn ask_apart(call: &Call<'_>, side: Side, input: &[u8]) -> Answer {
    let mut ends = [0; 2];
    let mut room = vec![0; ROOM];
    let mut status = 0;
    // SAFETY: the calls get addresses of what lives longer, with its size.
    unsafe {
        assert!(pipe(ends.as_mut_ptr()) == 0, "no pipe");
        let child = fork();
        assert!(child >= 0, "no process");
        if child == 0 {
            answer_from_child(call, side, input, ends[1]);
        }
        close(ends[1]);
        let mut count = 0;
        loop {
            let more = read(ends[0], room[count..].as_mut_ptr(), ROOM - count);
            if more <= 0 {
                break;
            }
            count += more as usize;
        }
        close(ends[0]);
        waitpid(child, &mut status, 0);
        room.truncate(count);
    }
    // 6 is SIGABRT, and 101 the status of a panic.
    match status {
        0 => Answer::of(&room),
        6 => Answer::Died,
        _ if status >> 8 == 101 => Answer::Died,
        _ => Answer::Unclear,
    }
}

/// Whether two such answers differ by the memory that is wanting: the original was ended, and the port answers `Memory`, or the first fault of the
/// input where it wanted less; or the port, whose values may be larger in memory, answers `Memory` for a container that takes much of what there is.
pub fn is_memory(call: &Call<'_>, input: &[u8], original: &Answer, port: &Answer) -> bool {
    let mut walk = Walk::new(input, call.setting(), PORT, None);
    let first = walk.walk(&call.kind.shape).err();
    if *original == Answer::Died {
        return port.kind() == Some(MEMORY) || first.is_some() && port.kind() == first;
    }
    port.kind() == Some(MEMORY) && walk.widest + walk.most_hashed >= u128::from(MOST / 4)
}
