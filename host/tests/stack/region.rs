//! A stack of its own for one call: below it a page that nobody may touch, and below that memory in which a write would show.

use std::arch::asm;
use std::ffi::{c_int, c_long, c_ulong, c_void};

extern "C" {
    fn mmap(
        at: *mut c_void,
        bytes: usize,
        access: c_int,
        flags: c_int,
        file: c_int,
        offset: c_long,
    ) -> *mut c_void;
    fn mprotect(at: *mut c_void, bytes: usize, access: c_int) -> c_int;
    fn munmap(at: *mut c_void, bytes: usize) -> c_int;
    fn fork() -> c_int;
    fn waitpid(child: c_int, status: *mut c_int, options: c_int) -> c_int;
    fn prctl(option: c_int, value: c_ulong) -> c_int;
    fn _exit(status: c_int) -> !;
}

// as Linux numbers them
const NO_ACCESS: c_int = 0;
const READ_AND_WRITE: c_int = 1 | 2;
const SHARED_ANONYMOUS: c_int = 0x01 | 0x20;
const SET_DUMPABLE: c_int = 4;
const SEGMENTATION_FAULT: c_int = 11;

/// The page that nobody may touch.
const GUARD: usize = 4096;
/// More than any entry needs, so that a frame that reaches over the guard page lands here.
const BELOW: usize = 256 * 1024;
/// Stands wherever nothing was written.
const PAINT: u8 = 0xa5;

/// How a call ended that ran in a process of its own.
#[derive(Debug, PartialEq, Eq)]
pub enum End {
    Returned,
    Faulted,
    Other(c_int),
}

/// The memory below, the guard page and the stack, in this order.
pub struct Region {
    start: *mut u8,
    stack_bytes: usize,
}

impl Region {
    /// A stack of so many bytes, a multiple of 16.
    pub fn new(stack_bytes: usize) -> Region {
        assert_eq!(stack_bytes % 16, 0);
        let region = Region { start: map(BELOW + GUARD + stack_bytes), stack_bytes };
        // SAFETY: all of it is this mapping, and nothing borrows it
        unsafe {
            region.start.write_bytes(PAINT, region.bytes());
            let guard = region.start.add(BELOW).cast();
            assert_eq!(mprotect(guard, GUARD, NO_ACCESS), 0);
        }
        region
    }

    fn bytes(&self) -> usize {
        BELOW + GUARD + self.stack_bytes
    }

    fn stack(&self) -> &[u8] {
        // SAFETY: it lies in the mapping, above the guard page
        unsafe { std::slice::from_raw_parts(self.start.add(BELOW + GUARD), self.stack_bytes) }
    }

    /// Makes the call on this stack.
    fn run(&self, call: &mut dyn FnMut()) {
        // SAFETY: the mapping ends there; a stack that is too small meets the guard page
        unsafe { call_on(self.start.add(self.bytes()), call) }
    }

    /// How many bytes of the stack the call took, its arguments and the return address included.
    pub fn taken(&self, call: &mut dyn FnMut()) -> usize {
        self.run(call);
        let untouched = self.stack().iter().take_while(|&&byte| byte == PAINT).count();
        self.stack_bytes - untouched
    }

    /// Makes the call in a process of its own, which shares this memory.
    pub fn end_of(&self, call: &mut dyn FnMut()) -> End {
        // SAFETY: the child makes the call, which allocates nothing and takes no lock, and ends
        unsafe {
            let child = fork();
            assert!(child >= 0, "no process");
            if child == 0 {
                prctl(SET_DUMPABLE, 0); // a fault is expected: no core file
                self.run(call);
                _exit(0);
            }
            let mut status = 0;
            assert_eq!(waitpid(child, &mut status, 0), child);
            match status {
                0 => End::Returned,
                _ if status & 0x7f == SEGMENTATION_FAULT => End::Faulted,
                _ => End::Other(status),
            }
        }
    }

    /// Whether nothing was written below the guard page.
    pub fn is_whole_below(&self) -> bool {
        // SAFETY: it lies in the mapping, below the guard page
        let below = unsafe { std::slice::from_raw_parts(self.start, BELOW) };
        below.iter().all(|&byte| byte == PAINT)
    }
}

impl Drop for Region {
    fn drop(&mut self) {
        // SAFETY: the mapping is this region's
        unsafe { munmap(self.start.cast(), self.bytes()) };
    }
}

fn map(bytes: usize) -> *mut u8 {
    // SAFETY: a new mapping, wherever there is room
    let start = unsafe { mmap(std::ptr::null_mut(), bytes, READ_AND_WRITE, SHARED_ANONYMOUS, -1, 0) };
    assert_ne!(start as isize, -1, "no memory");
    start.cast()
}

/// Makes the call with the stack pointer at `top`, a multiple of 16.
unsafe fn call_on(top: *mut u8, mut call: &mut dyn FnMut()) {
    extern "C" fn enter(call: *mut &mut dyn FnMut()) {
        // SAFETY: it is the reference below, which lives through the call
        unsafe { (*call)() }
    }
    asm!(
        "xchg rsp, r12",
        "call {enter}",
        "mov rsp, r12",
        enter = in(reg) enter as extern "C" fn(*mut &mut dyn FnMut()),
        inout("r12") top => _,
        in("rdi") &mut call as *mut &mut dyn FnMut(),
        clobber_abi("C"),
    )
}
