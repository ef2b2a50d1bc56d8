//! Memory to lend: every list stands at a page that may not be touched, so that a step outside it
//! traps; what lies on its other side is checked afterwards.

use crate::call::{Arg, Lent};
use std::ffi::c_void;

extern "C" {
    fn mmap(at: *mut c_void, len: usize, protection: i32, flags: i32, file: i32, offset: i64) -> *mut c_void;
    fn mprotect(at: *mut c_void, len: usize, protection: i32) -> i32;
}

const PAGE: usize = 4096;
/// Room for one list: the longest is a work area of 8 numbers for each of 514 x 514 cells.
const ROOM: usize = 12 << 20;
const LISTS: usize = 4;
/// How many bytes beside a list are watched.
const BESIDE: usize = 64;
const MARK: u8 = 0xc3;

/// Where the page that may not be touched lies.
#[derive(Clone, Copy, PartialEq, Eq)]
pub enum Side {
    After,
    Before,
}

/// Rooms for the lists of one call, each between two pages that may not be touched.
pub struct Lender {
    rooms: Vec<*mut u8>,
    side: Side,
}

fn size(arg: &Arg) -> (usize, usize) {
    match arg {
        Arg::Num(_) => (0, 0),
        Arg::Bytes(l) => (l.len(), 1),
        Arg::Cells(l) => (l.len(), 4),
        Arg::Words(l) | Arg::Work(l) => (l.len(), 4),
        Arg::Reals(l) => (l.len(), 8),
    }
}

fn bytes(arg: &Arg) -> *const u8 {
    match arg {
        Arg::Num(_) => unreachable!(),
        Arg::Bytes(l) => l.as_ptr(),
        Arg::Cells(l) => l.as_ptr().cast(),
        Arg::Words(l) | Arg::Work(l) => l.as_ptr().cast(),
        Arg::Reals(l) => l.as_ptr().cast(),
    }
}

fn bytes_mut(arg: &mut Arg) -> *mut u8 {
    match arg {
        Arg::Num(_) => unreachable!(),
        Arg::Bytes(l) => l.as_mut_ptr(),
        Arg::Cells(l) => l.as_mut_ptr().cast(),
        Arg::Words(l) | Arg::Work(l) => l.as_mut_ptr().cast(),
        Arg::Reals(l) => l.as_mut_ptr().cast(),
    }
}

impl Lender {
    pub fn new() -> Lender {
        let room = || unsafe {
            let whole = mmap(std::ptr::null_mut(), ROOM + 2 * PAGE, 3, 0x22, -1, 0);
            assert_ne!(whole as isize, -1, "mmap");
            let first: *mut u8 = whole.cast();
            let last = first.add(PAGE + ROOM);
            assert_eq!(mprotect(whole, PAGE, 0) | mprotect(last.cast(), PAGE, 0), 0, "mprotect");
            first.add(PAGE)
        };
        Lender { rooms: (0..LISTS).map(|_| room()).collect(), side: Side::After }
    }

    /// The bytes beside a list that are watched.
    fn beside(&self, list: *mut u8, len: usize) -> *mut [u8] {
        let at = match self.side {
            Side::After => unsafe { list.sub(BESIDE) },
            Side::Before => unsafe { list.add(len) },
        };
        std::ptr::slice_from_raw_parts_mut(at, BESIDE)
    }

    /// Copies the lists into their rooms; the lists and the numbers, each in order.
    pub fn lend(&mut self, args: &[Arg], side: Side) -> (Vec<Lent>, Vec<u64>) {
        self.side = side;
        let (mut lists, mut numbers) = (Vec::new(), Vec::new());
        for arg in args {
            if let Arg::Num(n) = arg {
                numbers.push(*n);
                continue;
            }
            let (count, each) = size(arg);
            let len = count * each;
            assert!(len + BESIDE <= ROOM);
            let room = self.rooms[lists.len()];
            let list = if side == Side::After { unsafe { room.add(ROOM - len) } } else { room };
            unsafe {
                std::ptr::copy_nonoverlapping(bytes(arg), list, len);
                (*self.beside(list, len)).fill(MARK);
            }
            lists.push((list, count));
        }
        (lists, numbers)
    }

    /// Copies the lists back, and looks at what lies beside them.
    pub fn take_back(&self, args: &mut [Arg], lists: &[Lent]) {
        let lent = args.iter_mut().filter(|arg| !matches!(arg, Arg::Num(_)));
        for (arg, &(list, count)) in lent.zip(lists) {
            let len = count * size(arg).1;
            unsafe {
                std::ptr::copy_nonoverlapping(list, bytes_mut(arg), len);
                let beside = &*self.beside(list, len);
                assert!(beside.iter().all(|&b| b == MARK), "written beside a lent list");
            }
        }
    }
}
