//! The library's calls over lent buffers, as in `callers/c/kandurzo.h`, with slices for pointers and lengths.
//!
//! Every function here is safe: the library tests all lengths and ranges itself and answers with a refusal number, and slices cannot overlap. No value
//! of a buffer can be invalid, since all fields are whole numbers. A call uses no heap and no static memory, only the thread's stack: [`stack`].
#![allow(unsafe_code)]

/// Bytes of stack that each call uses at most while it runs, as in `callers/c/kandurzo.h`.
pub mod stack {
    /// Of [`start`](super::start).
    pub const START: usize = 16384;
    /// Of [`add`](super::add) and [`add_to`](super::add_to).
    pub const ADD: usize = 59392;
    /// Of [`remove`](super::remove) and [`remove_from`](super::remove_from).
    pub const REMOVE: usize = 59392;
    /// Of [`place`](super::place).
    pub const PLACE: usize = 16384;
    /// Of [`read`](super::read).
    pub const READ: usize = 16384;
    /// Of [`read_dimacs`](super::read_dimacs).
    pub const READ_DIMACS: usize = 16384;
    /// Of [`write_dimacs`](super::write_dimacs).
    pub const WRITE_DIMACS: usize = 59392;
    /// Of [`peel`](super::peel).
    pub const PEEL: usize = 56320;
    /// Of [`solve`](super::solve); the most.
    pub const SOLVE: usize = 106496;
    /// Of [`check`](super::check).
    pub const CHECK: usize = 16384;
    /// Of [`surplus`](super::surplus).
    pub const SURPLUS: usize = 59392;
    /// Of [`kit`](super::kit).
    pub const KIT: usize = 58368;
}

/// A record: the pair's smaller module, its larger, and its stop count. A list is in rising order by its modules, whatever the counts.
#[repr(C)]
#[derive(Clone, Copy, Debug, Default, PartialEq, Eq, PartialOrd, Ord)]
pub struct Pair {
    /// The smaller module.
    pub a: u16,
    /// The larger module.
    pub b: u16,
    /// The stop count, 1 to 1,000.
    pub w: u16,
}

impl Pair {
    /// The two modules, without the count.
    pub fn ends(self) -> (u16, u16) {
        (self.a, self.b)
    }
}

/// A head: the number of modules, and of pairs held.
#[repr(C)]
#[derive(Clone, Copy, Debug, Default, PartialEq, Eq)]
pub struct Head {
    /// N.
    pub n: u32,
    /// M.
    pub m: u32,
}

/// What start, add, remove and the readers answer: the refusal number or 0, and the head after the call.
#[repr(C)]
#[derive(Clone, Copy, Debug, PartialEq, Eq)]
pub struct Changed {
    /// The refusal number or 0.
    pub number: u32,
    /// The head after the call.
    pub head: Head,
}

/// What place answers; beside a refusal all else is 0.
#[repr(C)]
#[derive(Clone, Copy, Debug, PartialEq, Eq)]
pub struct Placed {
    /// The refusal number or 0.
    pub number: u32,
    /// 1 if the pair is held, else 0.
    pub held: u32,
    /// The pair's place, or the place where it would go.
    pub at: u32,
}

/// What write_dimacs answers; beside a refusal the length is 0.
#[repr(C)]
#[derive(Clone, Copy, Debug, PartialEq, Eq)]
pub struct Written {
    /// The refusal number or 0.
    pub number: u32,
    /// How many bytes were written.
    pub length: u32,
}

/// What solve answers; beside a refusal all else is 0.
#[repr(C)]
#[derive(Clone, Copy, Debug, PartialEq)]
pub struct Solved {
    /// The refusal number or 0.
    pub number: u32,
    /// P, the found group's inside count: the sum of the stop counts of its pairs.
    pub p: u32,
    /// Q, its number of modules.
    pub q: u32,
    /// K = P/Q rounded up.
    pub k: u32,
    /// The number of modules in the core of order K.
    pub coresize: u32,
    /// P divided by Q, rounded once.
    pub ratio: f64,
}

/// What check and kit answer; beside a refusal P and Q are 0.
#[repr(C)]
#[derive(Clone, Copy, Debug, PartialEq, Eq)]
pub struct Verdict {
    /// The refusal number or 0.
    pub number: u32,
    /// P.
    pub p: u32,
    /// Q.
    pub q: u32,
}

/// What surplus answers; beside a refusal the value is 0.
#[repr(C)]
#[derive(Clone, Copy, Debug, PartialEq, Eq)]
pub struct Difference {
    /// The refusal number or 0.
    pub number: u32,
    /// The surplus.
    pub value: i64,
}

mod library {
    use super::*;

    extern "C" {
        pub fn kandurzo_start(n: u32) -> Changed;
        pub fn kandurzo_add(head: Head, list: *mut Pair, length: usize, a: u32, b: u32, w: u32) -> Changed;
        pub fn kandurzo_remove(head: Head, list: *mut Pair, length: usize, a: u32, b: u32) -> Changed;
        pub fn kandurzo_add_to(head: *mut Head, list: *mut Pair, length: usize, a: u32, b: u32, w: u32) -> u32;
        pub fn kandurzo_remove_from(head: *mut Head, list: *mut Pair, length: usize, a: u32, b: u32) -> u32;
        pub fn kandurzo_place(head: Head, list: *const Pair, length: usize, a: u32, b: u32) -> Placed;
        pub fn kandurzo_read(
            bytes: *const u8,
            count: usize,
            list: *mut Pair,
            length: usize,
            work: *mut u32,
            work_length: usize,
        ) -> Changed;
        pub fn kandurzo_read_dimacs(
            bytes: *const u8,
            count: usize,
            list: *mut Pair,
            length: usize,
            work: *mut u32,
            work_length: usize,
        ) -> Changed;
        pub fn kandurzo_write_dimacs(
            head: Head,
            list: *const Pair,
            length: usize,
            text: *mut u8,
            text_length: usize,
        ) -> Written;
        pub fn kandurzo_peel(
            head: Head,
            list: *const Pair,
            length: usize,
            order: *mut u16,
            order_length: usize,
            cores: *mut u32,
            cores_length: usize,
            work: *mut u32,
            work_length: usize,
        ) -> u32;
        pub fn kandurzo_solve(
            head: Head,
            list: *const Pair,
            length: usize,
            members: *mut u8,
            members_length: usize,
            cores: *mut u32,
            cores_length: usize,
            shares: *mut u32,
            shares_length: usize,
            work: *mut u32,
            work_length: usize,
        ) -> Solved;
        pub fn kandurzo_check(
            head: Head,
            list: *const Pair,
            length: usize,
            members: *const u8,
            members_length: usize,
            shares: *const u32,
            shares_length: usize,
            work: *mut u32,
            work_length: usize,
        ) -> Verdict;
        pub fn kandurzo_surplus(
            head: Head,
            list: *const Pair,
            length: usize,
            first: *const u8,
            first_length: usize,
            second: *const u8,
            second_length: usize,
        ) -> Difference;
        pub fn kandurzo_kit(
            head: Head,
            list: *const Pair,
            length: usize,
            k: u32,
            members: *mut u8,
            members_length: usize,
            work: *mut u32,
            work_length: usize,
        ) -> Verdict;
    }
}

/// A head of n modules without pairs. Refuses by 2.
pub fn start(n: u32) -> Changed {
    unsafe { library::kandurzo_start(n) }
}

/// Adds w stops of the pair of a and b, in either order: a held pair's count is raised, a new pair goes to its place. Refuses by 13, 5, 4, 18, 19, 11.
pub fn add(head: Head, list: &mut [Pair], a: u32, b: u32, w: u32) -> Changed {
    unsafe { library::kandurzo_add(head, list.as_mut_ptr(), list.len(), a, b, w) }
}

/// Removes the pair of a and b, in either order, with its whole count; the record freed becomes 0,0,0. Refuses by 13, 5, 4, 14.
pub fn remove(head: Head, list: &mut [Pair], a: u32, b: u32) -> Changed {
    unsafe { library::kandurzo_remove(head, list.as_mut_ptr(), list.len(), a, b) }
}

/// `add` on the caller's own head; answers the number.
pub fn add_to(head: &mut Head, list: &mut [Pair], a: u32, b: u32, w: u32) -> u32 {
    unsafe { library::kandurzo_add_to(head, list.as_mut_ptr(), list.len(), a, b, w) }
}

/// `remove` on the caller's own head; answers the number.
pub fn remove_from(head: &mut Head, list: &mut [Pair], a: u32, b: u32) -> u32 {
    unsafe { library::kandurzo_remove_from(head, list.as_mut_ptr(), list.len(), a, b) }
}

/// Whether the pair of a and b, in either order, is held, and its place, or the place where it would go: from 0 to M. Refuses by 13, 5, 4.
pub fn place(head: Head, list: &[Pair], a: u32, b: u32) -> Placed {
    unsafe { library::kandurzo_place(head, list.as_ptr(), list.len(), a, b) }
}

/// Reads a pair file, with lines `A,B,W`, into the list. Refuses by 12, then line by line 1, 2; 1, 3, 11; 1, 5, 4, 18, 10; 6.
pub fn read(bytes: &[u8], list: &mut [Pair], work: &mut [u32]) -> Changed {
    unsafe {
        library::kandurzo_read(
            bytes.as_ptr(),
            bytes.len(),
            list.as_mut_ptr(),
            list.len(),
            work.as_mut_ptr(),
            work.len(),
        )
    }
}

/// Reads a DIMACS edge file into the list, each pair with the count 1. Refuses by 12, then line by line 16, 2, 3, 11 (`p`); 16, 17, 5, 4, 10 (`e`); last
/// 16, 17.
pub fn read_dimacs(bytes: &[u8], list: &mut [Pair], work: &mut [u32]) -> Changed {
    unsafe {
        library::kandurzo_read_dimacs(
            bytes.as_ptr(),
            bytes.len(),
            list.as_mut_ptr(),
            list.len(),
            work.as_mut_ptr(),
            work.len(),
        )
    }
}

/// Writes the list's DIMACS edge file, without the counts, in front of the text. Refuses by 13, 12.
pub fn write_dimacs(head: Head, list: &[Pair], text: &mut [u8]) -> Written {
    unsafe { library::kandurzo_write_dimacs(head, list.as_ptr(), list.len(), text.as_mut_ptr(), text.len()) }
}

/// Writes leaving order and core numbers. Refuses by 13, 12.
pub fn peel(head: Head, list: &[Pair], order: &mut [u16], cores: &mut [u32], work: &mut [u32]) -> u32 {
    unsafe {
        library::kandurzo_peel(
            head,
            list.as_ptr(),
            list.len(),
            order.as_mut_ptr(),
            order.len(),
            cores.as_mut_ptr(),
            cores.len(),
            work.as_mut_ptr(),
            work.len(),
        )
    }
}

/// Writes the found group, core numbers and the load sheet. A list without pairs has no group. Refuses by 13, 12, 20, 15.
pub fn solve(
    head: Head,
    list: &[Pair],
    members: &mut [u8],
    cores: &mut [u32],
    shares: &mut [u32],
    work: &mut [u32],
) -> Solved {
    unsafe {
        library::kandurzo_solve(
            head,
            list.as_ptr(),
            list.len(),
            members.as_mut_ptr(),
            members.len(),
            cores.as_mut_ptr(),
            cores.len(),
            shares.as_mut_ptr(),
            shares.len(),
            work.as_mut_ptr(),
            work.len(),
        )
    }
}

/// Whether the shares are a split at the group's size with no load above its inside count. Refuses by 13, 12, 20, 7, 8, 9.
pub fn check(head: Head, list: &[Pair], members: &[u8], shares: &[u32], work: &mut [u32]) -> Verdict {
    unsafe {
        library::kandurzo_check(
            head,
            list.as_ptr(),
            list.len(),
            members.as_ptr(),
            members.len(),
            shares.as_ptr(),
            shares.len(),
            work.as_mut_ptr(),
            work.len(),
        )
    }
}

/// The surplus of the first group against the second. Refuses by 13, 12, 7.
pub fn surplus(head: Head, list: &[Pair], first: &[u8], second: &[u8]) -> Difference {
    unsafe {
        library::kandurzo_surplus(
            head,
            list.as_ptr(),
            list.len(),
            first.as_ptr(),
            first.len(),
            second.as_ptr(),
            second.len(),
        )
    }
}

/// Writes the kit: of the sets left over in the leaving order with at least k modules the one of greatest ratio, of equals the larger. Refuses by 13, 12, 20,
/// 21.
pub fn kit(head: Head, list: &[Pair], k: u32, members: &mut [u8], work: &mut [u32]) -> Verdict {
    unsafe {
        library::kandurzo_kit(
            head,
            list.as_ptr(),
            list.len(),
            k,
            members.as_mut_ptr(),
            members.len(),
            work.as_mut_ptr(),
            work.len(),
        )
    }
}
