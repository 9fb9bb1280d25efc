//! Memory for the arguments of a call. Pages before and behind cannot be touched, and the bytes around an argument are
//! known, so that a read or write outside of it ends the run or is seen.
use std::ffi::c_void;

extern "C" {
    fn mmap(at: *mut c_void, length: usize, protection: i32, flags: i32, file: i32, offset: i64) -> *mut c_void;
    fn mprotect(at: *mut c_void, length: usize, protection: i32) -> i32;
}

const PAGE: usize = 4_096;
const AROUND: usize = 64;
const CANARY: u8 = 0xC5;

/// Where an argument lies.
#[derive(Clone, Copy, Debug)]
pub enum Place {
    /// right behind the page before
    Front,
    /// right before the page behind
    Back,
    /// so many bytes before the page behind
    Before(usize),
}

pub struct Arena {
    base: *mut u8,
    room: usize,
    at: usize,
    length: usize,
}

impl Arena {
    pub fn new(room: usize) -> Arena {
        let room = (room + PAGE - 1) / PAGE * PAGE;
        // read and write; private, of no file (Linux on x86-64)
        let all = unsafe { mmap(std::ptr::null_mut(), room + 2 * PAGE, 3, 0x22, -1, 0) } as *mut u8;
        assert!(all as isize != -1, "mmap");
        unsafe {
            assert_eq!(mprotect(all.cast(), PAGE, 0), 0, "mprotect");
            assert_eq!(mprotect(all.add(PAGE + room).cast(), PAGE, 0), 0, "mprotect");
            Arena { base: all.add(PAGE), room, at: 0, length: 0 }
        }
    }

    fn all(&self) -> &[u8] {
        unsafe { std::slice::from_raw_parts(self.base, self.room) }
    }

    /// Copy the bytes in, with known bytes around them.
    pub fn put(&mut self, bytes: &[u8], place: Place) -> *mut u8 {
        assert!(bytes.len() + AROUND <= self.room);
        self.length = bytes.len();
        self.at = match place {
            Place::Front => 0,
            Place::Back => self.room - bytes.len(),
            Place::Before(gap) => self.room - bytes.len() - gap,
        };
        let (from, to) = self.around();
        let all = unsafe { std::slice::from_raw_parts_mut(self.base, self.room) };
        all[from..to].fill(CANARY);
        all[self.at..self.at + self.length].copy_from_slice(bytes);
        unsafe { self.base.add(self.at) }
    }

    pub fn put_numbers(&mut self, numbers: &[u32], place: Place) -> *mut u32 {
        let bytes: Vec<u8> = numbers.iter().flat_map(|number| number.to_ne_bytes()).collect();
        let place = if let Place::Before(gap) = place { Place::Before(gap / 4 * 4) } else { place };
        self.put(&bytes, place).cast()
    }

    fn around(&self) -> (usize, usize) {
        (self.at.saturating_sub(AROUND), (self.at + self.length + AROUND).min(self.room))
    }

    /// The bytes as they are now; nothing around them has changed.
    pub fn bytes(&self) -> &[u8] {
        let (from, to) = self.around();
        let end = self.at + self.length;
        let all = self.all();
        assert!(all[from..self.at].iter().all(|&byte| byte == CANARY), "bytes before a buffer changed");
        assert!(all[end..to].iter().all(|&byte| byte == CANARY), "bytes behind a buffer changed");
        &all[self.at..end]
    }

    pub fn numbers(&self) -> Vec<u32> {
        self.bytes().chunks(4).map(|piece| u32::from_ne_bytes(piece.try_into().unwrap())).collect()
    }
}
