//! The marshalling library of tpm2-tss as bench/src/tss.c asks it, for the comparison and for the benchmark.

use std::marker::PhantomData;
use std::mem::MaybeUninit;

/// A nonce or an HMAC.
#[repr(C)]
pub struct Bytes {
    size: u16,
    buffer: [u8; 64],
}

impl Bytes {
    pub fn all(&self) -> &[u8] {
        &self.buffer[..self.size.into()]
    }
}

#[repr(C)]
pub struct Session {
    pub handle: u32,
    pub nonce: Bytes,
    pub attributes: u8,
    pub hmac: Bytes,
}

/// A command as the library's types hold it, `struct command` of tss.c. It points at the parameters among the bytes that it
/// was read from.
#[repr(C)]
pub struct Command<'a> {
    pub tag: u16,
    pub code: u32,
    pub handle_count: usize,
    pub handles: [u32; 3],
    pub session_count: usize,
    pub sessions: [Session; 3],
    parameters: *const u8,
    pub parameters_len: usize,
    bytes: PhantomData<&'a [u8]>,
}

// tss.c has the same number
const _: () = assert!(size_of::<Command>() == 480);

#[cfg(tss)]
mod linked {
    unsafe extern "C" {
        pub fn tss_command_read(s: *const u8, len: usize, handles: usize, command: *mut super::Command) -> u32;
        pub fn tss_command_write(command: &super::Command, room: *mut u8, len: usize, total: &mut u64) -> u32;
    }
}

#[cfg(not(tss))]
mod linked {
    pub unsafe fn tss_command_read(_: *const u8, _: usize, _: usize, _: *mut super::Command) -> u32 {
        panic!("tpm2-tss is not linked")
    }

    pub unsafe fn tss_command_write(_: &super::Command, _: *mut u8, _: usize, _: &mut u64) -> u32 {
        panic!("tpm2-tss is not linked")
    }
}

/// Takes a command apart, of which the library does not know how many handles it has. Gives 0, or a refusal's number.
pub fn command_read<'a>(s: &'a [u8], handles: usize, place: &mut MaybeUninit<Command<'a>>) -> u32 {
    // SAFETY: start and length are those of one slice, and a command is as large as tss.c has it.
    unsafe { linked::tss_command_read(s.as_ptr(), s.len(), handles, place.as_mut_ptr()) }
}

/// The same by value; none where it is refused.
pub fn command(s: &[u8], handles: usize) -> Option<Command<'_>> {
    let mut place = MaybeUninit::zeroed();
    // SAFETY: every byte is set, and any bytes are numbers.
    (command_read(s, handles, &mut place) == 0).then(|| unsafe { place.assume_init() })
}

pub fn command_write(command: &Command, room: &mut [u8], total: &mut u64) -> u32 {
    // SAFETY: start and length are those of one slice; the bytes that the command was read from are borrowed with it.
    unsafe { linked::tss_command_write(command, room.as_mut_ptr(), room.len(), total) }
}
