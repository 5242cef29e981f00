//! The calls of the proved library, as `include/skeinloft.h` declares them: the only unsafe code.
//!
//! One form for all: numbers, bytes that are read, bytes that are written, and last the lent array of eight numbers. The
//! refusal's number comes back (0: an answer). An answer's numbers go to the places 0 to 3 of the array, a refusal's fields
//! to the places from 4 on, and its area to the last one. All parts of a frame come by value, with the number before them, and the writers take the
//! sessions in the record that is among them.

/// The lent array.
pub type Out = [u64; 8];

/// The place of a refusal's first field in the array; the others follow it.
pub const OFFSET: usize = 4;

/// The place of a refusal's area, behind its fields.
pub const AREA: usize = 7;

/// The numbers of the rules by which a call judges; the third is for the writers of responses alone.
pub const RUST: u32 = 0;
pub const STANDARD: u32 = 1;
pub const STANDARD_BAD_TAG: u32 = 2;

/// The numbers of the tables of commands: the crate's, and those of the Library's revisions 1.38 and 1.59. Added to the
/// number of the rules they name the table by which a call judges.
pub const REVISION_CRATE: u32 = 0x00;
pub const REVISION_138: u32 = 0x10;
pub const REVISION_159: u32 = 0x20;

/// A part of a frame, by its start and its end.
#[repr(C)]
#[derive(Clone, Copy, Debug, Default, PartialEq, Eq)]
pub struct Span {
    pub from: usize,
    pub to: usize,
}

/// A nonce or an HMAC, by its place and its size.
#[repr(C)]
#[derive(Clone, Copy, Debug, Default, PartialEq, Eq)]
pub struct Field {
    pub at: usize,
    pub size: u16,
}

/// An entry of an authorization area; that of a response has no handle.
#[repr(C)]
#[derive(Clone, Copy, Debug, Default, PartialEq, Eq)]
pub struct Session {
    pub handle: u32,
    pub nonce: Field,
    pub attributes: u8,
    pub hmac: Field,
}

/// How many entries there are, and the first three: zeros where there is none.
#[repr(C)]
#[derive(Clone, Copy, Debug, Default, PartialEq, Eq)]
pub struct Sessions {
    pub count: usize,
    pub three: [Session; 3],
}

/// All parts of a frame; its code is a command code or a response code.
#[repr(C)]
#[derive(Clone, Copy, Debug, Default, PartialEq, Eq)]
pub struct Frame {
    pub tag: u16,
    pub code: u32,
    pub handles: Span,
    pub auth: Span,
    pub parameters: Span,
    pub sessions: Sessions,
}

/// The refusal's number, and the parts where it is 0; else they are zeros.
#[repr(C)]
#[derive(Clone, Copy, Debug, Default, PartialEq, Eq)]
pub struct Parts {
    pub refusal: u32,
    pub frame: Frame,
}

/// What a writer takes beside the tag or the code: handle bytes, sessions in a record or in a slice, the bytes that their
/// places point into, and parameter bytes.
#[derive(Clone, Copy)]
pub struct Handed<'a, S = Sessions> {
    pub handles: &'a [u8],
    pub sessions: S,
    pub lent: &'a [u8],
    pub parameters: &'a [u8],
}

impl<'a> Handed<'a> {
    /// The same with the first of these records, as many as the count says, in place of the record by value.
    pub fn over(self, records: &'a [Session]) -> Handed<'a, &'a [Session]> {
        let Self { handles, sessions, lent, parameters } = self;
        Handed { handles, sessions: &records[..sessions.count], lent, parameters }
    }
}

/// A slice as C takes it: where it starts, and its length.
trait Lent {
    type Start;
    fn lent(self) -> (Self::Start, usize);
}

impl Lent for &[u8] {
    type Start = *const u8;
    fn lent(self) -> (Self::Start, usize) {
        (self.as_ptr(), self.len())
    }
}

impl Lent for &mut [u8] {
    type Start = *mut u8;
    fn lent(self) -> (Self::Start, usize) {
        (self.as_mut_ptr(), self.len())
    }
}

/// Makes a safe function of each of the library's that is named here without its prefix. The brackets hold the slice
/// that it takes, if it takes one; the lent array is always last.
macro_rules! calls {
    ($prefix:expr; $($vis:vis fn $name:ident(
        $($before:ident: $b:ty,)* [$($s:ident: $slice:ty)?] $(, $after:ident: $a:ty)*
    );)*) => {$(
        $vis fn $name($($before: $b,)* $($s: $slice,)? $($after: $a,)* out: &mut Out) -> u32 {
            unsafe extern "C" {
                #[link_name = concat!($prefix, stringify!($name))]
                fn call(
                    $($before: $b,)* $($s: <$slice as Lent>::Start, len: usize,)? $($after: $a,)* out: &mut Out
                ) -> u32;
            }
            $(let ($s, len) = $s.lent();)?
            // SAFETY: the types are those that the header declares; start and length are those of one slice, which is
            // borrowed for the call, as is every array; what is borrowed to be written to overlaps nothing.
            unsafe { call($($before,)* $($s, len,)? $($after,)* out) }
        }
    )*};
}

calls! {
    "skein_";

    pub fn read_u16(place: usize, [s: &[u8]]);
    pub fn read_u32(place: usize, [s: &[u8]]);
    pub fn write_u16(place: usize, n: u16, [s: &mut [u8]]);
    pub fn write_u32(place: usize, n: u32, [s: &mut [u8]]);

    pub fn rc_read(rc: u32, []);
    pub fn rc_value(kind: u32, base: u32, index: u8, []);

    pub fn tpm2b_validate_prefix(capacity: usize, [s: &[u8]]);
    pub fn tpm2b_validate(capacity: usize, [s: &[u8]]);
    pub fn tpm2b_cast(capacity: usize, [s: &[u8]]);
    pub fn tpm2b_cast_prefix(capacity: usize, [s: &[u8]]);
    pub fn tpm2b_size([s: &[u8]]);
    pub fn tpm2b_data([s: &[u8]]);
    pub fn tpm2b_is_empty([s: &[u8]]);
    pub fn tpm2b_len([s: &[u8]]);

    pub fn table_find(revision: u32, cc: u32, []);
    pub fn table_known(revision: u32, cc: u32, []);
    pub fn tag_known(tag: u16, []);

    pub fn frame_tag([s: &[u8]]);
    pub fn frame_size([s: &[u8]]);
    pub fn frame_set_tag(tag: u16, [s: &mut [u8]]);
    pub fn frame_len([s: &[u8]]);
    pub fn frame_is_empty([s: &[u8]]);

    pub fn command_cast(rules: u32, [s: &[u8]]);
    pub fn command_cast_prefix(rules: u32, [s: &[u8]]);
    pub fn command_validate(rules: u32, [s: &[u8]]);
    pub fn command_cc(rules: u32, [s: &[u8]]);
    pub fn command_set_cc(rules: u32, cc: u32, [s: &mut [u8]]);
    pub fn command_handles(rules: u32, [s: &[u8]]);
    pub fn command_auth_area(rules: u32, [s: &[u8]]);
    pub fn command_parameters(rules: u32, [s: &[u8]]);

    pub fn response_cast(rules: u32, [s: &[u8]]);
    pub fn response_cast_prefix(rules: u32, [s: &[u8]]);
    pub fn response_validate(rules: u32, cc: u32, [s: &[u8]]);
    pub fn response_rc(rules: u32, [s: &[u8]]);
    pub fn response_set_rc(rules: u32, rc: u32, [s: &mut [u8]]);
    pub fn response_body([s: &[u8]]);
}

// ---- all parts by value, and the writers

/// Makes a safe function of a call that gives all parts.
macro_rules! parts {
    ($($name:ident = $call:ident($($before:ident: $b:ty)?);)*) => {$(
        pub fn $name(rules: u32, $($before: $b,)? s: &[u8], out: &mut Out) -> Parts {
            unsafe extern "C" {
                fn $call(rules: u32, $($before: $b,)? s: *const u8, len: usize, out: &mut Out) -> Parts;
            }
            let (start, len) = s.lent();
            // SAFETY: as above.
            unsafe { $call(rules, $($before,)? start, len, out) }
        }
    )*};
}

parts! {
    command_parts = skein_command_parts();
    response_parts = skein_response_parts(cc: u32);
}

/// Makes a safe function of a writer, which takes its rules, a number and the command's code before what it is handed; behind `as` is
/// how C takes the sessions.
macro_rules! writers {
    ($($name:ident = $call:ident(
        $number:ident: $n:ty, $sessions:ident: $s:ty as $($passed:ident: $p:ty = $value:expr),+
    );)*) => {$(
        pub fn $name(rules: u32, $number: $n, cc: u32, given: Handed<$s>, room: &mut [u8], out: &mut Out) -> u32 {
            unsafe extern "C" {
                fn $call(
                    rules: u32,
                    $number: $n,
                    cc: u32,
                    handles: *const u8,
                    handles_len: usize,
                    $($passed: $p,)+
                    lent: *const u8,
                    lent_len: usize,
                    parameters: *const u8,
                    parameters_len: usize,
                    room: *mut u8,
                    room_len: usize,
                    out: &mut Out,
                ) -> u32;
            }
            let Handed { handles, sessions: $sessions, lent, parameters } = given;
            let ((handles, h), (lent, l), (parameters, p)) = (handles.lent(), lent.lent(), parameters.lent());
            let (room, r) = room.lent();
            // SAFETY: as above.
            unsafe { $call(rules, $number, cc, handles, h, $($value,)+ lent, l, parameters, p, room, r, out) }
        }
    )*};
}

writers! {
    command_write = skein_command_write(tag: u16, three: Sessions as record: Sessions = three);
    response_write = skein_response_write(rc: u32, three: Sessions as record: Sessions = three);
    command_write_array = skein_command_write_array(
        tag: u16, all: &[Session] as records: *const Session = all.as_ptr(), count: usize = all.len()
    );
    response_write_array = skein_response_write_array(
        rc: u32, all: &[Session] as records: *const Session = all.as_ptr(), count: usize = all.len()
    );
}

/// The data of a fixed buffer, an array as long as the capacity, and the calls of that capacity.
pub trait Data: Sized {
    #[allow(clippy::new_ret_no_self)]
    fn new(data: &mut Self, out: &mut Out) -> u32;
    fn push(byte: u8, size: u16, data: &mut Self, out: &mut Out) -> u32;
    fn extend(s: &[u8], size: u16, data: &mut Self, out: &mut Out) -> u32;
    fn held(size: u16, data: &Self, room: &mut [u8], out: &mut Out) -> u32;
    fn eq(size: u16, data: &Self, other_size: u16, other: &Self, out: &mut Out) -> u32;
    fn wire_len(size: u16, out: &mut Out) -> u32;
    fn marshal(size: u16, data: &Self, room: &mut [u8], out: &mut Out) -> u32;
    fn unmarshal(s: &[u8], data: &mut Self, out: &mut Out) -> u32;
    fn from_slice(s: &[u8], data: &mut Self, out: &mut Out) -> u32;
}

macro_rules! capacities {
    ($($capacity:literal)*) => {$(
        impl Data for [u8; $capacity] {
            calls! {
                concat!("skein_buffer", $capacity, "_");

                fn new(data: &mut [u8; $capacity], []);
                fn push(byte: u8, size: u16, data: &mut [u8; $capacity], []);
                fn extend([s: &[u8]], size: u16, data: &mut [u8; $capacity]);
                fn held(size: u16, data: &[u8; $capacity], [room: &mut [u8]]);
                fn eq(size: u16, data: &[u8; $capacity], other_size: u16, other: &[u8; $capacity], []);
                fn wire_len(size: u16, []);
                fn marshal(size: u16, data: &[u8; $capacity], [room: &mut [u8]]);
                fn unmarshal([s: &[u8]], data: &mut [u8; $capacity]);
                fn from_slice([s: &[u8]], data: &mut [u8; $capacity]);
            }
        }
    )*};
}

capacities!(64 1024);

// ---- the nonce keeper

/// A keeper. Only the calls know what stands in it; zeros are an empty one.
#[repr(C)]
#[derive(Clone, Debug, PartialEq, Eq)]
pub struct Keeper {
    pub opaque: [u64; 553],
}

impl Keeper {
    pub const EMPTY: Self = Self { opaque: [0; 553] };

    /// Its bytes, in which `keeper_ask` gives places.
    pub fn bytes(&self) -> &[u8] {
        // SAFETY: a number of eight bytes is eight bytes that are set, and they are borrowed as long as the keeper is.
        unsafe { core::slice::from_raw_parts(self.opaque.as_ptr().cast(), size_of::<Self>()) }
    }
}

calls! {
    "skein_";

    pub fn keeper_new(keeper: &mut Keeper, []);
    pub fn keeper_open(handle: u32, [nonce: &[u8]], keeper: &mut Keeper);
    pub fn keeper_close(handle: u32, keeper: &mut Keeper, []);
    pub fn keeper_ask(handle: u32, keeper: &Keeper, []);
    pub fn keeper_len(keeper: &Keeper, []);
}

pub fn keeper_answer(revision: u32, command: &[u8], response: &[u8], keeper: &mut Keeper, out: &mut Out) -> u32 {
    unsafe extern "C" {
        fn skein_keeper_answer(
            revision: u32,
            command: *const u8,
            command_len: usize,
            response: *const u8,
            response_len: usize,
            keeper: &mut Keeper,
            out: &mut Out,
        ) -> u32;
    }
    let ((command, c), (response, r)) = (command.lent(), response.lent());
    // SAFETY: as above.
    unsafe { skein_keeper_answer(revision, command, c, response, r, keeper, out) }
}
