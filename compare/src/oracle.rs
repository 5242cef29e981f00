//! The crate tpm2-protocol under the convention of `calls`: the number comes out, the array takes the rest. What the
//! crate answers and refuses is turned into document 01's numbers here alone, for every suite and for the benchmark.

use crate::calls::Out;
use crate::report::report;
use tpm2_protocol::basic::{Tpm2b, TpmBuffer};
use tpm2_protocol::data::{TpmRc, TpmRcBase, TpmRcFmt1, TpmRcIndex};
use tpm2_protocol::{TpmError, TpmMarshal, TpmResult, TpmSized, TpmUnmarshal, TpmWriter};

/// What an error becomes that document 01 gives no number. No call of ours returns it, so it shows as a mismatch.
pub const UNNUMBERED: u32 = u32::MAX;

pub fn refuse(error: TpmError, out: &mut Out) -> u32 {
    match error {
        TpmError::UnexpectedEnd { offset, needed, available } => put(1, wide([offset, needed, available]), out),
        TpmError::TrailingData { offset, actual } => put(2, wide([offset, actual]), out),
        TpmError::InvalidTag { offset, value } => put(3, [offset as u64, value], out),
        TpmError::InvalidCc { offset, value } => put(4, [offset as u64, value], out),
        TpmError::InvalidRc { offset, value } => put(5, [offset as u64, value], out),
        TpmError::TooManyItems { offset, limit, actual } => put(6, wide([offset, limit, actual]), out),
        TpmError::IntegerTooLarge { offset, value } => put(7, [offset as u64, value], out),
        TpmError::TooManyBytes { offset, limit, actual } => put(8, wide([offset, limit, actual]), out),
        TpmError::BufferOverflow { offset, needed, available } => put(9, wide([offset, needed, available]), out),
        _ => UNNUMBERED,
    }
}

pub fn give<const N: usize>(values: [u64; N], out: &mut Out) -> u32 {
    put(0, values, out)
}

/// The answer with its numbers, or the refusal.
pub fn tell<T, const N: usize>(said: TpmResult<T>, values: impl FnOnce(T) -> [u64; N], out: &mut Out) -> u32 {
    match said {
        Ok(answer) => give(values(answer), out),
        Err(error) => refuse(error, out),
    }
}

pub fn put<const N: usize>(number: u32, values: [u64; N], out: &mut Out) -> u32 {
    report(number, values, out)
}

pub fn wide<const N: usize>(counts: [usize; N]) -> [u64; N] {
    counts.map(|count| count as u64)
}

// ---- response codes

pub fn rc_read(code: u32, out: &mut Out) -> u32 {
    let parts_and_value = |rc: TpmRc| {
        let (kind, index) = kind_and_index(rc);
        [kind, rc.base().value().into(), index.into(), rc.value().into()]
    };
    tell(TpmRc::try_from(code), parts_and_value, out)
}

/// The number of the kind, as `rc_value` takes it, and the index, 0 for none.
fn kind_and_index(rc: TpmRc) -> (u64, u8) {
    match rc {
        TpmRc::Fmt0(_) => (0, 0),
        TpmRc::Warn(_) => (1, 0),
        TpmRc::Fmt1(fmt1) => match fmt1.index {
            None => (2, 0),
            Some(TpmRcIndex::Parameter(n)) => (3, n),
            Some(TpmRcIndex::Handle(n)) => (4, n),
            Some(TpmRcIndex::Session(n)) => (5, n),
        },
    }
}

/// The code of a kind's number; none where the crate has no such base or kind.
pub fn rc_of_parts(kind: u32, base: u32, index: u8) -> Option<TpmRc> {
    let base = TpmRcBase::try_from(base).ok()?;
    let fmt1 = |index| TpmRc::Fmt1(TpmRcFmt1 { base, index });
    match kind {
        0 => Some(TpmRc::Fmt0(base)),
        1 => Some(TpmRc::Warn(base)),
        2 => Some(fmt1(None)),
        3 => Some(fmt1(Some(TpmRcIndex::Parameter(index)))),
        4 => Some(fmt1(Some(TpmRcIndex::Handle(index)))),
        5 => Some(fmt1(Some(TpmRcIndex::Session(index)))),
        _ => None,
    }
}

// ---- views of a TPM2B

pub fn tpm2b_validate_prefix<const CAPACITY: usize>(s: &[u8], out: &mut Out) -> u32 {
    tell(Tpm2b::<CAPACITY>::validate_prefix(s), |n| [n as u64], out)
}

pub fn tpm2b_validate<const CAPACITY: usize>(s: &[u8], out: &mut Out) -> u32 {
    tell(Tpm2b::<CAPACITY>::validate(s), |()| [], out)
}

pub fn tpm2b_cast<const CAPACITY: usize>(s: &[u8], out: &mut Out) -> u32 {
    tell(Tpm2b::<CAPACITY>::cast(s), |view| range(view.as_bytes(), s.as_ptr()), out)
}

pub fn tpm2b_cast_prefix<const CAPACITY: usize>(s: &[u8], out: &mut Out) -> u32 {
    let ranges = |(view, tail): (&Tpm2b<CAPACITY>, &[u8])| {
        let ([from, to], [tail_from, tail_to]) = (range(view.as_bytes(), s.as_ptr()), range(tail, s.as_ptr()));
        [from, to, tail_from, tail_to]
    };
    tell(Tpm2b::<CAPACITY>::cast_prefix(s), ranges, out)
}

/// Where a part of a slice stands, counted from the slice's start.
pub fn range(part: &[u8], start: *const u8) -> [u64; 2] {
    let from = part.as_ptr().addr() - start.addr();
    wide([from, from + part.len()])
}

pub fn tpm2b_size(s: &mut [u8], out: &mut Out) -> Option<u32> {
    view(s).map(|view| give([view.size() as u64], out))
}

pub fn tpm2b_data(s: &mut [u8], out: &mut Out) -> Option<u32> {
    let start = s.as_ptr();
    view(s).map(|view| give(range(view.data(), start), out))
}

pub fn tpm2b_is_empty(s: &mut [u8], out: &mut Out) -> Option<u32> {
    view(s).map(|view| give([view.is_empty().into()], out))
}

pub fn tpm2b_len(s: &mut [u8], out: &mut Out) -> Option<u32> {
    view(s).map(|view| give([view.len() as u64], out))
}

/// A view whose size field says anything. The crate casts no bytes whose size is not that of their data, but through
/// the view the field can be changed: so the cast is made with the right size, and then the field is put back.
fn view(s: &mut [u8]) -> Option<&Tpm2b<{ u16::MAX as usize }>> {
    let field = *s.first_chunk::<2>()?;
    let fitting = u16::try_from(s.len() - 2).ok()?;
    s[..2].copy_from_slice(&fitting.to_be_bytes());
    let view = Tpm2b::cast_mut(s).expect("the size is right");
    view.as_bytes_mut()[..2].copy_from_slice(&field);
    Some(view)
}

// ---- fixed buffers

/// The buffer that holds the first bytes of the data; none if there are fewer.
pub fn buffer<const N: usize>(size: u16, data: &[u8]) -> Option<TpmBuffer<N>> {
    TpmBuffer::try_from(data.get(..size.into())?).ok()
}

pub fn buffer_new<const N: usize>(buffer: &mut TpmBuffer<N>, out: &mut Out) -> u32 {
    *buffer = TpmBuffer::new();
    give([size(buffer)], out)
}

pub fn buffer_push<const N: usize>(buffer: &mut TpmBuffer<N>, byte: u8, out: &mut Out) -> u32 {
    tell(buffer.try_push(byte), |()| [size(buffer)], out)
}

pub fn buffer_extend<const N: usize>(buffer: &mut TpmBuffer<N>, s: &[u8], out: &mut Out) -> u32 {
    tell(buffer.try_extend_from_slice(s), |()| [size(buffer)], out)
}

/// The room must be long enough: that is for the caller to see to.
pub fn buffer_held<const N: usize>(buffer: &TpmBuffer<N>, room: &mut [u8], out: &mut Out) -> u32 {
    room[..buffer.as_ref().len()].copy_from_slice(buffer);
    give([size(buffer)], out)
}

pub fn buffer_eq<const N: usize>(buffer: &TpmBuffer<N>, other: &TpmBuffer<N>, out: &mut Out) -> u32 {
    give([(buffer == other).into()], out)
}

pub fn buffer_len<const N: usize>(buffer: &TpmBuffer<N>, out: &mut Out) -> u32 {
    give([TpmSized::len(buffer) as u64], out)
}

pub fn buffer_marshal<const N: usize>(buffer: &TpmBuffer<N>, room: &mut [u8], out: &mut Out) -> u32 {
    let mut writer = TpmWriter::new(room);
    tell(buffer.marshal(&mut writer), |()| [writer.len() as u64], out)
}

pub fn buffer_unmarshal<const N: usize>(s: &[u8], buffer: &mut TpmBuffer<N>, out: &mut Out) -> u32 {
    let size_and_length = |(read, rest): (TpmBuffer<N>, &[u8])| {
        *buffer = read;
        [size(buffer), (s.len() - rest.len()) as u64]
    };
    tell(TpmBuffer::unmarshal(s), size_and_length, out)
}

pub fn buffer_from_slice<const N: usize>(s: &[u8], buffer: &mut TpmBuffer<N>, out: &mut Out) -> u32 {
    let store = |read| {
        *buffer = read;
        [size(buffer)]
    };
    tell(TpmBuffer::try_from(s), store, out)
}

/// How many bytes a buffer holds.
fn size<const N: usize>(buffer: &TpmBuffer<N>) -> u64 {
    buffer.as_ref().len() as u64
}
