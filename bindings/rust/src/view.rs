//! What all views share: how a call is asked, and how its answer becomes a part of the bytes.

use crate::calls::{self, Frame, Out, Parts, Span};
use crate::refusal::{Refusal, WriteRefusal};
use crate::st::TpmSt;
use core::ops::Range;

/// Makes a call: the answer's numbers, or the refusal.
pub(crate) fn ask(call: impl FnOnce(&mut Out) -> u32) -> Result<[u64; 4], Refusal> {
    ask_or(Refusal::new, call)
}

/// Makes the call of a writer: how many bytes the frame takes, or the refusal.
pub(crate) fn ask_writer(call: impl FnOnce(&mut Out) -> u32) -> Result<usize, WriteRefusal> {
    ask_or(WriteRefusal::new, call).map(|[len, ..]| len as usize)
}

/// Makes a call: the answer's numbers, or what a refusal's number and the array are turned into.
fn ask_or<E>(refused: impl FnOnce(u32, &Out) -> E, call: impl FnOnce(&mut Out) -> u32) -> Result<[u64; 4], E> {
    let mut out = [0; 8];
    match call(&mut out) {
        0 => Ok([out[0], out[1], out[2], out[3]]),
        number => Err(refused(number, &out)),
    }
}

/// Makes a call that gives all parts by value.
pub(crate) fn ask_parts(call: impl FnOnce(&mut Out) -> Parts) -> Result<Frame, Refusal> {
    let mut frame = Frame::default();
    ask(|out| {
        let parts = call(out);
        frame = parts.frame;
        parts.refusal
    })?;
    Ok(frame)
}

/// Makes a call, on a number and bytes, that gives a part of the bytes by its start and its end, and what is behind it by
/// the next two numbers.
pub(crate) fn ask_split<N>(
    number: N,
    bytes: &[u8],
    call: impl FnOnce(N, &[u8], &mut Out) -> u32,
) -> Result<(&[u8], &[u8]), Refusal> {
    let [from, to, tail_from, tail_to] = ask(|out| call(number, bytes, out))?.map(|place| place as usize);
    Ok((&bytes[from..to], &bytes[tail_from..tail_to]))
}

/// The tag of a frame.
pub(crate) fn ask_tag(bytes: &[u8]) -> Result<TpmSt, Refusal> {
    let [tag, ..] = ask(|out| calls::frame_tag(bytes, out))?;
    Ok(TpmSt(tag as u16))
}

pub(crate) fn part(bytes: &[u8], span: Span) -> &[u8] {
    &bytes[span.from..span.to]
}

/// Where the areas of a frame are, as places in its bytes.
///
/// ```
/// use skeinloft::{Rules, TpmCommand};
///
/// let unseal = TpmCommand::cast(Rules::STANDARD, &[
///     0x80, 0x02, 0, 0, 0, 27, 0, 0, 0x01, 0x5E, // tag, size, code
///     0x80, 0, 0, 0, // the handle
///     0, 0, 0, 9, 0x40, 0, 0, 9, 0, 0, 0, 0, 0, // one entry, and its size before it
/// ])?;
/// let areas = unseal.areas()?;
/// assert_eq!((areas.handles, areas.auth_area, areas.parameters), (10..14, 18..27, 27..27));
/// # Ok::<(), skeinloft::Refusal>(())
/// ```
#[derive(Clone, Debug, PartialEq, Eq, Hash)]
#[non_exhaustive]
pub struct Areas {
    /// The handles.
    pub handles: Range<usize>,
    /// The entries of the authorization area, without the size that a command has before them.
    pub auth_area: Range<usize>,
    /// The parameters.
    pub parameters: Range<usize>,
}

impl From<Frame> for Areas {
    fn from(frame: Frame) -> Self {
        let range = |span: Span| span.from..span.to;
        Self { handles: range(frame.handles), auth_area: range(frame.auth), parameters: range(frame.parameters) }
    }
}
