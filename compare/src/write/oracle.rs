//! The crate's writers under the convention of `calls`. There is none where the crate cannot be asked: a tag, a code or a
//! session that its types cannot hold, or handle bytes that are not the row's.

use crate::calls::{Handed, Out, Session};
use crate::frame;
use crate::oracle::tell;
use crate::report::MOST;
use tpm2_protocol::basic::{TpmBuffer, TpmHandle};
use tpm2_protocol::data::{TpmCc, TpmRc, TpmRcBase, TpmSt, TpmaSession, TpmsAuthCommand, TpmsAuthResponse};
use tpm2_protocol::frame::{TpmFrame, TpmMarshalBody, tpm_marshal_command, tpm_marshal_response};
use tpm2_protocol::{TpmMarshal, TpmResult, TpmSized, TpmUnmarshal, TpmWriter};

/// A body of handle and parameter bytes, of a row with so many handles.
#[derive(Debug)]
pub struct Body<'a> {
    pub cc: TpmCc,
    pub row_handles: usize,
    pub handles: &'a [u8],
    pub parameters: &'a [u8],
}

impl TpmSized for Body<'_> {
    const SIZE: usize = usize::MAX;

    fn len(&self) -> usize {
        self.handles.len() + self.parameters.len()
    }
}

impl TpmMarshal for Body<'_> {
    fn marshal(&self, writer: &mut TpmWriter) -> TpmResult<()> {
        self.marshal_handles(writer)?;
        self.marshal_parameters(writer)
    }
}

impl TpmMarshalBody for Body<'_> {
    fn marshal_handles(&self, writer: &mut TpmWriter) -> TpmResult<()> {
        writer.write_bytes(self.handles)
    }

    fn marshal_parameters(&self, writer: &mut TpmWriter) -> TpmResult<()> {
        writer.write_bytes(self.parameters)
    }
}

impl TpmFrame for Body<'_> {
    fn cc(&self) -> TpmCc {
        self.cc
    }

    fn handles(&self) -> usize {
        self.row_handles
    }
}

pub fn command_write(tag: u16, cc: u32, given: Handed, room: &mut [u8], out: &mut Out) -> Option<u32> {
    let (tag, cc) = (TpmSt::try_from(tag).ok()?, TpmCc::try_from(cc).ok()?);
    let [row_handles, _] = row(cc);
    let sessions: [TpmsAuthCommand; MOST] = sessions(&given, |session, lent| {
        Some(TpmsAuthCommand {
            session_handle: TpmHandle::new(session.handle),
            nonce: TpmBuffer::try_from(slice(lent, session.nonce)?).ok()?,
            session_attributes: attributes(session.attributes)?,
            hmac: TpmBuffer::try_from(slice(lent, session.hmac)?).ok()?,
        })
    })?;
    let Handed { handles, parameters, .. } = given;
    if handles.len() != 4 * row_handles {
        return None;
    }
    let body = Body { cc, row_handles, handles, parameters };
    let mut writer = TpmWriter::new(room);
    let said = tpm_marshal_command(&body, tag, &sessions[..given.sessions.count], &mut writer);
    Some(tell(said, |()| [writer.len() as u64], out))
}

/// A command of any body without sessions.
pub fn plain_command(body: &impl TpmFrame, room: &mut [u8], out: &mut Out) -> u32 {
    let mut writer = TpmWriter::new(room);
    let said = tpm_marshal_command(body, TpmSt::NoSessions, &[], &mut writer);
    tell(said, |()| [writer.len() as u64], out)
}

/// With a code other than success the handle bytes are not looked at.
pub fn response_write(rc: u32, cc: u32, given: Handed, room: &mut [u8], out: &mut Out) -> Option<u32> {
    let (rc, cc) = (TpmRc::try_from(rc).ok()?, TpmCc::try_from(cc).ok()?);
    let [_, row_handles] = row(cc);
    let sessions: [TpmsAuthResponse; MOST] = sessions(&given, |session, lent| {
        Some(TpmsAuthResponse {
            nonce: TpmBuffer::try_from(slice(lent, session.nonce)?).ok()?,
            session_attributes: attributes(session.attributes)?,
            hmac: TpmBuffer::try_from(slice(lent, session.hmac)?).ok()?,
        })
    })?;
    let Handed { handles, parameters, .. } = given;
    if rc == TpmRc::Fmt0(TpmRcBase::Success) && handles.len() != 4 * row_handles {
        return None;
    }
    let body = Body { cc, row_handles, handles, parameters };
    let mut writer = TpmWriter::new(room);
    let said = tpm_marshal_response(&body, rc, &sessions[..given.sessions.count], &mut writer);
    Some(tell(said, |()| [writer.len() as u64], out))
}

/// The row's handles, and those of the response.
fn row(cc: TpmCc) -> [usize; 2] {
    let mut row = [0; 8];
    assert_eq!(frame::oracle::table_find(cc.value(), &mut row), 0, "every code that TpmCc has has a row");
    [row[0] as usize, row[1] as usize]
}

/// The sessions that are looked at; a fourth and later ones, of which the records do not tell, are empty ones.
fn sessions<T: Copy + Default>(given: &Handed, make: impl Fn(&Session, &[u8]) -> Option<T>) -> Option<[T; MOST]> {
    let mut sessions = [T::default(); MOST];
    let count = sessions.get(..given.sessions.count)?.len();
    for (place, session) in sessions[..count].iter_mut().zip(&given.sessions.three) {
        *place = make(session, given.lent)?;
    }
    Some(sessions)
}

fn slice(lent: &[u8], field: crate::calls::Field) -> Option<&[u8]> {
    lent.get(field.at..)?.get(..field.size.into())
}

fn attributes(byte: u8) -> Option<TpmaSession> {
    TpmaSession::unmarshal(&[byte]).ok().map(|(attributes, _)| attributes)
}
