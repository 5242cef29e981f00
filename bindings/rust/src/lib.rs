//! TPM 2.0 command and response frames: read, checked and written by a proved library.
//!
//! Every answer comes from Skeinloft, which is written in Rattle: each of its functions is proved to give the answer that
//! its definition says, for every input, and to stay inside the bytes that it is given. This crate lends it slices and gives
//! back slices. A bad frame gets one [`Refusal`], with a number, a name, the [`Area`] of the frame and fields; nothing is
//! changed by a refused call. What writes frames answers with [`WriteRefusal`], which has one more.
//!
//! The crate has no dependency, allocates nothing and needs no `std`; `unsafe` is in one file, which declares the calls.
//! The names are those of tpm2-protocol where it has them. An installed crate is linked with the library that was installed
//! beside it, the crate in the repository with the one that `rt lib` in `crates/capi_c` writes there to `out`;
//! `SKEINLOFT_LIB_DIR` names another folder.
//!
//! # Reading
//!
//! Every call that judges a frame takes [`Rules`] first, and a view keeps them: [`Rules::STANDARD`], or [`Rules::RUST`] to
//! answer as software that runs tpm2-protocol does. They go by tpm2-protocol's table of commands;
//! `Rules::STANDARD.at(Revision::Lib159)` goes by that of the Library's revision 1.59, see [`Revision`].
//!
//! ```
//! use skeinloft::{Refusal, Rules, TpmCc, TpmCommand, TpmResponse};
//!
//! let command = TpmCommand::cast(Rules::STANDARD, &[0x80, 0x01, 0, 0, 0, 12, 0, 0, 0x01, 0x7B, 0, 2])?;
//! let cc = command.parts()?.cc;
//! assert_eq!(cc, TpmCc::GetRandom);
//!
//! // a response is judged for the command that it answers
//! let response = TpmResponse::cast(Rules::STANDARD, &[0x80, 0x01, 0, 0, 0, 14, 0, 0, 0, 0, 0, 2, 0xAA, 0xBB])?;
//! assert_eq!(response.parts(cc)?.parameters, [0, 2, 0xAA, 0xBB]);
//! # Ok::<(), Refusal>(())
//! ```
//!
//! # Writing
//!
//! ```
//! use skeinloft::{CommandParts, Rules, Sessions, TpmCc, TpmSt, TpmsAuth, WriteRefusal};
//!
//! let password = TpmsAuth { session_handle: 0x4000_0009, hmac: b"secret", ..TpmsAuth::default() };
//! let mut scratch = [0; 64];
//! let unseal = CommandParts {
//!     tag: TpmSt::Sessions,
//!     cc: TpmCc::Unseal,
//!     handles: &[0x80, 0, 0, 0],
//!     sessions: Sessions::new(&[password], &mut scratch)?,
//!     parameters: &[],
//! };
//! let mut room = [0; 4096];
//! let len = unseal.marshal(Rules::STANDARD, &mut room)?;
//! assert_eq!(room[..6], [0x80, 0x02, 0, 0, 0, 33]);
//! assert_eq!(len, 33);
//! # Ok::<(), WriteRefusal>(())
//! ```
//!
//! # Keeping nonces
//!
//! Each answer of the TPM brings a nonce over which the session's next command is signed. A [`Keeper`] takes every command with
//! its answer, and knows the last nonce of each open session.
//!
//! ```
//! use skeinloft::{Keeper, Refusal};
//!
//! let mut keeper = Keeper::new();
//! keeper.open(0x0200_0000, &[7; 16])?; // what TPM2_StartAuthSession gave
//! assert_eq!(keeper.nonce(0x0200_0000)?, [7; 16]);
//! assert_eq!(keeper.nonce(0x0200_0001), Err(Refusal::NotOpen));
//! # Ok::<(), Refusal>(())
//! ```

#![no_std]
#![deny(unsafe_code)]
#![warn(missing_docs)]

mod area;
mod base;
// each call stands there once, also those that this crate does not make
#[allow(dead_code, unsafe_code)]
mod calls;
mod cc;
mod command;
mod keeper;
mod names;
mod rc;
mod refusal;
mod response;
mod revision;
mod rh;
mod rules;
mod session;
mod st;
mod tpm2b;
mod view;

pub use area::Area;
pub use base::TpmRcBase;
pub use cc::TpmCc;
pub use command::{CommandParts, TpmCommand};
pub use keeper::Keeper;
pub use rc::{TpmRc, TpmRcIndex};
pub use refusal::{Refusal, WriteRefusal};
pub use response::{ResponseParts, TpmResponse};
pub use revision::Revision;
pub use rh::TpmRh;
pub use rules::{MAX_DIGEST_SIZE, Reading, ResponseMode, Rules};
pub use session::{Sessions, TpmaSession, TpmsAuth};
pub use st::TpmSt;
pub use tpm2b::Tpm2b;
pub use view::Areas;
