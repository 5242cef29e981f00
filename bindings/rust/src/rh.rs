//! The permanent handles, and their names.

use crate::names::names;

names! {
    /// A permanent handle (Part 2, `TPM_RH`).
    ///
    /// The constants have the names of tpm2-protocol's `TpmRh`.
    ///
    /// ```
    /// use skeinloft::TpmRh;
    ///
    /// assert_eq!(TpmRh::Pw, TpmRh(0x4000_0009));
    /// assert_eq!(TpmRh::Pw.to_string(), "TPM_RS_PW");
    /// ```
    TpmRh(u32) "TPM_" Pw
    Srk = 0x4000_0000 "RH_SRK",
    Owner = 0x4000_0001 "RH_OWNER",
    Revoke = 0x4000_0002 "RH_REVOKE",
    Transport = 0x4000_0003 "RH_TRANSPORT",
    Operator = 0x4000_0004 "RH_OPERATOR",
    Admin = 0x4000_0005 "RH_ADMIN",
    Ek = 0x4000_0006 "RH_EK",
    Null = 0x4000_0007 "RH_NULL",
    Unassigned = 0x4000_0008 "RH_UNASSIGNED",
    Pw = 0x4000_0009 "RS_PW",
    Lockout = 0x4000_000A "RH_LOCKOUT",
    Endorsement = 0x4000_000B "RH_ENDORSEMENT",
    Platform = 0x4000_000C "RH_PLATFORM",
    PlatformNv = 0x4000_000D "RH_PLATFORM_NV",
    FwOwner = 0x4000_0140 "RH_FW_OWNER",
    FwEndorsement = 0x4000_0141 "RH_FW_ENDORSEMENT",
    FwPlatform = 0x4000_0142 "RH_FW_PLATFORM",
    FwNull = 0x4000_0143 "RH_FW_NULL",
    SvnOwnerBase = 0x4001_0000 "RH_SVN_OWNER_BASE",
    SvnEndorsementBase = 0x4002_0000 "RH_SVN_ENDORSEMENT_BASE",
    SvnPlatformBase = 0x4003_0000 "RH_SVN_PLATFORM_BASE",
    SvnNullBase = 0x4004_0000 "RH_SVN_NULL_BASE",
}
