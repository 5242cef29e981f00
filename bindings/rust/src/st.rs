//! The tags of structures, and their names.

use crate::names::names;

names! {
    /// A tag (Part 2, `TPM_ST`). Of these, frames have [`NoSessions`](Self::NoSessions) and [`Sessions`](Self::Sessions), and
    /// the answer to a bad tag has [`RspCommand`](Self::RspCommand).
    ///
    /// ```
    /// use skeinloft::TpmSt;
    ///
    /// assert_eq!(TpmSt::Sessions, TpmSt(0x8002));
    /// assert_eq!(TpmSt::Sessions.to_string(), "TPM_ST_SESSIONS");
    /// ```
    TpmSt(u16) "TPM_ST_" Sessions
    RspCommand = 0x00C4 "RSP_COMMAND",
    Null = 0x8000 "NULL",
    NoSessions = 0x8001 "NO_SESSIONS",
    Sessions = 0x8002 "SESSIONS",
    AttestNv = 0x8014 "ATTEST_NV",
    AttestCommandAudit = 0x8015 "ATTEST_COMMAND_AUDIT",
    AttestSessionAudit = 0x8016 "ATTEST_SESSION_AUDIT",
    AttestCertify = 0x8017 "ATTEST_CERTIFY",
    AttestQuote = 0x8018 "ATTEST_QUOTE",
    AttestTime = 0x8019 "ATTEST_TIME",
    AttestCreation = 0x801A "ATTEST_CREATION",
    AttestNvDigest = 0x801C "ATTEST_NV_DIGEST",
    Creation = 0x8021 "CREATION",
    Verified = 0x8022 "VERIFIED",
    AuthSecret = 0x8023 "AUTH_SECRET",
    HashCheck = 0x8024 "HASHCHECK",
    AuthSigned = 0x8025 "AUTH_SIGNED",
}
