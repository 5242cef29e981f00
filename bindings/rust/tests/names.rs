//! The names and numbers of the tables, beside other tables of them.

#[allow(dead_code)]
#[path = "../src/calls.rs"]
mod calls;

use skeinloft::{Refusal, Revision, Rules, TpmCc, TpmCommand, TpmRc, TpmRcBase};
use std::collections::BTreeMap;
use std::path::PathBuf;

/// The rows of a table of facts without its head, or nothing where there are no facts: SKEIN_TRAFFIC names their folder, else
/// it is ../shared/facts beside the repository.
fn rows(name: &str) -> Option<Vec<Vec<String>>> {
    let beside = || PathBuf::from(concat!(env!("CARGO_MANIFEST_DIR"), "/../../../shared/facts"));
    let folder = std::env::var_os("SKEIN_TRAFFIC").map_or_else(beside, PathBuf::from);
    let file = folder.join("tables").join(name);
    let Ok(text) = std::fs::read_to_string(&file) else {
        println!("skipped, since there is no {}", file.display());
        return None;
    };
    Some(text.lines().skip(1).map(|row| row.split(',').map(str::to_owned).collect()).collect())
}

fn number(text: &str) -> u32 {
    u32::from_str_radix(text.trim_start_matches("0x"), 16).expect("a number in hexadecimal")
}

/// The bare names of our commands by their codes.
fn commands() -> BTreeMap<u32, &'static str> {
    let bare = |name: &'static str| name.strip_prefix("TPM2_").expect("each has the prefix");
    TpmCc::NAMED.iter().map(|&(cc, name)| (cc.value(), bare(name))).collect()
}

/// The tables, by their numbers, and the tables of facts that they are held to.
const TABLES: [(Revision, u32, &str); 3] = [
    (Revision::Crate, calls::REVISION_CRATE, "crate.csv"),
    (Revision::Lib138, calls::REVISION_138, "lib138.csv"),
    (Revision::Lib159, calls::REVISION_159, "lib159.csv"),
];

#[test]
fn commands_are_those_of_the_tables() {
    for (revision, number_of_table, table) in TABLES {
        let Some(rows) = rows(table) else { return };
        let ours = commands().into_keys().filter(|&code| revision.has(TpmCc(code)));
        assert!(rows.iter().map(|row| number(&row[0])).eq(ours), "{table}");
        for row in rows {
            let mut out = [0; 8];
            assert_eq!(calls::table_find(number_of_table, number(&row[0]), &mut out), 0, "{table} {row:?}");
            assert_eq!([out[0], out[1]].map(|count| count.to_string()), row[2..4], "{table} {row:?}");
        }
    }
}

#[test]
fn commands_are_named_as_in_the_library() {
    let ours = commands();
    for (table, due) in [("lib138.csv", 113), ("lib159.csv", 118)] {
        let Some(rows) = rows(table) else { return };
        assert_eq!(rows.len(), due, "{table}");
        for row in rows {
            assert_eq!(ours.get(&number(&row[0])), Some(&row[1].as_str()), "{table}");
        }
    }
}

#[test]
fn codes_are_named_as_in_the_library() {
    let Some(rows) = rows("rc-groups.csv") else { return };
    let mut theirs = BTreeMap::new();
    for row in rows.iter().filter(|row| row[0] != "NOT_USED") {
        theirs.extend((number(&row[1])..=number(&row[2])).zip(row[3].split(' ').map(|name| format!("TPM_RC_{name}"))));
    }
    let ours = TpmRcBase::NAMED.iter().map(|&(base, name)| (base.value(), name.to_owned()));
    assert_eq!(ours.collect::<BTreeMap<_, _>>(), theirs);
}

#[test]
fn every_command_that_is_one_has_a_name() {
    for code in (0..0x1000).chain(0x2000_0000..0x2000_0100) {
        let header = [&[0x80, 0x01, 0, 0, 0, 10][..], &u32::to_be_bytes(code)].concat();
        // its handles may be missing
        let known =
            |revision| !matches!(TpmCommand::cast(Rules::RUST.at(revision), &header), Err(Refusal::InvalidCc { .. }));
        assert_eq!(Revision::ALL.into_iter().any(known), TpmCc(code).name().is_some(), "0x{code:X}");
    }
}

#[test]
fn every_code_that_reads_has_a_name() {
    let read: Vec<TpmRc> = (0..0x10000).filter_map(|code| TpmRc::try_from(code).ok()).collect();
    assert_eq!(read.len(), 1212);
    for rc in read {
        assert!(rc.base().name().is_some(), "{rc:?}");
        assert_eq!(TpmRc::try_from(rc.value()), Ok(rc));
    }
    for &(base, _) in TpmRcBase::NAMED {
        assert_eq!(TpmRc::try_from(base.value()).map(TpmRc::base), Ok(base));
    }
}

/// The same names beside those of tpm2-protocol, where that is linked.
#[cfg(oracle)]
mod beside_the_crate {
    use skeinloft::{Revision, TpmCc, TpmRcBase, TpmRh, TpmSt, TpmaSession};
    use std::collections::BTreeMap;
    use tpm2_protocol::data;

    /// The codes whose names differ: the crate's name, and the Library's.
    const SPELT_OTHERWISE: [(&str, &str); 4] = [
        ("TPM_CC_PolicyOr", "TPM2_PolicyOR"),
        ("TPM_CC_AcGetCapability", "TPM2_AC_GetCapability"),
        ("TPM_CC_AcSend", "TPM2_AC_Send"),
        ("TPM2_ACT_SetTimeout", "TPM2_ACT_SetTimeout"),
    ];

    fn commands() -> impl Iterator<Item = u32> {
        (0..0x1000).chain(0x2000_0000..0x2000_0100)
    }

    #[test]
    fn the_longest_digest_is_alike() {
        assert_eq!(skeinloft::MAX_DIGEST_SIZE, tpm2_protocol::constant::MAX_DIGEST_SIZE);
    }

    #[test]
    fn commands_are_named_alike() {
        let spelt = BTreeMap::from(SPELT_OTHERWISE);
        for code in commands() {
            let theirs = data::TpmCc::try_from(code).ok().map(|cc| cc.to_string());
            let in_our_way = |name: String| {
                spelt.get(name.as_str()).map_or_else(|| name.replacen("TPM_CC_", "TPM2_", 1), ToString::to_string)
            };
            let ours = TpmCc(code).name().filter(|_| Revision::Crate.has(TpmCc(code)));
            assert_eq!(ours.map(str::to_owned), theirs.map(in_our_way), "0x{code:X}");
        }
    }

    #[test]
    fn codes_are_named_alike() {
        for code in 0..0x10000 {
            let theirs = data::TpmRcBase::try_from(code).ok().map(|base| base.to_string());
            assert_eq!(TpmRcBase(code).name().map(str::to_owned), theirs, "0x{code:X}");
        }
    }

    #[test]
    fn tags_are_named_alike() {
        for tag in 0..=u16::MAX {
            let theirs = data::TpmSt::try_from(tag).ok().map(|tag| tag.to_string());
            assert_eq!(TpmSt(tag).name().map(str::to_owned), theirs, "0x{tag:X}");
        }
    }

    #[test]
    fn handles_are_named_alike() {
        for handle in (0x4000_0000..0x4000_1000).chain(0x4001_0000..0x4005_0000) {
            let theirs = data::TpmRh::try_from(handle).ok().map(|handle| handle.to_string());
            assert_eq!(TpmRh(handle).name().map(str::to_owned), theirs, "0x{handle:X}");
        }
    }

    #[test]
    fn attributes_have_the_same_bits() {
        use data::TpmaSession as Theirs;
        let pairs = [
            (TpmaSession::CONTINUE_SESSION, Theirs::CONTINUE_SESSION),
            (TpmaSession::AUDIT_EXCLUSIVE, Theirs::AUDIT_EXCLUSIVE),
            (TpmaSession::AUDIT_RESET, Theirs::AUDIT_RESET),
            (TpmaSession::DECRYPT, Theirs::DECRYPT),
            (TpmaSession::ENCRYPT, Theirs::ENCRYPT),
            (TpmaSession::AUDIT, Theirs::AUDIT),
        ];
        assert!(pairs.iter().all(|(ours, theirs)| ours.bits() == theirs.bits()));
    }
}
