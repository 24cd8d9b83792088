// SPDX-License-Identifier: MIT OR Apache-2.0
//! Commands by their fields, and the fields of commands.
use smmuq::{ByAddress, Command, Error, Fields, Illegal, Range};

const PAGE: ByAddress = ByAddress {
    address: 0x3000,
    leaf: true,
    ttl: 0,
    range: None,
};

/// 4 * 2^5 granules of 4K, whose leaves are at level 3.
const BLOCK: ByAddress = ByAddress {
    address: 0x20_0000,
    leaf: true,
    ttl: 3,
    range: Some(Range {
        tg: 1,
        num: 3,
        scale: 5,
    }),
};

#[test]
fn known_words() -> Result<(), Error> {
    let known = [
        (
            Command::new(0x0000_0005_0000_0003, 1),
            Fields::CfgiSte { sid: 5, leaf: true },
        ),
        (
            Command::new(0x0002_0001_0000_0012, 0x3001),
            Fields::TlbiNhVa {
                vmid: 1,
                asid: 2,
                at: PAGE,
            },
        ),
        (
            Command::new(0x0000_0001_0000_0010, 0),
            Fields::TlbiNhAll { vmid: 1 },
        ),
        (
            Command::SYNC,
            Fields::CmdSync {
                cs: 0,
                msh: 0,
                attr: 0,
                data: 0,
                address: 0,
            },
        ),
        (Command::new(0x41, 7), Fields::Other(Command::new(0x41, 7))),
    ];
    for (command, fields) in known {
        assert_eq!(command.fields(), Ok(fields), "{command:?}");
        assert_eq!(Command::try_from(fields)?, command, "{fields:?}");
    }
    Ok(())
}

#[test]
fn every_kind_comes_back() -> Result<(), Error> {
    let (sid, ssid, vmid, asid) = (0x1234_5678, 0x5_4321, 0x1357, 0x2468);
    let of_stream = |ssid| Fields::AtcInv {
        sid,
        ssid,
        global: true,
        size: 9,
        address: 0x20_0000,
    };
    let all = [
        Fields::CfgiSte { sid, leaf: false },
        Fields::CfgiSteRange { sid, range: 31 },
        Fields::CfgiCd {
            sid,
            ssid,
            leaf: true,
        },
        Fields::CfgiCdAll { sid },
        Fields::TlbiNhAll { vmid },
        Fields::TlbiNhAsid { vmid, asid },
        Fields::TlbiNhVa {
            vmid,
            asid,
            at: BLOCK,
        },
        Fields::TlbiNhVaa { vmid, at: PAGE },
        Fields::TlbiEl2All,
        Fields::TlbiEl2Asid { asid },
        Fields::TlbiEl2Va { asid, at: BLOCK },
        Fields::TlbiEl2Vaa { at: PAGE },
        Fields::TlbiS12Vmall { vmid },
        Fields::TlbiS2Ipa { vmid, at: BLOCK },
        Fields::TlbiNsnhAll,
        of_stream(Some(ssid)),
        of_stream(None),
        Fields::CmdSync {
            cs: 1,
            msh: 3,
            attr: 0xf,
            data: 0x89ab_cdef,
            address: 0x4000_0040,
        },
        Fields::Other(Command::new(0x44, 0x1234)),
    ];
    for fields in all {
        let command = Command::try_from(fields)?;
        assert_eq!(command.check(), Ok(()), "{fields:?}");
        assert_eq!(command.fields(), Ok(fields), "{command:?}");
    }
    Ok(())
}

#[test]
fn what_is_no_command() {
    let unaligned = ByAddress {
        address: 0x3010,
        ..PAGE
    };
    let granule = ByAddress {
        range: Some(Range {
            tg: 4,
            num: 0,
            scale: 0,
        }),
        ..PAGE
    };
    for at in [unaligned, granule] {
        let refused = Command::try_from(Fields::TlbiEl2Vaa { at });
        assert_eq!(refused, Err(Error::BadField), "{at:?}");
    }
    let other = Fields::Other(Command::new(0x03, 0));
    assert_eq!(Command::try_from(other), Err(Error::BadField));
    assert_eq!(Command::new(0xff, 0).fields(), Err(Illegal::Opcode));
}

#[test]
fn commands_of_a_range() {
    let one = Command::range(1, 2, 0x1_0000, 1);
    assert_eq!(one, Ok(vec![Command::new(0x0002_0001_0000_0012, 0x1_0001)]));
    assert_eq!(Command::range(1, 2, 0x1_0000, 0), Err(Error::NoPages));
    assert_eq!(
        Command::range(1, 2, 0xffff_ffff_ffff_f000, 2),
        Err(Error::PastEnd)
    );
}
