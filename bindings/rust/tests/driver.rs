// SPDX-License-Identifier: MIT OR Apache-2.0
//! The commands for what a driver changed, and what a command reaches.
use smmuq::{
    Asids, Bytes, Change, Changed, Command, Error, Granule, IdRegisters, Illegal, Pages, Region,
    Substreams,
};

/// Both stages, 16-bit VMIDs and ASIDs, ATS, range invalidation, 48-bit addresses and all granules.
const SMMU: IdRegisters = IdRegisters {
    idr0: 0x0004_1c03 | 1 << 10,
    idr1: 0x0000_0410,
    idr3: 1 << 10,
    idr5: 0x75,
};

fn pages(length: u64, changed: Changed) -> Pages {
    Pages {
        bytes: Bytes::From {
            first: 0x1000,
            length,
        },
        granule: Granule::Size4K,
        changed,
        most_commands: 512,
    }
}

#[test]
fn one_page_of_an_address_space() -> Result<(), Error> {
    let change = Change::Stage1 {
        vmid: 1,
        asids: Asids::One(2),
        pages: pages(0x1000, Changed::LeavesAt(3)),
    };
    let commands = SMMU.invalidation(change)?;
    assert_eq!(commands.len(), 1);
    assert_eq!(
        commands[0].region(),
        Ok(Region::Stage1 {
            vmid: 1,
            asids: Asids::OneAndGlobal(2),
            bytes: 0x1000..=0x1fff,
        })
    );
    assert_eq!(SMMU.check(commands[0]), Ok(()));
    Ok(())
}

#[test]
fn more_than_the_driver_wants_by_address() -> Result<(), Error> {
    let pages = Pages {
        most_commands: 0,
        ..pages(0x10_0000, Changed::Tables)
    };
    let commands = SMMU.invalidation(Change::Stage1 {
        vmid: 1,
        asids: Asids::One(2),
        pages,
    })?;
    assert_eq!(commands.len(), 1);
    assert_eq!(
        commands[0].region(),
        Ok(Region::Stage1 {
            vmid: 1,
            asids: Asids::One(2),
            bytes: 0..=u64::MAX,
        })
    );
    Ok(())
}

#[test]
fn what_an_endpoint_holds() -> Result<(), Error> {
    let change = |bytes| Change::Endpoint {
        sid: 5,
        substreams: Substreams::Every,
        bytes,
    };
    let commands = SMMU.invalidation(change(Bytes::From {
        first: 0x1800,
        length: 0x1000,
    }))?;
    let [command] = commands[..] else {
        panic!("not one command: {commands:?}");
    };
    let Ok(Region::Endpoint { sid: 5, bytes, .. }) = command.region() else {
        panic!("no CMD_ATC_INV of stream 5: {command:?}");
    };
    assert!(*bytes.start() <= 0x1800 && *bytes.end() >= 0x27ff);
    let none = Bytes::From {
        first: 0x1800,
        length: 0,
    };
    assert_eq!(SMMU.invalidation(change(none))?, []);
    Ok(())
}

#[test]
fn what_is_refused() {
    let past_end = Change::Stage2 {
        vmid: 1,
        pages: Pages {
            bytes: Bytes::From {
                first: (1 << 52) - 1,
                length: 2,
            },
            ..pages(0, Changed::Leaves)
        },
    };
    assert_eq!(SMMU.invalidation(past_end), Err(Error::PastEnd));
    let without_stages = IdRegisters {
        idr0: SMMU.idr0 & !3,
        ..SMMU
    };
    let change = Change::Stage2 {
        vmid: 1,
        pages: pages(0x1000, Changed::Leaves),
    };
    assert_eq!(without_stages.invalidation(change), Err(Error::Unsupported));
    let tlbi_s2_ipa = Command::new(0x0000_0001_0000_002a, 0x1000);
    assert_eq!(without_stages.check(tlbi_s2_ipa), Err(Illegal::Opcode));
    assert_eq!(Command::new(0xff, 0).region(), Err(Illegal::Opcode));
    assert_eq!(Command::SYNC.region(), Ok(Region::Nothing));
}

#[test]
fn a_stream_leaves() -> Result<(), Error> {
    let with_ats = IdRegisters {
        idr0: SMMU.idr0 | 1 << 10,
        ..SMMU
    };
    let first = with_ats.detaching(5)?;
    assert_eq!(first.len(), 2);
    assert!(first[0].text()?.starts_with("CFGI_STE ") && first[0].text()?.contains("sid=5"));
    assert!(first[1].text()?.starts_with("CFGI_CD_ALL "));
    let then = with_ats
        .detaching_endpoint(5, true)?
        .ok_or(Error::Unsupported)?;
    assert!(then.text()?.starts_with("ATC_INV "));
    assert_eq!(with_ats.detaching_endpoint(5, false)?, None);
    let without_ats = IdRegisters {
        idr0: SMMU.idr0 & !(1 << 10),
        ..SMMU
    };
    assert_eq!(without_ats.detaching_endpoint(5, true)?, None);
    Ok(())
}

#[test]
fn stage_1_follows_stage_2() -> Result<(), Error> {
    let all_of_the_machine = Command::new(0x0000_0001_0000_0010, 0);
    assert_eq!(SMMU.nested_invalidation(1)?, Some(all_of_the_machine));
    let without_stage_1 = IdRegisters {
        idr0: SMMU.idr0 & !2,
        ..SMMU
    };
    assert_eq!(without_stage_1.nested_invalidation(1)?, None);
    Ok(())
}
