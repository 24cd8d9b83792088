// SPDX-License-Identifier: MIT OR Apache-2.0
//! What a device model removes and finds without a command of the guest.
use smmuq::{
    Block, Caches, Command, Error, Illegal, Kinds, Scope, Space, Spans, Tag, Tallies, Unit,
};

const TLBI_NH_ALL: Command = Command::new(0x0000_0001_0000_0010, 0);
const CFGI_STE: Command = Command::new(0x0000_0005_0000_0003, 0);
const UNKNOWN: Command = Command::new(0xff, 0);

fn stage1(vmid: u16, scope: Scope, address: u64) -> Tag {
    Tag::Stage1 {
        vmid,
        scope,
        block: Block::page(address),
    }
}

/// A unit with all that is held of stream 5, one page of each stage of VMID 1, and one of VMID 2.
fn filled() -> Result<Unit, Error> {
    let mut unit = Unit::new(64)?;
    let block = Block::page(0x1000);
    let tags = [
        Tag::StreamTableEntry { sid: 5 },
        Tag::ContextDescriptor { sid: 5, ssid: 0 },
        Tag::Endpoint {
            sid: 5,
            ssid: None,
            block,
        },
        stage1(1, Scope::Asid(3), 0x1000),
        Tag::Stage2 { vmid: 1, block },
        stage1(2, Scope::Asid(3), 0x1000),
    ];
    for (tag, value) in tags.into_iter().zip(1..) {
        unit.fill(tag, value)?;
    }
    Ok(unit)
}

#[test]
fn a_device_is_unplugged() -> Result<(), Error> {
    let mut unit = filled()?;
    assert_eq!(unit.evict_stream(5)?, 3);
    assert_eq!((unit.evict_stream(5)?, unit.count()?), (0, 3));
    Ok(())
}

#[test]
fn a_virtual_machine_is_reset() -> Result<(), Error> {
    let mut unit = filled()?;
    assert_eq!(unit.evict_machine(1)?, 2);
    assert_eq!(unit.count()?, 4);
    Ok(())
}

#[test]
fn the_caches_are_full() -> Result<(), Error> {
    let mut unit = filled()?;
    assert_eq!(unit.evict_all(Kinds::STAGE2 | Kinds::ENDPOINTS)?, 2);
    unit.judge(Command::SYNC)?;
    unit.fill(Tag::StreamTableEntry { sid: 6 }, 7)?;
    assert_eq!(unit.evict_older(1)?, 4);
    assert_eq!((unit.count()?, unit.evict_all(Kinds::ALL)?), (1, 1));
    Ok(())
}

#[test]
fn a_command_is_asked_without_being_taken() -> Result<(), Error> {
    let mut unit = filled()?;
    let covered = unit.covered(TLBI_NH_ALL)?;
    assert_eq!(covered.len(), 1);
    assert_eq!(covered[0].0, stage1(1, Scope::Asid(3), 0x1000));
    assert_eq!(unit.covered(Command::SYNC)?, []);
    assert_eq!(unit.invalidate(TLBI_NH_ALL)?, 1);
    assert_eq!(unit.invalidate(CFGI_STE)?, 2);
    let unknown = Err(Error::Illegal(Illegal::Opcode));
    assert_eq!(unit.invalidate(UNKNOWN), unknown);
    assert_eq!(unit.covered(UNKNOWN).err(), unknown.err());
    assert_eq!(unit.tallies()?, Tallies::default());
    Ok(())
}

#[test]
fn an_address_is_found() -> Result<(), Error> {
    let mut unit = filled()?;
    let large = Tag::Stage1 {
        vmid: 1,
        scope: Scope::Global,
        block: Block {
            address: 0x20_0000,
            span: 9,
        },
    };
    unit.fill(large, 8)?;
    let (space, sizes) = (
        Space::Stage1 { vmid: 1, asid: 3 },
        Spans::SIZE_4K | Spans::SIZE_2M,
    );
    let mut found = |address| unit.find(space, address, sizes);
    assert_eq!(
        found(0x1fff)?.map(|(tag, held)| (tag, held.value)),
        Some((stage1(1, Scope::Asid(3), 0x1000), 4))
    );
    assert_eq!(
        found(0x3f_ffff)?.map(|(tag, held)| (tag, held.value)),
        Some((large, 8))
    );
    assert_eq!(found(0x40_0000)?, None);
    let endpoint = Space::Endpoint { sid: 5, ssid: None };
    assert!(unit.find(endpoint, 0x1000, Spans::SIZE_4K)?.is_some());
    let with_substream = Space::Endpoint {
        sid: 5,
        ssid: Some(0),
    };
    assert_eq!(unit.find(with_substream, 0x1000, Spans::SIZE_4K)?, None);
    assert_eq!(
        unit.find(Space::Stage2 { vmid: 1 }, 0, Spans::of(53)),
        Err(Error::BadField)
    );
    Ok(())
}
