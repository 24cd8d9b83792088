// SPDX-License-Identifier: MIT OR Apache-2.0
//! Walks and accesses that go on while another thread serves the queue.
use smmuq::{
    Acknowledged, Block, Caches, Command, Ended, Error, Judged, Outstanding, QueueError, Remedy,
    Scope, Tag, Unit,
};

const TLBI_NH_VA: Command = Command::new(0x0002_0001_0000_0012, 0x3001);
const PAGE: Tag = Tag::Stage1 {
    vmid: 1,
    scope: Scope::Asid(2),
    block: Block::page(0x3000),
};

#[test]
fn a_sync_waits_for_an_access() -> Result<(), Error> {
    let mut unit = Unit::tracking(1, 64, 8)?;
    unit.fill(PAGE, 0x1000)?;
    let Some((held, access)) = unit.begin(PAGE)? else {
        panic!("it is held");
    };
    assert_eq!(held.value, 0x1000);
    assert_eq!(unit.judge(TLBI_NH_VA)?, Judged::Applied { removed: 1 });
    assert_eq!(
        unit.judge(Command::SYNC)?,
        Judged::Waiting { transactions: 1 }
    );
    assert_eq!(unit.outstanding()?, Outstanding { all: 1, covered: 1 });
    assert_eq!(unit.end(access)?, Ended::LastCovered);
    assert_eq!(unit.judge(Command::SYNC)?, Judged::Applied { removed: 0 });
    assert_eq!(unit.begin(PAGE)?, None);
    Ok(())
}

#[test]
fn a_walk_is_overtaken() -> Result<(), Error> {
    let mut unit = Unit::tracking(1, 64, 8)?;
    let walk = unit.begin_walk()?;
    unit.judge(TLBI_NH_VA)?;
    assert_eq!(unit.fill_walked(walk, PAGE, 1), Err(Error::Overtaken));
    assert_eq!(unit.begin_walked(walk, PAGE), Err(Error::Overtaken));
    let walk = unit.begin_walk()?;
    unit.fill_walked(walk, PAGE, 2)?;
    let access = unit.begin_walked(walk, PAGE)?;
    assert_eq!(unit.end(access)?, Ended::Other);
    unit.reset();
    assert_eq!(unit.fill_walked(walk, PAGE, 2), Err(Error::OtherWalk));
    Ok(())
}

#[test]
fn a_walk_keeps_its_tables() -> Result<(), Error> {
    let mut unit = Unit::tracking(1, 64, 1)?;
    let (_walk, reading) = unit.begin_outstanding_walk()?;
    assert_eq!(
        unit.begin_outstanding_walk().err(),
        Some(Error::TransactionsFull)
    );
    unit.judge(TLBI_NH_VA)?;
    assert_eq!(
        unit.judge(Command::SYNC)?,
        Judged::Waiting { transactions: 1 }
    );
    assert_eq!(unit.end(reading)?, Ended::LastCovered);
    Ok(())
}

#[test]
fn a_token_of_another_unit_is_refused() -> Result<(), Error> {
    let (mut one, mut other) = (Unit::tracking(1, 64, 8)?, Unit::tracking(2, 64, 8)?);
    let (walk, reading) = one.begin_outstanding_walk()?;
    assert_eq!(other.fill_walked(walk, PAGE, 1), Err(Error::OtherWalk));
    assert_eq!(other.end(reading), Err(Error::NotOutstanding));
    assert_eq!(one.outstanding()?.all, 1);
    Ok(())
}

#[test]
fn a_model_stops_its_unit() -> Result<(), Error> {
    let mut unit = Unit::new(64)?;
    unit.stop(QueueError::Abort)?;
    assert_eq!(unit.registers()?.err, 2);
    assert_eq!(unit.stop(QueueError::Abort), Err(Error::StillStopped));
    assert_eq!(unit.acknowledge(1, Remedy::Retry)?, Acknowledged::GoesOn);
    unit.restore(QueueError::AtcInvSync, 0, 1)?;
    let registers = unit.registers()?;
    assert_eq!(
        (registers.err, registers.gerror, registers.gerrorn),
        (3, 0, 1)
    );
    Ok(())
}
