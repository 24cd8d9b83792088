// SPDX-License-Identifier: MIT OR Apache-2.0
//! A device model: commands lie in the guest's memory, and a write of SMMU_CMDQ_PROD is the doorbell.
use smmuq::{
    version, Acknowledged, Block, Caches, Command, Error, Held, Illegal, Judged, Remedy, Scope,
    Tag, Unit,
};

const TLBI_NH_VA: Command = Command::new(0x0002_0001_0000_0012, 0x3001);
const PAGE: Tag = Tag::Stage1 {
    vmid: 1,
    scope: Scope::Asid(2),
    block: Block::page(0x3000),
};

struct Model {
    unit: Unit,
    queue: Vec<Command>,
    cons: usize,
}

impl Model {
    /// Takes what waits, up to an illegal command.
    fn serve(&mut self) -> Result<Option<Illegal>, Error> {
        while let Some(&command) = self.queue.get(self.cons) {
            match self.unit.judge(command)? {
                Judged::Stopped(illegal) => return Ok(Some(illegal)),
                Judged::Waiting { .. } => return Ok(None),
                Judged::Applied { .. } | Judged::Replaced(_) => self.cons += 1,
            }
        }
        Ok(None)
    }
}

#[test]
fn a_model_serves_its_queue() -> Result<(), Error> {
    let queue = vec![
        TLBI_NH_VA,
        Command::SYNC,
        Command::new(0xff, 0),
        Command::SYNC,
    ];
    let mut model = Model {
        unit: Unit::new(64)?,
        queue,
        cons: 0,
    };
    model.unit.fill(PAGE, 0x1000)?;
    assert_eq!(
        model.unit.lookup(PAGE)?,
        Some(Held {
            value: 0x1000,
            born: 0
        })
    );
    assert_eq!(model.serve()?, Some(Illegal::Opcode));
    assert_eq!((model.cons, model.unit.lookup(PAGE)?), (2, None));
    assert_eq!(model.serve(), Err(Error::StillStopped));
    // Software writes a CMD_SYNC over the illegal command.
    assert_eq!(
        model.unit.acknowledge(1, Remedy::Reread)?,
        Acknowledged::GoesOn
    );
    model.queue[2] = Command::SYNC;
    assert_eq!((model.serve()?, model.cons), (None, 4));
    model.unit.reset();
    assert_eq!(model.unit.registers()?, smmuq::Registers::default());
    Ok(())
}

#[test]
fn entries_of_each_kind_come_back_under_their_tags() -> Result<(), Error> {
    let block = Block {
        address: 0x20_0000,
        span: 9,
    };
    let tags = [
        Tag::StreamTableEntry { sid: 5 },
        Tag::ContextDescriptor { sid: 5, ssid: 3 },
        PAGE,
        Tag::Stage1 {
            vmid: 1,
            scope: Scope::Global,
            block,
        },
        Tag::Stage2 { vmid: 7, block },
        Tag::El2 {
            scope: Scope::Asid(9),
            block,
        },
        Tag::El2 {
            scope: Scope::Global,
            block,
        },
        Tag::Endpoint {
            sid: 6,
            ssid: None,
            block,
        },
        Tag::Endpoint {
            sid: 6,
            ssid: Some(0),
            block,
        },
    ];
    let mut unit = Unit::new(64)?;
    for (value, &tag) in tags.iter().enumerate() {
        unit.fill(tag, value as u64)?;
    }
    let entries = unit.entries()?;
    assert_eq!(entries.len(), tags.len());
    for (value, tag) in tags.iter().enumerate() {
        assert!(entries.contains(&(
            *tag,
            Held {
                value: value as u64,
                born: 0
            }
        )));
        assert_eq!(unit.evict(*tag)?.map(|held| held.value), Some(value as u64));
    }
    assert_eq!(unit.count()?, 0);
    let odd = Block {
        address: 0x1000,
        span: 9,
    };
    assert_eq!(
        unit.fill(
            Tag::Stage2 {
                vmid: 0,
                block: odd
            },
            0
        ),
        Err(Error::BadBlock)
    );
    Ok(())
}

#[test]
fn the_library_is_the_one_that_this_crate_is_for() -> Result<(), Error> {
    assert_eq!(version().to_string(), env!("CARGO_PKG_VERSION_MAJOR"));
    assert_eq!(
        TLBI_NH_VA.text()?,
        "TLBI_NH_VA vmid=1 asid=2 leaf=1 addr=0x3000"
    );
    assert_eq!(Unit::new(0).err(), Some(Error::BadCapacity));
    Ok(())
}
