// SPDX-License-Identifier: MIT OR Apache-2.0
//! A hypervisor that gives a guest's commands to its SMMU.
use smmuq::{
    Batch, Command, ConversionEnd, Error, Guest, GuestStream, IdRegisters, Illegal, Region,
};

const HOST: IdRegisters = IdRegisters {
    idr0: 0x0004_1c03 | 1 << 10,
    idr1: 0x0000_0410,
    idr3: 1 << 10,
    idr5: 0x75,
};
const STREAM: GuestStream = GuestStream {
    sid: 5,
    host: 70,
    ats: false,
};
const TLBI_NH_ALL: Command = Command::new(0x10, 0);
const CFGI_STE: Command = Command::new(0x0000_0005_0000_0003, 1);
const CFGI_CD_ALL: Command = Command::new(0x0000_0005_0000_0006, 0);
const UNKNOWN: Command = Command::new(0xff, 0);

#[test]
fn commands_up_to_a_sync() -> Result<(), Error> {
    let mut guest = Guest::new(9, HOST)?;
    guest.attach(STREAM)?;
    let converted = guest.convert(&[TLBI_NH_ALL, CFGI_CD_ALL, Command::SYNC, UNKNOWN])?;
    assert_eq!(converted.end, ConversionEnd::Sync);
    assert!(converted.taken >= 2);
    for command in &converted.commands {
        assert_eq!(HOST.check(*command), Ok(()));
    }
    let regions = converted.commands.iter().map(|command| command.region());
    assert!(regions
        .clone()
        .any(|region| matches!(region, Ok(Region::Stage1 { vmid: 9, .. }))));
    assert!(regions
        .clone()
        .any(|region| matches!(region, Ok(Region::Descriptors { sid: 70, .. }))));
    Batch::new(converted.commands)?;
    Ok(())
}

#[test]
fn where_a_conversion_ends() -> Result<(), Error> {
    let mut guest = Guest::new(9, HOST)?;
    guest.attach(STREAM)?;
    assert_eq!(guest.convert(&[])?.end, ConversionEnd::EndOfCommands);
    assert_eq!(guest.convert(&[CFGI_STE])?.end, ConversionEnd::Configure);
    assert_eq!(guest.streams(CFGI_STE)?, [STREAM]);
    assert_eq!(guest.streams(TLBI_NH_ALL)?, []);
    assert_eq!(
        guest.convert(&[UNKNOWN])?.end,
        ConversionEnd::Illegal(Illegal::Opcode)
    );
    guest.detach(STREAM.sid)?;
    assert_eq!(guest.streams(CFGI_STE)?, []);
    Ok(())
}

#[test]
fn a_stream_is_of_one_guest_s_stream() -> Result<(), Error> {
    let mut guest = Guest::new(9, HOST)?;
    guest.attach(STREAM)?;
    let again = GuestStream { sid: 6, ..STREAM };
    assert_eq!(guest.attach(again), Err(Error::StreamInUse));
    let beyond = GuestStream {
        host: u32::MAX,
        ..STREAM
    };
    assert_eq!(guest.attach(beyond), Err(Error::BadStream));
    Ok(())
}
