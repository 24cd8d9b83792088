// SPDX-License-Identifier: MIT OR Apache-2.0
//! Senders and an engine, a thread each, and an error stop while they run.
use smmuq::{
    consumer_ring, ring, Acknowledged, Batch, Caches, Command, Completed, Engine, Error, Illegal,
    Ready, Remedy, Run, Sender, Tag,
};
use std::thread;

const CFGI_STE: Command = Command::new(0x7_0000_0003, 1);
const ILLEGAL: Command = Command::new(0xff, 0);
const BATCHES: u32 = 2_000;
const SENDERS: usize = 3;

/// Sends until there is room and nobody comes first.
fn send(sender: &mut Sender, batch: &Batch) -> Result<u32, Error> {
    loop {
        match sender.send(batch, 64) {
            Err(Error::RingFull | Error::Contended) => thread::yield_now(),
            answer => return answer,
        }
    }
}

/// Sends batches of one command, waits for the last, and gives the sender back.
fn send_all(mut sender: Sender) -> Result<Sender, Error> {
    let batch = Batch::new([CFGI_STE])?;
    for wanted in 1..=BATCHES {
        assert_eq!(send(&mut sender, &batch)?, wanted);
    }
    assert_eq!(sender.left()?, 0);
    assert_eq!(send(&mut sender, &batch), Err(Error::SenderExhausted));
    while sender.done_up_to()? < BATCHES {
        thread::yield_now();
    }
    Ok(sender)
}

/// Takes all until the ring is drained.
fn take_all(mut engine: Engine) -> Result<u32, Error> {
    let mut taken = 0;
    loop {
        match engine.run(64)? {
            Run::Applied { count, .. } => taken += count,
            Run::Empty | Run::Unwritten => thread::yield_now(),
            Run::Drained => return Ok(taken),
            other => panic!("a run answered {other:?}"),
        }
    }
}

#[test]
fn senders_are_told_once_all_is_taken() -> Result<(), Error> {
    let (senders, engine) = ring(6, BATCHES, SENDERS, 64)?;
    let taken = thread::scope(|scope| {
        let taker = scope.spawn(move || take_all(engine));
        let threads: Vec<_> = senders
            .into_iter()
            .map(|sender| scope.spawn(move || send_all(sender)))
            .collect();
        let senders: Result<Vec<Sender>, Error> = threads
            .into_iter()
            .map(|it| it.join().expect("a sender"))
            .collect();
        senders?[0].close()?;
        taker.join().expect("the engine")
    })?;
    assert_eq!(taken, 2 * BATCHES * SENDERS as u32);
    Ok(())
}

#[test]
fn an_illegal_command_stops_the_queue_until_it_is_acknowledged() -> Result<(), Error> {
    let (mut senders, mut engine) = ring(4, 4, 2, 64)?;
    assert_eq!(ILLEGAL.check(), Err(Illegal::Opcode));
    assert_eq!(senders[0].send(&Batch::new([CFGI_STE, ILLEGAL])?, 1), Ok(1));
    assert_eq!(senders[1].send(&Batch::new([CFGI_STE])?, 1), Ok(1));
    assert_eq!(
        engine.run(64)?,
        Run::Applied {
            count: 1,
            removed: 0
        }
    );
    assert_eq!(
        engine.run(64)?,
        Run::Stopped {
            count: 0,
            removed: 0,
            illegal: Illegal::Opcode
        }
    );
    assert_eq!(engine.run(64)?, Run::StillStopped);
    assert_eq!(senders[1].done_up_to()?, 0);
    let registers = engine.registers()?;
    assert_eq!(
        (registers.err, registers.gerror, registers.gerrorn),
        (1, 1, 0)
    );
    assert_eq!(
        engine.acknowledge(0, Remedy::Replace)?,
        Acknowledged::OtherBit
    );
    assert_eq!(
        engine.acknowledge(1, Remedy::Replace)?,
        Acknowledged::GoesOn
    );
    assert_eq!(
        engine.acknowledge(1, Remedy::Replace)?,
        Acknowledged::NoError
    );
    assert_eq!(engine.run(64)?, Run::Replaced(Illegal::Opcode));
    assert_eq!(
        engine.run(64)?,
        Run::Applied {
            count: 3,
            removed: 0
        }
    );
    assert_eq!((senders[0].done_up_to()?, senders[1].done_up_to()?), (1, 1));
    Ok(())
}

#[test]
fn a_reservation_is_published_at_its_end() -> Result<(), Error> {
    let (mut senders, mut engine) = ring(4, 4, 2, 64)?;
    let batch = Batch::new([CFGI_STE])?;
    let reservation = senders[0].reserve(&batch, 1)?;
    assert_eq!(engine.run(64)?, Run::Unwritten);
    assert_eq!(reservation.publish()?, 1);
    drop(senders[0].reserve(&batch, 1)?);
    assert_eq!(
        engine.run(64)?,
        Run::Applied {
            count: 4,
            removed: 0
        }
    );
    assert_eq!(senders[0].done_up_to()?, 2);
    // One that is forgotten leaves its sender without calls, and the ring at its slots. Nothing else happens.
    std::mem::forget(senders[0].reserve(&batch, 1)?);
    assert_eq!(senders[0].send(&batch, 1), Err(Error::OpenReservation));
    assert_eq!(engine.run(64)?, Run::Unwritten);
    Ok(())
}

#[test]
fn a_consumer_completes_what_it_carried_out() -> Result<(), Error> {
    let (mut senders, mut consumer) = consumer_ring(4, 4, 1)?;
    assert!(matches!(consumer.take()?, Ready::Empty));
    senders[0].send(&Batch::new([CFGI_STE, ILLEGAL])?, 1)?;
    let Ready::Commands(taken) = consumer.take()? else {
        panic!("nothing is ready")
    };
    assert_eq!(taken.commands()[..2], [CFGI_STE, ILLEGAL]);
    assert_eq!(taken.complete(2)?, Completed::Refused(Illegal::Opcode));
    for wanted in [Completed::Legal, Completed::Replaced, Completed::Legal] {
        assert_eq!(senders[0].done_up_to()?, 0);
        let Ready::Commands(taken) = consumer.take()? else {
            panic!("nothing is ready")
        };
        assert_eq!(taken.complete(1)?, wanted);
    }
    assert_eq!(senders[0].done_up_to()?, 1);
    senders[0].close()?;
    assert!(matches!(consumer.take()?, Ready::Drained));
    assert_eq!(
        senders[0].send(&Batch::new([CFGI_STE])?, 1),
        Err(Error::RingClosed)
    );
    Ok(())
}

#[test]
fn what_is_out_of_range_is_refused() {
    assert_eq!(ring(0, 1, 1, 64).err(), Some(Error::BadSize));
    assert_eq!(ring(4, 1, 0, 64).err(), Some(Error::BadSenders));
    assert_eq!(
        consumer_ring(4, 1, usize::MAX).err(),
        Some(Error::BadSenders)
    );
    assert_eq!(ring(4, 0, 1, 64).err(), Some(Error::BadBatches));
    assert_eq!(ring(4, 1, 1, 0).err(), Some(Error::BadCapacity));
    assert_eq!(Batch::new([]), Err(Error::BatchEmpty));
    assert_eq!(Batch::new([CFGI_STE; 64]), Err(Error::BatchFull));
    assert_eq!(Batch::new([Command::SYNC]), Err(Error::SyncInside));
    assert_eq!(Error::RingFull.to_string(), "Q2: too little room");
}

#[test]
fn a_run_tells_whose_syncs_completed() -> Result<(), Error> {
    let (mut senders, mut engine) = ring(4, 10, 2, 64)?;
    let batch = Batch::new([CFGI_STE])?;
    senders[1].send(&batch, 1)?;
    senders[0].send_bare(&batch, 1)?;
    senders[0].send(&batch, 1)?;
    let (run, completions) = engine.run_completions(64)?;
    assert_eq!(
        run,
        Run::Applied {
            count: 5,
            removed: 0
        }
    );
    let told: Vec<_> = completions
        .iter()
        .map(|it| (it.sender, it.number))
        .collect();
    assert_eq!(told, [(1, 1), (0, 1)]);
    let registers = engine.queue_registers()?;
    assert_eq!((registers.prod, registers.cons), (5, 5));
    Ok(())
}

#[test]
fn a_ring_is_renewed() -> Result<(), Error> {
    let (mut senders, mut engine) = ring(4, 1, 2, 64)?;
    let batch = Batch::new([CFGI_STE])?;
    let entry = Tag::StreamTableEntry { sid: 9 };
    engine.fill(entry, 1)?;
    senders[0].send(&batch, 1)?;
    assert_eq!(engine.renew(4, 1, 2, 64).err(), Some(Error::CommandWaits));
    senders[0].close()?;
    engine.run(64)?;
    let mut renewed = engine.renew(4, 1, 2, 64)?;
    assert_eq!(senders[1].send(&batch, 1), Err(Error::RingClosed));
    assert_eq!(renewed[1].send(&batch, 1)?, 1);
    assert_eq!(engine.lookup(entry)?.map(|held| held.value), Some(1));
    engine.run(64)?;
    assert_eq!(renewed[1].done_up_to()?, 1);
    Ok(())
}
