// SPDX-License-Identifier: MIT OR Apache-2.0
//! A driver of real hardware, which is played here: it consumes what it was shown, and stops at an illegal command.
use smmuq::{
    forwarder_ring, Batch, Command, Error, Forwarded, Forwarder, Hardware, Outcome, Polled, Remedy,
    Sender,
};

const SLOTS: u32 = 4;
const CERROR_ILL: u32 = 1;
const CFGI_STE: Command = Command::new(0x7_0000_0003, 1);
/// Legal by its words, and yet illegal for an SMMU without EL2.
const TLBI_EL2_ALL: Command = Command::new(0x20, 0);
const ILLEGAL: Command = Command::new(0xff, 0);

#[derive(Default)]
struct Played {
    queue: [Command; SLOTS as usize],
    prod: u32,
    cons: u32,
    gerror: u32,
    gerrorn: u32,
    error: u32,
}

impl Played {
    /// Consumes up to PROD or an illegal command.
    fn consume(&mut self) {
        while self.gerror == self.gerrorn && self.cons != self.prod {
            if self.queue[(self.cons % SLOTS) as usize] == TLBI_EL2_ALL {
                self.error = CERROR_ILL;
                self.gerror ^= 1;
            } else {
                self.cons = (self.cons + 1) % (2 * SLOTS);
            }
        }
    }
}

impl Hardware for Played {
    fn write(&mut self, slot: u32, command: Command, _message: u32) {
        self.queue[slot as usize] = command;
    }

    fn show(&mut self, prod: u32) {
        self.prod = prod;
    }

    fn gerror(&mut self) -> u32 {
        self.gerror
    }

    fn cons(&mut self) -> u32 {
        self.error << 24 | self.cons
    }

    fn gerrorn(&mut self) -> u32 {
        self.gerrorn
    }

    fn acknowledge(&mut self, gerrorn: u32) {
        self.gerrorn = gerrorn;
    }

    fn disable(&mut self) {
        self.gerrorn = self.gerror;
    }

    fn enable(&mut self, prod: u32, cons: u32) {
        (self.prod, self.cons, self.error) = (prod, cons, 0);
    }
}

fn one_sender() -> Result<(Sender, Forwarder), Error> {
    let (mut senders, forwarder) = forwarder_ring(4, 8, SLOTS.ilog2(), 1)?;
    Ok((senders.remove(0), forwarder))
}

#[test]
fn a_sender_is_told_once_the_hardware_has_consumed() -> Result<(), Error> {
    let (mut sender, mut forwarder) = one_sender()?;
    let mut hardware = Played::default();
    assert_eq!(forwarder.forward(&mut hardware)?, Forwarded::Empty);
    for _ in 0..3 {
        sender.send(&Batch::new([CFGI_STE])?, 64)?;
    }
    // Six commands, of which four have a slot; the other two get those of the first again, past the end of the queue.
    assert_eq!(forwarder.forward(&mut hardware)?, Forwarded::Shown(4));
    assert_eq!(forwarder.forward(&mut hardware)?, Forwarded::Full);
    assert_eq!(forwarder.poll(&mut hardware)?, Polled::Consumed(0));
    assert_eq!(sender.done_up_to()?, 0);
    hardware.consume();
    assert_eq!(forwarder.poll(&mut hardware)?, Polled::Consumed(4));
    assert_eq!(sender.done_up_to()?, 2);
    sender.close()?;
    assert_eq!(forwarder.forward(&mut hardware)?, Forwarded::Shown(2));
    assert_eq!(hardware.prod, 6);
    hardware.consume();
    assert_eq!(forwarder.poll(&mut hardware)?, Polled::Consumed(2));
    assert_eq!(sender.done_up_to()?, 3);
    assert_eq!(forwarder.forward(&mut hardware)?, Forwarded::Drained);
    Ok(())
}

#[test]
fn an_illegal_command_is_replaced() -> Result<(), Error> {
    let (mut sender, mut forwarder) = one_sender()?;
    let mut hardware = Played::default();
    sender.send(&Batch::new([CFGI_STE, TLBI_EL2_ALL])?, 64)?;
    assert_eq!(forwarder.forward(&mut hardware)?, Forwarded::Shown(3));
    assert_eq!(
        forwarder.acknowledge(&mut hardware, Remedy::Replace),
        Err(Error::NoError)
    );
    hardware.consume();
    let stopped = Polled::Stopped {
        consumed: 1,
        error: CERROR_ILL,
    };
    assert_eq!(forwarder.poll(&mut hardware)?, stopped);
    assert_eq!(
        forwarder.acknowledge(&mut hardware, Remedy::Reread),
        Err(Error::BadField)
    );
    assert_eq!((hardware.gerrorn, sender.done_up_to()?), (0, 0));
    assert_eq!(
        forwarder.acknowledge(&mut hardware, Remedy::Replace)?,
        TLBI_EL2_ALL
    );
    assert_eq!((hardware.gerrorn, hardware.queue[1]), (1, Command::SYNC));
    assert_eq!(forwarder.outcome(0, 1)?, Outcome::NotYet);
    hardware.consume();
    assert_eq!(forwarder.poll(&mut hardware)?, Polled::Consumed(2));
    assert_eq!(sender.done_up_to()?, 1);
    assert_eq!(forwarder.outcome(0, 1)?, Outcome::Lost(1));
    assert_eq!(forwarder.outcome(1, 1), Err(Error::BadField));
    Ok(())
}

#[test]
fn an_illegal_command_by_its_words_is_not_shown() -> Result<(), Error> {
    let (mut sender, mut forwarder) = one_sender()?;
    let mut hardware = Played::default();
    sender.send(&Batch::new([ILLEGAL])?, 64)?;
    assert_eq!(
        forwarder.forward(&mut hardware)?,
        Forwarded::Replaced(ILLEGAL)
    );
    assert_eq!(forwarder.forward(&mut hardware)?, Forwarded::Shown(1));
    assert_eq!(hardware.queue[0], Command::SYNC);
    Ok(())
}

#[test]
fn registers_of_no_working_queue_are_believed_by_nobody() -> Result<(), Error> {
    let (mut sender, mut forwarder) = one_sender()?;
    let mut hardware = Played::default();
    sender.send(&Batch::new([CFGI_STE])?, 64)?;
    assert_eq!(forwarder.forward(&mut hardware)?, Forwarded::Shown(2));
    hardware.cons = 3;
    assert_eq!(forwarder.poll(&mut hardware)?, Polled::Broken);
    hardware.cons = 2;
    assert_eq!(forwarder.poll(&mut hardware)?, Polled::Broken);
    assert_eq!(forwarder.forward(&mut hardware)?, Forwarded::Broken);
    assert_eq!(sender.done_up_to()?, 0);
    Ok(())
}

#[test]
fn an_msi_tells_what_is_consumed() -> Result<(), Error> {
    let (mut sender, mut forwarder) = one_sender()?;
    let mut hardware = Played::default();
    sender.send(&Batch::new([CFGI_STE])?, 64)?;
    assert_eq!(forwarder.forward(&mut hardware)?, Forwarded::Shown(2));
    assert_eq!(forwarder.poll_msi(0)?, 0);
    assert_eq!(forwarder.poll_msi(3)?, 0);
    assert_eq!(sender.done_up_to()?, 0);
    assert_eq!(forwarder.poll_msi(2)?, 2);
    assert_eq!(sender.done_up_to()?, 1);
    Ok(())
}

#[test]
fn a_restart_sends_again_what_is_not_consumed() -> Result<(), Error> {
    let (mut sender, mut forwarder) = one_sender()?;
    let mut hardware = Played::default();
    sender.send(&Batch::new([CFGI_STE])?, 64)?;
    assert_eq!(forwarder.forward(&mut hardware)?, Forwarded::Shown(2));
    hardware.cons = 1;
    assert_eq!(forwarder.poll(&mut hardware)?, Polled::Consumed(1));
    // The device is gone.
    (hardware.gerror, hardware.cons) = (u32::MAX, 0xf_ffff);
    assert_eq!(forwarder.poll(&mut hardware)?, Polled::Broken);
    forwarder.restart(&mut hardware)?;
    assert_eq!((hardware.prod, hardware.cons), (2, 1));
    assert_eq!(forwarder.poll(&mut hardware)?, Polled::Consumed(0));
    assert_eq!(sender.done_up_to()?, 0);
    hardware.consume();
    assert_eq!(forwarder.poll(&mut hardware)?, Polled::Consumed(1));
    assert_eq!(sender.done_up_to()?, 1);
    assert_eq!(forwarder.outcome(0, 1)?, Outcome::Complete);
    Ok(())
}
