// SPDX-License-Identifier: MIT OR Apache-2.0
//! Two senders and an engine, a thread each, over the C library. The types here keep what C callers owe: a handle is never
//! copied, and one call at a time is made on it.
mod sys;

use std::thread;
use sys::{Command, Handle, RunAnswer};

const BATCHES: u32 = 100_000;
const CFGI_STE: Command = Command {
    lo: 0x7_0000_0003,
    hi: 1,
};

/// What a call answered, where that isn't 0.
#[derive(Debug)]
struct Refused(u32);

fn asked(status: u32) -> Result<(), Refused> {
    match status {
        sys::OK => Ok(()),
        other => Err(Refused(other)),
    }
}

/// A sender's handle, which is freed at its end.
struct Sender(sys::Sender);

// SAFETY: what a handle owns has no state of a thread's own, so another thread may go on with it.
unsafe impl Send for Sender {}

impl Drop for Sender {
    fn drop(&mut self) {
        let _ = unsafe { sys::smmuq_free(&mut self.0.handle) };
    }
}

impl Sender {
    /// Sends a batch, and answers the number of its CMD_SYNC.
    fn send(&mut self, commands: &[Command]) -> Result<u32, Refused> {
        let mut number = 0;
        let sender = &mut self.0;
        asked(unsafe {
            sys::smmuq_send(sender, commands.as_ptr(), commands.len(), 64, &mut number)
        })?;
        Ok(number)
    }

    /// The number of the last CMD_SYNC that completed, 0 where none did.
    fn done_up_to(&mut self) -> Result<u32, Refused> {
        let mut number = 0;
        asked(unsafe { sys::smmuq_done_up_to(&mut self.0, &mut number) })?;
        Ok(number)
    }

    fn close(&mut self) -> Result<(), Refused> {
        asked(unsafe { sys::smmuq_close(&mut self.0) })
    }
}

/// The engine's handle, which is freed at its end.
struct Engine(sys::Engine);

// SAFETY: as for a sender.
unsafe impl Send for Engine {}

impl Drop for Engine {
    fn drop(&mut self) {
        let _ = unsafe { sys::smmuq_free(&mut self.0.handle) };
    }
}

impl Engine {
    /// Takes what there is, and answers how many commands; nothing where the ring is closed and drained.
    fn run(&mut self) -> Result<Option<u32>, Refused> {
        let mut answer = RunAnswer::default();
        match unsafe { sys::smmuq_run(&mut self.0, 64, &mut answer) } {
            sys::OK => Ok(Some(answer.count)),
            sys::RING_EMPTY | sys::RING_UNWRITTEN => Ok(Some(0)),
            sys::RING_DRAINED => Ok(None),
            other => Err(Refused(other)),
        }
    }
}

fn make() -> Result<([Sender; 2], Engine), Refused> {
    let mut senders = [Handle::EMPTY, Handle::EMPTY].map(|handle| sys::Sender { handle });
    let mut engine = sys::Engine {
        handle: Handle::EMPTY,
    };
    asked(unsafe {
        sys::smmuq_ring_new(
            10,
            BATCHES,
            64,
            senders.as_mut_ptr(),
            senders.len(),
            &mut engine,
        )
    })?;
    Ok((senders.map(Sender), Engine(engine)))
}

/// Sends all batches, waits for the last, and gives the sender back.
fn send_all(mut sender: Sender) -> Result<Sender, Refused> {
    for wanted in 1..=BATCHES {
        let number = loop {
            match sender.send(&[CFGI_STE]) {
                Err(Refused(sys::RING_FULL | sys::CONTENDED)) => thread::yield_now(),
                answer => break answer?,
            }
        };
        assert_eq!(number, wanted);
    }
    while sender.done_up_to()? < BATCHES {
        thread::yield_now();
    }
    Ok(sender)
}

fn take_all(mut engine: Engine) -> Result<u32, Refused> {
    let mut taken = 0;
    while let Some(count) = engine.run()? {
        taken += count;
        if count == 0 {
            thread::yield_now();
        }
    }
    Ok(taken)
}

fn main() -> Result<(), Refused> {
    let (senders, engine) = make()?;
    let taken = thread::scope(|scope| {
        let taker = scope.spawn(move || take_all(engine));
        let threads = senders.map(|sender| scope.spawn(move || send_all(sender)));
        // All have sent before one of them closes the ring.
        let sent = threads.map(|thread| thread.join().expect("a sender's thread"));
        for sender in sent {
            sender?.close()?;
        }
        taker.join().expect("the engine's thread")
    })?;
    assert_eq!(taken, 4 * BATCHES);
    println!("Rust: {taken} commands taken");
    Ok(())
}
