// SPDX-License-Identifier: MIT OR Apache-2.0
use crate::error::{done, Error};
use crate::handle::Owned;
use crate::{sys, Held, Tag, Unit};

/// A walk of translation tables that began. It may be kept, and one that is given up is just forgotten.
#[derive(Clone, Copy, Debug, PartialEq, Eq)]
pub struct Walk(u64);

/// The use of one entry by an access, or of the tables by a walk: a CMD_SYNC behind a command that covers it has to wait until
/// [`Unit::end`].
///
/// ```compile_fail,E0382
/// # use smmuq::{Tag, Unit};
/// # let mut unit = Unit::tracking(1, 64, 8)?;
/// let (_walk, transaction) = unit.begin_outstanding_walk()?;
/// unit.end(transaction)?;
/// unit.end(transaction)?; // it is over
/// # Ok::<(), smmuq::Error>(())
/// ```
#[must_use = "a CMD_SYNC may wait until it is ended"]
#[derive(Debug, PartialEq, Eq)]
pub struct Transaction(u64);

/// What the end of a transaction means.
#[derive(Clone, Copy, Debug, PartialEq, Eq)]
pub enum Ended {
    /// It was the last that a CMD_SYNC has to wait for: serve the queue again.
    LastCovered,
    /// No CMD_SYNC waited for it, or one waits for others, too.
    Other,
}

/// How many transactions are outstanding, and how many a CMD_SYNC has to wait for.
#[derive(Clone, Copy, Debug, Default, PartialEq, Eq)]
pub struct Outstanding {
    pub all: u32,
    pub covered: u32,
}

/// Walks and accesses in flight, for a device model that walks tables, or lets devices access memory, while another thread
/// serves the queue. Each call is made under the lock of the unit; tables are read, and memory is accessed, without it.
impl Unit {
    /// As [`Unit::new`], with room for so many transactions at a time, which takes 72 bytes for each now and none later. The
    /// number tells its walks and transactions from those of other units; that of `Unit::new` is 0. `BadCapacity`, `NoMemory`.
    pub fn tracking(number: u8, capacity: u32, transactions: u16) -> Result<Unit, Error> {
        let mut unit = Unit(Owned::EMPTY);
        // SAFETY: a live handle.
        done(unsafe {
            sys::smmuq_unit_new_tracking(number.into(), capacity, transactions.into(), unit.0.at())
        })?;
        Ok(unit)
    }

    /// A walk begins: before the first table is read.
    pub fn begin_walk(&mut self) -> Result<Walk, Error> {
        let mut walk = 0;
        // SAFETY: a live handle, and a live answer.
        done(unsafe { sys::smmuq_begin_walk(self.0.at(), &mut walk) })?;
        Ok(Walk(walk))
    }

    /// The same, and until the transaction is ended each CMD_SYNC behind an invalidation, whichever, has to wait: so no table
    /// is freed while it is read. `TransactionsFull`.
    pub fn begin_outstanding_walk(&mut self) -> Result<(Walk, Transaction), Error> {
        let (mut walk, mut transaction) = (0, 0);
        // SAFETY: a live handle, and live answers.
        done(unsafe {
            sys::smmuq_begin_outstanding_walk(self.0.at(), &mut walk, &mut transaction)
        })?;
        Ok((Walk(walk), Transaction(transaction)))
    }

    /// Puts in what a walk read, as old as the walk. `BadField`, `BadBlock`; `Overtaken`, `TooOld`, `OtherWalk`: walk again;
    /// `CachesFull`, `CachesNoMemory`.
    pub fn fill_walked(&mut self, walk: Walk, tag: Tag, value: u64) -> Result<(), Error> {
        // SAFETY: a live handle and a live tag.
        done(unsafe { sys::smmuq_fill_walked(self.0.at(), walk.0, &tag.words(), value) })
    }

    /// A transaction begins with the entry under a tag, if one is held there. `BadField`, `TransactionsFull`.
    pub fn begin(&mut self, tag: Tag) -> Result<Option<(Held, Transaction)>, Error> {
        let (mut held, mut transaction) = (Held::default(), 0);
        // SAFETY: a live handle, a live tag, and live answers.
        match unsafe { sys::smmuq_begin(self.0.at(), &tag.words(), &mut held, &mut transaction) } {
            sys::NOT_HELD => Ok(None),
            status => done(status).map(|()| Some((held, Transaction(transaction)))),
        }
    }

    /// The same with what a walk read, whether that is held or not. `BadField`, `BadBlock`; `Overtaken`, `TooOld`,
    /// `OtherWalk`: walk again; `TransactionsFull`.
    pub fn begin_walked(&mut self, walk: Walk, tag: Tag) -> Result<Transaction, Error> {
        let mut transaction = 0;
        // SAFETY: as above.
        done(unsafe {
            sys::smmuq_begin_walked(self.0.at(), walk.0, &tag.words(), &mut transaction)
        })?;
        Ok(Transaction(transaction))
    }

    /// A transaction is over, whether its access worked or not. `NotOutstanding`: a reset ended it, or it is of another unit.
    pub fn end(&mut self, transaction: Transaction) -> Result<Ended, Error> {
        let mut last = 0;
        // SAFETY: a live handle, and a live answer.
        done(unsafe { sys::smmuq_end(self.0.at(), transaction.0, &mut last) })?;
        Ok(match last {
            1 => Ended::LastCovered,
            _ => Ended::Other,
        })
    }

    /// How many transactions are outstanding.
    pub fn outstanding(&mut self) -> Result<Outstanding, Error> {
        let mut counts = sys::Transactions::default();
        // SAFETY: a live handle, and a live answer.
        done(unsafe { sys::smmuq_outstanding(self.0.at(), &mut counts) })?;
        Ok(Outstanding {
            all: counts.outstanding,
            covered: counts.covered,
        })
    }
}
