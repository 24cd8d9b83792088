// SPDX-License-Identifier: MIT OR Apache-2.0
use crate::error::{done, Error, Illegal};
use crate::{sys, Command};
use alloc::vec;
use alloc::vec::Vec;

/// The fields of a command, by its kind, as the standard's chapter on commands has them. Addresses are in bytes.
#[derive(Clone, Copy, Debug, PartialEq, Eq)]
pub enum Fields {
    CfgiSte {
        sid: u32,
        leaf: bool,
    },
    /// `range` is Range: 31 for all streams.
    CfgiSteRange {
        sid: u32,
        range: u8,
    },
    CfgiCd {
        sid: u32,
        ssid: u32,
        leaf: bool,
    },
    CfgiCdAll {
        sid: u32,
    },
    TlbiNhAll {
        vmid: u16,
    },
    TlbiNhAsid {
        vmid: u16,
        asid: u16,
    },
    TlbiNhVa {
        vmid: u16,
        asid: u16,
        at: ByAddress,
    },
    TlbiNhVaa {
        vmid: u16,
        at: ByAddress,
    },
    TlbiEl2All,
    TlbiEl2Asid {
        asid: u16,
    },
    TlbiEl2Va {
        asid: u16,
        at: ByAddress,
    },
    TlbiEl2Vaa {
        at: ByAddress,
    },
    TlbiS12Vmall {
        vmid: u16,
    },
    TlbiS2Ipa {
        vmid: u16,
        at: ByAddress,
    },
    TlbiNsnhAll,
    /// `ssid` is none if SSV is 0, and `size` the logarithm of how many pages of 4,096 bytes.
    AtcInv {
        sid: u32,
        ssid: Option<u32>,
        global: bool,
        size: u8,
        address: u64,
    },
    CmdSync {
        cs: u8,
        msh: u8,
        attr: u8,
        data: u32,
        address: u64,
    },
    /// PREFETCH_CONFIG, PREFETCH_ADDR, PRI_RESP, RESUME or STALL_TERM, of whose fields nothing is said.
    Other(Command),
}

/// What an invalidation by address is for: a multiple of 4,096, what follows it if it has a range, and the level hint TTL, 0
/// to 3.
#[derive(Clone, Copy, Debug, PartialEq, Eq)]
pub struct ByAddress {
    pub address: u64,
    pub leaf: bool,
    pub ttl: u8,
    pub range: Option<Range>,
}

/// `(num + 1) * 2^scale` granules, of 4K, 16K or 64K bytes where `tg` is 1, 2 or 3.
#[derive(Clone, Copy, Debug, PartialEq, Eq)]
pub struct Range {
    pub tg: u8,
    pub num: u8,
    pub scale: u8,
}

impl ByAddress {
    fn of(words: &sys::Fields) -> ByAddress {
        let range = Range {
            tg: words.tg as u8,
            num: words.num as u8,
            scale: words.scale as u8,
        };
        ByAddress {
            address: words.address,
            leaf: words.leaf != 0,
            ttl: words.ttl as u8,
            range: (words.tg != 0).then_some(range),
        }
    }

    fn words(self, opcode: u32, vmid: u16, asid: u16) -> sys::Fields {
        let words = sys::Fields {
            opcode,
            vmid: vmid.into(),
            asid: asid.into(),
            leaf: self.leaf.into(),
            ttl: self.ttl.into(),
            address: self.address,
            ..sys::Fields::default()
        };
        match self.range {
            Some(Range { tg, num, scale }) => sys::Fields {
                tg: tg.into(),
                num: num.into(),
                scale: scale.into(),
                ..words
            },
            None => words,
        }
    }
}

impl Fields {
    fn of(words: &sys::Fields) -> Fields {
        let (sid, ssid, leaf) = (words.sid, words.ssid, words.leaf != 0);
        let (vmid, asid, at) = (words.vmid as u16, words.asid as u16, ByAddress::of(words));
        match words.opcode {
            0x03 => Fields::CfgiSte { sid, leaf },
            0x04 => Fields::CfgiSteRange {
                sid,
                range: words.size as u8,
            },
            0x05 => Fields::CfgiCd { sid, ssid, leaf },
            0x06 => Fields::CfgiCdAll { sid },
            0x10 => Fields::TlbiNhAll { vmid },
            0x11 => Fields::TlbiNhAsid { vmid, asid },
            0x12 => Fields::TlbiNhVa { vmid, asid, at },
            0x13 => Fields::TlbiNhVaa { vmid, at },
            0x20 => Fields::TlbiEl2All,
            0x21 => Fields::TlbiEl2Asid { asid },
            0x22 => Fields::TlbiEl2Va { asid, at },
            0x23 => Fields::TlbiEl2Vaa { at },
            0x28 => Fields::TlbiS12Vmall { vmid },
            0x2a => Fields::TlbiS2Ipa { vmid, at },
            0x30 => Fields::TlbiNsnhAll,
            0x40 => Fields::AtcInv {
                sid,
                ssid: (words.ssv != 0).then_some(ssid),
                global: words.global != 0,
                size: words.size as u8,
                address: words.address,
            },
            0x46 => Fields::CmdSync {
                cs: words.cs as u8,
                msh: words.msh as u8,
                attr: words.attr as u8,
                data: words.data,
                address: words.address,
            },
            _ => Fields::Other(Command::new(words.lo, words.hi)),
        }
    }

    fn words(self) -> sys::Fields {
        let none = sys::Fields::default();
        let of = |opcode| sys::Fields { opcode, ..none };
        match self {
            Fields::CfgiSte { sid, leaf } => sys::Fields {
                sid,
                leaf: leaf.into(),
                ..of(0x03)
            },
            Fields::CfgiSteRange { sid, range } => sys::Fields {
                sid,
                size: range.into(),
                ..of(0x04)
            },
            Fields::CfgiCd { sid, ssid, leaf } => sys::Fields {
                sid,
                ssid,
                leaf: leaf.into(),
                ..of(0x05)
            },
            Fields::CfgiCdAll { sid } => sys::Fields { sid, ..of(0x06) },
            Fields::TlbiNhAll { vmid } => sys::Fields {
                vmid: vmid.into(),
                ..of(0x10)
            },
            Fields::TlbiNhAsid { vmid, asid } => sys::Fields {
                vmid: vmid.into(),
                asid: asid.into(),
                ..of(0x11)
            },
            Fields::TlbiNhVa { vmid, asid, at } => at.words(0x12, vmid, asid),
            Fields::TlbiNhVaa { vmid, at } => at.words(0x13, vmid, 0),
            Fields::TlbiEl2All => of(0x20),
            Fields::TlbiEl2Asid { asid } => sys::Fields {
                asid: asid.into(),
                ..of(0x21)
            },
            Fields::TlbiEl2Va { asid, at } => at.words(0x22, 0, asid),
            Fields::TlbiEl2Vaa { at } => at.words(0x23, 0, 0),
            Fields::TlbiS12Vmall { vmid } => sys::Fields {
                vmid: vmid.into(),
                ..of(0x28)
            },
            Fields::TlbiS2Ipa { vmid, at } => at.words(0x2a, vmid, 0),
            Fields::TlbiNsnhAll => of(0x30),
            Fields::AtcInv {
                sid,
                ssid,
                global,
                size,
                address,
            } => sys::Fields {
                sid,
                ssv: ssid.is_some().into(),
                ssid: ssid.unwrap_or(0),
                global: global.into(),
                size: size.into(),
                address,
                ..of(0x40)
            },
            Fields::CmdSync {
                cs,
                msh,
                attr,
                data,
                address,
            } => sys::Fields {
                cs: cs.into(),
                msh: msh.into(),
                attr: attr.into(),
                data,
                address,
                ..of(0x46)
            },
            Fields::Other(Command { lo, hi }) => match (lo & 0xff) as u32 {
                opcode @ (0x01 | 0x02 | 0x41 | 0x44 | 0x45) => sys::Fields {
                    lo,
                    hi,
                    ..of(opcode)
                },
                // No opcode at all, so that it is refused.
                _ => of(0),
            },
        }
    }
}

impl TryFrom<Fields> for Command {
    type Error = Error;

    /// The command with these fields, reserved bits 0. `BadField` if there is none.
    fn try_from(fields: Fields) -> Result<Command, Error> {
        let mut command = Command::default();
        // SAFETY: live fields and a live answer.
        done(unsafe { sys::smmuq_encode(&fields.words(), &mut command) })?;
        Ok(command)
    }
}

impl Command {
    /// Its fields, if it is legal.
    pub fn fields(self) -> Result<Fields, Illegal> {
        let mut words = sys::Fields::default();
        // SAFETY: a live answer.
        match Illegal::of(unsafe { sys::smmuq_decode(self.lo, self.hi, &mut words) }) {
            Some(illegal) => Err(illegal),
            None => Ok(Fields::of(&words)),
        }
    }

    /// The TLBI_NH_VA of leaves that invalidate so many pages of 4,096 bytes from the one that holds `address` on, for an SMMU
    /// with range invalidation: `NoPages`, `PastEnd`, `BatchFull`. [`IdRegisters::invalidation`](crate::IdRegisters) makes
    /// those for any SMMU.
    pub fn range(vmid: u16, asid: u16, address: u64, pages: u64) -> Result<Vec<Command>, Error> {
        let (mut buffer, mut count) = (vec![Command::default(); crate::Batch::MOST], 0);
        // SAFETY: the buffer has the length that is passed.
        done(unsafe {
            sys::smmuq_range(
                vmid.into(),
                asid.into(),
                address,
                pages,
                buffer.as_mut_ptr(),
                buffer.len(),
                &mut count,
            )
        })?;
        buffer.truncate(count);
        Ok(buffer)
    }
}
