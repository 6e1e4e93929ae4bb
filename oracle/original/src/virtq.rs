// SPDX-License-Identifier: Apache-2.0

//! What the original's three files ask of the module around them: `MemOps`
//! with the four operations that they use, and `Layout` with its accessors.

include!(concat!(env!("OUT_DIR"), "/modules.rs"));

use std::cell::RefCell;
use std::convert::Infallible;
use std::rc::Rc;

use bytemuck::Pod;

pub trait MemOps {
    type Error;

    fn read_val<T: Pod>(&self, addr: u64) -> Result<T, Self::Error>;
    fn write_val<T: Pod>(&self, addr: u64, val: T) -> Result<(), Self::Error>;
    fn load_acquire(&self, addr: u64) -> Result<u16, Self::Error>;
    fn store_release(&self, addr: u64, val: u16) -> Result<(), Self::Error>;
}

/// Geometry as the caller gives it. The original's own `from_base` refuses
/// sizes that are no powers of two; the ring's code does not need that.
#[derive(Clone, Copy, Debug)]
pub struct Layout {
    pub size: u16,
    pub table: u64,
    pub driver: u64,
    pub device: u64,
}

impl Layout {
    pub const fn desc_table_addr(&self) -> u64 {
        self.table
    }

    pub const fn desc_table_len(&self) -> u16 {
        self.size
    }

    pub const fn drv_evt_addr(&self) -> u64 {
        self.driver
    }

    pub const fn dev_evt_addr(&self) -> u64 {
        self.device
    }
}

// A value's bytes are taken as they lie in this machine's memory.
const _: () = assert!(cfg!(target_endian = "little"));

/// A flat byte array that both ends share; no operation fails.
#[derive(Clone, Debug)]
pub struct Memory(Rc<RefCell<Vec<u8>>>);

impl Memory {
    pub fn new(bytes: Vec<u8>) -> Self {
        Self(Rc::new(RefCell::new(bytes)))
    }

    pub fn look(&self, at: usize, len: usize) -> Vec<u8> {
        self.0.borrow()[at..at + len].to_vec()
    }

    pub fn overwrite(&self, at: usize, bytes: &[u8]) {
        self.0.borrow_mut()[at..at + bytes.len()].copy_from_slice(bytes);
    }

    pub fn each(&self, f: impl FnMut(&u8)) {
        self.0.borrow().iter().for_each(f);
    }
}

impl MemOps for Memory {
    type Error = Infallible;

    fn read_val<T: Pod>(&self, addr: u64) -> Result<T, Infallible> {
        let at = addr as usize;
        Ok(bytemuck::pod_read_unaligned(&self.0.borrow()[at..at + size_of::<T>()]))
    }

    fn write_val<T: Pod>(&self, addr: u64, val: T) -> Result<(), Infallible> {
        self.overwrite(addr as usize, bytemuck::bytes_of(&val));
        Ok(())
    }

    fn load_acquire(&self, addr: u64) -> Result<u16, Infallible> {
        self.read_val(addr)
    }

    fn store_release(&self, addr: u64, val: u16) -> Result<(), Infallible> {
        self.write_val(addr, val)
    }
}
