//! Debian's bytemuck lacks its derives; the original imports trait and derive
//! under one name, so both stand here.

#![no_std]

pub use bytemuck_derives::{Pod, Zeroable};
pub use debian_bytemuck::*;
