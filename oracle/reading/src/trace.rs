//! The trace format: the header and the records, read and nothing more. Each
//! `bad` is found here, so a record that is passed over is tested like one
//! that is answered.

use crate::cursor::Cursor;
use crate::event::Event;
use crate::input::{bad_if, bad_if_past, Bad, Input, Read};
use crate::layout::Layout;
use crate::rollback::Checkpoint;
use crate::world::ENTRIES;

const MAGIC: u32 = 0x3151_5650;
const LARGEST_REGION: u32 = 65_536;
const LARGEST_SIZE: u32 = 65_535;

/// "Header: ten u32".
pub struct Header {
    pub layout: Layout,
    pub region_length: usize,
    pub seed: u32,
    pub hash_every: u32,
    pub records: u32,
}

/// "A header under 40 bytes is cut; its last number is not looked at."
pub fn header(input: &mut Input) -> Read<Header> {
    bad_if(input.u32()? != MAGIC)?;
    let size = input.u32()?;
    bad_if(size > LARGEST_SIZE)?;
    let layout = Layout {
        size: size as u16,
        table: u64::from(input.u32()?),
        driver_event: u64::from(input.u32()?),
        device_event: u64::from(input.u32()?),
    };
    let region = input.u32()?;
    bad_if(region > LARGEST_REGION)?;
    let header = Header {
        layout,
        region_length: region as usize,
        seed: input.u32()?,
        hash_every: input.u32()?,
        records: input.u32()?,
    };
    input.u32()?;
    Ok(header)
}

/// A record: its op byte, and what it asks.
pub struct Record<'a> {
    pub op: u8,
    pub call: Call<'a>,
}

pub enum Call<'a> {
    Producer(ProducerCall),
    Consumer(ConsumerCall),
    Stage(StageCall<'a>),
    Alone(AloneCall),
}

/// Ops 1 to 15, 71 and 105: what the producer is asked.
pub enum ProducerCall {
    SubmitOne { address: u64, length: u32, writable: bool, notify: bool },
    Submit { addresses: Vec<u64>, lengths: Vec<u32>, readable: u64, notify: bool },
    PollUsed,
    NextId,
    Counts,
    AvailCursor,
    UsedCursor,
    ShouldNotifySince(Cursor),
    Disable,
    Enable,
    EnableDesc(Cursor),
    EnableForNext,
    Reset,
    DescAddr { index: u16 },
}

/// Ops 33 to 46: what the consumer is asked.
pub enum ConsumerCall {
    PollAvailable,
    SubmitUsed { id: u16, length: u32, notify: bool },
    PeekAvailable,
    Counts,
    AvailCursor,
    UsedCursor,
    PollCheckpoint { register: u8 },
    RollbackPolls { register: u8, ids: Vec<u16> },
    Disable,
    Enable,
    EnableDesc(Cursor),
    EnableForNext,
    Reset,
}

/// Ops 64 to 70 and 72 to 75: what is done to, or seen of, the region, the
/// tables, the records and what is lent.
pub enum StageCall<'a> {
    Overwrite { at: usize, bytes: &'a [u8] },
    LookAtBytes { at: usize, k: usize },
    SetProducerField { field: u8, value: u64 },
    SetConsumerField { field: u8, value: u64 },
    SetEntry { table: u8, index: usize, value: u16 },
    Lend([u32; 6]),
    SetRegister { register: u8, checkpoint: Checkpoint },
    LookAtOutputs { from: usize, k: usize },
    LookAtTable { table: u8, from: usize, k: usize },
    OpenProducer(Layout),
    OpenConsumer(Layout),
}

/// Ops 96 to 104 and 106 to 111: calls that have no ring.
pub enum AloneCall {
    Step { size: u16, at: Cursor },
    Move { size: u16, at: Cursor, n: u16 },
    ShouldNotify { event: Event, size: u16, old: Cursor, new: Cursor },
    Encode { address: u64, length: u32, id: u16, flags: u16, wrap: bool, used: bool },
    FlagTests { flags: u16, wrap: bool },
    SetFlags { event: Event, flags: u16 },
    SetDescEvent { event: Event, at: Cursor },
    ReadEvent(Event),
    Decode([u8; 16]),
    CheckChain { addresses: usize, lengths: usize, readable: u64 },
    Part { n: u16, readable: u64, writables: bool },
}

/// "Records: one op byte, then its fields". An unknown op is bad.
pub fn record<'a>(input: &mut Input<'a>, region_length: usize) -> Read<Record<'a>> {
    let op = input.u8()?;
    let call = match op {
        1..=15 | 71 | 105 => Call::Producer(producer_call(op, input)?),
        33..=46 => Call::Consumer(consumer_call(op, input)?),
        64..=70 | 72..=75 => Call::Stage(stage_call(op, input, region_length)?),
        96..=104 | 106..=111 => Call::Alone(alone_call(op, input)?),
        _ => return Err(Bad),
    };
    Ok(Record { op, call })
}

fn producer_call(op: u8, input: &mut Input) -> Read<ProducerCall> {
    Ok(match op {
        1 | 2 => ProducerCall::SubmitOne {
            address: input.u64()?,
            length: input.u32()?,
            writable: input.bit()?,
            notify: op == 2,
        },
        3 | 4 => submit_elements(input, op == 4)?,
        5 => ProducerCall::PollUsed,
        6 => ProducerCall::NextId,
        7 => ProducerCall::Counts,
        8 => ProducerCall::AvailCursor,
        9 => ProducerCall::UsedCursor,
        10 => ProducerCall::ShouldNotifySince(cursor(input)?),
        11 => ProducerCall::Disable,
        12 => ProducerCall::Enable,
        13 => ProducerCall::EnableDesc(cursor(input)?),
        14 => ProducerCall::EnableForNext,
        15 => ProducerCall::Reset,
        71 => submit_slices(input)?,
        105 => ProducerCall::DescAddr { index: input.u16()? },
        _ => return Err(Bad),
    })
}

/// Ops 3 and 4: "n u16, readable u16, e*n".
fn submit_elements(input: &mut Input, notify: bool) -> Read<ProducerCall> {
    let n = input.count()?;
    let readable = u64::from(input.u16()?);
    let (mut addresses, mut lengths) = (Vec::new(), Vec::new());
    for _ in 0..n {
        addresses.push(input.u64()?);
        lengths.push(input.u32()?);
    }
    Ok(ProducerCall::Submit { addresses, lengths, readable, notify })
}

/// Op 71: "n u16 addresses, m u16 lengths, readable u64, then n u64, then m u32".
fn submit_slices(input: &mut Input) -> Read<ProducerCall> {
    let n = input.count()?;
    let m = input.count()?;
    let readable = input.u64()?;
    let addresses = (0..n).map(|_| input.u64()).collect::<Read<_>>()?;
    let lengths = (0..m).map(|_| input.u32()).collect::<Read<_>>()?;
    Ok(ProducerCall::Submit { addresses, lengths, readable, notify: false })
}

fn consumer_call(op: u8, input: &mut Input) -> Read<ConsumerCall> {
    Ok(match op {
        33 => ConsumerCall::PollAvailable,
        34 | 35 => {
            ConsumerCall::SubmitUsed { id: input.u16()?, length: input.u32()?, notify: op == 35 }
        }
        36 => ConsumerCall::PeekAvailable,
        37 => ConsumerCall::Counts,
        38 => ConsumerCall::AvailCursor,
        39 => ConsumerCall::UsedCursor,
        40 => ConsumerCall::PollCheckpoint { register: input.u8()? },
        41 => rollback(input)?,
        42 => ConsumerCall::Disable,
        43 => ConsumerCall::Enable,
        44 => ConsumerCall::EnableDesc(cursor(input)?),
        45 => ConsumerCall::EnableForNext,
        46 => ConsumerCall::Reset,
        _ => return Err(Bad),
    })
}

/// Op 41: "reg u8, k u16, k times id u16".
fn rollback(input: &mut Input) -> Read<ConsumerCall> {
    let register = input.u8()?;
    let k = input.count()?;
    let ids = (0..k).map(|_| input.u16()).collect::<Read<_>>()?;
    Ok(ConsumerCall::RollbackPolls { register, ids })
}

fn stage_call<'a>(op: u8, input: &mut Input<'a>, region: usize) -> Read<StageCall<'a>> {
    Ok(match op {
        64 => {
            let (at, k) = part_of_region(input, region)?;
            StageCall::Overwrite { at, bytes: input.bytes(k)? }
        }
        65 => {
            let (at, k) = part_of_region(input, region)?;
            StageCall::LookAtBytes { at, k }
        }
        66 => StageCall::SetProducerField { field: number(input, 10)?, value: input.u64()? },
        67 => StageCall::SetConsumerField { field: number(input, 9)?, value: input.u64()? },
        68 => set_entry(input)?,
        69 => StageCall::Lend(six(input)?),
        70 => set_register(input)?,
        72 => {
            let (from, k) = part_of_table(input)?;
            StageCall::LookAtOutputs { from, k }
        }
        73 => {
            let table = number(input, 2)?;
            let (from, k) = part_of_table(input)?;
            StageCall::LookAtTable { table, from, k }
        }
        74 => StageCall::OpenProducer(layout(input)?),
        75 => StageCall::OpenConsumer(layout(input)?),
        _ => return Err(Bad),
    })
}

/// Ops 64 and 65, "at u32, k u16": bad where they go past the region.
fn part_of_region(input: &mut Input, region_length: usize) -> Read<(usize, usize)> {
    let at = input.u32()? as usize;
    let k = usize::from(input.count()?);
    bad_if_past(at, k, region_length)?;
    Ok((at, k))
}

/// Ops 72 and 73, "from u16, k u16": bad where they go past the table.
fn part_of_table(input: &mut Input) -> Read<(usize, usize)> {
    let from = usize::from(input.u16()?);
    let k = usize::from(input.count()?);
    bad_if_past(from, k, ENTRIES)?;
    Ok((from, k))
}

/// Bad: "a field or table number that is not there".
fn number(input: &mut Input, last: u8) -> Read<u8> {
    let number = input.u8()?;
    bad_if(number > last)?;
    Ok(number)
}

/// Op 68: "table u8, index u16 (below 2,048), value u16".
fn set_entry(input: &mut Input) -> Read<StageCall<'static>> {
    let table = number(input, 2)?;
    let index = usize::from(input.u16()?);
    bad_if_past(index, 1, ENTRIES)?;
    Ok(StageCall::SetEntry { table, index, value: input.u16()? })
}

fn six(input: &mut Input) -> Read<[u32; 6]> {
    let mut numbers = [0; 6];
    for number in &mut numbers {
        *number = input.u32()?;
    }
    Ok(numbers)
}

/// Op 70: "reg u8, avail head u16, wrap u8, used head u16, wrap u8, in-flight u16".
fn set_register(input: &mut Input) -> Read<StageCall<'static>> {
    let register = input.u8()?;
    let checkpoint =
        Checkpoint { avail: cursor(input)?, used: cursor(input)?, in_flight: input.u16()? };
    Ok(StageCall::SetRegister { register, checkpoint })
}

/// Ops 74 and 75: "size u16, table u64, driver u64, device u64".
fn layout(input: &mut Input) -> Read<Layout> {
    Ok(Layout {
        size: input.u16()?,
        table: input.u64()?,
        driver_event: input.u64()?,
        device_event: input.u64()?,
    })
}

fn alone_call(op: u8, input: &mut Input) -> Read<AloneCall> {
    Ok(match op {
        96 => AloneCall::Step { size: input.u16()?, at: cursor(input)? },
        97 => AloneCall::Move { size: input.u16()?, at: cursor(input)?, n: input.u16()? },
        98 => AloneCall::ShouldNotify {
            event: event(input)?,
            size: input.u16()?,
            old: cursor(input)?,
            new: cursor(input)?,
        },
        99 | 100 => encode(input, op == 100)?,
        101 => AloneCall::FlagTests { flags: input.u16()?, wrap: input.bit()? },
        102 => AloneCall::SetFlags { event: event(input)?, flags: input.u16()? },
        103 => AloneCall::SetDescEvent { event: event(input)?, at: cursor(input)? },
        104 => AloneCall::ReadEvent(event(input)?),
        106 => AloneCall::Decode(input.slot()?),
        107 => AloneCall::CheckChain {
            addresses: usize::from(input.count()?),
            lengths: usize::from(input.count()?),
            readable: input.u64()?,
        },
        108 | 110 => part(input, false)?,
        109 | 111 => part(input, true)?,
        _ => return Err(Bad),
    })
}

/// Ops 99 and 100: "addr u64, len u32, id u16, flags u16, wrap u8".
fn encode(input: &mut Input, used: bool) -> Read<AloneCall> {
    Ok(AloneCall::Encode {
        address: input.u64()?,
        length: input.u32()?,
        id: input.u16()?,
        flags: input.u16()?,
        wrap: input.bit()?,
        used,
    })
}

/// Ops 108 to 111: "n u16, readable u64".
fn part(input: &mut Input, writables: bool) -> Read<AloneCall> {
    Ok(AloneCall::Part { n: input.count()?, readable: input.u64()?, writables })
}

/// A head or offset u16, then a wrap u8.
fn cursor(input: &mut Input) -> Read<Cursor> {
    Ok(Cursor { head: input.u16()?, wrap: input.bit()? })
}

/// "event words u16 u16".
fn event(input: &mut Input) -> Read<Event> {
    Ok(Event { first: input.u16()?, second: input.u16()? })
}
