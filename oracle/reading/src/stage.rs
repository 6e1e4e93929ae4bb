//! Ops 64 to 70 and 72 to 75: the region, the tables, the records and what is
//! lent. "64, 65, 68, 72, 73 and the hash see the whole region and the whole
//! tables."

use crate::answer::Values;
use crate::consumer::Consumer;
use crate::layout::Layout;
use crate::producer::Producer;
use crate::refuse::Answer;
use crate::trace::StageCall;
use crate::world::{Ground, World};

pub fn answer(world: &mut World, call: &StageCall) -> Answer<Values> {
    match *call {
        StageCall::Overwrite { at, bytes } => {
            world.ground.region[at..at + bytes.len()].copy_from_slice(bytes);
        }
        StageCall::LookAtBytes { at, k } => {
            let seen = &world.ground.region[at..at + k];
            return Ok(seen.iter().map(|&byte| u64::from(byte)).collect());
        }
        StageCall::SetProducerField { field, value } => {
            set_producer_field(&mut world.producer, field, value);
        }
        StageCall::SetConsumerField { field, value } => {
            set_consumer_field(&mut world.consumer, field, value);
        }
        StageCall::SetEntry { table, index, value } => world.ground.table(table)[index] = value,
        StageCall::Lend(numbers) => world.ground.set_lending(numbers),
        StageCall::SetRegister { register, checkpoint } => {
            world.registers[usize::from(register)] = checkpoint;
        }
        StageCall::LookAtOutputs { from, k } => return Ok(output_values(&world.ground, from, k)),
        StageCall::LookAtTable { table, from, k } => {
            let seen = &world.ground.table(table)[from..from + k];
            return Ok(seen.iter().map(|&entry| u64::from(entry)).collect());
        }
        // "A refused opening leaves the record that was there."
        StageCall::OpenProducer(layout) => world.producer = world.ground.open_producer(layout)?,
        StageCall::OpenConsumer(layout) => world.consumer = world.ground.open_consumer(layout)?,
    }
    Ok(vec![])
}

/// "k times address length".
pub fn output_values(ground: &Ground, from: usize, k: usize) -> Values {
    let addresses = &ground.addresses[from..from + k];
    let lengths = &ground.lengths[from..from + k];
    let both = addresses.iter().zip(lengths);
    both.flat_map(|(&address, &length)| [address, u64::from(length)]).collect()
}

// "A value is taken modulo its field's width: size, heads, num_free,
// num_inflight, height and shadow 16 bits, the three offsets 64, wraps modulo 2."

fn word(value: u64) -> u16 {
    (value % 65_536) as u16
}

fn wrap(value: u64) -> bool {
    value % 2 == 1
}

/// "0 size, 1 table, 2 driver event, 3 device event".
fn set_layout_field(layout: &mut Layout, field: u8, value: u64) {
    match field {
        0 => layout.size = word(value),
        1 => layout.table = value,
        2 => layout.driver_event = value,
        _ => layout.device_event = value,
    }
}

/// "4 avail head, 5 avail wrap, 6 used head, 7 used wrap, 8 num_free ..., 9
/// stack height ..., 10 the shadow (66 only)".
fn set_producer_field(p: &mut Producer, field: u8, value: u64) {
    match field {
        0..=3 => set_layout_field(&mut p.layout, field, value),
        4 => p.avail.head = word(value),
        5 => p.avail.wrap = wrap(value),
        6 => p.used.head = word(value),
        7 => p.used.wrap = wrap(value),
        8 => p.num_free = word(value),
        9 => p.height = word(value),
        _ => p.shadow = word(value),
    }
}

/// "4 avail head, 5 avail wrap, 6 used head, 7 used wrap, ... (67:
/// num_inflight), ... (67: the shadow)".
fn set_consumer_field(c: &mut Consumer, field: u8, value: u64) {
    match field {
        0..=3 => set_layout_field(&mut c.layout, field, value),
        4 => c.avail.head = word(value),
        5 => c.avail.wrap = wrap(value),
        6 => c.used.head = word(value),
        7 => c.used.wrap = wrap(value),
        8 => c.num_inflight = word(value),
        _ => c.shadow = word(value),
    }
}
