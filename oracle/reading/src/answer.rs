//! The answer to each record: status 0 with its values, or a refusal.

use crate::chain::{self, Chain};
use crate::consumer;
use crate::cursor::{self, Cursor};
use crate::event::{Event, DISABLE, ENABLE};
use crate::notify::should_notify_alone;
use crate::producer;
use crate::refuse::{refuse_if, Answer, Refusal};
use crate::rollback::{self, Checkpoint};
use crate::slots::{
    decode, encode, has, is_available, is_used, marked_available, marked_used, Descriptor,
    INDIRECT, NEXT, WRITE,
};
use crate::stage;
use crate::trace::{AloneCall, Call, ConsumerCall, ProducerCall};
use crate::world::World;

/// The values after status 0.
pub type Values = Vec<u64>;

pub fn answer(world: &mut World, call: &Call) -> Answer<Values> {
    match call {
        Call::Producer(call) => match call {
            ProducerCall::SubmitOne { .. } | ProducerCall::Submit { .. } => submits(world, call),
            ProducerCall::PollUsed | ProducerCall::Reset => producer_moves(world, call),
            ProducerCall::Disable
            | ProducerCall::Enable
            | ProducerCall::EnableDesc(_)
            | ProducerCall::EnableForNext => producer_notifications(world, call),
            _ => producer_questions(world, call),
        },
        Call::Consumer(call) => match call {
            ConsumerCall::PollAvailable => poll_available(world),
            ConsumerCall::SubmitUsed { .. }
            | ConsumerCall::RollbackPolls { .. }
            | ConsumerCall::Reset => consumer_moves(world, call),
            ConsumerCall::Disable
            | ConsumerCall::Enable
            | ConsumerCall::EnableDesc(_)
            | ConsumerCall::EnableForNext => consumer_notifications(world, call),
            _ => consumer_questions(world, call),
        },
        Call::Stage(call) => stage::answer(world, call),
        Call::Alone(call) => alone(call),
    }
}

fn cursor_values(at: Cursor) -> Values {
    vec![u64::from(at.head), u64::from(at.wrap)]
}

fn event_values(event: Event) -> Values {
    vec![u64::from(event.first), u64::from(event.second)]
}

fn count_values(counts: [u16; 4]) -> Values {
    counts.map(u64::from).to_vec()
}

fn bit_values(bit: bool) -> Values {
    vec![u64::from(bit)]
}

/// Ops 1 to 4 and 71. submit_one is a submission of one element.
fn submits(world: &mut World, call: &ProducerCall) -> Answer<Values> {
    match call {
        ProducerCall::SubmitOne { address, length, writable, notify } => {
            let chain = Chain {
                addresses: &[*address],
                lengths: &[*length],
                readable: if *writable { 0 } else { 1 },
            };
            submit(world, chain, *notify)
        }
        ProducerCall::Submit { addresses, lengths, readable, notify } => {
            submit(world, Chain { addresses, lengths, readable: *readable }, *notify)
        }
        _ => unreachable!("no submit"),
    }
}

fn submit(world: &mut World, chain: Chain, notify: bool) -> Answer<Values> {
    let p = world.producer;
    let lent = world.ground.lend();
    if notify {
        let (after, id, notify) = producer::submit_with_notify(p, lent.bytes, lent.tables, chain)?;
        world.producer = after;
        Ok(vec![u64::from(id), u64::from(notify)])
    } else {
        let (after, id) = producer::submit(p, lent.bytes, lent.tables, chain)?;
        world.producer = after;
        Ok(vec![u64::from(id)])
    }
}

/// Ops 5 and 15.
fn producer_moves(world: &mut World, call: &ProducerCall) -> Answer<Values> {
    let p = world.producer;
    let lent = world.ground.lend();
    match call {
        ProducerCall::PollUsed => {
            let (after, id, length) = producer::poll_used(p, lent.bytes, lent.tables)?;
            world.producer = after;
            Ok(vec![u64::from(id), u64::from(length)])
        }
        ProducerCall::Reset => {
            world.producer = producer::reset(p, lent.bytes, lent.tables)?;
            Ok(vec![])
        }
        _ => unreachable!("no move"),
    }
}

/// Ops 11 to 14.
fn producer_notifications(world: &mut World, call: &ProducerCall) -> Answer<Values> {
    let p = world.producer;
    let bytes = world.ground.lend().bytes;
    world.producer = match call {
        ProducerCall::Disable => producer::turn_used_notifications(p, bytes, DISABLE)?,
        ProducerCall::Enable => producer::turn_used_notifications(p, bytes, ENABLE)?,
        ProducerCall::EnableDesc(at) => {
            producer::arm_used_notifications(p, bytes, at.head, at.wrap)?
        }
        ProducerCall::EnableForNext => producer::arm_for_next_used(p, bytes)?,
        _ => unreachable!("no notifications"),
    };
    Ok(vec![])
}

/// Ops 6 to 10 and 105.
fn producer_questions(world: &mut World, call: &ProducerCall) -> Answer<Values> {
    let p = world.producer;
    let lent = world.ground.lend();
    Ok(match call {
        ProducerCall::NextId => vec![u64::from(producer::next_id(p, lent.tables)?)],
        ProducerCall::Counts => count_values(producer::counts(p)?),
        ProducerCall::AvailCursor => cursor_values(producer::avail_cursor(p)?),
        ProducerCall::UsedCursor => cursor_values(producer::used_cursor(p)?),
        ProducerCall::ShouldNotifySince(old) => {
            bit_values(producer::should_notify_since(p, lent.bytes, *old)?)
        }
        // "1 and the slot's place, or 0 0"
        ProducerCall::DescAddr { index } => match producer::desc_table(p)?.desc_addr(*index) {
            Some(place) => vec![1, place],
            None => vec![0, 0],
        },
        _ => unreachable!("no question"),
    })
}

/// Op 33: "id n readable, then n times addr len".
fn poll_available(world: &mut World) -> Answer<Values> {
    let lent = world.ground.lend();
    let (after, polled) =
        consumer::poll_available(world.consumer, lent.bytes, lent.consumer_counts, lent.outputs)?;
    world.consumer = after;
    let mut values = vec![u64::from(polled.id), u64::from(polled.n), u64::from(polled.readable)];
    values.extend(stage::output_values(&world.ground, 0, usize::from(polled.n)));
    Ok(values)
}

/// Ops 34, 35, 41 and 46.
fn consumer_moves(world: &mut World, call: &ConsumerCall) -> Answer<Values> {
    let c = world.consumer;
    let lent = world.ground.lend();
    let (bytes, counts) = (lent.bytes, lent.consumer_counts);
    let (after, values) = match call {
        ConsumerCall::SubmitUsed { id, length, notify: false } => {
            (consumer::submit_used(c, bytes, counts, *id, *length)?, vec![])
        }
        ConsumerCall::SubmitUsed { id, length, notify: true } => {
            let (after, notify) =
                consumer::submit_used_with_notify(c, bytes, counts, *id, *length)?;
            (after, bit_values(notify))
        }
        ConsumerCall::RollbackPolls { register, ids } => {
            let checkpoint = world.registers[usize::from(*register)];
            (rollback::rollback_polls(c, counts, checkpoint, ids)?, vec![])
        }
        ConsumerCall::Reset => (consumer::reset(c, bytes, counts)?, vec![]),
        _ => unreachable!("no move"),
    };
    world.consumer = after;
    Ok(values)
}

/// Ops 42 to 45.
fn consumer_notifications(world: &mut World, call: &ConsumerCall) -> Answer<Values> {
    let c = world.consumer;
    let bytes = world.ground.lend().bytes;
    world.consumer = match call {
        ConsumerCall::Disable => consumer::turn_avail_notifications(c, bytes, DISABLE)?,
        ConsumerCall::Enable => consumer::turn_avail_notifications(c, bytes, ENABLE)?,
        ConsumerCall::EnableDesc(at) => {
            consumer::arm_avail_notifications(c, bytes, at.head, at.wrap)?
        }
        ConsumerCall::EnableForNext => consumer::arm_for_next_avail(c, bytes)?,
        _ => unreachable!("no notifications"),
    };
    Ok(vec![])
}

/// Ops 36 to 40. "A refused 40 leaves its register as it was."
fn consumer_questions(world: &mut World, call: &ConsumerCall) -> Answer<Values> {
    let c = world.consumer;
    Ok(match call {
        ConsumerCall::PeekAvailable => {
            bit_values(consumer::peek_available(c, world.ground.lend().bytes)?)
        }
        ConsumerCall::Counts => count_values(consumer::counts(c)?),
        ConsumerCall::AvailCursor => cursor_values(consumer::avail_cursor(c)?),
        ConsumerCall::UsedCursor => cursor_values(consumer::used_cursor(c)?),
        ConsumerCall::PollCheckpoint { register } => {
            let checkpoint = rollback::poll_checkpoint(c)?;
            world.registers[usize::from(*register)] = checkpoint;
            checkpoint_values(checkpoint)
        }
        _ => unreachable!("no question"),
    })
}

/// "avail head, wrap, used head, wrap, in-flight".
fn checkpoint_values(checkpoint: Checkpoint) -> Values {
    let mut values = cursor_values(checkpoint.avail);
    values.extend(cursor_values(checkpoint.used));
    values.push(u64::from(checkpoint.in_flight));
    values
}

/// Ops 96 to 104 and 106 to 111.
fn alone(call: &AloneCall) -> Answer<Values> {
    Ok(match *call {
        AloneCall::Step { size, at } => cursor_values(cursor::step_alone(at, size)?),
        AloneCall::Move { size, at, n } => cursor_values(cursor::move_alone(at, size, n)?),
        AloneCall::ShouldNotify { event, size, old, new } => {
            bit_values(should_notify_alone(event, size, old, new)?)
        }
        AloneCall::Encode { address, length, id, flags, wrap, used } => {
            let mark = if used { marked_used } else { marked_available };
            let descriptor = Descriptor { address, length, id, flags: mark(flags, wrap) };
            encode(descriptor).map(u64::from).to_vec()
        }
        AloneCall::FlagTests { flags, wrap } => flag_values(flags, wrap),
        AloneCall::SetFlags { event, flags } => event_values(event.with_flags(flags)),
        AloneCall::SetDescEvent { event, at } => event_values(event.with_slot(at.head, at.wrap)),
        AloneCall::ReadEvent(event) => {
            vec![u64::from(event.offset()), u64::from(event.wrap()), u64::from(event.flags())]
        }
        AloneCall::Decode(bytes) => descriptor_values(decode(bytes)),
        AloneCall::CheckChain { addresses, lengths, readable } => {
            refuse_if(chain::is_bad(addresses, lengths, readable), Refusal::BadLent)?;
            vec![]
        }
        AloneCall::Part { n, readable, writables } => part(n, readable, writables),
    })
}

/// "is_avail is_used next write indirect".
fn flag_values(flags: u16, wrap: bool) -> Values {
    let tests = [
        is_available(flags, wrap),
        is_used(flags, wrap),
        has(flags, NEXT),
        has(flags, WRITE),
        has(flags, INDIRECT),
    ];
    tests.map(u64::from).to_vec()
}

/// "addr len id flags"; the flags "are all 16 bits as they stand".
fn descriptor_values(d: Descriptor) -> Values {
    vec![d.address, u64::from(d.length), u64::from(d.id), u64::from(d.flags)]
}

/// Ops 108 to 111: of the numbers 0, 1, .. n - 1, "the part handed back".
fn part(n: u16, readable: u64, writables: bool) -> Values {
    let numbers: Values = (0..u64::from(n)).collect();
    if writables {
        chain::writables(&numbers, readable).to_vec()
    } else {
        chain::readables(&numbers, readable).to_vec()
    }
}
