// SPDX-License-Identifier: Apache-2.0

//! Both ends of the original over one region, answering record by record.

use format::{Answer, Hash, Header, Record, first_bytes};

use crate::leaf;
use crate::virtq::ring::probe::{self, Saved};
use crate::virtq::ring::{
    BufferChain, BufferChainBuilder, RingConsumer, RingCursor, RingError, RingProducer,
};
use crate::virtq::{Layout, Memory};

/// Why the original has nothing to say about a header or a record.
#[derive(Debug)]
pub struct Outside(pub &'static str);

pub struct Machine {
    pub memory: Memory,
    pub producer: RingProducer<Memory>,
    pub consumer: RingConsumer<Memory>,
    registers: Vec<Saved>,
    size: u16,
}

impl Machine {
    pub fn open(header: &Header) -> Result<Self, Outside> {
        if header.refusal() != 0 {
            return Err(Outside("document 01 refuses the opening; the original has no such test"));
        }
        let size = header.size as u16;
        let layout = Layout {
            size,
            table: u64::from(header.table),
            driver: u64::from(header.driver),
            device: u64::from(header.device),
        };
        let memory = Memory::new(first_bytes(header.seed, header.region));
        let fresh = probe::cursor(size, 0, true);
        Ok(Self {
            producer: RingProducer::new(layout, memory.clone()),
            consumer: RingConsumer::new(layout, memory.clone()),
            memory,
            registers: vec![Saved { avail: fresh, used: fresh, in_flight: 0 }; 256],
            size,
        })
    }

    /// Why the record leaves the original's domain, if it does.
    pub fn outside(&self, r: &Record) -> Option<Outside> {
        let domain = match r.op {
            3 | 4 if r.num(1) > r.num(0) => "more readable elements than elements",
            10 if r.half(0) >= self.size => "an old head not below the size",
            41 if !self.rollback_is_sound(r) => "a rollback that the debug assertions stop",
            66..=75 | 107..=111 => "a record that is the port's alone",
            96..=98 if !leaf_is_sound(r) => "a size, head or move out of range",
            _ => return None,
        };
        Some(Outside(domain))
    }

    pub fn rollback_is_sound(&self, r: &Record) -> bool {
        probe::rollback_is_sound(&self.consumer, self.registers[r.num(0) as usize], &ids(r))
    }

    pub fn answer(&mut self, r: &Record) -> Answer {
        match r.op {
            1..=15 => self.producer_answer(r),
            33..=46 => self.consumer_answer(r),
            64 => {
                let bytes: Vec<u8> = r.nums[2..].iter().map(|n| *n as u8).collect();
                self.memory.overwrite(r.num(0) as usize, &bytes);
                Answer::good([])
            }
            65 => {
                let bytes = self.memory.look(r.num(0) as usize, r.num(1) as usize);
                Answer::good(bytes.into_iter().map(u64::from).collect::<Vec<_>>())
            }
            105 => match self.producer.desc_table().desc_addr(r.half(0)) {
                Some(place) => Answer::good([1, place]),
                None => Answer::good([0, 0]),
            },
            _ => leaf::answer(r),
        }
    }

    pub fn hash(&self) -> u64 {
        let mut hash = Hash::default();
        for number in probe::producer_numbers(&self.producer) {
            hash.add(number);
        }
        for number in probe::consumer_numbers(&self.consumer) {
            hash.add(number);
        }
        self.memory.each(|byte| hash.add(u64::from(*byte)));
        hash.value()
    }

    fn producer_answer(&mut self, r: &Record) -> Answer {
        let p = &mut self.producer;
        match r.op {
            1 => given(p.submit_one(r.num(0), r.word(1), r.flag(2)), |id| [id.into()]),
            2 => given(p.submit_one_with_notify(r.num(0), r.word(1), r.flag(2)), |s| {
                [s.id.into(), s.notify.into()]
            }),
            3 => given(p.submit_available(&chain(r)), |id| [id.into()]),
            4 => {
                given(p.submit_available_with_notify(&chain(r)), |s| [s.id.into(), s.notify.into()])
            }
            5 => given(p.poll_used(), |used| [used.id.into(), used.len.into()]),
            6 => given(p.next_id(), |id| [id.into()]),
            7 => counts(p.num_free(), p.num_inflight(), p.is_full(), p.len()),
            8 => leaf::cursor_values(p.avail_cursor()),
            9 => leaf::cursor_values(p.used_cursor()),
            10 => {
                let old: RingCursor = probe::cursor(self.size, r.half(0), r.flag(1));
                given(p.should_notify_since(old), |notify| [notify.into()])
            }
            11 => given(p.disable_used_notifications(), |()| []),
            12 => given(p.enable_used_notifications(), |()| []),
            13 => given(p.enable_used_notifications_desc(r.half(0), r.flag(1)), |()| []),
            14 => given(p.enable_used_notifications_for_next(), |()| []),
            _ => given(p.reset(), |()| []),
        }
    }

    fn consumer_answer(&mut self, r: &Record) -> Answer {
        let c = &mut self.consumer;
        match r.op {
            33 => match c.poll_available() {
                Ok((id, chain)) => polled(id, &chain),
                Err(e) => refused(e),
            },
            34 => given(c.submit_used(r.half(0), r.word(1)), |()| []),
            35 => given(c.submit_used_with_notify(r.half(0), r.word(1)), |n| [n.into()]),
            36 => given(c.peek_available(), |yes| [yes.into()]),
            37 => counts(c.num_free(), c.num_inflight(), c.is_full(), c.len()),
            38 => leaf::cursor_values(c.avail_cursor()),
            39 => leaf::cursor_values(c.used_cursor()),
            40 => {
                let saved = probe::checkpoint(c);
                self.registers[r.num(0) as usize] = saved;
                Answer::good([
                    saved.avail.head().into(),
                    saved.avail.wrap().into(),
                    saved.used.head().into(),
                    saved.used.wrap().into(),
                    saved.in_flight as u64,
                ])
            }
            41 => {
                probe::rollback(c, self.registers[r.num(0) as usize], ids(r));
                Answer::good([])
            }
            42 => given(c.disable_avail_notifications(), |()| []),
            43 => given(c.enable_avail_notifications(), |()| []),
            44 => given(c.enable_avail_notifications_desc(r.half(0), r.flag(1)), |()| []),
            45 => given(c.enable_avail_notifications_for_next(), |()| []),
            _ => given(c.reset(), |()| []),
        }
    }

    /// Sets what records 66 to 68 set, as far as the original keeps it: a
    /// look at arms that no sequence from `new` reaches.
    pub fn forge(&mut self, r: &Record) -> bool {
        match r.op {
            66 => probe::set_producer(&mut self.producer, r.num(0), r.num(1)),
            67 => probe::set_consumer(&mut self.consumer, r.num(0), r.num(1)),
            68 => {
                let table = probe::table(r.num(0), &mut self.producer, &mut self.consumer);
                let Some(entry) = table.get_mut(r.num(1) as usize) else {
                    return false;
                };
                *entry = r.half(2);
                true
            }
            _ => false,
        }
    }
}

fn leaf_is_sound(r: &Record) -> bool {
    let heads: &[usize] = if r.op == 98 { &[3, 5] } else { &[1] };
    let size = r.num(if r.op == 98 { 2 } else { 0 });
    (1..=32_768).contains(&size)
        && heads.iter().all(|i| r.num(*i) < size)
        && (r.op != 97 || r.num(3) <= size)
}

fn ids(r: &Record) -> Vec<u16> {
    r.nums[2..].iter().map(|n| *n as u16).collect()
}

fn chain(r: &Record) -> BufferChain {
    let readable = r.num(1) as usize;
    let element = |e: &[u64]| (e[0], e[1] as u32);
    let mut elements = r.nums[2..].chunks(2).map(element);
    let mut builder = BufferChainBuilder::new();
    for (addr, len) in elements.by_ref().take(readable) {
        builder = builder.readable(addr, len);
    }
    let built = match elements.next() {
        None => builder.build(),
        Some((addr, len)) => {
            let first = builder.writable(addr, len);
            elements.fold(first, |b, (addr, len)| b.writable(addr, len)).build()
        }
    };
    // The builder refuses an empty chain; the ring is asked all the same.
    built.unwrap_or_else(|_| probe::empty_chain())
}

fn polled(id: u16, chain: &BufferChain) -> Answer {
    let mut values = vec![id.into(), chain.len() as u64, chain.readables().len() as u64];
    for elem in chain.elems() {
        values.extend([elem.addr, elem.len.into()]);
    }
    Answer::good(values)
}

fn counts(free: usize, in_flight: usize, full: bool, len: usize) -> Answer {
    Answer::good([free as u64, in_flight as u64, full.into(), len as u64])
}

fn given<T, const N: usize>(
    result: Result<T, RingError>,
    values: impl FnOnce(T) -> [u64; N],
) -> Answer {
    match result {
        Ok(value) => Answer::good(values(value)),
        Err(e) => refused(e),
    }
}

/// Document 01's number of the original's error.
fn refused(error: RingError) -> Answer {
    match error {
        RingError::EmptyChain => Answer::refused(1),
        RingError::BadChain => Answer::refused(2),
        RingError::WouldBlock => Answer::refused(3),
        RingError::OutOfMemory => Answer::refused(4),
        RingError::InvalidState => Answer::refused(5),
        RingError::Bookkeeping | RingError::InvalidLayout | RingError::MemError { .. } => {
            unreachable!("memory never fails and opening gives no error")
        }
    }
}
