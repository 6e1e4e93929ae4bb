//! Honest sequences, held against a plain queue: what goes in comes out, in
//! order, under its own ID, and the counts add up.

use std::collections::VecDeque;

use crate::answer::{answer, Values};
use crate::input::Input;
use crate::trace::{header, AloneCall, Call, ConsumerCall, ProducerCall};
use crate::traces::ring;
use crate::world::World;

/// The chains on their way, each as (ID, elements).
#[derive(Default)]
struct Queue {
    waiting: VecDeque<(u64, Values)>,
    polled: Vec<(u64, u64)>,
    completed: VecDeque<(u64, u64, u64)>,
    free: Vec<u64>,
}

struct Both {
    world: World,
    queue: Queue,
    size: u64,
    seed: u64,
}

impl Both {
    fn new(size: u16) -> Both {
        let bytes = ring(u32::from(size)).bytes();
        let header = header(&mut Input::new(&bytes)).unwrap();
        let world = World::open(&header).ok().unwrap();
        let queue = Queue { free: (0..u64::from(size)).collect(), ..Queue::default() };
        Both { world, queue, size: u64::from(size), seed: 1 + u64::from(size) }
    }

    fn next(&mut self, below: u64) -> u64 {
        self.seed = self.seed * 16807 % 2_147_483_647;
        self.seed / 64 % below
    }

    fn slots_held(&self) -> u64 {
        let waiting: u64 = self.queue.waiting.iter().map(|(_, chain)| chain[0]).sum();
        let polled: u64 = self.queue.polled.iter().map(|&(_, n)| n).sum();
        let completed: u64 = self.queue.completed.iter().map(|&(_, _, n)| n).sum();
        waiting + polled + completed
    }

    fn ask(&mut self, call: Call) -> Result<Values, u64> {
        answer(&mut self.world, &call).map_err(|refusal| refusal.number())
    }

    fn submit(&mut self) {
        let n = 1 + self.next(self.size);
        let readable = self.next(n + 1);
        let addresses: Vec<u64> = (0..n).map(|_| self.next(1 << 20)).collect();
        let lengths: Vec<u32> = (0..n).map(|_| self.next(1 << 20) as u32).collect();
        let mut chain = vec![n, readable];
        for (&address, &length) in addresses.iter().zip(&lengths) {
            chain.extend([address, u64::from(length)]);
        }
        let fits = n <= self.size - self.slots_held();
        let submit = ProducerCall::Submit { addresses, lengths, readable, notify: false };
        let answered = self.ask(Call::Producer(submit));
        if fits {
            let id = self.queue.free.pop().unwrap();
            assert_eq!(answered, Ok(vec![id]));
            self.queue.waiting.push_back((id, chain));
        } else {
            assert_eq!(answered, Err(3));
        }
    }

    fn poll_available(&mut self) {
        let answered = self.ask(Call::Consumer(ConsumerCall::PollAvailable));
        match self.queue.waiting.pop_front() {
            None => assert_eq!(answered, Err(3)),
            Some((id, chain)) => {
                assert_eq!(answered.unwrap(), [vec![id], chain.clone()].concat());
                self.queue.polled.push((id, chain[0]));
            }
        }
    }

    fn complete(&mut self) {
        if self.queue.polled.is_empty() {
            return;
        }
        let place = self.next(self.queue.polled.len() as u64) as usize;
        let (id, n) = self.queue.polled.swap_remove(place);
        let length = self.next(1 << 20);
        let used = ConsumerCall::SubmitUsed { id: id as u16, length: length as u32, notify: false };
        assert_eq!(self.ask(Call::Consumer(used)), Ok(vec![]));
        self.queue.completed.push_back((id, length, n));
    }

    fn poll_used(&mut self) {
        let answered = self.ask(Call::Producer(ProducerCall::PollUsed));
        match self.queue.completed.pop_front() {
            None => assert_eq!(answered, Err(3)),
            Some((id, length, _)) => {
                assert_eq!(answered, Ok(vec![id, length]));
                self.queue.free.push(id);
            }
        }
    }

    fn counts_add_up(&mut self) {
        let held = self.slots_held();
        let full = u64::from(held == self.size);
        let producer = vec![self.size - held, held, full, self.size];
        assert_eq!(self.ask(Call::Producer(ProducerCall::Counts)), Ok(producer));
        let polled: u64 = self.queue.polled.iter().map(|&(_, n)| n).sum();
        let full = u64::from(polled == self.size);
        let consumer = vec![self.size - polled, polled, full, self.size];
        assert_eq!(self.ask(Call::Consumer(ConsumerCall::Counts)), Ok(consumer));
        let peek = u64::from(!self.queue.waiting.is_empty());
        assert_eq!(self.ask(Call::Consumer(ConsumerCall::PeekAvailable)), Ok(vec![peek]));
    }
}

#[test]
fn what_goes_in_comes_out() {
    for size in [1, 2, 3, 5, 8, 13] {
        let mut both = Both::new(size);
        for _ in 0..3000 {
            match both.next(4) {
                0 => both.submit(),
                1 => both.poll_available(),
                2 => both.complete(),
                _ => both.poll_used(),
            }
            both.counts_add_up();
        }
    }
}

/// A rollback gives the chains back: polled once more, they are the same.
#[test]
fn a_rollback_gives_the_chains_back() {
    let mut both = Both::new(5);
    for _ in 0..2000 {
        both.submit();
        let checkpoint = ConsumerCall::PollCheckpoint { register: 9 };
        both.ask(Call::Consumer(checkpoint)).unwrap();
        let (world, mut ids) = (both.world.clone(), vec![]);
        while let Ok(values) = both.ask(Call::Consumer(ConsumerCall::PollAvailable)) {
            ids.push(values[0] as u16);
        }
        let rollback = ConsumerCall::RollbackPolls { register: 9, ids };
        both.ask(Call::Consumer(rollback)).unwrap();
        assert!(both.world.consumer == world.consumer);
        assert!(both.world.ground.consumer_counts == world.ground.consumer_counts);
        assert!(both.world.ground.region == world.ground.region);
        both.poll_available();
        both.complete();
        both.poll_used();
    }
}

/// "Moving by n, at most the ring size, equals n single steps": counted from
/// the start of round true, a cursor is one number below twice the size.
#[test]
fn a_move_is_a_sum_modulo_two_rounds() {
    use crate::cursor::Cursor;
    for size in 1..20 {
        for start in 0..2 * size {
            let at = Cursor { head: start % size, wrap: start < size };
            for n in 0..=size {
                let end = (start + n) % (2 * size);
                let call = Call::Alone(AloneCall::Move { size, at, n });
                let expected = vec![u64::from(end % size), u64::from(end < size)];
                assert_eq!(Both::new(1).ask(call), Ok(expected));
            }
        }
    }
}
