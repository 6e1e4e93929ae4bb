//! What each record is made of.

use Width::{Byte, Count, Flag, Half, Long, Word};

#[derive(Clone, Copy, Debug, PartialEq, Eq)]
pub enum Width {
    Byte,
    /// One byte, 0 or 1.
    Flag,
    Half,
    /// A u16 of at most 4,096.
    Count,
    Word,
    Long,
}

impl Width {
    pub fn bytes(self) -> usize {
        match self {
            Byte | Flag => 1,
            Half | Count => 2,
            Word => 4,
            Long => 8,
        }
    }
}

/// The fields of a record: first `head`, then each group of `repeats`, as
/// often as the field of `head` that it names says.
#[derive(Debug)]
pub struct Shape {
    pub op: u8,
    pub name: &'static str,
    pub head: &'static [Width],
    pub repeats: &'static [(usize, &'static [Width])],
}

impl Shape {
    /// The widths of all numbers of a record whose head is given.
    pub fn widths<'a>(&'a self, head: &'a [u64]) -> impl Iterator<Item = Width> + 'a {
        let tail = self.repeats.iter().flat_map(move |(count, group)| {
            (0..head[*count]).flat_map(move |_| group.iter().copied())
        });
        self.head.iter().copied().chain(tail)
    }
}

pub fn shape(op: u8) -> Option<&'static Shape> {
    SHAPES.iter().find(|s| s.op == op)
}

pub fn shape_named(name: &str) -> Option<&'static Shape> {
    SHAPES.iter().find(|s| s.name == name)
}

const fn plain(op: u8, name: &'static str, head: &'static [Width]) -> Shape {
    let repeats = &[];
    Shape { op, name, head, repeats }
}

const fn repeated(
    op: u8,
    name: &'static str,
    head: &'static [Width],
    repeats: &'static [(usize, &'static [Width])],
) -> Shape {
    Shape { op, name, head, repeats }
}

pub const SHAPES: &[Shape] = &[
    plain(1, "submit_one", &[Long, Word, Flag]),
    plain(2, "submit_one_with_notify", &[Long, Word, Flag]),
    repeated(3, "submit_available", &[Count, Half], &[(0, &[Long, Word])]),
    repeated(4, "submit_available_with_notify", &[Count, Half], &[(0, &[Long, Word])]),
    plain(5, "poll_used", &[]),
    plain(6, "next_id", &[]),
    plain(7, "producer_counts", &[]),
    plain(8, "producer_avail_cursor", &[]),
    plain(9, "producer_used_cursor", &[]),
    plain(10, "should_notify_since", &[Half, Flag]),
    plain(11, "disable_used_notifications", &[]),
    plain(12, "enable_used_notifications", &[]),
    plain(13, "enable_used_notifications_desc", &[Half, Flag]),
    plain(14, "enable_used_notifications_for_next", &[]),
    plain(15, "producer_reset", &[]),
    plain(33, "poll_available", &[]),
    plain(34, "submit_used", &[Half, Word]),
    plain(35, "submit_used_with_notify", &[Half, Word]),
    plain(36, "peek_available", &[]),
    plain(37, "consumer_counts", &[]),
    plain(38, "consumer_avail_cursor", &[]),
    plain(39, "consumer_used_cursor", &[]),
    plain(40, "poll_checkpoint", &[Byte]),
    repeated(41, "rollback_polls", &[Byte, Count], &[(1, &[Half])]),
    plain(42, "disable_avail_notifications", &[]),
    plain(43, "enable_avail_notifications", &[]),
    plain(44, "enable_avail_notifications_desc", &[Half, Flag]),
    plain(45, "enable_avail_notifications_for_next", &[]),
    plain(46, "consumer_reset", &[]),
    repeated(64, "overwrite", &[Word, Count], &[(1, &[Byte])]),
    plain(65, "look", &[Word, Count]),
    plain(66, "set_producer", &[Byte, Long]),
    plain(67, "set_consumer", &[Byte, Long]),
    plain(68, "set_entry", &[Byte, Half, Half]),
    plain(69, "lend", &[Word, Word, Word, Word, Word, Word]),
    plain(70, "set_checkpoint", &[Byte, Half, Flag, Half, Flag, Half]),
    repeated(71, "submit_slices", &[Count, Count, Long], &[(0, &[Long]), (1, &[Word])]),
    plain(72, "look_outputs", &[Half, Count]),
    plain(73, "look_table", &[Byte, Half, Count]),
    plain(74, "open_producer", &[Half, Long, Long, Long]),
    plain(75, "open_consumer", &[Half, Long, Long, Long]),
    plain(96, "cursor_step", &[Half, Half, Flag]),
    plain(97, "cursor_move", &[Half, Half, Flag, Half]),
    plain(98, "should_notify", &[Half, Half, Half, Half, Flag, Half, Flag]),
    plain(99, "encode_avail", &[Long, Word, Half, Half, Flag]),
    plain(100, "encode_used", &[Long, Word, Half, Half, Flag]),
    plain(101, "flag_tests", &[Half, Flag]),
    plain(102, "event_set_flags", &[Half, Half, Half]),
    plain(103, "event_set_desc_event", &[Half, Half, Half, Flag]),
    plain(104, "event_read", &[Half, Half]),
    plain(105, "desc_addr", &[Half]),
    plain(106, "decode", &[Byte; 16]),
    plain(107, "chain_check", &[Count, Count, Long]),
    plain(108, "readables_of_addresses", &[Count, Long]),
    plain(109, "writables_of_addresses", &[Count, Long]),
    plain(110, "readables_of_lengths", &[Count, Long]),
    plain(111, "writables_of_lengths", &[Count, Long]),
];
