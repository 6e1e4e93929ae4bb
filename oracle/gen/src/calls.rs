//! Calls as an honest driver and an honest device make them, and the
//! questions that either may ask at any time.

use crate::leaf;
use crate::place::shuffle;
use crate::play::Play;

/// One move of a lively mix: mostly work, some questions.
pub fn any_move(play: &mut Play) {
    match play.rng.below(100) {
        0..=23 => submit(play),
        24..=43 => poll_available(play),
        44..=60 => complete(play),
        61..=73 => poll_used(play),
        74..=79 => question(play),
        80..=84 => notifications(play),
        85..=87 => notify_since(play),
        88..=93 => checkpoint_or_rollback(play),
        94..=95 => look(play),
        96..=97 => leaf::any_record(play),
        98 => complete_wrongly(play),
        _ => reset(play),
    }
}

pub fn submit(play: &mut Play) {
    let free = play.machine.producer.num_free() as u64;
    let size = play.size();
    let n = match play.rng.below(24) {
        0 => 0,
        1 => free,
        2 => free + 1,
        3 => size,
        4 => size + 1,
        5 => play.rng.below(free + 1),
        6..=14 => 1,
        _ => play.rng.within(1, 5),
    };
    submit_chain(play, n.min(4_096));
}

pub fn submit_chain(play: &mut Play, n: u64) {
    if n == 1 && play.rng.below(3) != 0 {
        let op = play.rng.pick(&[1, 2]);
        let fields = [play.rng.long(), play.rng.word(), play.rng.bit()];
        play.push(op, fields);
        return;
    }
    let readable = match play.rng.below(4) {
        0 => 0,
        1 => n,
        _ => play.rng.below(n + 1),
    };
    let mut nums = vec![n, readable];
    for _ in 0..n {
        nums.extend([play.rng.long(), play.rng.word()]);
    }
    let op = play.rng.pick(&[3, 4]);
    play.push(op, nums);
}

pub fn poll_available(play: &mut Play) {
    play.push(33, []);
}

pub fn poll_used(play: &mut Play) {
    play.push(5, []);
}

pub fn complete(play: &mut Play) {
    let held = play.held();
    if held.is_empty() {
        return poll_available(play);
    }
    let id = play.rng.pick(&held);
    complete_id(play, id.into());
}

pub fn complete_id(play: &mut Play, id: u64) {
    let op = play.rng.pick(&[34, 35]);
    let len = play.rng.word();
    play.push(op, [id, len]);
}

fn complete_wrongly(play: &mut Play) {
    let id = play.any_id();
    complete_id(play, id);
}

pub fn question(play: &mut Play) {
    let op = play.rng.pick(&[6, 7, 8, 9, 36, 37, 38, 39, 105]);
    if op == 105 {
        leaf::desc_addr(play);
    } else {
        play.push(op, []);
    }
}

pub fn notifications(play: &mut Play) {
    let op = play.rng.pick(&[11, 12, 13, 14, 42, 43, 44, 45]);
    if op != 13 && op != 44 {
        play.push(op, []);
        return;
    }
    let head = if op == 13 {
        play.machine.consumer.used_cursor().head()
    } else {
        play.machine.producer.avail_cursor().head()
    };
    let size = play.size();
    let off = match play.rng.below(4) {
        0 => play.rng.half(),
        1 => play.rng.near(&[size, 0, 32_768]),
        _ => play.rng.near(&[head.into(), u64::from(head) + 2]),
    };
    let wrap = play.rng.bit();
    play.push(op, [off, wrap]);
}

fn notify_since(play: &mut Play) {
    let size = play.size();
    let (head, wrap) = if play.rng.bit() == 0 {
        let old = play.rng.pick(&play.old_cursors);
        (old.0.into(), old.1.into())
    } else {
        (play.rng.below(size), play.rng.bit())
    };
    play.push(10, [head, wrap]);
}

pub fn checkpoint_or_rollback(play: &mut Play) {
    if play.rng.below(3) == 0 {
        let reg = play.any_register();
        play.push(40, [reg]);
        return;
    }
    if let Some((reg, mut ids)) = play.saved() {
        shuffle(&mut play.rng, &mut ids);
        // An older chain of equal length passes the assertions too.
        let held = play.held();
        if !ids.is_empty() && play.rng.once_in(4) {
            ids[0] = play.rng.pick(&held);
        }
        rollback(play, reg, &ids);
    }
}

/// Emitted only where the original's assertions hold.
pub fn rollback(play: &mut Play, reg: u64, ids: &[u16]) {
    let mut nums = vec![reg, ids.len() as u64];
    nums.extend(ids.iter().map(|id| u64::from(*id)));
    play.push(41, nums);
}

pub fn look(play: &mut Play) {
    let region = u64::from(play.header.region);
    let slot = play.rng.below(play.size());
    let at = match play.rng.below(4) {
        0 => play.header.driver.into(),
        1 => play.header.device.into(),
        2 => play.slot(slot),
        _ => play.rng.below(region),
    };
    let most = (region - at).min(32);
    let k = play.rng.below(most + 1);
    play.push(65, [at, k]);
}

/// Mostly both ends together; one alone puts the two out of step.
fn reset(play: &mut Play) {
    match play.rng.below(4) {
        0 => {
            play.push(15, []);
        }
        1 => {
            play.push(46, []);
        }
        _ => {
            play.push(15, []);
            play.push(46, []);
        }
    }
}
