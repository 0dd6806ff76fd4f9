// The calls of a day, in rows of one kind. Each says how many calls it made. What a call answers and writes is shown to
// `black_box`, so that none of it is left out.

use crate::gateway::{BUFFER, Gateway};
use crate::matcher::Matcher;
use crate::messages::Time;
use crate::plan::{Asked, LINES, missed};
use crate::requests::Channel;
use crate::store::Store;
use crate::venue::Step;
use std::hint::black_box;

/// Messages on a channel of their lines.
pub fn hear<M: Matcher, S: Store>(
    gateway: &mut Gateway<M, S>,
    channel: Channel,
    messages: &[Asked],
    time: Time,
) -> usize {
    let mut reply = [0; BUFFER];
    for Asked { line, bytes } in messages {
        let _answered = black_box(gateway.message(channel, *line, bytes, time, &mut reply));
        black_box(&mut reply);
    }
    messages.len()
}

/// Every event of the engine until there is none, or none is taken.
pub fn step<M: Matcher, S: Store>(gateway: &mut Gateway<M, S>, time: Time) -> usize {
    let mut calls = 1;
    while !matches!(black_box(gateway.step(time)), Ok(Step::Nothing) | Err(_)) {
        calls += 1;
    }
    calls
}

/// What is to be sent on every line.
pub fn send<M: Matcher, S: Store>(gateway: &mut Gateway<M, S>) -> usize {
    let mut out = [0; BUFFER];
    let mut calls = 0;
    for line in 0..LINES {
        loop {
            calls += 1;
            let sent = gateway.send(line, &mut out);
            black_box(&mut out);
            if matches!(sent, Ok(0) | Err(_)) {
                break;
            }
        }
    }
    calls
}

// One download to its end: how many calls it took, how many reports it handed out, and the last one's number.
fn drain<M: Matcher, S: Store>(
    gateway: &mut Gateway<M, S>,
    line: usize,
    out: &mut [u8; BUFFER],
) -> (usize, usize, Option<u32>) {
    let (mut calls, mut sent, mut last) = (0, 0, None);
    loop {
        calls += 1;
        let recovered = gateway.send_recovered(line, out);
        black_box(&mut *out);
        match recovered {
            Ok(0) | Err(_) => return (calls, sent, last),
            Ok(5) => {}
            Ok(_) => {
                sent += 1;
                last = Some(u32::from_le_bytes([out[5], out[6], out[7], out[8]]));
            }
        }
    }
}

// A line's reports of a partition, in as many downloads as they take.
fn download_partition<M: Matcher, S: Store>(
    gateway: &mut Gateway<M, S>,
    line: usize,
    partition: i8,
    time: Time,
) -> usize {
    let mut out = [0; BUFFER];
    let mut calls = 0;
    let mut above = 0;
    loop {
        let Asked { line, bytes } = missed(line, partition, above);
        let _answered = black_box(gateway.message(Channel::Recovery, line, &bytes, time, &mut out));
        black_box(&mut out);
        let (made, sent, last) = drain(gateway, line, &mut out);
        calls += made;
        above = last.unwrap_or(above);
        if sent < 64 {
            return calls;
        }
    }
}

/// Every line's reports of every partition.
pub fn download<M: Matcher, S: Store>(gateway: &mut Gateway<M, S>, time: Time) -> usize {
    let partitions = (0..LINES).flat_map(|line| (1..=3).map(move |partition| (line, partition)));
    partitions.map(|(line, partition)| download_partition(gateway, line, partition, time)).sum()
}

/// The cancellation of every trade.
pub fn undo<M: Matcher, S: Store>(gateway: &mut Gateway<M, S>, time: Time) -> usize {
    let trades = gateway.venue.trades.len();
    for number in 1..=trades {
        let _undone = black_box(gateway.cancel_trade(number, time));
    }
    trades
}
