// The days of gateway_bench on a gateway in plain Rust: the same messages, read and written with the same checks in the same
// order, the same answers and reports, and the same account of each day. The rules are those of docs/RULES.md,
// docs/PROTOCOL.md, docs/ORDERS.md and docs/MATCHING.md. As there, memory is taken at the start of a day, instruments are
// found by symbol, orders by Client Order ID, a book's orders by number and by price, and a CompID's reports by owner, each
// by a scan; how many orders are open is counted as they open and end, and a store of wire bytes hands out the bytes that
// it keeps.
//
// It has the lit book and the tape, over both stores. The dark book, and so the pair of both books, are not here.
//
//     rustc --edition 2024 -C opt-level=3 -C target-cpu=x86-64-v2 bench/gateway/main.rs
//
// `bench/compare gateway` builds it and runs it beside gateway_bench; docs/SPEED.md has what came of it.

mod answers;
mod deciding;
mod gateway;
mod identifiers;
mod matcher;
mod messages;
mod orders;
mod plan;
mod reports;
mod requests;
mod sessions;
mod store;
mod venue;
mod walk;

use gateway::Gateway;
use matcher::{Line, LitBook, Matcher, Tape};
use messages::Time;
use orders::TRADES;
use plan::{Asked, BLOCK, Plan};
use requests::Channel;
use std::hint::black_box;
use std::io::{self, Write};
use std::time::{Duration, Instant};
use store::{PARTITIONS, Records, Store, WireBytes};

const NOON: Time = Time { seconds: 43_200, microseconds: 0 };

fn each(time: Duration, calls: usize) -> u128 {
    time.as_nanos().checked_div(calls as u128).unwrap_or(0)
}

// One write for each line, so that a profile can be cut by lines.
fn say(mut out: impl Write, line: String) -> io::Result<()> {
    out.write_all((line + "\n").as_bytes())
}

fn out(line: String) -> io::Result<()> {
    say(io::stdout(), line)
}

fn err(line: String) -> io::Result<()> {
    say(io::stderr(), line)
}

/// The account of a day: how many calls there were goes to standard output, and what they took to standard error.
struct Account<'a> {
    name: &'a str,
    calls: usize,
}

impl Account<'_> {
    fn row(&mut self, what: &str, make: impl FnOnce() -> usize) -> io::Result<()> {
        let name = self.name;
        let start = Instant::now();
        let calls = make();
        let cost = each(start.elapsed(), calls);
        self.calls += calls;
        out(format!("{name}: {calls} calls, {what}"))?;
        err(format!("{name}: {cost} ns a call, {what}"))
    }

    // Rows of orders, and behind each every event that it leads to.
    fn orders<M: Matcher, S: Store>(
        &mut self,
        gateway: &mut Gateway<M, S>,
        orders: &[Asked],
        time: Time,
    ) -> io::Result<()> {
        let name = self.name;
        let mut events = 0;
        for (place, row) in orders.chunks(BLOCK).enumerate() {
            let start = Instant::now();
            let heard = walk::hear(gateway, Channel::RealTime, row, time);
            let order = each(start.elapsed(), heard);
            let start = Instant::now();
            let steps = walk::step(gateway, time);
            let event = each(start.elapsed(), steps);
            err(format!("{name}: {order} ns an order, {event} ns an event, row {place}"))?;
            events += steps;
        }
        let orders = orders.len();
        self.calls += orders + events;
        out(format!("{name}: {orders} calls, orders"))?;
        out(format!("{name}: {events} calls, events"))
    }
}

// A day's calls. Not inlined, so that a profile shows what they cost.
#[inline(never)]
fn play<M: Matcher, S: Store>(name: &str, gateway: &mut Gateway<M, S>, plan: &Plan) -> io::Result<()> {
    let noon = black_box(NOON);
    let real_time = Channel::RealTime;
    let start = Instant::now();
    let mut day = Account { name, calls: 0 };
    day.row("logons", || walk::hear(gateway, real_time, &plan.logons, noon))?;
    day.calls += walk::hear(gateway, Channel::Recovery, &plan.logons, noon);
    day.orders(gateway, &plan.orders, noon)?;
    day.row("replacements", || walk::hear(gateway, real_time, &plan.replaces, noon))?;
    day.row("cancels", || walk::hear(gateway, real_time, &plan.cancels, noon))?;
    day.row("trade cancellations", || walk::undo(gateway, noon))?;
    day.row("mass cancels", || walk::hear(gateway, real_time, &plan.mass_cancels, noon))?;
    day.row("sends", || walk::send(gateway))?;
    day.row("sends of downloads", || walk::download(gateway, noon))?;
    let rate = 1_000_000_000_u128.checked_div(each(start.elapsed(), day.calls)).unwrap_or(0);
    err(format!("{name}: {rate} calls a second over the day"))?;
    came_to(name, gateway)
}

fn came_to<M: Matcher, S: Store>(name: &str, gateway: &Gateway<M, S>) -> io::Result<()> {
    let venue = &gateway.venue;
    let (orders, trades) = (venue.orders.count(), venue.trades.len());
    let [one, two, three] = PARTITIONS.map(|partition| venue.store.last(partition));
    out(format!("{name}: {orders} orders, {trades} trades, reports {one}, {two} and {three}"))
}

// A day over an engine and a store that hold nothing.
fn day(name: &str, matcher: impl Matcher, store: impl Store, plan: &Plan) -> io::Result<()> {
    let Some(config) = plan::config() else {
        return out(format!("{name}: no configuration"));
    };
    match Gateway::start(config, matcher, store) {
        Some(mut gateway) => play(name, &mut gateway, plan),
        None => out(format!("{name}: not started")),
    }
}

// A tape that trades each order of the first row sixteen times: as many trades as a day has room for.
fn tape() -> Tape {
    let line = |place| Line { number: place % 32 + 1, quantity: 5, price: 10_050_000_000 };
    Tape::new((0..TRADES as u64).map(line).collect())
}

fn main() -> io::Result<()> {
    let plan = Plan::made_up();
    day("lit book, records", LitBook::new(), Records::new(), &plan)?;
    day("lit book, wire bytes", LitBook::new(), WireBytes::new(), &plan)?;
    day("tape, records", tape(), Records::new(), &plan)?;
    day("tape, wire bytes", tape(), WireBytes::new(), &plan)
}
