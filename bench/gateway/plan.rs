// A made-up day's requests, built before the clock runs, and what its gateway is started with.

use crate::gateway::{Config, Participant};
use crate::messages::{
    AutoCancel, Book, ClearingAccount, OrderCapacity, OrderSubType, PassiveOnly, Pricing, Side, Target, Text,
    TimeInForce, padded,
};
use crate::orders::ORDERS;
use crate::requests::{Cancel, Logon, MassCancel, Missed, NewOrder, Replace, Scope};
use crate::store::PARTITIONS;
use crate::venue::Instrument;

/// How many lines a day has, and how many instruments.
pub const LINES: usize = 8;
const SYMBOLS: usize = 32;
/// How many orders come between two runs of the engine.
pub const BLOCK: usize = 32;

/// A message, and the line that it comes on.
pub struct Asked {
    pub line: usize,
    pub bytes: Vec<u8>,
}

/// The requests of a day.
pub struct Plan {
    pub logons: Vec<Asked>,
    pub orders: Vec<Asked>,
    /// One for each order, which may be done by then.
    pub replaces: Vec<Asked>,
    /// One for every fourth.
    pub cancels: Vec<Asked>,
    pub mass_cancels: Vec<Asked>,
}

impl Plan {
    pub fn made_up() -> Plan {
        Plan {
            logons: (0..LINES).map(logon).collect(),
            orders: (0..ORDERS).map(new_order).collect(),
            replaces: (0..ORDERS).map(replace).collect(),
            cancels: (0..ORDERS).step_by(4).map(cancel).collect(),
            mass_cancels: (0..LINES).map(mass_cancel).collect(),
        }
    }
}

/// Eight CompIDs of two firms, and 32 instruments on three partitions.
pub fn config() -> Option<Config> {
    let participants = (0..LINES).map(|line| Participant {
        name: comp_id(line),
        password: text("secret"),
        firm: line as u32 % 2,
        ends_marked: true,
    });
    let instruments = (0..SYMBOLS).map(|place| Instrument {
        symbol: symbol(place),
        segment: text("SEG"),
        partition: PARTITIONS[place % 3],
    });
    Config::new(participants.collect(), instruments.collect())
}

fn text<const N: usize>(text: &str) -> Text<N> {
    padded(text.as_bytes()).expect("a text that fits")
}

fn comp_id(line: usize) -> Text<25> {
    text(&format!("C{line}"))
}

fn symbol(order: usize) -> Text<6> {
    text(&format!("S{:02}", order % SYMBOLS))
}

fn client(letter: char, order: usize) -> Text<20> {
    text(&format!("{letter}{order}"))
}

// The bytes of a message, which `write` writes to the front of a buffer.
fn asked(line: usize, write: impl FnOnce(&mut [u8]) -> usize) -> Asked {
    let mut bytes = vec![0; 112];
    let len = write(&mut bytes);
    bytes.truncate(len);
    Asked { line, bytes }
}

// Rows of sells and rows of buys, which cross.
fn side(order: usize) -> (Side, i64) {
    if order / BLOCK % 2 == 0 { (Side::Sell, 10_000_000_000) } else { (Side::Buy, 10_100_000_000) }
}

fn shares(order: usize) -> i32 {
    (order % 7) as i32 * 10 + 100
}

fn logon(line: usize) -> Asked {
    let message = Logon { comp_id: &comp_id(line), password: &text("secret"), new_password: &[0; 25] };
    asked(line, |out| message.write(out))
}

fn new_order(order: usize) -> Asked {
    let (side, price) = side(order);
    let message = NewOrder {
        client: &client('c', order),
        trader: &[0; 11],
        account: &[0; 10],
        clearing_account: ClearingAccount::House,
        symbol: &symbol(order),
        pricing: Pricing::Limit(price),
        time_in_force: TimeInForce::Day,
        expire_time: 0,
        side,
        quantity: shares(order),
        display: shares(order),
        capacity: OrderCapacity::Principal,
        auto_cancel: if order % 8 == 0 { AutoCancel::AsConfigured } else { AutoCancel::Stays },
        sub_type: OrderSubType::Order,
        target: Target::Integrated,
        min_quantity: 0,
        passive_only: PassiveOnly::NoConstraint,
    };
    asked(order % LINES, |out| message.write(out))
}

fn replace(order: usize) -> Asked {
    let (side, price) = side(order);
    let quantity = shares(order) + 50;
    let message = Replace {
        client: &client('r', order),
        original: &client('c', order),
        order: None,
        symbol: &symbol(order),
        quantity,
        display: quantity,
        price,
        account: &[0; 10],
        time_in_force: TimeInForce::Day,
        side,
        target: Target::Integrated,
        min_quantity: 0,
        passive_only: PassiveOnly::NoConstraint,
    };
    asked(order % LINES, |out| message.write(out))
}

fn cancel(order: usize) -> Asked {
    let message = Cancel {
        client: &client('x', order),
        original: &client('r', order),
        order: None,
        symbol: &symbol(order),
        side: side(order).0,
        book: Book::Integrated,
    };
    asked(order % LINES, |out| message.write(out))
}

fn mass_cancel(line: usize) -> Asked {
    let message = MassCancel { client: &text("m"), firm: line % 2 == 0, scope: Scope::All };
    asked(line, |out| message.write(out))
}

/// A request for a line's download of a partition, from a number on.
pub fn missed(line: usize, partition: i8, above: u32) -> Asked {
    asked(line, |out| Missed { partition, above }.write(out))
}
