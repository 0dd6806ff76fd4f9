// Matching engines: the lit book, and a tape of trades.

use crate::messages::{Book, Pricing, Side};
use std::collections::VecDeque;
use std::vec;

/// How many orders a lit book takes, and a tape.
const BOOK_ORDERS: usize = 256;
const TAPE_ORDERS: usize = 64;

/// What an order asks of an engine.
pub struct Ticket {
    pub instrument: u8,
    pub side: Side,
    pub pricing: Pricing,
    /// Whether what does not trade may rest to the end of the day.
    pub day: bool,
    pub quantity: u32,
}

#[derive(Debug)]
pub enum Refusal {
    NoQuantity,
    NumberOpen,
    Full,
    NotOpen,
}

pub enum Event {
    Nothing,
    Expired(u64),
    Trade(Match),
}

/// Two orders that trade, or one with somebody unknown.
#[derive(Clone, Copy)]
pub struct Match {
    pub passive: Option<u64>,
    pub aggressive: Option<u64>,
    pub quantity: u32,
    pub price: i64,
}

pub trait Matcher {
    /// Opens an order; refused at quantity 0, an open number, or where it is full, tried in this order.
    fn enter(&mut self, number: u64, ticket: Ticket) -> Result<(), Refusal>;

    /// Ends an open order.
    fn cancel(&mut self, number: u64) -> Result<(), Refusal>;

    /// Sets the quantity and the price of an open order.
    fn amend(&mut self, number: u64, quantity: u32, price: i64) -> Result<(), Refusal>;

    fn next_event(&mut self) -> Event;

    fn open_count(&self) -> usize;

    fn serves(&self, book: Book) -> bool;
}

/// An order in a book.
#[derive(Clone, Copy)]
struct Entry {
    number: u64,
    pricing: Pricing,
    quantity: u32,
    instrument: u8,
    side: Side,
    day: bool,
}

impl Entry {
    /// How much an order would like to trade with one at rest, the least the best; none where they do not cross.
    fn preference(&self, other: &Entry) -> Option<i64> {
        let Pricing::Limit(price) = other.pricing else {
            return None;
        };
        if other.instrument != self.instrument || other.side == self.side {
            return None;
        }
        let crosses = match (self.pricing, self.side) {
            (Pricing::Market, _) => true,
            (Pricing::Limit(limit), Side::Buy) => price <= limit,
            (Pricing::Limit(limit), Side::Sell) => price >= limit,
        };
        crosses.then_some(match self.side {
            Side::Buy => price,
            Side::Sell => !price, // from the highest price down
        })
    }
}

/// The lit book: the orders at rest, the first to rest first, and the waiting ones, the oldest first.
pub struct LitBook {
    resting: Vec<Entry>,
    waiting: VecDeque<Entry>,
}

impl LitBook {
    pub fn new() -> LitBook {
        LitBook { resting: Vec::with_capacity(BOOK_ORDERS), waiting: VecDeque::with_capacity(BOOK_ORDERS) }
    }

    fn find(&mut self, number: u64) -> Option<&mut Entry> {
        let mut orders = self.resting.iter_mut().chain(&mut self.waiting);
        orders.find(|order| order.number == number)
    }

    fn remove(&mut self, number: u64) -> Option<Entry> {
        let has_number = |order: &Entry| order.number == number;
        match self.resting.iter().position(has_number) {
            Some(place) => Some(self.resting.remove(place)),
            None => self.waiting.remove(self.waiting.iter().position(has_number)?),
        }
    }

    // The place of the best order at rest for another, the first to rest among equals.
    fn best_for(&self, order: &Entry) -> Option<usize> {
        let mut best: Option<(i64, usize)> = None;
        for (place, other) in self.resting.iter().enumerate() {
            if let Some(preference) = order.preference(other)
                && best.is_none_or(|(least, _)| preference < least)
            {
                best = Some((preference, place));
            }
        }
        best.map(|(_, place)| place)
    }

    // The oldest waiting order trades with one at rest, at its price.
    fn trade(&mut self, order: Entry, place: usize) -> Match {
        let other = self.resting[place];
        let quantity = order.quantity.min(other.quantity);
        if quantity < other.quantity {
            self.resting[place].quantity -= quantity;
        } else {
            self.resting.remove(place);
        }
        if quantity < order.quantity {
            self.waiting[0].quantity -= quantity;
        } else {
            self.waiting.pop_front();
        }
        let price = match other.pricing {
            Pricing::Market => 0,
            Pricing::Limit(price) => price,
        };
        Match { passive: Some(other.number), aggressive: Some(order.number), quantity, price }
    }
}

impl Matcher for LitBook {
    fn enter(&mut self, number: u64, ticket: Ticket) -> Result<(), Refusal> {
        if ticket.quantity == 0 {
            return Err(Refusal::NoQuantity);
        }
        if self.find(number).is_some() {
            return Err(Refusal::NumberOpen);
        }
        if self.open_count() >= BOOK_ORDERS {
            return Err(Refusal::Full);
        }
        self.waiting.push_back(Entry {
            number,
            pricing: ticket.pricing,
            quantity: ticket.quantity,
            instrument: ticket.instrument,
            side: ticket.side,
            day: ticket.day,
        });
        Ok(())
    }

    fn cancel(&mut self, number: u64) -> Result<(), Refusal> {
        self.remove(number).map(|_| ()).ok_or(Refusal::NotOpen)
    }

    // Another limit, or more shares, send the order behind all that wait.
    fn amend(&mut self, number: u64, quantity: u32, price: i64) -> Result<(), Refusal> {
        let order = self.find(number).ok_or(Refusal::NotOpen)?;
        if quantity == 0 {
            return Err(Refusal::NoQuantity);
        }
        let goes_back = quantity > order.quantity || matches!(order.pricing, Pricing::Limit(limit) if limit != price);
        order.quantity = quantity;
        if goes_back {
            if let Pricing::Limit(limit) = &mut order.pricing {
                *limit = price;
            }
            let order = self.remove(number).ok_or(Refusal::NotOpen)?;
            self.waiting.push_back(order);
        }
        Ok(())
    }

    fn next_event(&mut self) -> Event {
        while let Some(&order) = self.waiting.front() {
            if let Some(place) = self.best_for(&order) {
                return Event::Trade(self.trade(order, place));
            }
            self.waiting.pop_front();
            if order.pricing == Pricing::Market || !order.day {
                return Event::Expired(order.number);
            }
            self.resting.push(order);
        }
        Event::Nothing
    }

    fn open_count(&self) -> usize {
        self.resting.len() + self.waiting.len()
    }

    fn serves(&self, book: Book) -> bool {
        book == Book::Integrated
    }
}

/// A line of a tape: an order that trades so many shares as the passive side.
pub struct Line {
    pub number: u64,
    pub quantity: u32,
    pub price: i64,
}

/// An engine that plays a list of trades; a line that does not fit at its turn is passed over.
pub struct Tape {
    /// The open orders, each with its open quantity.
    open: Vec<(u64, u32)>,
    lines: vec::IntoIter<Line>,
}

impl Tape {
    pub fn new(lines: Vec<Line>) -> Tape {
        Tape { open: Vec::with_capacity(TAPE_ORDERS), lines: lines.into_iter() }
    }

    fn find(&self, number: u64) -> Option<usize> {
        self.open.iter().position(|(other, _)| *other == number)
    }

    // Takes shares off an open order; whether it has so many.
    fn take(&mut self, number: u64, quantity: u32) -> bool {
        let Some(place) = self.find(number).filter(|_| quantity > 0) else {
            return false;
        };
        let Some(left) = self.open[place].1.checked_sub(quantity) else {
            return false;
        };
        self.open[place].1 = left;
        if left == 0 {
            self.open.remove(place);
        }
        true
    }
}

impl Matcher for Tape {
    fn enter(&mut self, number: u64, ticket: Ticket) -> Result<(), Refusal> {
        if ticket.quantity == 0 {
            return Err(Refusal::NoQuantity);
        }
        if self.find(number).is_some() {
            return Err(Refusal::NumberOpen);
        }
        if self.open.len() >= TAPE_ORDERS {
            return Err(Refusal::Full);
        }
        self.open.push((number, ticket.quantity));
        Ok(())
    }

    fn cancel(&mut self, number: u64) -> Result<(), Refusal> {
        let place = self.find(number).ok_or(Refusal::NotOpen)?;
        self.open.remove(place);
        Ok(())
    }

    fn amend(&mut self, number: u64, quantity: u32, _price: i64) -> Result<(), Refusal> {
        let place = self.find(number).ok_or(Refusal::NotOpen)?;
        if quantity == 0 {
            return Err(Refusal::NoQuantity);
        }
        self.open[place].1 = quantity;
        Ok(())
    }

    fn next_event(&mut self) -> Event {
        while let Some(line) = self.lines.next() {
            if self.take(line.number, line.quantity) {
                return Event::Trade(Match {
                    passive: Some(line.number),
                    aggressive: None,
                    quantity: line.quantity,
                    price: line.price,
                });
            }
        }
        Event::Nothing
    }

    fn open_count(&self) -> usize {
        self.open.len()
    }

    fn serves(&self, _book: Book) -> bool {
        true
    }
}
