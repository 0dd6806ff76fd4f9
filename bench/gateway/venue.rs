// The venue of a day: orders, trades, an engine and a store kept in step. Each act changes all of them, and tells it.

use crate::matcher::{Event, Match, Matcher, Ticket};
use crate::messages::{Liquidity, OrderType, Partition, Pricing, Text, Time, TimeInForce, TradeType};
use crate::orders::{Ending, Filled, ORDERS, Orders, TRADES, Terms, Trade, Wish};
use crate::reports::{Execution, OrderReport, Report};
use crate::store::Store;

pub struct Instrument {
    pub symbol: Text<6>,
    pub segment: Text<4>,
    pub partition: Partition,
}

/// Why a request is refused in a report.
#[derive(Clone, Copy, PartialEq)]
pub enum Refusal {
    BookNotServed = 21,
    BadTerms = 22,
    OrdersFull = 23,
    MatcherFull = 24,
    NoSuchOrder = 25,
    NotOpen = 26,
    NotAboveExecuted = 27,
    OtherTimeInForce = 28,
}

/// What an event of the engine was.
#[allow(dead_code)] // nobody here asks which
pub enum Step {
    Nothing,
    Expired(u64),
    /// The number of the trade, and what it was.
    Traded(usize, Match),
}

/// Why a trade is not cancelled.
pub enum UndoRefusal {
    NoSuchTrade,
    AlreadyCancelled,
    NoRoom,
}

pub struct Venue<M, S> {
    pub instruments: Vec<Instrument>,
    pub orders: Orders,
    pub trades: Vec<Trade>,
    pub matcher: M,
    pub store: S,
}

impl<M: Matcher, S: Store> Venue<M, S> {
    pub fn new(instruments: Vec<Instrument>, matcher: M, store: S) -> Venue<M, S> {
        Venue { instruments, orders: Orders::new(), trades: Vec::with_capacity(TRADES), matcher, store }
    }

    /// The free places beyond those that are kept for the ends of the open orders.
    pub fn spare(&self) -> usize {
        self.store.places() - self.orders.open_count()
    }

    /// The place of the instrument of a symbol.
    pub fn place_of(&self, symbol: &Text<6>) -> Option<usize> {
        self.instruments.iter().position(|instrument| instrument.symbol == *symbol)
    }

    /// Keeps a report for a CompID, and says its number.
    pub fn note(&mut self, partition: Partition, owner: u8, report: &Report) -> u32 {
        self.store.append(partition, owner, report).expect("a place was kept free")
    }

    fn partition(&self, terms: &Terms) -> Partition {
        self.instruments[usize::from(terms.instrument)].partition
    }

    // A report of an order as it is now.
    #[inline]
    fn report_of(&self, number: u64, execution: Execution, time: Time) -> OrderReport {
        let order = self.orders.known(number);
        OrderReport {
            client: order.client,
            order: Some(number),
            execution,
            undoes: None,
            status: order.status(),
            price: 0,
            quantity: 0,
            leaves: order.leaves(),
            display: order.display,
            symbol: self.instruments[usize::from(order.terms.instrument)].symbol,
            side: order.terms.side,
            trade: 0,
            time,
            book: order.terms.book,
            capacity: order.terms.capacity,
        }
    }

    // Tells an order's owner, and says the number of the report.
    #[inline]
    fn tell(&mut self, number: u64, report: OrderReport) -> u32 {
        let terms = self.orders.known(number).terms;
        self.note(self.partition(&terms), terms.owner, &Report::Order(report))
    }

    /// An order takes the next number.
    pub fn open(&mut self, terms: Terms, wish: &Wish, time: Time) -> Result<(), Refusal> {
        if self.orders.count() >= ORDERS {
            return Err(Refusal::OrdersFull);
        }
        let number = self.orders.next_number();
        let ticket = Ticket {
            instrument: terms.instrument,
            side: terms.side,
            pricing: match terms.kind {
                OrderType::Market => Pricing::Market,
                OrderType::Limit => Pricing::Limit(wish.price),
            },
            day: terms.time_in_force == TimeInForce::Day,
            quantity: wish.quantity,
        };
        self.matcher.enter(number, ticket).map_err(|_| Refusal::MatcherFull)?;
        self.orders.add(terms, wish);
        self.tell(number, self.report_of(number, Execution::New, time));
        Ok(())
    }

    /// An open order becomes what a Replace asks for.
    pub fn replace(&mut self, number: u64, wish: &Wish, time: Time) {
        self.orders.change(number, |order| order.replace(wish));
        let leaves = self.orders.known(number).leaves();
        self.matcher.amend(number, leaves, wish.price).expect("an open order");
        self.tell(number, self.report_of(number, Execution::Replaced, time));
    }

    /// An open order is cancelled, and told under a Client Order ID.
    pub fn cancel(&mut self, number: u64, client: &Text<20>, time: Time) {
        self.matcher.cancel(number).expect("an open order");
        self.orders.change(number, |order| order.withdraw(Ending::Cancelled));
        let report = OrderReport { client: *client, ..self.report_of(number, Execution::Cancelled, time) };
        self.tell(number, report);
    }

    /// An open order expires with its line.
    pub fn expire(&mut self, number: u64, time: Time) {
        self.matcher.cancel(number).expect("an open order");
        self.end(number, time);
    }

    // An order has expired in the engine.
    fn end(&mut self, number: u64, time: Time) {
        self.orders.change(number, |order| order.withdraw(Ending::Expired));
        self.tell(number, self.report_of(number, Execution::Expired, time));
    }

    /// Takes the engine's next event.
    pub fn step(&mut self, time: Time) -> Step {
        match self.matcher.next_event() {
            Event::Nothing => Step::Nothing,
            Event::Expired(number) => {
                self.end(number, time);
                Step::Expired(number)
            }
            Event::Trade(matched) => {
                let trade = Trade {
                    quantity: matched.quantity,
                    price: matched.price,
                    passive: self.fill(matched.passive, &matched, Liquidity::Added, time),
                    aggressive: self.fill(matched.aggressive, &matched, Liquidity::Removed, time),
                    cancelled: false,
                };
                self.trades.push(trade);
                Step::Traded(self.trades.len(), matched)
            }
        }
    }

    // One side of a trade, where it is known who it is.
    fn fill(&mut self, side: Option<u64>, matched: &Match, liquidity: Liquidity, time: Time) -> Option<Filled> {
        let order = side?;
        self.orders.change(order, |order| order.fill(matched.quantity));
        let report = OrderReport {
            price: matched.price,
            quantity: matched.quantity,
            trade: self.trades.len() as u64 + 1,
            ..self.report_of(order, Execution::Trade(liquidity, TradeType::Visible), time)
        };
        let report = self.tell(order, report);
        Some(Filled { order, report })
    }

    /// Cancels a trade, once: the passive side's fill is undone, and then the aggressive one's.
    pub fn cancel_trade(&mut self, number: usize, time: Time) -> Result<(), UndoRefusal> {
        let spare = self.spare();
        let trade = self.trades.get_mut(number.wrapping_sub(1)).ok_or(UndoRefusal::NoSuchTrade)?;
        if trade.cancelled {
            return Err(UndoRefusal::AlreadyCancelled);
        }
        if spare < 4 {
            return Err(UndoRefusal::NoRoom);
        }
        trade.cancelled = true;
        let Trade { passive, aggressive, quantity, .. } = *trade;
        self.undo(passive, quantity, time);
        self.undo(aggressive, quantity, time);
        Ok(())
    }

    // One side of a trade: its fill is told as cancelled, and then the order as it is.
    fn undo(&mut self, side: Option<Filled>, quantity: u32, time: Time) {
        let Some(Filled { order, report }) = side else {
            return;
        };
        self.orders.change(order, |order| order.undo(quantity));
        let cancelled = OrderReport {
            quantity,
            undoes: Some(report),
            ..self.report_of(order, Execution::TradeCancel(Liquidity::Unspecified), time)
        };
        self.tell(order, cancelled);
        self.tell(order, self.report_of(order, Execution::Restated, time));
    }
}
