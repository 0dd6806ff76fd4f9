// What is done for a request: the first check that fails turns it down or is reported, and nothing else changes.

use crate::answers::Reason;
use crate::matcher::Matcher;
use crate::messages::{
    Book, Capacity, MassResponse, OrderCapacity, OrderType, PassiveOnly, Pricing, Side, Status, Text, Time, TimeInForce,
};
use crate::orders::{Order, Terms, Wish};
use crate::reports::{Execution, OrderReport, Report};
use crate::requests::{Cancel, MassCancel, NewOrder, Replace, Scope};
use crate::store::{PARTITIONS, Store};
use crate::venue::{Refusal, Venue};

/// How many shares an order has at most.
const SHARES: u32 = 1_000_000_000;

// The shares that are asked for, where an order may have so many and shows them all.
fn shares(quantity: i32, display: i32) -> Option<u32> {
    let shares = u32::try_from(quantity).ok()?;
    (display == quantity && (1..=SHARES).contains(&shares)).then_some(shares)
}

// What of its terms a New Order and a Replace have in common.
fn is_served(kind: OrderType, price: i64, least: i32, passive: PassiveOnly, time: TimeInForce) -> bool {
    (kind == OrderType::Market || price > 0)
        && least == 0
        && passive == PassiveOnly::NoConstraint
        && matches!(time, TimeInForce::Day | TimeInForce::ImmediateOrCancel)
}

fn told_capacity(capacity: OrderCapacity) -> Capacity {
    match capacity {
        OrderCapacity::RisklessPrincipal => Capacity::RisklessPrincipal,
        OrderCapacity::Principal | OrderCapacity::CfdGiveUp => Capacity::Principal,
        OrderCapacity::Agency => Capacity::Agency,
    }
}

fn terms(owner: u8, instrument: usize, m: &NewOrder<'_>) -> Terms {
    Terms {
        owner,
        instrument: instrument as u8,
        side: m.side,
        book: m.target.book(),
        kind: match m.pricing {
            Pricing::Market => OrderType::Market,
            Pricing::Limit(_) => OrderType::Limit,
        },
        time_in_force: m.time_in_force,
        capacity: told_capacity(m.capacity),
        auto_cancel: m.auto_cancel,
    }
}

fn rejection(terms: &Terms, m: &NewOrder<'_>, refusal: Refusal, time: Time) -> Report {
    Report::Order(OrderReport {
        client: *m.client,
        order: None,
        execution: Execution::Rejected(refusal as i32),
        undoes: None,
        status: Status::Rejected,
        price: 0,
        quantity: 0,
        leaves: 0,
        display: m.display,
        symbol: *m.symbol,
        side: m.side,
        trade: 0,
        time,
        book: terms.book,
        capacity: terms.capacity,
    })
}

/// The order that a Cancel or a Replace names.
struct Naming<'a> {
    owner: u8,
    order: Option<u64>,
    original: &'a Text<20>,
    instrument: usize,
    side: Side,
    book: Book,
}

impl Naming<'_> {
    fn agrees(&self, terms: &Terms) -> bool {
        terms.owner == self.owner
            && usize::from(terms.instrument) == self.instrument
            && terms.side == self.side
            && terms.book == self.book
    }
}

impl<M: Matcher, S: Store> Venue<M, S> {
    fn instrument(&self, symbol: &Text<6>) -> Result<usize, Reason> {
        self.place_of(symbol).ok_or(Reason::NoInstrument)
    }

    fn check_spare(&self, least: usize) -> Result<(), Reason> {
        if self.spare() < least { Err(Reason::NoRoom) } else { Ok(()) }
    }

    fn check_book(&self, book: Book) -> Result<(), Refusal> {
        if self.matcher.serves(book) { Ok(()) } else { Err(Refusal::BookNotServed) }
    }

    pub fn new_order(&mut self, owner: u8, m: &NewOrder<'_>, time: Time) -> Result<(), Reason> {
        let instrument = self.instrument(m.symbol)?;
        self.check_spare(2)?;
        let terms = terms(owner, instrument, m);
        let accepted = self.wish_of(&terms, m).and_then(|wish| self.open(terms, &wish, time));
        if let Err(refusal) = accepted {
            self.note(self.instruments[instrument].partition, owner, &rejection(&terms, m, refusal, time));
        }
        Ok(())
    }

    fn wish_of(&self, terms: &Terms, m: &NewOrder<'_>) -> Result<Wish, Refusal> {
        self.check_book(terms.book)?;
        let price = match m.pricing {
            Pricing::Market => 0,
            Pricing::Limit(price) => price,
        };
        let served = is_served(terms.kind, price, m.min_quantity, m.passive_only, m.time_in_force)
            && m.capacity != OrderCapacity::CfdGiveUp;
        match shares(m.quantity, m.display) {
            Some(quantity) if served => Ok(Wish { client: *m.client, quantity, display: m.display, price }),
            _ => Err(Refusal::BadTerms),
        }
    }

    // The open order that is named.
    fn find(&self, naming: &Naming<'_>) -> Result<(u64, &Order), Refusal> {
        self.check_book(naming.book)?;
        let number = naming.order.or_else(|| self.orders.named(naming.owner, naming.original));
        let found = number.and_then(|number| Some((number, self.orders.get(number)?)));
        match found.filter(|(_, order)| naming.agrees(&order.terms)) {
            None => Err(Refusal::NoSuchOrder),
            Some((_, order)) if !order.is_open() => Err(Refusal::NotOpen),
            Some(found) => Ok(found),
        }
    }

    fn reject(&mut self, owner: u8, instrument: usize, client: &Text<20>, refusal: Refusal, time: Time) {
        let report = Report::CancelReject { client: *client, reason: refusal as i32, time };
        self.note(self.instruments[instrument].partition, owner, &report);
    }

    pub fn cancel_order(&mut self, owner: u8, m: &Cancel<'_>, time: Time) -> Result<(), Reason> {
        let instrument = self.instrument(m.symbol)?;
        let naming = Naming { owner, order: m.order, original: m.original, instrument, side: m.side, book: m.book };
        match self.find(&naming).map(|(number, _)| number) {
            Ok(number) => self.cancel(number, m.client, time),
            Err(refusal) => {
                self.check_spare(1)?;
                self.reject(owner, instrument, m.client, refusal, time);
            }
        }
        Ok(())
    }

    pub fn replace_order(&mut self, owner: u8, m: &Replace<'_>, time: Time) -> Result<(), Reason> {
        let instrument = self.instrument(m.symbol)?;
        self.check_spare(1)?;
        match self.replacement(owner, instrument, m) {
            Ok((number, wish)) => self.replace(number, &wish, time),
            Err(refusal) => self.reject(owner, instrument, m.client, refusal, time),
        }
        Ok(())
    }

    // The order that a Replace names, and what it is to become.
    fn replacement(&self, owner: u8, instrument: usize, m: &Replace<'_>) -> Result<(u64, Wish), Refusal> {
        let naming =
            Naming { owner, order: m.order, original: m.original, instrument, side: m.side, book: m.target.book() };
        let (number, order) = self.find(&naming)?;
        if order.terms.time_in_force != m.time_in_force {
            return Err(Refusal::OtherTimeInForce);
        }
        if !is_served(order.terms.kind, m.price, m.min_quantity, m.passive_only, m.time_in_force) {
            return Err(Refusal::BadTerms);
        }
        let quantity = shares(m.quantity, m.display).ok_or(Refusal::BadTerms)?;
        if quantity <= order.executed() {
            return Err(Refusal::NotAboveExecuted);
        }
        let wish = Wish { client: *m.client, quantity, display: m.display, price: m.price };
        Ok((number, wish))
    }

    /// Cancels what a Mass Cancel means; `firms` has each line's firm.
    pub fn mass_cancel(&mut self, owner: u8, m: &MassCancel<'_>, firms: &[u32], time: Time) -> Result<(), Reason> {
        let instrument = match m.scope {
            Scope::Instrument(symbol, _) => Some(self.instrument(symbol)?),
            Scope::Segment(segment) if self.instruments.iter().all(|i| i.segment != *segment) => {
                return Err(Reason::NoInstrument);
            }
            _ => None,
        };
        // told in the instrument's partition, or in all
        let told = |partition| instrument.is_none_or(|place| self.instruments[place].partition == partition);
        let partitions = PARTITIONS.map(|partition| told(partition).then_some(partition));
        self.check_spare(partitions.iter().flatten().count())?;
        let refusal = match m.scope {
            Scope::Instrument(_, book) => self.check_book(book).err(),
            _ => None,
        };
        let report = Report::MassCancel {
            client: *m.client,
            response: refusal.map_or(MassResponse::Accepted, |_| MassResponse::Rejected),
            reason: refusal.map_or(0, |refusal| refusal as i32),
            time,
        };
        for partition in partitions.into_iter().flatten() {
            self.note(partition, owner, &report);
        }
        if refusal.is_none() {
            self.cancel_meant(owner, m, instrument, firms, time);
        }
        Ok(())
    }

    // The orders that a Mass Cancel means, of whom and in what, by rising number.
    fn cancel_meant(&mut self, owner: u8, m: &MassCancel<'_>, place: Option<usize>, firms: &[u32], time: Time) {
        let firm = firms[usize::from(owner)];
        for number in self.orders.numbers() {
            let order = self.orders.known(number);
            let terms = &order.terms;
            let whose = if m.firm { firms[usize::from(terms.owner)] == firm } else { terms.owner == owner };
            let instrument = usize::from(terms.instrument);
            let meant = match m.scope {
                Scope::All => true,
                Scope::Instrument(_, book) => Some(instrument) == place && terms.book == book,
                Scope::Segment(segment) => self.instruments[instrument].segment == *segment,
            };
            if order.is_open() && whose && meant {
                self.cancel(number, m.client, time);
            }
        }
    }
}
