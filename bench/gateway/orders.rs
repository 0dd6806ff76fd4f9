// The records of a day's orders and trades. Numbers count from 1.

use crate::messages::{AutoCancel, Book, Capacity, OrderType, Side, Status, Text, TimeInForce};

/// How many orders a day has at most, and how many trades.
pub const ORDERS: usize = 256;
pub const TRADES: usize = 512;

/// What an order keeps for life.
#[derive(Clone, Copy)]
pub struct Terms {
    /// The line of its CompID.
    pub owner: u8,
    /// The place of its instrument.
    pub instrument: u8,
    pub side: Side,
    pub book: Book,
    pub kind: OrderType,
    pub time_in_force: TimeInForce,
    pub capacity: Capacity,
    pub auto_cancel: AutoCancel,
}

/// What a New Order or a Replace asks of an order.
#[derive(Clone, Copy)]
pub struct Wish {
    pub client: Text<20>,
    pub quantity: u32,
    pub display: i32,
    pub price: i64,
}

#[derive(Clone, Copy, PartialEq)]
pub enum Ending {
    Cancelled,
    Expired,
}

/// An order. What is ordered is what is executed, open and withdrawn of it.
pub struct Order {
    pub terms: Terms,
    pub client: Text<20>,
    pub display: i32,
    ordered: u32,
    executed: u32,
    leaves: u32,
    withdrawn: u32,
    ending: Option<Ending>,
}

impl Order {
    fn new(terms: Terms, wish: &Wish) -> Order {
        Order {
            terms,
            client: wish.client,
            display: wish.display,
            ordered: wish.quantity,
            executed: 0,
            leaves: wish.quantity,
            withdrawn: 0,
            ending: None,
        }
    }

    pub fn executed(&self) -> u32 {
        self.executed
    }

    /// The shares open.
    pub fn leaves(&self) -> u32 {
        self.leaves
    }

    pub fn is_open(&self) -> bool {
        self.leaves > 0
    }

    pub fn status(&self) -> Status {
        match self.ending {
            Some(Ending::Cancelled) => Status::Cancelled,
            Some(Ending::Expired) => Status::Expired,
            None if self.is_open() && self.executed > 0 => Status::PartiallyFilled,
            None if self.is_open() => Status::New,
            None if self.ordered > 0 => Status::Filled,
            None => Status::Cancelled,
        }
    }

    /// Takes a Replace to more than is executed.
    pub fn replace(&mut self, wish: &Wish) {
        assert!(self.is_open() && wish.quantity > self.executed);
        self.client = wish.client;
        self.display = wish.display;
        self.ordered = wish.quantity;
        self.leaves = wish.quantity - self.executed;
    }

    pub fn withdraw(&mut self, ending: Ending) {
        assert!(self.is_open());
        self.ending = Some(ending);
        self.withdrawn += self.leaves;
        self.leaves = 0;
    }

    pub fn fill(&mut self, quantity: u32) {
        assert!((1..=self.leaves).contains(&quantity));
        self.executed += quantity;
        self.leaves -= quantity;
    }

    /// Undoes a fill; the shares count as never ordered.
    pub fn undo(&mut self, quantity: u32) {
        assert!((1..=self.executed).contains(&quantity));
        self.ordered -= quantity;
        self.executed -= quantity;
    }
}

/// All orders of a day, and how many of them are open.
pub struct Orders {
    rows: Vec<Order>,
    open: usize,
}

impl Orders {
    pub fn new() -> Orders {
        Orders { rows: Vec::with_capacity(ORDERS), open: 0 }
    }

    pub fn count(&self) -> usize {
        self.rows.len()
    }

    pub fn open_count(&self) -> usize {
        self.open
    }

    pub fn numbers(&self) -> impl Iterator<Item = u64> + use<> {
        1..=self.rows.len() as u64
    }

    pub fn get(&self, number: u64) -> Option<&Order> {
        self.rows.get(number.checked_sub(1)? as usize)
    }

    /// An order of a number that was given out.
    pub fn known(&self, number: u64) -> &Order {
        &self.rows[number as usize - 1]
    }

    /// The number that the next order gets.
    pub fn next_number(&self) -> u64 {
        self.rows.len() as u64 + 1
    }

    pub fn add(&mut self, terms: Terms, wish: &Wish) {
        self.rows.push(Order::new(terms, wish));
        self.open += 1;
    }

    /// Changes an order, and counts anew whether it is open.
    pub fn change(&mut self, number: u64, change: impl FnOnce(&mut Order)) {
        let order = &mut self.rows[number as usize - 1];
        self.open -= usize::from(order.is_open());
        change(order);
        self.open += usize::from(order.is_open());
    }

    /// The highest-numbered order of a CompID that has a text as its current Client Order ID.
    #[inline(never)]
    pub fn named(&self, owner: u8, client: &Text<20>) -> Option<u64> {
        let is_named = |order: &Order| order.terms.owner == owner && order.client == *client;
        let place = self.rows.iter().rposition(is_named)?;
        Some(place as u64 + 1)
    }
}

/// One side of a trade: the order, and the number of the report that told its fill.
#[derive(Clone, Copy)]
pub struct Filled {
    pub order: u64,
    pub report: u32,
}

#[derive(Clone, Copy)]
pub struct Trade {
    pub quantity: u32,
    #[allow(dead_code)] // kept, and not asked for here
    pub price: i64,
    pub passive: Option<Filled>,
    pub aggressive: Option<Filled>,
    pub cancelled: bool,
}
