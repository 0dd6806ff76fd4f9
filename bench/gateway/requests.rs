// The messages that a gateway reads: each as its bytes and back. Fields are read in the order of the layout, so that the first
// bad one is the fault.

use crate::identifiers::{order_id, order_number};
use crate::messages::{
    AutoCancel, Book, ClearingAccount, Fault, MassCancelType, OrderCapacity, OrderSubType, OrderType, PassiveOnly,
    Pricing, Read, Side, Target, Text, TimeInForce, Version, Written, header,
};

/// The two channels of a line.
#[derive(Clone, Copy, PartialEq)]
pub enum Channel {
    RealTime,
    Recovery,
}

pub struct Logon<'a> {
    pub comp_id: &'a Text<25>,
    pub password: &'a Text<25>,
    pub new_password: &'a Text<25>,
}

impl<'a> Logon<'a> {
    fn read(m: Read<'a, 80>) -> Result<Logon<'a>, Fault> {
        let logon = Logon { comp_id: m.text(4)?, password: m.text(29)?, new_password: m.text(54)? };
        m.code::<Version>(79)?;
        Ok(logon)
    }

    pub fn write(&self, out: &mut [u8]) -> usize {
        let mut m = Written::<80>::new(b'A', out);
        m.put(4, *self.comp_id);
        m.put(29, *self.password);
        m.put(54, *self.new_password);
        m.code(79, Version::One);
        m.len()
    }
}

/// Asks for a download of a partition's reports above a number.
pub struct Missed {
    pub partition: i8,
    pub above: u32,
}

impl Missed {
    fn read(m: Read<'_, 9>) -> Result<Missed, Fault> {
        let [partition] = *m.bytes(4);
        Ok(Missed {
            partition: i8::from_le_bytes([partition]),
            above: u32::try_from(m.i32(5)).map_err(|_| Fault::Field(5))?,
        })
    }

    pub fn write(&self, out: &mut [u8]) -> usize {
        let mut m = Written::<9>::new(b'M', out);
        m.put(4, self.partition.to_le_bytes());
        m.put(5, self.above.to_le_bytes());
        m.len()
    }
}

// The number of an order's identifier, or none where it is null.
fn read_order<const N: usize>(m: Read<'_, N>, at: usize) -> Result<Option<u64>, Fault> {
    match m.bytes(at) {
        [0, 0, 0, 0, 0, 0, 0, 0, 0, 0, 0, 0] => Ok(None),
        id => order_number(id).map(Some).ok_or(Fault::Field(at)),
    }
}

pub struct NewOrder<'a> {
    pub client: &'a Text<20>,
    pub trader: &'a Text<11>,
    pub account: &'a Text<10>,
    pub clearing_account: ClearingAccount,
    pub symbol: &'a Text<6>,
    pub pricing: Pricing,
    pub time_in_force: TimeInForce,
    pub expire_time: u32,
    pub side: Side,
    pub quantity: i32,
    pub display: i32,
    pub capacity: OrderCapacity,
    pub auto_cancel: AutoCancel,
    pub sub_type: OrderSubType,
    pub target: Target,
    pub min_quantity: i32,
    pub passive_only: PassiveOnly,
}

impl<'a> NewOrder<'a> {
    fn read(m: Read<'a, 97>) -> Result<NewOrder<'a>, Fault> {
        Ok(NewOrder {
            client: m.name(4)?,
            trader: m.text(24)?,
            account: m.text(35)?,
            clearing_account: m.code(45)?,
            symbol: m.text(46)?,
            pricing: match m.code(52)? {
                OrderType::Market => Pricing::Market,
                OrderType::Limit => Pricing::Limit(m.i64(67)),
            },
            time_in_force: m.code(53)?,
            expire_time: m.u32(54),
            side: m.code(58)?,
            quantity: m.i32(59),
            display: m.i32(63),
            capacity: m.code(75)?,
            auto_cancel: m.code(76)?,
            sub_type: m.code(77)?,
            target: m.target(87)?,
            min_quantity: m.i32(89),
            passive_only: m.code(96)?,
        })
    }

    pub fn write(&self, out: &mut [u8]) -> usize {
        let mut m = Written::<97>::new(b'D', out);
        m.put(4, *self.client);
        m.put(24, *self.trader);
        m.put(35, *self.account);
        m.code(45, self.clearing_account);
        m.put(46, *self.symbol);
        match self.pricing {
            Pricing::Market => m.code(52, OrderType::Market),
            Pricing::Limit(price) => {
                m.code(52, OrderType::Limit);
                m.put(67, price.to_le_bytes());
            }
        }
        m.code(53, self.time_in_force);
        m.put(54, self.expire_time.to_le_bytes());
        m.code(58, self.side);
        m.put(59, self.quantity.to_le_bytes());
        m.put(63, self.display.to_le_bytes());
        m.code(75, self.capacity);
        m.code(76, self.auto_cancel);
        m.code(77, self.sub_type);
        m.target(87, self.target);
        m.put(89, self.min_quantity.to_le_bytes());
        m.code(96, self.passive_only);
        m.len()
    }
}

pub struct Cancel<'a> {
    pub client: &'a Text<20>,
    pub original: &'a Text<20>,
    pub order: Option<u64>,
    pub symbol: &'a Text<6>,
    pub side: Side,
    pub book: Book,
}

impl<'a> Cancel<'a> {
    fn read(m: Read<'a, 73>) -> Result<Cancel<'a>, Fault> {
        Ok(Cancel {
            client: m.name(4)?,
            original: m.text(24)?,
            order: read_order(m, 44)?,
            symbol: m.text(56)?,
            side: m.code(62)?,
            book: m.code(63)?,
        })
    }

    pub fn write(&self, out: &mut [u8]) -> usize {
        let mut m = Written::<73>::new(b'F', out);
        m.put(4, *self.client);
        m.put(24, *self.original);
        m.put(44, self.order.map_or([0; 12], order_id));
        m.put(56, *self.symbol);
        m.code(62, self.side);
        m.code(63, self.book);
        m.len()
    }
}

pub struct Replace<'a> {
    pub client: &'a Text<20>,
    pub original: &'a Text<20>,
    pub order: Option<u64>,
    pub symbol: &'a Text<6>,
    pub quantity: i32,
    pub display: i32,
    pub price: i64,
    pub account: &'a Text<10>,
    pub time_in_force: TimeInForce,
    pub side: Side,
    pub target: Target,
    pub min_quantity: i32,
    pub passive_only: PassiveOnly,
}

impl<'a> Replace<'a> {
    fn read(m: Read<'a, 112>) -> Result<Replace<'a>, Fault> {
        Ok(Replace {
            client: m.name(4)?,
            original: m.text(24)?,
            order: read_order(m, 44)?,
            symbol: m.text(56)?,
            quantity: m.i32(66),
            display: m.i32(70),
            price: m.i64(74),
            account: m.text(82)?,
            time_in_force: m.code(92)?,
            side: m.code(93)?,
            target: m.target(102)?,
            min_quantity: m.i32(104),
            passive_only: m.code(108)?,
        })
    }

    pub fn write(&self, out: &mut [u8]) -> usize {
        let mut m = Written::<112>::new(b'G', out);
        m.put(4, *self.client);
        m.put(24, *self.original);
        m.put(44, self.order.map_or([0; 12], order_id));
        m.put(56, *self.symbol);
        m.put(66, self.quantity.to_le_bytes());
        m.put(70, self.display.to_le_bytes());
        m.put(74, self.price.to_le_bytes());
        m.put(82, *self.account);
        m.code(92, self.time_in_force);
        m.code(93, self.side);
        m.target(102, self.target);
        m.put(104, self.min_quantity.to_le_bytes());
        m.code(108, self.passive_only);
        m.len()
    }
}

/// Which instruments a Mass Cancel means.
pub enum Scope<'a> {
    All,
    Instrument(&'a Text<6>, Book),
    Segment(&'a Text<4>),
}

pub struct MassCancel<'a> {
    pub client: &'a Text<20>,
    /// Whether it means all CompIDs of the firm, and not only the one that asks.
    pub firm: bool,
    pub scope: Scope<'a>,
}

impl<'a> MassCancel<'a> {
    fn read(m: Read<'a, 46>) -> Result<MassCancel<'a>, Fault> {
        use MassCancelType::*;
        let client = m.name(4)?;
        let kind = m.code(24)?;
        Ok(MassCancel {
            client,
            firm: matches!(kind, Firm | FirmInstrument | FirmSegment),
            scope: match kind {
                CompId | Firm => Scope::All,
                CompIdInstrument | FirmInstrument => Scope::Instrument(m.text(25)?, m.code(36)?),
                CompIdSegment | FirmSegment => Scope::Segment(m.text(31)?),
            },
        })
    }

    pub fn write(&self, out: &mut [u8]) -> usize {
        use MassCancelType::*;
        let mut m = Written::<46>::new(b'q', out);
        m.put(4, *self.client);
        let kind = match (&self.scope, self.firm) {
            (Scope::All, true) => Firm,
            (Scope::All, false) => CompId,
            (Scope::Instrument(..), true) => FirmInstrument,
            (Scope::Instrument(..), false) => CompIdInstrument,
            (Scope::Segment(_), true) => FirmSegment,
            (Scope::Segment(_), false) => CompIdSegment,
        };
        m.code(24, kind);
        match self.scope {
            Scope::All => {}
            Scope::Instrument(symbol, book) => {
                m.put(25, *symbol);
                m.code(36, book);
            }
            Scope::Segment(segment) => m.put(31, *segment),
        }
        m.len()
    }
}

pub enum Request<'a> {
    Logon(Logon<'a>),
    Logout,
    Heartbeat,
    Missed(Missed),
    NewOrder(NewOrder<'a>),
    Cancel(Cancel<'a>),
    Replace(Replace<'a>),
    MassCancel(MassCancel<'a>),
}

impl<'a> Request<'a> {
    /// Reads a message of a channel, or says which check is the first to fail.
    pub fn read(channel: Channel, bytes: &'a [u8]) -> Result<Request<'a>, Fault> {
        use Channel::*;
        let (letter, total) = header(bytes)?;
        Ok(match (letter, channel) {
            (b'D', RealTime) => Request::NewOrder(NewOrder::read(Read::new(bytes, total)?)?),
            (b'F', RealTime) => Request::Cancel(Cancel::read(Read::new(bytes, total)?)?),
            (b'G', RealTime) => Request::Replace(Replace::read(Read::new(bytes, total)?)?),
            (b'q', RealTime) => Request::MassCancel(MassCancel::read(Read::new(bytes, total)?)?),
            (b'M', Recovery) => Request::Missed(Missed::read(Read::new(bytes, total)?)?),
            (b'A', _) => Request::Logon(Logon::read(Read::new(bytes, total)?)?),
            (b'5', _) => {
                Read::<24>::new(bytes, total)?.text::<20>(4)?;
                Request::Logout
            }
            (b'0', _) => {
                Read::<4>::new(bytes, total)?;
                Request::Heartbeat
            }
            _ => return Err(Fault::Unknown),
        })
    }

    /// The type and the Client Order ID that a Reject of it names.
    pub fn named(&self) -> (u8, Text<20>) {
        match self {
            Request::Logon(_) => (b'A', [0; 20]),
            Request::Logout => (b'5', [0; 20]),
            Request::Heartbeat => (b'0', [0; 20]),
            Request::Missed(_) => (b'M', [0; 20]),
            Request::NewOrder(m) => (b'D', *m.client),
            Request::Cancel(m) => (b'F', *m.client),
            Request::Replace(m) => (b'G', *m.client),
            Request::MassCancel(m) => (b'q', *m.client),
        }
    }
}
