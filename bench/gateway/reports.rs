// Reports, as a store keeps them: all but the number that the store gives them.

use crate::identifiers::{execution_id, order_id};
use crate::messages::{
    Book, Capacity, ExecType, Liquidity, MassResponse, Partition, PriceDifferential, Side, Status, Text, Time,
    TradeType, Written,
};

/// Why an Execution Report is sent, with what only such a report tells.
#[derive(Clone, Copy)]
pub enum Execution {
    New,
    Cancelled,
    Replaced,
    Rejected(i32),
    Expired,
    Restated,
    Trade(Liquidity, TradeType),
    TradeCancel(Liquidity),
}

impl Execution {
    fn kind(self) -> ExecType {
        match self {
            Execution::New => ExecType::New,
            Execution::Cancelled => ExecType::Cancelled,
            Execution::Replaced => ExecType::Replaced,
            Execution::Rejected(_) => ExecType::Rejected,
            Execution::Expired => ExecType::Expired,
            Execution::Restated => ExecType::Restated,
            Execution::Trade(..) => ExecType::Trade,
            Execution::TradeCancel(_) => ExecType::TradeCancel,
        }
    }

    #[inline(always)]
    fn write(self, m: &mut Written<'_, 145>) {
        m.code(53, self.kind());
        match self {
            Execution::Rejected(code) => m.put(67, code.to_le_bytes()),
            Execution::Trade(liquidity, kind) => {
                m.code(118, liquidity);
                m.code(136, kind);
            }
            Execution::TradeCancel(liquidity) => m.code(118, liquidity),
            _ => {}
        }
    }
}

#[derive(Clone, Copy)]
pub struct OrderReport {
    pub client: Text<20>,
    pub order: Option<u64>,
    pub execution: Execution,
    /// The number of the report whose fill is undone.
    pub undoes: Option<u32>,
    pub status: Status,
    pub price: i64,
    pub quantity: u32,
    pub leaves: u32,
    pub display: i32,
    pub symbol: Text<6>,
    pub side: Side,
    pub trade: u64,
    pub time: Time,
    pub book: Book,
    pub capacity: Capacity,
}

#[derive(Clone, Copy)]
pub enum Report {
    Order(OrderReport),
    CancelReject { client: Text<20>, reason: i32, time: Time },
    MassCancel { client: Text<20>, response: MassResponse, reason: i32, time: Time },
}

impl OrderReport {
    fn write(&self, partition: Partition, sequence: u32, out: &mut [u8]) -> usize {
        let mut m = Written::<145>::new(b'8', out);
        m.code(4, partition);
        m.put(5, sequence.to_le_bytes());
        m.put(9, execution_id(partition, sequence));
        m.put(21, self.client);
        m.put(41, self.order.map_or([0; 12], order_id));
        self.execution.write(&mut m);
        m.put(54, self.undoes.map_or([0; 12], |number| execution_id(partition, number)));
        m.code(66, self.status);
        m.put(71, self.price.to_le_bytes());
        m.put(79, self.quantity.to_le_bytes());
        m.put(83, self.leaves.to_le_bytes());
        m.put(88, self.display.to_le_bytes());
        m.put(92, self.symbol);
        m.code(98, self.side);
        m.put(119, self.trade.to_le_bytes());
        m.time(127, self.time);
        m.code(135, self.book);
        m.code(137, self.capacity);
        m.code(138, PriceDifferential::Unspecified);
        m.len()
    }
}

impl Report {
    /// Writes the message of the report under its number to the front of a buffer, and says how many bytes it has.
    pub fn write(&self, partition: Partition, sequence: u32, out: &mut [u8]) -> usize {
        match self {
            Report::Order(report) => report.write(partition, sequence, out),
            Report::CancelReject { client, reason, time } => {
                let mut m = Written::<63>::new(b'9', out);
                m.code(4, partition);
                m.put(5, sequence.to_le_bytes());
                m.put(9, *client);
                m.put(41, reason.to_le_bytes());
                m.time(45, *time);
                m.len()
            }
            Report::MassCancel { client, response, reason, time } => {
                let mut m = Written::<56>::new(b'r', out);
                m.code(4, partition);
                m.put(5, sequence.to_le_bytes());
                m.put(9, *client);
                m.code(29, *response);
                m.put(30, reason.to_le_bytes());
                m.time(38, *time);
                m.len()
            }
        }
    }
}
