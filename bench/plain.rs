// What wire_bench does, in plain Rust: a New Order of 97 bytes or an Execution Report of 145, written and read as often as
// each line says, each byte looked at once, with the same checks in the same order and the same answers.
// `bench/compare` builds it and wire_bench and runs them in turn; docs/SPEED.md has what came of it.
use std::io::BufRead;

#[derive(Clone, Copy)]
pub enum Pricing {
    Market,
    Limit(i64),
}

#[derive(Clone, Copy)]
pub enum Target {
    DarkMidpoint(u8),
    Integrated,
}

/// A text field, where it begins, and where its text ends.
#[derive(Clone, Copy)]
pub struct Text<'a> {
    pub field: &'a [u8],
    pub offset: usize,
    pub end: usize,
}

#[derive(Clone, Copy)]
pub struct NewOrder<'a> {
    pub client_order_id: Text<'a>,
    pub trader_id: Text<'a>,
    pub account: Text<'a>,
    pub clearing_account: u8,
    pub symbol: Text<'a>,
    pub pricing: Pricing,
    pub time_in_force: u8,
    pub expire_time: u32,
    pub side: u8,
    pub quantity: i32,
    pub display_quantity: i32,
    pub capacity: u8,
    pub auto_cancel: u8,
    pub sub_type: u8,
    pub target: Target,
    pub min_quantity: i32,
    pub passive_only: u8,
}

/// Why a report is sent, with what only such a report tells.
#[derive(Clone, Copy)]
pub enum Execution {
    New,
    Cancelled,
    Replaced,
    Rejected(i32),
    Expired,
    Restated,
    Trade(u8, u8),
    TradeCancel(u8),
}

#[derive(Clone, Copy)]
pub struct ExecutionReport<'a> {
    pub partition: u8,
    pub sequence: i32,
    pub execution_id: Text<'a>,
    pub client_order_id: Text<'a>,
    pub order_id: Text<'a>,
    pub execution: Option<Execution>,
    pub reference_id: Text<'a>,
    pub status: u8,
    pub executed_price: i64,
    pub executed_quantity: i32,
    pub leaves_quantity: i32,
    pub display_quantity: i32,
    pub symbol: Text<'a>,
    pub side: u8,
    pub secondary_order_id: u64,
    pub counterparty: Text<'a>,
    pub trade_match_id: u64,
    pub seconds: u32,
    pub microseconds: u32,
    pub book: u8,
    pub capacity: u8,
    pub price_differential: u8,
}

#[derive(Clone, Copy)]
pub enum Message<'a> {
    NewOrder(NewOrder<'a>),
    ExecutionReport(ExecutionReport<'a>),
    Heartbeat,
}

#[derive(Clone, Copy, Debug)]
pub enum Fault {
    Short,
    Start,
    Unknown,
    Length,
    Field(usize),
}

#[derive(Debug)]
pub struct TooShort {
    pub needed: usize,
}

const TOTAL: usize = 97;

const REPORT: usize = 145;

fn put_text(out: &mut [u8], at: usize, width: usize, text: &Text) {
    out[at..at + width].copy_from_slice(&text.field[..width]);
}

fn write_order(m: &NewOrder, out: &mut [u8]) {
    out[0] = 2;
    out[1..3].copy_from_slice(&(TOTAL as u16 - 3).to_le_bytes());
    out[3] = b'D';
    put_text(out, 4, 20, &m.client_order_id);
    put_text(out, 24, 11, &m.trader_id);
    put_text(out, 35, 10, &m.account);
    out[45] = m.clearing_account;
    put_text(out, 46, 6, &m.symbol);
    out[53] = m.time_in_force;
    out[54..58].copy_from_slice(&m.expire_time.to_le_bytes());
    out[58] = m.side;
    out[59..63].copy_from_slice(&m.quantity.to_le_bytes());
    out[63..67].copy_from_slice(&m.display_quantity.to_le_bytes());
    match m.pricing {
        Pricing::Market => {
            out[52] = 1;
            out[67..75].fill(0);
        }
        Pricing::Limit(price) => {
            out[52] = 2;
            out[67..75].copy_from_slice(&price.to_le_bytes());
        }
    }
    out[75] = m.capacity;
    out[76] = m.auto_cancel;
    out[77] = m.sub_type;
    out[78..87].fill(0);
    match m.target {
        Target::DarkMidpoint(instruction) => {
            out[87] = 0;
            out[88] = instruction;
        }
        Target::Integrated => {
            out[87] = 1;
            out[88] = 0;
        }
    }
    out[89..93].copy_from_slice(&m.min_quantity.to_le_bytes());
    out[93..96].fill(0);
    out[96] = m.passive_only;
}

fn write_execution(execution: &Option<Execution>, out: &mut [u8]) {
    out[53] = match execution {
        None => 0,
        Some(Execution::New) => b'0',
        Some(Execution::Cancelled) => b'4',
        Some(Execution::Replaced) => b'5',
        Some(Execution::Rejected(_)) => b'8',
        Some(Execution::Expired) => b'C',
        Some(Execution::Restated) => b'D',
        Some(Execution::Trade(..)) => b'F',
        Some(Execution::TradeCancel(_)) => b'H',
    };
    out[67..71].fill(0);
    out[118] = 0;
    out[136] = 0;
    match execution {
        Some(Execution::Rejected(code)) => out[67..71].copy_from_slice(&code.to_le_bytes()),
        Some(Execution::Trade(liquidity, kind)) => {
            out[118] = *liquidity;
            out[136] = *kind;
        }
        Some(Execution::TradeCancel(liquidity)) => out[118] = *liquidity,
        _ => {}
    }
}

fn write_report(m: &ExecutionReport, out: &mut [u8]) {
    out[0] = 2;
    out[1..3].copy_from_slice(&(REPORT as u16 - 3).to_le_bytes());
    out[3] = b'8';
    out[4] = m.partition;
    out[5..9].copy_from_slice(&m.sequence.to_le_bytes());
    put_text(out, 9, 12, &m.execution_id);
    put_text(out, 21, 20, &m.client_order_id);
    put_text(out, 41, 12, &m.order_id);
    write_execution(&m.execution, out);
    put_text(out, 54, 12, &m.reference_id);
    out[66] = m.status;
    out[71..79].copy_from_slice(&m.executed_price.to_le_bytes());
    out[79..83].copy_from_slice(&m.executed_quantity.to_le_bytes());
    out[83..87].copy_from_slice(&m.leaves_quantity.to_le_bytes());
    out[87] = 0;
    out[88..92].copy_from_slice(&m.display_quantity.to_le_bytes());
    put_text(out, 92, 6, &m.symbol);
    out[98] = m.side;
    out[99..107].copy_from_slice(&m.secondary_order_id.to_le_bytes());
    put_text(out, 107, 11, &m.counterparty);
    out[119..127].copy_from_slice(&m.trade_match_id.to_le_bytes());
    out[127..131].copy_from_slice(&m.seconds.to_le_bytes());
    out[131..135].copy_from_slice(&m.microseconds.to_le_bytes());
    out[135] = m.book;
    out[137] = m.capacity;
    out[138] = m.price_differential;
    out[139..145].fill(0);
}

/// Writes a message to the front of a buffer, and says how many bytes it has.
#[inline(never)]
pub fn write(message: &Message, out: &mut [u8]) -> Result<usize, TooShort> {
    match message {
        Message::NewOrder(m) => match out.get_mut(..TOTAL) {
            Some(out) => {
                write_order(m, out);
                Ok(TOTAL)
            }
            None => Err(TooShort { needed: TOTAL }),
        },
        Message::ExecutionReport(m) => match out.get_mut(..REPORT) {
            Some(out) => {
                write_report(m, out);
                Ok(REPORT)
            }
            None => Err(TooShort { needed: REPORT }),
        },
        Message::Heartbeat => match out.get_mut(..4) {
            Some(out) => {
                out.copy_from_slice(&[2, 1, 0, b'0']);
                Ok(4)
            }
            None => Err(TooShort { needed: 4 }),
        },
    }
}

// A field of printable bytes, and then nothing but nulls.
fn text(src: &[u8], at: usize, width: usize, least: usize) -> Result<Text<'_>, Fault> {
    let field = &src[at..at + width];
    let end = field.iter().take_while(|b| (0x20..0x7f).contains(*b)).count();
    if end < least || field[end..].iter().any(|b| *b != 0) {
        return Err(Fault::Field(at));
    }
    Ok(Text { field, offset: at, end })
}

fn code(src: &[u8], at: usize, listed: fn(u8) -> bool) -> Result<u8, Fault> {
    if listed(src[at]) { Ok(src[at]) } else { Err(Fault::Field(at)) }
}

fn i32_at(src: &[u8], at: usize) -> i32 {
    i32::from_le_bytes(src[at..at + 4].try_into().unwrap())
}

fn read_order(src: &[u8]) -> Result<NewOrder<'_>, Fault> {
    let client_order_id = text(src, 4, 20, 1)?;
    let trader_id = text(src, 24, 11, 0)?;
    let account = text(src, 35, 10, 0)?;
    let clearing_account = code(src, 45, |b| matches!(b, 1 | 3))?;
    let symbol = text(src, 46, 6, 0)?;
    let order_type = code(src, 52, |b| matches!(b, 1 | 2))?;
    let time_in_force = code(src, 53, |b| matches!(b, 0 | 1 | 3 | 4 | 6 | 8))?;
    let side = code(src, 58, |b| matches!(b, 1 | 2))?;
    let capacity = code(src, 75, |b| matches!(b, 1..=4))?;
    let auto_cancel = code(src, 76, |b| matches!(b, 0 | 1))?;
    let sub_type = code(src, 77, |b| b == 0)?;
    let book = code(src, 87, |b| matches!(b, 0 | 1))?;
    let target = if book == 0 {
        Target::DarkMidpoint(code(src, 88, |b| matches!(b, 0..=2))?)
    } else {
        Target::Integrated
    };
    let passive_only = code(src, 96, |b| matches!(b, 0..=3 | 99 | 100))?;
    Ok(NewOrder {
        client_order_id,
        trader_id,
        account,
        clearing_account,
        symbol,
        pricing: match order_type {
            1 => Pricing::Market,
            _ => Pricing::Limit(i64::from_le_bytes(src[67..75].try_into().unwrap())),
        },
        time_in_force,
        expire_time: u32::from_le_bytes(src[54..58].try_into().unwrap()),
        side,
        quantity: i32_at(src, 59),
        display_quantity: i32_at(src, 63),
        capacity,
        auto_cancel,
        sub_type,
        target,
        min_quantity: i32_at(src, 89),
        passive_only,
    })
}

fn read_execution(kind: u8, reject: i32, liquidity: u8, trade: u8) -> Option<Execution> {
    match kind {
        b'0' => Some(Execution::New),
        b'4' => Some(Execution::Cancelled),
        b'5' => Some(Execution::Replaced),
        b'8' => Some(Execution::Rejected(reject)),
        b'C' => Some(Execution::Expired),
        b'D' => Some(Execution::Restated),
        b'F' => Some(Execution::Trade(liquidity, trade)),
        b'H' => Some(Execution::TradeCancel(liquidity)),
        _ => None,
    }
}

fn read_report(src: &[u8]) -> Result<ExecutionReport<'_>, Fault> {
    let partition = code(src, 4, |b| matches!(b, 1..=3))?;
    let execution_id = text(src, 9, 12, 0)?;
    let client_order_id = text(src, 21, 20, 0)?;
    let order_id = text(src, 41, 12, 0)?;
    let kind = code(src, 53, |b| matches!(b, 0 | b'0' | b'4' | b'5' | b'8' | b'C' | b'D' | b'F' | b'H'))?;
    let reference_id = text(src, 54, 12, 0)?;
    let status = code(src, 66, |b| matches!(b, 0 | 1 | 2 | 4 | 6 | 8))?;
    let symbol = text(src, 92, 6, 0)?;
    let side = code(src, 98, |b| matches!(b, 1 | 2))?;
    let counterparty = text(src, 107, 11, 0)?;
    let liquidity = if matches!(kind, b'F' | b'H') {
        code(src, 118, |b| matches!(b, 0 | b'A' | b'C' | b'R'))?
    } else {
        0
    };
    let book = code(src, 135, |b| matches!(b, 0 | 1))?;
    let trade = if kind == b'F' { code(src, 136, |b| matches!(b, 0 | 1))? } else { 0 };
    let capacity = code(src, 137, |b| matches!(b, 1..=3))?;
    let price_differential = code(src, 138, |b| matches!(b, 0 | b'1'..=b'9' | b'A' | b'B' | b'P'))?;
    let u64_at = |at: usize| u64::from_le_bytes(src[at..at + 8].try_into().unwrap());
    let u32_at = |at: usize| u32::from_le_bytes(src[at..at + 4].try_into().unwrap());
    Ok(ExecutionReport {
        partition,
        sequence: i32_at(src, 5),
        execution_id,
        client_order_id,
        order_id,
        execution: read_execution(kind, i32_at(src, 67), liquidity, trade),
        reference_id,
        status,
        executed_price: u64_at(71) as i64,
        executed_quantity: i32_at(src, 79),
        leaves_quantity: i32_at(src, 83),
        display_quantity: i32_at(src, 88),
        symbol,
        side,
        secondary_order_id: u64_at(99),
        counterparty,
        trade_match_id: u64_at(119),
        seconds: u32_at(127),
        microseconds: u32_at(131),
        book,
        capacity,
        price_differential,
    })
}

/// Who reads: a gateway on its real-time channel, or a desk.
#[derive(Clone, Copy)]
pub enum Reader {
    RealTime,
    Desk,
}

/// Reads a message, or says which check is the first to fail.
#[inline(never)]
pub fn read(reader: Reader, src: &[u8]) -> Result<Message<'_>, Fault> {
    if src.len() < 4 || src.len() < usize::from(u16::from_le_bytes([src[1], src[2]])) + 3 {
        return Err(Fault::Short);
    }
    if src[0] != 2 {
        return Err(Fault::Start);
    }
    let total = match (reader, src[3]) {
        (Reader::RealTime, b'D') => TOTAL,
        (Reader::Desk, b'8') => REPORT,
        (_, b'0') => 4,
        _ => return Err(Fault::Unknown),
    };
    if usize::from(u16::from_le_bytes([src[1], src[2]])) + 3 != total || src.len() != total {
        return Err(Fault::Length);
    }
    match src[3] {
        b'0' => Ok(Message::Heartbeat),
        b'8' => read_report(src).map(Message::ExecutionReport),
        _ => read_order(src).map(Message::NewOrder),
    }
}

fn padded<const N: usize>(text: &[u8]) -> [u8; N] {
    let mut field = [0; N];
    field[..text.len()].copy_from_slice(text);
    field
}

struct Texts {
    client: [u8; 20],
    trader: [u8; 11],
    account: [u8; 10],
    symbol: [u8; 6],
    number: [u8; 12],
}

// Which message.
#[derive(Clone, Copy)]
enum Subject {
    Order,
    Report,
}

impl Subject {
    fn place(self) -> usize {
        match self {
            Subject::Order => 59,
            Subject::Report => 83,
        }
    }

    fn reader(self) -> Reader {
        match self {
            Subject::Order => Reader::RealTime,
            Subject::Report => Reader::Desk,
        }
    }

    fn message(self, texts: &Texts, quantity: i32) -> Message<'_> {
        match self {
            Subject::Order => Message::NewOrder(texts.order(quantity)),
            Subject::Report => Message::ExecutionReport(texts.report(quantity)),
        }
    }
}

fn lent(field: &[u8]) -> Text<'_> {
    let end = field.iter().position(|b| *b == 0).unwrap_or(field.len());
    Text { field, offset: 0, end }
}

impl Texts {
    fn short() -> Texts {
        Texts {
            client: padded(b"ORDER-0000000001"),
            trader: padded(b"TRADER7"),
            account: padded(b"ACCOUNT1"),
            symbol: padded(b"VOD"),
            number: padded(b"E000004gf"),
        }
    }

    fn full() -> Texts {
        Texts {
            client: padded(b"ORDER-00000000000001"),
            trader: padded(b"TRADER-0007"),
            account: padded(b"ACCOUNT-01"),
            symbol: padded(b"VODLSE"),
            number: padded(b"E000004gfFC5"),
        }
    }

    fn order(&self, quantity: i32) -> NewOrder<'_> {
        NewOrder {
            client_order_id: lent(&self.client),
            trader_id: lent(&self.trader),
            account: lent(&self.account),
            clearing_account: 1,
            symbol: lent(&self.symbol),
            pricing: Pricing::Limit(10_050_000_000),
            time_in_force: 0,
            expire_time: 0,
            side: 1,
            quantity,
            display_quantity: quantity,
            capacity: 2,
            auto_cancel: 1,
            sub_type: 0,
            target: Target::Integrated,
            min_quantity: 0,
            passive_only: 0,
        }
    }

    fn report(&self, leaves: i32) -> ExecutionReport<'_> {
        ExecutionReport {
            partition: 1,
            sequence: 1,
            execution_id: lent(&self.number),
            client_order_id: lent(&self.client),
            order_id: lent(&self.number),
            execution: Some(Execution::Trade(b'A', 0)),
            reference_id: lent(&self.number),
            status: 1,
            executed_price: 10_050_000_000,
            executed_quantity: 30,
            leaves_quantity: leaves,
            display_quantity: 100,
            symbol: lent(&self.symbol),
            side: 1,
            secondary_order_id: 0,
            counterparty: lent(&self.trader),
            trade_match_id: 1,
            seconds: 1_356_998_400,
            microseconds: 0,
            book: 1,
            capacity: 2,
            price_differential: 0,
        }
    }
}

// Out of line, so that the loop around a call shares none of its work.
#[inline(never)]
fn read_once(reader: Reader, bytes: &[u8]) -> u64 {
    match read(reader, bytes) {
        Ok(Message::NewOrder(order)) => u64::from(order.quantity as u32),
        Ok(Message::ExecutionReport(report)) => u64::from(report.leaves_quantity as u32),
        _ => 0,
    }
}

// The next message is the same with another quantity.
fn set_quantity(message: &mut Message, quantity: i32) {
    match message {
        Message::NewOrder(order) => order.quantity = quantity,
        Message::ExecutionReport(report) => report.leaves_quantity = quantity,
        Message::Heartbeat => {}
    }
}

#[inline(never)]
fn written_once(message: &Message, out: &mut [u8]) -> Result<usize, TooShort> {
    write(message, out)
}

fn written(subject: Subject, texts: &Texts, times: u32) -> u64 {
    let mut message = subject.message(texts, 0);
    let mut out = [0; REPORT];
    let place = subject.place();
    let mut sum: u64 = 0;
    for i in 0..times {
        set_quantity(&mut message, (i & 0xffff) as i32);
        let length = written_once(&message, &mut out).unwrap_or(0);
        sum = sum.wrapping_add(length as u64 + u64::from(out[place]));
    }
    sum
}

fn read_again(subject: Subject, texts: &Texts, times: u32) -> u64 {
    let mut bytes = [0; REPORT];
    let place = subject.place();
    let length = write(&subject.message(texts, 0), &mut bytes).unwrap_or(0);
    let mut sum: u64 = 0;
    for i in 0..times {
        bytes[place] = (i & 0xff) as u8;
        sum = sum.wrapping_add(read_once(subject.reader(), &bytes[..length]));
    }
    sum
}

fn sum(verb: &str, kind: &str, texts: &str, times: u32) -> Option<u64> {
    let subject = match kind {
        "order" => Subject::Order,
        "report" => Subject::Report,
        _ => return None,
    };
    let texts = match texts {
        "short" => Texts::short(),
        "full" => Texts::full(),
        _ => return None,
    };
    match verb {
        "write" => Some(written(subject, &texts, times)),
        "read" => Some(read_again(subject, &texts, times)),
        _ => None,
    }
}

// What a captured message is answered, as the inspector says it; for a comparison of the two readers.
fn judged(reader: &str, hex: &str) -> Option<String> {
    let reader = match reader {
        "real-time" => Reader::RealTime,
        "follower" => Reader::Desk,
        _ => return None,
    };
    let digits = hex.as_bytes().chunks(2).map(|pair| std::str::from_utf8(pair).unwrap_or(""));
    let bytes: Vec<u8> = digits.map(|pair| u8::from_str_radix(pair, 16)).collect::<Result<_, _>>().ok()?;
    let (number, offset) = match read(reader, &bytes) {
        Ok(_) => return Some("read".to_string()),
        Err(Fault::Short) => (1, 1),
        Err(Fault::Start) => (2, 0),
        Err(Fault::Unknown) => (3, 3),
        Err(Fault::Length) => (4, 1),
        Err(Fault::Field(at)) => (5, at),
    };
    Some(format!("refused {number} at {offset}"))
}

fn main() {
    for line in std::io::stdin().lock().lines() {
        let line = line.unwrap();
        if let Some(answer) = line.split_once(' ').and_then(|(reader, hex)| judged(reader, hex)) {
            println!("{answer}");
            continue;
        }
        let mut words = line.split(' ');
        let mut word = || words.next().unwrap_or("");
        let (verb, kind, texts) = (word(), word(), word());
        match word().parse().ok().and_then(|times| sum(verb, kind, texts, times)) {
            Some(sum) => println!("{line}: {sum}"),
            None => println!("not understood: a line is write|read order|report short|full TIMES"),
        }
    }
}
