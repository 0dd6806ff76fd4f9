// Messages as bytes: codes, texts, the header, and how fields are read and written.
// A text is its whole field: nobody here asks where it ends, as the plain reader of ../plain.rs tells.

/// The byte that every message begins with.
const START: u8 = 2;

/// The first check that a message fails.
#[derive(Clone, Copy, Debug, PartialEq)]
pub enum Fault {
    Short,
    Start,
    Unknown,
    Length,
    /// The field at this offset.
    Field(usize),
}

/// A byte that stands for one of a few values.
pub trait Code: Copy {
    fn from_byte(byte: u8) -> Option<Self>;

    fn byte(self) -> u8;
}

macro_rules! codes {
    ($($name:ident { $($value:ident = $byte:literal),+ $(,)? })+) => {$(
        #[derive(Clone, Copy, Debug, PartialEq)]
        #[repr(u8)]
        pub enum $name {
            $($value = $byte),+
        }

        impl Code for $name {
            #[inline]
            fn from_byte(byte: u8) -> Option<$name> {
                match byte {
                    $($byte => Some($name::$value),)+
                    _ => None,
                }
            }

            #[inline]
            fn byte(self) -> u8 {
                self as u8
            }
        }
    )+};
}

codes! {
    Partition { One = 1, Two = 2, Three = 3 }
    ClearingAccount { Client = 1, House = 3 }
    OrderType { Market = 1, Limit = 2 }
    TimeInForce {
        Day = 0,
        GoodTillCancelled = 1,
        ImmediateOrCancel = 3,
        FillOrKill = 4,
        GoodTillDate = 6,
        GoodTillTime = 8,
    }
    Side { Buy = 1, Sell = 2 }
    OrderCapacity { RisklessPrincipal = 1, Principal = 2, Agency = 3, CfdGiveUp = 4 }
    AutoCancel { Stays = 0, AsConfigured = 1 }
    OrderSubType { Order = 0 }
    Book { DarkMidpoint = 0, Integrated = 1 }
    ExecInstruction { ContinuousAndPeriodic = 0, PeriodicOnly = 1, ContinuousOnly = 2 }
    PassiveOnly {
        NoConstraint = 0,
        SetsOrJoinsBest = 1,
        WithinOneLevel = 2,
        WithinTwoLevels = 3,
        PassiveOnEntry = 99,
        SetsBest = 100,
    }
    ExecType {
        Unspecified = 0,
        New = b'0',
        Cancelled = b'4',
        Replaced = b'5',
        Rejected = b'8',
        Expired = b'C',
        Restated = b'D',
        Trade = b'F',
        TradeCancel = b'H',
    }
    Status { New = 0, PartiallyFilled = 1, Filled = 2, Cancelled = 4, Expired = 6, Rejected = 8 }
    Liquidity { Unspecified = 0, Added = b'A', Uncrossing = b'C', Removed = b'R' }
    TradeType { Visible = 0, Hidden = 1 }
    Capacity { RisklessPrincipal = 1, Principal = 2, Agency = 3 }
    PriceDifferential {
        Unspecified = 0,
        Best = b'1',
        Second = b'2',
        Third = b'3',
        Fourth = b'4',
        Fifth = b'5',
        Sixth = b'6',
        Seventh = b'7',
        Eighth = b'8',
        Ninth = b'9',
        Aggressive = b'A',
        NewBest = b'B',
        Passive = b'P',
    }
    Version { One = 1 }
    MassCancelType {
        FirmInstrument = 3,
        FirmSegment = 4,
        CompId = 7,
        Firm = 8,
        CompIdInstrument = 9,
        CompIdSegment = 15,
    }
    MassResponse { Rejected = 0, Accepted = 7 }
    AckResponse { Successful = 0, LimitReached = 1, InvalidAppId = 2, ServiceUnavailable = 3 }
    EndResponse { Complete = 0, MessageLimit = 1, ServiceUnavailable = 3 }
}

/// The field of a text: printable bytes, and behind them nothing but nulls. So texts are compared as fields.
pub type Text<const N: usize> = [u8; N];

fn is_printable(byte: u8) -> bool {
    matches!(byte, b' '..=b'~')
}

// Whether each byte is null, or printable and not behind a null. All are looked at, with no early way out and no branch,
// which is faster than to stop at the first wrong one.
#[inline]
fn is_text<const N: usize>(field: &[u8; N]) -> bool {
    let mut wrong = 0;
    for i in 0..N {
        let behind_null = i > 0 && field[i - 1] == 0;
        wrong |= u8::from(field[i] != 0) & (u8::from(!is_printable(field[i])) | u8::from(behind_null));
    }
    wrong == 0
}

/// The field of a text, if it fits and is printable.
pub fn padded<const N: usize>(text: &[u8]) -> Option<Text<N>> {
    let mut field = [0; N];
    field.get_mut(..text.len())?.copy_from_slice(text);
    text.iter().copied().all(is_printable).then_some(field)
}

/// The type of a message, and the total that its length field says; the checks before the type's.
#[inline]
pub fn header(bytes: &[u8]) -> Result<(u8, usize), Fault> {
    let &[start, low, high, letter, ..] = bytes else {
        return Err(Fault::Short);
    };
    let total = usize::from(u16::from_le_bytes([low, high])) + 3;
    if bytes.len() < total {
        return Err(Fault::Short);
    }
    if start != START {
        return Err(Fault::Start);
    }
    Ok((letter, total))
}

/// A message of N bytes that is read, field by field.
#[derive(Clone, Copy)]
pub struct Read<'a, const N: usize>(&'a [u8; N]);

impl<'a, const N: usize> Read<'a, N> {
    /// The length field says N, and there are as many bytes.
    #[inline]
    pub fn new(bytes: &'a [u8], total: usize) -> Result<Read<'a, N>, Fault> {
        match bytes.try_into() {
            Ok(message) if total == N => Ok(Read(message)),
            _ => Err(Fault::Length),
        }
    }

    #[inline(always)]
    pub fn bytes<const W: usize>(self, at: usize) -> &'a [u8; W] {
        self.0[at..at + W].try_into().unwrap()
    }

    #[inline(always)]
    pub fn text<const W: usize>(self, at: usize) -> Result<&'a Text<W>, Fault> {
        let field = self.bytes(at);
        if is_text(field) { Ok(field) } else { Err(Fault::Field(at)) }
    }

    /// A text that is not empty.
    #[inline(always)]
    pub fn name<const W: usize>(self, at: usize) -> Result<&'a Text<W>, Fault> {
        let field = self.text(at)?;
        if field[0] != 0 { Ok(field) } else { Err(Fault::Field(at)) }
    }

    #[inline(always)]
    pub fn code<C: Code>(self, at: usize) -> Result<C, Fault> {
        C::from_byte(self.0[at]).ok_or(Fault::Field(at))
    }

    #[inline(always)]
    pub fn u32(self, at: usize) -> u32 {
        u32::from_le_bytes(*self.bytes(at))
    }

    #[inline(always)]
    pub fn i32(self, at: usize) -> i32 {
        i32::from_le_bytes(*self.bytes(at))
    }

    #[inline(always)]
    pub fn i64(self, at: usize) -> i64 {
        i64::from_le_bytes(*self.bytes(at))
    }

    /// The book, and behind it when an order for the dark one takes part.
    #[inline(always)]
    pub fn target(self, at: usize) -> Result<Target, Fault> {
        Ok(match self.code(at)? {
            Book::DarkMidpoint => Target::DarkMidpoint(self.code(at + 1)?),
            Book::Integrated => Target::Integrated,
        })
    }
}

/// A message of N bytes that is written; what is not put stays null.
pub struct Written<'a, const N: usize>(&'a mut [u8; N]);

impl<'a, const N: usize> Written<'a, N> {
    /// Begins a message at the front of a buffer that has room for it.
    #[inline(always)]
    pub fn new(letter: u8, out: &'a mut [u8]) -> Written<'a, N> {
        let out = out.first_chunk_mut().expect("room for the message");
        *out = [0; N];
        let [low, high] = (N as u16 - 3).to_le_bytes();
        let mut written = Written(out);
        written.put(0, [START, low, high, letter]);
        written
    }

    #[inline(always)]
    pub fn put<const W: usize>(&mut self, at: usize, field: [u8; W]) {
        self.0[at..at + W].copy_from_slice(&field);
    }

    #[inline(always)]
    pub fn code(&mut self, at: usize, code: impl Code) {
        self.0[at] = code.byte();
    }

    #[inline(always)]
    pub fn time(&mut self, at: usize, time: Time) {
        self.put(at, time.seconds.to_le_bytes());
        self.put(at + 4, time.microseconds.to_le_bytes());
    }

    #[inline(always)]
    pub fn target(&mut self, at: usize, target: Target) {
        self.code(at, target.book());
        if let Target::DarkMidpoint(instruction) = target {
            self.code(at + 1, instruction);
        }
    }

    /// How many bytes the message has.
    #[inline(always)]
    pub fn len(self) -> usize {
        N
    }
}

#[derive(Clone, Copy, Debug, PartialEq)]
pub struct Time {
    pub seconds: u32,
    pub microseconds: u32,
}

/// What an order may cost.
#[derive(Clone, Copy, Debug, PartialEq)]
pub enum Pricing {
    Market,
    Limit(i64),
}

/// The book that an order is for.
#[derive(Clone, Copy)]
pub enum Target {
    DarkMidpoint(ExecInstruction),
    Integrated,
}

impl Target {
    pub fn book(self) -> Book {
        match self {
            Target::DarkMidpoint(_) => Book::DarkMidpoint,
            Target::Integrated => Book::Integrated,
        }
    }
}
