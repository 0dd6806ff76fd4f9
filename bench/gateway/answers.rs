// What a gateway answers to a message: each answer in its bytes.

use crate::messages::{AckResponse, EndResponse, Fault, Text, Written};
use crate::requests::Request;

/// Why a message is turned down: the number of the check.
#[derive(Clone, Copy, PartialEq)]
pub enum Reason {
    Short = 1,
    Start = 2,
    Unknown = 3,
    Length = 4,
    Field = 5,
    NotLoggedOn = 10,
    Credentials = 11,
    AlreadyOn = 12,
    RecoveryFirst = 13,
    NoInstrument = 20,
    NoRoom = 29,
    DownloadRuns = 30,
}

impl Reason {
    fn code(self) -> [u8; 4] {
        (self as i32).to_le_bytes()
    }
}

pub enum Answer {
    Silent,
    /// To a Logon: accepted, or why it is not.
    Logon(Result<(), Reason>),
    Ack(AckResponse),
    /// With the type and the Client Order ID of the message.
    Reject(Reason, u8, Text<20>),
}

impl Answer {
    /// To a message that was read.
    pub fn turned_down(request: &Request<'_>, reason: Reason) -> Answer {
        let (letter, client) = request.named();
        Answer::Reject(reason, letter, client)
    }

    /// To bytes that are no message.
    pub fn to_fault(fault: Fault, bytes: &[u8]) -> Answer {
        let letter = bytes.get(3).copied().unwrap_or(0);
        let (reason, letter) = match fault {
            Fault::Short => (Reason::Short, 0),
            Fault::Start => (Reason::Start, 0),
            Fault::Unknown => (Reason::Unknown, 0),
            Fault::Length => (Reason::Length, letter),
            Fault::Field(_) => (Reason::Field, letter),
        };
        Answer::Reject(reason, letter, [0; 20])
    }

    /// Writes the answer to the front of a buffer, and says how many bytes it has.
    pub fn write(&self, out: &mut [u8]) -> usize {
        match *self {
            Answer::Silent => 0,
            Answer::Logon(admission) => {
                let mut m = Written::<38>::new(b'B', out);
                m.put(4, admission.err().map_or([0; 4], Reason::code));
                m.len()
            }
            Answer::Ack(response) => {
                let mut m = Written::<5>::new(b'N', out);
                m.code(4, response);
                m.len()
            }
            Answer::Reject(reason, letter, client) => {
                let mut m = Written::<59>::new(b'3', out);
                m.put(4, reason.code());
                m.put(38, [letter]);
                m.put(39, client);
                m.len()
            }
        }
    }
}

/// Writes the end of a download.
pub fn write_end(response: EndResponse, out: &mut [u8]) -> usize {
    let mut m = Written::<5>::new(b'P', out);
    m.code(4, response);
    m.len()
}
