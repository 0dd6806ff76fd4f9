// The gateway: lines on which messages come, and its calls.

use crate::answers::{Answer, Reason, write_end};
use crate::matcher::Matcher;
use crate::messages::{AckResponse, AutoCancel, Code, Fault, Partition, Text, Time};
use crate::orders::TRADES;
use crate::requests::{Channel, Logon, Missed, Request};
use crate::sessions::{Recovered, Session};
use crate::store::{PARTITIONS, Store};
use crate::venue::{Instrument, Step, UndoRefusal, Venue};

/// How many bytes a buffer for answers has at least.
pub const BUFFER: usize = 512;
/// How many CompIDs and instruments a day has at most.
const COMP_IDS: usize = 8;
const INSTRUMENTS: usize = 32;

/// Who trades on a line.
pub struct Participant {
    pub name: Text<25>,
    pub password: Text<25>,
    pub firm: u32,
    /// Whether its marked orders end with its line.
    pub ends_marked: bool,
}

/// What a gateway is started with.
pub struct Config {
    participants: Vec<Participant>,
    instruments: Vec<Instrument>,
}

// Whether no name stands twice, and none is empty.
fn are_names<const N: usize>(names: &[&Text<N>]) -> bool {
    names.iter().enumerate().all(|(place, name)| name[0] != 0 && !names[..place].contains(name))
}

impl Config {
    pub fn new(participants: Vec<Participant>, instruments: Vec<Instrument>) -> Option<Config> {
        let names: Vec<_> = participants.iter().map(|participant| &participant.name).collect();
        let symbols: Vec<_> = instruments.iter().map(|instrument| &instrument.symbol).collect();
        let fits = names.len() <= COMP_IDS && symbols.len() <= INSTRUMENTS;
        (fits && are_names(&names) && are_names(&symbols)).then_some(Config { participants, instruments })
    }
}

/// Why a call is refused to the caller.
#[allow(dead_code)] // nobody here asks
pub enum GatewayFault {
    Wire(Fault),
    ShortBuffer,
    NotLoggedOn,
    NoSuchLine,
    NoRoom,
    TradesFull,
    Undo(UndoRefusal),
}

pub struct Gateway<M, S> {
    participants: Vec<Participant>,
    /// Each line's firm.
    firms: Vec<u32>,
    sessions: Vec<Session>,
    pub venue: Venue<M, S>,
}

impl<M: Matcher, S: Store> Gateway<M, S> {
    /// Starts a day, with an engine and a store that hold nothing.
    pub fn start(config: Config, matcher: M, store: S) -> Option<Gateway<M, S>> {
        if matcher.open_count() > 0 || PARTITIONS.into_iter().any(|partition| store.last(partition) > 0) {
            return None;
        }
        Some(Gateway {
            firms: config.participants.iter().map(|participant| participant.firm).collect(),
            sessions: config.participants.iter().map(|_| Session::new()).collect(),
            participants: config.participants,
            venue: Venue::new(config.instruments, matcher, store),
        })
    }

    fn check_call(&self, room: usize, line: usize) -> Result<(), GatewayFault> {
        if room < BUFFER {
            return Err(GatewayFault::ShortBuffer);
        }
        if line >= self.sessions.len() {
            return Err(GatewayFault::NoSuchLine);
        }
        Ok(())
    }

    fn check_on(&self, channel: Channel, line: usize) -> Result<(), GatewayFault> {
        if self.sessions[line].is_on(channel) { Ok(()) } else { Err(GatewayFault::NotLoggedOn) }
    }

    /// Takes a message on a line's channel, and says how many bytes the answer in the buffer has.
    pub fn message(
        &mut self,
        channel: Channel,
        line: usize,
        bytes: &[u8],
        time: Time,
        reply: &mut [u8],
    ) -> Result<usize, GatewayFault> {
        self.check_call(reply.len(), line)?;
        match Request::read(channel, bytes) {
            Ok(request) => Ok(self.answer(channel, line, &request, time).write(reply)),
            Err(fault) => {
                Answer::to_fault(fault, bytes).write(reply);
                Err(GatewayFault::Wire(fault))
            }
        }
    }

    fn answer(&mut self, channel: Channel, line: usize, request: &Request<'_>, time: Time) -> Answer {
        if let Request::Logon(logon) = request {
            return Answer::Logon(self.log_on(channel, line, logon));
        }
        let done = if self.sessions[line].is_on(channel) {
            self.serve(channel, line, request, time)
        } else {
            Err(Reason::NotLoggedOn)
        };
        done.unwrap_or_else(|reason| Answer::turned_down(request, reason))
    }

    fn log_on(&mut self, channel: Channel, line: usize, m: &Logon<'_>) -> Result<(), Reason> {
        self.sessions[line].may_log_on(channel)?;
        let Participant { name, password, .. } = &self.participants[line];
        if m.comp_id != name || m.password != password || m.new_password[0] != 0 {
            return Err(Reason::Credentials);
        }
        self.sessions[line].log_on(channel, &self.venue.store);
        Ok(())
    }

    // What a line that is logged on asks for.
    fn serve(&mut self, channel: Channel, line: usize, request: &Request<'_>, time: Time) -> Result<Answer, Reason> {
        let owner = line as u8;
        match request {
            Request::NewOrder(m) => self.venue.new_order(owner, m, time)?,
            Request::Cancel(m) => self.venue.cancel_order(owner, m, time)?,
            Request::Replace(m) => self.venue.replace_order(owner, m, time)?,
            Request::MassCancel(m) => self.venue.mass_cancel(owner, m, &self.firms, time)?,
            Request::Missed(m) => return self.download(line, m).map(Answer::Ack),
            Request::Logout => self.log_out(channel, line, time),
            Request::Logon(_) | Request::Heartbeat => {}
        }
        Ok(Answer::Silent)
    }

    fn download(&mut self, line: usize, m: &Missed) -> Result<AckResponse, Reason> {
        let partition = u8::try_from(m.partition).ok().and_then(Partition::from_byte);
        self.sessions[line].request(partition, m.above, &self.venue.store)
    }

    fn log_out(&mut self, channel: Channel, line: usize, time: Time) {
        match channel {
            Channel::RealTime => self.close(line, time),
            Channel::Recovery => self.sessions[line].close_recovery(),
        }
    }

    // Both channels are closed, and the line's marked orders expire by rising number, if it is configured so.
    fn close(&mut self, line: usize, time: Time) {
        self.sessions[line].close();
        if !self.participants[line].ends_marked {
            return;
        }
        for number in self.venue.orders.numbers() {
            let order = self.venue.orders.known(number);
            let marked = order.terms.auto_cancel == AutoCancel::AsConfigured;
            if order.is_open() && usize::from(order.terms.owner) == line && marked {
                self.venue.expire(number, time);
            }
        }
    }

    /// Takes the engine's next event.
    pub fn step(&mut self, time: Time) -> Result<Step, GatewayFault> {
        if self.venue.trades.len() >= TRADES {
            return Err(GatewayFault::TradesFull);
        }
        if self.venue.spare() < 2 {
            return Err(GatewayFault::NoRoom);
        }
        Ok(self.venue.step(time))
    }

    /// Cancels a trade: the passive side's fill is undone, and then the aggressive one's.
    pub fn cancel_trade(&mut self, number: usize, time: Time) -> Result<(), GatewayFault> {
        self.venue.cancel_trade(number, time).map_err(GatewayFault::Undo)
    }

    /// Writes the next report of a line's CompID, and says how many bytes it has; 0 where there is none.
    pub fn send(&mut self, line: usize, out: &mut [u8]) -> Result<usize, GatewayFault> {
        self.check_call(out.len(), line)?;
        self.check_on(Channel::RealTime, line)?;
        let store = &self.venue.store;
        Ok(match self.sessions[line].next_live(line as u8, store) {
            Some((partition, number)) => store.message(partition, number, out),
            None => 0,
        })
    }

    /// Writes what a line's download hands out next, and says how many bytes it has; 0 where none runs.
    pub fn send_recovered(&mut self, line: usize, out: &mut [u8]) -> Result<usize, GatewayFault> {
        self.check_call(out.len(), line)?;
        self.check_on(Channel::Recovery, line)?;
        let store = &self.venue.store;
        Ok(match self.sessions[line].next_recovered(line as u8, store) {
            Some(Recovered::Report(partition, number)) => store.message(partition, number, out),
            Some(Recovered::End(response)) => write_end(response, out),
            None => 0,
        })
    }
}
