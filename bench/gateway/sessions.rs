// What a gateway keeps of one line.

use crate::answers::Reason;
use crate::messages::{AckResponse, EndResponse, Partition};
use crate::requests::Channel;
use crate::store::{PARTITIONS, PerPartition, Store};

/// How many requests for downloads a CompID has in a day, and how many reports a download hands out.
const REQUESTS: u8 = 48;
const DOWNLOADED: u8 = 64;

/// A download: the reports of a partition above the last one that it handed out, up to its target.
struct Download {
    partition: Partition,
    last: u32,
    target: u32,
    handed: u8,
}

/// The channels that are logged on, and the download that runs.
enum LoggedOn {
    Nowhere,
    RealTime,
    Both(Option<Download>),
}

/// What a download hands out.
pub enum Recovered {
    Report(Partition, u32),
    End(EndResponse),
}

pub struct Session {
    on: LoggedOn,
    /// Up to where reports were sent, or there were none.
    sent: PerPartition<u32>,
    requests: u8,
}

impl Session {
    pub fn new() -> Session {
        Session { on: LoggedOn::Nowhere, sent: PerPartition::new(|_| 0), requests: 0 }
    }

    pub fn is_on(&self, channel: Channel) -> bool {
        match (&self.on, channel) {
            (LoggedOn::Nowhere, _) => false,
            (LoggedOn::RealTime, channel) => channel == Channel::RealTime,
            (LoggedOn::Both(_), _) => true,
        }
    }

    /// Whether a channel may be logged on.
    pub fn may_log_on(&self, channel: Channel) -> Result<(), Reason> {
        match (&self.on, channel) {
            _ if self.is_on(channel) => Err(Reason::AlreadyOn),
            (LoggedOn::Nowhere, Channel::Recovery) => Err(Reason::RecoveryFirst),
            _ => Ok(()),
        }
    }

    /// Logs a channel on that may be; from then on later reports are sent.
    pub fn log_on(&mut self, channel: Channel, store: &impl Store) {
        match channel {
            Channel::RealTime => {
                self.on = LoggedOn::RealTime;
                self.sent = PerPartition::new(|partition| store.last(partition));
            }
            Channel::Recovery => self.on = LoggedOn::Both(None),
        }
    }

    pub fn close(&mut self) {
        self.on = LoggedOn::Nowhere;
    }

    pub fn close_recovery(&mut self) {
        if let LoggedOn::Both(_) = self.on {
            self.on = LoggedOn::RealTime;
        }
    }

    /// Begins a download on the recovery channel, which is on, or says why there is none.
    pub fn request(
        &mut self,
        partition: Option<Partition>,
        above: u32,
        store: &impl Store,
    ) -> Result<AckResponse, Reason> {
        let LoggedOn::Both(download @ None) = &mut self.on else {
            return Err(Reason::DownloadRuns);
        };
        let Some(partition) = partition else {
            return Ok(AckResponse::InvalidAppId);
        };
        if self.requests >= REQUESTS {
            return Ok(AckResponse::LimitReached);
        }
        self.requests += 1;
        *download = Some(Download { partition, last: above, target: store.last(partition), handed: 0 });
        Ok(AckResponse::Successful)
    }

    /// The next report to be sent, of the lowest partition that has one.
    pub fn next_live(&mut self, owner: u8, store: &impl Store) -> Option<(Partition, u32)> {
        for partition in PARTITIONS {
            let sent = &mut self.sent[partition];
            match store.next(partition, owner, *sent) {
                Some(number) => {
                    *sent = number;
                    return Some((partition, number));
                }
                None => *sent = store.last(partition).max(*sent),
            }
        }
        None
    }

    /// What the download hands out next, if one runs.
    pub fn next_recovered(&mut self, owner: u8, store: &impl Store) -> Option<Recovered> {
        let LoggedOn::Both(running) = &mut self.on else {
            return None;
        };
        let download = running.as_mut()?;
        let next = store.next(download.partition, owner, download.last);
        let response = match next.filter(|number| *number <= download.target) {
            Some(number) if download.handed < DOWNLOADED => {
                download.last = number;
                download.handed += 1;
                return Some(Recovered::Report(download.partition, number));
            }
            Some(_) => EndResponse::MessageLimit,
            None => EndResponse::Complete,
        };
        *running = None;
        Some(Recovered::End(response))
    }
}
