//! An afternoon: calls on one ledger image, each on what the one before left, beside the tutor's
//! account of them. It begins without legs, since a ledger that is brought in has no history.

use crate::account::Account;
use crate::book::{self, Leg, TIMED_OUT, UNDELIVERABLE};
use crate::call::Call;
use crate::door::hex;
use crate::group::{Group, Outcome, Stop};

pub struct Afternoon {
    pub ledger: Vec<u8>,
    pub account: Account,
    // For each line the standings that the image had of it, one after the other.
    standings: Vec<Vec<usize>>,
}

impl Afternoon {
    /// Begins with an image without legs, whatever its other bytes are.
    pub fn new(ledger: Vec<u8>) -> Afternoon {
        assert_eq!(ledger[0], 0);
        Afternoon { ledger, account: Account::default(), standings: Vec::new() }
    }

    /// Makes a call on the first bytes of the image, writes it down and compares; gives its number
    /// and its count. What has gone wrong once stays wrong, so that the group stops there.
    pub fn go(&mut self, group: &mut Group, call: &Call, size: usize) -> Result<(u8, usize), Stop> {
        let came = call.make(&self.ledger[..size]);
        let (number, count) = match call {
            Call::Accept { .. } | Call::Tick => (came.number, came.first_beside()),
            Call::Answer { .. } | Call::Clear(_) => (came.number, 0),
        };
        self.ledger[..size].copy_from_slice(came.bytes());
        self.account.write(call, number, count);
        let is_ledger = number != 60 || size < book::SIZE;
        let (sums, legs) = (self.sums(), self.listed());
        let held = is_ledger && sums.is_ok() && legs.is_ok();
        let told = || [sums, legs].into_iter().filter_map(Result::err).collect::<String>();
        if !group.check(held, || format!("{call} gave {number}, {count}{}", told()))? {
            return Err(Stop);
        }
        self.look();
        Ok((number, count))
    }

    // The legs accepted are those now listed and those cleared, and each has its line.
    fn sums(&self) -> Result<(), String> {
        let Account { lines, accepted, cleared, .. } = &self.account;
        let listed = usize::from(self.ledger[0]);
        let struck = lines.iter().filter(|line| line.struck).count();
        if (*accepted, lines.len(), struck) == (listed + cleared, *accepted, *cleared) {
            return Ok(());
        }
        let lines = lines.len();
        let legs = format!("{accepted} accepted, {listed} listed, {cleared} cleared");
        Err(format!("\n  legs: {legs}\n  lines: {lines}, {struck} struck out"))
    }

    // The legs listed stand as their lines say, in the order of the lines.
    fn listed(&self) -> Result<(), String> {
        let legs: Vec<Leg> = self.account.unstruck().map(|line| line.read()).collect();
        let read = book::lay(&legs);
        let listed = &self.ledger[..self.ledger.len().min(read.len())];
        match read == listed {
            true => Ok(()),
            false => Err(format!("\n  lines {}\n  listed {}", hex(&read), hex(listed))),
        }
    }

    // Keeps the standings that the image has now, where they are others than before.
    fn look(&mut self) {
        self.standings.resize(self.account.lines.len(), Vec::new());
        let lines = self.account.lines.iter().zip(&mut self.standings);
        let unstruck = lines.filter(|(line, _)| !line.struck).map(|(_, standings)| standings);
        for (standings, leg) in unstruck.zip(book::legs(&self.ledger)) {
            if standings.last() != Some(&leg.standing) {
                standings.push(leg.standing);
            }
        }
    }

    /// Compares at the end: each leg left the open standing at most once, an undeliverable one
    /// never was open, none was cleared while open, and as many timed out as the ticks counted.
    pub fn end(&self, group: &mut Group) -> Outcome {
        let lines = &self.account.lines;
        for (line, standings) in lines.iter().zip(&self.standings) {
            let opens: Vec<bool> = standings.iter().map(|&one| book::is_open(one)).collect();
            let left = opens.windows(2).filter(|two| two == &[true, false]).count();
            let unrouted_open = standings.contains(&UNDELIVERABLE) && opens.contains(&true);
            let struck_open = line.struck && (line.read().is_open() || opens.ends_with(&[true]));
            group.check(left <= 1 && !unrouted_open && !struck_open, || {
                let Leg { source, destination, seq, .. } = line.leg;
                let struck = line.struck;
                format!("{source} to {destination}, {seq}, struck out {struck}: {standings:?}")
            })?;
        }
        let timed_out = lines.iter().filter(|line| line.read().standing == TIMED_OUT).count();
        let counted = self.account.timed_out;
        group.check(timed_out == counted, || {
            format!("{counted} legs timed out by the ticks, {timed_out} by their lines")
        })?;
        Ok(())
    }
}
