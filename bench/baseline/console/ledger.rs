//! The accounts, and the entries that are posted to them.

use crate::entry::{Entry, EntryRefusal, Verdict};

pub const ACCOUNTS: u32 = 1024;
pub const BATCH_LIMIT: usize = 15;
const TOTAL_LIMIT: u64 = 1_000_000_000_000_000_000;

/// Balances that entries are judged on and posted to.
trait Accounts {
    fn held_by(&self, account: u32) -> u64;
    fn held_by_all(&self) -> u64;
    fn is_sealed(&self, account: u32) -> bool;
    fn seal(&mut self, account: u32);
    fn credit(&mut self, account: u32, amount: u64);
    fn debit(&mut self, account: u32, amount: u64);
}

fn is_account(number: u32) -> bool {
    (1..=ACCOUNTS).contains(&number)
}

fn post<A: Accounts>(accounts: &mut A, entry: &Entry) -> Verdict {
    match *entry {
        Entry::Deposit { amount: 0, .. } | Entry::Withdraw { amount: 0, .. } | Entry::Transfer { amount: 0, .. } => {
            return Err(EntryRefusal::ZeroAmount);
        }
        Entry::Deposit { to, amount, .. } => {
            if !is_account(to) {
                return Err(EntryRefusal::NoAccount);
            }
            if amount > TOTAL_LIMIT - accounts.held_by_all() {
                return Err(EntryRefusal::OverLimit);
            }
            if accounts.is_sealed(to) {
                return Err(EntryRefusal::Sealed);
            }
            accounts.credit(to, amount);
        }
        Entry::Withdraw { from, amount, .. } => {
            if !is_account(from) {
                return Err(EntryRefusal::NoAccount);
            }
            take(accounts, from, from, amount)?;
        }
        Entry::Transfer { from, to, amount, .. } => {
            if !is_account(from) || !is_account(to) {
                return Err(EntryRefusal::NoAccount);
            }
            if from == to {
                return Err(EntryRefusal::SameAccount);
            }
            take(accounts, from, to, amount)?;
            accounts.credit(to, amount);
        }
        Entry::Seal { account, .. } => {
            if !is_account(account) {
                return Err(EntryRefusal::NoAccount);
            }
            if accounts.is_sealed(account) {
                return Err(EntryRefusal::Sealed);
            }
            accounts.seal(account);
        }
    }
    Ok(())
}

/// Takes an amount away from an account that may go to another one.
fn take<A: Accounts>(accounts: &mut A, from: u32, to: u32, amount: u64) -> Verdict {
    if accounts.held_by(from) < amount {
        return Err(EntryRefusal::Short);
    }
    if accounts.is_sealed(from) || accounts.is_sealed(to) {
        return Err(EntryRefusal::Sealed);
    }
    accounts.debit(from, amount);
    Ok(())
}

/// All accounts at one moment, account 1 first.
pub struct Snapshot {
    /// What each account holds.
    pub balances: Vec<u64>,
    /// Whether each account is sealed.
    pub sealed: Vec<bool>,
}

impl Snapshot {
    /// Every account at zero, and none of them sealed.
    pub fn empty() -> Snapshot {
        Snapshot { balances: vec![0; ACCOUNTS as usize], sealed: vec![false; ACCOUNTS as usize] }
    }
}

pub struct Ledger {
    accounts: Snapshot,
    total: u64,
}

impl Ledger {
    pub fn new() -> Ledger {
        Ledger { accounts: Snapshot::empty(), total: 0 }
    }

    /// Takes these accounts in place of its own, unless their balances are over the limit together.
    pub fn restore(&mut self, accounts: Snapshot) -> bool {
        let mut total = 0;
        for &balance in &accounts.balances {
            if balance > TOTAL_LIMIT - total {
                return false;
            }
            total += balance;
        }
        *self = Ledger { accounts, total };
        true
    }

    /// The accounts as they are.
    pub fn accounts(&self) -> &Snapshot {
        &self.accounts
    }

    pub fn total(&self) -> u64 {
        self.total
    }

    /// The accounts that hold something, in ascending order, with what they hold.
    pub fn holding(&self) -> impl Iterator<Item = (u32, u64)> + '_ {
        (1..).zip(self.accounts.balances.iter().copied()).filter(|&(_, balance)| balance > 0)
    }

    pub fn post(&mut self, entry: &Entry) -> Verdict {
        post(self, entry)
    }

    /// The verdicts of at most 15 entries, each judged after the accepted ones before it. Nothing is posted.
    pub fn screen(&self, entries: &[Entry]) -> Verdicts {
        let mut scratch = Scratch::over(self);
        let mut verdicts = Verdicts { verdicts: [Ok(()); BATCH_LIMIT], count: 0 };
        for entry in entries {
            verdicts.verdicts[verdicts.count] = post(&mut scratch, entry);
            verdicts.count += 1;
        }
        verdicts
    }
}

impl Accounts for Ledger {
    fn held_by(&self, account: u32) -> u64 {
        self.accounts.balances[account as usize - 1]
    }

    fn held_by_all(&self) -> u64 {
        self.total
    }

    fn is_sealed(&self, account: u32) -> bool {
        self.accounts.sealed[account as usize - 1]
    }

    fn seal(&mut self, account: u32) {
        self.accounts.sealed[account as usize - 1] = true;
    }

    fn credit(&mut self, account: u32, amount: u64) {
        self.accounts.balances[account as usize - 1] += amount;
        self.total += amount;
    }

    fn debit(&mut self, account: u32, amount: u64) {
        self.accounts.balances[account as usize - 1] -= amount;
        self.total -= amount;
    }
}

#[derive(Clone, Copy)]
pub struct Verdicts {
    verdicts: [Verdict; BATCH_LIMIT],
    count: usize,
}

impl Verdicts {
    pub fn as_slice(&self) -> &[Verdict] {
        &self.verdicts[..self.count]
    }
}

/// What is changed of a ledger, as much as one batch may: balances written over, and the places of marks set.
struct Scratch<'a> {
    accounts: &'a Snapshot,
    total: u64,
    changes: [(usize, u64); 2 * BATCH_LIMIT],
    count: usize,
    seals: [usize; BATCH_LIMIT],
    sealed: usize,
}

impl Scratch<'_> {
    fn over(ledger: &Ledger) -> Scratch<'_> {
        Scratch {
            accounts: &ledger.accounts,
            total: ledger.total,
            changes: [(0, 0); 2 * BATCH_LIMIT],
            count: 0,
            seals: [0; BATCH_LIMIT],
            sealed: 0,
        }
    }

    fn change(&mut self, account: u32, balance: u64) {
        self.changes[self.count] = (account as usize - 1, balance);
        self.count += 1;
    }
}

impl Accounts for Scratch<'_> {
    fn held_by(&self, account: u32) -> u64 {
        let place = account as usize - 1;
        let mut latest = self.accounts.balances[place];
        for change in &self.changes[..self.count] {
            if change.0 == place {
                latest = change.1;
            }
        }
        latest
    }

    fn held_by_all(&self) -> u64 {
        self.total
    }

    fn is_sealed(&self, account: u32) -> bool {
        let place = account as usize - 1;
        self.accounts.sealed[place] || self.seals[..self.sealed].contains(&place)
    }

    fn seal(&mut self, account: u32) {
        self.seals[self.sealed] = account as usize - 1;
        self.sealed += 1;
    }

    fn credit(&mut self, account: u32, amount: u64) {
        self.change(account, self.held_by(account) + amount);
        self.total += amount;
    }

    fn debit(&mut self, account: u32, amount: u64) {
        self.change(account, self.held_by(account) - amount);
        self.total -= amount;
    }
}
