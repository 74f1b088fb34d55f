//! The replica: a name table and its pending operations (01 "The station").

use crate::name_table::{
    is_kind, is_name, Entry, NameTable, GROUP, MAX_ENTRIES, MAX_MEMBERSHIPS, PLAYER,
};
use crate::operation::Operation;
use crate::read::read;

/// How far ahead of the replica's version an operation may be.
pub const WINDOW: u64 = 32;

#[derive(Clone, Debug, Default, PartialEq, Eq)]
pub struct Replica {
    pub version: u32,
    /// 0: none.
    pub host: u32,
    pub entries: Vec<Entry>,
    /// Pairs (group, player).
    pub memberships: Vec<(u32, u32)>,
    pub pending: Vec<Operation>,
}

#[derive(Clone, Copy, Debug, PartialEq, Eq)]
pub enum Answer {
    Refused(u32),
    Applied { passed: u32, noops: u32 },
    Waits,
}

impl Replica {
    /// Version 0 and nothing in it.
    pub fn fresh() -> Replica {
        Replica::default()
    }

    /// Everything but the pending operations.
    pub fn name_table(&self) -> NameTable {
        NameTable {
            version: self.version,
            host: self.host,
            entries: self.entries.clone(),
            memberships: self.memberships.clone(),
        }
    }

    pub fn from_name_table(table: &NameTable) -> Replica {
        Replica {
            version: table.version,
            host: table.host,
            entries: table.entries.clone(),
            memberships: table.memberships.clone(),
            pending: Vec::new(),
        }
    }

    /// "Unused places zero" has no meaning here: the lists have no unused places.
    pub fn is_valid(&self) -> bool {
        self.entries_valid()
            && (self.host == 0 || self.has(PLAYER, self.host))
            && self.memberships_valid()
            && self.pending_valid()
    }

    /// Tries the message; a refusal changes nothing.
    pub fn deliver(&mut self, m: &[u8]) -> Answer {
        if !self.is_valid() {
            return Answer::Refused(28);
        }
        self.deliver_to_valid(m)
    }

    /// The same where the replica is known to be valid; it is so after it too.
    pub(crate) fn deliver_to_valid(&mut self, m: &[u8]) -> Answer {
        match self.check(m) {
            Err(number) => Answer::Refused(number),
            Ok(operation) => self.accept(operation),
        }
    }

    /// The player, other than the host, of smallest entry version, 0 if none;
    /// 28 comes first in every call that takes a replica.
    pub fn next_host(&self) -> Result<u32, u32> {
        if !self.is_valid() {
            return Err(28);
        }
        let candidates = self
            .entries
            .iter()
            .filter(|e| e.kind == PLAYER && e.id != self.host);
        Ok(candidates.min_by_key(|e| e.version).map_or(0, |e| e.id))
    }

    fn has(&self, kind: u32, id: u32) -> bool {
        self.entries.iter().any(|e| e.kind == kind && e.id == id)
    }

    /// An entry version of 0 is allowed: 01 sets no lower bound.
    fn entries_valid(&self) -> bool {
        let single = |e: &Entry| {
            is_kind(e.kind)
                && e.id != 0
                && e.version <= self.version
                && is_name(&e.name)
                && self.entries.iter().filter(|other| other.id == e.id).count() == 1
        };
        self.entries.len() <= MAX_ENTRIES
            && self.entries.iter().all(single)
            && self.entries.windows(2).all(|w| w[0].version < w[1].version)
    }

    fn memberships_valid(&self) -> bool {
        self.memberships.len() <= MAX_MEMBERSHIPS
            && self.memberships.windows(2).all(|w| w[0] < w[1])
            && self
                .memberships
                .iter()
                .all(|&(group, player)| self.has(GROUP, group) && self.has(PLAYER, player))
    }

    fn pending_valid(&self) -> bool {
        let current = u64::from(self.version);
        let single = |operation: &Operation| {
            let version = u64::from(operation.version());
            operation.is_valid() && version >= current + 2 && version <= current + WINDOW
        };
        self.pending.iter().all(single)
            && self
                .pending
                .windows(2)
                .all(|w| w[0].version() < w[1].version())
    }

    /// 1 to 10, 13, 14, 15, 16, 17.
    fn check(&self, m: &[u8]) -> Result<Operation, u32> {
        let operation = Operation::kept_of(m, &read(m)?).ok_or(13u32)?;
        let version = u64::from(operation.version());
        let current = u64::from(self.version);
        if version <= current {
            return Err(14);
        }
        if version > current + WINDOW {
            return Err(15);
        }
        let same_version = |p: &&Operation| p.version() == operation.version();
        match self.pending.iter().find(same_version) {
            Some(waiting) if *waiting == operation => Err(16),
            Some(_) => Err(17),
            None => Ok(operation),
        }
    }

    fn accept(&mut self, operation: Operation) -> Answer {
        if u64::from(operation.version()) != u64::from(self.version) + 1 {
            self.pending.push(operation);
            self.pending.sort_by_key(Operation::version);
            return Answer::Waits;
        }
        let (mut passed, mut noops) = (0, 0);
        let mut next = Some(operation);
        while let Some(operation) = next {
            passed += 1;
            if !self.apply(operation) {
                noops += 1;
            }
            next = self.take_next_pending();
        }
        Answer::Applied { passed, noops }
    }

    fn take_next_pending(&mut self) -> Option<Operation> {
        let wanted = u64::from(self.version) + 1;
        let index = self
            .pending
            .iter()
            .position(|p| u64::from(p.version()) == wanted)?;
        Some(self.pending.remove(index))
    }

    /// False for a no-op, which changes the version and nothing else.
    fn apply(&mut self, operation: Operation) -> bool {
        self.version = operation.version();
        match operation {
            Operation::AddEntry(entry) => self.add(entry),
            Operation::DestroyEntry { kind, id, .. } => self.destroy(kind, id),
            Operation::AddPlayerToGroup { group, player, .. } => self.add_to_group(group, player),
            Operation::DeletePlayerFromGroup { group, player, .. } => {
                self.delete_from_group(group, player)
            }
        }
    }

    /// In a valid replica no entry has the new version (02 A6).
    fn add(&mut self, entry: Entry) -> bool {
        let taken = self.entries.iter().any(|e| e.id == entry.id);
        if self.entries.len() >= MAX_ENTRIES || taken {
            return false;
        }
        self.entries.push(entry); // its version is the largest
        true
    }

    /// An entry of that kind, and all that names it: no other has its id.
    fn destroy(&mut self, kind: u32, id: u32) -> bool {
        if !self.has(kind, id) {
            return false;
        }
        self.entries.retain(|e| e.id != id);
        self.memberships
            .retain(|&(group, player)| group != id && player != id);
        if self.host == id {
            self.host = 0; // a player: a group is never host
        }
        true
    }

    fn add_to_group(&mut self, group: u32, player: u32) -> bool {
        let present = self.has(GROUP, group) && self.has(PLAYER, player);
        if !present || self.memberships.len() >= MAX_MEMBERSHIPS {
            return false;
        }
        match self.memberships.binary_search(&(group, player)) {
            Ok(_) => false,
            Err(index) => {
                self.memberships.insert(index, (group, player));
                true
            }
        }
    }

    /// A pair that is there has its group and its player there too.
    fn delete_from_group(&mut self, group: u32, player: u32) -> bool {
        let before = self.memberships.len();
        self.memberships.retain(|pair| *pair != (group, player));
        self.memberships.len() < before
    }
}
