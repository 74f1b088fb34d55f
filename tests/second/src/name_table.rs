//! The name table as plain data (01 "The station": the roster).

pub const PLAYER: u32 = 1;
pub const GROUP: u32 = 2;
pub const MAX_ENTRIES: usize = 64;
pub const MAX_MEMBERSHIPS: usize = 128;
/// The most units of a name.
pub const MAX_NAME: usize = 31;

/// UTF-16 units without the terminator; empty where there is no name (02 A3).
pub type Name = Vec<u16>;

/// Whether an entry, or an operation on one, may be of it.
pub fn is_kind(kind: u32) -> bool {
    kind == PLAYER || kind == GROUP
}

/// Whether an entry or an operation may keep it.
pub fn is_name(name: &[u16]) -> bool {
    name.len() <= MAX_NAME && !name.contains(&0)
}

#[derive(Clone, Debug, PartialEq, Eq)]
pub struct Entry {
    /// `PLAYER` or `GROUP` in a valid table.
    pub kind: u32,
    pub id: u32,
    pub owner: u32,
    pub flags: u32,
    pub version: u32,
    pub dnet_version: u32,
    pub name: Name,
}

#[derive(Clone, Debug, Default, PartialEq, Eq)]
pub struct NameTable {
    pub version: u32,
    /// 0: none.
    pub host: u32,
    pub entries: Vec<Entry>,
    /// Pairs (group, player).
    pub memberships: Vec<(u32, u32)>,
}
