//! The eight messages as read (layouts: document 000, 2.2; of 0xD7 the entry of 0xD0 behind its first twelve bytes).

pub const CONNECT_INFO: u32 = 0xC1;
pub const ADD_PLAYER: u32 = 0xD0;
pub const DESTROY_PLAYER: u32 = 0xD1;
pub const REQUEST_ADD_PLAYER_TO_GROUP: u32 = 0xD3;
pub const CREATE_GROUP: u32 = 0xD7;
pub const DESTROY_GROUP: u32 = 0xD8;
pub const ADD_PLAYER_TO_GROUP: u32 = 0xD9;
pub const DELETE_PLAYER_FROM_GROUP: u32 = 0xDA;

/// A present field: where it starts (position from the message's first byte), its
/// size, and how many characters it has (02 A9).
#[derive(Clone, Copy, Debug, PartialEq, Eq)]
pub struct Part {
    pub start: usize,
    pub size: usize,
    /// `None` where the field is no text.
    pub characters: Option<usize>,
}

impl Part {
    /// The field's bytes in the message that was read, terminator included.
    pub fn of<'a>(&self, m: &'a [u8]) -> &'a [u8] {
        &m[self.start..self.start + self.size]
    }
}

/// `None` where the field is absent.
pub type Place = Option<Part>;

/// 0xC1, plain or extended.
#[derive(Clone, Debug, PartialEq, Eq)]
pub struct ConnectInfo {
    pub flags: u32,
    pub dnet_version: u32,
    pub instance_guid: [u8; 16],
    pub application_guid: [u8; 16],
    pub name: Place,
    pub data: Place,
    pub password: Place,
    pub connect_data: Place,
    pub url: Place,
    /// Always `None` in the plain form.
    pub alternate_address: Place,
}

/// The name table entry that a 0xD0 is, and that ends the fixed part of a 0xD7.
#[derive(Clone, Debug, PartialEq, Eq)]
pub struct EntryInfo {
    pub dpnid: u32,
    pub owner: u32,
    pub flags: u32,
    pub version: u32,
    pub version_not_used: u32,
    pub dnet_version: u32,
    pub name: Place,
    pub data: Place,
    pub url: Place,
}

/// 0xD1.
#[derive(Clone, Debug, PartialEq, Eq)]
pub struct DestroyPlayer {
    pub dpnid: u32,
    pub version: u32,
    pub version_not_used: u32,
    pub reason: u32,
}

/// 0xD3.
#[derive(Clone, Debug, PartialEq, Eq)]
pub struct RequestAddPlayerToGroup {
    pub context: u32,
    pub group: u32,
    pub player: u32,
}

/// 0xD7.
#[derive(Clone, Debug, PartialEq, Eq)]
pub struct CreateGroup {
    pub requesting: u32,
    pub context: u32,
    pub entry: EntryInfo,
}

/// 0xD8.
#[derive(Clone, Debug, PartialEq, Eq)]
pub struct DestroyGroup {
    pub group: u32,
    pub version: u32,
    pub version_not_used: u32,
    pub requesting: u32,
    pub context: u32,
}

/// 0xD9 and 0xDA.
#[derive(Clone, Debug, PartialEq, Eq)]
pub struct MembershipChange {
    pub group: u32,
    pub player: u32,
    pub version: u32,
    pub version_not_used: u32,
    pub requesting: u32,
    pub context: u32,
}

#[derive(Clone, Debug, PartialEq, Eq)]
pub enum Message {
    ConnectInfo(ConnectInfo),
    AddPlayer(EntryInfo),
    DestroyPlayer(DestroyPlayer),
    RequestAddPlayerToGroup(RequestAddPlayerToGroup),
    CreateGroup(CreateGroup),
    DestroyGroup(DestroyGroup),
    AddPlayerToGroup(MembershipChange),
    DeletePlayerFromGroup(MembershipChange),
}

#[derive(Clone, Copy, Debug, PartialEq, Eq)]
pub enum FieldName {
    Name,
    Data,
    Password,
    ConnectData,
    Url,
    AlternateAddress,
}

impl FieldName {
    pub const ALL: [FieldName; 6] = [
        FieldName::Name,
        FieldName::Data,
        FieldName::Password,
        FieldName::ConnectData,
        FieldName::Url,
        FieldName::AlternateAddress,
    ];
}

impl Message {
    /// Where a field stands; `None` too where it is not of this type.
    pub fn place(&self, which: FieldName) -> Place {
        match self {
            Message::ConnectInfo(c) => c.place(which),
            Message::AddPlayer(entry) => entry.place(which),
            Message::CreateGroup(g) => g.entry.place(which),
            _ => None,
        }
    }
}

impl ConnectInfo {
    fn place(&self, which: FieldName) -> Place {
        match which {
            FieldName::Name => self.name,
            FieldName::Data => self.data,
            FieldName::Password => self.password,
            FieldName::ConnectData => self.connect_data,
            FieldName::Url => self.url,
            FieldName::AlternateAddress => self.alternate_address,
        }
    }
}

impl EntryInfo {
    fn place(&self, which: FieldName) -> Place {
        match which {
            FieldName::Name => self.name,
            FieldName::Data => self.data,
            FieldName::Url => self.url,
            _ => None,
        }
    }
}
