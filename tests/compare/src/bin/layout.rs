//! Prints the size and the place of every member of every struct of the bindings, under the names that include/dp8.h has for them.

use std::mem::{offset_of, size_of};

/// The size of a member's type, told by a function that takes the member.
fn size_behind<S, M>(_: fn(&S) -> &M) -> usize {
    size_of::<M>()
}

macro_rules! layout {
    ($c:literal, $rust:ident, $($name:literal $member:ident),+) => {
        println!("{} {}", $c, size_of::<dp8::$rust>());
        $(println!(
            "{}.{} {} {}",
            $c,
            $name,
            offset_of!(dp8::$rust, $member),
            size_behind(|s: &dp8::$rust| &s.$member)
        );)+
    };
}

#[rustfmt::skip]
fn main() {
    layout!("dp8_guid", Guid, "words" words);
    layout!("dp8_connect_info", ConnectInfo, "flags" flags, "dnet_version" dnet_version, "instance" instance,
        "application" application);
    layout!("dp8_add_player", AddPlayer, "dpnid" dpnid, "owner" owner, "flags" flags, "version" version,
        "dnet_version" dnet_version);
    layout!("dp8_destroy_player", DestroyPlayer, "dpnid" dpnid, "version" version, "reason" reason);
    layout!("dp8_request_add_to_group", RequestAddToGroup, "context" context, "group" group, "player" player);
    layout!("dp8_create_group", CreateGroup, "requesting" requesting, "context" context, "dpnid" dpnid, "owner" owner,
        "flags" flags, "version" version, "dnet_version" dnet_version);
    layout!("dp8_destroy_group", DestroyGroup, "group" group, "version" version, "requesting" requesting, "context" context);
    layout!("dp8_add_to_group", AddToGroup, "group" group, "player" player, "version" version, "requesting" requesting,
        "context" context);
    layout!("dp8_delete_from_group", DeleteFromGroup, "group" group, "player" player, "version" version,
        "requesting" requesting, "context" context);
    layout!("dp8_part", Part, "present" present, "start" start, "size" size, "characters" characters);
    layout!("dp8_reading", Reading, "number" number, "type" message_type, "values" words,
        "version_not_used" version_not_used, "name" name, "data" data, "password" password, "connect_data" connect_data,
        "url" url, "alternate_address" alternate_address);
    layout!("dp8_written", Written, "number" number, "bytes" bytes);
    layout!("dp8_connect_info_given", ConnectInfoGiven, "name" name, "data" data, "password" password,
        "connect_data" connect_data, "url" url, "alternate_address" alternate_address);
    layout!("dp8_add_player_given", AddPlayerGiven, "name" name, "data" data, "url" url);
    layout!("dp8_create_group_given", CreateGroupGiven, "name" name, "data" data, "url" url);
    layout!("dp8_name", Name, "length" length, "units" units);
    layout!("dp8_entry", Entry, "kind" kind, "id" id, "owner" owner, "flags" flags, "version" version,
        "dnet_version" dnet_version, "name" name);
    layout!("dp8_membership", Membership, "group" group, "player" player);
    layout!("dp8_operation", Operation, "act" act, "version" version, "kind" kind, "id" id, "owner" owner, "flags" flags,
        "dnet_version" dnet_version, "name" name);
    layout!("dp8_replica", Replica, "version" version, "host" host, "entry_count" entry_count,
        "membership_count" membership_count, "entries" entries, "memberships" memberships, "pending" pending);
    layout!("dp8_answer", Answer, "number" number, "passed" passed, "noops" noops);
    layout!("dp8_batch", Batch, "number" number, "count" count, "cut" cut);
    layout!("dp8_next_host", NextHost, "number" number, "id" id);
}
