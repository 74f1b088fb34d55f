//! The functions of include/dp8.h as they are linked.
//!
//! Every pointer leads to as many bytes as its length or room says (one to records: to as many records), to a replica or to a name, and
//! is not null; what is written overlaps nothing else.
use crate::types::*;

extern "C" {
    pub fn dp8_read(message: *const u8, length: usize) -> Reading;

    pub fn dp8_write_connect_info(
        buffer: *mut u8,
        room: usize,
        values: ConnectInfo,
        given: ConnectInfoGiven,
        name: *const u8,
        name_size: usize,
        data: *const u8,
        data_size: usize,
        password: *const u8,
        password_size: usize,
        connect_data: *const u8,
        connect_data_size: usize,
        url: *const u8,
        url_size: usize,
        alternate_address: *const u8,
        alternate_address_size: usize,
    ) -> Written;

    pub fn dp8_write_add_player(
        buffer: *mut u8,
        room: usize,
        values: AddPlayer,
        given: AddPlayerGiven,
        name: *const u8,
        name_size: usize,
        data: *const u8,
        data_size: usize,
        url: *const u8,
        url_size: usize,
    ) -> Written;

    pub fn dp8_write_destroy_player(buffer: *mut u8, room: usize, values: DestroyPlayer)
        -> Written;

    pub fn dp8_write_request_add_to_group(
        buffer: *mut u8,
        room: usize,
        values: RequestAddToGroup,
    ) -> Written;

    pub fn dp8_write_create_group(
        buffer: *mut u8,
        room: usize,
        values: CreateGroup,
        given: CreateGroupGiven,
        name: *const u8,
        name_size: usize,
        data: *const u8,
        data_size: usize,
        url: *const u8,
        url_size: usize,
    ) -> Written;

    pub fn dp8_write_destroy_group(buffer: *mut u8, room: usize, values: DestroyGroup) -> Written;

    pub fn dp8_write_add_to_group(buffer: *mut u8, room: usize, values: AddToGroup) -> Written;

    pub fn dp8_write_delete_from_group(
        buffer: *mut u8,
        room: usize,
        values: DeleteFromGroup,
    ) -> Written;

    pub fn dp8_name_characters(name: *const Name) -> u32;

    pub fn dp8_replica_fresh(replica: *mut Replica);

    pub fn dp8_replica_is_valid(replica: *const Replica) -> bool;

    pub fn dp8_replica_deliver(replica: *mut Replica, message: *const u8, length: usize) -> Answer;

    pub fn dp8_replica_batch(
        replica: *mut Replica,
        messages: *const u8,
        length: usize,
        records: *mut Answer,
        room: usize,
    ) -> Batch;

    pub fn dp8_replica_next_host(replica: *const Replica) -> NextHost;

    pub fn dp8_snapshot_read(replica: *mut Replica, snapshot: *const u8, length: usize) -> u32;

    pub fn dp8_snapshot_write(replica: *const Replica, buffer: *mut u8, room: usize) -> Written;

    pub fn dp8_listing(input: *const u8, length: usize, buffer: *mut u8, room: usize) -> usize;
}
