/* Prints the size and the place of every member of every struct of include/dp8.h, a line each. */
#include <stdio.h>

#include "dp8.h"

#define S(type) printf(#type " %zu\n", sizeof(struct type));
#define M(type, member) printf(#type "." #member " %zu %zu\n", offsetof(struct type, member), sizeof(((struct type *)0)->member));

int main(void)
{
    S(dp8_guid) M(dp8_guid, words)
    S(dp8_connect_info) M(dp8_connect_info, flags) M(dp8_connect_info, dnet_version) M(dp8_connect_info, instance)
    M(dp8_connect_info, application)
    S(dp8_add_player) M(dp8_add_player, dpnid) M(dp8_add_player, owner) M(dp8_add_player, flags) M(dp8_add_player, version)
    M(dp8_add_player, dnet_version)
    S(dp8_destroy_player) M(dp8_destroy_player, dpnid) M(dp8_destroy_player, version) M(dp8_destroy_player, reason)
    S(dp8_request_add_to_group) M(dp8_request_add_to_group, context) M(dp8_request_add_to_group, group)
    M(dp8_request_add_to_group, player)
    S(dp8_create_group) M(dp8_create_group, requesting) M(dp8_create_group, context) M(dp8_create_group, dpnid)
    M(dp8_create_group, owner) M(dp8_create_group, flags) M(dp8_create_group, version) M(dp8_create_group, dnet_version)
    S(dp8_destroy_group) M(dp8_destroy_group, group) M(dp8_destroy_group, version) M(dp8_destroy_group, requesting)
    M(dp8_destroy_group, context)
    S(dp8_add_to_group) M(dp8_add_to_group, group) M(dp8_add_to_group, player) M(dp8_add_to_group, version)
    M(dp8_add_to_group, requesting) M(dp8_add_to_group, context)
    S(dp8_delete_from_group) M(dp8_delete_from_group, group) M(dp8_delete_from_group, player) M(dp8_delete_from_group, version)
    M(dp8_delete_from_group, requesting) M(dp8_delete_from_group, context)
    S(dp8_part) M(dp8_part, present) M(dp8_part, start) M(dp8_part, size) M(dp8_part, characters)
    S(dp8_reading) M(dp8_reading, number) M(dp8_reading, type) M(dp8_reading, values) M(dp8_reading, version_not_used)
    M(dp8_reading, name) M(dp8_reading, data) M(dp8_reading, password) M(dp8_reading, connect_data) M(dp8_reading, url)
    M(dp8_reading, alternate_address)
    S(dp8_written) M(dp8_written, number) M(dp8_written, bytes)
    S(dp8_connect_info_given) M(dp8_connect_info_given, name) M(dp8_connect_info_given, data)
    M(dp8_connect_info_given, password) M(dp8_connect_info_given, connect_data) M(dp8_connect_info_given, url)
    M(dp8_connect_info_given, alternate_address)
    S(dp8_add_player_given) M(dp8_add_player_given, name) M(dp8_add_player_given, data) M(dp8_add_player_given, url)
    S(dp8_create_group_given) M(dp8_create_group_given, name) M(dp8_create_group_given, data) M(dp8_create_group_given, url)
    S(dp8_name) M(dp8_name, length) M(dp8_name, units)
    S(dp8_entry) M(dp8_entry, kind) M(dp8_entry, id) M(dp8_entry, owner) M(dp8_entry, flags) M(dp8_entry, version)
    M(dp8_entry, dnet_version) M(dp8_entry, name)
    S(dp8_membership) M(dp8_membership, group) M(dp8_membership, player)
    S(dp8_operation) M(dp8_operation, act) M(dp8_operation, version) M(dp8_operation, kind) M(dp8_operation, id)
    M(dp8_operation, owner) M(dp8_operation, flags) M(dp8_operation, dnet_version) M(dp8_operation, name)
    S(dp8_replica) M(dp8_replica, version) M(dp8_replica, host) M(dp8_replica, entry_count) M(dp8_replica, membership_count)
    M(dp8_replica, entries) M(dp8_replica, memberships) M(dp8_replica, pending)
    S(dp8_answer) M(dp8_answer, number) M(dp8_answer, passed) M(dp8_answer, noops)
    S(dp8_batch) M(dp8_batch, number) M(dp8_batch, count) M(dp8_batch, cut)
    S(dp8_next_host) M(dp8_next_host, number) M(dp8_next_host, id)
    return 0;
}
