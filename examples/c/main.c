/* Reads a snapshot, delivers two messages, and shows who hosts next, the entries and the snapshot after them (paper 01, "The listing",
 * with names and how many characters they have: paper 02, A3 and A9); lets a group come and go (A5); delivers the same two as one batch
 * (A2). Then reads messages of every type, and two that are refused. */
#include <stdio.h>
#include <string.h>

#include "dp8.h"

/* Version 5, host 100; player 100 (version 1) named Ann, player 200 (version 3) named Bob, group 300 (version 4) without a name; player
 * 200 is in group 300. Behind each entry stand the count of its name's bytes and the name, the high byte of each unit first. */
static const uint8_t saved[] = {
    0, 0, 0, 97, 2, 0, 0, 0, 5, 0, 0, 0, 100, 3, 1,
    1, 0, 0, 0, 100, 0, 0, 0, 0, 0, 0, 0, 0, 0, 0, 0, 1, 0, 0, 0, 7, 6, 0, 'A', 0, 'n', 0, 'n',
    1, 0, 0, 0, 200, 0, 0, 0, 0, 0, 0, 0, 0, 0, 0, 0, 3, 0, 0, 0, 7, 6, 0, 'B', 0, 'o', 0, 'b',
    2, 0, 0, 1, 44, 0, 0, 0, 0, 0, 0, 0, 0, 0, 0, 0, 4, 0, 0, 0, 7, 0,
    0, 0, 1, 44, 0, 0, 0, 200,
};

/* As a message has them, the low byte of each unit first, and with a terminator. The last character of the first has two units. */
static const uint8_t cy[] = {'C', 0, 'y', 0, 0x3D, 0xD8, 0x00, 0xDE, 0, 0}, red[] = {'R', 0, 'e', 0, 'd', 0, 0, 0};

/* The host leaves, version 7: it comes early and waits. */
static const uint8_t host_leaves[] = {0xD1, 0, 0, 0, 100, 0, 0, 0, 7, 0, 0, 0, 0, 0, 0, 0, 1, 0, 0, 0};

/* A field that is not given: a pointer is never null, and never into the buffer that is written. */
static const uint8_t no_bytes[1];

/* The entries, each with its name, of whose units those that are ASCII are shown. */
static void show_entries(const struct dp8_replica *replica)
{
    for (uint32_t i = 0; i < replica->entry_count; i++) {
        const struct dp8_entry *entry = &replica->entries[i];
        printf("%s %u, name \"", entry->kind == DP8_PLAYER ? "player" : "group", entry->id);
        for (const uint16_t *unit = entry->name.units; *unit != 0; unit++)
            putchar(*unit < 128 ? *unit : '?');
        printf("\" of %u units, %u characters\n", entry->name.length, dp8_name_characters(&entry->name));
    }
}

static void show(const char *what, struct dp8_answer answer)
{
    if (answer.number != 0)
        printf("%s: refused %u\n", what, answer.number);
    else if (answer.passed == 0)
        printf("%s: waits\n", what);
    else
        printf("%s: applied, %u versions passed, %u without effect\n", what, answer.passed, answer.noops);
}

/* Delivers what a writer wrote; of a refused one that is no bytes, and refused with 2. */
static void deliver(struct dp8_replica *replica, const char *what, const uint8_t *message, struct dp8_written written)
{
    show(what, dp8_replica_deliver(replica, message, written.bytes));
    printf("  %u entries, %u memberships\n", replica->entry_count, replica->membership_count);
}

/* From version 7 on: group 500 comes, two players join it, one of them leaves it, and it goes with the other's membership. */
static void show_group(struct dp8_replica *replica)
{
    uint8_t message[128];
    const struct dp8_create_group create = {.requesting = 200, .dpnid = 500, .owner = 200, .version = 8, .dnet_version = 7};
    const struct dp8_create_group_given given = {.name = true};
    const struct dp8_add_to_group join = {500, 200, 9, 200, 0}, join_too = {500, 400, 10, 400, 0};
    const struct dp8_delete_from_group leave = {500, 200, 11, 200, 0};
    const struct dp8_destroy_group destroy = {500, 12, 200, 0};
    deliver(replica, "group 500 comes", message,
        dp8_write_create_group(message, sizeof message, create, given, red, sizeof red, no_bytes, 0, no_bytes, 0));
    show_entries(replica);
    deliver(replica, "player 200 joins it", message, dp8_write_add_to_group(message, sizeof message, join));
    deliver(replica, "player 400 joins it", message, dp8_write_add_to_group(message, sizeof message, join_too));
    deliver(replica, "player 200 leaves it", message, dp8_write_delete_from_group(message, sizeof message, leave));
    deliver(replica, "group 500 goes", message, dp8_write_destroy_group(message, sizeof message, destroy));
}

/* Delivers the messages as one batch into so many records, three at most, all nines before it, and shows all that is in them. */
static void show_batch(const uint8_t *messages, size_t length, size_t room)
{
    struct dp8_replica replica;
    struct dp8_answer records[3] = {{9, 9, 9}, {9, 9, 9}, {9, 9, 9}};
    dp8_snapshot_read(&replica, saved, sizeof saved);
    struct dp8_batch batch = dp8_replica_batch(&replica, messages, length, records, room);
    printf("batch: number %u, count %zu, %s; records", batch.number, batch.count, batch.cut ? "cut" : "not cut");
    for (size_t i = 0; i < room; i++)
        printf(" {%u, %u, %u}", records[i].number, records[i].passed, records[i].noops);
    printf("\n");
}

/* Puts a message after its length, big-endian, and says where it ends. */
static uint8_t *put_frame(uint8_t *at, const uint8_t *message, size_t length)
{
    for (int shift = 24; shift >= 0; shift -= 8)
        *at++ = (uint8_t)(length >> shift);
    memcpy(at, message, length);
    return at + length;
}

/* The host leaves and a player joins, then two bytes of a length word. The last record stays; with one record nothing is delivered. */
static void show_batches(const uint8_t *joining, size_t length)
{
    uint8_t messages[128] = {0};
    uint8_t *end = put_frame(put_frame(messages, host_leaves, sizeof host_leaves), joining, length) + 2;
    show_batch(messages, (size_t)(end - messages), 3);
    show_batch(messages, (size_t)(end - messages), 1);
}

/* One message of each type, 0xC1 in both forms, and what is refused. Bytes that are not named are zero. */
static const uint8_t connect_info[84] = {0xC1, [4] = 2, [8] = 6, [52] = 1, [68] = 2};
/* Of an older seat: its name has an offset and no size, so there is none. */
static const uint8_t connect_info_old[84] = {0xC1, [4] = 2, [8] = 6, [12] = 80, [52] = 5, [68] = 6};
/* The name starts at position 92, right behind the fixed part, and has 3 units and a zero; the alternate address follows it. An offset
 * counts from the end of the type word, so it is 4 less than the position. */
static const uint8_t connect_info_extended[] = {
    0xC1, [4] = 4, [8] = 7, [12] = 88, [16] = 8, [52] = 3, [68] = 4, [84] = 96, [88] = 2,
    [92] = 'B', [94] = 'o', [96] = 'b', [100] = 2, [101] = 7,
};
/* Its name starts at position 52, and ends in two units that are one character. */
static const uint8_t add_player[] = {
    0xD0, [4] = 144, [5] = 1, [8] = 1, [16] = 6, [24] = 7, [28] = 48, [32] = 10, [52] = 'A', [54] = 'n',
    [56] = 0x3D, 0xD8, 0x00, 0xDE, [61] = 0,
};
static const uint8_t request[16] = {0xD3, [4] = 9, [8] = 44, [9] = 1, [12] = 200};
/* Its name starts at position 60. */
static const uint8_t create_group[] = {
    0xD7, [4] = 200, [12] = 244, [13] = 1, [16] = 200, [24] = 8, [32] = 7, [36] = 56, [40] = 8,
    [60] = 'R', [62] = 'e', [64] = 'd', [67] = 0,
};
static const uint8_t destroy_group[24] = {0xD8, [4] = 244, [5] = 1, [8] = 12, [16] = 200, [20] = 9};
static const uint8_t delete_from_group[28] = {0xDA, [4] = 244, [5] = 1, [8] = 200, [12] = 11, [20] = 200, [24] = 9};
static const uint8_t add_to_group[28] = {0xD9, [4] = 44, [5] = 1, [8] = 200, [12] = 8, [20] = 100, [24] = 9};
static const uint8_t cut_short[5] = {0xD1, [4] = 100};
/* The same name in a 0xD0 is refused. */
static const uint8_t add_player_old[52] = {0xD0, [4] = 100, [16] = 6, [24] = 7, [28] = 48};

static void show_connect_info(struct dp8_connect_info v)
{
    printf("flags %u, DNET version %u, GUIDs from %u and %u on", v.flags, v.dnet_version, v.instance.words[0], v.application.words[0]);
}

static void show_add_player(struct dp8_add_player v)
{
    printf("player %u, owner %u, flags %u, version %u, DNET version %u", v.dpnid, v.owner, v.flags, v.version, v.dnet_version);
}

static void show_destroy_player(struct dp8_destroy_player v)
{
    printf("player %u leaves, version %u, reason %u", v.dpnid, v.version, v.reason);
}

static void show_request(struct dp8_request_add_to_group v)
{
    printf("player %u asks for group %u, context %u", v.player, v.group, v.context);
}

static void show_create_group(struct dp8_create_group v)
{
    printf("group %u, owner %u, flags %u, version %u, DNET version %u, asked for by %u, context %u", v.dpnid, v.owner, v.flags, v.version,
        v.dnet_version, v.requesting, v.context);
}

static void show_destroy_group(struct dp8_destroy_group v)
{
    printf("group %u goes, version %u, asked for by %u, context %u", v.group, v.version, v.requesting, v.context);
}

static void show_add_to_group(struct dp8_add_to_group v)
{
    printf("player %u joins group %u, version %u, asked for by %u, context %u", v.player, v.group, v.version, v.requesting, v.context);
}

static void show_delete_from_group(struct dp8_delete_from_group v)
{
    printf("player %u leaves group %u, version %u, asked for by %u, context %u", v.player, v.group, v.version, v.requesting, v.context);
}

/* The type says which member of the union is meant. */
static void show_values(const struct dp8_reading *r)
{
    switch (r->type) {
    case DP8_CONNECT_INFO: show_connect_info(r->values.connect_info); break;
    case DP8_ADD_PLAYER: show_add_player(r->values.add_player); break;
    case DP8_DESTROY_PLAYER: show_destroy_player(r->values.destroy_player); break;
    case DP8_REQUEST_ADD_TO_GROUP: show_request(r->values.request_add_to_group); break;
    case DP8_CREATE_GROUP: show_create_group(r->values.create_group); break;
    case DP8_DESTROY_GROUP: show_destroy_group(r->values.destroy_group); break;
    case DP8_ADD_TO_GROUP: show_add_to_group(r->values.add_to_group); break;
    case DP8_DELETE_FROM_GROUP: show_delete_from_group(r->values.delete_from_group); break;
    }
}

/* The name's UTF-16 units, as far as they are ASCII, and how many characters it has; its terminator is the last unit. */
static void show_name(const uint8_t *message, struct dp8_part name)
{
    if (!name.present)
        return;
    printf(", name ");
    for (size_t i = name.start; i + 2 < name.start + name.size; i += 2)
        putchar(message[i + 1] == 0 ? message[i] : '?');
    printf(" of %zu characters", name.characters);
}

/* Free bytes; the part lies within the message that was read. */
static void show_address(const uint8_t *message, struct dp8_part address)
{
    if (!address.present)
        return;
    printf(", alternate address");
    for (size_t i = address.start; i < address.start + address.size; i++)
        printf(" %02x", message[i]);
}

static void read_and_show(const uint8_t *message, size_t length)
{
    struct dp8_reading r = dp8_read(message, length);
    if (r.number != 0) {
        printf("refused %u\n", r.number);
        return;
    }
    printf("%X: ", r.type);
    show_values(&r);
    show_name(message, r.name);
    show_address(message, r.alternate_address);
    printf("\n");
}

static void show_readings(void)
{
    read_and_show(connect_info, sizeof connect_info);
    read_and_show(connect_info_old, sizeof connect_info_old);
    read_and_show(connect_info_extended, sizeof connect_info_extended);
    read_and_show(add_player, sizeof add_player);
    read_and_show(host_leaves, sizeof host_leaves);
    read_and_show(request, sizeof request);
    read_and_show(create_group, sizeof create_group);
    read_and_show(destroy_group, sizeof destroy_group);
    read_and_show(add_to_group, sizeof add_to_group);
    read_and_show(delete_from_group, sizeof delete_from_group);
    read_and_show(cut_short, sizeof cut_short);
    read_and_show(add_player_old, sizeof add_player_old);
}

int main(void)
{
    struct dp8_replica replica;
    uint32_t number = dp8_snapshot_read(&replica, saved, sizeof saved);
    if (number != 0) {
        printf("snapshot refused: %u\n", number);
        return 1;
    }

    show("player 100 leaves", dp8_replica_deliver(&replica, host_leaves, sizeof host_leaves));

    /* Player 400 joins, version 6. The writer lays out the message; data and URL are not given, so their bytes are not looked at. */
    uint8_t message[128];
    struct dp8_add_player player = {.dpnid = 400, .version = 6, .dnet_version = 7};
    struct dp8_add_player_given given = {.name = true};
    struct dp8_written written = dp8_write_add_player(
        message, sizeof message, player, given, cy, sizeof cy, no_bytes, 0, no_bytes, 0);
    if (written.number != 0)
        return 1;
    size_t joining = written.bytes;
    show("player 400 joins", dp8_replica_deliver(&replica, message, joining));

    struct dp8_next_host next = dp8_replica_next_host(&replica);
    printf("version %u, host %u, next host %u\n", replica.version, replica.host, next.id);
    show_entries(&replica);

    uint8_t snapshot[DP8_SNAPSHOT];
    written = dp8_snapshot_write(&replica, snapshot, sizeof snapshot);
    printf("snapshot");
    for (size_t i = 0; i < written.bytes; i++)
        printf(" %02x", snapshot[i]);
    printf("\n");

    show_group(&replica);
    show_batches(message, joining);
    show_readings();
    return 0;
}
