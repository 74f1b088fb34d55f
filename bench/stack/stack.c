/* How much stack the calls of the proved library take: each runs on a thread whose stack was painted before, and the lowest byte that
 * changed tells how deep it went. The stack of an empty thread is taken off. The replica, the message and the buffers are static, so
 * that what is left is the functions' own frames. Of a call by value the same call of an empty function is taken off, and with it the
 * argument that the caller lays down.
 *
 * Prints a line for each call, for bench/stack/table: its name; the bytes measured, the most of all inputs; of a call that holds a replica
 * of its own the size of that, else 0; and the size of a result that the exported function holds for its caller, else 0. */
#define _GNU_SOURCE
#include <pthread.h>
#include <stdio.h>
#include <stdlib.h>
#include <string.h>
#include <sys/mman.h>

#include "dp8.h"

enum { STACK = 1 << 20, PAINT = 0xA5, BATCH = 64, NAME = 10 };

/* The calls by value: crates/by_value. */
struct delivered {
    struct dp8_answer answer;
    struct dp8_replica replica;
};

struct batched {
    struct dp8_batch answer;
    struct dp8_replica replica;
};

struct loaded {
    uint32_t number;
    struct dp8_replica replica;
};

struct dp8_replica by_value_fresh(void);
struct delivered by_value_deliver(struct dp8_replica replica, const uint8_t *message, size_t length);
struct batched by_value_batch(
    struct dp8_replica replica, const uint8_t *messages, size_t length, struct dp8_answer *records, size_t room);
struct loaded by_value_snapshot_read(const uint8_t *snapshot, size_t length);
struct dp8_written by_value_snapshot_write(struct dp8_replica replica, uint8_t *buffer, size_t room);

static struct dp8_replica replica;
static uint8_t message[256], snapshot[DP8_SNAPSHOT], input[65536], output[DP8_LISTING];
static size_t message_length, snapshot_length, input_length;
static struct dp8_answer records[BATCH];
/* Answers go here, so that no call is left out. */
static volatile uint32_t seen;

/* ---- a painted stack ---- */

static size_t depth_of(void *(*run)(void *))
{
    uint8_t *stack = mmap(NULL, STACK, PROT_READ | PROT_WRITE, MAP_PRIVATE | MAP_ANONYMOUS, -1, 0);
    pthread_attr_t attributes;
    pthread_t thread;
    size_t untouched = 0;
    if (stack == MAP_FAILED || pthread_attr_init(&attributes) != 0)
        exit(1);
    memset(stack, PAINT, STACK);
    if (pthread_attr_setstack(&attributes, stack, STACK) != 0 || pthread_create(&thread, &attributes, run, NULL) != 0)
        exit(1);
    pthread_join(thread, NULL);
    while (untouched < STACK && stack[untouched] == PAINT)
        untouched++;
    munmap(stack, STACK);
    return STACK - untouched;
}

static void *empty(void *unused) { return unused; }

/* ---- the calls ---- */

static void *answered(uint32_t answer, void *unused)
{
    seen = answer;
    return unused;
}

static void *run_fresh(void *unused)
{
    dp8_replica_fresh(&replica);
    return unused;
}

static struct dp8_answer answer;

static void *run_deliver(void *unused)
{
    answer = dp8_replica_deliver(&replica, message, message_length);
    seen = answer.number;
    return unused;
}

static void *run_batch(void *unused)
{
    return answered(dp8_replica_batch(&replica, input, input_length, records, BATCH).number, unused);
}

static void *run_is_valid(void *unused)
{
    return answered(dp8_replica_is_valid(&replica), unused);
}

static void *run_next_host(void *unused)
{
    return answered(dp8_replica_next_host(&replica).id, unused);
}

static void *run_name_characters(void *unused)
{
    return answered(dp8_name_characters(&replica.entries[0].name), unused);
}

static void *run_snapshot_read(void *unused)
{
    return answered(dp8_snapshot_read(&replica, snapshot, snapshot_length), unused);
}

static void *run_snapshot_write(void *unused)
{
    return answered(dp8_snapshot_write(&replica, snapshot, sizeof snapshot).number, unused);
}

static void *run_read(void *unused)
{
    return answered(dp8_read(message, message_length).number, unused);
}

static void *run_listing(void *unused)
{
    size_t length = dp8_listing(input, input_length, output, sizeof output);
    seen = length == 0 || memcmp(output, "refused", 7) == 0;
    return unused;
}

/* What a writer answers; the message is there to be read. */
static void *wrote(struct dp8_written written, void *unused)
{
    seen = written.number;
    message_length = written.bytes;
    return unused;
}

static const uint8_t text[] = {'A', 0, 0, 0}, bytes[] = {1, 2, 3, 4}, url[] = "x-directplay:/";

static void *run_write_connect_info(void *unused)
{
    const struct dp8_connect_info values = {.flags = 4, .dnet_version = 7};
    const struct dp8_connect_info_given given = {true, true, true, true, true, true};
    return wrote(dp8_write_connect_info(
        message, sizeof message, values, given, text, sizeof text, bytes, sizeof bytes, text, sizeof text, bytes, sizeof bytes, url,
        sizeof url, bytes, sizeof bytes), unused);
}

static void *run_write_add_player(void *unused)
{
    const struct dp8_add_player values = {.dpnid = 900, .version = 101, .dnet_version = 7};
    const struct dp8_add_player_given given = {true, true, true};
    return wrote(dp8_write_add_player(message, sizeof message, values, given, text, sizeof text, bytes, sizeof bytes, url, sizeof url), unused);
}

static void *run_write_destroy_player(void *unused)
{
    const struct dp8_destroy_player values = {900, 101, 1};
    return wrote(dp8_write_destroy_player(message, sizeof message, values), unused);
}

static void *run_write_request_add_to_group(void *unused)
{
    const struct dp8_request_add_to_group values = {1, 1, 4};
    return wrote(dp8_write_request_add_to_group(message, sizeof message, values), unused);
}

static void *run_write_create_group(void *unused)
{
    const struct dp8_create_group values = {.dpnid = 900, .version = 101, .dnet_version = 7};
    const struct dp8_create_group_given given = {true, true, true};
    return wrote(dp8_write_create_group(message, sizeof message, values, given, text, sizeof text, bytes, sizeof bytes, url, sizeof url), unused);
}

static void *run_write_destroy_group(void *unused)
{
    const struct dp8_destroy_group values = {1, 101, 4, 0};
    return wrote(dp8_write_destroy_group(message, sizeof message, values), unused);
}

static void *run_write_add_to_group(void *unused)
{
    const struct dp8_add_to_group values = {1, 4, 101, 4, 0};
    return wrote(dp8_write_add_to_group(message, sizeof message, values), unused);
}

static void *run_write_delete_from_group(void *unused)
{
    const struct dp8_delete_from_group values = {1, 4, 101, 4, 0};
    return wrote(dp8_write_delete_from_group(message, sizeof message, values), unused);
}

/* ---- the calls by value: through pointers, which an empty function may take the place of ---- */

static struct dp8_replica no_fresh(void)
{
    static const struct dp8_replica none;
    return none;
}

static struct delivered no_deliver(struct dp8_replica r, const uint8_t *m, size_t length)
{
    static const struct delivered none;
    (void)r, (void)m, (void)length;
    return none;
}

static struct batched no_batch(struct dp8_replica r, const uint8_t *m, size_t length, struct dp8_answer *to, size_t room)
{
    static const struct batched none;
    (void)r, (void)m, (void)length, (void)to, (void)room;
    return none;
}

static struct loaded no_snapshot_read(const uint8_t *s, size_t length)
{
    static const struct loaded none;
    (void)s, (void)length;
    return none;
}

static struct dp8_written no_snapshot_write(struct dp8_replica r, uint8_t *buffer, size_t room)
{
    static const struct dp8_written none;
    (void)r, (void)buffer, (void)room;
    return none;
}

static struct dp8_replica (*volatile fresh)(void);
static struct delivered (*volatile deliver)(struct dp8_replica, const uint8_t *, size_t);
static struct batched (*volatile batch)(struct dp8_replica, const uint8_t *, size_t, struct dp8_answer *, size_t);
static struct loaded (*volatile snapshot_read)(const uint8_t *, size_t);
static struct dp8_written (*volatile snapshot_write)(struct dp8_replica, uint8_t *, size_t);

static void set_calls(bool real)
{
    fresh = real ? by_value_fresh : no_fresh;
    deliver = real ? by_value_deliver : no_deliver;
    batch = real ? by_value_batch : no_batch;
    snapshot_read = real ? by_value_snapshot_read : no_snapshot_read;
    snapshot_write = real ? by_value_snapshot_write : no_snapshot_write;
}

static void *value_fresh(void *unused)
{
    return answered(fresh().version, unused);
}

static void *value_deliver(void *unused)
{
    return answered(deliver(replica, message, message_length).answer.number, unused);
}

static void *value_batch(void *unused)
{
    return answered(batch(replica, input, input_length, records, BATCH).answer.number, unused);
}

static void *value_snapshot_read(void *unused)
{
    return answered(snapshot_read(snapshot, snapshot_length).number, unused);
}

static void *value_snapshot_write(void *unused)
{
    return answered(snapshot_write(replica, snapshot, sizeof snapshot).number, unused);
}

/* ---- what they are called on ---- */

static uint8_t *put(uint8_t *at, uint32_t value, int little)
{
    for (int i = 0; i < 4; i++)
        at[little ? i : 3 - i] = (uint8_t)(value >> 8 * i);
    return at + 4;
}

static void set_words(const uint32_t *words, size_t size)
{
    message_length = size;
    for (size_t i = 0; i < size / 4; i++)
        put(message + 4 * i, words[i], 1);
}

/* A new player (0xD0) or group (0xD7), with a name of NAME units right behind the fixed part; a player (0xD1) or group (0xD8) that goes; or
 * player 4 who leaves a group (0xDA). */
static void set_message(uint32_t type, uint32_t id, uint32_t version)
{
    const uint32_t add[13] = {0xD0, id, 0, 0, version, 0, 7, sizeof add - 4, 2 * (NAME + 1)};
    const uint32_t create[15] = {0xD7, 4, 0, id, 0, 0, version, 0, 7, sizeof create - 4, 2 * (NAME + 1)};
    const uint32_t destroy[5] = {0xD1, id, version, 0, 1}, destroy_group[6] = {0xD8, id, version}, leave[7] = {0xDA, id, 4, version};
    switch (type) {
    case 0xD0: set_words(add, sizeof add); break;
    case 0xD7: set_words(create, sizeof create); break;
    case 0xD1: set_words(destroy, sizeof destroy); return;
    case 0xD8: set_words(destroy_group, sizeof destroy_group); return;
    default: set_words(leave, sizeof leave); return;
    }
    for (uint32_t i = 0; i <= NAME; i++) {
        message[message_length++] = i < NAME ? (uint8_t)('A' + i) : 0;
        message[message_length++] = 0;
    }
}

/* Version 100, so many entries with names of NAME units, the first three of them groups, and memberships of them in their order; the
 * last entry is the host. */
static void set_snapshot(uint32_t entries, uint32_t memberships)
{
    uint8_t *at = put(snapshot, 11 + (21 + 1 + 2 * NAME) * entries + 8 * memberships, 0);
    *at++ = 2;
    at = put(put(at, 100, 0), entries, 0);
    *at++ = (uint8_t)entries;
    *at++ = (uint8_t)memberships;
    for (uint32_t id = 1; id <= entries; id++) {
        *at++ = id <= 3 ? DP8_GROUP : DP8_PLAYER;
        at = put(put(put(put(put(at, id, 0), 0, 0), 0, 0), id, 0), 7, 0);
        *at++ = 2 * NAME;
        for (uint32_t i = 0; i < NAME; i++) {
            *at++ = 0;
            *at++ = (uint8_t)('A' + i);
        }
    }
    for (uint32_t i = 0; i < memberships; i++)
        at = put(put(at, 1 + i / (entries - 3), 0), 4 + i % (entries - 3), 0);
    snapshot_length = (size_t)(at - snapshot);
}

/* 31 operations that wait for version 101. */
static void fill_pending(void)
{
    for (uint32_t version = 102; version <= 132; version++) {
        set_message(version % 2 ? 0xD1 : 0xD0, 500 + version / 2, version);
        dp8_replica_deliver(&replica, message, message_length);
    }
}

/* The message behind what the input has, after its length. */
static void add_frame(void)
{
    put(input + input_length, (uint32_t)message_length, 0);
    memcpy(input + input_length + 4, message, message_length);
    input_length += 4 + message_length;
}

/* Messages that are all applied from version 100 on: a player comes, and goes. */
static void set_batch(void)
{
    input_length = 0;
    for (uint32_t version = 101; version <= 100 + BATCH; version++) {
        set_message(version % 2 ? 0xD0 : 0xD1, 900 + (version + 1) / 2, version);
        add_frame();
    }
}

/* The snapshot, then the message over and over. */
static void set_input(void)
{
    memcpy(input, snapshot, snapshot_length);
    input_length = snapshot_length;
    while (input_length + 4 + message_length <= sizeof input)
        add_frame();
}

/* ---- the report ---- */

static void wrong(const char *what)
{
    fprintf(stderr, "stack: %s: another answer, %u\n", what, seen);
    exit(1);
}

/* The call's depth, after a look that it answers this number; leaves the replica as it was. */
static size_t deep(const char *what, void *(*run)(void *), uint32_t number)
{
    static struct dp8_replica start;
    start = replica;
    run(NULL);
    if (seen != number)
        wrong(what);
    replica = start;
    size_t depth = depth_of(run) - depth_of(empty);
    replica = start;
    return depth;
}

static size_t deep_delivery(const char *what, uint32_t number, uint32_t passed)
{
    size_t depth = deep(what, run_deliver, number);
    if (answer.passed != passed || (passed == 1 && answer.noops != 0))
        wrong(what);
    return depth;
}

static size_t most(size_t a, size_t b) { return a < b ? b : a; }

static void report(const char *what, size_t depth, size_t replica_held, size_t result)
{
    printf("%s %zu %zu %zu\n", what, depth, replica_held, result);
}

static void show(const char *what, void *(*run)(void *), uint32_t number)
{
    report(what, deep(what, run, number), 0, 0);
}

static void show_value(const char *what, void *(*run)(void *), uint32_t number, size_t result)
{
    set_calls(false);
    size_t caller = deep(what, run, 0);
    set_calls(true);
    size_t depth = deep(what, run, number);
    report(what, caller < depth ? depth - caller : 0, sizeof replica, result);
}

/* The deepest of a delivery refused, one that waits, a player and a group added, each of them removed with its memberships, a membership
 * removed, and, with the window full, 32 versions at once; each after a look that it is that. Leaves the replica with the window full, and
 * the message that applies it all. */
static size_t deliveries(void)
{
    size_t depth = 0;
    set_message(0xD0, 900, 100);
    depth = most(depth, deep_delivery("a delivery refused", 14, 0));
    set_message(0xD0, 900, 105);
    depth = most(depth, deep_delivery("a delivery that waits", 0, 0));
    set_message(0xD0, 900, 101);
    depth = most(depth, deep_delivery("a player added", 0, 1));
    set_message(0xD1, 20, 101);
    depth = most(depth, deep_delivery("a player removed", 0, 1));
    set_message(0xD7, 900, 101);
    depth = most(depth, deep_delivery("a group added", 0, 1));
    set_message(0xD8, 1, 101);
    depth = most(depth, deep_delivery("a group removed", 0, 1));
    set_message(0xDA, 1, 101);
    depth = most(depth, deep_delivery("a membership removed", 0, 1));
    fill_pending();
    set_message(0xD1, 20, 101);
    return most(depth, deep_delivery("32 versions", 0, 32));
}

/* The deepest of reading what each writer wrote. */
static size_t writers_and_readings(void)
{
    size_t depth = 0;
    show("dp8_write_connect_info", run_write_connect_info, 0);
    depth = most(depth, deep("a 0xC1 read", run_read, 0));
    show("dp8_write_add_player", run_write_add_player, 0);
    depth = most(depth, deep("a 0xD0 read", run_read, 0));
    show("dp8_write_destroy_player", run_write_destroy_player, 0);
    depth = most(depth, deep("a 0xD1 read", run_read, 0));
    show("dp8_write_request_add_to_group", run_write_request_add_to_group, 0);
    depth = most(depth, deep("a 0xD3 read", run_read, 0));
    show("dp8_write_create_group", run_write_create_group, 0);
    depth = most(depth, deep("a 0xD7 read", run_read, 0));
    show("dp8_write_destroy_group", run_write_destroy_group, 0);
    depth = most(depth, deep("a 0xD8 read", run_read, 0));
    show("dp8_write_add_to_group", run_write_add_to_group, 0);
    depth = most(depth, deep("a 0xD9 read", run_read, 0));
    show("dp8_write_delete_from_group", run_write_delete_from_group, 0);
    return most(depth, deep("a 0xDA read", run_read, 0));
}

/* A batch of messages that are all applied, after a look that they are. */
static void show_batches(void)
{
    set_batch();
    show("dp8_replica_batch", run_batch, 0);
    for (size_t i = 0; i < BATCH; i++) {
        if (records[i].number != 0 || records[i].passed != 1 || records[i].noops != 0)
            wrong("a record of the batch");
    }
    show_value("by_value_batch", value_batch, 0, sizeof(struct batched));
}

int main(void)
{
    set_snapshot(60, 128);
    show("dp8_snapshot_read", run_snapshot_read, 0);
    show_value("by_value_snapshot_read", value_snapshot_read, 0, 0);
    run_snapshot_read(NULL);
    show("dp8_replica_is_valid", run_is_valid, 1);
    show("dp8_replica_next_host", run_next_host, 4);
    show("dp8_name_characters", run_name_characters, NAME);
    show("dp8_snapshot_write", run_snapshot_write, 0);
    show_value("by_value_snapshot_write", value_snapshot_write, 0, 0);
    report("dp8_read", writers_and_readings(), 0, 0);
    show_batches();
    report("dp8_replica_deliver", deliveries(), 0, 0);
    show_value("by_value_deliver", value_deliver, 0, sizeof(struct delivered));
    set_input();
    report("dp8_listing", deep("the listing", run_listing, 0), sizeof replica, 0);
    show("dp8_replica_fresh", run_fresh, 0);
    show_value("by_value_fresh", value_fresh, 0, 0);
    return 0;
}
