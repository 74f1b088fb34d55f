/* The proved DirectPlay 8 name table library, for C.
 *
 * Every function takes any values and any bytes, ends, allocates nothing and keeps nothing between calls. A number is 0, or the
 * refusal's number in the table of paper 01 ("Numbers a call may answer"), or 29 of paper 02 (A2); docs/RULES.md has all of them. What
 * each function promises is proved of it; the comments here say it in words. The proofs end at this border: the caller sees to it that
 * each pointer leads to as many bytes as its length or room says (one to records: to as many records), to a replica, or to a name; that
 * what is written, a buffer, records or a replica, overlaps nothing else that is passed; and that a pointer is not null, not even with
 * length or room 0.
 *
 * No function takes more than 4,096 bytes of stack; dp8_listing, which holds a replica of its own, no more than that and 4,096. This is
 * measured and read off the compiled code, not proved (docs/BENCHMARKS.md).
 */
#ifndef DP8_H
#define DP8_H

#include <stdbool.h>
#include <stddef.h>
#include <stdint.h>

/* A replica is words to the library, and two units of a name make a word, the first of them its low half. */
#if defined(__BYTE_ORDER__) && defined(__ORDER_BIG_ENDIAN__) && __BYTE_ORDER__ == __ORDER_BIG_ENDIAN__
#error "dp8.h: the replica's names are laid out for little-endian machines"
#endif

#ifdef __cplusplus
extern "C" {
#endif

/* ---- messages ---- */

/* The type words. */
enum {
    DP8_CONNECT_INFO = 0xC1,
    DP8_ADD_PLAYER = 0xD0,
    DP8_DESTROY_PLAYER = 0xD1,
    DP8_REQUEST_ADD_TO_GROUP = 0xD3,
    DP8_CREATE_GROUP = 0xD7,
    DP8_DESTROY_GROUP = 0xD8,
    DP8_ADD_TO_GROUP = 0xD9,
    DP8_DELETE_FROM_GROUP = 0xDA
};

struct dp8_guid {
    uint32_t words[4]; /* its 16 bytes as they stand in the message, as little-endian words */
};

struct dp8_connect_info { /* 0xC1 */
    uint32_t flags, dnet_version;
    struct dp8_guid instance, application;
};

struct dp8_add_player { /* 0xD0 */
    uint32_t dpnid, owner, flags, version, dnet_version;
};

struct dp8_destroy_player { /* 0xD1 */
    uint32_t dpnid, version, reason;
};

struct dp8_request_add_to_group { /* 0xD3 */
    uint32_t context, group, player;
};

struct dp8_create_group { /* 0xD7 */
    uint32_t requesting, context, dpnid, owner, flags, version, dnet_version;
};

struct dp8_destroy_group { /* 0xD8 */
    uint32_t group, version, requesting, context;
};

struct dp8_add_to_group { /* 0xD9 */
    uint32_t group, player, version, requesting, context;
};

struct dp8_delete_from_group { /* 0xDA */
    uint32_t group, player, version, requesting, context;
};

/* The part of a message that holds a field, from its first byte on, terminator included; and how many characters a text has, its
 * terminator left out: of a name or a password a high half (0xD800 to 0xDBFF) followed by a low half (0xDC00 to 0xDFFF) is one, and every
 * other unit is one, a half alone included; of a URL every byte is one; of the other fields, which are no text, 0. All zero where the
 * field is absent: in a 0xC1 its offset or its size is 0, in a 0xD0 or a 0xD7 both are. */
struct dp8_part {
    bool present;
    size_t start, size, characters;
};

/* What reading answers. Refused: the number, and all else zero. Read: number 0, the type, the values of that type (the type says which
 * member of the union), the word that is not used (of any type but 0xC1 and 0xD3), and the fields (0xC1, 0xD0, 0xD7); all else zero. */
struct dp8_reading {
    uint32_t number, type;
    union {
        struct dp8_connect_info connect_info;
        struct dp8_add_player add_player;
        struct dp8_destroy_player destroy_player;
        struct dp8_request_add_to_group request_add_to_group;
        struct dp8_create_group create_group;
        struct dp8_destroy_group destroy_group;
        struct dp8_add_to_group add_to_group;
        struct dp8_delete_from_group delete_from_group;
    } values;
    uint32_t version_not_used;
    struct dp8_part name, data, password, connect_data, url, alternate_address;
};

/* Reads a message: numbers 1 to 10, of a 0xC1 never 8. */
struct dp8_reading dp8_read(const uint8_t *message, size_t length);

/* What writing answers: number 0 and how many bytes stand at the buffer's start; or 11, 12 (27, 28 of a snapshot), no bytes, and every
 * byte of the buffer as it was. Bytes of the buffer beyond what is written stay in any case. */
struct dp8_written {
    uint32_t number;
    size_t bytes;
};

/* Which fields are given. The bytes of one that is not are not looked at; one that is given and has no bytes is 11. */
struct dp8_connect_info_given {
    bool name, data, password, connect_data, url, alternate_address;
};

struct dp8_add_player_given {
    bool name, data, url;
};

struct dp8_create_group_given {
    bool name, data, url;
};

struct dp8_written dp8_write_connect_info(
    uint8_t *buffer, size_t room, struct dp8_connect_info values, struct dp8_connect_info_given given,
    const uint8_t *name, size_t name_size, const uint8_t *data, size_t data_size,
    const uint8_t *password, size_t password_size, const uint8_t *connect_data, size_t connect_data_size,
    const uint8_t *url, size_t url_size, const uint8_t *alternate_address, size_t alternate_address_size);

struct dp8_written dp8_write_add_player(
    uint8_t *buffer, size_t room, struct dp8_add_player values, struct dp8_add_player_given given,
    const uint8_t *name, size_t name_size, const uint8_t *data, size_t data_size, const uint8_t *url, size_t url_size);

struct dp8_written dp8_write_destroy_player(uint8_t *buffer, size_t room, struct dp8_destroy_player values);

struct dp8_written dp8_write_request_add_to_group(uint8_t *buffer, size_t room, struct dp8_request_add_to_group values);

struct dp8_written dp8_write_create_group(
    uint8_t *buffer, size_t room, struct dp8_create_group values, struct dp8_create_group_given given,
    const uint8_t *name, size_t name_size, const uint8_t *data, size_t data_size, const uint8_t *url, size_t url_size);

struct dp8_written dp8_write_destroy_group(uint8_t *buffer, size_t room, struct dp8_destroy_group values);

struct dp8_written dp8_write_add_to_group(uint8_t *buffer, size_t room, struct dp8_add_to_group values);

struct dp8_written dp8_write_delete_from_group(uint8_t *buffer, size_t room, struct dp8_delete_from_group values);

/* ---- the replica ---- */

/* How many entries, memberships and pending operations a replica has places for, and the most units of a name. */
enum { DP8_ENTRIES = 64, DP8_MEMBERSHIPS = 128, DP8_PENDING = 31, DP8_NAME = 31 };

/* The words of a name, an entry, a membership and an operation, and of a whole replica. */
enum {
    DP8_NAME_WORDS = 1 + (DP8_NAME + 1) / 2,
    DP8_ENTRY_WORDS = 6 + DP8_NAME_WORDS,
    DP8_MEMBERSHIP_WORDS = 2,
    DP8_OPERATION_WORDS = 7 + DP8_NAME_WORDS,
    DP8_WORDS = 4 + DP8_ENTRY_WORDS * DP8_ENTRIES + DP8_MEMBERSHIP_WORDS * DP8_MEMBERSHIPS + DP8_OPERATION_WORDS * DP8_PENDING
};

/* The kinds of an entry. */
enum { DP8_PLAYER = 1, DP8_GROUP = 2 };

/* What an operation does. */
enum { DP8_UNUSED = 0, DP8_ADD_ENTRY = 1, DP8_REMOVE_ENTRY = 2, DP8_JOIN = 3, DP8_LEAVE = 4 };

/* What is kept of the name of a 0xD0 or a 0xD7: its units without the terminator, the first DP8_NAME of them where there are more, none
 * where the field is absent. The cut may part the halves of a character. */
struct dp8_name {
    uint32_t length;              /* how many units, at most DP8_NAME */
    uint16_t units[DP8_NAME + 1]; /* UTF-16, none of them 0; 0 from units[length] on, so that they end in a terminator */
};

/* How many characters a name has, of an entry or of a pending operation, counted as in dp8_part. It counts what is kept: a half whose other
 * half was cut off is one. Of a length over DP8_NAME + 1, which no valid replica has, all units of the array are counted. */
uint32_t dp8_name_characters(const struct dp8_name *name);

struct dp8_entry {
    uint32_t kind, id, owner, flags, version, dnet_version;
    struct dp8_name name;
};

struct dp8_membership {
    uint32_t group, player;
};

/* An operation that came early. DP8_ADD_ENTRY (0xD0, 0xD7) keeps the entry that it adds; DP8_REMOVE_ENTRY (0xD1, 0xD8) its version, kind
 * and id; DP8_JOIN (0xD9) and DP8_LEAVE (0xDA) their version, the group in id and the player in owner. What is not used is 0, and so is
 * all of an unused place. */
struct dp8_operation {
    uint32_t act, kind, id, owner, flags, version, dnet_version;
    struct dp8_name name;
};

/* One seat's copy of the name table. Plain data of the caller's, lent to the calls below: it may be copied, kept and sent. The places
 * beyond each count are zero. Place k of pending is for the version k + 2 above the replica's. */
struct dp8_replica {
    uint32_t version, host, entry_count, membership_count;
    struct dp8_entry entries[DP8_ENTRIES];
    struct dp8_membership memberships[DP8_MEMBERSHIPS];
    struct dp8_operation pending[DP8_PENDING];
};

/* The library sees these words and no byte more. */
#if defined(__cplusplus) && __cplusplus >= 201103L
static_assert(sizeof(struct dp8_replica) == DP8_WORDS * 4, "the replica's words");
#elif defined(__STDC_VERSION__) && __STDC_VERSION__ >= 201112L
_Static_assert(sizeof(struct dp8_replica) == DP8_WORDS * 4, "the replica's words");
#endif

/* Makes it version 0 with nothing in it, whatever was there. */
void dp8_replica_fresh(struct dp8_replica *replica);

/* Whether a replica is valid (paper 01, "The station"; paper 02: of names A3, of operations on groups A5). The calls below refuse one that
 * is not with 28. */
bool dp8_replica_is_valid(const struct dp8_replica *replica);

/* What the delivery of a message answers, alone or in a batch: a number, and all else zero; or 0, with passed 0 where the operation waits
 * for an earlier one, else how many versions passed and how many of those operations were no-ops. */
struct dp8_answer {
    uint32_t number, passed, noops;
};

/* Delivers a message: numbers 1 to 10, 13 to 17, 28. With 0 the replica becomes the next one; with any other number every byte of it
 * stays as it was. A replica waits for version + 1 and for nothing else: once an operation of every version up to a target,
 * at most 32 above its version, has been delivered, in any order, alone or in batches, its version is the target or more (paper 02, A11). */
struct dp8_answer dp8_replica_deliver(struct dp8_replica *replica, const uint8_t *message, size_t length);

/* What a batch answers: number 0, how many messages were delivered, and whether a tail behind them was cut; or 28 or 29, and all else
 * zero. */
struct dp8_batch {
    uint32_t number;
    size_t count;
    bool cut;
};

/* Delivers framed messages (4 bytes of length, big-endian, then the message) in turn, and puts each one's answer into its own record, from
 * the first on; room counts records, not bytes. Replica and answers are those of dp8_replica_deliver, one message after the other: a
 * message that is refused (1 to 10, 13 to 17) has its number in its record, and the batch goes on. A length of 0, or one over 16,384, is
 * a message like any other. A tail too short for its length word, or for the length that the word says, is cut and not delivered.
 * Numbers 28, and 29 for more whole messages than records: then none is delivered, and every record and every byte of the replica stays
 * as it was. Records beyond those of the messages stay in any case. */
struct dp8_batch dp8_replica_batch(
    struct dp8_replica *replica, const uint8_t *messages, size_t length, struct dp8_answer *records, size_t room);

/* The next host: number 28, or 0 and the id, 0 where there is none. */
struct dp8_next_host {
    uint32_t number, id;
};

struct dp8_next_host dp8_replica_next_host(const struct dp8_replica *replica);

/* ---- the snapshot and the listing ---- */

/* The most bytes that a snapshot has: an entry has 21, then one for the length of its name, and two for each unit. */
enum { DP8_SNAPSHOT = 15 + (21 + 1 + 2 * DP8_NAME) * DP8_ENTRIES + 8 * DP8_MEMBERSHIPS };

/* Reads a snapshot into the replica, whatever was there: 0 and its name table with nothing pending, or 21 to 26 and the fresh replica.
 * Of format 2, which has names, or of format 1, with which every name is empty. */
uint32_t dp8_snapshot_read(struct dp8_replica *replica, const uint8_t *snapshot, size_t length);

/* Writes the snapshot, in format 2, at the buffer's start: numbers 27 and 28. */
struct dp8_written dp8_snapshot_write(const struct dp8_replica *replica, uint8_t *buffer, size_t room);

/* The listing of an input, which is a snapshot and then framed messages (4 bytes of length, big-endian, then the message): as much of
 * it as the buffer has room for stands at its start, the rest of the buffer stays, and the answer is how many bytes that is. A listing
 * has at most DP8_LISTING bytes. Of an input over 65,536 bytes only these are taken, and the listing ends in "cut". */
enum { DP8_LISTING = 2304 };

size_t dp8_listing(const uint8_t *input, size_t length, uint8_t *buffer, size_t room);

#ifdef __cplusplus
}
#endif

#endif
