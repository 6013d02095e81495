/*
 * A CFDP entity (CCSDS 727.0-B-5) as a library: one proved protocol machine behind a handle.
 *
 * The library never blocks, starts no thread, opens no file and no socket, and reads no clock. The program around it
 * carries datagrams, runs timers and stores files:
 *
 *     cfdp_t entity = CFDP_INIT;
 *     cfdp_done_t done;
 *     if (cfdp_open_text(&entity, configuration) != CFDP_OK) ..
 *     if (cfdp_deliver(&entity, datagram, length, &done) == CFDP_OK) {
 *         for (size_t i = 0; i < done.pdus; i++) {
 *             cfdp_pdu(&entity, i, buffer, sizeof buffer, &count);     send these octets
 *             cfdp_pdu_destination(&entity, i, &peer);                 to this entity
 *         }
 *         if (done.deposit) {
 *             cfdp_deposit(&entity, &deposit);                         store this file, then call cfdp_stored
 *         }
 *     }
 *     while (cfdp_tick(&entity, now, &done) == CFDP_OK) ..             the same for each timer that has expired
 *     while (cfdp_next_pump(&entity, &txn) == CFDP_OK)
 *         cfdp_pump(&entity, txn.source, txn.seq, &done);              and the same for each PDU of files that are sent
 *
 * A program with timers of its own never calls cfdp_tick. It starts and stops them by cfdp_timer_op, and calls
 * cfdp_timer for each that expires.
 *
 * Handles. The caller owns the cfdp_t, which holds nothing but a pointer. It starts as CFDP_INIT, or all zeros, which
 * is a closed handle; cfdp_open opens it, and cfdp_close frees all that it holds. With a closed handle every other call
 * returns CFDP_CLOSED; a number out of range, or a lack of memory, may be returned in its place. Never copy an open
 * handle, and never write its fields. Every other struct of this header holds numbers alone, and may be copied.
 *
 * A call that takes a const handle leaves the entity as it is. It needs the handle for itself all the same, as every
 * call does, and the handle may not be in memory that can't be written.
 *
 * Lifetimes. What an event left (PDUs, timer operations, the deposit) is kept until the next event; the bundle that was
 * taken last until the next one is taken; the file that was asked for last until the next one. Everything is copied into
 * the caller's memory. The library keeps no pointer that it was passed.
 *
 * Memory that is passed. No two pointers of one call may overlap. For a null pointer a call returns CFDP_NULL, except
 * beside a length of 0. Define CFDP_UNCHECKED before the header is included to leave these tests out; then no pointer may be
 * null, not even beside a length of 0.
 *
 * Compatibility. Programs that were compiled with this header run with every later libcfdp.so.0: no struct, constant or
 * call of the header changes as long as the number in that name does, and new ones are only added. What is new comes by
 * calls of its own, so no struct grows. A call that a program uses has to be in the library that it loads: the package's
 * symbols file says since when each is there.
 *
 * Threads. Different handles may be used by different threads at once. One handle is used by one thread at a time, and
 * may move between threads under a lock. No call may come from a signal handler, or from the forked child of a process
 * with threads.
 *
 * Memory. Blocks come from malloc, realloc and free of the program. When these fail, a call returns CFDP_NO_MEMORY, or
 * CFDP_REFUSED with refusal 12, and nothing has changed, except that a Put's messages are gone.
 *
 * docs/embedding.md has two first programs, and says what is proved about each call.
 */
#ifndef CFDP_H
#define CFDP_H

#include <stdbool.h>
#include <stddef.h>
#include <stdint.h>
#include <string.h>

#ifdef __cplusplus
extern "C" {
#endif

/* The version of the library: its name, and its numbers. cfdp_version says with which interface a library was built. */
#define CFDP_VERSION_STRING "0.1"
#define CFDP_VERSION_MAJOR 0
#define CFDP_VERSION_MINOR 1

/*
 * The octets of a buffer into which each PDU fits that an entity sends. The longest is a Metadata PDU with IDs of eight
 * octets, two names of 255 octets and four messages of 255 octets: 1,574.
 */
#define CFDP_PDU_MAX 1600

/* A handle. Its fields are the library's own. */
typedef struct cfdp {
    bool live;
    void *at;
} cfdp_t;

#define CFDP_INIT { false, NULL }

/* What a call returns. */
enum {
    CFDP_OK = 0,                   /* the call did its work; for an event: the entity took it */
    CFDP_REFUSED = 1,              /* the entity refused the event: `refusal` says why, and nothing else changed */
    CFDP_NOTHING = 2,              /* there is no such thing: no bundle or timer waits, or the index is too large */
    CFDP_CLOSED = -1,              /* the handle is closed */
    CFDP_OPEN = -2,                /* the handle is open already */
    CFDP_NO_MEMORY = -3,           /* memory ran out */
    CFDP_NO_ROOM = -4,             /* the buffer is too small; the length says how large it must be */
    CFDP_BAD_NUMBER = -5,          /* no class, timer, request or setting has this number */
    CFDP_UNKNOWN = -6,             /* the entity has no such user, or the user no such sending lane */
    CFDP_BAD_CONFIG = -7,          /* the configuration was refused */
    CFDP_NO_NAME = -8,             /* a file name is empty */
    CFDP_NAME_TOO_LONG = -9,       /* a file name has more than 255 octets */
    CFDP_MESSAGE_TOO_LONG = -10,   /* a message has more than 255 octets */
    CFDP_TOO_MANY_MESSAGES = -11,  /* a Put has more than 4 messages */
    CFDP_NULL = -12,               /* a pointer is null (returned by this header) */
    CFDP_NOT_ALLOWED = -13,        /* the setting may not have this value */
    CFDP_TOO_LATE = -14            /* the entity has received an event, and no setting may follow */
};

/* The timers of a transaction. */
enum { CFDP_TIMER_ACK = 1, CFDP_TIMER_NAK = 2, CFDP_TIMER_CHECK = 3, CFDP_TIMER_INACTIVITY = 4 };

/* What a user may request of a transaction. */
enum { CFDP_CANCEL = 1, CFDP_SUSPEND = 2, CFDP_RESUME = 3, CFDP_REPORT = 4, CFDP_ABANDON = 5 };

/* What cfdp_set sets, and what cfdp_set_handler may name. */
enum {
    CFDP_SET_CAPACITY = 1,    /* for how many bundles each user's queue has room */
    CFDP_SET_FIRST = 2,       /* where the numbers of Puts begin: at this times the sending lanes of all users together */
    CFDP_SET_ACK_LIMIT = 3,   /* which expiration of a timer is a fault, of every remote entity */
    CFDP_SET_NAK_LIMIT = 4,
    CFDP_SET_CHECK_LIMIT = 5,
    CFDP_SET_CHECKSUM = 6     /* the checksum of sent files: CFDP_CHECKSUM_MODULAR or CFDP_CHECKSUM_NULL */
};
enum { CFDP_CHECKSUM_MODULAR = 0, CFDP_CHECKSUM_NULL = 15 };
enum { CFDP_ROLE_SEND = 1, CFDP_ROLE_RECV_CLASS_1 = 2, CFDP_ROLE_RECV_CLASS_2 = 3 };
enum { CFDP_HANDLER_CANCEL = 1, CFDP_HANDLER_SUSPEND = 2, CFDP_HANDLER_IGNORE = 3, CFDP_HANDLER_ABANDON = 4 };

/* The kinds of indications, and the fields that each has. */
enum {
    CFDP_IND_TRANSACTION = 1,       /* a Put has opened a transaction */
    CFDP_IND_EOF_SENT = 2,
    CFDP_IND_EOF_RECV = 3,
    CFDP_IND_FINISHED = 4,          /* condition, delivery, status */
    CFDP_IND_METADATA_RECV = 5,     /* source, size, parts */
    CFDP_IND_FILE_SEGMENT_RECV = 6, /* offset, length */
    CFDP_IND_SUSPENDED = 7,         /* condition */
    CFDP_IND_RESUMED = 8,           /* progress */
    CFDP_IND_REPORT = 9,            /* phase, progress */
    CFDP_IND_FAULT = 10,            /* condition, progress */
    CFDP_IND_ABANDONED = 11         /* condition, progress */
};

/* Phases of a transaction. */
enum { CFDP_ACTIVE = 1, CFDP_IS_SUSPENDED = 2, CFDP_STORING = 3, CFDP_CLOSING = 4 };

/* Delivery codes and file statuses, as in a Finished PDU. */
enum { CFDP_COMPLETE = 0, CFDP_INCOMPLETE = 1 };
enum { CFDP_DISCARDED = 0, CFDP_REJECTED = 1, CFDP_RETAINED = 2, CFDP_UNREPORTED = 3 };

/* A transaction: its source entity and its number. */
typedef struct cfdp_txn_t {
    uint64_t source;
    uint64_t seq;
} cfdp_txn_t;

/* A remote entity of the configuration. */
#define CFDP_NO_USER SIZE_MAX
typedef struct cfdp_remote_t {
    uint64_t id;
    size_t user; /* the number of the user that gets its files, or CFDP_NO_USER */
} cfdp_remote_t;

/* A transaction that has begun and not ended, as the entity knows it. */
typedef struct cfdp_transaction_t {
    uint64_t source;
    uint64_t seq;
    uint64_t peer;     /* the entity at the other end: the receiver of a file that is sent, the sender of one that is received */
    uint64_t size;     /* octets in the file; 0 if it isn't known yet */
    uint32_t sends;    /* 1 if this entity sends the file, 0 if it receives it */
    uint32_t service;  /* its class, 1 or 2 */
    uint32_t phase;    /* CFDP_ACTIVE .. */
    uint32_t progress; /* one more than the greatest offset that was sent or received */
    uint32_t sized;    /* 1 if the size is known: a receiver knows it once the Metadata has come */
    uint32_t events;   /* how many events it has accepted */
} cfdp_transaction_t;

/* What an event left. */
typedef struct cfdp_done_t {
    uint64_t source;  /* the event's transaction: its source entity and its number; 0 and 0 if it was refused */
    uint64_t seq;
    size_t pdus;      /* the number of PDUs to send; a refused PDU of an old transaction may get one in response */
    size_t timers;    /* the number of timer operations */
    uint32_t refusal; /* why the event was refused, 0 if it was taken; cfdp_refusal_name has the names */
    uint32_t fault;   /* the decoding fault, if the refusal is 20 (the datagram isn't a PDU) */
    uint32_t deposit; /* 1 if a received file waits for the file store, otherwise 0 */
} cfdp_done_t;

/* An operation on a timer. When a timer expires, call cfdp_timer with the stamp that it was started with. */
typedef struct cfdp_timer_op_t {
    uint64_t source;
    uint64_t seq;
    uint32_t stamp;
    uint32_t ms;   /* milliseconds until it expires; 0 if it is stopped */
    uint32_t kind; /* CFDP_TIMER_ACK .. */
    uint32_t arms; /* 1: start it, anew if it runs; 0: stop it */
} cfdp_timer_op_t;

/* A received file that waits for the file store. */
typedef struct cfdp_deposit_t {
    uint64_t source;
    uint64_t seq;
    uint32_t stamp;
} cfdp_deposit_t;

/* The lengths of a received file and of its names. */
typedef struct cfdp_image_t {
    size_t source_name;
    size_t destination_name;
    size_t octets;
    uint32_t refusal; /* why there is none, with CFDP_REFUSED */
} cfdp_image_t;

/* A bundle: the indications of one event to one user. */
typedef struct cfdp_bundle_t {
    uint64_t source;
    uint64_t seq;
    size_t user;
    size_t lane;
    size_t indications; /* at least one */
} cfdp_bundle_t;

/* An indication. Fields that its kind does not have are 0. */
typedef struct cfdp_indication_t {
    uint32_t kind;
    uint32_t condition; /* a condition code of the standard */
    uint32_t delivery;
    uint32_t status;
    uint32_t phase;
    uint32_t offset;
    uint32_t length;
    uint32_t progress; /* octets */
    uint64_t size;     /* octets in the file */
    uint64_t source;   /* the sending entity */
    size_t parts;      /* the number of texts: the file's name at the sender, its name at the receiver, the messages */
} cfdp_indication_t;

/*
 * Opens a handle: an entity with this configuration, a text in TOML (docs/configuration.md). With CFDP_BAD_CONFIG,
 * `fault` is the number of the fault, and `place` has the name of its key or table if there is room (24 octets are
 * enough); `place_len` is the length of that name. Also CFDP_OPEN, CFDP_NO_MEMORY.
 */
int32_t cfdp_open(cfdp_t *handle, const uint8_t *text, size_t text_len, uint32_t *fault, uint8_t *place, size_t room,
                  size_t *place_len);

/*
 * Copies a sentence that says why cfdp_open refuses this text: the line, the table, the key, what is found there, and what is
 * allowed, as cfdp_server says it. It ends without an octet 0. CFDP_NOTHING if the text is not refused; also CFDP_NO_ROOM,
 * and 600 octets are enough for most, CFDP_NO_MEMORY.
 */
int32_t cfdp_explain(const uint8_t *text, size_t text_len, uint8_t *buffer, size_t room, size_t *len);

/* Closes a handle and frees the entity, with all files in transit. Also CFDP_CLOSED. */
int32_t cfdp_close(cfdp_t *handle);

/*
 * Settings, as the lines `set` of scripts make them (docs/scripts.md). Each makes the entity anew, as if the configuration had
 * this value, with all settings before it; messages for the next Put stay. With any other code than CFDP_OK nothing has changed:
 * CFDP_TOO_LATE once the entity has received an event, even one that it refused (a call that returns neither CFDP_OK nor
 * CFDP_REFUSED passes none, and cfdp_tick only if it returns one of these); CFDP_NOT_ALLOWED for a number out of range, or a
 * handler that the role doesn't allow for the condition (docs/configuration.md has both); CFDP_BAD_NUMBER for a number that
 * stands for nothing; CFDP_NO_MEMORY.
 */

/* Changes a number: CFDP_SET_CAPACITY .. */
int32_t cfdp_set(cfdp_t *handle, uint32_t setting, uint64_t value);

/* Changes the handler of a condition (0 to 15) at a role, for every remote entity: CFDP_ROLE_SEND .., CFDP_HANDLER_CANCEL .. */
int32_t cfdp_set_handler(cfdp_t *handle, uint32_t role, uint32_t condition, uint32_t handler);

/*
 * Events. Each returns CFDP_OK or CFDP_REFUSED and fills `done`. Any other code means that there was no event, and
 * leaves `done` as it was.
 */

/* A datagram was received. Also CFDP_NO_MEMORY. */
int32_t cfdp_deliver(cfdp_t *handle, const uint8_t *octets, size_t len, cfdp_done_t *done);

/*
 * User number `user` sends a file from its sending lane number `lane` (both count from 0). `service` is the class, 1 or
 * 2; `closure` asks the receiver of class 1 for a Finished PDU. Messages that were added by cfdp_message go with it.
 * done.source and done.seq name the transaction. The file is copied. Its PDUs are sent one by one, each at a call of
 * cfdp_pump. Also CFDP_NO_MEMORY, CFDP_BAD_NUMBER, CFDP_UNKNOWN, CFDP_NO_NAME, CFDP_NAME_TOO_LONG.
 */
int32_t cfdp_put(cfdp_t *handle, size_t user, size_t lane, uint64_t destination, uint32_t service, bool closure,
                 const uint8_t *source_name, size_t source_name_len, const uint8_t *destination_name,
                 size_t destination_name_len, const uint8_t *file, size_t file_len, cfdp_done_t *done);

/* Adds a message to the user for the next Put; the next Put takes all of them, whatever it returns. */
int32_t cfdp_message(cfdp_t *handle, const uint8_t *octets, size_t len);

/* Drops the messages that were added for the next Put. */
int32_t cfdp_message_clear(cfdp_t *handle);

/* A user requests something of its transaction: CFDP_CANCEL .. Also CFDP_BAD_NUMBER, CFDP_UNKNOWN. */
int32_t cfdp_request(cfdp_t *handle, size_t user, uint32_t kind, uint64_t source, uint64_t seq, cfdp_done_t *done);

/*
 * The next PDU of a transaction may be sent: done.pdus is 1 while there is one. A sender has something to send after
 * CFDP_OK of a Put, of a pump that left a PDU, and of a delivery for its transaction.
 */
int32_t cfdp_pump(cfdp_t *handle, uint64_t source, uint64_t seq, cfdp_done_t *done);

/* A timer expired: the fields of the operation that started it. Also CFDP_BAD_NUMBER. */
int32_t cfdp_timer(cfdp_t *handle, uint64_t source, uint64_t seq, uint32_t kind, uint32_t stamp, cfdp_done_t *done);

/* The file store reports on a deposit: whether it keeps the file. */
int32_t cfdp_stored(cfdp_t *handle, uint64_t source, uint64_t seq, uint32_t stamp, bool kept, cfdp_done_t *done);

/*
 * Time and turns, for programs that leave them to the library.
 */

/*
 * It is `now`, in milliseconds on any clock of the program's that never goes back. If a timer has expired, the entity
 * gets the first such timer, as by cfdp_timer: CFDP_OK or CFDP_REFUSED, and `done` is filled. Carry out what it left, and
 * call again until it returns CFDP_NOTHING, which leaves `done` as it was. Timers stand in the order in which they were
 * started; one that is started anew while it runs keeps its place.
 *
 * From the first call on, the library keeps the timers of all later events: each is started at the time of the last
 * call. So call once after cfdp_open, and again whenever the program wakes up, before it passes other events. Timers
 * that an event started before the first call are not kept.
 *
 * If the entity refuses a timer since memory ran out or a queue is full (refusals 12 and 13), the timer goes back, behind
 * the others, and has still expired: take indications, then call again. With another refusal it is gone. CFDP_NO_MEMORY
 * if there was no memory to start a timer of the event before: nothing else has changed, and the call may be made again.
 * The same holds for every event then; no timer is lost.
 */
int32_t cfdp_tick(cfdp_t *handle, uint64_t now, cfdp_done_t *done);

/*
 * A time before which no timer expires, so that cfdp_tick need not be called before. It is the time at which the first
 * one expires, or an earlier one if a timer was stopped or started anew since: at that time cfdp_tick returns CFDP_NOTHING,
 * and the next answer is exact. CFDP_NOTHING if no timer runs. Also CFDP_NO_MEMORY, as cfdp_tick.
 */
int32_t cfdp_next_deadline(cfdp_t *handle, uint64_t *deadline);

/*
 * The transaction to call cfdp_pump for next: of those that may have something to send, the first from the sending lane
 * on whose turn it is, round all lanes of all users. A call of cfdp_pump passes the turn to the lane behind that of its
 * transaction. A transaction may have something to send after each of its events that the entity took, until a pump is
 * refused for another reason than memory and full queues. CFDP_NOTHING if none may.
 */
int32_t cfdp_next_pump(const cfdp_t *handle, cfdp_txn_t *txn);

/*
 * What the last event left, by index from 0; CFDP_NOTHING if the index is too large.
 */

/* Copies a PDU. A buffer of CFDP_PDU_MAX octets is enough. Also CFDP_NO_ROOM, CFDP_NO_MEMORY. */
int32_t cfdp_pdu(const cfdp_t *handle, size_t index, uint8_t *buffer, size_t room, size_t *len);

/* Returns the ID of the entity to which that PDU goes: cfdp_address has its address. */
int32_t cfdp_pdu_destination(const cfdp_t *handle, size_t index, uint64_t *id);

/* Returns a timer operation. Carry them out in order. */
int32_t cfdp_timer_op(const cfdp_t *handle, size_t index, cfdp_timer_op_t *op);

/* Returns the deposit, if done.deposit was 1. */
int32_t cfdp_deposit(const cfdp_t *handle, cfdp_deposit_t *deposit);

/*
 * Gets the file of a waiting deposit, keeps it, and returns its lengths. CFDP_REFUSED if no such deposit waits, or
 * memory ran out: image->refusal says which.
 */
int32_t cfdp_image(cfdp_t *handle, uint64_t source, uint64_t seq, uint32_t stamp, cfdp_image_t *image);

/*
 * Copies octets of that file from `offset` on: of its name at the sender (part 0), its name at the receiver (1), or its
 * content (2). Copies as many as there are and as the buffer holds, and says how many. CFDP_NOTHING if the offset is
 * beyond the end.
 */
int32_t cfdp_image_octets(const cfdp_t *handle, size_t part, size_t offset, uint8_t *buffer, size_t room, size_t *len);

/*
 * Indications wait in a queue for each user, in bundles. While a queue is full, events that would add to it are refused
 * (refusal 13) and may be tried again.
 */

/* Takes the bundle at the front of a user's queue. CFDP_NOTHING if none waits. Also CFDP_UNKNOWN. */
int32_t cfdp_take(cfdp_t *handle, size_t user, cfdp_bundle_t *bundle);

/* Returns an indication of the bundle that was taken last. */
int32_t cfdp_indication(const cfdp_t *handle, size_t index, cfdp_indication_t *indication);

/* Copies a text of an indication of that bundle: see `parts`. Also CFDP_NO_ROOM; 255 octets are enough. */
int32_t cfdp_octets(const cfdp_t *handle, size_t index, size_t part, uint8_t *buffer, size_t room, size_t *len);

/*
 * What the configuration says.
 */

/* The number of users, and of the sending lanes of each user. */
int32_t cfdp_users(const cfdp_t *handle, size_t *count);
int32_t cfdp_put_lanes(const cfdp_t *handle, size_t *count);

/* Copies the name of a user, by its number. CFDP_NOTHING if there is none; also CFDP_NO_ROOM, and 32 octets are enough. */
int32_t cfdp_user_name(const cfdp_t *handle, size_t user, uint8_t *buffer, size_t room, size_t *len);

/* The number of remote entities, and one of them by its place. */
int32_t cfdp_remotes(const cfdp_t *handle, size_t *count);
int32_t cfdp_remote(const cfdp_t *handle, size_t index, cfdp_remote_t *remote);

/*
 * Copies the address of the remote entity with this ID as the configuration has it: A.B.C.D:PORT, without an octet 0 at
 * its end. CFDP_NOTHING if there is no such entity; also CFDP_NO_ROOM, and 21 octets are enough.
 */
int32_t cfdp_address(const cfdp_t *handle, uint64_t id, uint8_t *buffer, size_t room, size_t *len);

/*
 * What the entity is at, by lane. In each lane at most one transaction runs; a bundle names its lane likewise.
 */

/* The number of lanes of a user: first those in which it sends, then those in which it receives. CFDP_NOTHING if there is no such user. */
int32_t cfdp_lanes(const cfdp_t *handle, size_t user, size_t *count);

/*
 * Returns the transaction that runs in a lane of a user. CFDP_NOTHING if none does, or there is no such lane or user. It is no
 * event: nothing changes. Also CFDP_NO_MEMORY.
 */
int32_t cfdp_transaction(const cfdp_t *handle, size_t user, size_t lane, cfdp_transaction_t *transaction);

/* Copies the name of a code of the library, or of a refusal; CFDP_NOTHING for other numbers. 24 octets are enough. */
int32_t cfdp_error_name(int32_t code, uint8_t *buffer, size_t room, size_t *len);
int32_t cfdp_refusal_name(uint32_t refusal, uint8_t *buffer, size_t room, size_t *len);

/* The version of this interface. A program that was compiled with another one must not call the library. */
#define CFDP_VERSION 1u
uint32_t cfdp_version(void);

/* ---- texts, which are there as long as the program runs */

/* What a code says. */
static inline const char *cfdp_strerror(int32_t code) {
    switch (code) {
    case CFDP_OK: return "done";
    case CFDP_REFUSED: return "the entity refused the event";
    case CFDP_NOTHING: return "there is no such thing";
    case CFDP_CLOSED: return "the handle is closed";
    case CFDP_OPEN: return "the handle is open already";
    case CFDP_NO_MEMORY: return "memory ran out";
    case CFDP_NO_ROOM: return "the buffer is too small";
    case CFDP_BAD_NUMBER: return "no class, timer, request or setting has this number";
    case CFDP_UNKNOWN: return "the entity has no such user or sending lane";
    case CFDP_BAD_CONFIG: return "the configuration was refused";
    case CFDP_NO_NAME: return "a file name is empty";
    case CFDP_NAME_TOO_LONG: return "a file name has more than 255 octets";
    case CFDP_MESSAGE_TOO_LONG: return "a message has more than 255 octets";
    case CFDP_TOO_MANY_MESSAGES: return "a Put has more than 4 messages";
    case CFDP_NULL: return "a pointer is null";
    case CFDP_NOT_ALLOWED: return "the setting may not have this value";
    case CFDP_TOO_LATE: return "the entity has received an event, and no setting may follow";
    default: return "unknown code";
    }
}

/* The name of a condition code of the standard. */
static inline const char *cfdp_condition_text(uint32_t condition) {
    switch (condition) {
    case 0: return "No error";
    case 1: return "Positive ACK limit reached";
    case 2: return "Keep alive limit reached";
    case 3: return "Invalid transmission mode";
    case 4: return "Filestore rejection";
    case 5: return "File checksum failure";
    case 6: return "File size error";
    case 7: return "NAK limit reached";
    case 8: return "Inactivity detected";
    case 9: return "Invalid file structure";
    case 10: return "Check limit reached";
    case 11: return "Unsupported checksum type";
    case 14: return "Suspend.request received";
    case 15: return "Cancel.request received";
    default: return "unknown condition";
    }
}

/* The name of a kind of indication. */
static inline const char *cfdp_kind_text(uint32_t kind) {
    switch (kind) {
    case CFDP_IND_TRANSACTION: return "Transaction";
    case CFDP_IND_EOF_SENT: return "EOF-Sent";
    case CFDP_IND_EOF_RECV: return "EOF-Recv";
    case CFDP_IND_FINISHED: return "Transaction-Finished";
    case CFDP_IND_METADATA_RECV: return "Metadata-Recv";
    case CFDP_IND_FILE_SEGMENT_RECV: return "File-Segment-Recv";
    case CFDP_IND_SUSPENDED: return "Suspended";
    case CFDP_IND_RESUMED: return "Resumed";
    case CFDP_IND_REPORT: return "Report";
    case CFDP_IND_FAULT: return "Fault";
    case CFDP_IND_ABANDONED: return "Abandoned";
    default: return "unknown indication";
    }
}

/* The name of a timer. */
static inline const char *cfdp_timer_text(uint32_t kind) {
    switch (kind) {
    case CFDP_TIMER_ACK: return "ACK";
    case CFDP_TIMER_NAK: return "NAK";
    case CFDP_TIMER_CHECK: return "Check";
    case CFDP_TIMER_INACTIVITY: return "Inactivity";
    default: return "unknown timer";
    }
}

/* What the decoding fault of a datagram says (`fault` with refusal 20). */
static inline const char *cfdp_decode_text(uint32_t fault) {
    switch (fault) {
    case 1: return "too short for a header";
    case 2: return "not version 1 of the protocol";
    case 3: return "the CRC flag is set, and this entity computes no CRC";
    case 5: return "the data field's length is not the datagram's";
    case 6: return "unknown directive";
    case 7: return "the data field is cut, or goes on after its last field";
    case 8: return "a file name is empty";
    case 9: return "memory ran out";
    default: return "unknown fault";
    }
}

/* What the fault of a configuration says (`fault` of cfdp_open). */
static inline const char *cfdp_config_text(uint32_t fault) {
    switch (fault) {
    case 1: return "not TOML";
    case 2: return "a key is missing";
    case 3: return "a value has the wrong type";
    case 4: return "a value is out of range";
    case 5: return "unknown key";
    case 6: return "two users have one name";
    case 7: return "two remote entities have one ID, or one has this entity's";
    case 8: return "unknown user";
    case 9: return "more than eight remote entities have one user";
    case 10: return "a handler that the table may not have";
    case 11: return "not an address A.B.C.D:PORT";
    case 12: return "memory ran out";
    default: return "unknown fault";
    }
}

/* ---- tests of null pointers, before the calls */

#ifndef CFDP_UNCHECKED

/* Somewhere to point at, beside a length of 0. */
static inline const uint8_t *cfdp_some(const uint8_t *octets) {
    static const uint8_t none[1] = { 0 };
    return octets ? octets : none;
}

static inline int32_t cfdp_checked_open(cfdp_t *h, const uint8_t *text, size_t len, uint32_t *fault, uint8_t *place,
                                        size_t room, size_t *place_len) {
    uint8_t none[1];
    if (!h || (!text && len) || !fault || (!place && room) || !place_len) return CFDP_NULL;
    return cfdp_open(h, cfdp_some(text), len, fault, place ? place : none, room, place_len);
}
static inline int32_t cfdp_checked_explain(const uint8_t *text, size_t text_len, uint8_t *buffer, size_t room, size_t *len) {
    uint8_t none[1];
    if ((!text && text_len) || (!buffer && room) || !len) return CFDP_NULL;
    return cfdp_explain(cfdp_some(text), text_len, buffer ? buffer : none, room, len);
}
static inline int32_t cfdp_checked_close(cfdp_t *h) { return h ? cfdp_close(h) : CFDP_NULL; }
static inline int32_t cfdp_checked_deliver(cfdp_t *h, const uint8_t *octets, size_t len, cfdp_done_t *done) {
    return h && (octets || !len) && done ? cfdp_deliver(h, cfdp_some(octets), len, done) : CFDP_NULL;
}
static inline int32_t cfdp_checked_put(cfdp_t *h, size_t user, size_t lane, uint64_t destination, uint32_t service,
                                       bool closure, const uint8_t *source_name, size_t source_name_len,
                                       const uint8_t *destination_name, size_t destination_name_len,
                                       const uint8_t *file, size_t file_len, cfdp_done_t *done) {
    if (!h) return CFDP_NULL;
    if ((!source_name && source_name_len) || (!destination_name && destination_name_len) || (!file && file_len) || !done) {
        (void)cfdp_message_clear(h);
        return CFDP_NULL;
    }
    return cfdp_put(h, user, lane, destination, service, closure, cfdp_some(source_name), source_name_len,
                    cfdp_some(destination_name), destination_name_len, cfdp_some(file), file_len, done);
}
static inline int32_t cfdp_checked_message(cfdp_t *h, const uint8_t *octets, size_t len) {
    return h && (octets || !len) ? cfdp_message(h, cfdp_some(octets), len) : CFDP_NULL;
}
static inline int32_t cfdp_checked_message_clear(cfdp_t *h) { return h ? cfdp_message_clear(h) : CFDP_NULL; }
static inline int32_t cfdp_checked_request(cfdp_t *h, size_t user, uint32_t kind, uint64_t source, uint64_t seq,
                                           cfdp_done_t *done) {
    return h && done ? cfdp_request(h, user, kind, source, seq, done) : CFDP_NULL;
}
static inline int32_t cfdp_checked_pump(cfdp_t *h, uint64_t source, uint64_t seq, cfdp_done_t *done) {
    return h && done ? cfdp_pump(h, source, seq, done) : CFDP_NULL;
}
static inline int32_t cfdp_checked_timer(cfdp_t *h, uint64_t source, uint64_t seq, uint32_t kind, uint32_t stamp,
                                         cfdp_done_t *done) {
    return h && done ? cfdp_timer(h, source, seq, kind, stamp, done) : CFDP_NULL;
}
static inline int32_t cfdp_checked_stored(cfdp_t *h, uint64_t source, uint64_t seq, uint32_t stamp, bool kept,
                                          cfdp_done_t *done) {
    return h && done ? cfdp_stored(h, source, seq, stamp, kept, done) : CFDP_NULL;
}
static inline int32_t cfdp_checked_pdu(const cfdp_t *h, size_t index, uint8_t *buffer, size_t room, size_t *len) {
    uint8_t none[1];
    return h && (buffer || !room) && len ? cfdp_pdu(h, index, buffer ? buffer : none, room, len) : CFDP_NULL;
}
static inline int32_t cfdp_checked_timer_op(const cfdp_t *h, size_t index, cfdp_timer_op_t *op) {
    return h && op ? cfdp_timer_op(h, index, op) : CFDP_NULL;
}
static inline int32_t cfdp_checked_deposit(const cfdp_t *h, cfdp_deposit_t *deposit) {
    return h && deposit ? cfdp_deposit(h, deposit) : CFDP_NULL;
}
static inline int32_t cfdp_checked_image(cfdp_t *h, uint64_t source, uint64_t seq, uint32_t stamp, cfdp_image_t *image) {
    return h && image ? cfdp_image(h, source, seq, stamp, image) : CFDP_NULL;
}
static inline int32_t cfdp_checked_image_octets(const cfdp_t *h, size_t part, size_t offset, uint8_t *buffer, size_t room,
                                                size_t *len) {
    uint8_t none[1];
    return h && (buffer || !room) && len ? cfdp_image_octets(h, part, offset, buffer ? buffer : none, room, len) : CFDP_NULL;
}
static inline int32_t cfdp_checked_take(cfdp_t *h, size_t user, cfdp_bundle_t *bundle) {
    return h && bundle ? cfdp_take(h, user, bundle) : CFDP_NULL;
}
static inline int32_t cfdp_checked_indication(const cfdp_t *h, size_t index, cfdp_indication_t *indication) {
    return h && indication ? cfdp_indication(h, index, indication) : CFDP_NULL;
}
static inline int32_t cfdp_checked_octets(const cfdp_t *h, size_t index, size_t part, uint8_t *buffer, size_t room, size_t *len) {
    uint8_t none[1];
    return h && (buffer || !room) && len ? cfdp_octets(h, index, part, buffer ? buffer : none, room, len) : CFDP_NULL;
}
static inline int32_t cfdp_checked_users(const cfdp_t *h, size_t *count) { return h && count ? cfdp_users(h, count) : CFDP_NULL; }
static inline int32_t cfdp_checked_put_lanes(const cfdp_t *h, size_t *count) {
    return h && count ? cfdp_put_lanes(h, count) : CFDP_NULL;
}
static inline int32_t cfdp_checked_set(cfdp_t *h, uint32_t setting, uint64_t value) {
    return h ? cfdp_set(h, setting, value) : CFDP_NULL;
}
static inline int32_t cfdp_checked_set_handler(cfdp_t *h, uint32_t role, uint32_t condition, uint32_t handler) {
    return h ? cfdp_set_handler(h, role, condition, handler) : CFDP_NULL;
}
static inline int32_t cfdp_checked_tick(cfdp_t *h, uint64_t now, cfdp_done_t *done) {
    return h && done ? cfdp_tick(h, now, done) : CFDP_NULL;
}
static inline int32_t cfdp_checked_next_deadline(cfdp_t *h, uint64_t *deadline) {
    return h && deadline ? cfdp_next_deadline(h, deadline) : CFDP_NULL;
}
static inline int32_t cfdp_checked_next_pump(const cfdp_t *h, cfdp_txn_t *txn) {
    return h && txn ? cfdp_next_pump(h, txn) : CFDP_NULL;
}
static inline int32_t cfdp_checked_pdu_destination(const cfdp_t *h, size_t index, uint64_t *id) {
    return h && id ? cfdp_pdu_destination(h, index, id) : CFDP_NULL;
}
static inline int32_t cfdp_checked_user_name(const cfdp_t *h, size_t user, uint8_t *buffer, size_t room, size_t *len) {
    uint8_t none[1];
    return h && (buffer || !room) && len ? cfdp_user_name(h, user, buffer ? buffer : none, room, len) : CFDP_NULL;
}
static inline int32_t cfdp_checked_remotes(const cfdp_t *h, size_t *count) {
    return h && count ? cfdp_remotes(h, count) : CFDP_NULL;
}
static inline int32_t cfdp_checked_remote(const cfdp_t *h, size_t index, cfdp_remote_t *remote) {
    return h && remote ? cfdp_remote(h, index, remote) : CFDP_NULL;
}
static inline int32_t cfdp_checked_lanes(const cfdp_t *h, size_t user, size_t *count) {
    return h && count ? cfdp_lanes(h, user, count) : CFDP_NULL;
}
static inline int32_t cfdp_checked_transaction(const cfdp_t *h, size_t user, size_t lane, cfdp_transaction_t *transaction) {
    return h && transaction ? cfdp_transaction(h, user, lane, transaction) : CFDP_NULL;
}
static inline int32_t cfdp_checked_address(const cfdp_t *h, uint64_t id, uint8_t *buffer, size_t room, size_t *len) {
    uint8_t none[1];
    return h && (buffer || !room) && len ? cfdp_address(h, id, buffer ? buffer : none, room, len) : CFDP_NULL;
}
static inline int32_t cfdp_checked_error_name(int32_t code, uint8_t *buffer, size_t room, size_t *len) {
    uint8_t none[1];
    return (buffer || !room) && len ? cfdp_error_name(code, buffer ? buffer : none, room, len) : CFDP_NULL;
}
static inline int32_t cfdp_checked_refusal_name(uint32_t refusal, uint8_t *buffer, size_t room, size_t *len) {
    uint8_t none[1];
    return (buffer || !room) && len ? cfdp_refusal_name(refusal, buffer ? buffer : none, room, len) : CFDP_NULL;
}

#define cfdp_open cfdp_checked_open
#define cfdp_explain cfdp_checked_explain
#define cfdp_close cfdp_checked_close
#define cfdp_deliver cfdp_checked_deliver
#define cfdp_put cfdp_checked_put
#define cfdp_message cfdp_checked_message
#define cfdp_message_clear cfdp_checked_message_clear
#define cfdp_request cfdp_checked_request
#define cfdp_pump cfdp_checked_pump
#define cfdp_timer cfdp_checked_timer
#define cfdp_stored cfdp_checked_stored
#define cfdp_pdu cfdp_checked_pdu
#define cfdp_timer_op cfdp_checked_timer_op
#define cfdp_deposit cfdp_checked_deposit
#define cfdp_image cfdp_checked_image
#define cfdp_image_octets cfdp_checked_image_octets
#define cfdp_take cfdp_checked_take
#define cfdp_indication cfdp_checked_indication
#define cfdp_octets cfdp_checked_octets
#define cfdp_users cfdp_checked_users
#define cfdp_put_lanes cfdp_checked_put_lanes
#define cfdp_set cfdp_checked_set
#define cfdp_set_handler cfdp_checked_set_handler
#define cfdp_tick cfdp_checked_tick
#define cfdp_next_deadline cfdp_checked_next_deadline
#define cfdp_next_pump cfdp_checked_next_pump
#define cfdp_pdu_destination cfdp_checked_pdu_destination
#define cfdp_user_name cfdp_checked_user_name
#define cfdp_remotes cfdp_checked_remotes
#define cfdp_remote cfdp_checked_remote
#define cfdp_address cfdp_checked_address
#define cfdp_lanes cfdp_checked_lanes
#define cfdp_transaction cfdp_checked_transaction
#define cfdp_error_name cfdp_checked_error_name
#define cfdp_refusal_name cfdp_checked_refusal_name

#endif /* CFDP_UNCHECKED */

/* Opens a handle by a configuration in a string, and doesn't say where a fault is. */
static inline int32_t cfdp_open_text(cfdp_t *handle, const char *text) {
    uint32_t fault = 0;
    uint8_t place[1];
    size_t len = 0;
    if (!text) return CFDP_NULL;
    return cfdp_open(handle, (const uint8_t *)text, strlen(text), &fault, place, sizeof place, &len);
}

#ifdef __cplusplus
}
#endif

#endif /* CFDP_H */
