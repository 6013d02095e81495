/*
 * An entity without a heap: all of the library's memory comes from an array of fixed size. The program defines cfdp_malloc,
 * cfdp_realloc and cfdp_free, so the linker takes none of the C library's for libcfdp.a. It receives files until the memory
 * is used up, and prints what became of them.
 *
 * The blocks are of one list, each with its size before it; a block goes to the first gap in which it fits.
 */
#include <cfdp.h>
#include <stdio.h>

enum { ARENA_OCTETS = 24 * 1024, UNIT = 16 };

/* Before each block: its octets with this head, and whether it is used. */
typedef struct {
    size_t size;
    size_t used;
} head_t;

static _Alignas(UNIT) unsigned char arena[ARENA_OCTETS];
static size_t in_use, most_in_use;

static head_t *next_of(head_t *head) { return (head_t *)((unsigned char *)head + head->size); }

static bool is_last(const head_t *head) { return (const unsigned char *)head + head->size == arena + ARENA_OCTETS; }

static head_t *first_head(void) {
    head_t *head = (head_t *)arena;
    if (!head->size) head->size = ARENA_OCTETS;
    return head;
}

/* The head of a block, before it. */
static head_t *head_of(void *block) { return (head_t *)((unsigned char *)block - sizeof(head_t)); }

/* Joins a gap with the gaps behind it. */
static void join(head_t *head) {
    while (!head->used && !is_last(head) && !next_of(head)->used) head->size += next_of(head)->size;
}

void *cfdp_malloc(size_t size) {
    if (size > ARENA_OCTETS) return NULL;
    size_t wanted = sizeof(head_t) + (size + UNIT - 1) / UNIT * UNIT;
    for (head_t *head = first_head();; head = next_of(head)) {
        join(head);
        if (!head->used && head->size >= wanted) {
            if (head->size > wanted) {
                size_t rest = head->size - wanted;
                head->size = wanted;
                *next_of(head) = (head_t) { rest, 0 };
            }
            head->used = 1;
            in_use += head->size;
            if (in_use > most_in_use) most_in_use = in_use;
            return head + 1;
        }
        if (is_last(head)) return NULL;
    }
}

void cfdp_free(void *block) {
    if (!block) return;
    head_of(block)->used = 0;
    in_use -= head_of(block)->size;
}

void *cfdp_realloc(void *block, size_t size) {
    size_t held = block ? head_of(block)->size - sizeof(head_t) : 0;
    void *moved = cfdp_malloc(size);
    if (!moved) return NULL;
    if (block) {
        memcpy(moved, block, held < size ? held : size);
        cfdp_free(block);
    }
    return moved;
}

static const char CONFIGURATION[] =
    "[entity]\nid = 2\nid_octets = 1\nseq_octets = 1\nfirst = 1\nput_lanes = 1\nrecv_lanes = 1\ncapacity = 4\nsegment = 256\n"
    "[[user]]\nname = \"ops\"\n[[remote]]\nid = 1\naddress = \"127.0.0.1:7001\"\nuser = \"ops\"\n"
    "ack_ms = 1000\nnak_ms = 1000\ncheck_ms = 1000\ninactivity_ms = 9000\nack_limit = 3\nnak_limit = 3\ncheck_limit = 3\n";

/* Receives a file of zeros in class 1, and takes what the user is told: the code of the event that failed, or OK. */
static int32_t receive(cfdp_t *entity, uint8_t number, uint32_t octets) {
    uint8_t metadata[] = { 0x24, 0, 0x0a, 0, 1, number, 2, 7, 0, 0, 0, (uint8_t)(octets >> 8), (uint8_t)octets, 1, 'a', 1, 'b' };
    uint8_t end[] = { 0x24, 0, 0x0a, 0, 1, number, 2, 4, 0, 0, 0, 0, 0, 0, 0, (uint8_t)(octets >> 8), (uint8_t)octets };
    uint8_t data[7 + 4 + 256] = { 0x34, 1, 4, 0, 1, number, 2 };
    cfdp_done_t done;
    cfdp_bundle_t bundle;
    cfdp_deposit_t deposit;
    int32_t code = cfdp_deliver(entity, metadata, sizeof metadata, &done);
    for (uint32_t at = 0; code == CFDP_OK && at < octets; at += 256) {
        data[9] = (uint8_t)(at >> 8);
        data[10] = (uint8_t)at;
        code = cfdp_deliver(entity, data, sizeof data, &done);
        while (cfdp_take(entity, 0, &bundle) == CFDP_OK) continue;
    }
    if (code == CFDP_OK) code = cfdp_deliver(entity, end, sizeof end, &done);
    if (code == CFDP_OK && cfdp_deposit(entity, &deposit) == CFDP_OK)
        code = cfdp_stored(entity, deposit.source, deposit.seq, deposit.stamp, true, &done);
    while (cfdp_take(entity, 0, &bundle) == CFDP_OK) continue;
    if (code == CFDP_REFUSED && done.refusal == 12) return CFDP_NO_MEMORY;
    return code;
}

int main(void) {
    cfdp_t entity = CFDP_INIT;
    if (cfdp_open_text(&entity, CONFIGURATION) != CFDP_OK) return 1;
    printf("2 KiB: %s\n", cfdp_strerror(receive(&entity, 5, 2048)));
    printf("60 KiB: %s\n", cfdp_strerror(receive(&entity, 6, 61440)));
    if (cfdp_close(&entity) != CFDP_OK) return 1;
    printf("%s\n", in_use ? "memory is left in use" : "all memory is free again");
    return most_in_use <= ARENA_OCTETS && !in_use ? 0 : 1;
}
