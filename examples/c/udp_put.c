/*
 * Puts a file over UDP into a running server: what cfdp_put does, in C.
 *
 *     udp_put CONFIGURATION FILE NAME OWN_PORT SERVER_PORT REMOTE
 *
 * CONFIGURATION is the text of this entity's configuration, NAME the file's name at the server, REMOTE the server's entity
 * ID. Both ports are on the loopback. Ends with status 0 once the server has the file, and gives up after a minute.
 */
#include <cfdp.h>
#include <arpa/inet.h>
#include <poll.h>
#include <stdio.h>
#include <stdlib.h>
#include <sys/socket.h>
#include <time.h>
#include <unistd.h>

enum { DATAGRAM_OCTETS = 65536, FILE_OCTETS = 16777216, LASTS_MS = 60000, PACE_MS = 1 };

static cfdp_t entity = CFDP_INIT;
static int line = -1;
static struct sockaddr_in server;
static int ended = -1; /* the delivery code, once the transaction has ended */

static void give_up(const char *why) {
    fprintf(stderr, "udp_put: %s\n", why);
    exit(2);
}

static uint64_t now_ms(void) {
    struct timespec t;
    clock_gettime(CLOCK_MONOTONIC, &t);
    return (uint64_t)t.tv_sec * 1000 + (uint64_t)t.tv_nsec / 1000000;
}

static size_t read_file(const char *path, uint8_t *to, size_t room) {
    FILE *from = fopen(path, "rb");
    if (!from) give_up(path);
    size_t length = fread(to, 1, room, from);
    if (ferror(from) || (length == room && fgetc(from) != EOF)) give_up("a file that can't be read, or is too large");
    fclose(from);
    return length;
}

/* Sends what the event left. */
static void carry_out(int32_t code, const cfdp_done_t *done) {
    static uint8_t octets[DATAGRAM_OCTETS];
    size_t length;
    if (code != CFDP_OK && code != CFDP_REFUSED) give_up("an event that can't be passed");
    for (size_t i = 0; i < done->pdus; i++)
        if (cfdp_pdu(&entity, i, octets, sizeof octets, &length) == CFDP_OK)
            /* what the network loses is asked for again */
            (void)!sendto(line, octets, length, 0, (struct sockaddr *)&server, sizeof server);
}

/* Reads the user's indications: how the transaction ended. */
static void listen_to_entity(void) {
    cfdp_bundle_t bundle;
    cfdp_indication_t told;
    while (cfdp_take(&entity, 0, &bundle) == CFDP_OK)
        for (size_t i = 0; i < bundle.indications; i++)
            if (cfdp_indication(&entity, i, &told) == CFDP_OK) {
                if (told.kind == CFDP_IND_FINISHED) ended = (int)told.delivery;
                if (told.kind == CFDP_IND_ABANDONED) ended = CFDP_INCOMPLETE;
            }
}

/* Tells the entity the time, until no more timer has expired. */
static void tick(void) {
    cfdp_done_t done;
    int32_t code;
    while ((code = cfdp_tick(&entity, now_ms(), &done)) != CFDP_NOTHING) {
        carry_out(code, &done);
        if (code == CFDP_REFUSED) return;
    }
}

/* For how many milliseconds there is nothing to do but to receive. */
static int wait_ms(void) {
    uint64_t now = now_ms(), deadline;
    cfdp_txn_t txn;
    if (cfdp_next_pump(&entity, &txn) == CFDP_OK) return PACE_MS;
    if (cfdp_next_deadline(&entity, &deadline) != CFDP_OK || deadline > now + 100) return 100;
    return deadline > now ? (int)(deadline - now) : 0;
}

static void receive(void) {
    static uint8_t octets[DATAGRAM_OCTETS];
    cfdp_done_t done;
    ssize_t length;
    while ((length = recv(line, octets, sizeof octets, MSG_DONTWAIT)) >= 0)
        carry_out(cfdp_deliver(&entity, octets, (size_t)length, &done), &done);
}

static void open_line(int own_port, int server_port) {
    struct sockaddr_in own = { .sin_family = AF_INET, .sin_port = htons((uint16_t)own_port) };
    own.sin_addr.s_addr = htonl(INADDR_LOOPBACK);
    server = own;
    server.sin_port = htons((uint16_t)server_port);
    line = socket(AF_INET, SOCK_DGRAM, 0);
    if (line < 0 || bind(line, (struct sockaddr *)&own, sizeof own)) give_up("no socket");
}

static cfdp_txn_t start(const char *configuration, const char *path, const char *name, uint64_t remote) {
    static uint8_t text[65536];
    uint8_t *file = malloc(FILE_OCTETS), place[32], sentence[1000];
    size_t place_len = 0;
    uint32_t fault = 0;
    cfdp_done_t done;
    if (!file) give_up("no memory");
    size_t length = read_file(configuration, text, sizeof text), said = 0;
    int32_t code = cfdp_open(&entity, text, length, &fault, place, sizeof place, &place_len);
    if (code == CFDP_BAD_CONFIG && cfdp_explain(text, length, sentence, sizeof sentence, &said) == CFDP_OK)
        fprintf(stderr, "udp_put: %.*s\n", (int)said, (const char *)sentence);
    if (code != CFDP_OK) give_up("the configuration was refused");
    tick();
    code = cfdp_put(&entity, 0, 0, remote, 2, false, (const uint8_t *)path, strlen(path), (const uint8_t *)name, strlen(name),
                    file, read_file(path, file, FILE_OCTETS), &done);
    free(file);
    if (code != CFDP_OK) give_up("the put was refused");
    carry_out(code, &done);
    return (cfdp_txn_t) { done.source, done.seq };
}

int main(int count, char **words) {
    if (count != 7) give_up("usage: udp_put CONFIGURATION FILE NAME OWN_PORT SERVER_PORT REMOTE");
    open_line(atoi(words[4]), atoi(words[5]));
    cfdp_txn_t put = start(words[1], words[2], words[3], strtoull(words[6], NULL, 10)), next;
    uint64_t last = now_ms() + LASTS_MS;
    while (ended < 0 && now_ms() < last) {
        struct pollfd wait = { .fd = line, .events = POLLIN };
        cfdp_done_t done;
        int ready = poll(&wait, 1, wait_ms());
        tick();
        if (ready > 0) receive();
        if (cfdp_next_pump(&entity, &next) == CFDP_OK) carry_out(cfdp_pump(&entity, next.source, next.seq, &done), &done);
        listen_to_entity();
    }
    printf("transaction %llu %llu: %s\n", (unsigned long long)put.source, (unsigned long long)put.seq,
           ended == CFDP_COMPLETE ? "the server has the file" : ended < 0 ? "no end in a minute" : "incomplete");
    cfdp_close(&entity);
    close(line);
    return ended == CFDP_COMPLETE ? 0 : 1;
}
