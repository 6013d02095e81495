/*
 * Two entities in one process. A file goes from one to the other in class 2, over a list of datagrams that loses every
 * third one, with timers by a clock that is only a number.
 *
 *     cc loopback.c $(pkg-config --cflags --libs cfdp) && ./a.out
 */
#include <cfdp.h>
#include <stdio.h>
#include <stdlib.h>

enum { FILE_OCTETS = 3000, DATAGRAMS = 64, DATAGRAM_OCTETS = 1500, TIMERS = 16, LOSE_EACH = 3 };

/* A datagram on its way to a station. */
typedef struct {
    int to;
    size_t length;
    uint8_t octets[DATAGRAM_OCTETS];
} datagram_t;

/* A timer that runs. */
typedef struct {
    bool runs;
    uint64_t due;
    cfdp_timer_op_t op;
} armed_t;

typedef struct {
    cfdp_t entity;
    armed_t timers[TIMERS];
    bool may_send;      /* the transaction that it sends may have a PDU due */
    uint64_t source, seq;
    bool has_finished;
} station_t;

static station_t stations[2];
static datagram_t line[DATAGRAMS];
static size_t first, count, sent, lost;
static uint64_t now;
static uint8_t file[FILE_OCTETS];

static void must(bool holds, const char *what) {
    if (!holds) {
        fprintf(stderr, "loopback: %s\n", what);
        exit(1);
    }
}

/* Puts a PDU on the line, unless it is lost. */
static void send_pdu(int from, size_t index) {
    must(count < DATAGRAMS, "the line is full");
    datagram_t *datagram = &line[(first + count) % DATAGRAMS];
    must(cfdp_pdu(&stations[from].entity, index, datagram->octets, DATAGRAM_OCTETS, &datagram->length) == CFDP_OK, "a PDU");
    sent++;
    if (sent % LOSE_EACH == 0) {
        lost++;
        return;
    }
    datagram->to = 1 - from;
    count++;
}

/* Starts or stops a timer. */
static void set_timer(station_t *station, size_t index) {
    cfdp_timer_op_t op;
    armed_t *free_one = NULL;
    must(cfdp_timer_op(&station->entity, index, &op) == CFDP_OK, "a timer operation");
    for (int i = 0; i < TIMERS; i++) {
        armed_t *timer = &station->timers[i];
        bool is_same = timer->op.kind == op.kind && timer->op.source == op.source && timer->op.seq == op.seq;
        if (timer->runs && is_same) timer->runs = false;
        if (!timer->runs) free_one = timer;
    }
    if (!op.arms) return;
    must(free_one != NULL, "too many timers");
    *free_one = (armed_t) { .runs = true, .due = now + op.ms, .op = op };
}

/* Compares the received file with the one that was sent, and tells the entity that it is kept. */
static void store(int at) {
    static uint8_t received[FILE_OCTETS];
    cfdp_t *entity = &stations[at].entity;
    cfdp_deposit_t deposit;
    cfdp_image_t image;
    size_t length = 0;
    must(cfdp_deposit(entity, &deposit) == CFDP_OK, "a deposit");
    must(cfdp_image(entity, deposit.source, deposit.seq, deposit.stamp, &image) == CFDP_OK, "a file");
    must(image.octets == FILE_OCTETS, "the file's length");
    must(cfdp_image_octets(entity, 2, 0, received, sizeof received, &length) == CFDP_OK && length == FILE_OCTETS, "octets");
    must(!memcmp(received, file, FILE_OCTETS), "the file's content");
    printf("%6llu ms  the file is complete: %zu octets\n", (unsigned long long)now, image.octets);
    cfdp_done_t done;
    must(cfdp_stored(entity, deposit.source, deposit.seq, deposit.stamp, true, &done) == CFDP_OK, "stored");
    for (size_t i = 0; i < done.pdus; i++) send_pdu(at, i);
    for (size_t i = 0; i < done.timers; i++) set_timer(&stations[at], i);
}

/* Carries out what an event left. */
static void carry_out(int at, int32_t code, const cfdp_done_t *done) {
    must(code == CFDP_OK || code == CFDP_REFUSED, "an event");
    for (size_t i = 0; i < done->pdus; i++) send_pdu(at, i);
    for (size_t i = 0; i < done->timers; i++) set_timer(&stations[at], i);
    if (done->deposit) store(at);
    if (code == CFDP_OK) stations[at].may_send = true;
}

/* Prints the indications that wait for the station's user. */
static void listen(int at) {
    cfdp_bundle_t bundle;
    cfdp_indication_t told;
    while (cfdp_take(&stations[at].entity, 0, &bundle) == CFDP_OK) {
        for (size_t i = 0; i < bundle.indications; i++) {
            must(cfdp_indication(&stations[at].entity, i, &told) == CFDP_OK, "an indication");
            if (told.kind != CFDP_IND_FINISHED) continue;
            printf("%6llu ms  %s: finished, condition %u, %s\n", (unsigned long long)now, at ? "receiver" : "sender",
                   told.condition, told.delivery == CFDP_COMPLETE ? "complete" : "incomplete");
            stations[at].has_finished = true;
        }
    }
}

/* One thing that is due: a datagram that arrives, a PDU that may be sent, or else the next timer. */
static void turn(void) {
    cfdp_done_t done;
    if (count) {
        datagram_t *datagram = &line[first];
        int to = datagram->to;
        first = (first + 1) % DATAGRAMS;
        count--;
        carry_out(to, cfdp_deliver(&stations[to].entity, datagram->octets, datagram->length, &done), &done);
        return;
    }
    if (stations[0].may_send) {
        int32_t code = cfdp_pump(&stations[0].entity, stations[0].source, stations[0].seq, &done);
        carry_out(0, code, &done);
        stations[0].may_send = code == CFDP_OK && done.pdus;
        return;
    }
    armed_t *next = NULL;
    int at = 0;
    for (int s = 0; s < 2; s++)
        for (int i = 0; i < TIMERS; i++) {
            armed_t *timer = &stations[s].timers[i];
            if (timer->runs && (!next || timer->due < next->due)) {
                next = timer;
                at = s;
            }
        }
    must(next != NULL, "nothing is due");
    now = next->due;
    next->runs = false;
    carry_out(at, cfdp_timer(&stations[at].entity, next->op.source, next->op.seq, next->op.kind, next->op.stamp, &done), &done);
}

static void open_station(int at) {
    char text[1024];
    snprintf(text, sizeof text,
             "[entity]\nid = %d\nid_octets = 1\nseq_octets = 2\nfirst = 1\nput_lanes = 1\nrecv_lanes = 1\ncapacity = 64\n"
             "segment = 256\n[[user]]\nname = \"pilot\"\n[[remote]]\nid = %d\naddress = \"127.0.0.1:1\"\nuser = \"pilot\"\n"
             "ack_ms = 200\nnak_ms = 200\ncheck_ms = 200\ninactivity_ms = 10000\nack_limit = 9\nnak_limit = 9\ncheck_limit = 9\n",
             at + 1, 2 - at);
    must(cfdp_open_text(&stations[at].entity, text) == CFDP_OK, "a configuration");
}

int main(void) {
    static const uint8_t here[] = "orbit.bin", there[] = "copy.bin", note[] = "pass 12";
    cfdp_done_t done;
    must(cfdp_version() == CFDP_VERSION, "the version");
    for (size_t i = 0; i < FILE_OCTETS; i++) file[i] = (uint8_t)(i * 7 + i / 256);
    open_station(0);
    open_station(1);
    must(cfdp_message(&stations[0].entity, note, sizeof note - 1) == CFDP_OK, "a message");
    int32_t code = cfdp_put(&stations[0].entity, 0, 0, 2, 2, false, here, sizeof here - 1, there, sizeof there - 1, file,
                            sizeof file, &done);
    must(code == CFDP_OK, "a put");
    stations[0].source = done.source;
    stations[0].seq = done.seq;
    carry_out(0, code, &done);
    for (int turns = 0; turns < 10000 && !(stations[0].has_finished && stations[1].has_finished); turns++) {
        turn();
        listen(0);
        listen(1);
    }
    must(stations[0].has_finished && stations[1].has_finished, "no end");
    printf("%zu datagrams, %zu of them lost\n", sent, lost);
    cfdp_close(&stations[0].entity);
    cfdp_close(&stations[1].entity);
    return 0;
}
