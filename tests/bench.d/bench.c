/* One case of tests/bench: bytes are made, a session of Prambow or of libtelnet is brought to where the case begins, and the bytes
 * are read so many times. It prints the bytes of one time, and the nanoseconds of all.
 *
 * usage: bench printer|bulletin|libtelnet CASE TIMES */
#include <stdio.h>
#include <stdlib.h>
#include <string.h>
#include <time.h>

#include <libtelnet.h>

#include "prambow.h"

enum { RUN = 65536, PAPER = 4 * RUN, WIRE = RUN, SESSIONS = 10000, SHORT = 64, MACRO = 128 };
enum { IAC = 255, DONT = 254, DO = 253, WONT = 252, WILL = 251, SB = 250, NOP = 241, SE = 240 };

static uint8_t bytes[RUN], paper[PAPER], wire[WIRE];
static size_t count;         /* bytes of one time */
static size_t step = RUN;    /* .. and of one call */
static unsigned long sum;    /* of what was written, so that nothing is left out by the compiler */
static prambow_printer printer;
static prambow_bulletin bulletin;
static telnet_t *telnet;
static size_t written;

static void fail(const char *why)
{
    fprintf(stderr, "bench: %s\n", why);
    exit(1);
}

/* What libtelnet hands on goes to the same two buffers. */
static void handler(telnet_t *t, telnet_event_t *e, void *data)
{
    (void)t;
    (void)data;
    if (e->type == TELNET_EV_DATA) {
        memcpy(paper + written, e->data.buffer, e->data.size);
        written += e->data.size;
    } else if (e->type == TELNET_EV_SEND) {
        memcpy(wire, e->data.buffer, e->data.size);
        sum += e->data.size;
    }
}

static const telnet_telopt_t options[] = {{3, TELNET_WILL, TELNET_DO}, {-1, 0, 0}};

/* The whole of some bytes, in calls of at most `step`. */
static void read_printer(const uint8_t *b, size_t n)
{
    while (n > 0) {
        prambow_run r = prambow_printer_network_bytes(&printer, b, n < step ? n : step, paper, PAPER, wire, WIRE);
        if (r.code != PRAMBOW_DONE || r.taken == 0)
            fail("a run was refused");
        sum += r.first + r.wire + paper[0];
        b += r.taken;
        n -= r.taken;
    }
}

static void read_bulletin(const uint8_t *b, size_t n)
{
    while (n > 0) {
        prambow_run r = prambow_bulletin_network_bytes(&bulletin, b, n < step ? n : step, paper, PAPER, wire, WIRE);
        if (r.code != PRAMBOW_DONE || r.taken == 0)
            fail("a run was refused");
        sum += r.first + r.wire + paper[0];
        b += r.taken;
        n -= r.taken;
    }
}

static void read_libtelnet(const uint8_t *b, size_t n)
{
    while (n > 0) {
        size_t k = n < step ? n : step;
        written = 0;
        telnet_recv(telnet, (const char *)b, k);
        sum += written + paper[0];
        b += k;
        n -= k;
    }
}

/* Plain text with something at every so many bytes; what is put in place of them alternates between two. */
static void text(size_t every, const uint8_t *one, const uint8_t *other, size_t n)
{
    size_t i;
    count = RUN;
    for (i = 0; i < RUN; i++)
        bytes[i] = (uint8_t)('a' + i % 26);
    for (i = 0; every > 0 && i + every <= RUN; i += every)
        memcpy(bytes + i + every - n, i / every % 2 == 0 ? one : other, n);
}

/* BM in force at the printer end, and one byte's text accepted. */
static void with_macro(size_t n)
{
    uint8_t frame[300] = {IAC, WILL, 19, IAC, SB, 19, 1, MACRO, (uint8_t)n};
    size_t i;
    for (i = 0; i < n; i++)
        frame[9 + i] = 'm';
    frame[9 + n] = IAC;
    frame[10 + n] = SE;
    read_printer(frame, 11 + n);
}

/* RCTE in force and held, 256 keys waiting, and a command read up to its last byte. */
static void with_keys(void)
{
    static const uint8_t frame[] = {IAC, WILL, 7};
    static const uint8_t command[] = {IAC, SB, 7, 1, IAC};
    int i;
    read_printer(frame, sizeof frame);
    for (i = 0; i < 256; i++)
        if (prambow_printer_press(&printer, PRAMBOW_CHAR, 'k', paper, PAPER, wire, WIRE).code != PRAMBOW_DONE)
            fail("a key was refused");
    read_printer(command, sizeof command);
}

static void prepare(const char *name)
{
    static const uint8_t nop[] = {IAC, NOP}, twice[] = {IAC, IAC}, will[] = {IAC, WILL, 3}, wont[] = {IAC, WONT, 3}, macro[] = {MACRO};
    if (strcmp(name, "plain") == 0 || strcmp(name, "sessions") == 0) {
        text(0, nop, nop, 0);
    } else if (strcmp(name, "bm") == 0) {
        with_macro(20);
        text(0, nop, nop, 0);
    } else if (strcmp(name, "nop") == 0) {
        text(50, nop, nop, sizeof nop);
    } else if (strcmp(name, "iac") == 0) {
        text(50, twice, twice, sizeof twice);
    } else if (strcmp(name, "sga") == 0) {
        text(50, will, wont, sizeof will);
    } else if (strcmp(name, "macro") == 0) {
        with_macro(20);
        text(100, macro, macro, sizeof macro);
    } else if (strcmp(name, "byte") == 0) {
        text(0, nop, nop, 0);
        step = 1;
    } else if (strcmp(name, "text200") == 0) {
        with_macro(200);
        bytes[0] = MACRO;
        count = 1;
    } else if (strcmp(name, "keys") == 0) {
        with_keys();
        bytes[0] = SE;
        count = 1;
    } else {
        fail("no such case");
    }
}

/* Many sessions in turn, each with a short run. */
static void sessions(const char *who, long times)
{
    static prambow_printer *many;
    static prambow_bulletin *others;
    static telnet_t **theirs;
    long t;
    int i;
    many = calloc(SESSIONS, sizeof *many);
    others = calloc(SESSIONS, sizeof *others);
    theirs = calloc(SESSIONS, sizeof *theirs);
    if (many == NULL || others == NULL || theirs == NULL)
        fail("no memory");
    for (i = 0; i < SESSIONS; i++) {
        prambow_printer_fresh(&many[i]);
        prambow_bulletin_fresh(&others[i]);
        theirs[i] = telnet_init(options, handler, 0, NULL);
    }
    count = SHORT;
    for (t = 0; t < times; t++) {
        i = (int)(t % SESSIONS);
        if (who[0] == 'p') {
            sum += prambow_printer_network_bytes(&many[i], bytes, SHORT, paper, PAPER, wire, WIRE).first;
        } else if (who[0] == 'b') {
            sum += prambow_bulletin_network_bytes(&others[i], bytes, SHORT, paper, PAPER, wire, WIRE).first;
        } else {
            written = 0;
            telnet_recv(theirs[i], (const char *)bytes, SHORT);
            sum += written;
        }
    }
}

int main(int argc, char **argv)
{
    struct timespec start, end;
    prambow_printer begun;
    long t, times;
    if (argc != 4)
        fail("usage: bench printer|bulletin|libtelnet CASE TIMES");
    times = atol(argv[3]);
    prambow_printer_fresh(&printer);
    prambow_bulletin_fresh(&bulletin);
    telnet = telnet_init(options, handler, 0, NULL);
    prepare(argv[2]);
    begun = printer;
    clock_gettime(CLOCK_PROCESS_CPUTIME_ID, &start);
    if (strcmp(argv[2], "sessions") == 0) {
        sessions(argv[1], times);
    } else {
        for (t = 0; t < times; t++) {
            if (argv[1][0] == 'l') {
                read_libtelnet(bytes, count);
            } else if (argv[1][0] == 'b') {
                read_bulletin(bytes, count);
            } else {
                if (strcmp(argv[2], "keys") == 0)
                    printer = begun;
                read_printer(bytes, count);
            }
        }
    }
    clock_gettime(CLOCK_PROCESS_CPUTIME_ID, &end);
    telnet_free(telnet);
    printf("%zu %.0f %lu\n", count, (double)(end.tv_sec - start.tv_sec) * 1e9 + (double)(end.tv_nsec - start.tv_nsec), sum);
    return 0;
}
