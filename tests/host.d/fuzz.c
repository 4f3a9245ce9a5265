/* Calls on records of random bytes, with buffers of random lengths, some NULL with length 0. Record, text and buffers each end
 * at a page that cannot be touched, so a byte too far is a fault. Of each call it is seen that a refusal changes no byte, and
 * that a call which is done writes just the bytes that it counts, and leaves `unused` alone. A run of network bytes does what
 * as many calls with one byte do, and stops where it should.
 *
 * usage: fuzz SEED CALLS */
#define _DEFAULT_SOURCE
#include "prambow.h"
#include <stdio.h>
#include <stdlib.h>
#include <string.h>
#include <sys/mman.h>

#define AREA 16384

static uint64_t state;

static uint64_t random_number(void)
{
    state ^= state << 13;
    state ^= state >> 7;
    state ^= state << 17;
    return state;
}

static size_t below(size_t n)
{
    return (size_t)(random_number() % n);
}

/* An area whose end is a page without access. */
static uint8_t *area(void)
{
    uint8_t *start = mmap(NULL, 2 * AREA, PROT_READ | PROT_WRITE, MAP_PRIVATE | MAP_ANONYMOUS, -1, 0);
    if (start == MAP_FAILED || mprotect(start + AREA, AREA, PROT_NONE) != 0)
        exit(2);
    return start;
}

/* Lent bytes: the last of an area, or NULL. */
typedef struct {
    uint8_t *area, *at, was[AREA];
    size_t len;
} lent;

static void lend(lent *l, size_t len, int wild)
{
    l->len = len;
    l->at = len == 0 && below(2) ? NULL : l->area + AREA - len;
    for (size_t i = 0; i < len; i++)
        l->at[i] = wild ? (uint8_t)random_number() : (uint8_t)below(8);
    if (len)
        memcpy(l->was, l->at, len);
}

static int same_from(const lent *l, size_t from)
{
    return from <= l->len && (l->len == from || memcmp(l->was + from, l->at + from, l->len - from) == 0);
}

static size_t some_length(size_t room)
{
    static const size_t near[] = {0, 1, 2};
    switch (below(12)) {
    case 0:
        return near[below(3)];
    case 1:
        return below(2 * room);
    case 2:
        return room - 1;
    default:
        return room + below(3);
    }
}

static lent record, data, wire, text;

/* Records are wild, or nearly those of a session: small numbers, a count now and then out of range. */
static void lend_record(size_t size)
{
    lend(&record, size, below(2) == 0);
    if (below(2))
        memset(record.at, 0, 3 * sizeof(size_t) < size ? sizeof(size_t) : 0);
    memcpy(record.was, record.at, size);
}

/* Options about output disposition, and the characters that they are about. */
static const uint8_t dispositions[] = {PRAMBOW_NAOCRD, PRAMBOW_NAOLFD, PRAMBOW_NAOFFD, PRAMBOW_NAOHTD};
static const uint8_t disposed[] = {13, 10, 12, 9};

static prambow_outcome at_printer(prambow_printer *p)
{
    uint8_t x = (uint8_t)random_number(), y = (uint8_t)random_number();
    switch (below(5)) {
    case 0:
        return prambow_printer_press(p, x % 4, y, data.at, data.len, wire.at, wire.len);
    case 1:
        return prambow_printer_ask(p, below(2) ? x : 7, y % 5, data.at, data.len, wire.at, wire.len);
    case 2:
        return prambow_printer_suggest(p, below(4) ? dispositions[below(4)] : x, y, data.at, data.len, wire.at, wire.len);
    default:
        return prambow_printer_network_byte(p, below(3) ? x : 240 + x % 16, data.at, data.len, wire.at, wire.len);
    }
}

static prambow_outcome at_bulletin(prambow_bulletin *b)
{
    uint8_t x = (uint8_t)random_number(), y = (uint8_t)random_number();
    lend(&text, some_length(256), 1);
    switch (below(9)) {
    case 0:
        return prambow_bulletin_ask(b, below(2) ? x : 19, y % 5, wire.at, wire.len);
    case 1:
        return prambow_bulletin_suggest(b, below(4) ? dispositions[below(4)] : x, y, wire.at, wire.len);
    case 2:
        return prambow_bulletin_order(b, x % 40, (uint16_t)random_number(), y, wire.at, wire.len);
    case 3:
        return prambow_bulletin_define(b, x, text.at, text.len, wire.at, wire.len);
    case 4:
        return prambow_bulletin_use_macro(b, x, wire.at, wire.len);
    case 5:
        return prambow_bulletin_text_item(b, x % 4, below(2) ? disposed[below(4)] : y, wire.at, wire.len);
    case 6:
        return prambow_bulletin_issue(b, (uint16_t)random_number(), wire.at, wire.len);
    default:
        return prambow_bulletin_network_byte(b, below(3) ? x : 240 + x % 16, data.at, data.len, wire.at, wire.len);
    }
}

static int holds(prambow_outcome o, size_t unused)
{
    if (o.code > PRAMBOW_ISSUE_DIFFERS || o.note > PRAMBOW_STRAY)
        return 0;
    if (o.code != PRAMBOW_DONE && (o.note || o.first || o.wire || !same_from(&record, 0)))
        return 0;
    return same_from(&data, o.first) && same_from(&wire, o.wire) && same_from(&record, record.len - unused);
}

typedef union {
    prambow_printer printer;
    prambow_bulletin bulletin;
} session;

static prambow_outcome one_byte(int printer, session *s, uint8_t b, uint8_t *d, size_t dn, uint8_t *w, size_t wn)
{
    if (printer)
        return prambow_printer_network_byte(&s->printer, b, d, dn, w, wn);
    return prambow_bulletin_network_byte(&s->bulletin, b, d, dn, w, wn);
}

/* Bytes with many commands among them. */
static void lend_bytes(void)
{
    static const uint8_t often[] = {255, 255, 255, 251, 252, 253, 254, 250, 240, 241, 3, 3, 7, 10, 12, 13, 16, 19, 65};
    lend(&text, below(80), 1);
    for (size_t i = 0; i < text.len; i++)
        if (below(3))
            text.at[i] = often[below(sizeof often)];
}

/* The record, wild or as a call leaves it, is read from in a run, and a copy of it byte by byte. */
static unsigned long taken; /* bytes of all runs */

static int run_holds(int printer)
{
    static session copy;
    static uint8_t d[AREA], w[AREA], after[PRAMBOW_PAPER_ROOM], reply[PRAMBOW_WIRE_ROOM];
    session *s = (session *)record.at;
    prambow_run r;
    prambow_outcome o = {0, 0, 0, 0};
    size_t i, first = 0, sent = 0;
    if (below(4)) { /* room for more than a byte */
        lend(&data, PRAMBOW_PAPER_ROOM + below(300), 1);
        lend(&wire, PRAMBOW_WIRE_ROOM + below(300), 1);
    }
    lend_bytes();
    memcpy(&copy, record.at, record.len);
    if (data.len)
        memcpy(d, data.at, data.len);
    if (wire.len)
        memcpy(w, wire.at, wire.len);
    if (printer)
        r = prambow_printer_network_bytes(&s->printer, text.at, text.len, data.at, data.len, wire.at, wire.len);
    else
        r = prambow_bulletin_network_bytes(&s->bulletin, text.at, text.len, data.at, data.len, wire.at, wire.len);
    for (i = 0; i < r.taken && i < text.len && o.note == 0; i++) {
        o = one_byte(printer, &copy, text.at[i], d + first, data.len - first, w + sent, wire.len - sent);
        if (o.code != PRAMBOW_DONE)
            return 0;
        first += o.first;
        sent += o.wire;
    }
    taken += r.taken;
    if (i != r.taken || o.note != r.note || first != r.first || sent != r.wire)
        return 0;
    o = one_byte(printer, &copy, 0, NULL, 0, NULL, 0);
    if (i < text.len && r.note == 0)
        o = one_byte(printer, &copy, text.at[i], d + first, data.len - first, w + sent, wire.len - sent);
    if (o.code != PRAMBOW_NO_ROOM || r.code != (i == 0 && text.len > 0 ? (uint32_t)PRAMBOW_NO_ROOM : (uint32_t)PRAMBOW_DONE))
        return 0;
    if ((data.len && memcmp(d, data.at, data.len)) || (wire.len && memcmp(w, wire.at, wire.len)))
        return 0;
    if (r.code != PRAMBOW_DONE && !same_from(&record, 0))
        return 0;
    one_byte(printer, &copy, 'a', after, sizeof after, reply, sizeof reply);
    one_byte(printer, s, 'a', after, sizeof after, reply, sizeof reply);
    return memcmp(&copy, record.at, record.len) == 0;
}

static int report_holds(prambow_report r)
{
    return r.naocrd.who <= PRAMBOW_SENDER && r.naolfd.who <= PRAMBOW_SENDER && r.naoffd.who <= PRAMBOW_SENDER &&
           r.naohtd.who <= PRAMBOW_SENDER;
}

static int standing_holds(const prambow_bulletin *b, uint8_t x)
{
    prambow_standing s = prambow_bulletin_macro_standing(b, x);
    return s.status <= PRAMBOW_REFUSED && (s.kept == b->kept[x] || s.kept == 0) && s.present == b->issue[0];
}

static int questions_hold(int printer)
{
    if (printer) {
        const prambow_printer *p = (const prambow_printer *)record.at;
        return report_holds(prambow_printer_report(p)) && prambow_printer_waiting(p) <= 256;
    }
    const prambow_bulletin *b = (const prambow_bulletin *)record.at;
    return report_holds(prambow_bulletin_report(b)) && prambow_bulletin_output(b) <= PRAMBOW_WAITING &&
           standing_holds(b, (uint8_t)random_number());
}

int main(int argc, char **argv)
{
    unsigned long calls = argc > 2 ? strtoul(argv[2], NULL, 10) : 1000, done = 0;
    state = 88172645463325252u ^ (argc > 1 ? strtoul(argv[1], NULL, 10) : 1);
    record.area = area();
    data.area = area();
    wire.area = area();
    text.area = area();
    for (unsigned long i = 0; i < calls; i++) {
        int printer = (int)below(2);
        lend(&data, some_length(PRAMBOW_PAPER_ROOM), 1);
        lend(&wire, some_length(PRAMBOW_WIRE_ROOM), 1);
        lend_record(printer ? PRAMBOW_PRINTER_SIZE : PRAMBOW_BULLETIN_SIZE);
        if (below(4) == 0 && !run_holds(printer)) {
            printf("call %lu at the %s end: a run is not its one-byte calls\n", i, printer ? "printer" : "bulletin");
            return 1;
        }
        memcpy(record.was, record.at, record.len);
        lend(&data, data.len, 1);
        lend(&wire, wire.len, 1);
        prambow_outcome o = printer ? at_printer((prambow_printer *)record.at) : at_bulletin((prambow_bulletin *)record.at);
        done += o.code == PRAMBOW_DONE;
        if (!holds(o, printer ? sizeof ((prambow_printer *)0)->unused : sizeof ((prambow_bulletin *)0)->unused) || !questions_hold(printer)) {
            printf("call %lu at the %s end: code %u note %u\n", i, printer ? "printer" : "bulletin", (unsigned)o.code, (unsigned)o.note);
            return 1;
        }
    }
    printf("%lu of %lu calls done, %lu bytes in runs\n", done, calls, taken);
    return 0;
}
