/* Makes the calls that standard input lists, a line each, through the header, and prints what each answers:
 *
 *     NAME PAPER WIRE NUMBER..     sizes of the buffers that are lent, then the call's arguments
 *
 * A call prints code, note, bytes, wire bytes (hex, - for none) and how many keys wait; a question prints numbers. */
#include "prambow.h"
#include <stdio.h>
#include <stdlib.h>
#include <string.h>

#define MOST 4096

static prambow_printer p;
static prambow_bulletin b;
static uint8_t data[4096], wire[8192], text[MOST];
static size_t dn, wn;          /* as much of them as is lent */
static unsigned long a[MOST];  /* the arguments */
static size_t given;

static void hex(const uint8_t *bytes, size_t n)
{
    putchar(' ');
    if (n == 0)
        putchar('-');
    for (size_t i = 0; i < n; i++)
        printf("%02X", bytes[i]);
}

static void answered(prambow_outcome o, size_t waiting)
{
    printf("%u %u", (unsigned)o.code, (unsigned)o.note);
    hex(data, o.first);
    hex(wire, o.wire);
    printf(" %zu\n", waiting);
}

static int told(prambow_report r)
{
    printf("%d %d %d %d ", r.naocrd.who, r.naocrd.value, r.naolfd.who, r.naolfd.value);
    return printf("%d %d %d %d\n", r.naoffd.who, r.naoffd.value, r.naohtd.who, r.naohtd.value);
}

static int stands(prambow_standing s)
{
    return printf("%d %d %d\n", s.status, s.kept, s.present);
}

static int at_printer(const char *call)
{
    prambow_outcome o;
    uint8_t x = (uint8_t)a[0], y = (uint8_t)a[1];
    if (!strcmp(call, "net"))
        o = prambow_printer_network_byte(&p, x, data, dn, wire, wn);
    else if (!strcmp(call, "key"))
        o = prambow_printer_press(&p, x, y, data, dn, wire, wn);
    else if (!strcmp(call, "ask"))
        o = prambow_printer_ask(&p, x, y, data, dn, wire, wn);
    else if (!strcmp(call, "suggest"))
        o = prambow_printer_suggest(&p, x, y, data, dn, wire, wn);
    else if (!strcmp(call, "report"))
        return told(prambow_printer_report(&p));
    else if (!strcmp(call, "fresh")) {
        prambow_printer_fresh(&p);
        return 1;
    } else
        return 0;
    answered(o, prambow_printer_waiting(&p));
    return 1;
}

static int asked_bulletin(const char *call)
{
    if (!strcmp(call, "report"))
        return told(prambow_bulletin_report(&b));
    if (!strcmp(call, "status"))
        return stands(prambow_bulletin_macro_standing(&b, (uint8_t)a[0]));
    if (!strcmp(call, "output"))
        return printf("%d\n", prambow_bulletin_output(&b));
    if (strcmp(call, "fresh"))
        return 0;
    prambow_bulletin_fresh(&b);
    return 1;
}

static int at_bulletin(const char *call)
{
    prambow_outcome o;
    uint8_t x = (uint8_t)a[0], y = (uint8_t)a[1];
    if (!strcmp(call, "net"))
        o = prambow_bulletin_network_byte(&b, x, data, dn, wire, wn);
    else if (!strcmp(call, "ask"))
        o = prambow_bulletin_ask(&b, x, y, wire, wn);
    else if (!strcmp(call, "suggest"))
        o = prambow_bulletin_suggest(&b, x, y, wire, wn);
    else if (!strcmp(call, "order"))
        o = prambow_bulletin_order(&b, x, (uint16_t)a[1], (uint16_t)a[2], wire, wn);
    else if (!strcmp(call, "define")) {
        for (size_t i = 1; i < given; i++)
            text[i - 1] = (uint8_t)a[i];
        o = prambow_bulletin_define(&b, x, given > 1 ? text : NULL, given - 1, wire, wn);
    } else if (!strcmp(call, "use"))
        o = prambow_bulletin_use_macro(&b, x, wire, wn);
    else if (!strcmp(call, "text"))
        o = prambow_bulletin_text_item(&b, x, y, wire, wn);
    else if (!strcmp(call, "issue"))
        o = prambow_bulletin_issue(&b, (uint16_t)a[0], wire, wn);
    else
        return asked_bulletin(call);
    answered(o, 0);
    return 1;
}

int main(void)
{
    static char line[8 * MOST];
    while (fgets(line, sizeof line, stdin)) {
        char *name = strtok(line, " \n"), *word = strtok(NULL, " \n");
        memset(a, 0, sizeof a);
        for (given = 0; word && given < MOST; word = strtok(NULL, " \n"))
            a[given++] = strtoul(word, NULL, 10);
        if (!name || given < 2 || a[0] > sizeof data || a[1] > sizeof wire)
            return 2;
        dn = a[0];
        wn = a[1];
        given -= 2;
        memmove(a, a + 2, given * sizeof a[0]);
        memset(a + given, 0, 2 * sizeof a[0]);
        if (!(name[0] == 'P' ? at_printer(name + 1) : at_bulletin(name + 1)))
            return 2;
    }
    return 0;
}
