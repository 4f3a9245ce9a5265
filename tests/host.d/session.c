/* A host of both ends. First a tape from standard input on a printer end, with the lines that `replay` prints. Then two sessions
 * in which each end is given what the other sends. A macro is defined, accepted and used; of its new text a byte is lost on the
 * line, so it is refused, and the old text is not printed by its byte. A paragraph is used in the issue that it was defined in,
 * and refused in the next. */
#include "prambow.h"
#include <stdio.h>
#include <string.h>

static uint8_t paper[PRAMBOW_PAPER_ROOM], wire[PRAMBOW_WIRE_ROOM];
static uint8_t line[PRAMBOW_WIRE_ROOM]; /* what one end sent, and the other is to read */
static size_t on_line;

static void hex(const uint8_t *bytes, size_t n)
{
    putchar(' ');
    if (n == 0)
        putchar('-');
    for (size_t i = 0; i < n; i++)
        printf("%02X", bytes[i]);
}

static int shows(prambow_outcome o)
{
    return o.code != 0 || o.note != 0 || o.first != 0 || o.wire != 0;
}

static void run_tape(void)
{
    static uint8_t tape[65536];
    static prambow_printer p;
    size_t size = fread(tape, 1, sizeof tape, stdin), at = 0;
    prambow_printer_fresh(&p);
    for (int field = 1; at + 3 <= size; field++) {
        int tag = tape[at], item = 1;
        size_t end = at + 3 + 256u * tape[at + 1] + tape[at + 2];
        if (end > size || (tag != 1 && (end - at) % 2 == 0))
            break; /* a field that is not whole */
        for (at += 3; at < end; item++) {
            const uint8_t *b = tape + at;
            prambow_outcome o;
            if (tag == 1)
                o = prambow_printer_network_byte(&p, b[0], paper, sizeof paper, wire, sizeof wire);
            else if (tag == 2)
                o = prambow_printer_press(&p, b[0], b[1], paper, sizeof paper, wire, sizeof wire);
            else
                o = prambow_printer_ask(&p, b[0], b[1], paper, sizeof paper, wire, sizeof wire);
            at += tag == 1 ? 1 : 2;
            if (o.code != 0 || o.first != 0 || o.wire != 0) {
                printf("%d.%d %u", field, item, (unsigned)o.code);
                hex(paper, o.first);
                hex(wire, o.wire);
                putchar('\n');
            }
        }
    }
}

/* A call's answer, and its wire bytes put on the line. */
static void answered(prambow_outcome o)
{
    if (shows(o)) {
        printf("%u %u", (unsigned)o.code, (unsigned)o.note);
        hex(paper, o.first);
        hex(wire, o.wire);
        putchar('\n');
    }
    memcpy(line + on_line, wire, o.wire);
    on_line += o.wire;
}

/* What stands on the line is read by an end, as it would come from a socket, but for the byte at `lost`. Buffers of just the size
 * that code 1 asks for end a run behind each byte that writes, so every answer is seen. */
static void read_line(prambow_printer *to, prambow_bulletin *back, size_t lost)
{
    static uint8_t came[sizeof line];
    size_t n = 0;
    for (size_t i = 0; i < on_line; i++)
        if (i != lost)
            came[n++] = line[i];
    on_line = 0;
    for (size_t at = 0; at < n;) {
        prambow_run r = to ? prambow_printer_network_bytes(to, came + at, n - at, paper, sizeof paper, wire, sizeof wire)
                           : prambow_bulletin_network_bytes(back, came + at, n - at, paper, sizeof paper, wire, sizeof wire);
        answered((prambow_outcome){r.code, r.note, r.first, r.wire});
        at += r.taken;
    }
}

enum { MACRO = 0x80, NONE = PRAMBOW_WIRE_ROOM };

static prambow_printer p;
static prambow_bulletin b;

/* Two fresh ends, which agree on BM. */
static void begin(void)
{
    prambow_printer_fresh(&p);
    prambow_bulletin_fresh(&b);
    answered(prambow_bulletin_ask(&b, PRAMBOW_BM, PRAMBOW_ENABLE_OURS, wire, sizeof wire));
    read_line(&p, NULL, NONE);
    read_line(NULL, &b, NONE);
}

static void define(const char *text, size_t lost)
{
    answered(prambow_bulletin_define(&b, MACRO, (const uint8_t *)text, strlen(text), wire, sizeof wire));
    read_line(&p, NULL, lost);
    read_line(NULL, &b, NONE);
}

static void use(void)
{
    answered(prambow_bulletin_use_macro(&b, MACRO, wire, sizeof wire));
    read_line(&p, NULL, NONE);
}

static void print_text(const uint8_t *text, size_t n)
{
    for (size_t i = 0; i < n; i++)
        answered(prambow_bulletin_text_item(&b, PRAMBOW_CHAR, text[i], wire, sizeof wire));
    read_line(&p, NULL, NONE);
}

static void standing(void)
{
    prambow_standing s = prambow_bulletin_macro_standing(&b, MACRO);
    printf("standing %d %d %d\n", s.status, s.kept, s.present);
}

/* Of a new text a byte is lost. */
static void run_macros(void)
{
    const uint8_t macro = MACRO;
    begin();
    define("OLD", NONE);
    use();
    define("NEW", 6);
    use();
    print_text(&macro, 1);
    standing();
}

/* A paragraph of issue 16 is not used in issue 17. */
static void run_issues(void)
{
    begin();
    answered(prambow_bulletin_issue(&b, 16, wire, sizeof wire));
    define("GALE", NONE);
    use();
    answered(prambow_bulletin_issue(&b, 17, wire, sizeof wire));
    use();
    standing();
    print_text((const uint8_t *)"CALM", 4);
    define("CALM", NONE);
    use();
    standing();
}

int main(void)
{
    run_tape();
    run_macros();
    run_issues();
    return 0;
}
