/* Prambow: the two ends of a Telnet line, proved, for a host in C. Link libprambow_c.a, which
 * `rt lib` in crates/prambow_c leaves in out.
 *
 * A session is one record, which the host keeps: a prambow_printer or a prambow_bulletin. A call takes a pointer to it, its
 * arguments, and buffers for what it writes. It returns a code, a note, and how many bytes stand at the start of each buffer.
 * With a code other than 0 the call was refused: the record and the buffers are as they were, every byte.
 *
 * No call asks anything of what the record holds: any bytes are a state. What a call asks of C is that each pointer leads to as
 * much as its type or its length says, and that record, text and buffers do not overlap. A buffer of length 0 may be NULL.
 * Calls keep nothing between them but the record: ends on different records may be called from different threads. */
#ifndef PRAMBOW_H
#define PRAMBOW_H

#include <stddef.h>
#include <stdint.h>

#ifdef __cplusplus
extern "C" {
#endif

/* How large the buffers must be that a call is lent; smaller ones are refused with code 1. */
enum {
    PRAMBOW_PAPER_ROOM = 1024, /* for the paper, or for the host's data */
    PRAMBOW_WIRE_ROOM = 4096   /* for the wire */
};

/* The codes of an answer. */
enum {
    PRAMBOW_DONE = 0,
    PRAMBOW_NO_ROOM = 1,            /* a lent buffer is too small */
    PRAMBOW_QUEUE_FULL = 2,         /* 256 keys wait already */
    PRAMBOW_BAD_COMMAND = 3,        /* no key: another kind, a Line with a byte, or a command outside 241 to 249 */
    PRAMBOW_NOT_CARRIED = 4,        /* no option of this end, no way, or an option without a value to suggest */
    PRAMBOW_ALREADY_SO = 5,         /* the option or the value is so already, or asked for already */
    PRAMBOW_NOT_IN_FORCE = 6,       /* the option that this needs is not in force */
    PRAMBOW_BAD_MACRO_BYTE = 7,     /* 255 cannot be a macro */
    PRAMBOW_TOO_LONG = 8,           /* the text is too long, or all texts together are */
    PRAMBOW_UNANSWERED = 9,         /* the byte's last DEFINE has no answer yet */
    PRAMBOW_NO_TEXT = 10,           /* the byte is no accepted macro */
    PRAMBOW_ECHO_AGAINST_RCTE = 11, /* of ECHO and RCTE only one may be asked for */
    PRAMBOW_BAD_VALUE = 12,         /* no such value, or no such command */
    PRAMBOW_OUTPUT_WAITS = 13,      /* behind what was sent last output waits for a byte */
    PRAMBOW_ISSUE_DIFFERS = 14      /* the byte's text was defined in another issue */
};

/* The notes of a network byte: what came of a body or a command that was not acted on. */
enum {
    PRAMBOW_CLEAR = 0,
    PRAMBOW_UNREADABLE = 1,   /* a body of the wrong shape */
    PRAMBOW_INACTIVE = 2,     /* a body of an option that is not in force */
    PRAMBOW_OTHER_OPTION = 3, /* a body of an option that has none here */
    PRAMBOW_STRAY = 4         /* a command out of place */
};

/* The kinds of a key and of a text item. */
enum {
    PRAMBOW_CHAR = 0,   /* the character b */
    PRAMBOW_LINE = 1,   /* the end of a line; b is 0 */
    PRAMBOW_COMMAND = 2 /* the Telnet command b */
};

/* The options, and the ways of asking for one. */
enum {
    PRAMBOW_ECHO = 1,
    PRAMBOW_SGA = 3,
    PRAMBOW_RCTE = 7,
    PRAMBOW_NAOCRD = 10, /* output disposition of carriage returns, */
    PRAMBOW_NAOHTD = 12, /* of horizontal tabs, */
    PRAMBOW_NAOFFD = 13, /* of form feeds, */
    PRAMBOW_NAOLFD = 16, /* and of line feeds */
    PRAMBOW_BM = 19
};
enum {
    PRAMBOW_DISABLE_HIS = 0, /* the other end's side: DONT, DO */
    PRAMBOW_ENABLE_HIS = 1,
    PRAMBOW_DISABLE_OURS = 2, /* this end's side: WONT, WILL */
    PRAMBOW_ENABLE_OURS = 3
};

/* How the last DEFINE of a byte stands. */
enum {
    PRAMBOW_FREE = 0,
    PRAMBOW_PENDING = 1,        /* no answer yet */
    PRAMBOW_PENDING_FREE = 2,   /* defined as itself, no answer yet */
    PRAMBOW_ACCEPTED = 3,       /* the byte may be used, in the issue that the DEFINE kept */
    PRAMBOW_REFUSED = 4
};

/* Whether the bulletin end's output waits. */
enum {
    PRAMBOW_READY = 0,
    PRAMBOW_WAITING = 1
};

/* Who handles the character of an option about output disposition. */
enum {
    PRAMBOW_RECEIVER = 0,
    PRAMBOW_SENDER = 1
};

/* What a call answers. */
typedef struct prambow_outcome {
    uint32_t code; /* PRAMBOW_DONE, or why the call was refused */
    uint32_t note; /* PRAMBOW_CLEAR, or what a network byte's body or command met */
    size_t first;  /* bytes on the paper, at the bulletin end for the host */
    size_t wire;   /* bytes on the wire */
} prambow_outcome;

/* What a run of network bytes answers; a note is that of the last byte taken. */
typedef struct prambow_run {
    uint32_t code; /* PRAMBOW_DONE, or PRAMBOW_NO_ROOM at the first byte */
    uint32_t note; /* PRAMBOW_CLEAR, or what the last byte's body or command met */
    size_t taken;  /* bytes that were read */
    size_t first;  /* bytes on the paper, at the bulletin end for the host */
    size_t wire;   /* bytes on the wire */
} prambow_run;

/* Who handles a character: PRAMBOW_RECEIVER or PRAMBOW_SENDER, and by which value. */
typedef struct prambow_handling {
    uint8_t who;
    uint8_t value;
} prambow_handling;

/* What a report says, of each option about output disposition. */
typedef struct prambow_report {
    prambow_handling naocrd;
    prambow_handling naolfd;
    prambow_handling naoffd;
    prambow_handling naohtd;
} prambow_report;

/* How a macro byte stands. A use of it needs PRAMBOW_ACCEPTED and two equal numbers. */
typedef struct prambow_standing {
    uint8_t status;   /* PRAMBOW_FREE to PRAMBOW_REFUSED */
    uint16_t kept;    /* the issue that its last DEFINE kept; 0 without one */
    uint16_t present; /* the issue in force */
} prambow_standing;

/* A session of the printer end, which is keyboard and paper. */
typedef struct prambow_printer {
    size_t counts[3];      /* bytes of the body, waiting keys, gathered bytes */
    uint16_t classes[2];   /* RCTE's break and transmission classes */
    uint16_t marks[256];   /* for each byte 0, or the length of its text and 1 */
    uint16_t waiting[256]; /* keys that wait, each as one number */
    uint8_t body[260];     /* the subnegotiation that is being read */
    uint8_t cells[1024];   /* the texts of macros, packed */
    uint8_t gathered[512]; /* bytes of keys that are not sent yet */
    uint8_t small[22];     /* nine option states, phase, marred, held, two bits of the action, four pairs of DS and DR */
    uint8_t unused[2];     /* no call reads or writes it: there is no padding */
} prambow_printer;

/* A session of the bulletin end, which is the serving host. */
typedef struct prambow_bulletin {
    size_t counts[1];      /* bytes of the body */
    uint16_t issue[1];     /* the issue in force */
    uint16_t marks[256];   /* for each byte 0, or the length of its text and 1 */
    uint16_t kept[256];    /* the issue that each byte's last DEFINE kept */
    uint8_t body[260];     /* the subnegotiation that is being read */
    uint8_t statuses[256]; /* how each byte's last DEFINE stands */
    uint8_t cells[1024];   /* the texts of macros, packed */
    uint8_t small[23];     /* nine option states, phase, marred, waiting for each of four, four pairs of DS and DR */
    uint8_t unused[3];     /* no call reads or writes it: there is no padding */
} prambow_bulletin;

#define PRAMBOW_PRINTER_SIZE 2872  /* bytes of a printer end's session */
#define PRAMBOW_BULLETIN_SIZE 2600 /* bytes of a bulletin end's session */

#ifdef __cplusplus
#define PRAMBOW_CHECKED static_assert
#else
#define PRAMBOW_CHECKED _Static_assert
#endif
PRAMBOW_CHECKED(sizeof(size_t) == 8, "the library is for 64-bit hosts");
PRAMBOW_CHECKED(sizeof(prambow_printer) == PRAMBOW_PRINTER_SIZE, "a printer end's record has no padding");
PRAMBOW_CHECKED(sizeof(prambow_bulletin) == PRAMBOW_BULLETIN_SIZE, "a bulletin end's record has no padding");
#undef PRAMBOW_CHECKED

/* Each call follows twice: as the library exports it, on the arrays of a record one by one, and on a pointer to the record. */

#define PRAMBOW_PRINTER_ARRAYS uint8_t *small, uint16_t *classes, size_t *counts, uint8_t *body, uint16_t *marks, \
    uint8_t *cells, uint16_t *waiting, uint8_t *gathered
#define PRAMBOW_PRINTER_OF(s) (s)->small, (s)->classes, (s)->counts, (s)->body, (s)->marks, (s)->cells, \
    (s)->waiting, (s)->gathered
#define PRAMBOW_BULLETIN_ARRAYS uint8_t *small, size_t *counts, uint8_t *body, uint8_t *statuses, uint16_t *marks, \
    uint8_t *cells, uint16_t *issue, uint16_t *kept
#define PRAMBOW_BULLETIN_OF(s) (s)->small, (s)->counts, (s)->body, (s)->statuses, (s)->marks, (s)->cells, \
    (s)->issue, (s)->kept

/* The printer end. */

/* Makes a record a fresh end, whatever it held before. */
void prambow_printer_fresh_arrays(PRAMBOW_PRINTER_ARRAYS);

static inline void prambow_printer_fresh(prambow_printer *s)
{
    prambow_printer_fresh_arrays(PRAMBOW_PRINTER_OF(s));
}

/* A byte from the network. It gives notes, as runs of bytes do, and no other call. */
prambow_outcome prambow_printer_network_byte_arrays(PRAMBOW_PRINTER_ARRAYS, uint8_t b, uint8_t *paper,
    size_t paper_len, uint8_t *wire, size_t wire_len);

static inline prambow_outcome prambow_printer_network_byte(prambow_printer *s, uint8_t b, uint8_t *paper,
    size_t paper_len, uint8_t *wire, size_t wire_len)
{
    return prambow_printer_network_byte_arrays(PRAMBOW_PRINTER_OF(s), b, paper, paper_len, wire, wire_len);
}

/* Bytes from the network one after the other, each in what the ones before left of the buffers. It stops before a byte for
 * which a buffer is too small, and behind one that gave a note: call it again with the rest. It is the fast way to read,
 * for one byte too. */
prambow_run prambow_printer_network_bytes_arrays(PRAMBOW_PRINTER_ARRAYS, const uint8_t *bytes, size_t bytes_len,
    uint8_t *paper, size_t paper_len, uint8_t *wire, size_t wire_len);

static inline prambow_run prambow_printer_network_bytes(prambow_printer *s, const uint8_t *bytes, size_t bytes_len,
    uint8_t *paper, size_t paper_len, uint8_t *wire, size_t wire_len)
{
    return prambow_printer_network_bytes_arrays(PRAMBOW_PRINTER_OF(s), bytes, bytes_len, paper, paper_len, wire,
        wire_len);
}

/* A key: PRAMBOW_CHAR, PRAMBOW_LINE with b 0, or PRAMBOW_COMMAND with b 241 to 249. Refused: 1, 3, 2. */
prambow_outcome prambow_printer_press_arrays(PRAMBOW_PRINTER_ARRAYS, uint8_t kind, uint8_t b, uint8_t *paper,
    size_t paper_len, uint8_t *wire, size_t wire_len);

static inline prambow_outcome prambow_printer_press(prambow_printer *s, uint8_t kind, uint8_t b, uint8_t *paper,
    size_t paper_len, uint8_t *wire, size_t wire_len)
{
    return prambow_printer_press_arrays(PRAMBOW_PRINTER_OF(s), kind, b, paper, paper_len, wire, wire_len);
}

/* Asks for an option or gives it up. Refused: 1, 4, 11, 5. */
prambow_outcome prambow_printer_ask_arrays(PRAMBOW_PRINTER_ARRAYS, uint8_t option, uint8_t way, uint8_t *paper,
    size_t paper_len, uint8_t *wire, size_t wire_len);

static inline prambow_outcome prambow_printer_ask(prambow_printer *s, uint8_t option, uint8_t way, uint8_t *paper,
    size_t paper_len, uint8_t *wire, size_t wire_len)
{
    return prambow_printer_ask_arrays(PRAMBOW_PRINTER_OF(s), option, way, paper, paper_len, wire, wire_len);
}

/* This end's value of an option about output disposition, DR. Refused: 1, 4, 6, 12, 5. */
prambow_outcome prambow_printer_suggest_arrays(PRAMBOW_PRINTER_ARRAYS, uint8_t option, uint8_t value, uint8_t *paper,
    size_t paper_len, uint8_t *wire, size_t wire_len);

static inline prambow_outcome prambow_printer_suggest(prambow_printer *s, uint8_t option, uint8_t value,
    uint8_t *paper, size_t paper_len, uint8_t *wire, size_t wire_len)
{
    return prambow_printer_suggest_arrays(PRAMBOW_PRINTER_OF(s), option, value, paper, paper_len, wire, wire_len);
}

/* Of each option about output disposition who handles its character, and how. */
prambow_report prambow_printer_report_arrays(const uint8_t *small);

static inline prambow_report prambow_printer_report(const prambow_printer *s)
{
    return prambow_printer_report_arrays(s->small);
}

/* How many keys wait, up to 256. */
size_t prambow_printer_waiting_arrays(const size_t *counts);

static inline size_t prambow_printer_waiting(const prambow_printer *s)
{
    return prambow_printer_waiting_arrays(s->counts);
}

/* The bulletin end. Only network bytes have data for the host; no other call is lent a buffer for it. */

/* Makes a record a fresh end, whatever it held before. */
void prambow_bulletin_fresh_arrays(PRAMBOW_BULLETIN_ARRAYS);

static inline void prambow_bulletin_fresh(prambow_bulletin *s)
{
    prambow_bulletin_fresh_arrays(PRAMBOW_BULLETIN_OF(s));
}

/* A byte from the network. It gives notes, as runs of bytes do, and no other call. */
prambow_outcome prambow_bulletin_network_byte_arrays(PRAMBOW_BULLETIN_ARRAYS, uint8_t b, uint8_t *host,
    size_t host_len, uint8_t *wire, size_t wire_len);

static inline prambow_outcome prambow_bulletin_network_byte(prambow_bulletin *s, uint8_t b, uint8_t *host,
    size_t host_len, uint8_t *wire, size_t wire_len)
{
    return prambow_bulletin_network_byte_arrays(PRAMBOW_BULLETIN_OF(s), b, host, host_len, wire, wire_len);
}

/* Bytes from the network one after the other, as at the printer end. */
prambow_run prambow_bulletin_network_bytes_arrays(PRAMBOW_BULLETIN_ARRAYS, const uint8_t *bytes, size_t bytes_len,
    uint8_t *host, size_t host_len, uint8_t *wire, size_t wire_len);

static inline prambow_run prambow_bulletin_network_bytes(prambow_bulletin *s, const uint8_t *bytes,
    size_t bytes_len, uint8_t *host, size_t host_len, uint8_t *wire, size_t wire_len)
{
    return prambow_bulletin_network_bytes_arrays(PRAMBOW_BULLETIN_OF(s), bytes, bytes_len, host, host_len, wire,
        wire_len);
}

/* Asks for an option or gives it up. Refused: 1, 4, 11, 5. */
prambow_outcome prambow_bulletin_ask_arrays(PRAMBOW_BULLETIN_ARRAYS, uint8_t option, uint8_t way, uint8_t *wire,
    size_t wire_len);

static inline prambow_outcome prambow_bulletin_ask(prambow_bulletin *s, uint8_t option, uint8_t way, uint8_t *wire,
    size_t wire_len)
{
    return prambow_bulletin_ask_arrays(PRAMBOW_BULLETIN_OF(s), option, way, wire, wire_len);
}

/* This end's value of an option about output disposition, DS. Refused: 1, 4, 6, 12, 5. */
prambow_outcome prambow_bulletin_suggest_arrays(PRAMBOW_BULLETIN_ARRAYS, uint8_t option, uint8_t value,
    uint8_t *wire, size_t wire_len);

static inline prambow_outcome prambow_bulletin_suggest(prambow_bulletin *s, uint8_t option, uint8_t value,
    uint8_t *wire, size_t wire_len)
{
    return prambow_bulletin_suggest_arrays(PRAMBOW_BULLETIN_OF(s), option, value, wire, wire_len);
}

/* An RCTE command; with 8 in cmd the break classes are sent, with 16 the transmission classes. Refused: 1, 6, 12. */
prambow_outcome prambow_bulletin_order_arrays(PRAMBOW_BULLETIN_ARRAYS, uint8_t cmd, uint16_t breaks, uint16_t sends,
    uint8_t *wire, size_t wire_len);

static inline prambow_outcome prambow_bulletin_order(prambow_bulletin *s, uint8_t cmd, uint16_t breaks,
    uint16_t sends, uint8_t *wire, size_t wire_len)
{
    return prambow_bulletin_order_arrays(PRAMBOW_BULLETIN_OF(s), cmd, breaks, sends, wire, wire_len);
}

/* A macro byte's new text. Refused: 1, 6, 7, 9, 8. */
prambow_outcome prambow_bulletin_define_arrays(PRAMBOW_BULLETIN_ARRAYS, uint8_t x, const uint8_t *text,
    size_t text_len, uint8_t *wire, size_t wire_len);

static inline prambow_outcome prambow_bulletin_define(prambow_bulletin *s, uint8_t x, const uint8_t *text,
    size_t text_len, uint8_t *wire, size_t wire_len)
{
    return prambow_bulletin_define_arrays(PRAMBOW_BULLETIN_OF(s), x, text, text_len, wire, wire_len);
}

/* An accepted macro, by its byte. Refused: 1, 6, 13, 10, 14. */
prambow_outcome prambow_bulletin_use_macro_arrays(PRAMBOW_BULLETIN_ARRAYS, uint8_t x, uint8_t *wire,
    size_t wire_len);

static inline prambow_outcome prambow_bulletin_use_macro(prambow_bulletin *s, uint8_t x, uint8_t *wire,
    size_t wire_len)
{
    return prambow_bulletin_use_macro_arrays(PRAMBOW_BULLETIN_OF(s), x, wire, wire_len);
}

/* A text item, given as a key is. Refused: 1, 3, 13. */
prambow_outcome prambow_bulletin_text_item_arrays(PRAMBOW_BULLETIN_ARRAYS, uint8_t kind, uint8_t b, uint8_t *wire,
    size_t wire_len);

static inline prambow_outcome prambow_bulletin_text_item(prambow_bulletin *s, uint8_t kind, uint8_t b,
    uint8_t *wire, size_t wire_len)
{
    return prambow_bulletin_text_item_arrays(PRAMBOW_BULLETIN_OF(s), kind, b, wire, wire_len);
}

/* The forecast issue is n from now on; in a fresh end it is 0. It writes nothing, and is lent a wire buffer all the same.
 * Refused: 1. */
prambow_outcome prambow_bulletin_issue_arrays(PRAMBOW_BULLETIN_ARRAYS, uint16_t n, uint8_t *wire, size_t wire_len);

static inline prambow_outcome prambow_bulletin_issue(prambow_bulletin *s, uint16_t n, uint8_t *wire, size_t wire_len)
{
    return prambow_bulletin_issue_arrays(PRAMBOW_BULLETIN_OF(s), n, wire, wire_len);
}

/* How the last DEFINE of a byte stands, the issue that it kept, and the issue in force. */
prambow_standing prambow_bulletin_macro_standing_arrays(const uint8_t *small, const uint8_t *statuses,
    const uint16_t *issue, const uint16_t *kept, uint8_t x);

static inline prambow_standing prambow_bulletin_macro_standing(const prambow_bulletin *s, uint8_t x)
{
    return prambow_bulletin_macro_standing_arrays(s->small, s->statuses, s->issue, s->kept, x);
}

/* Of each option about output disposition who handles its character, and how. */
prambow_report prambow_bulletin_report_arrays(const uint8_t *small);

static inline prambow_report prambow_bulletin_report(const prambow_bulletin *s)
{
    return prambow_bulletin_report_arrays(s->small);
}

/* Whether output waits for a byte from the printer end: PRAMBOW_READY or PRAMBOW_WAITING. */
uint8_t prambow_bulletin_output_arrays(const uint8_t *small);

static inline uint8_t prambow_bulletin_output(const prambow_bulletin *s)
{
    return prambow_bulletin_output_arrays(s->small);
}

#undef PRAMBOW_PRINTER_ARRAYS
#undef PRAMBOW_PRINTER_OF
#undef PRAMBOW_BULLETIN_ARRAYS
#undef PRAMBOW_BULLETIN_OF

#ifdef __cplusplus
}
#endif

#endif
