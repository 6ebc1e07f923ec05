/* Smrcholet: supplementary service messages, read, written and kept in order.
 *
 * Every call is safe with any octets and any lengths; NULL is allowed where the
 * length is 0. There is no heap and no state but the table that you lend:
 * SMR_TABLE octets, all zero at the start, handed to each call but smr_cells
 * and the two of a trace, and never shared by two calls at once. No two of the
 * slices of one call may overlap.
 *
 * smr_cells is in libcells.a, smr_trace_begin and smr_trace_add are in
 * libtrace.a, the other calls are in libtelephone.a; no archive needs another.
 * libtrace.a needs memset, as any compiler's code may; the others need nothing.
 */
#ifndef SMRCHOLET_H
#define SMRCHOLET_H

#include <stdbool.h>
#include <stddef.h>
#include <stdint.h>

#ifdef __cplusplus
extern "C" {
#endif

/* The length of the table: fourteen entries of seventeen octets, for seven
 * transactions that we begin and seven that the network begins. In each up to
 * four invokes of ours and four of the peer's may wait for their answers. All
 * octets are zero at the start; docs/TABLE.md has the layout. */
#define SMR_TABLE 238
/* The room that every reply finds. */
#define SMR_REPLY 12
/* No message that is sent is longer. */
#define SMR_MESSAGE 255
/* What smr_batch gives for each record: verdict, reply length, then the reply
 * filled up with zeros to SMR_REPLY. */
#define SMR_SLOT 14
/* Room for every text that smr_receive shows, and for its lines. */
#define SMR_CHARACTERS 182
#define SMR_LINE_OCTETS 18
/* A block of a trace file. */
#define SMR_BLOCK 512

/* Verdicts on a received message. Its component is shown with 0, unless the
 * Facility value was empty; with 4 if the Reject was sound; with 5 if a sound
 * result, error or Reject came. With the others nothing is shown. */
#define SMR_TAKEN 0           /* nothing is sent */
#define SMR_IGNORED 1         /* nothing is sent or changed */
#define SMR_RELEASED_CAUSE 2  /* send the reply: a release with a cause */
#define SMR_RELEASED_REJECT 3 /* send the reply: a release with a Reject */
#define SMR_REJECTED 4        /* a Reject came; send the reply: a release */
#define SMR_RELEASED 5        /* the network released; nothing is sent */
#define SMR_TOO_LONG 6        /* over 255 octets; nothing is changed */
#define SMR_OTHER_PROTOCOL 7  /* not ours; nothing is changed */

/* Refusals: nothing is written, no transaction changes. 27 and 28 may come for
 * a received message too. */
#define SMR_NO_OPERATION 20   /* operation or error code not listed */
#define SMR_NO_VALUE 21       /* begin: all our values are open */
#define SMR_NOT_OPEN 22       /* no open transaction of this flag and value */
#define SMR_OUTSTANDING 23    /* invoke: four of ours wait or one has this id */
#define SMR_NO_INVOKE 24      /* result, error: no such peer invoke waits */
#define SMR_PARAMETER 25      /* not the parameter of the table below */
#define SMR_LONG_MESSAGE 26   /* the message would pass 255 octets */
#define SMR_SHORT_BUFFER 27   /* the buffer is too short */
#define SMR_DAMAGED 28        /* the table is damaged, or not SMR_TABLE long */
#define SMR_BAD_RECORD 30     /* batch: a zero or cut record */
#define SMR_SHORT_OUTPUT 31   /* batch: fewer than SMR_SLOT octets a record */
#define SMR_BLOCK_SHORT 32    /* trace: not SMR_BLOCK octets */
#define SMR_BLOCK_SUM 33      /* trace: the sum */
#define SMR_BLOCK_USED 34     /* trace: the use count */
#define SMR_BLOCK_RECORD 35   /* trace: a record or the rest of the block; or
                                 the record that is added */
#define SMR_BLOCK_NUMBER 36   /* trace: the number isn't the block's place; the
                                 programs find it, no call does */
#define SMR_OTHER_SCHEME 40   /* cells: the coding scheme is not 0F */
#define SMR_SHORT_TEXT 41     /* cells: text or lines too short */

/* Kinds of component: their outer tags. */
#define SMR_NOTHING 0x00
#define SMR_INVOKE 0xA1
#define SMR_RESULT 0xA2
#define SMR_ERROR 0xA3
#define SMR_REJECT 0xA4

/* Problem tags of a Reject. */
#define SMR_PROBLEM_GENERAL 0x80
#define SMR_PROBLEM_INVOKE 0x81
#define SMR_PROBLEM_RESULT 0x82
#define SMR_PROBLEM_ERROR 0x83

/* Which parameter goes with which operation (decimal, then hex):
 *
 *   operation                           our invoke         result that comes
 *   10 0A registerSS                    one element        one element or none
 *   11 0B eraseSS                       SS-ForBS           one element or none
 *   12 0C activateSS                    SS-ForBS           one element or none
 *   13 0D deactivateSS                  SS-ForBS           one element or none
 *   14 0E interrogateSS                 SS-ForBS           one element or none
 *   17 11 registerPassword              service code       Password
 *   59 3B processUnstructuredSS-Request USSD-Arg           USSD-Res or none
 *
 *   operation                           the peer's invoke  our result
 *   18 12 getPassword                   Guidance           Password
 *   38 26 forwardCheckSS-Indication     none               it has no answer
 *   60 3C unstructuredSS-Request        USSD-Arg           USSD-Res or none
 *   61 3D unstructuredSS-Notify         USSD-Arg           none
 *
 * An error has one element or none. One that we send has one of the codes
 * 1, 9 to 13, 16 to 21, 27, 34 to 38, 43, 71, 72
 * (hex 01, 09 to 0D, 10 to 15, 1B, 22 to 26, 2B, 47, 48).
 * One that is shown has a code that the operation we asked for may return:
 *
 *   10 registerSS                    10 11 13 16 17 20 34 35 36
 *   11 eraseSS                       10 11 13 16 17 34 35 36
 *   12 activateSS                    10 11 13 16 17 19 20 34 35 36 38 43
 *   13 deactivateSS                  10 11 13 16 17 19 34 35 36 38 43
 *   14 interrogateSS                 10 11 13 16 18 34 35 36
 *   17 registerPassword              13 19 34 35 36 37 38 43
 *   59 processUnstructuredSS-Request 13 34 35 36 71
 *
 *   10 0A bearerServiceNotProvisioned  34 22 systemFailure
 *   11 0B teleserviceNotProvisioned    35 23 dataMissing
 *   13 0D callBarred                   36 24 unexpectedDataValue
 *   16 10 illegalSS-Operation          37 25 pw-RegistrationFailure
 *   17 11 ss-ErrorStatus               38 26 negativePW-Check
 *   18 12 ss-NotAvailable              43 2B numberOfPW-AttemptsViolation
 *   19 13 ss-SubscriptionViolation     71 47 unknownAlphabet
 *   20 14 ss-Incompatibility
 *
 * Any other is refused and not shown: the reply is a release with a Reject, or
 * nothing where it came with a release.
 *
 * The parameters, in hex; ll is the length of the contents behind it, 00 to 7F,
 * or 81 and one octet for more:
 *
 *   USSD-Arg, USSD-Res   30 ll, holding 04 01 and the coding scheme, then 04 ll
 *                        and the string of 1 to 160 octets, then any elements
 *   SS-ForBS             30 ll, holding 04 01 and the service, then perhaps 82
 *                        or 83, 01 and one octet, then any elements
 *   service code         04 01 and the service
 *   Guidance             0A 01 and 00, 01 or 02
 *   Password             12 04 and four digits, each 30 to 39
 *   one element          a tag (not 00, nor with its low five bits all ones),
 *                        ll, contents
 */

/* A part of the caller's own message: from start up to, not including, end. A
 * part that is not there is empty: start and end are both where it would stand,
 * or both 0 if what it belongs to is not there either. */
typedef struct {
    size_t start;
    size_t end;
} smr_span;

/* A component that is shown. Numbers that are not there are 0. */
typedef struct {
    uint8_t kind;       /* SMR_NOTHING, SMR_INVOKE .. SMR_REJECT */
    bool has_id;        /* false only for a Reject without an id, or nothing */
    int8_t id;          /* -128 to 127 */
    bool has_linked;    /* an Invoke may have a linked id */
    int8_t linked;
    bool has_operation; /* a Return result may have none */
    uint8_t operation;
    uint8_t code;       /* of a Return error */
    uint8_t tag;        /* of a Reject: which kind of problem */
    uint8_t problem;    /* and its number */
    smr_span parameter; /* with its tag and length; empty if there is none */
} smr_component;

/* The text of a USSD parameter: invokes 60 and 61, the result of 59. */
typedef struct {
    bool is_there;
    uint8_t scheme;  /* the coding scheme */
    smr_span string; /* 1 to 160 octets, coded by the scheme; 0F: smr_cells */
    smr_span tail;   /* unread elements of a later edition, or empty */
} smr_text;

/* The contents of a cause element in RELEASE COMPLETE, unread. */
typedef struct {
    bool is_there;
    smr_span contents;
} smr_cause;

typedef struct {
    uint8_t code;        /* a verdict, 0 to 7, or the refusal 27 or 28 */
    size_t written;      /* octets of the reply to send; 0: send nothing */
    smr_component shown;
    smr_text text;
    smr_cause cause;
} smr_received;

typedef struct {
    uint8_t code;   /* 0, or the refusal, 20 to 28 */
    uint8_t value;  /* begin: the value of the new transaction */
    size_t written; /* octets of the message to send; 0 if refused */
} smr_called;

typedef struct {
    uint8_t code; /* 0, or the refusal 28, 30 or 31 */
    size_t slots; /* how many slots are written; 0 if refused */
} smr_batched;

typedef struct {
    uint8_t code;      /* 0, or the refusal, 40 or 41 */
    size_t characters; /* written to text */
    size_t lines;      /* written to lines, two octets each */
} smr_laid;

typedef struct {
    uint8_t code; /* 0, or the refusal, 32 to 35 */
    bool added;   /* false with code 0: it doesn't fit, begin the next block */
} smr_traced;

/* A message came in. The reply buffer needs SMR_REPLY octets. Up to four of the
 * peer's invokes may wait in a transaction, each under an id of its own. One
 * with the id of another that waits gets invoke problem 0, any that comes while
 * four wait gets problem 3: verdict 3, and the transaction is over with all
 * that waits in it. */
smr_received smr_receive(uint8_t *table, size_t table_length,
                         const uint8_t *message, size_t message_length,
                         uint8_t *reply, size_t reply_length);

/* Recorded messages, fed one by one. A record is a length octet, 1 to 255, and
 * that many octets; records stand back to back. Record n gets slot n, at octet
 * SMR_SLOT * n of the output, with what smr_receive gives for its message from
 * the table that the one before left; what is shown is not handed back. Octets
 * after the last slot stay. All records are looked at before any is fed, so a
 * refused batch writes no slot and changes nothing. No records are no fault. */
smr_batched smr_batch(uint8_t *table, size_t table_length,
                      const uint8_t *records, size_t records_length,
                      uint8_t *output, size_t output_length);

/* In the calls below a parameter is one element, with its tag and length; 0
 * octets mean none. A transaction is named by the flag under which its messages
 * are received (1 if we began it, 0 if the network did) and its value, 0 to 6.
 * Both stand in the first octet of each message received; of one that we begin
 * the flag is 1 and smr_begin returns the value. */
#define SMR_FLAG(first) ((uint8_t)((uint8_t)(first) >> 7))
#define SMR_VALUE(first) ((uint8_t)((uint8_t)(first) >> 4 & 7))

/* A transaction stays open after a result or error, sent or received. It is
 * over with the verdicts 2 to 5 and after smr_release, whatever waits in it.
 * Ours to release is one that we began, once all that we asked was answered
 * with verdict 0 and we have no more to ask; and one that the network began
 * with 38, which has no answer. */

/* Begins a transaction: REGISTER with an Invoke. */
smr_called smr_begin(uint8_t *table, size_t table_length,
                     uint8_t operation, int8_t id,
                     const uint8_t *parameter, size_t parameter_length,
                     uint8_t *buffer, size_t buffer_length);

/* Another Invoke within an open transaction. Up to four of ours may wait in it,
 * each under an id of its own, whatever ids the peer's have. */
smr_called smr_invoke(uint8_t *table, size_t table_length,
                      uint8_t flag, uint8_t value,
                      uint8_t operation, int8_t id,
                      const uint8_t *parameter, size_t parameter_length,
                      uint8_t *buffer, size_t buffer_length);

/* Answers the peer's invoke with this id by a Return result. Those that wait
 * may be answered in any order. */
smr_called smr_result(uint8_t *table, size_t table_length,
                      uint8_t flag, uint8_t value, int8_t id,
                      const uint8_t *parameter, size_t parameter_length,
                      uint8_t *buffer, size_t buffer_length);

/* Answers the peer's invoke with this id by a Return error, likewise. */
smr_called smr_error(uint8_t *table, size_t table_length,
                     uint8_t flag, uint8_t value, int8_t id, uint8_t code,
                     const uint8_t *parameter, size_t parameter_length,
                     uint8_t *buffer, size_t buffer_length);

/* Ends a transaction: RELEASE COMPLETE. */
smr_called smr_release(uint8_t *table, size_t table_length,
                       uint8_t flag, uint8_t value,
                       uint8_t *buffer, size_t buffer_length);

/* A USSD string as text on forty cells. A line is two octets: its cells, 0 to
 * 40, and 1 if a space was dropped behind it, else 0.
 *
 * text gets the characters as Unicode numbers, the highest is 20AC: those of GSM
 * 03.38's default alphabet and its extension table, dropped spaces included.
 * text_length counts characters, not octets. SMR_CHARACTERS and SMR_LINE_OCTETS
 * suffice for every text that smr_receive shows; 41 never comes then.
 *
 * The first line starts at text[0], the next one further on by the sum of both
 * octets; the sums of all lines add up to `characters`. There is at least one
 * line, and a line may have no cells. Line feed (0A), page break (0C) and
 * carriage return (0D) take a cell like any character and end no line. */
smr_laid smr_cells(uint8_t scheme, const uint8_t *string, size_t string_length,
                   uint16_t *text, size_t text_length,
                   uint8_t *lines, size_t lines_length);

/* A trace file is blocks of SMR_BLOCK octets, numbered from 0: the number (four
 * octets), the octets used (two, 0 to 504), 504 octets for records, filled up
 * with zeros, and the sum of the first 510 octets modulo 65,536 (two), all high
 * first. A record is a direction (0 received, 1 sent), a length 1 to 255 and the
 * message. Keep one block, add each message as it comes or goes, and write the
 * block where it is full: that is the file that the program trace_writer writes
 * of the same records. Begin a block only where there is none yet, or where a
 * record doesn't fit. */

/* An empty block of this number. Any length but SMR_BLOCK is 32; else added is
 * true. */
smr_traced smr_trace_begin(uint8_t *block, size_t block_length, uint32_t number);

/* A record behind those of a block. The block's own faults, 32 to 35, come
 * first (its number is free), then 35 for a direction over 1, no octets or over
 * 255; then whether it fits. Where it is not added the block stays as it was. */
smr_traced smr_trace_add(uint8_t *block, size_t block_length, uint8_t direction,
                         const uint8_t *message, size_t message_length);

#ifdef __cplusplus
}
#endif

#endif
