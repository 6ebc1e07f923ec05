/* What is decided by ranges of a number, at each of its 256 values. The papers' lists
 * stand number by number, here and in lists.c. */
#include "check.h"
#include "lists.h"
#include "smrcholet.h"

#include <string.h>

/* "Refused tags: 00, and low five bits all ones." */
static const uint8_t refused[] = {0x00, 0x1F, 0x3F, 0x5F, 0x7F, 0x9F, 0xBF, 0xDF, 0xFF};
/* "each octet 30 to 39 hex" */
static const uint8_t digits[] = {0x30, 0x31, 0x32, 0x33, 0x34, 0x35, 0x36, 0x37, 0x38, 0x39};
static const uint8_t menu[] = {0x0B, 0x3B, 0x1C, 0x10, 0xA1, 0x0E, 0x02, 0x01, 0x05, 0x02,
                               0x01, 0x3C, 0x30, 0x06, 0x04, 0x01, 0x0F, 0x04, 0x01, 0x41};

static uint8_t table[SMR_TABLE], before[SMR_TABLE], out[SMR_MESSAGE];

static smr_received receive(const uint8_t *message, size_t length)
{
    return smr_receive(table, sizeof table, message, length, out, SMR_REPLY);
}

/* The menu of W1 waits for our answer. */
static void menu_waits(void)
{
    memset(table, 0, sizeof table);
    check(receive(menu, sizeof menu).code == SMR_TAKEN, "ranges", "a menu");
    memcpy(before, table, sizeof table);
}

static bool is_unchanged(void) { return memcmp(before, table, sizeof table) == 0; }

/* The call sends this, or it is refused with this number and changes nothing. */
static void check_sent(smr_called c, bool sends, const uint8_t *sent, size_t length,
                       uint8_t refusal, const char *what)
{
    if (sends)
        check(c.code == 0 && c.written == length && memcmp(out, sent, length) == 0, "ranges", what);
    else
        check(c.code == refusal && c.written == 0 && is_unchanged(), "ranges", what);
}

/* B6: a code that we send as the error to the menu. */
static void test_code(uint8_t code)
{
    const uint8_t sent[] = {0x8B, 0x3A, 0x08, 0xA3, 0x06, 0x02, 0x01, 0x05, 0x02, 0x01, code};
    menu_waits();
    smr_called c = smr_error(table, sizeof table, 0, 0, 5, code, NULL, 0, out, sizeof out);
    check_sent(c, is_listed(code), sent, sizeof sent, SMR_NO_OPERATION, "a code");
}

/* A tag of a parameter that we write, and of one that is read. */
static void test_tag(uint8_t tag)
{
    const uint8_t one[] = {0x05, 0x00}, parameter[] = {tag, 0x00};
    const uint8_t error[] = {0x8B, 0x3A, 0x0A, 0xA3, 0x08, 0x02, 0x01,
                             0x01, 0x02, 0x01, 34,   tag,  0x00};
    bool reads = !memchr(refused, tag, sizeof refused);
    menu_waits();
    smr_called c = smr_error(table, sizeof table, 0, 0, 5, 34, parameter, 2, out, sizeof out);
    check(c.code == (reads ? 0 : SMR_PARAMETER), "ranges", "a tag written");

    memset(table, 0, sizeof table);
    c = smr_begin(table, sizeof table, 10, 1, one, sizeof one, out, sizeof out);
    check(c.code == 0, "ranges", "registerSS");
    smr_received r = receive(error, sizeof error);
    if (reads)
        check(r.code == SMR_TAKEN && r.shown.parameter.start == 11 && r.shown.parameter.end == 13,
              "ranges", "a tag read");
    else
        check(r.code == SMR_RELEASED_REJECT && out[9] == SMR_PROBLEM_GENERAL && out[11] == 2,
              "ranges", "a tag refused");
}

/* An operation that we begin, without a parameter: none goes without. */
static void test_begun(uint8_t operation)
{
    memset(table, 0, sizeof table);
    memset(before, 0, sizeof before);
    smr_called c = smr_begin(table, sizeof table, operation, 1, NULL, 0, out, sizeof out);
    check(c.code == (is_begun(operation) ? SMR_PARAMETER : SMR_NO_OPERATION) && is_unchanged(),
          "ranges", "an operation begun");
}

/* An operation that comes, without a parameter: 38 alone goes without. */
static void test_served(uint8_t operation)
{
    const uint8_t invoke[] = {0x0B, 0x3B, 0x1C, 0x08, 0xA1, 0x06,
                              0x02, 0x01, 0x05, 0x02, 0x01, operation};
    memset(table, 0, sizeof table);
    smr_received r = receive(invoke, sizeof invoke);
    uint8_t problem = is_served(operation) ? 2 : 1;
    if (operation == 38)
        check(r.code == SMR_TAKEN && r.shown.operation == 38, "ranges", "38 served");
    else
        check(r.code == SMR_RELEASED_REJECT && out[9] == SMR_PROBLEM_INVOKE && out[11] == problem,
              "ranges", "an operation that comes");
}

/* A message type, in a transaction that is open. */
static void test_type(uint8_t type)
{
    const uint8_t message[] = {0x0B, type, 0x00};
    menu_waits();
    smr_received r = receive(message, sizeof message);
    if (type == 0x2A)
        check(r.code == SMR_RELEASED, "ranges", "RELEASE COMPLETE");
    else if (type == 0x3A)
        check(r.code == SMR_TAKEN && is_unchanged(), "ranges", "FACILITY");
    else
        check(r.code == SMR_RELEASED_CAUSE && out[5] == 128 + (type == 0x3B ? 98 : 97), "ranges",
              "a type");
}

/* An octet of the Password that we write, at one of its four places: the answer to an 18. */
static void test_digit_written(uint8_t octet, int place)
{
    const uint8_t asks[] = {0x0B, 0x3B, 0x1C, 0x0B, 0xA1, 0x09, 0x02, 0x01,
                            0x05, 0x02, 0x01, 18,   0x0A, 0x01, 0x00};
    uint8_t sent[] = {0x8B, 0x3A, 0x10, 0xA2, 0x0E, 0x02, 0x01, 0x05, 0x30, 0x09,
                      0x02, 0x01, 18,   0x12, 0x04, 0x31, 0x32, 0x33, 0x34};
    sent[15 + place] = octet;
    memset(table, 0, sizeof table);
    check(receive(asks, sizeof asks).code == SMR_TAKEN, "ranges", "a getPassword");
    memcpy(before, table, sizeof table);
    smr_called c = smr_result(table, sizeof table, 0, 0, 5, sent + 13, 6, out, sizeof out);
    check_sent(c, memchr(digits, octet, sizeof digits), sent, sizeof sent, SMR_PARAMETER,
               "a digit written");
}

/* An octet of the Password that comes as the result of our 17. */
static void test_digit_read(uint8_t octet, int place)
{
    const uint8_t service[] = {0x04, 0x01, 0x92};
    uint8_t result[] = {0x8B, 0x3A, 0x10, 0xA2, 0x0E, 0x02, 0x01, 0x01, 0x30, 0x09,
                        0x02, 0x01, 17,   0x12, 0x04, 0x31, 0x32, 0x33, 0x34};
    result[15 + place] = octet;
    memset(table, 0, sizeof table);
    smr_called c = smr_begin(table, sizeof table, 17, 1, service, 3, out, sizeof out);
    check(c.code == 0, "ranges", "registerPassword");
    smr_received r = receive(result, sizeof result);
    if (memchr(digits, octet, sizeof digits))
        check(r.code == SMR_TAKEN && r.shown.kind == SMR_RESULT && r.shown.parameter.start == 13 &&
                  r.shown.parameter.end == 19,
              "ranges", "a digit read");
    else
        check(r.code == SMR_RELEASED_REJECT && r.shown.kind == SMR_NOTHING &&
                  out[9] == SMR_PROBLEM_RESULT && out[11] == 2,
              "ranges", "no digit read");
}

/* Tag 12 where any one element may stand is no Password: the argument of a 10. */
static void test_no_password(uint8_t octet, int place)
{
    uint8_t parameter[] = {0x12, 0x04, 0x31, 0x32, 0x33, 0x34};
    parameter[2 + place] = octet;
    memset(table, 0, sizeof table);
    smr_called c = smr_begin(table, sizeof table, 10, 1, parameter, 6, out, sizeof out);
    check(c.code == 0 && memcmp(out + 12, parameter, 6) == 0, "ranges", "registerSS of a 12");
}

int main(void)
{
    for (int number = 0; number < 256; number++) {
        for (int place = 0; place < 4; place++) {
            test_digit_written((uint8_t)number, place);
            test_digit_read((uint8_t)number, place);
            test_no_password((uint8_t)number, place);
        }
        test_code((uint8_t)number);
        test_tag((uint8_t)number);
        test_begun((uint8_t)number);
        test_served((uint8_t)number);
        test_type((uint8_t)number);
    }
    return checks_done();
}
