#include "spoken.h"

#include <string.h>

#define OCTETS(...) {sizeof((uint8_t[]){__VA_ARGS__}), {__VA_ARGS__}}

const spoken none = {0, {0}};
const spoken some = OCTETS(0x05, 0x00);

/* USSD-Arg or USSD-Res with one letter, and the others of their names. */
static const spoken question = OCTETS(0x30, 0x06, 0x04, 0x01, 0x0F, 0x04, 0x01, 0x41);
static const spoken answer = OCTETS(0x30, 0x06, 0x04, 0x01, 0x0F, 0x04, 0x01, 0x31);
static const spoken service = OCTETS(0x30, 0x03, 0x04, 0x01, 0x21);
static const spoken service_code = OCTETS(0x04, 0x01, 0x92);
static const spoken guidance = OCTETS(0x0A, 0x01, 0x00);
static const spoken password = OCTETS(0x12, 0x04, 0x31, 0x32, 0x33, 0x34);

spoken asked(uint8_t operation)
{
    switch (operation) {
    case 10: return some;
    case 11:
    case 12:
    case 13:
    case 14: return service;
    case 17: return service_code;
    case 18: return guidance;
    case 59:
    case 60:
    case 61: return question;
    default: return none;
    }
}

spoken answered(uint8_t operation)
{
    switch (operation) {
    case 17:
    case 18: return password;
    case 59:
    case 60: return answer;
    case 61: return none;
    default: return some;
    }
}

static spoken join(spoken first, spoken second)
{
    memcpy(first.octets + first.length, second.octets, second.length);
    first.length += second.length;
    return first;
}

static spoken element(uint8_t tag, spoken contents)
{
    return join((spoken){2, {tag, (uint8_t)contents.length}}, contents);
}

static spoken octet(uint8_t tag, uint8_t contents) { return (spoken){3, {tag, 0x01, contents}}; }

static spoken id_of(int8_t id) { return octet(0x02, (uint8_t)id); }

spoken an_invoke(int8_t id, uint8_t operation, spoken parameter)
{
    return element(0xA1, join(id_of(id), join(octet(0x02, operation), parameter)));
}

spoken a_linked_invoke(int8_t id, int8_t linked, uint8_t operation, spoken parameter)
{
    spoken rest = join(octet(0x80, (uint8_t)linked), join(octet(0x02, operation), parameter));
    return element(0xA1, join(id_of(id), rest));
}

spoken a_result(int8_t id, uint8_t operation, spoken parameter)
{
    if (parameter.length == 0) return element(0xA2, id_of(id));
    return element(0xA2, join(id_of(id), element(0x30, join(octet(0x02, operation), parameter))));
}

spoken a_bare_result(int8_t id, uint8_t operation)
{
    return element(0xA2, join(id_of(id), element(0x30, octet(0x02, operation))));
}

spoken an_error(int8_t id, uint8_t code, spoken parameter)
{
    return element(0xA3, join(id_of(id), join(octet(0x02, code), parameter)));
}

spoken a_reject(int8_t id, uint8_t tag, uint8_t problem)
{
    return element(0xA4, join(id_of(id), octet(tag, problem)));
}

static spoken header(uint8_t flag, uint8_t value, uint8_t type)
{
    return (spoken){2, {(uint8_t)(flag << 7 | value << 4 | 0x0B), type}};
}

spoken a_message(uint8_t flag, uint8_t value, uint8_t type, spoken facility)
{
    spoken to = header(flag, value, type), length = {1, {(uint8_t)facility.length}};
    if (type == RELEASE_COMPLETE && facility.length == 0) return to;
    if (type == FACILITY) return join(to, join(length, facility));
    return join(to, element(0x1C, facility));
}

spoken our_register(uint8_t value, spoken facility)
{
    return join(a_message(0, value, REGISTER, facility), octet(0x7F, 0x00));
}

spoken a_cause(uint8_t flag, uint8_t value, uint8_t cause)
{
    spoken contents = {2, {0xE0, (uint8_t)(128 + cause)}};
    return join(header(flag, value, RELEASE_COMPLETE), element(0x08, contents));
}

bool is_said(const uint8_t *octets, size_t length, spoken wanted)
{
    return length == wanted.length && memcmp(octets, wanted.octets, length) == 0;
}
