#include "lists.h"

#include <string.h>

const uint8_t begun[BEGUN] = {10, 11, 12, 13, 14, 17, 59};
static const uint8_t served[] = {18, 38, 60, 61};
static const uint8_t codes[] = {1,  9,  10, 11, 12, 13, 16, 17, 18, 19, 20,
                                21, 27, 34, 35, 36, 37, 38, 43, 71, 72};

/* In the order of each list; 0 is no code. */
static const struct {
    uint8_t operation, errors[16];
} returns[] = {
    {10, {34, 35, 36, 10, 11, 13, 16, 17, 20}},
    {11, {34, 35, 36, 10, 11, 13, 16, 17}},
    {12, {34, 35, 36, 10, 11, 13, 16, 17, 19, 20, 38, 43}},
    {13, {34, 35, 36, 10, 11, 13, 16, 17, 19, 38, 43}},
    {14, {34, 35, 36, 10, 11, 13, 16, 18}},
    {17, {34, 35, 36, 13, 19, 37, 38, 43}},
    {59, {34, 35, 36, 71, 13}},
};

bool is_begun(uint8_t operation) { return memchr(begun, operation, sizeof begun) != NULL; }

bool is_served(uint8_t operation) { return memchr(served, operation, sizeof served) != NULL; }

bool is_waited_for(uint8_t operation) { return is_served(operation) && operation != 38; }

bool is_listed(uint8_t code) { return memchr(codes, code, sizeof codes) != NULL; }

bool may_return(uint8_t operation, uint8_t code)
{
    for (size_t i = 0; i < sizeof returns / sizeof *returns; i++)
        if (returns[i].operation == operation)
            return code != 0 && memchr(returns[i].errors, code, sizeof returns[i].errors) != NULL;
    return false;
}
