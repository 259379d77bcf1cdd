#include "tally.h"

#include <inttypes.h>
#include <stdio.h>

#include "layout.h"

Tally empty_tally(Form form)
{
    return (Tally){ .form = form, .digest = 1 };
}

/* The digest's modulus. It is 5 below 2 to the 32nd, so that a number's part above the low 32 bits
 * counts five times its own size. */
#define Modulus UINT64_C(4294967291)

/* The digest with one byte more. Between two bytes it is not reduced to the end, which takes half
 * the instructions: one below 2 to the 33rd gives one below 2 to the 33rd, of the same rest. */
static uint64_t digest_byte(uint64_t digest, uint8_t byte)
{
    uint64_t next = digest * 16777619 + byte + 1;
    return (next >> 32) * 5 + (next & UINT32_MAX);
}

static uint64_t digest_bytes(uint64_t digest, const uint8_t *bytes, size_t count)
{
    for (size_t i = 0; i < count; i++) {
        digest = digest_byte(digest, bytes[i]);
    }
    return digest;
}

static uint64_t digest_two_bytes(uint64_t digest, size_t number)
{
    digest = digest_byte(digest, (uint8_t)(number >> 8));
    return digest_byte(digest, (uint8_t)number);
}

static void add_call(Tally *tally, const RawdhusaqRunReply *given, const uint8_t *answer,
    const RawdhusaqState *state)
{
    uint64_t digest = digest_byte(tally->digest, given->number);
    digest = digest_two_bytes(digest, given->length);
    digest = digest_two_bytes(digest, given->read);
    digest = digest_bytes(digest, answer, given->length);
    if (tally->form == FormDigest) {
        uint8_t bytes[StateSize];
        state_to_bytes(state, bytes);
        digest = digest_bytes(digest, bytes, sizeof bytes);
    }
    tally->digest = digest;
    tally->calls++;
    tally->numbers[given->number]++;
    tally->bytes += given->length;
}

static void write_hex(const uint8_t *bytes, size_t count)
{
    static const char digits[] = "0123456789abcdef";
    for (size_t i = 0; i < count; i++) {
        char pair[2] = { digits[bytes[i] >> 4], digits[bytes[i] & 15] };
        fwrite(pair, 1, sizeof pair, stdout);
    }
}

static void trace_call(const RawdhusaqRunReply *given, const uint8_t *answer,
    const RawdhusaqState *state)
{
    uint8_t bytes[StateSize];
    printf("%u %zu %zu ", (unsigned)given->number, given->length, given->read);
    if (given->length == 0) {
        fputs("-", stdout);
    } else {
        write_hex(answer, given->length);
    }
    fputs(" ", stdout);
    state_to_bytes(state, bytes);
    write_hex(bytes, sizeof bytes);
    fputs("\n", stdout);
}

void tally_call(Tally *tally, const RawdhusaqRunReply *given, const uint8_t *answer,
    const RawdhusaqState *state)
{
    if (tally->form == FormTrace) {
        trace_call(given, answer, state);
    } else {
        add_call(tally, given, answer, state);
    }
}

void tally_end(const Tally *tally)
{
    if (tally->form == FormTrace) {
        return;
    }
    printf("calls %" PRIu64 " numbers", tally->calls);
    for (size_t i = 0; i < Numbers; i++) {
        printf(" %" PRIu64, tally->numbers[i]);
    }
    printf(" bytes %" PRIu64 " digest %" PRIu64 "\n", tally->bytes,
        tally->digest % Modulus);
}
