/* Keeps the nonces of sessions: opens some, hands over answers with the commands that they answer, asks for what is kept, and
   closes. A broker does this with every pair of frames that it passes on, and signs the next command over what it asks for.
   This is C99, and C++ as well. `examples/run` compiles it as both, links it with the proved library, and holds what it
   prints to nonces.txt. */
#include "skeinloft.h"

#include <stdio.h>
#include <string.h>

/* A command with the session 0x02000000, and what the TPM may answer: success with the nonce 11223344, and that the session's
   HMAC is wrong. */
static const uint8_t command[25] = {0x80, 2, 0, 0, 0, 25, 0, 0, 1, 0x7B, 0, 0, 0, 9, 2, 0, 0, 0, 0, 0, 1, 0, 0, 0, 8};
static const uint8_t success[27] = {0x80, 2, 0, 0, 0, 27, 0, 0, 0, 0, 0, 0, 0, 4, 0, 2, 9, 9, 0, 4, 0x11, 0x22, 0x33, 0x44, 1};
static const uint8_t auth_fail[10] = {0x80, 1, 0, 0, 0, 10, 0, 0, 9, 0x8E};

/* What TPM2_StartAuthSession gave for that session. */
static const uint8_t first[3] = {0x5A, 0x5B, 0x5C};

/* The alignment of a keeper is its place behind a byte. */
struct behind_a_byte {
    uint8_t byte;
    struct skein_keeper keeper;
};

static int faults;

/* The words for an area, by the numbers of enum skein_area. */
static const char *const areas[] = {"no", "header", "handles", "authorization", "parameters"};

static void say_refusal(uint32_t number, const uint64_t out[SKEIN_NUMBERS]) {
    switch (number) {
    case SKEIN_HANDLE_REPEATED: printf("refused: a command names an open session twice\n"); break;
    case SKEIN_COUNTS_DIFFER: printf("refused: an answer has another count of sessions than its command\n"); break;
    case SKEIN_ALREADY_OPEN: printf("refused: the session is open already\n"); break;
    case SKEIN_ALL_OPEN: printf("refused: all %d places are taken\n", SKEIN_KEEPER_PLACES); break;
    case SKEIN_NOT_OPEN: printf("refused: the session is not open\n"); break;
    default: printf("refused: %u at byte %u, %s area\n", (unsigned)number, (unsigned)out[SKEIN_OFFSET], areas[out[SKEIN_AREA]]);
    }
}

static void say(const char *what, uint32_t number, const uint64_t out[SKEIN_NUMBERS]) {
    printf("%s: ", what);
    if (number) say_refusal(number, out);
    else printf("done\n");
}

/* The nonce stands in the keeper's own bytes. */
static void ask(uint32_t handle, const struct skein_keeper *keeper) {
    uint64_t out[SKEIN_NUMBERS] = {0};
    const uint8_t *bytes = (const uint8_t *)keeper;
    uint32_t number = skein_keeper_ask(handle, keeper, out);
    printf("  the nonce of %#x: ", (unsigned)handle);
    if (number) {
        say_refusal(number, out);
        return;
    }
    for (uint64_t i = out[SKEIN_FROM]; i < out[SKEIN_TO]; i++) printf("%02x", bytes[i]);
    printf(out[SKEIN_FROM] == out[SKEIN_TO] ? "empty\n" : "\n");
}

/* Hands over a pair. The TPM is one of the Library's revision 1.59. */
static void answer(const char *what, const uint8_t *sent, size_t sent_len, const uint8_t *back, size_t back_len,
                   struct skein_keeper *keeper) {
    uint64_t out[SKEIN_NUMBERS] = {0};
    say(what, skein_keeper_answer(SKEIN_REVISION_159, sent, sent_len, back, back_len, keeper, out), out);
}

static void answers(struct skein_keeper *keeper) {
    uint8_t twice[34];
    answer("an error", command, sizeof command, auth_fail, sizeof auth_fail, keeper);
    ask(0x02000000, keeper);
    answer("an answer", command, sizeof command, success, sizeof success, keeper);
    ask(0x02000000, keeper);
    answer("half an answer", command, sizeof command, success, 13, keeper);
    answer("no command", success, sizeof success, success, sizeof success, keeper);

    /* the same command with its entry once more */
    memcpy(twice, command, 23);
    memcpy(twice + 23, command + 14, 11);
    twice[5] = sizeof twice;
    twice[13] = 18;
    answer("two entries of a session", twice, sizeof twice, success, sizeof success, keeper);
    /* of which one is another session's now */
    twice[26] = 7;
    answer("one entry less", twice, sizeof twice, success, sizeof success, keeper);
    ask(0x02000000, keeper);
}

/* As many sessions as there may be, and one more, for which another has to go. */
static void fill(struct skein_keeper *keeper) {
    uint64_t out[SKEIN_NUMBERS] = {0};
    uint8_t nonce[SKEIN_MAX_DIGEST_SIZE + 1] = {0};
    for (uint32_t i = 2; i < SKEIN_KEEPER_PLACES; i++) {
        nonce[0] = (uint8_t)i;
        faults += skein_keeper_open(0x03000000 + i, nonce, 1, keeper, out) != 0;
    }
    skein_keeper_len(keeper, out);
    printf("%u sessions are open\n", (unsigned)out[SKEIN_FIRST]);
    nonce[0] = SKEIN_KEEPER_PLACES;
    say("one open already", skein_keeper_open(0x02000000, nonce, 1, keeper, out), out);
    say("a nonce too long", skein_keeper_open(0x03000040, nonce, sizeof nonce, keeper, out), out);
    say("one more", skein_keeper_open(0x03000040, nonce, 1, keeper, out), out);
    say("closing another", skein_keeper_close(0x03000009, keeper, out), out);
    say("closing it again", skein_keeper_close(0x03000009, keeper, out), out);
    say("one more", skein_keeper_open(0x03000040, nonce, 1, keeper, out), out);
    ask(0x03000009, keeper);
    ask(0x03000040, keeper);
    ask(0x0300003F, keeper);
}

int main(void) {
    uint64_t out[SKEIN_NUMBERS] = {0};
    struct skein_keeper keeper, copy;
    printf("a keeper has %zu bytes, at places that %zu divides\n", sizeof keeper, offsetof(struct behind_a_byte, keeper));
    faults += sizeof keeper != SKEIN_KEEPER_SIZE || offsetof(struct behind_a_byte, keeper) != 8;

    skein_keeper_new(&keeper, out);
    say("opening", skein_keeper_open(0x02000000, first, sizeof first, &keeper, out), out);
    say("opening", skein_keeper_open(0x03000001, NULL, 0, &keeper, out), out);
    ask(0x02000000, &keeper);
    ask(0x03000001, &keeper);
    ask(0x03000002, &keeper);

    /* a copy is a keeper of its own */
    copy = keeper;
    answers(&keeper);
    fill(&keeper);
    printf("the copy, as it was\n");
    ask(0x02000000, &copy);
    skein_keeper_len(&copy, out);
    printf("  %u sessions\n", (unsigned)out[SKEIN_FIRST]);
    return faults != 0;
}
