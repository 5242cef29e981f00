/* Reads a command and a response, says why some bytes are refused, and writes again what was read. All of it goes by the
   standard rules and the crate's table of commands, but for one answer that the Rust's rules refuse, and for one to a command
   of the Library's revision 1.59.
   This is C99, and C++ as well. `examples/run` compiles it as both, links it with the proved library, and holds what it
   prints to frames.txt. */
#include "skeinloft.h"

#include <stdio.h>
#include <string.h>

/* A command with one session and no parameters, and a response to the command 0x17B with one session. */
static const uint8_t command[27] = {0x80, 2, 0, 0, 0, 0x1B, 0, 0, 1, 0x5E, 0x80, 0, 0, 0, 0, 0, 0, 9, 0x40, 0, 0, 9};
static const uint8_t response[23] = {0x80, 2, 0, 0, 0, 0x17, 0, 0, 0, 0, 0, 0, 0, 4, 0, 2, 0xAA, 0xBB, 0, 0, 1};

/* What a TPM answers to a command whose tag it does not understand. */
static const uint8_t bad_tag[10] = {0x00, 0xC4, 0, 0, 0, 0x0A, 0, 0, 0, 0x1E};

static int faults;

/* The words for an area, by the numbers of enum skein_area. A writer has none. */
static const char *const areas[] = {"no", "header", "handles", "authorization", "parameters"};

static void say_place(const char *name, const uint64_t out[SKEIN_NUMBERS]) {
    printf("refused: %s at %llu, %s area: ", name, (unsigned long long)out[SKEIN_OFFSET], areas[out[SKEIN_AREA]]);
}

/* Why a call refused. One that reads never gives SKEIN_INTEGER_TOO_LARGE, so there is no case for it. */
static void say_refusal(uint32_t number, const uint64_t out[SKEIN_NUMBERS]) {
    unsigned long long second = out[SKEIN_SECOND], third = out[SKEIN_THIRD];
    const char *name = "another refusal";
    switch (number) {
    case SKEIN_UNEXPECTED_END: name = "UnexpectedEnd"; break;
    case SKEIN_TRAILING_DATA: name = "TrailingData"; break;
    case SKEIN_INVALID_TAG: name = "InvalidTag"; break;
    case SKEIN_INVALID_CC: name = "InvalidCc"; break;
    case SKEIN_INVALID_RC: name = "InvalidRc"; break;
    case SKEIN_TOO_MANY_ITEMS: name = "TooManyItems"; break;
    case SKEIN_TOO_MANY_BYTES: name = "TooManyBytes"; break;
    case SKEIN_BUFFER_OVERFLOW: name = "BufferOverflow"; break;
    case SKEIN_NO_SUCH_KIND: name = "a kind that is none"; break;
    case SKEIN_NO_SUCH_RULES: name = "rules that are none"; break;
    }
    say_place(name, out);
    switch (number) {
    case SKEIN_UNEXPECTED_END:
    case SKEIN_BUFFER_OVERFLOW: printf("%llu needed and %llu there\n", second, third); break;
    case SKEIN_TOO_MANY_ITEMS:
    case SKEIN_TOO_MANY_BYTES: printf("at most %llu and there are %llu\n", second, third); break;
    default: printf("%llu\n", second);
    }
}

/* The same of a writer of frames, which can give it. */
static void say_write_refusal(uint32_t number, const uint64_t out[SKEIN_NUMBERS]) {
    if (number != SKEIN_INTEGER_TOO_LARGE) {
        say_refusal(number, out);
        return;
    }
    say_place("IntegerTooLarge", out);
    printf("%llu\n", (unsigned long long)out[SKEIN_SECOND]);
}

static void say_area(const char *name, struct skein_span area) {
    printf("  %s %zu..%zu\n", name, area.from, area.to);
}

static void say_sessions(const struct skein_sessions *sessions) {
    const struct skein_session *three[SKEIN_MAX_SESSIONS] = {&sessions->first, &sessions->second, &sessions->third};
    for (size_t i = 0; i < sessions->count; i++) {
        const struct skein_session *it = three[i];
        printf("  session %#x: nonce %d bytes at %zu, attributes %#x, HMAC %d bytes at %zu\n", (unsigned)it->handle,
               it->nonce.size, it->nonce.at, it->attributes, it->hmac.size, it->hmac.at);
    }
}

/* What a writer left has to be the frame, with the room behind it as it was. */
static void compare(uint32_t number, const uint64_t out[SKEIN_NUMBERS], const uint8_t *room, const uint8_t *frame, size_t len) {
    if (number) {
        say_write_refusal(number, out);
    } else if (out[SKEIN_FIRST] == len && !memcmp(room, frame, len) && room[len] == 0xEE) {
        printf("  written again: the same %zu bytes\n", len);
        return;
    }
    printf("  NOT WRITTEN AGAIN\n");
    faults++;
}

static void read_command(const uint8_t *s, size_t len) {
    uint64_t out[SKEIN_NUMBERS] = {0};
    uint8_t room[64];
    struct skein_command_parts read = skein_command_parts(SKEIN_RULES_STANDARD, s, len, out);
    const struct skein_command *it = &read.command;
    if (read.refusal) {
        say_refusal(read.refusal, out);
        return;
    }
    printf("command %#x under the tag %#x\n", (unsigned)it->cc, it->tag);
    say_area("handles", it->handles);
    say_area("authorization", it->auth);
    say_area("parameters", it->parameters);
    say_sessions(&it->sessions);

    memset(room, 0xEE, sizeof room);
    uint32_t number = skein_command_write(SKEIN_RULES_STANDARD, it->tag, it->cc, s + it->handles.from,
                                          it->handles.to - it->handles.from, it->sessions, s, len, s + it->parameters.from,
                                          it->parameters.to - it->parameters.from, room, sizeof room, out);
    compare(number, out, room, s, len);
}

static void read_response(uint32_t rules, uint32_t cc, const uint8_t *s, size_t len) {
    uint64_t out[SKEIN_NUMBERS] = {0};
    uint8_t room[64];
    struct skein_response_parts read = skein_response_parts(rules, cc, s, len, out);
    const struct skein_response *it = &read.response;
    if (read.refusal) {
        say_refusal(read.refusal, out);
        return;
    }
    printf("response %#x to the command %#x under the tag %#x\n", (unsigned)it->rc, (unsigned)cc, it->tag);
    say_area("handles", it->handles);
    say_area("authorization", it->auth);
    say_area("parameters", it->parameters);
    say_sessions(&it->sessions);

    memset(room, 0xEE, sizeof room);
    /* by the same table */
    if (it->tag == SKEIN_RSP_COMMAND) rules += SKEIN_RULES_STANDARD_BAD_TAG - SKEIN_RULES_STANDARD;
    uint32_t number = skein_response_write(rules, it->rc, cc, s + it->handles.from, it->handles.to - it->handles.from,
                                           it->sessions, s, len, s + it->parameters.from,
                                           it->parameters.to - it->parameters.from, room, sizeof room, out);
    compare(number, out, room, s, len);
}

/* A session of the caller's own. What stands behind the first record is ignored, since there is one session. */
static void write_own(void) {
    uint64_t out[SKEIN_NUMBERS] = {0};
    uint8_t room[64];
    struct skein_sessions sessions;
    memset(&sessions, 0xFF, sizeof sessions);
    sessions.count = 1;
    memset(&sessions.first, 0, sizeof sessions.first);
    sessions.first.handle = 0x40000009;
    printf("the first command from a session of our own\n");
    memset(room, 0xEE, sizeof room);
    uint32_t number = skein_command_write(SKEIN_RULES_STANDARD, SKEIN_SESSIONS, 0x15E, command + SKEIN_HEADER, 4, sessions,
                                          NULL, 0, NULL, 0, room, sizeof room, out);
    compare(number, out, room, command, sizeof command);

    /* without room, and with no bytes at all, which a null pointer stands for */
    sessions.count = 0;
    out[SKEIN_FIRST] = 7;
    number = skein_command_write(SKEIN_RULES_STANDARD, SKEIN_NO_SESSIONS, 0x144, NULL, 0, sessions, NULL, 0, NULL, 0, NULL, 0,
                                 out);
    say_write_refusal(number, out);
    printf("  after that the array starts with %llu, as before\n", (unsigned long long)out[SKEIN_FIRST]);
}

/* Sessions in an array of the caller's own: the same one, and one more than a frame may have. */
static void write_array(void) {
    uint64_t out[SKEIN_NUMBERS] = {0};
    uint8_t room[64];
    struct skein_session records[SKEIN_MAX_SESSIONS + 1];
    memset(records, 0, sizeof records);
    records[0].handle = 0x40000009;
    printf("the first command from an array of one session, and then of four\n");
    memset(room, 0xEE, sizeof room);
    uint32_t number = skein_command_write_array(SKEIN_RULES_STANDARD, SKEIN_SESSIONS, 0x15E, command + SKEIN_HEADER, 4, records,
                                                1, NULL, 0, NULL, 0, room, sizeof room, out);
    compare(number, out, room, command, sizeof command);
    number = skein_command_write_array(SKEIN_RULES_STANDARD, SKEIN_SESSIONS, 0x15E, command + SKEIN_HEADER, 4, records,
                                       SKEIN_MAX_SESSIONS + 1, NULL, 0, NULL, 0, room, sizeof room, out);
    say_write_refusal(number, out);
}

/* A nonce as long as the standard rules allow, written, read, and copied to a buffer of that size; and one byte more. */
static void write_longest(void) {
    uint64_t out[SKEIN_NUMBERS] = {0};
    uint8_t lent[SKEIN_MAX_DIGEST_SIZE + 1];
    uint8_t kept[SKEIN_MAX_DIGEST_SIZE] = {0};
    uint8_t room[128];
    struct skein_sessions sessions;
    memset(&sessions, 0, sizeof sessions);
    memset(lent, 0xA5, sizeof lent);
    sessions.count = 1;
    sessions.first.handle = 0x40000009;
    sessions.first.nonce.size = SKEIN_MAX_DIGEST_SIZE;
    printf("a nonce as long as the standard rules allow, and then longer\n");
    uint32_t number = skein_command_write(SKEIN_RULES_STANDARD, SKEIN_SESSIONS, 0x15E, command + SKEIN_HEADER, 4, sessions,
                                          lent, sizeof lent, NULL, 0, room, sizeof room, out);
    struct skein_command_parts read =
        skein_command_parts(SKEIN_RULES_STANDARD, room, number ? 0 : (size_t)out[SKEIN_FIRST], out);
    /* no size is tested: by these rules each fits, and of a refused frame it is 0 */
    memcpy(kept, room + read.command.sessions.first.nonce.at, read.command.sessions.first.nonce.size);
    printf("  %d bytes are copied\n", read.command.sessions.first.nonce.size);
    if (memcmp(kept, lent, sizeof kept)) {
        printf("  NOT COPIED\n");
        faults++;
    }

    sessions.first.nonce.size++;
    number = skein_command_write(SKEIN_RULES_STANDARD, SKEIN_SESSIONS, 0x15E, command + SKEIN_HEADER, 4, sessions, lent,
                                 sizeof lent, NULL, 0, room, sizeof room, out);
    say_write_refusal(number, out);
}

/* Bytes that start with a command: where it stands, and where what is behind it. */
static void split(const uint8_t *s, size_t len) {
    uint64_t out[SKEIN_NUMBERS] = {0};
    uint32_t number = skein_command_cast_prefix(SKEIN_RULES_STANDARD, s, len, out);
    if (number) {
        say_refusal(number, out);
        return;
    }
    printf("a command at %d..%d, and behind it %d..%d\n", (int)out[SKEIN_FROM], (int)out[SKEIN_TO], (int)out[SKEIN_TAIL_FROM],
           (int)out[SKEIN_TAIL_TO]);
}

int main(void) {
    uint8_t both[sizeof command + sizeof response];
    uint8_t shorter[sizeof command];
    read_command(command, sizeof command);
    read_response(SKEIN_RULES_STANDARD, 0x17B, response, sizeof response);
    write_own();
    write_array();
    write_longest();

    memcpy(both, command, sizeof command);
    memcpy(both + sizeof command, response, sizeof response);
    split(both, sizeof both);
    split(response, sizeof response);

    /* the same command with a size field that is one too small, without its last byte, and no command at all */
    memcpy(shorter, command, sizeof command);
    shorter[5]--;
    read_command(shorter, sizeof shorter);
    read_command(command, sizeof command - 1);
    read_command(NULL, 0);
    /* the response read as one to a command that is none, and to one of revision 1.59 that the crate's table lacks */
    read_response(SKEIN_RULES_STANDARD, 0, response, sizeof response);
    read_response(SKEIN_RULES_STANDARD, 0x197, response, sizeof response);
    read_response(SKEIN_RULES_STANDARD | SKEIN_REVISION_159, 0x197, response, sizeof response);

    /* cut, with a size field that says so: the command in its handle and in its session, the response in its parameters */
    shorter[5] = 12;
    read_command(shorter, 12);
    shorter[5] = 26;
    read_command(shorter, 26);
    memcpy(shorter, response, 16);
    shorter[5] = 16;
    read_response(SKEIN_RULES_STANDARD, 0x17B, shorter, 16);

    /* the answer to a bad tag by the standard rules and by the Rust's, and a number that names no rules of this call */
    read_response(SKEIN_RULES_STANDARD, 0x144, bad_tag, sizeof bad_tag);
    read_response(SKEIN_RULES_RUST, 0x144, bad_tag, sizeof bad_tag);
    read_response(SKEIN_RULES_STANDARD_BAD_TAG, 0x144, bad_tag, sizeof bad_tag);
    return faults != 0;
}
