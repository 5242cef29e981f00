/* Skeinloft: TPM 2.0 command and response frames, read, checked and written.

   THE FORM OF A CALL. The arguments come in one order: numbers; bytes that are read; bytes that are written; last `out`, a lent
   array of eight numbers. A slice is a pointer and its length. A fixed buffer is its size and its data, always together.
   What comes back is 0 for an answer, else the refusal's number. The two calls `_parts` give a struct whose first field is
   that number.

   THE ARRAY has fixed places, see enum skein_place. An answer's numbers go to the places 0 to 3, and the others stay as they
   were. A refusal's fields go to the places 4 to 6, as many as it has, and its area, for every refusal, to the place 7; the
   others stay as they were: after a refusal out[0] is what stood there before. Below, `gives` names what goes to the places
   from 0 on, in this order.

   A REFUSED CALL changes nothing that was lent but those places. Below, a refusal is written No.(fields), as 1(0,10,len): its
   number, then its fields; enum skein_area tells which area it has. A call that names no refusal always answers.

   THE RULES. Every call that judges a frame takes their number first, see enum skein_rules. Name SKEIN_RULES_STANDARD, or
   SKEIN_RULES_RUST to answer as the provisioning tools that still run tpm2-protocol do; and with it a table of commands, see
   enum skein_revision: `SKEIN_RULES_STANDARD | SKEIN_REVISION_159` for a TPM of revision 1.59. Without one the table is the
   crate's. Where a call takes `revision`, that is the number of a table alone. A number that names no rules, or no table, of
   the call is refused 101(0,number) before anything else is looked at, which is not said again below.

   WHAT THE CALLER OWES
   - Every pointer is valid for its length. It may be null only where the length is 0.
   - `out` points to eight numbers, the data of a buffer to 64 or to 1,024 bytes, a keeper to a whole struct; none is null.
   - What is written overlaps nothing else that the call is given.
   The values themselves are free: every byte string, number and record is taken, and has its answer or its refusal.

   Nothing is kept behind a call. The one state there is, the nonce keeper's, is the caller's own struct. So calls may run at
   the same time in several threads, as long as what they write to is not shared.

   ONE MEANING A WORD
   len    the bytes of a slice that is given
   size   the number in a size field, a frame's or a TPM2B's, and so the bytes that a fixed buffer holds
   wire   2 + size: a TPM2B's bytes with its size field
   place  how many bytes stand before something, counted from 0
   room   bytes that are lent to be written to

   Tags, codes and areas are those of the TPM 2.0 Library, Parts 1 to 3. All numbers in frames are big-endian. */

#ifndef SKEINLOFT_H
#define SKEINLOFT_H

#include <stddef.h>
#include <stdint.h>

#ifdef __cplusplus
extern "C" {
#endif

/* Rises where a call or a struct changes its form or its meaning. */
#define SKEIN_VERSION 5

/* ---- numbers and places */

/* What a call returns. Behind each refusal are its fields.
   The writers of frames alone can give 7: skein_command_write, skein_command_write_array, skein_response_write and
   skein_response_write_array. No other call does, whatever the input, which is proved: code that only reads needs no case for
   it. */
enum skein_refusal {
    SKEIN_ANSWER = 0,
    SKEIN_UNEXPECTED_END = 1,    /* offset, needed, available: bytes end too early */
    SKEIN_TRAILING_DATA = 2,     /* offset, actual: bytes behind the end */
    SKEIN_INVALID_TAG = 3,       /* offset, value */
    SKEIN_INVALID_CC = 4,        /* offset, value: a command code that is not in the table */
    SKEIN_INVALID_RC = 5,        /* offset, value: a response code that is none, or does not go with the tag */
    SKEIN_TOO_MANY_ITEMS = 6,    /* offset, limit, actual */
    SKEIN_INTEGER_TOO_LARGE = 7, /* offset, value: of the four writers of frames alone */
    SKEIN_TOO_MANY_BYTES = 8,    /* offset, limit, actual */
    SKEIN_BUFFER_OVERFLOW = 9,   /* offset, needed, available: lent room too short */
    /* of the nonce keeper, without fields */
    SKEIN_HANDLE_REPEATED = 13,  /* a command names an open session twice */
    SKEIN_COUNTS_DIFFER = 14,    /* an answer has another count of entries than its command */
    SKEIN_ALREADY_OPEN = 15,     /* the session is open already */
    SKEIN_ALL_OPEN = 16,         /* as many sessions are open as a keeper takes */
    SKEIN_NOT_OPEN = 17,         /* the session is not open */
    /* from 100 on: a number in the call itself names nothing */
    SKEIN_NO_SUCH_KIND = 100,    /* 0, kind */
    SKEIN_NO_SUCH_RULES = 101    /* 0, rules or revision */
};

/* The area of the frame that a refusal is about, and the numbers that it comes with. It is
   - the header where the bytes are not as many as its size field says, for a tag, for a code, also that of the command which is
     answered, for bytes behind the header of an error, and in every call that reads or sets one field of the header;
   - the authorization area for all that is wrong in its entries;
   - else the part that is short. The four bytes of a size are of what they size: of the authorization area in a command, of
     the parameters in a response.
   It is none in the calls without a frame: on codes, tags and tables, on fields at a place, on TPM2Bs and fixed buffers, and on
   a keeper but for skein_keeper_answer. */
enum skein_area {
    SKEIN_AREA_NONE = 0,          /* of writers of frames, of numbers above 9, and of calls without a frame */
    SKEIN_AREA_HEADER = 1,        /* 1, 2, 3, 4, and of a response 5 */
    SKEIN_AREA_HANDLES = 2,       /* 1 */
    SKEIN_AREA_AUTHORIZATION = 3, /* 1, 6, and by the standard rules 8 */
    SKEIN_AREA_PARAMETERS = 4     /* 1, of a response alone */
};

/* The rules by which a frame is judged or written, by any table. They differ in two things:
   - in responses under the tag 0x00C4, which is for the answer to a bad tag: where a TPM does not understand a command's tag it
     answers 00C4 0000000A 0000001E, TPM_ST_RSP_COMMAND and TPM_RC_BAD_TAG (Part 2, TPM_ST);
   - in nonces and HMACs of more than 64 bytes: no digest is longer (Part 2, TPMU_HA). */
enum skein_rules {
    SKEIN_RULES_RUST = 0,            /* the Rust's, of tpm2-protocol: that answer is refused 3(0,0x00C4), and those pass */
    SKEIN_RULES_STANDARD = 1,        /* the Library's: that answer passes, to every command of the table, and those are refused */
    SKEIN_RULES_STANDARD_BAD_TAG = 2 /* for the writers of responses alone: that answer is asked for */
};

/* The tables of commands: which codes there are, and how many handles each has. A TPM has the commands of its revision of the
   Library. The number is added to that of the rules; in C++20 one of the two is cast to uint32_t, since they are of two enums.
   A code that is not in the table is refused 4(6,cc) in a command, and 4(0,cc) where it is written, put in, or answered.
   Revision 1.38 has no code behind 0x193 but 0x20000000, and all of its codes are in the other two as well. Behind 0x193
   revision 1.59 has 0x194 to 0x198, and the crate 0x194 to 0x1A1 without 0x197. A code has the same handles in each table that
   it is in, so those read its frames alike. */
enum skein_revision {
    SKEIN_REVISION_CRATE = 0x00, /* tpm2-protocol's, 126 commands */
    SKEIN_REVISION_138 = 0x10,   /* of the Library's revision 1.38, 113 commands */
    SKEIN_REVISION_159 = 0x20    /* of the Library's revision 1.59, 118 commands */
};

/* The places of the lent array. */
enum skein_place {
    SKEIN_FIRST = 0,     /* the answer's first number, of at most four */
    SKEIN_FROM = 0,      /* of a part: where it starts */
    SKEIN_TO = 1,        /* and ends */
    SKEIN_TAIL_FROM = 2, /* of what is behind it: where that starts */
    SKEIN_TAIL_TO = 3,   /* and ends */
    SKEIN_OFFSET = 4,    /* a refusal's offset */
    SKEIN_SECOND = 5,    /* its second field */
    SKEIN_THIRD = 6,     /* its third field, where it has three */
    SKEIN_AREA = 7,      /* its area, for every refusal */
    SKEIN_NUMBERS = 8    /* how many places there are */
};

/* The tags of frames (Part 2, TPM_ST). */
enum skein_tag {
    SKEIN_RSP_COMMAND = 0x00C4, /* of the answer to a bad tag, by the standard rules alone */
    SKEIN_NO_SESSIONS = 0x8001,
    SKEIN_SESSIONS = 0x8002
};

/* The kinds of response codes: of format zero, an error or a warning; of format one, those that speak of no part, and of a
   parameter, a handle or a session. */
enum skein_kind {
    SKEIN_FMT0 = 0,
    SKEIN_WARN = 1,
    SKEIN_FMT1 = 2,
    SKEIN_PARAMETER = 3,
    SKEIN_HANDLE = 4,
    SKEIN_SESSION = 5
};

enum {
    SKEIN_MAX_SESSIONS = 3,
    SKEIN_MAX_DIGEST_SIZE = 64, /* bytes of a nonce or an HMAC, by the standard rules */
    SKEIN_HEADER = 10,          /* bytes of a frame's header: where its handles start */
    SKEIN_BUFFER64 = 64,        /* bytes of the fixed buffers' data */
    SKEIN_BUFFER1024 = 1024,
    SKEIN_KEEPER_PLACES = 64,   /* sessions that a keeper holds open */
    SKEIN_KEEPER_SIZE = 4424    /* bytes of a keeper */
};

/* ---- structs */

/* A part of a frame: the bytes from `from` up to `to`, without the one at `to`. */
struct skein_span {
    size_t from;
    size_t to;
};

/* A nonce or an HMAC: `size` bytes from the place `at` on. One that is read lies within the frame, and by the standard rules
   `size` is at most SKEIN_MAX_DIGEST_SIZE: a buffer of so many bytes takes it. By the Rust's it may be 65,535. */
struct skein_field {
    size_t at;
    uint16_t size;
};

/* An entry of an authorization area. One of a response has no handle: 0 where it is read, ignored where it is written. */
struct skein_session {
    uint32_t handle;
    struct skein_field nonce;
    uint8_t attributes;
    struct skein_field hmac;
};

/* How many entries there are, and the first three. Read: zeros where there is none. Written: those past `count` are ignored. */
struct skein_sessions {
    size_t count;
    struct skein_session first;
    struct skein_session second;
    struct skein_session third;
};

/* All parts of a command. The areas are places in the frame: handles start at 10; `auth` are the entries without their size. */
struct skein_command {
    uint16_t tag;
    uint32_t cc;
    struct skein_span handles;
    struct skein_span auth;
    struct skein_span parameters;
    struct skein_sessions sessions;
};

/* All parts of a response, with the areas in the same order; in the frame the parameters stand before the entries. */
struct skein_response {
    uint16_t tag;
    uint32_t rc;
    struct skein_span handles;
    struct skein_span auth;
    struct skein_span parameters;
    struct skein_sessions sessions;
};

/* What the two calls `_parts` give: the number that other calls return, and the parts, all zeros where it is not 0. */
struct skein_command_parts {
    uint32_t refusal;
    struct skein_command command;
};

struct skein_response_parts {
    uint32_t refusal;
    struct skein_response response;
};

/* A nonce keeper, which belongs to the caller. Only the calls below know what stands in it; it may be copied and moved. */
struct skein_keeper {
    uint64_t opaque[553];
};

/* The library is one for 64-bit machines: there the structs have these sizes. */
#if defined(__cplusplus) && __cplusplus >= 201103L
#define SKEIN_HOLDS(name, fact) static_assert(fact, #name)
#elif defined(__STDC_VERSION__) && __STDC_VERSION__ >= 201112L
#define SKEIN_HOLDS(name, fact) _Static_assert(fact, #name)
#else
#define SKEIN_HOLDS(name, fact) typedef char name[(fact) ? 1 : -1]
#endif
SKEIN_HOLDS(skein_size_of_size_t, sizeof(size_t) == 8);
SKEIN_HOLDS(skein_size_of_span, sizeof(struct skein_span) == 16);
SKEIN_HOLDS(skein_size_of_field, sizeof(struct skein_field) == 16);
SKEIN_HOLDS(skein_size_of_session, sizeof(struct skein_session) == 48);
SKEIN_HOLDS(skein_size_of_sessions, sizeof(struct skein_sessions) == 152);
SKEIN_HOLDS(skein_size_of_command, sizeof(struct skein_command) == 208);
SKEIN_HOLDS(skein_size_of_response, sizeof(struct skein_response) == 208);
SKEIN_HOLDS(skein_size_of_command_parts, sizeof(struct skein_command_parts) == 216);
SKEIN_HOLDS(skein_size_of_response_parts, sizeof(struct skein_response_parts) == 216);
SKEIN_HOLDS(skein_size_of_keeper, sizeof(struct skein_keeper) == SKEIN_KEEPER_SIZE);
#undef SKEIN_HOLDS

/* ---- commands

   What a frame is refused for, in this order, with S for its size field and `left` for the bytes from a place to the end:
   the envelope   1(0,10,len)  1(2,10,S)  1(len,S-len,0)  2(S,len-S)  3(0,tag)
   a command      4(6,cc)  1(10,handle bytes,left)
   its area       1(place,4,left)  1(place,size,left)
   its entries    6(place,3,4)  1(place,needed,left)
   nonce or HMAC  1(place,2,left)  8(place,64,size)  1(place,wire,left)
   The place of a nonce or an HMAC is that of its size, and 8 is of the standard rules alone. `_cast` goes up to the area's size,
   `_validate` and `_parts` check all. */

/* Checks a command whole. Gives nothing. */
uint32_t skein_command_validate(uint32_t rules, const uint8_t *s, size_t len, uint64_t out[8]);

/* Checks a command whole and gives all its parts by value; the array takes a refusal alone. */
struct skein_command_parts skein_command_parts(uint32_t rules, const uint8_t *s, size_t len, uint64_t out[8]);

/* Checks all but the entries. Gives the whole of the bytes: 0, len. */
uint32_t skein_command_cast(uint32_t rules, const uint8_t *s, size_t len, uint64_t out[8]);

/* The same of a command at the start of the bytes. Gives it and what is behind it: 0, S, S, len. */
uint32_t skein_command_cast_prefix(uint32_t rules, const uint8_t *s, size_t len, uint64_t out[8]);

/* One area. Gives its start and its end. The size field is not judged: all bytes count.
   Refuses 1(0,10,len), 4(6,cc), 1(10,handle bytes,left); the last two also 3(0,tag) and an area that is short, as above. */
uint32_t skein_command_handles(uint32_t rules, const uint8_t *s, size_t len, uint64_t out[8]);
uint32_t skein_command_auth_area(uint32_t rules, const uint8_t *s, size_t len, uint64_t out[8]);
uint32_t skein_command_parameters(uint32_t rules, const uint8_t *s, size_t len, uint64_t out[8]);

/* The command code. Gives it. Refuses 1(0,10,len), 4(6,cc). */
uint32_t skein_command_cc(uint32_t rules, const uint8_t *s, size_t len, uint64_t out[8]);

/* Puts a command code in; nothing else of the frame is checked or changed. Gives nothing. Refuses 1(0,10,len), 4(0,cc). */
uint32_t skein_command_set_cc(uint32_t rules, uint32_t cc, uint8_t *s, size_t len, uint64_t out[8]);

/* Writes a command to the start of the room. Gives how many bytes that took; the room behind them stays as it was.
   `lent` are the bytes that the places in `sessions` count in: of a frame that was read, the frame.
   Refuses 3(0,tag) also where tag and sessions do not go together, 6(0,3,count), 4(0,cc), handle bytes that are short
   1(0,due,given) or too many 2(due,given-due), a total of more than 32 bits 7(0,total), room too short 9(0,total,room_len).
   Before the total, record by record and the nonce before the HMAC: one that is too long by the standard rules 8(0,64,size), one
   that ends behind `lent` 1(at,size,left). */
uint32_t skein_command_write(uint32_t rules, uint16_t tag, uint32_t cc, const uint8_t *handles, size_t handles_len,
                             struct skein_sessions sessions, const uint8_t *lent, size_t lent_len, const uint8_t *parameters,
                             size_t parameters_len, uint8_t *room, size_t room_len, uint64_t out[8]);

/* The same with the sessions in an array of `count` records. */
uint32_t skein_command_write_array(uint32_t rules, uint16_t tag, uint32_t cc, const uint8_t *handles, size_t handles_len,
                                   const struct skein_session *records, size_t count, const uint8_t *lent, size_t lent_len,
                                   const uint8_t *parameters, size_t parameters_len, uint8_t *room, size_t room_len,
                                   uint64_t out[8]);

/* ---- responses

   The envelope is refused as a command's, then a code that does not read, 5(6,rc). What is behind the header depends on the
   command that is answered: `cc` is its code. Refused for it: 4(0,cc); of a code that is not success, 3(0,0x8002) and
   2(10,len-10); of success, handles, area and entries as in a command.

   By the standard rules 0x00C4 is a response's tag too. Under it the code 0x1E reads and no other, not even success: 5(6,rc).
   What passes there is an error as any other, and its areas are empty. */

/* Checks a response to the command cc whole. Gives nothing. */
uint32_t skein_response_validate(uint32_t rules, uint32_t cc, const uint8_t *s, size_t len, uint64_t out[8]);

/* Checks a response to the command cc whole and gives all its parts by value; the array takes a refusal alone. */
struct skein_response_parts skein_response_parts(uint32_t rules, uint32_t cc, const uint8_t *s, size_t len, uint64_t out[8]);

/* Checks the envelope and the response code. Gives the whole of the bytes: 0, len. */
uint32_t skein_response_cast(uint32_t rules, const uint8_t *s, size_t len, uint64_t out[8]);

/* The same of a response at the start of the bytes. Gives it and what is behind it: 0, S, S, len. */
uint32_t skein_response_cast_prefix(uint32_t rules, const uint8_t *s, size_t len, uint64_t out[8]);

/* What is behind the header. Gives 10 and len. Refuses 1(0,10,len). */
uint32_t skein_response_body(const uint8_t *s, size_t len, uint64_t out[8]);

/* The response code, which has to read under the frame's tag. Gives it. Refuses 1(0,10,len), 5(6,rc). */
uint32_t skein_response_rc(uint32_t rules, const uint8_t *s, size_t len, uint64_t out[8]);

/* Puts in a response code that reads under the frame's tag; nothing else is checked or changed. Gives nothing.
   Refuses 1(0,10,len), 5(0,rc). */
uint32_t skein_response_set_rc(uint32_t rules, uint32_t rc, uint8_t *s, size_t len, uint64_t out[8]);

/* Writes a response with the code rc to the command cc, as skein_command_write does; sessions choose the tag.
   Refuses 6(0,3,count), 4(0,cc), 5(0,rc), sessions with a code that is not success 3(0,0x8002), and from the handles on as a
   command. A code that is not success is written in ten bytes, and the other parts are ignored.
   By SKEIN_RULES_STANDARD_BAD_TAG, which writes again what was read under the tag 0x00C4, the code 0x1E is written under that
   tag. Any other is refused 5(0,rc): one that does not read before the check of the sessions, one that reads behind it. */
uint32_t skein_response_write(uint32_t rules, uint32_t rc, uint32_t cc, const uint8_t *handles, size_t handles_len,
                              struct skein_sessions sessions, const uint8_t *lent, size_t lent_len, const uint8_t *parameters,
                              size_t parameters_len, uint8_t *room, size_t room_len, uint64_t out[8]);

/* The same with the sessions in an array of `count` records. */
uint32_t skein_response_write_array(uint32_t rules, uint32_t rc, uint32_t cc, const uint8_t *handles, size_t handles_len,
                                    const struct skein_session *records, size_t count, const uint8_t *lent, size_t lent_len,
                                    const uint8_t *parameters, size_t parameters_len, uint8_t *room, size_t room_len,
                                    uint64_t out[8]);

/* ---- the nonce keeper

   The TPM sends a fresh nonce in each answer, and the next command of the session is signed over it. The keeper remembers, for
   up to 64 open sessions, the session's handle and the last nonce from the TPM. It reads frames by SKEIN_RULES_STANDARD and
   the table that is named with them.
   A refused call leaves the keeper as it was, byte for byte. Every struct is taken, also one of random bytes: then what it
   stands for is not sensible, and no call reads or writes outside it. A keeper is empty once it was given to
   skein_keeper_new, or where all its bytes are zeros. */

/* Makes an empty keeper. Gives nothing. */
uint32_t skein_keeper_new(struct skein_keeper *keeper, uint64_t out[8]);

/* Opens a session with its first nonce, which TPM2_StartAuthSession has given. Gives nothing.
   Refuses 15 where the handle is open, 8(0,64,nonce_len), 16 where 64 sessions are open. */
uint32_t skein_keeper_open(uint32_t handle, const uint8_t *nonce, size_t nonce_len, struct skein_keeper *keeper,
                           uint64_t out[8]);

/* Takes an answer of the TPM with the command that it answers, by the table of its revision. Gives nothing.
   Where the answer is success, each open session that the command names gets the nonce at the same position of the answer;
   handles that are not open are passed by. An error moves nothing, and is no refusal.
   Refuses as skein_command_parts, then as skein_response_parts for the command's code; of success then 13 where the command
   names an open session twice, 14 where the two have different counts of entries. */
uint32_t skein_keeper_answer(uint32_t revision, const uint8_t *command, size_t command_len, const uint8_t *response,
                             size_t response_len, struct skein_keeper *keeper, uint64_t out[8]);

/* Closes a session, where it was flushed, or where a command said that it does not go on. Gives nothing. Refuses 17. */
uint32_t skein_keeper_close(uint32_t handle, struct skein_keeper *keeper, uint64_t out[8]);

/* Gives where the nonce of a session stands in the keeper's own bytes: its start and its end, counted from the keeper's first
   byte. It stands there until the next call that changes the keeper. Refuses 17. */
uint32_t skein_keeper_ask(uint32_t handle, const struct skein_keeper *keeper, uint64_t out[8]);

/* Gives how many sessions are open. */
uint32_t skein_keeper_len(const struct skein_keeper *keeper, uint64_t out[8]);

/* ---- headers, of either kind */

/* The tag. Gives it. Refuses 1(0,10,len), and a tag that is none of the Library's, 3(0,tag). */
uint32_t skein_frame_tag(const uint8_t *s, size_t len, uint64_t out[8]);

/* Puts a tag in; nothing else is checked or changed. Gives nothing. Refuses 1(0,10,len), 3(0,tag). */
uint32_t skein_frame_set_tag(uint16_t tag, uint8_t *s, size_t len, uint64_t out[8]);

/* The size field, not judged. Gives it. Refuses 1(0,10,len). */
uint32_t skein_frame_size(const uint8_t *s, size_t len, uint64_t out[8]);

/* Gives len; and 1 where that is 0, else 0. */
uint32_t skein_frame_len(const uint8_t *s, size_t len, uint64_t out[8]);
uint32_t skein_frame_is_empty(const uint8_t *s, size_t len, uint64_t out[8]);

/* ---- codes, tags, and the tables of commands */

/* Takes a response code apart. Gives its kind, its base, the number of the part that it speaks of (0: none) and its value.
   Refuses 5(0,rc). */
uint32_t skein_rc_read(uint32_t rc, uint64_t out[8]);

/* Puts a response code together; an index counts to four bits, and kinds without one ignore it. Gives the code.
   Refuses 100(0,kind). */
uint32_t skein_rc_value(uint32_t kind, uint32_t base, uint8_t index, uint64_t out[8]);

/* Gives how many handles a command has by a table, and how many its response. Refuses 4(0,cc). */
uint32_t skein_table_find(uint32_t revision, uint32_t cc, uint64_t out[8]);

/* Give 1 for a command code that a table has, for a tag that there is, else 0. */
uint32_t skein_table_known(uint32_t revision, uint32_t cc, uint64_t out[8]);
uint32_t skein_tag_known(uint16_t tag, uint64_t out[8]);

/* ---- fields: two or four bytes at a place */

/* Give the number there. Refuse 1(place,width,left). */
uint32_t skein_read_u16(size_t place, const uint8_t *s, size_t len, uint64_t out[8]);
uint32_t skein_read_u32(size_t place, const uint8_t *s, size_t len, uint64_t out[8]);

/* Write a number there. Give nothing. Refuse 9(place,width,left). */
uint32_t skein_write_u16(size_t place, uint16_t n, uint8_t *s, size_t len, uint64_t out[8]);
uint32_t skein_write_u32(size_t place, uint32_t n, uint8_t *s, size_t len, uint64_t out[8]);

/* ---- a TPM2B where it stands: a size of two bytes, and that many bytes

   Checked against a capacity it is refused 1(0,2,len), 8(0,capacity,size), 1(2,size,len-2); read whole also 2(2+size,rest). */

/* Checks the one at the start. Gives its wire length. */
uint32_t skein_tpm2b_validate_prefix(size_t capacity, const uint8_t *s, size_t len, uint64_t out[8]);

/* Checks the bytes whole. Gives nothing. */
uint32_t skein_tpm2b_validate(size_t capacity, const uint8_t *s, size_t len, uint64_t out[8]);

/* Checks the bytes whole. Gives 0 and len. */
uint32_t skein_tpm2b_cast(size_t capacity, const uint8_t *s, size_t len, uint64_t out[8]);

/* Checks the one at the start. Gives it and what is behind it: 0, its end, its end, len. */
uint32_t skein_tpm2b_cast_prefix(size_t capacity, const uint8_t *s, size_t len, uint64_t out[8]);

/* Give the size; 2 and len, which is all behind the size; 1 where the size is 0, else 0. Nothing more is judged.
   Refuse 1(0,2,len). */
uint32_t skein_tpm2b_size(const uint8_t *s, size_t len, uint64_t out[8]);
uint32_t skein_tpm2b_data(const uint8_t *s, size_t len, uint64_t out[8]);
uint32_t skein_tpm2b_is_empty(const uint8_t *s, size_t len, uint64_t out[8]);

/* Gives len. */
uint32_t skein_tpm2b_len(const uint8_t *s, size_t len, uint64_t out[8]);

/* ---- fixed buffers of 64 and of 1,024 bytes

   The first `size` bytes of the data are held; those behind them are never looked at, and stay as they were where nothing else
   is said. The caller keeps the size: a call that changes the buffer gives the new one. A size above the capacity is refused by
   each call that takes one, 8(0,capacity,size). */

/* An empty buffer: the data become zeros. Gives 0, its size. */
uint32_t skein_buffer64_new(uint8_t data[64], uint64_t out[8]);
uint32_t skein_buffer1024_new(uint8_t data[1024], uint64_t out[8]);

/* A buffer of these bytes, zeros behind them. Gives its size. Refuses 9(0,len,capacity). */
uint32_t skein_buffer64_from_slice(const uint8_t *s, size_t len, uint8_t data[64], uint64_t out[8]);
uint32_t skein_buffer1024_from_slice(const uint8_t *s, size_t len, uint8_t data[1024], uint64_t out[8]);

/* A buffer of the TPM2B at the start of the bytes, zeros behind it. Gives its size and its wire length.
   Refuses as skein_tpm2b_validate_prefix. */
uint32_t skein_buffer64_unmarshal(const uint8_t *s, size_t len, uint8_t data[64], uint64_t out[8]);
uint32_t skein_buffer1024_unmarshal(const uint8_t *s, size_t len, uint8_t data[1024], uint64_t out[8]);

/* One byte more. Gives the new size. Refuses 9(size,1,capacity-size). */
uint32_t skein_buffer64_push(uint8_t byte, uint16_t size, uint8_t data[64], uint64_t out[8]);
uint32_t skein_buffer1024_push(uint8_t byte, uint16_t size, uint8_t data[1024], uint64_t out[8]);

/* These bytes more. Gives the new size. Refuses 9(size,len,capacity-size). */
uint32_t skein_buffer64_extend(const uint8_t *s, size_t len, uint16_t size, uint8_t data[64], uint64_t out[8]);
uint32_t skein_buffer1024_extend(const uint8_t *s, size_t len, uint16_t size, uint8_t data[1024], uint64_t out[8]);

/* Copies the bytes held to the start of the room. Gives the size. Refuses 9(0,size,room_len). */
uint32_t skein_buffer64_held(uint16_t size, const uint8_t data[64], uint8_t *room, size_t room_len, uint64_t out[8]);
uint32_t skein_buffer1024_held(uint16_t size, const uint8_t data[1024], uint8_t *room, size_t room_len, uint64_t out[8]);

/* Writes the TPM2B to the start of the room. Gives its wire length. Refuses 9(0,2+size,room_len). */
uint32_t skein_buffer64_marshal(uint16_t size, const uint8_t data[64], uint8_t *room, size_t room_len, uint64_t out[8]);
uint32_t skein_buffer1024_marshal(uint16_t size, const uint8_t data[1024], uint8_t *room, size_t room_len, uint64_t out[8]);

/* Gives the wire length of a buffer that holds so many bytes. */
uint32_t skein_buffer64_wire_len(uint16_t size, uint64_t out[8]);
uint32_t skein_buffer1024_wire_len(uint16_t size, uint64_t out[8]);

/* Gives 1 where the two hold the same bytes, else 0. The first buffer's size is judged first. */
uint32_t skein_buffer64_eq(uint16_t size, const uint8_t data[64], uint16_t other_size, const uint8_t other[64], uint64_t out[8]);
uint32_t skein_buffer1024_eq(uint16_t size, const uint8_t data[1024], uint16_t other_size, const uint8_t other[1024],
                             uint64_t out[8]);

#ifdef __cplusplus
}
#endif

#endif
