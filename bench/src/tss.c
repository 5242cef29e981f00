/* tpm2-tss's marshalling library in the shape of our calls: a command taken apart, and written. The library has no call for
 * bytes of no type, as the parameters are here; they are pointed at, and copied. The comparison asks it too. */
#include <stdint.h>
#include <string.h>
#include <tss2/tss2_mu.h>

/* A command as the library's types hold it. */
struct command {
    TPM2_ST tag;
    TPM2_CC code;
    size_t handle_count;
    TPM2_HANDLE handles[3];
    size_t session_count;
    TPMS_AUTH_COMMAND sessions[3];
    const uint8_t *parameters;
    size_t parameters_len;
};

/* As ../../compare/src/tss/library.rs has it. */
_Static_assert(sizeof(struct command) == 480, "a command is not as the Rust has it");

#define TRY(call)                                                                                                              \
    do {                                                                                                                       \
        TSS2_RC rc = (call);                                                                                                   \
        if (rc != TSS2_RC_SUCCESS) return rc;                                                                                  \
    } while (0)

static TSS2_RC read_sessions(const uint8_t *s, size_t len, size_t *at, struct command *command)
{
    UINT32 size;
    TRY(Tss2_MU_UINT32_Unmarshal(s, len, at, &size));
    if (size > len - *at) return TSS2_MU_RC_INSUFFICIENT_BUFFER;
    size_t end = *at + size;
    while (*at < end) {
        if (command->session_count == 3) return TSS2_MU_RC_BAD_VALUE;
        TRY(Tss2_MU_TPMS_AUTH_COMMAND_Unmarshal(s, end, at, &command->sessions[command->session_count++]));
    }
    return TSS2_RC_SUCCESS;
}

/* Takes a command of so many handles apart. */
TSS2_RC tss_command_read(const uint8_t *s, size_t len, size_t handles, struct command *command)
{
    size_t at = 0;
    UINT32 size;
    TRY(Tss2_MU_TPM2_ST_Unmarshal(s, len, &at, &command->tag));
    TRY(Tss2_MU_UINT32_Unmarshal(s, len, &at, &size));
    if (size != len) return TSS2_MU_RC_BAD_SIZE;
    TRY(Tss2_MU_TPM2_CC_Unmarshal(s, len, &at, &command->code));
    command->handle_count = handles;
    for (size_t i = 0; i < handles; i++) TRY(Tss2_MU_TPM2_HANDLE_Unmarshal(s, len, &at, &command->handles[i]));
    command->session_count = 0;
    if (command->tag == TPM2_ST_SESSIONS) TRY(read_sessions(s, len, &at, command));
    command->parameters = s + at;
    command->parameters_len = len - at;
    return TSS2_RC_SUCCESS;
}

/* The authorization size goes before the sessions once they are there. */
static TSS2_RC write_sessions(const struct command *command, uint8_t *room, size_t len, size_t *at)
{
    size_t field = *at;
    TRY(Tss2_MU_UINT32_Marshal(0, room, len, at));
    size_t from = *at;
    for (size_t i = 0; i < command->session_count; i++)
        TRY(Tss2_MU_TPMS_AUTH_COMMAND_Marshal(&command->sessions[i], room, len, at));
    return Tss2_MU_UINT32_Marshal(*at - from, room, len, &field);
}

/* Writes a command, and tells how many bytes it has. */
TSS2_RC tss_command_write(const struct command *command, uint8_t *room, size_t len, uint64_t *total)
{
    size_t at = 0;
    TRY(Tss2_MU_TPM2_ST_Marshal(command->tag, room, len, &at));
    size_t field = at;
    TRY(Tss2_MU_UINT32_Marshal(0, room, len, &at));
    TRY(Tss2_MU_TPM2_CC_Marshal(command->code, room, len, &at));
    for (size_t i = 0; i < command->handle_count; i++)
        TRY(Tss2_MU_TPM2_HANDLE_Marshal(command->handles[i], room, len, &at));
    if (command->tag == TPM2_ST_SESSIONS) TRY(write_sessions(command, room, len, &at));
    if (command->parameters_len > len - at) return TSS2_MU_RC_INSUFFICIENT_BUFFER;
    memcpy(room + at, command->parameters, command->parameters_len);
    *total = at + command->parameters_len;
    return Tss2_MU_UINT32_Marshal(*total, room, len, &field);
}
