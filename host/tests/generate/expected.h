/* The C functions of Threshtide, as its Rattle source declares them. Made by host/generate: do not edit.
 *
 * A slice is a pointer and a length. Slices of one call must not overlap where one of them is written to. An
 * answer's low byte is 0 for yes, or a number for no; its value stands in bits 8 and up. The pointer of an empty
 * slice is not read, but must not be null. docs/INTERFACE.md is the page for hosts. */
#ifndef THRESHTIDE_H
#define THRESHTIDE_H

#include <stdbool.h>
#include <stddef.h>
#include <stdint.h>

#ifdef __cplusplus
extern "C" {
#endif

/* The size of a state in bytes. */
uint64_t threshtide_state_size(void);

/* The size of an upload position in bytes; all zero is none. */
uint64_t threshtide_upload_size(void);

/* Sets a state up from a block of 192 bytes and an EDS; ids begin at the seed.
 * No: 1, 2. */
uint64_t threshtide_setup(
    uint8_t *state,
    size_t state_len,
    const uint8_t *block,
    size_t block_len,
    const uint8_t *eds,
    size_t eds_len,
    uint32_t seed);

uint64_t threshtide_set_input(
    uint8_t *state,
    size_t state_len,
    uint32_t instance,
    const uint8_t *bytes,
    size_t bytes_len);

uint64_t threshtide_output(uint8_t *state, size_t state_len, uint32_t instance, uint8_t *out, size_t out_len);

uint64_t threshtide_assembly(
    const uint8_t *state,
    size_t state_len,
    uint8_t kind,
    uint32_t instance,
    uint8_t *out,
    size_t out_len);

/* Opens a connection: thirteen checks, then the effect.
 * Yes: 26 reply bytes; multicast in bits 8 to 15, port in 16 to 31, address in 32 to 63. No: 1, 3, 4, 5, 8. */
uint64_t threshtide_open(
    uint8_t *state,
    size_t state_len,
    uint64_t time,
    uint8_t service,
    const uint8_t *request,
    size_t request_len,
    uint32_t peer,
    uint32_t local,
    uint32_t mask,
    bool given,
    uint32_t address,
    uint16_t port,
    uint16_t ioport,
    uint8_t *out,
    size_t out_len);

uint64_t threshtide_open_refusal(
    uint8_t service,
    const uint8_t *request,
    size_t request_len,
    uint8_t *out,
    size_t out_len);

uint64_t threshtide_close(
    uint8_t *state,
    size_t state_len,
    const uint8_t *request,
    size_t request_len,
    uint8_t *out,
    size_t out_len);

uint64_t threshtide_receive(
    uint8_t *state,
    size_t state_len,
    uint64_t time,
    uint32_t from,
    const uint8_t *frame,
    size_t frame_len);

uint64_t threshtide_produce(uint8_t *state, size_t state_len, uint64_t time, uint8_t *out, size_t out_len);

uint64_t threshtide_expire(uint8_t *state, size_t state_len, uint64_t time);

uint64_t threshtide_next_deadline(const uint8_t *state, size_t state_len, uint8_t *out, size_t out_len);

uint64_t threshtide_next_event(uint8_t *state, size_t state_len, uint8_t *out, size_t out_len);

uint64_t threshtide_connections(const uint8_t *state, size_t state_len, uint8_t *out, size_t out_len);

uint64_t threshtide_stats(const uint8_t *state, size_t state_len, uint8_t *out, size_t out_len);

uint64_t threshtide_message(
    const uint8_t *state,
    size_t state_len,
    uint8_t *upload,
    size_t upload_len,
    uint32_t local,
    uint32_t mask,
    const uint8_t *message,
    size_t message_len,
    uint8_t *out,
    size_t out_len);

uint64_t threshtide_path(const uint8_t *path, size_t path_len, uint8_t *out, size_t out_len);

uint64_t threshtide_request(const uint8_t *message, size_t message_len, uint8_t *out, size_t out_len);

#ifdef __cplusplus
}
#endif

#endif
