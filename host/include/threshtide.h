/* The C functions of Threshtide, as its Rattle source declares them. Made by host/generate: do not edit.
 *
 * A slice is a pointer and a length. Slices of one call must not overlap where one of them is written to. An
 * answer's low byte is 0 for yes, or a number for no; its value stands in bits 8 and up. The pointer of an empty
 * slice is not read, but must not be null. docs/INTERFACE.md is the page for hosts. */
#ifndef THRESHTIDE_H
#define THRESHTIDE_H

#include <stdbool.h>
#include <stddef.h>
#include <stdint.h>

#ifdef __cplusplus
extern "C" {
#endif

/* How many bytes a host has to lend as the state. */
uint64_t threshtide_state_size(void);

/* Gives an input new bytes; what they do not reach becomes zero. No: 1, 6, 7. */
uint64_t threshtide_set_input(
    uint8_t *state,
    size_t state_len,
    uint32_t instance,
    const uint8_t *bytes,
    size_t bytes_len);

/* Reads an output: the run byte, then its bytes; the next change gives an event again. No: 1, 6, 8. */
uint64_t threshtide_output(uint8_t *state, size_t state_len, uint32_t instance, uint8_t *out, size_t out_len);

/* Reads the bytes of an assembly of a kind: 1 input, 2 output, 3 configuration. No: 1, 6, 8. */
uint64_t threshtide_assembly(
    const uint8_t *state,
    size_t state_len,
    uint8_t kind,
    uint32_t instance,
    uint8_t *out,
    size_t out_len);

/* Takes the oldest event: a record of 32 bytes. No: 1, 9, 8. */
uint64_t threshtide_next_event(uint8_t *state, size_t state_len, uint8_t *out, size_t out_len);

/* Packets produced, those that were late, the greatest lateness in microseconds: 8 bytes each. No: 1, 8. */
uint64_t threshtide_stats(const uint8_t *state, size_t state_len, uint8_t *out, size_t out_len);

/* The connections in table order, a record of 32 bytes each. No: 1, 8. */
uint64_t threshtide_connections(const uint8_t *state, size_t state_len, uint8_t *out, size_t out_len);

/* Sets a state up from a block of 192 bytes and an EDS; ids begin at the seed. No: 1, 2. */
uint64_t threshtide_setup(
    uint8_t *state,
    size_t state_len,
    const uint8_t *block,
    size_t block_len,
    const uint8_t *eds,
    size_t eds_len,
    uint32_t seed);

/* Closes a connection. Yes: 10 reply bytes. No: 1, 4, 9, 8. */
uint64_t threshtide_close(
    uint8_t *state,
    size_t state_len,
    const uint8_t *request,
    size_t request_len,
    uint8_t *out,
    size_t out_len);

/* Removes what was silent for longer than its timeout; how many went stands in bits 8 and up. No: 1, 3. */
uint64_t threshtide_expire(uint8_t *state, size_t state_len, uint64_t time);

/* The time when a packet is due or a connection lives no longer, 8 bytes. No: 1, 9, 8. */
uint64_t threshtide_next_deadline(const uint8_t *state, size_t state_len, uint8_t *out, size_t out_len);

/* A frame from an address; one of no use is ignored. No: 1, 3. */
uint64_t threshtide_receive(
    uint8_t *state,
    size_t state_len,
    uint64_t time,
    uint32_t from,
    const uint8_t *frame,
    size_t frame_len);

/* All packets that are due, one behind the other; their length stands in bits 8 and up. No: 1, 3, 8. */
uint64_t threshtide_produce(uint8_t *state, size_t state_len, uint64_t time, uint8_t *out, size_t out_len);

/* How many bytes an upload position has; all zero is none. */
uint64_t threshtide_upload_size(void);

/* The reply to an explicit message; an upload of the EDS moves its position. No: 1, 8. */
uint64_t threshtide_message(
    const uint8_t *state,
    size_t state_len,
    uint8_t *upload,
    size_t upload_len,
    uint32_t local,
    uint32_t mask,
    const uint8_t *message,
    size_t message_len,
    uint8_t *out,
    size_t out_len);

/* What a path holds, a record of 32 bytes. No: 4, 8. */
uint64_t threshtide_path(const uint8_t *path, size_t path_len, uint8_t *out, size_t out_len);

/* What an explicit message asks, a record of 20 bytes. No: 4, 8. */
uint64_t threshtide_request(const uint8_t *message, size_t message_len, uint8_t *out, size_t out_len);

/* Opens a connection. Yes: 26 reply bytes; multicast in bits 8 to 15, port in 16 to 31, address in 32 to 63. No: 1, 3, 4, 5, 8. */
uint64_t threshtide_open(
    uint8_t *state,
    size_t state_len,
    uint64_t time,
    uint8_t service,
    const uint8_t *request,
    size_t request_len,
    uint32_t peer,
    uint32_t local,
    uint32_t mask,
    bool given,
    uint32_t address,
    uint16_t port,
    uint16_t ioport,
    uint8_t *out,
    size_t out_len);

/* The 10 bytes of data of a refused open's reply. No: 4, 8. */
uint64_t threshtide_open_refusal(
    uint8_t service,
    const uint8_t *request,
    size_t request_len,
    uint8_t *out,
    size_t out_len);

#ifdef __cplusplus
}
#endif

#endif
