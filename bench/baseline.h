/*
 * The baseline: the functions of branmuslin.h once more, in plain C, to measure the library against. Each makes the very same checks in the same
 * order, takes and gives the same types and behaves as the header says of its namesake; bench/agree.c compares the two.
 */
#ifndef BASELINE_H
#define BASELINE_H

#include <branmuslin.h>

uint8_t base_read_packet(const uint8_t *octets, size_t octets_length, struct branmuslin_packet *packet, size_t *place);
uint8_t base_write_space(uint32_t type, uint32_t secondary, uint32_t apid, uint32_t flags, uint32_t count, const uint8_t *data, size_t data_length,
                         uint8_t *output, size_t output_length, size_t *written);
uint8_t base_write_encapsulation(uint32_t protocol, uint32_t user, uint32_t extension, const uint8_t *content, size_t content_length, uint8_t *output,
                                 size_t output_length, size_t *written);
uint8_t base_write_record(uint16_t station, uint16_t apid, uint32_t units, uint32_t packets, uint32_t missing, uint32_t broken, uint8_t *output,
                          size_t output_length);
uint8_t base_read_record(const uint8_t *octets, size_t octets_length, struct branmuslin_record *record);
uint8_t base_read_record_file(const uint8_t *octets, size_t octets_length, size_t *records, size_t *index);
struct branmuslin_state base_fresh_start(void);
bool base_is_sound(struct branmuslin_state state);
struct branmuslin_change base_open_lane(struct branmuslin_state state, size_t lane, struct branmuslin_settings settings, const uint8_t *pool,
                                        size_t pool_length);
struct branmuslin_answer base_take_packet(struct branmuslin_state state, size_t lane, const uint8_t *packet, size_t packet_length, uint8_t *pool,
                                          size_t pool_length, uint8_t *output, size_t output_length);
struct branmuslin_change base_close_lane(struct branmuslin_state state, size_t lane, const uint8_t *pool, size_t pool_length, uint8_t *output,
                                         size_t output_length);
struct branmuslin_frames base_fresh_frames(void);
struct branmuslin_framed base_take_frame(struct branmuslin_frames state, uint32_t count, uint32_t pointer, const uint8_t *field, size_t field_length,
                                         uint8_t *piece, size_t piece_length, uint8_t *output, size_t output_length);

#endif
