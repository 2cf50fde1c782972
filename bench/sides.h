/* The two sides that are compared, as tables of their functions: what calls one calls the other by the very same code. */
#ifndef SIDES_H
#define SIDES_H

#include <branmuslin.h>

struct side {
    const char *name;
    uint8_t (*read_packet)(const uint8_t *octets, size_t octets_length, struct branmuslin_packet *packet, size_t *place);
    uint8_t (*write_space)(uint32_t type, uint32_t secondary, uint32_t apid, uint32_t flags, uint32_t count, const uint8_t *data, size_t data_length,
                           uint8_t *output, size_t output_length, size_t *written);
    uint8_t (*write_encapsulation)(uint32_t protocol, uint32_t user, uint32_t extension, const uint8_t *content, size_t content_length,
                                   uint8_t *output, size_t output_length, size_t *written);
    uint8_t (*write_record)(uint16_t station, uint16_t apid, uint32_t units, uint32_t packets, uint32_t missing, uint32_t broken, uint8_t *output,
                            size_t output_length);
    uint8_t (*read_record)(const uint8_t *octets, size_t octets_length, struct branmuslin_record *record);
    uint8_t (*read_record_file)(const uint8_t *octets, size_t octets_length, size_t *records, size_t *index);
    struct branmuslin_state (*fresh_start)(void);
    bool (*is_sound)(struct branmuslin_state state);
    struct branmuslin_change (*open_lane)(struct branmuslin_state state, size_t lane, struct branmuslin_settings settings, const uint8_t *pool,
                                          size_t pool_length);
    struct branmuslin_answer (*take_packet)(struct branmuslin_state state, size_t lane, const uint8_t *packet, size_t packet_length, uint8_t *pool,
                                            size_t pool_length, uint8_t *output, size_t output_length);
    struct branmuslin_change (*close_lane)(struct branmuslin_state state, size_t lane, const uint8_t *pool, size_t pool_length, uint8_t *output,
                                           size_t output_length);
    struct branmuslin_frames (*fresh_frames)(void);
    struct branmuslin_framed (*take_frame)(struct branmuslin_frames state, uint32_t count, uint32_t pointer, const uint8_t *field, size_t field_length,
                                           uint8_t *piece, size_t piece_length, uint8_t *output, size_t output_length);
};

extern const struct side library, baseline;

#endif
