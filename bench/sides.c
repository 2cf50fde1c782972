#include "sides.h"

#include "baseline.h"

const struct side library = {
    .name = "library",
    .read_packet = branmuslin_read_packet,
    .write_space = branmuslin_write_space,
    .write_encapsulation = branmuslin_write_encapsulation,
    .write_record = branmuslin_write_record,
    .read_record = branmuslin_read_record,
    .read_record_file = branmuslin_read_record_file,
    .fresh_start = branmuslin_fresh_start,
    .is_sound = branmuslin_is_sound,
    .open_lane = branmuslin_open_lane,
    .take_packet = branmuslin_take_packet,
    .close_lane = branmuslin_close_lane,
    .fresh_frames = branmuslin_fresh_frames,
    .take_frame = branmuslin_take_frame,
};

const struct side baseline = {
    .name = "baseline",
    .read_packet = base_read_packet,
    .write_space = base_write_space,
    .write_encapsulation = base_write_encapsulation,
    .write_record = base_write_record,
    .read_record = base_read_record,
    .read_record_file = base_read_record_file,
    .fresh_start = base_fresh_start,
    .is_sound = base_is_sound,
    .open_lane = base_open_lane,
    .take_packet = base_take_packet,
    .close_lane = base_close_lane,
    .fresh_frames = base_fresh_frames,
    .take_frame = base_take_frame,
};
