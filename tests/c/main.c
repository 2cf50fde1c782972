/* Every test with lent memory in every home; the lengths over 32 bits once, for they bring their own memory. */
#include "check.h"

int main(void)
{
    for (home = 0; home < HOMES; home++) {
        test_read();
        test_write();
        test_record();
        test_record_file();
        test_round_trips();
        test_lanes();
        test_refused();
        test_sound();
        test_frames();
        test_frames_refused();
        test_frame_runs();
    }
    home = BETWEEN_GUARDS;
    test_lengths_over_32_bits();
    return tell();
}
