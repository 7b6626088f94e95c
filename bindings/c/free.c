/*
 * The frees of the header, which do nothing if they get NULL, as `free` does. The proved ones take handles; ./library gives
 * them these other names.
 */
#include "renamer.h"

void renamer_free_proved(renamer_lane *lane);
void renamer_free_quiet_proved(renamer_quiet *quiet);
void renamer_free_taker_proved(renamer_taker *taker);

void renamer_free(renamer_lane *lane) {
    if (lane) renamer_free_proved(lane);
}

void renamer_free_quiet(renamer_quiet *quiet) {
    if (quiet) renamer_free_quiet_proved(quiet);
}

void renamer_free_taker(renamer_taker *taker) {
    if (taker) renamer_free_taker_proved(taker);
}
