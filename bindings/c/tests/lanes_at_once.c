/*
 * So many lanes are there at once as the argument says, each with quota for a client. All are handed back, and one call
 * takes all in: the first lane then has the whole quota, no other lane is back, and the floor is closed. Each place has
 * a lane before more are made: the first row has 16, and each other one twice as many as that before it.
 */
#include "growths.h"
#include "judge.h"

enum { FIRST_ROW = 16 };

/* How many rows have places for so many lanes. */
static int rows_for(uint64_t lanes) {
    int rows = 0;
    for (uint64_t places = 0; places < lanes; rows++)
        places += (uint64_t)FIRST_ROW << rows;
    return rows;
}

int main(int count, char **words) {
    uint64_t lanes = count == 2 ? strtoull(words[1], NULL, 10) : 0, quota;
    long asked, of_one = 0;
    int rows = 1;
    renamer_lane first = RENAMER_NO_LANE_YET, *others = malloc(sizeof *others * lanes);
    CHECK(lanes > 0 && others);
    CHECK(renamer_open(&first, RENAMER_TREE, 2, lanes) == RENAMER_DONE);
    for (uint64_t lane = 0; lane < lanes; lane++) {
        others[lane] = RENAMER_NO_LANE, asked = growths_asked();
        CHECK(renamer_split(&first, 1, &others[lane]) == RENAMER_DONE);
        asked = growths_asked() - asked;
        of_one = lane == 0 ? asked : of_one, rows += asked > of_one;
        CHECK(rows == rows_for(lane + 2));
    }
    CHECK(renamer_quota(&first, &quota) == RENAMER_DONE && quota == 0);
    CHECK(renamer_join(&first) == RENAMER_NOTHING_BACK);
    for (uint64_t lane = 0; lane < lanes; lane++)
        CHECK(renamer_hand_back(&others[lane]) == RENAMER_DONE);
    free(others);
    CHECK(renamer_join_all(&first) == RENAMER_DONE);
    CHECK(renamer_quota(&first, &quota) == RENAMER_DONE && quota == lanes);
    close_floor(&first, 0);
    return 0;
}
