/*
 * The one call of the header that the proved library has not: the sentences on statuses.
 */
#include "renamer.h"

const char *renamer_explain(uint32_t status) {
    switch (status) {
    case RENAMER_DONE: return "the call is done";
    case RENAMER_NONE: return "the handle is none: it was not opened, or it was freed, handed back or closed";
    case RENAMER_MEMORY: return "the system gave no memory, or room for more than 1048576 clients was asked for";
    case RENAMER_KIND: return "there is no such network: RENAMER_BITONIC, RENAMER_PERIODIC or RENAMER_TREE";
    case RENAMER_WIDTH: return "there is no network of this width: 2, 4, 8, 16, 32, 64, 128 or 256";
    case RENAMER_QUOTA: return "the quota is more than a floor takes: 262144 at most";
    case RENAMER_NO_SUCH_ENTRY: return "there is no such entry: a tree has only entry 0, others those below their width";
    case RENAMER_QUOTA_SPENT: return "the lane or the taker has not so much quota left: renamer_quota says how much a lane has";
    case RENAMER_QUOTA_TOO_SMALL: return "the lane has less quota than is to be split off, or the taker no two names";
    case RENAMER_STILL_WALKING: return "the lane has clients inside: let them out by renamer_step or renamer_sweep";
    case RENAMER_NOBODY_THERE: return "no client of the lane is there: renamer_lowest says on which wire one is";
    case RENAMER_LANES_MISSING: return "other lanes have quota, names or clients of the floor: hand them back and join them";
    case RENAMER_NOTHING_BACK: return "no lane of the floor was handed back";
    case RENAMER_SIZE: return "the array has another size than what is to be written into it";
    case RENAMER_CARRIED: return "too many clients came before: 2147483648 at most";
    case RENAMER_LANES_THERE: return "other lanes of the floor are there still, with nothing of it: hand them back";
    default: return "there is no such status";
    }
}
