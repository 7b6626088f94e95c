/*
 * The calls of the header that take arrays, which may be NULL if their size is 0. The proved ones take arrays that are
 * somewhere; ./library gives them these other names.
 */
#include "renamer.h"

uint32_t renamer_name_many_proved(renamer_lane *lane, const renamer_client *clients, size_t client_count,
                                  renamer_grant *grants, size_t grant_count);
uint32_t renamer_name_list_proved(renamer_lane *lane, const uint64_t *clients, size_t client_count, uint64_t entry,
                                  uint64_t *names, size_t name_count);
uint32_t renamer_grants_proved(const renamer_lane *lane, uint64_t first, renamer_grant *grants, size_t size);
uint32_t renamer_counts_proved(const renamer_quiet *quiet, uint64_t *counts, size_t size);
uint32_t renamer_holders_proved(const renamer_quiet *quiet, uint64_t *holders, size_t size);
uint32_t renamer_take_many_proved(renamer_taker *taker, uint64_t entry, uint64_t *names, size_t count);

uint32_t renamer_name_many(renamer_lane *lane, const renamer_client *clients, size_t client_count, renamer_grant *grants,
                           size_t grant_count) {
    renamer_client no_client = {0, 0};
    renamer_grant no_grant;
    return renamer_name_many_proved(lane, client_count ? clients : &no_client, client_count,
                                    grant_count ? grants : &no_grant, grant_count);
}

uint32_t renamer_name_list(renamer_lane *lane, const uint64_t *clients, size_t client_count, uint64_t entry,
                           uint64_t *names, size_t name_count) {
    uint64_t no_client = 0, no_name;
    return renamer_name_list_proved(lane, client_count ? clients : &no_client, client_count, entry,
                                    name_count ? names : &no_name, name_count);
}

uint32_t renamer_grants(const renamer_lane *lane, uint64_t first, renamer_grant *grants, size_t size) {
    renamer_grant no_grant;
    return renamer_grants_proved(lane, first, size ? grants : &no_grant, size);
}

uint32_t renamer_counts(const renamer_quiet *quiet, uint64_t *counts, size_t size) {
    uint64_t no_count;
    return renamer_counts_proved(quiet, size ? counts : &no_count, size);
}

uint32_t renamer_holders(const renamer_quiet *quiet, uint64_t *holders, size_t size) {
    uint64_t no_holder;
    return renamer_holders_proved(quiet, size ? holders : &no_holder, size);
}

uint32_t renamer_take_many(renamer_taker *taker, uint64_t entry, uint64_t *names, size_t count) {
    uint64_t no_name;
    return renamer_take_many_proved(taker, entry, count ? names : &no_name, count);
}
