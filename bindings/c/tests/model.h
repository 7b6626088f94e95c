/*
 * What the header says of floors, of their lanes and of what they leave, for one thread: random calls are judged by it.
 * Where wires lead, of which the header gives no numbers, is learnt from the library by single steps.
 */
#ifndef MODEL_H
#define MODEL_H

#include "judge.h"

struct network {
    uint32_t width;
    uint64_t entries, balancers, wires;
    /* Where each wire ends: the number of an exit or of a balancer. */
    unsigned char *is_exit;
    uint64_t *end;
    /* The wires on which the even and the odd passages of each balancer go on. */
    uint64_t (*next)[2];
};

struct token {
    uint64_t client, wire;
};

struct lane {
    struct floor *floor;
    /* Its room, the greatest number of clients that it knew of, and the greatest of its names and one. */
    uint64_t quota, room, known, above;
    /* Its clients inside, in the order in which they came to their wires. */
    struct token *tokens;
    size_t inside;
    renamer_grant *grants;
    size_t granted;
    /* The next of those that were handed back. */
    struct lane *next;
};

struct floor {
    const struct network *network;
    uint64_t quota, before, entered;
    /* The next passage of each balancer, and the next visit of each exit. */
    uint64_t *passed, *visited;
    /* How many lanes it has, without those that were handed back. */
    int lanes;
    /* The lanes that were handed back. */
    struct lane *back;
};

struct quiet {
    const struct network *network;
    uint64_t before, clients, *passed, *visited, *holders;
};

void *new_block(size_t size);

/* Learns all networks, each from 4 clients for each line, who walk one after another. */
void networks_learn(void);
void networks_free(void);
const struct network *network_of(uint32_t kind, uint32_t width);

/* The one lane of a floor that begins with no counts, or with those that a floor left. */
struct lane *floor_open(const struct network *network, const struct quiet *quiet, uint64_t quota);

struct lane *lane_split(struct lane *lane, uint64_t quota);
void lane_enter(struct lane *lane, uint64_t client, uint64_t entry);
/* The place of the lane's first client on a wire in its list, or their number. */
size_t lane_first(const struct lane *lane, uint64_t wire);
/* The least wire on which a client of the lane stands, if one is inside. */
uint64_t lane_lowest(const struct lane *lane);
renamer_moved lane_step(struct lane *lane, size_t at);
renamer_swept lane_sweep(struct lane *lane, uint64_t wire);
/* Frees a lane with its handle: it is handed back, unless it is the last or has clients inside. */
void lane_let_go(struct lane *lane);
void lane_free(struct lane *lane);
/* Takes in a lane that was handed back with such a quota and such grants, if one was. */
int lane_join(struct lane *lane, uint64_t quota, const renamer_grant *grants, size_t count);
/* The same of all lanes that are back, in any order. */
int lane_join_all(struct lane *lane, uint64_t quota, const renamer_grant *grants, size_t count);
/* Closes the floor of a lane that has all of it. */
struct quiet *lane_close(struct lane *lane);

void quiet_free(struct quiet *quiet);

#endif
