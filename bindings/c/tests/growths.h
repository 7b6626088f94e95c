/* Growths of memory, of the library and of a test: linked by -Wl,--wrap= for malloc, calloc, realloc and free. */
#ifndef GROWTHS_H
#define GROWTHS_H

/* From now on grants so many growths, then refuses so many, and grants all others. */
void growths_refuse(long granted, long refused);

/* How many growths were refused since then. */
long growths_refused(void);

/* How many growths were asked for so far. */
long growths_asked(void);

/* How many of them were of a block that was there. */
long growths_regrown(void);

/* How many blocks of memory there are. */
long growths_live(void);

#endif
