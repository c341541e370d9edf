/* How often memory was asked for, and the most octets that were held at a time, since the counting was
 * started. */
#ifndef COUNTER_H
#define COUNTER_H

struct counted {
    long requests, peak;
};

void start_counting(void);
struct counted stop_counting(void);
#endif
