/* What is drawn at random, the same at every run. */
#ifndef DRAW_H
#define DRAW_H

#include <stdbool.h>
#include <stddef.h>
#include <stdint.h>

/* A number below count, drawn by splitmix64. */
static inline uint32_t draw(size_t count) {
    static uint64_t state = 20261117;
    state += 0x9e3779b97f4a7c15;
    uint64_t mixed = (state ^ state >> 30) * 0xbf58476d1ce4e5b9;
    mixed = (mixed ^ mixed >> 27) * 0x94d049bb133111eb;
    return (uint32_t)((mixed ^ mixed >> 31) % count);
}

static inline bool once_in(uint32_t draws) {
    return draw(draws) == 0;
}

static inline uint32_t least(uint32_t a, uint32_t b) {
    return a < b ? a : b;
}

/* A term or a position: up to the limit, and now and then one of the highest. */
static inline uint32_t draw_number(uint32_t limit) {
    return once_in(30) ? UINT32_MAX - draw(3) : 1 + draw(limit);
}

/* The end of a range: mostly near its start, and now and then below it. */
static inline uint32_t draw_end(uint32_t from, uint32_t limit) {
    return once_in(8) ? draw_number(limit) : from + draw(least(UINT32_MAX - from, limit / 4) + (size_t)1);
}

/* Any word, small or large. */
static inline uint32_t draw_word(void) {
    return once_in(2) ? draw(20) : draw(UINT32_MAX);
}

/* Changes a word a little, or to another of those that stand so many apart. */
static inline void change_word(uint32_t *words, size_t count, size_t at, size_t apart) {
    uint32_t was = words[at];
    while (words[at] == was)
        words[at] = (uint32_t[]){0, was + 1, was - 1, draw_word(), words[(at + draw(count) * apart) % count]}[draw(5)];
}

#endif
