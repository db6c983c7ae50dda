/* The steps of bassoonsun.h written plainly in C: same arguments, same answers; and its question: the same water. */
#ifndef PLAIN_H
#define PLAIN_H

#include <stddef.h>
#include <stdint.h>

/* With wave speeds from a root worked in whole numbers. */
uint32_t plain_step(const int32_t *now, size_t now_len, int32_t *next, size_t next_len,
                    const int32_t *bed, size_t bed_len, const uint16_t *friction, size_t friction_len,
                    uint32_t dx, uint32_t dt, uint32_t jump, uint32_t dry, uint32_t left,
                    uint32_t right, uint32_t left_q, uint32_t right_q, int64_t volumes[2],
                    uint32_t place[1]);

/* With wave speeds from the processor's own square root. */
uint32_t plain_root_step(const int32_t *now, size_t now_len, int32_t *next, size_t next_len,
                         const int32_t *bed, size_t bed_len, const uint16_t *friction,
                         size_t friction_len, uint32_t dx, uint32_t dt, uint32_t jump, uint32_t dry,
                         uint32_t left, uint32_t right, uint32_t left_q, uint32_t right_q,
                         int64_t volumes[2], uint32_t place[1]);

/* The step over a stepped bed, with either root. */
uint32_t plain_sill_step(const int32_t *now, size_t now_len, int32_t *next, size_t next_len,
                         const int32_t *bed, size_t bed_len, const uint16_t *friction,
                         size_t friction_len, uint32_t dx, uint32_t dt, uint32_t dry, uint32_t left,
                         uint32_t right, int64_t volumes[2], uint32_t place[1]);
uint32_t plain_root_sill_step(const int32_t *now, size_t now_len, int32_t *next, size_t next_len,
                              const int32_t *bed, size_t bed_len, const uint16_t *friction,
                              size_t friction_len, uint32_t dx, uint32_t dt, uint32_t dry, uint32_t left,
                              uint32_t right, int64_t volumes[2], uint32_t place[1]);

/* bassoonsun_between without its sums: the water cell by cell. */
uint32_t plain_between(const int32_t *state, size_t state_len, const int32_t *bed, size_t bed_len, const int32_t *sums,
                       size_t sums_len, uint32_t a, uint32_t b, int64_t answer[3]);

#endif
