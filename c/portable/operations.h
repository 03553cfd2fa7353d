/* The operations of which the generated module.c is made, under the names that wasm2c gives, for any C11 compiler and
 * any order and alignment of the host's numbers.
 *
 * Each access to memory is tested, unless SDM_NO_BOUNDS_TESTS is defined. Right shifts of negative numbers must keep the
 * sign, as each known compiler has it. */
#ifndef SDM_OPERATIONS_H
#define SDM_OPERATIONS_H

#include "module.h"

#include <stdbool.h>
#include <string.h>

_Static_assert(-1 >> 1 == -1, "a right shift keeps the sign");
_Static_assert(sizeof(f64) == 8, "a number with a fraction has 64 bits");

enum { SDM_PAGE_BYTES = 65536, SDM_MOST_DEPTH = 500 };

/* Ends the run: the code went wrong. It never returns. */
_Noreturn void sdm_module_trap(const char *why);

/* The calls that haven't returned. */
extern uint32_t sdm_module_depth;

#define TRAP(kind) (sdm_module_trap(#kind), 0)
#define UNREACHABLE TRAP(UNREACHABLE)

#ifdef SDM_NO_BOUNDS_TESTS
#define IN_BOUNDS(mem, at, count) ((void)0)
#define FUNC_PROLOGUE
#define FUNC_EPILOGUE
#else
#define IN_BOUNDS(mem, at, count) ((uint64_t)(at) + (count) > (mem)->size ? (void)TRAP(OUT_OF_BOUNDS) : (void)0)
#define FUNC_PROLOGUE                                                                                                  \
    if (++sdm_module_depth > SDM_MOST_DEPTH)                                                                           \
    (void)TRAP(EXHAUSTION)
#define FUNC_EPILOGUE --sdm_module_depth
#endif

/* Numbers in the module's memory have their lowest byte first. Where the compiler tells the host's order of bytes a
 * number is copied whole, and turned round on a host that has its highest byte first. Else, and with SDM_BYTE_BY_BYTE,
 * it is put together byte by byte, which gcc doesn't put in line: a reading then takes a third more instructions. */
static inline u32 get8(const u8 *at) { return at[0]; }
static inline void put8(u8 *at, u32 value) { at[0] = (u8)value; }

#if defined(__BYTE_ORDER__) && !defined(SDM_BYTE_BY_BYTE)
#if __BYTE_ORDER__ == __ORDER_LITTLE_ENDIAN__
#define TURNED(bits, value) (value)
#elif __BYTE_ORDER__ == __ORDER_BIG_ENDIAN__
#define TURNED(bits, value) __builtin_bswap##bits(value)
#else
#error "the order of bytes is neither of the two that are known"
#endif
#define DEFINE_GET(bits, result)                                                                                       \
    static inline result get##bits(const u8 *at) {                                                                     \
        u##bits value;                                                                                                 \
        memcpy(&value, at, sizeof value);                                                                              \
        return TURNED(bits, value);                                                                                    \
    }
#define DEFINE_PUT(bits, given)                                                                                        \
    static inline void put##bits(u8 *at, given value) {                                                                \
        u##bits turned = TURNED(bits, (u##bits)value);                                                                 \
        memcpy(at, &turned, sizeof turned);                                                                            \
    }
DEFINE_GET(16, u32)
DEFINE_GET(32, u32)
DEFINE_GET(64, u64)
DEFINE_PUT(16, u32)
DEFINE_PUT(32, u32)
DEFINE_PUT(64, u64)
#else
static inline u32 get16(const u8 *at) { return (u32)at[0] | (u32)at[1] << 8; }
static inline u32 get32(const u8 *at) { return (u32)at[0] | (u32)at[1] << 8 | (u32)at[2] << 16 | (u32)at[3] << 24; }
static inline u64 get64(const u8 *at) {
    return (u64)at[0] | (u64)at[1] << 8 | (u64)at[2] << 16 | (u64)at[3] << 24 | (u64)at[4] << 32 | (u64)at[5] << 40 |
           (u64)at[6] << 48 | (u64)at[7] << 56;
}
static inline void put16(u8 *at, u32 value) {
    at[0] = (u8)value;
    at[1] = (u8)(value >> 8);
}
static inline void put32(u8 *at, u32 value) {
    at[0] = (u8)value;
    at[1] = (u8)(value >> 8);
    at[2] = (u8)(value >> 16);
    at[3] = (u8)(value >> 24);
}
static inline void put64(u8 *at, u64 value) {
    at[0] = (u8)value;
    at[1] = (u8)(value >> 8);
    at[2] = (u8)(value >> 16);
    at[3] = (u8)(value >> 24);
    at[4] = (u8)(value >> 32);
    at[5] = (u8)(value >> 40);
    at[6] = (u8)(value >> 48);
    at[7] = (u8)(value >> 56);
}
#endif

/* `name` reads `bits` at a place, as a number of the type `of`, and makes a `result` of it. */
#define DEFINE_LOAD(name, bits, of, result)                                                                            \
    static inline result name(const wasm_rt_memory_t *mem, u64 at) {                                                   \
        IN_BOUNDS(mem, at, bits / 8);                                                                                  \
        return (result)(of)get##bits(mem->data + (size_t)at);                                                          \
    }
#define DEFINE_STORE(name, bits, given)                                                                                \
    static inline void name(wasm_rt_memory_t *mem, u64 at, given value) {                                              \
        IN_BOUNDS(mem, at, bits / 8);                                                                                  \
        put##bits(mem->data + (size_t)at, (u##bits)value);                                                             \
    }

DEFINE_LOAD(i32_load, 32, u32, u32)
DEFINE_LOAD(i64_load, 64, u64, u64)
DEFINE_LOAD(i32_load8_s, 8, s8, u32)
DEFINE_LOAD(i64_load8_s, 8, s8, u64)
DEFINE_LOAD(i32_load8_u, 8, u8, u32)
DEFINE_LOAD(i64_load8_u, 8, u8, u64)
DEFINE_LOAD(i32_load16_s, 16, s16, u32)
DEFINE_LOAD(i64_load16_s, 16, s16, u64)
DEFINE_LOAD(i32_load16_u, 16, u16, u32)
DEFINE_LOAD(i64_load16_u, 16, u16, u64)
DEFINE_LOAD(i64_load32_s, 32, s32, u64)
DEFINE_LOAD(i64_load32_u, 32, u32, u64)
DEFINE_STORE(i32_store, 32, u32)
DEFINE_STORE(i64_store, 64, u64)
DEFINE_STORE(i32_store8, 8, u32)
DEFINE_STORE(i32_store16, 16, u32)
DEFINE_STORE(i64_store8, 8, u64)
DEFINE_STORE(i64_store16, 16, u64)
DEFINE_STORE(i64_store32, 32, u64)

/* A number with a fraction, of which a data part in TOML may have some: its bits must be those of IEEE 754. */
static inline f64 f64_reinterpret_i64(u64 bits) {
    f64 value;
    memcpy(&value, &bits, sizeof value);
    return value;
}
static inline u64 i64_reinterpret_f64(f64 value) {
    u64 bits;
    memcpy(&bits, &value, sizeof bits);
    return bits;
}
static inline f64 f64_load(const wasm_rt_memory_t *mem, u64 at) { return f64_reinterpret_i64(i64_load(mem, at)); }
static inline void f64_store(wasm_rt_memory_t *mem, u64 at, f64 value) {
    i64_store(mem, at, i64_reinterpret_f64(value));
}

#ifndef INFINITY
#define INFINITY f64_reinterpret_i64(0x7ff0000000000000)
#endif

static inline void memory_fill(wasm_rt_memory_t *mem, u32 at, u32 value, u32 count) {
    IN_BOUNDS(mem, at, count);
    memset(mem->data + at, (int)(value & 0xff), count);
}

static inline void memory_copy(wasm_rt_memory_t *to, const wasm_rt_memory_t *from, u32 to_at, u32 from_at, u32 count) {
    IN_BOUNDS(to, to_at, count);
    IN_BOUNDS(from, from_at, count);
    memmove(to->data + to_at, from->data + from_at, count);
}

/* Copies what the module begins with; nothing where the host's memory is too small for it. */
#define LOAD_DATA(mem, at, bytes, count)                                                                               \
    do {                                                                                                               \
        if ((mem).size != 0) {                                                                                         \
            IN_BOUNDS(&(mem), at, count);                                                                              \
            memcpy((mem).data + (at), bytes, count);                                                                   \
        }                                                                                                              \
    } while (0)

#if defined(__GNUC__)
#define I32_CLZ(x) ((x) != 0 ? (u32)__builtin_clz(x) : 32u)
#define I64_CLZ(x) ((x) != 0 ? (u64)__builtin_clzll(x) : 64u)
#define I32_CTZ(x) ((x) != 0 ? (u32)__builtin_ctz(x) : 32u)
#define I64_CTZ(x) ((x) != 0 ? (u64)__builtin_ctzll(x) : 64u)
#else
static inline u32 leading_zeros(u64 value, u32 bits) {
    u32 count = 0;
    while (count < bits && (value >> (bits - 1 - count) & 1) == 0)
        count++;
    return count;
}
static inline u32 trailing_zeros(u64 value, u32 bits) {
    u32 count = 0;
    while (count < bits && (value >> count & 1) == 0)
        count++;
    return count;
}
#define I32_CLZ(x) leading_zeros(x, 32)
#define I64_CLZ(x) ((u64)leading_zeros(x, 64))
#define I32_CTZ(x) trailing_zeros(x, 32)
#define I64_CTZ(x) ((u64)trailing_zeros(x, 64))
#endif

static inline u64 ones(u64 value) {
    u64 count = 0;
    for (; value != 0; value &= value - 1)
        count++;
    return count;
}
#define I32_POPCNT(x) ((u32)ones(x))
#define I64_POPCNT(x) ones(x)

#define DIV_U(x, y) ((y) == 0 ? TRAP(DIVISION_BY_ZERO) : (x) / (y))
#define REM_U(x, y) ((y) == 0 ? TRAP(DIVISION_BY_ZERO) : (x) % (y))

/* The quotient and the remainder of signed numbers. The least number has no quotient by -1. */
#define DEFINE_SIGNED(bits)                                                                                            \
    static inline u##bits quotient##bits(u##bits x, u##bits y) {                                                       \
        if (y == 0)                                                                                                    \
            (void)TRAP(DIVISION_BY_ZERO);                                                                              \
        if (x == (u##bits)INT##bits##_MIN && (s##bits)y == -1)                                                         \
            (void)TRAP(OVERFLOW);                                                                                      \
        return (u##bits)((s##bits)x / (s##bits)y);                                                                     \
    }                                                                                                                  \
    static inline u##bits remainder##bits(u##bits x, u##bits y) {                                                      \
        if (y == 0)                                                                                                    \
            (void)TRAP(DIVISION_BY_ZERO);                                                                              \
        return (s##bits)y == -1 ? 0 : (u##bits)((s##bits)x % (s##bits)y);                                              \
    }
DEFINE_SIGNED(32)
DEFINE_SIGNED(64)
#define I32_DIV_S(x, y) quotient32(x, y)
#define I64_DIV_S(x, y) quotient64(x, y)
#define I32_REM_S(x, y) remainder32(x, y)
#define I64_REM_S(x, y) remainder64(x, y)

#define I32_ROTL(x, y) ((x) << ((y)&31) | (x) >> ((32 - ((y)&31)) & 31))
#define I64_ROTL(x, y) ((x) << ((y)&63) | (x) >> ((64 - ((y)&63)) & 63))
#define I32_ROTR(x, y) ((x) >> ((y)&31) | (x) << ((32 - ((y)&31)) & 31))
#define I64_ROTR(x, y) ((x) >> ((y)&63) | (x) << ((64 - ((y)&63)) & 63))

/* Takes the host's memory: with so many pages to begin with, or none where there are fewer. */
void wasm_rt_allocate_memory(wasm_rt_memory_t *mem, u32 pages, u32 max_pages);

/* Adds pages, all zeros: how many there were, or the greatest number where the host has no more. */
u32 wasm_rt_grow_memory(wasm_rt_memory_t *mem, u32 pages);

#endif
