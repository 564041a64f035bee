/* The parts of WebAssembly that the code of wasm2c uses: one memory, loads and stores in little-endian order (of which
 * compilers make one instruction each), and numbers. Addresses are checked with -DPTEXT_CHECKED only: it is proved that
 * the module uses none outside of its memory. */
#define _POSIX_C_SOURCE 200809L
#include <stddef.h>
#include <stdint.h>
#include <string.h>

typedef uint8_t u8;
typedef int8_t s8;
typedef uint16_t u16;
typedef int16_t s16;
typedef uint32_t u32;
typedef int32_t s32;
typedef uint64_t u64;
typedef int64_t s64;

/* The memory of the module, and its size. Address 0 is its first byte. */
static u8 *memory;
static u64 memory_size;

_Noreturn static void trap(void);

#ifdef PTEXT_CHECKED
#define AT(address, size) ((u64)(address) + (size) > memory_size ? (trap(), memory) : memory + (address))
#else
#define AT(address, size) (memory + (address))
#endif

static inline u16 load16(const u8 *at) {
    return (u16)(at[0] | at[1] << 8);
}
static inline u32 load32(const u8 *at) {
    return (u32)at[0] | (u32)at[1] << 8 | (u32)at[2] << 16 | (u32)at[3] << 24;
}
static inline u64 load64(const u8 *at) {
    return (u64)load32(at) | (u64)load32(at + 4) << 32;
}
#if defined __BYTE_ORDER__ && __BYTE_ORDER__ == __ORDER_LITTLE_ENDIAN__
#define STORE_BYTES memcpy(at, &value, sizeof value)
#else
#define STORE_BYTES                             \
    for (unsigned i = 0; i < sizeof value; i++) \
    at[i] = (u8)(value >> 8 * i)
#endif
static inline void store16(u8 *at, u16 value) {
    STORE_BYTES;
}
static inline void store32(u8 *at, u32 value) {
    STORE_BYTES;
}
static inline void store64(u8 *at, u64 value) {
    STORE_BYTES;
}

#define LOAD(name, size, type, get)        \
    static inline type name(u64 address) { \
        const u8 *at = AT(address, size);  \
        return (type)(get);                \
    }
LOAD(i32_load, 4, u32, load32(at))
LOAD(i64_load, 8, u64, load64(at))
LOAD(i32_load8_s, 1, u32, (s32)(s8)*at)
LOAD(i64_load8_s, 1, u64, (s64)(s8)*at)
LOAD(i32_load8_u, 1, u32, *at)
LOAD(i64_load8_u, 1, u64, *at)
LOAD(i32_load16_s, 2, u32, (s32)(s16)load16(at))
LOAD(i64_load16_s, 2, u64, (s64)(s16)load16(at))
LOAD(i32_load16_u, 2, u32, load16(at))
LOAD(i64_load16_u, 2, u64, load16(at))
LOAD(i64_load32_s, 4, u64, (s64)(s32)load32(at))
LOAD(i64_load32_u, 4, u64, load32(at))

#define STORE(name, size, type, put)                   \
    static inline void name(u64 address, type value) { \
        u8 *at = AT(address, size);                    \
        put;                                           \
    }
STORE(i32_store, 4, u32, store32(at, value))
STORE(i64_store, 8, u64, store64(at, value))
STORE(i32_store8, 1, u32, *at = (u8)value)
STORE(i64_store8, 1, u64, *at = (u8)value)
STORE(i32_store16, 2, u32, store16(at, (u16)value))
STORE(i64_store16, 2, u64, store16(at, (u16)value))
STORE(i64_store32, 4, u64, store32(at, (u32)value))

static inline void memory_copy(u32 to, u32 from, u32 size) {
    memmove(AT(to, size), AT(from, size), size);
}
static inline void memory_fill(u32 at, u32 value, u32 size) {
    memset(AT(at, size), (int)(u8)value, size);
}

#define UNREACHABLE trap()
#define DIV_U(x, y) ((y) ? (x) / (y) : (trap(), 0))
#define REM_U(x, y) ((y) ? (x) % (y) : (trap(), 0))
#define ROTL(x, y, mask) (((x) << ((y) & (mask))) | ((x) >> (-(y) & (mask))))
#define ROTR(x, y, mask) (((x) >> ((y) & (mask))) | ((x) << (-(y) & (mask))))
#define I32_ROTL(x, y) ROTL(x, y, 31)
#define I64_ROTL(x, y) ROTL(x, y, 63)
#define I32_ROTR(x, y) ROTR(x, y, 31)
#define I64_ROTR(x, y) ROTR(x, y, 63)

#if defined __GNUC__
#define I32_CLZ(x) ((x) ? (u32)__builtin_clz(x) : 32u)
#define I64_CLZ(x) ((x) ? (u64)__builtin_clzll(x) : 64u)
#define I32_CTZ(x) ((x) ? (u32)__builtin_ctz(x) : 32u)
#define I64_CTZ(x) ((x) ? (u64)__builtin_ctzll(x) : 64u)
#define I32_POPCNT(x) ((u32)__builtin_popcount(x))
#define I64_POPCNT(x) ((u64)__builtin_popcountll(x))
#else
static u64 I64_POPCNT(u64 x) {
    u64 count = 0;
    for (; x; x &= x - 1)
        count++;
    return count;
}
static u64 I64_CTZ(u64 x) {
    return x ? I64_POPCNT((x & -x) - 1) : 64;
}
static u64 I64_CLZ(u64 x) {
    for (unsigned i = 1; i < 64; i *= 2)
        x |= x >> i;
    return 64 - I64_POPCNT(x);
}
#define I32_POPCNT(x) ((u32)I64_POPCNT(x))
#define I32_CTZ(x) ((x) ? (u32)I64_CTZ(x) : 32u)
#define I32_CLZ(x) ((u32)I64_CLZ(x) - 32u)
#endif
