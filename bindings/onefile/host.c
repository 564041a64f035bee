/* ---- the host of the module: its heap, its streams, and main
 *
 * The module reads and writes streams by number: 0 is standard input, 1 the output, 2 the messages, and 3 + i the file
 * with index i. It asks for memory by three calls. All addresses are offsets in its memory, below 2^32. */
#include <errno.h>
#include <fcntl.h>
#include <limits.h>
#include <signal.h>
#include <stdlib.h>
#include <sys/types.h>
#include <unistd.h>

enum { INPUT, OUTPUT, MESSAGES, FILES };

/* The status of the module if memory ran out. The program ends with 1 then. */
enum { NO_MEMORY = 4 };

/* Writes a text to standard error, and ends. */
_Noreturn static void fail(const char *text) {
    size_t left = strlen(text);
    while (left) {
        ssize_t got = write(2, text, left);
        if (got < 0 && errno == EINTR)
            continue;
        if (got <= 0)
            break;
        text += got;
        left -= (size_t)got;
    }
    _exit(1);
}

_Noreturn static void trap(void) {
    fail("ptext: the module has failed\n");
}

_Noreturn static void no_memory(void) {
    fail("ptext: out of memory\n");
}

/* ---- the heap. Each block has its size in the 16 bytes before it. Sizes are powers of two up to 64 KiB, and multiples
 * of that above. */

#define HEADER 16u
#define LARGE 65536u
#define BINS 17
#define MOST 0xffff0000u

/* The end of the heap, and the blocks that were given back, each with the next one's address in its first bytes: the
 * small ones by the logarithm of their size, and the large ones. */
static u64 heap_end;
static u32 bins[BINS], large;

/* Lets the memory reach up to `end`, or returns 0. */
static int grow(u64 end) {
    if (end <= memory_size)
        return 1;
    if (end > MOST || end > SIZE_MAX)
        return 0;
    /* (By an eighth more, so that there are few calls, unless there is no memory for that.) */
    u64 wanted = end + end / 8 + LARGE;
    if (wanted > MOST || wanted > SIZE_MAX)
        wanted = end;
    u8 *at = realloc(memory, (size_t)wanted);
    if (!at && wanted > end)
        at = realloc(memory, (size_t)(wanted = end));
    if (!at)
        return 0;
    memory = at;
    memory_size = wanted;
    return 1;
}

static u32 size_of(u32 block) {
    return i32_load(block);
}

static u64 whole_size(u64 size) {
    u64 whole = 2 * HEADER;
    if (size + HEADER > LARGE)
        return (size + HEADER + LARGE - 1) / LARGE * LARGE;
    while (whole < size + HEADER)
        whole *= 2;
    return whole;
}

static u32 *bin_of(u32 whole) {
    return &bins[I32_CTZ(whole)];
}

/* A block of about this size that was given back, or 0. */
static u32 reuse(u64 whole) {
    if (whole <= LARGE) {
        u32 *bin = bin_of((u32)whole), block = *bin;
        if (block)
            *bin = i32_load(block + HEADER);
        return block;
    }
    u32 before = 0;
    for (u32 block = large; block; before = block, block = i32_load(block + HEADER)) {
        if (size_of(block) < whole || size_of(block) > 2 * whole)
            continue;
        u32 next = i32_load(block + HEADER);
        if (before)
            i32_store(before + HEADER, next);
        else
            large = next;
        return block;
    }
    return 0;
}

/* The address of a block with room for `size` bytes, or 0. */
static u32 take(u64 size) {
    if (size > MOST)
        return 0;
    u64 whole = whole_size(size);
    u32 block = reuse(whole);
    if (!block) {
        if (!grow(heap_end + whole))
            return 0;
        block = (u32)heap_end;
        heap_end += whole;
        i32_store(block, (u32)whole);
    }
    return block + HEADER;
}

static void give(u32 address) {
    u32 block = address - HEADER, whole = size_of(block);
    if ((u64)block + whole == heap_end) {
        heap_end = block;
    } else {
        u32 *list = whole > LARGE ? &large : bin_of(whole);
        i32_store(address, *list);
        *list = block;
    }
}

/* The address of a block with room for `size` bytes that begins with the first `kept` of an earlier one, or 0. */
static u32 resize(u32 address, u32 kept, u64 size) {
    u32 block = address - HEADER, had = size_of(block);
    if (size > MOST)
        return 0;
    u64 whole = whole_size(size);
    if (whole <= had)
        return address;
    if ((u64)block + had == heap_end) {
        if (!grow(block + whole))
            return 0;
        heap_end = block + whole;
        i32_store(block, (u32)whole);
        return address;
    }
    u32 other = take(size);
    if (other) {
        memory_copy(other, address, kept);
        give(address);
    }
    return other;
}

/* Writes whether there is memory, and where. */
static void answer(u64 at, u32 address) {
    i32_store8(at, address != 0);
    i64_store(at + 8, address ? address : HEADER);
}

static void host_rattle_alloc(u64 at, u64 size, u64 align) {
    (void)align;
    answer(at, take(size));
}

static void host_rattle_realloc(u64 at, u64 address, u64 kept, u64 size, u64 align) {
    (void)align;
    answer(at, resize((u32)address, (u32)kept, size));
}

static void host_rattle_dealloc(u64 address) {
    give((u32)address);
}

/* ---- the streams */

/* The state of a stream that is read: it has failed, or its last read gave less than there was room for. */
enum { HAS_FAILED = 1, IS_SHORT = 2 };

static int *descriptors;
static u8 *states;
static size_t streams;

/* The module reads again until its room is full or it gets 0. So after a read that gave less comes a 0 that is not the
 * end of the stream. */
static u64 host_read(u32 number, u64 into, u64 room) {
    if (number >= streams || !room)
        return 0;
    u8 *state = &states[number];
    if (*state) {
        *state = *state == IS_SHORT ? 0 : HAS_FAILED;
        return 0;
    }
    ssize_t got;
    do
        got = read(descriptors[number], AT(into, room), room < INT_MAX ? (size_t)room : INT_MAX);
    while (got < 0 && errno == EINTR);
    if (got < 0)
        *state = HAS_FAILED;
    else if (got && (u64)got < room)
        *state = IS_SHORT;
    return got < 0 ? 0 : (u64)got;
}

/* A write to a number with all bits changed asks whether no read of that stream has failed. */
static u64 host_write(u32 number, u64 from, u64 size) {
    u32 stream = (s32)number < 0 ? ~number : number;
    if (stream >= streams)
        return (u64)-1;
    if (stream != number)
        return states[stream] & HAS_FAILED ? (u64)-1 : size;
    ssize_t got;
    do
        got = write(descriptors[stream], AT(from, size), size < INT_MAX ? (size_t)size : INT_MAX);
    while (got < 0 && errno == EINTR);
    return got < 0 ? (u64)-1 : (u64)got;
}

/* ---- the program */

/* A room in the memory of the module. */
static u32 room(u64 size) {
    u32 address = take(size);
    if (!address)
        no_memory();
    return address;
}

/* Lays out the memory: the data of the module and its stack, and the heap behind them. */
static void start_module(void) {
    memory = calloc(PAGES, 65536);
    if (!memory)
        no_memory();
    memory_size = PAGES * (u64)65536;
    lay_data();
    heap_end = (HEAP_BASE + HEADER - 1) / HEADER * HEADER;
}

/* Lays the words into memory, each with byte 0 behind it. Returns their address, and their size. */
static u32 lay_words(int count, char **words, u64 *size) {
    *size = 0;
    for (int i = 0; i < count; i++)
        *size += strlen(words[i]) + 1;
    u32 begin = room(*size), at = begin;
    for (int i = 0; i < count; i++) {
        size_t length = strlen(words[i]) + 1;
        memcpy(AT(at, length), words[i], length);
        at += (u32)length;
    }
    return begin;
}

static int open_file(const char *name, int how) {
    int opened;
    do
        opened = open(name, how | O_NOCTTY | O_CLOEXEC, 0666);
    while (opened < 0 && errno == EINTR);
    return opened;
}

/* Opens the files whose names are in memory, one behind the other, each with byte 0 at its end. Returns the address of
 * a byte for each: whether it could be opened. */
static u32 open_files(u32 names, u64 size) {
    u64 count = 0;
    for (u64 i = 0; i < size; i++)
        count += memory[names + i] == 0;
    streams = FILES + (size_t)count;
    descriptors = calloc(streams, sizeof *descriptors);
    states = calloc(streams, 1);
    u32 opened = room(count);
    if (!descriptors || !states)
        no_memory();
    descriptors[OUTPUT] = 1;
    descriptors[MESSAGES] = 2;
    for (u32 i = 0; i < count; i++) {
        const char *name = (const char *)AT(names, 1);
        descriptors[FILES + i] = open_file(name, O_RDONLY);
        i32_store8(opened + i, descriptors[FILES + i] >= 0);
        names += (u32)strlen(name) + 1;
    }
    return opened;
}

/* Makes a file the output, or says that it cannot be opened, in one write. */
static void open_output(const char *name) {
    static const char before[] = "uniq: ", after[] = ": cannot be opened\n";
    descriptors[OUTPUT] = open_file(name, O_WRONLY | O_CREAT | O_TRUNC);
    if (descriptors[OUTPUT] >= 0)
        return;
    size_t length = strlen(name);
    char *text = malloc(sizeof before + length + sizeof after);
    if (!text)
        no_memory();
    memcpy(text, before, sizeof before - 1);
    memcpy(text + sizeof before - 1, name, length);
    memcpy(text + sizeof before - 1 + length, after, sizeof after);
    fail(text);
}

static int is_closed(int descriptor) {
    return fcntl(descriptor, F_GETFD) < 0 && errno == EBADF;
}

/* A folder, which can be neither read nor written; or the null device, and not for what the standard stream with the
 * least free number does. */
static int open_unusable(void) {
    int opened = open("/", O_RDONLY);
    if (opened < 0)
        opened = open(".", O_RDONLY);
    return opened < 0 ? open("/dev/null", is_closed(0) ? O_WRONLY : O_RDONLY) : opened;
}

/* Occupies the standard streams that are closed, so that their use fails: a file that the words name must not get such
 * a number. */
static void occupy_closed(void) {
    int taken;
    while ((taken = open_unusable()) >= 0 && taken <= 2)
        continue;
    if (taken > 2)
        close(taken);
    else if (is_closed(0) || is_closed(1) || is_closed(2))
        fail("ptext: a standard stream is closed, and nothing can take its place\n");
}

int main(int argc, char **argv) {
    signal(SIGPIPE, SIG_IGN);
    occupy_closed();
    start_module();
    u64 size;
    u32 words = lay_words(argc ? argc - 1 : 0, argv + 1, &size);
    u32 names = room(size), output = room(size), found = room(40);
    name_files(words, size, names, size, output, size, found);
    if (i32_load8_u(found + 32) == NO_MEMORY)
        no_memory();
    u32 opened = open_files(names, i64_load(found));
    if (i64_load(found + 16) && !memchr(AT(opened, streams - FILES), 0, streams - FILES))
        open_output((const char *)AT(output, 1));
    u32 status = run_streams(words, size, opened, streams - FILES);
    _exit(status == NO_MEMORY ? 1 : (int)status);
}
