/* Tests the C of platform/ by itself: the heap, the error number, the streams and the arguments. It is given any words,
 * and looks whether each comes through as C's main has it. The linker is told --wrap of malloc, realloc and free, so that blocks
 * can be counted. */
#include "../../platform/platform.h"

#include <errno.h>
#include <fcntl.h>
#include <pthread.h>
#include <signal.h>
#include <stdint.h>
#include <stdio.h>
#include <stdlib.h>
#include <string.h>
#include <sys/wait.h>
#include <unistd.h>

static long tests, failures;

#define TEST(fact) (tests++, (fact) ? 0 : (failures++, fprintf(stderr, "%s:%d: %s\n", __FILE__, __LINE__, #fact)))

enum { MOST = 4096, MORE = 1 << 20 };

/* More than there is on any machine. */
static const size_t too_much = (size_t)1 << 62;

/* How many blocks are taken. */
static long blocks;

void *__real_malloc(size_t size);
void *__real_realloc(void *at, size_t size);
void __real_free(void *at);

void *__wrap_malloc(size_t size) {
    void *at = __real_malloc(size);
    blocks += at != NULL;
    return at;
}

void *__wrap_realloc(void *at, size_t size) {
    void *moved = __real_realloc(at, size);
    blocks += !at && moved;
    return moved;
}

void __wrap_free(void *at) {
    blocks -= at != NULL;
    __real_free(at);
}

static int holds(const uint8_t *at, uint8_t mark, size_t length) {
    for (size_t i = 0; i < length; i++)
        if (at[i] != (uint8_t)(mark + i)) return 0;
    return 1;
}

/* Reads an octet, which AddressSanitizer stops where there is none. */
static int is_octet(const void *at) {
    if (at) (void)*(const volatile uint8_t *)at;
    return at != NULL;
}

static void fill(uint8_t *at, uint8_t mark, size_t length) {
    for (size_t i = 0; i < length; i++) at[i] = (uint8_t)(mark + i);
}

/* A block of each size and alignment is aligned, holds what is written, and keeps it as it grows, shrinks and can't
 * grow. */
static void test_block(size_t size, size_t align) {
    platform_memory first = rattle_alloc(size, align);
    TEST(first.ok == 1 && first.at && (uintptr_t)first.at % align == 0);
    fill(first.at, 1, size);
    platform_memory other = rattle_alloc(size, align);
    TEST(other.ok == 1 && other.at != first.at);
    fill(other.at, 77, size);
    TEST(holds(first.at, 1, size));
    platform_memory refused = rattle_realloc(first.at, size, too_much, align);
    TEST(refused.ok == 0 && is_octet(refused.at) && refused.at != first.at);
    TEST(holds(first.at, 1, size));
    platform_memory grown = rattle_realloc(first.at, size, MORE, align);
    TEST(grown.ok == 1 && (uintptr_t)grown.at % align == 0 && holds(grown.at, 1, size));
    fill(grown.at, 5, MORE);
    platform_memory less = rattle_realloc(grown.at, MORE, size, align);
    TEST(less.ok == 1 && (uintptr_t)less.at % align == 0 && holds(less.at, 5, size));
    TEST(holds(other.at, 77, size));
    TEST(blocks == 2);
    rattle_dealloc(less.at);
    rattle_dealloc(other.at);
    TEST(blocks == 0);
}

static void test_heap(void) {
    for (size_t align = 1; align <= 16; align *= 2)
        for (size_t size = 0; size <= MOST; size += size < 256 ? align : 16 * align) test_block(size, align);
    for (size_t align = 1; align <= 16; align *= 2) {
        platform_memory refused = rattle_alloc(too_much, align);
        TEST(refused.ok == 0 && is_octet(refused.at));
        refused = rattle_alloc(SIZE_MAX / 2 + 1 - 16, align);
        TEST(refused.ok == 0 && is_octet(refused.at));
    }
}

static void *in_another_thread(void *seen) {
    rattle_set_errno(7);
    *(int32_t *)seen = rattle_errno();
    return NULL;
}

static void test_errno(void) {
    rattle_set_errno(3);
    TEST(rattle_errno() == 3);
    TEST(!freopen("/dev/null/none", "r", stdin) && rattle_errno() == 20); /* ENOTDIR */
    pthread_t thread;
    int32_t seen = 0;
    rattle_set_errno(-5);
    TEST(!pthread_create(&thread, NULL, in_another_thread, &seen) && !pthread_join(thread, NULL));
    TEST(seen == 7 && rattle_errno() == -5);
}

/* Moves an octet at one end of a pipe some milliseconds after the other end has to wait for it. */
static void *fill_later(void *end) {
    usleep(20000);
    if (write(*(int *)end, "x", 1) != 1) abort();
    return NULL;
}

static void *drain_later(void *end) {
    static char octets[1 << 16];
    usleep(20000);
    if (read(*(int *)end, octets, sizeof octets) <= 0) abort();
    return NULL;
}

static void test_waiting(void) {
    int ends[2];
    char octets[MOST] = {0};
    pthread_t thread;
    TEST(!pipe(ends) && !fcntl(ends[0], F_SETFL, O_NONBLOCK) && !fcntl(ends[1], F_SETFL, O_NONBLOCK));
    TEST(!pthread_create(&thread, NULL, fill_later, &ends[1]));
    TEST(platform_read(ends[0], octets, sizeof octets) == 1 && octets[0] == 'x');
    pthread_join(thread, NULL);
    while (write(ends[1], octets, sizeof octets) > 0) {}
    TEST(errno == EAGAIN && !pthread_create(&thread, NULL, drain_later, &ends[0]));
    TEST(platform_write(ends[1], octets, sizeof octets) > 0);
    pthread_join(thread, NULL);
    TEST(!close(ends[0]) && platform_write(ends[1], octets, 1) == -1 && rattle_errno() == EPIPE);
    TEST(!close(ends[1]) && platform_read(ends[0], octets, 1) == -1 && rattle_errno() == EBADF);
}

/* Each status is that of the process, with output there and without. tests/streams has an output that can't be closed. */
static void test_exit(void) {
    for (int status = 0; status < 9; status++)
        for (int is_open = 0; is_open < 2; is_open++) {
            pid_t child = fork();
            if (!child) {
                if (!is_open) close(STDOUT_FILENO);
                platform_exit(status);
            }
            int found;
            TEST(waitpid(child, &found, 0) == child && WIFEXITED(found) && WEXITSTATUS(found) == status);
        }
}

/* Each word to arrays of all lengths up to one more than its own. */
static void test_arguments(int count, char **words) {
    TEST(rattle_arg_count() == (size_t)count);
    for (int i = 0; i < count; i++) {
        size_t length = strlen(words[i]);
        uint8_t array[MOST];
        if (length + 2 > sizeof array) continue;
        for (size_t room = 0; room <= length + 1; room++) {
            memset(array, 0xEE, sizeof array);
            ssize_t answer = rattle_arg((size_t)i, array, room);
            TEST(answer == (room < length ? -2 : (ssize_t)length));
            size_t copied = room < length ? room : length;
            TEST(!memcmp(array, words[i], copied));
            TEST(array[copied] == 0xEE && array[room] == 0xEE);
        }
    }
    uint8_t octet = 0xEE;
    TEST(rattle_arg((size_t)count, &octet, 1) == -1);
    TEST(rattle_arg(SIZE_MAX, &octet, 1) == -1);
    TEST(octet == 0xEE);
}

int tmchan_main(int count, char **words) {
    test_heap();
    test_errno();
    signal(SIGPIPE, SIG_IGN);
    test_waiting();
    test_exit();
    test_arguments(count, words);
    printf("%ld tests of the platform, %ld failed\n", tests, failures);
    return failures > 0;
}
