/* What the program's module calls beside the heap. Octets in and out, and the words, come from the script that is its host (module "host"
 * of its imports). It has no threads: starting one is refused, and the caller does the work then, as it does wherever that is refused. */
typedef __SIZE_TYPE__ size_t;
typedef __PTRDIFF_TYPE__ ssize_t;

#define HOST(name) __attribute__((import_module("host"), import_name(#name)))
HOST(read) ssize_t host_read(int file, void *to, size_t size); /* how many octets, or -1 */
HOST(write) ssize_t host_write(int file, const void *from, size_t size);
HOST(word) ssize_t host_word(size_t i, void *to, size_t size); /* as rattle_arg of platform/platform.h */
HOST(exit) _Noreturn void host_exit(int status);

enum { EIO = 5, EAGAIN = 11, ESRCH = 3 };
static int error;

static ssize_t answer(ssize_t count) {
    if (count < 0) error = EIO;
    return count;
}
ssize_t read(int file, void *to, size_t size) { return answer(host_read(file, to, size)); }
ssize_t write(int file, const void *from, size_t size) { return answer(host_write(file, from, size)); }
ssize_t __write(int file, const void *from, size_t size) { return write(file, from, size); }
ssize_t rattle_arg(size_t i, void *to, size_t size) { return host_word(i, to, size); }
int rattle_errno(void) { return error; }
void rattle_set_errno(int number) { error = number; }

void abort(void) { __builtin_trap(); }
void _exit(int status) { host_exit(status); }
void *__sysv_signal(int number, void *handler) { return (void)number, handler; }

void *tmchan_alloc(size_t);
void tmchan_free(void *);
void *malloc(size_t size) { return tmchan_alloc(size); }
void free(void *at) { tmchan_free(at); }

int pthread_attr_init(void *it) { return (void)it, 0; }
int pthread_attr_destroy(void *it) { return (void)it, 0; }
int pthread_attr_setguardsize(void *it, size_t size) { return (void)it, (void)size, 0; }
int pthread_attr_setstacksize(void *it, size_t size) { return (void)it, (void)size, 0; }
int pthread_create(void *it, const void *how, void *(*start)(void *), void *given) {
    return (void)it, (void)how, (void)start, (void)given, EAGAIN;
}
int pthread_join(size_t it, void **left) { return (void)it, (void)left, ESRCH; }
int pthread_detach(size_t it) { return (void)it, ESRCH; }
size_t pthread_self(void) { return 1; }
int sched_yield(void) { return 0; }

/* The module is that of the build for x86-64-v2, which asks for that processor's features as it starts: those that it uses are vectors of
 * the host, and it would not have been taken without them. */
static const unsigned char has_all[256] = {[0 ... 255] = 0xff};
const void *__x86_get_cpuid_feature_leaf(unsigned leaf) { return (void)leaf, has_all; }
