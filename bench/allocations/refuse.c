// Refuses the allocation with the number FAIL_AT of a program that is started with this library before the C library, and with
// COUNT tells their number on the error output behind all else. With LARGE it refuses each allocation of so many bytes or more from the
// moment on at which the program binds a socket or, with AFTER, first asks for just so many bytes or, with AT, first comes to the function
// at this place of its file, where a breakpoint of x86-64 stands until then.
#define _GNU_SOURCE
#include <dlfcn.h>
#include <errno.h>
#include <link.h>
#include <signal.h>
#include <stdio.h>
#include <stdlib.h>
#include <sys/mman.h>
#include <sys/socket.h>
#include <sys/syscall.h>
#include <ucontext.h>
#include <unistd.h>

void *__libc_malloc(size_t);
void *__libc_calloc(size_t, size_t);
void *__libc_realloc(void *, size_t);
void *__libc_memalign(size_t, size_t);

static long made, refused = -1, after, large;

static long number_of(const char *name) {
  const char *digits = getenv(name);
  return digits ? atol(digits) : 0;
}

static void refuse_large(void) { large = number_of("LARGE"); }

int bind(int socket, const struct sockaddr *address, socklen_t length) {
  refuse_large();
  return ((int (*)(int, const struct sockaddr *, socklen_t))dlsym(RTLD_NEXT, "bind"))(socket, address, length);
}

static unsigned char *stop, there;

// Behind the one byte of the breakpoint: the function goes on as it is.
static void come(int number, siginfo_t *told, void *context) {
  (void)number, (void)told;
  *stop = there;
  ((ucontext_t *)context)->uc_mcontext.gregs[REG_RIP] = (greg_t)stop;
  refuse_large();
}

// The program itself comes first.
static int loaded(struct dl_phdr_info *info, size_t size, void *base) {
  (void)size;
  *(unsigned char **)base = (unsigned char *)info->dlpi_addr;
  return 1;
}

__attribute__((constructor)) static void set_breakpoint(void) {
  const char *place = getenv("AT");
  unsigned char *base;
  if (!place || !dl_iterate_phdr(loaded, &base)) return;
  stop = base + strtoul(place, NULL, 16);
  long page = sysconf(_SC_PAGESIZE);
  sigaction(SIGTRAP, &(struct sigaction){.sa_sigaction = come, .sa_flags = SA_SIGINFO}, NULL);
  if (mprotect(stop - (size_t)stop % page, page, PROT_READ | PROT_WRITE | PROT_EXEC)) abort();
  there = *stop;
  *stop = 0xcc;
}

static int refuses(size_t size) {
  if (refused < 0) {
    after = number_of("AFTER");
    refused = number_of("FAIL_AT");
  }
  if (after && size == (size_t)after) refuse_large();
  int is_large = large && size >= (size_t)large;
  if (__atomic_add_fetch(&made, 1, __ATOMIC_SEQ_CST) != refused && !is_large) return 0;
  errno = ENOMEM;
  return 1;
}

void *malloc(size_t size) { return refuses(size) ? NULL : __libc_malloc(size); }
void *calloc(size_t count, size_t size) { return refuses(count * size) ? NULL : __libc_calloc(count, size); }
void *realloc(void *old, size_t size) { return refuses(size) ? NULL : __libc_realloc(old, size); }
void *memalign(size_t align, size_t size) { return refuses(size) ? NULL : __libc_memalign(align, size); }
void *aligned_alloc(size_t align, size_t size) { return memalign(align, size); }

int posix_memalign(void **result, size_t align, size_t size) {
  if (refuses(size)) return ENOMEM;
  *result = __libc_memalign(align, size);
  return *result ? 0 : ENOMEM;
}

// A program without threads ends by its return.
__attribute__((destructor)) static void tell(void) {
  static int told;
  char text[32];
  if (!told++ && getenv("COUNT") && write(2, text, snprintf(text, sizeof text, "%ld\n", made)) < 0) return;
}

// A program that has threads ends by this call.
void _exit(int status) {
  tell();
  for (;;) syscall(SYS_exit_group, status);
}
