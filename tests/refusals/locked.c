/* mmap, mprotect and sigaction are no part of C11. */
#define _DEFAULT_SOURCE 1

#include "locked.h"

#include <setjmp.h>
#include <signal.h>
#include <stdio.h>
#include <stdlib.h>
#include <string.h>
#include <sys/mman.h>
#include <unistd.h>

/* One page, between two that no one may touch; what is lent stands at its end, or at its beginning. */
struct guarded {
    const char *name;
    uint8_t *page;
    uint8_t *lent;
};

static struct guarded guarded_unit = {"unit", NULL, NULL}, guarded_input = {"input", NULL, NULL}, guarded_buffer = {"buffer", NULL, NULL};
static size_t page_size;

static sigjmp_buf before_call;
static volatile sig_atomic_t is_calling;
static uint8_t *volatile fault_at;

static void give_up(const char *what)
{
    perror(what);
    fprintf(stderr, "refusals: the system does not let memory be locked, which this test needs\n");
    exit(2);
}

static void protect(struct guarded *it, int how)
{
    if (mprotect(it->page, page_size, how) != 0)
        give_up("mprotect");
}

static void map_pages(struct guarded *it)
{
    uint8_t *pages = mmap(NULL, 3 * page_size, PROT_NONE, MAP_PRIVATE | MAP_ANONYMOUS, -1, 0);

    if (pages == MAP_FAILED)
        give_up("mmap");
    it->page = pages + page_size;
    protect(it, PROT_READ | PROT_WRITE);
}

/* A fault of the test itself ends it as ever. */
static void on_fault(int number, siginfo_t *information, void *context)
{
    (void)context;
    if (!is_calling) {
        signal(number, SIG_DFL);
        return;
    }
    fault_at = information->si_addr;
    siglongjmp(before_call, 1);
}

void locked_start(void)
{
    struct sigaction action;

    page_size = (size_t)sysconf(_SC_PAGESIZE);
    map_pages(&guarded_unit);
    map_pages(&guarded_input);
    map_pages(&guarded_buffer);
    memset(&action, 0, sizeof action);
    action.sa_sigaction = on_fault;
    action.sa_flags = SA_SIGINFO;
    sigemptyset(&action.sa_mask);
    if (sigaction(SIGSEGV, &action, NULL) != 0)
        give_up("sigaction");
}

static void lend(struct guarded *it, const void *bytes, size_t length, bool at_end)
{
    it->lent = at_end ? it->page + page_size - length : it->page;
    memcpy(it->lent, bytes, length);
}

static bool reaches(const struct guarded *it, const uint8_t *at)
{
    return at >= it->page - page_size && at < it->page + 2 * page_size;
}

static struct reached where(const uint8_t *at)
{
    const struct guarded *const all[] = {&guarded_unit, &guarded_input, &guarded_buffer};
    struct reached reached = {"memory that no one lent", 0};
    size_t i;

    for (i = 0; i < 3; i++) {
        if (reaches(all[i], at)) {
            reached.place = all[i]->name;
            reached.byte = at - all[i]->lent;
        }
    }
    return reached;
}

struct reached call_locked(const struct tmc_unit *unit, const struct call *call, uint8_t *buffer, struct tmc_answer *answer)
{
    static bool at_end; /* turn by turn, so that both sides are guarded */
    struct reached nowhere = {NULL, 0};

    at_end = !at_end;
    protect(&guarded_unit, PROT_READ | PROT_WRITE);
    lend(&guarded_unit, unit, sizeof *unit, at_end);
    lend(&guarded_input, call->bytes, call->length, at_end);
    lend(&guarded_buffer, buffer, call->room, at_end);
    protect(&guarded_unit, PROT_READ);
    if (sigsetjmp(before_call, 0) != 0)
        return where(fault_at);
    is_calling = 1;
    *answer = perform((struct tmc_unit *)(void *)guarded_unit.lent, call, guarded_input.lent, guarded_buffer.lent);
    is_calling = 0;
    memcpy(buffer, guarded_buffer.lent, call->room);
    return nowhere;
}
