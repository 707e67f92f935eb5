/* painted.h: a painted stack of exactly 16 KiB with pages that trap right below and right above it. Include lend.h
 * first.
 *
 * What a function needs goes from the top of the stack down to the deepest byte that changed; what an empty one needs
 * is taken off. There are two paints, so that a byte is also seen where what is written to it is the paint. A function
 * that leaves the stack traps, and the program ends with words and status 1.
 */
#include <sys/wait.h>
#include <ucontext.h>

#define ROOM 4096u   /* what a call may need */
#define STACK 16384u /* what the host has in all, the entry to a call included */
#define TRAPS 65536u /* bytes below that trap, so that a big array does not step over them */
#define ABOVE 4096u  /* bytes above that trap, at least */

static const uint8_t paints[2] = {0xA5, 0x5A};

static uint8_t *ground; /* the lowest byte of the stack */
static ucontext_t home, away;
static size_t deepest;          /* the most of the stack that was changed, the entry to it included */
static const char *runner = ""; /* who is on it */

static void lay_ground(void)
{
    struct lent lent = lend(TRAPS + STACK, 1);
    if (mprotect(lent.part, TRAPS, PROT_NONE)) {
        printf(PROGRAM ": the pages here are too big for a stack of 16 KiB between two\n");
        exit(2);
    }
    ground = lent.part + TRAPS;
}

/* The bytes of the painted stack from its top to the deepest that a function changes. */
static size_t changed(void (*function)(void), uint8_t paint)
{
    memset(ground, paint, STACK);
    getcontext(&away);
    away.uc_stack.ss_sp = ground;
    away.uc_stack.ss_size = STACK;
    away.uc_link = &home;
    makecontext(&away, function, 0);
    swapcontext(&home, &away);
    size_t kept = 0;
    while (kept < STACK && ground[kept] == paint)
        kept++;
    return STACK - kept;
}

static void nothing(void) {}

/* What a function needs on one paint beyond an empty one, its own frame included. */
static size_t need_on(void (*function)(void), uint8_t paint)
{
    size_t all = changed(function, paint);
    deepest = all > deepest ? all : deepest;
    return all - changed(nothing, paint);
}

static int fits(size_t need) { return need <= ROOM; }

/* A trap beside the stack is told from another. */
static void overrun(int number, siginfo_t *info, void *context)
{
    static char words[128];
    uintptr_t at = (uintptr_t)info->si_addr, low = (uintptr_t)ground;
    (void)context;
    if (at < low - TRAPS || at >= low + STACK + ABOVE)
        trapped(number);
    strcpy(words, runner); /* the names are short */
    say_trap(strcat(words, " left its stack of 16 KiB"));
}

/* Where the stack is at its end there is no room to say so: the handler has a stack of its own. */
static void catch_overrun(void)
{
    static uint8_t own[65536];
    stack_t stack = {.ss_sp = own, .ss_size = sizeof own};
    struct sigaction action;
    sigaltstack(&stack, NULL);
    memset(&action, 0, sizeof action);
    action.sa_sigaction = overrun;
    action.sa_flags = SA_ONSTACK | SA_SIGINFO;
    sigaction(SIGSEGV, &action, NULL);
    sigaction(SIGBUS, &action, NULL);
}

/* ---- what it has to see ---- */

#define BIG (ROOM + 4000)

/* Writes the deepest byte of an array and no other; what it writes is a paint. */
#define ARRAY(name, length)             \
    static void name(void)              \
    {                                   \
        volatile uint8_t bytes[length]; \
        bytes[0] = paints[0];           \
        (void)bytes[0];                 \
    }

ARRAY(big, BIG)
ARRAY(huge, STACK + 1)
ARRAY(huger, STACK + TRAPS - 4096)

static void lowest(void) { ground[0] = 1; }
static void below(void) { ground[-1] = 1; }
static void above(void) { ground[STACK] = 1; }

/* Runs a function on the stack in a copy of the program; gives the copy's exit status and what it said. */
static int copy_says(void (*function)(void), char *words, size_t room)
{
    int ends[2], status = 0;
    size_t length = 0;
    fflush(stdout);
    pid_t copy = pipe(ends) ? -1 : fork();
    if (copy < 0)
        exit(2);
    if (copy == 0) {
        dup2(ends[1], 1);
        changed(function, paints[0]);
        _exit(0);
    }
    close(ends[1]);
    for (ssize_t more = 1; more > 0; length += more > 0 ? (size_t)more : 0)
        more = read(ends[0], words + length, room - 1 - length);
    words[length] = 0;
    close(ends[0]);
    waitpid(copy, &status, 0);
    return WIFEXITED(status) ? WEXITSTATUS(status) : -1;
}

/* A function that leaves the stack ends the program with words and status 1; another does not. */
static void leaves(const char *name, void (*function)(void), int trap)
{
    char words[256], asked[256] = "";
    now = name;
    runner = "the self test";
    if (trap)
        snprintf(asked, sizeof asked, PROGRAM ": FAILED, %s left its stack of 16 KiB: %s\n", runner, now);
    expect(copy_says(function, words, sizeof words) == trap, "status of a copy");
    expect(!strcmp(words, asked), "words of a copy");
}

/* A function that needs more than there is room for is seen and does not pass, and one that needs more than 16 KiB
 * traps. */
static void self_test(void)
{
    now = "a big array";
    size_t hidden = need_on(big, paints[0]), need = need_on(big, paints[1]);
    expect(hidden < BIG, "its paint is seen");
    expect(need >= BIG && need < BIG + 256, "what it needs");
    expect(!fits(need), "it passes");
    now = "an empty call";
    expect(need_on(nothing, paints[0]) == 0, "what it needs");
    now = "the limit";
    expect(fits(ROOM) && !fits(ROOM + 1), "4,096 bytes pass, 4,097 do not");
    leaves("an empty call", nothing, 0);
    leaves("the lowest byte", lowest, 0);
    leaves("an array over 16 KiB", huge, 1);
    leaves("an array far over 16 KiB", huger, 1);
    leaves("the byte below", below, 1);
    leaves("the byte above", above, 1);
    deepest = 0;
}
