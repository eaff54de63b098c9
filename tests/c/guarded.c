#include "guarded.h"

#include <signal.h>
#include <stdlib.h>
#include <string.h>
#include <sys/mman.h>
#include <unistd.h>

static const char *said;

static void say(const char *text)
{
    if (write(STDOUT_FILENO, text, strlen(text)) < 0)
        _exit(2);
}

static void stopped(int signal_number)
{
    (void)signal_number;
    say(said);
    say(": an access outside what was lent, or a store into the query\n");
    _exit(1);
}

void on_stopped_access(const char *text)
{
    said = text;
    if (signal(SIGSEGV, stopped) == SIG_ERR || signal(SIGBUS, stopped) == SIG_ERR)
        exit(2);
}

uint8_t *guarded_page(void)
{
    uint8_t *pages = mmap(NULL, 3 * PAGE, PROT_NONE, MAP_PRIVATE | MAP_ANONYMOUS, -1, 0);
    if (pages == MAP_FAILED)
        exit(2);
    read_only(pages + PAGE, 0);
    return pages + PAGE;
}

uint8_t *placed(uint8_t *page, size_t length, place at)
{
    return at == AT_FRONT ? page : page + PAGE - length;
}

void read_only(uint8_t *page, int stopped)
{
    if (mprotect(page, PAGE, stopped ? PROT_READ : PROT_READ | PROT_WRITE))
        exit(2);
}
