/*
 * Runs a raise one machine instruction at a time, and shows what each of them stores in the area: the
 * order and the width that the compiler chose. After each store it tries a restart on the bytes that a
 * power cut would leave. examples/run holds what this prints to the order of 02, request 4. For Linux.
 */
#define _DEFAULT_SOURCE
#include <inttypes.h>
#include <signal.h>
#include <stdio.h>
#include <string.h>
#include <sys/mman.h>
#include <sys/ptrace.h>
#include <sys/wait.h>
#include <unistd.h>

#include "rostuvlad_journal.h"

static void show_restart(const uint8_t *area)
{
    uint64_t next;

    if (rostuvlad_journal_restart(area, ROSTUVLAD_JOURNAL_SIZE, &next) == ROSTUVLAD_JOURNAL_DONE) {
        printf("a restart finds %" PRIu64 "\n", next);
    } else {
        puts("a restart is refused");
    }
}

int main(void)
{
    uint8_t *area = mmap(NULL, ROSTUVLAD_JOURNAL_SIZE, PROT_READ | PROT_WRITE, MAP_SHARED | MAP_ANONYMOUS, -1, 0);
    if (area == MAP_FAILED) {
        perror("mmap");
        return 2;
    }

    /* one slot is taken, and leftovers in the next make every store a change */
    rostuvlad_journal_raise(area, ROSTUVLAD_JOURNAL_SIZE, 3);
    memset(area + 12 + 2, 0xFF, 10);
    printf("at first ");
    show_restart(area);
    fflush(stdout);

    pid_t child = fork();
    if (child == 0) {
        if (ptrace(PTRACE_TRACEME, 0, NULL, NULL) != 0) {
            perror("ptrace");
            _exit(2);
        }
        raise(SIGSTOP);
        _exit(rostuvlad_journal_raise(area, ROSTUVLAD_JOURNAL_SIZE, 0x0102030405060708));
    }

    static uint8_t seen[ROSTUVLAD_JOURNAL_SIZE];
    int status;
    memcpy(seen, area, sizeof seen);
    while (waitpid(child, &status, 0) == child && WIFSTOPPED(status)) {
        if (memcmp(seen, area, sizeof seen) != 0) {
            for (size_t k = 0; k < sizeof seen; k++) {
                if (seen[k] != area[k]) {
                    printf("byte %zu: %02" PRIx8 ", ", k, area[k]);
                }
            }
            show_restart(area);
            memcpy(seen, area, sizeof seen);
        }
        if (ptrace(PTRACE_SINGLESTEP, child, NULL, NULL) != 0) {
            perror("ptrace");
            return 2;
        }
    }
    return WIFEXITED(status) ? WEXITSTATUS(status) : 2;
}
