/* Tests how the library for x86-64 chooses its level on a processor that lacks one feature of x86-64-v3. The
 * processor is told to fault at each cpuid, and the handler answers without that feature. The status is 77 if it has
 * no such faults. */
#define _GNU_SOURCE
#include "data_url.h"
#include <cpuid.h>
#include <signal.h>
#include <stdio.h>
#include <string.h>
#include <sys/syscall.h>
#include <ucontext.h>
#include <unistd.h>

#define ARCH_SET_CPUID 0x1012

bool dataurl_force_level(int level);

/* A feature: the word that cpuid answers for a leaf, and a bit of it. FMA, MOVBE, OSXSAVE, AVX, F16C; BMI1, AVX2,
 * BMI2; LZCNT. */
struct feature {
    unsigned leaf;
    int word;
    int bit;
};

static const struct feature features[] = {
    {1, REG_RCX, 12}, {1, REG_RCX, 22}, {1, REG_RCX, 27}, {1, REG_RCX, 28}, {1, REG_RCX, 29},
    {7, REG_RBX, 3},  {7, REG_RBX, 5},  {7, REG_RBX, 8},  {0x80000001, REG_RCX, 5},
};

/* No leaf has this number, so at first nothing is lacking. */
static struct feature lacking = {~0u, REG_RAX, 0};
static int asked, wrong;

static bool allow_cpuid(int is_allowed) { return syscall(SYS_arch_prctl, ARCH_SET_CPUID, is_allowed) == 0; }

static void answer(int number, siginfo_t *info, void *context) {
    greg_t *words = ((ucontext_t *)context)->uc_mcontext.gregs;
    unsigned a, b, c, d, leaf = (unsigned)words[REG_RAX];
    (void)info;
    if (memcmp((void *)words[REG_RIP], "\x0f\xa2", 2) != 0) _exit(128 + number);
    asked++;
    allow_cpuid(1);
    __cpuid_count(leaf, (unsigned)words[REG_RCX], a, b, c, d);
    allow_cpuid(0);
    words[REG_RAX] = a, words[REG_RBX] = b, words[REG_RCX] = c, words[REG_RDX] = d;
    if (leaf == lacking.leaf) words[lacking.word] &= ~(1LL << lacking.bit);
    words[REG_RIP] += 2;
}

static void expect(bool is_right, const char *what) {
    if (is_right) return;
    wrong++;
    printf("without leaf %x, bit %d: %s\n", lacking.leaf, lacking.bit, what);
}

static bool decodes(void) {
    const char *url = "data:;base64,SGVsbG8h";
    char body[64];
    struct data_url_answer got = data_url_body(url, strlen(url), body, sizeof body);
    return got.status == DATA_URL_DONE && got.len == 6 && memcmp(body, "Hello!", 6) == 0;
}

int main(void) {
    struct sigaction action = {.sa_sigaction = answer, .sa_flags = SA_SIGINFO};
    size_t at, count = sizeof features / sizeof *features;
    if (!dataurl_force_level(3) || sigaction(SIGSEGV, &action, NULL) != 0 || !allow_cpuid(0)) return 77;
    expect(dataurl_force_level(3) && asked > 0, "the whole processor has no level 3, or was not asked");
    for (at = 0; at < count; at++) {
        lacking = features[at];
        expect(!dataurl_force_level(3), "there is a level 3");
        expect(dataurl_force_level(0), "the level is not asked for again");
        asked = 0;
        expect(decodes() && asked > 0, "the first call does not ask");
        asked = 0;
        expect(decodes() && asked == 0, "the second call asks again");
    }
    printf("c: %zu features that a processor lacks, %d wrong\n", count, wrong);
    return wrong != 0;
}
