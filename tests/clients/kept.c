/* kept: what a child of fork(2) finds of the serials of daemons that are gone, which another thread changes at that
 * moment. It has free(3) look at them: what is freed there mustn't be what they have. */
#include <malloc.h>

#include "common/caller.h"

#include "check.h"

static struct serials serials;
static int freed, still_had;

void __real_free(void *at);
void __wrap_free(void *at);

void __wrap_free(void *at) {
    freed += at != NULL;
    still_had += at != NULL && serials.again == at;
    __real_free(at);
}

/* One that tells fewer serials than the daemon before it leaves those of that one stale, which have no place beside the
 * memory that they take. */
static void see_fewer(void) {
    struct serials fewer = { 0 };
    serials_add(&fewer, 192);
    check("a daemon after one of 192 serials", serials_begin_anew(&fewer, 0) == 0);
    check("the memory that 192 take", malloc_usable_size(fewer.again) > 192 / 8);
    serials_add(&fewer, 100);
    check("one that told fewer is gone too", serials_begin_anew(&fewer, 0) == 0);
    check("serials of both before", serials_is_stale(&fewer, 100) && serials_is_stale(&fewer, 192));
    serials_clear(&fewer);
    check("what is cleared knows none", !serials_is_stale(&fewer, 100));
}

int main(void) {
    mallopt(M_PERTURB, 0x55); /* memory that is had anew isn't zero by chance */
    for (int32_t highest = 10; highest < 1000000; highest *= 10) {
        serials_add(&serials, highest);
        check("another daemon", serials_begin_anew(&serials, 0) == 0);
        check("serials of the one before",
              serials_is_stale(&serials, highest) && !serials_is_stale(&serials, highest + 1));
        serials_add(&serials, 7);
        check("one that this one has told", !serials_is_stale(&serials, 7));
    }
    serials_add(&serials, INT32_MAX);
    check("a daemon that says the highest serial", serials_begin_anew(&serials, 0) == 0);
    check("the memory that this takes", malloc_usable_size(serials.again) < 17 * 1024 * 1024);
    for (int32_t told = 1; told > 0; told = told < INT32_MAX / 2 ? told * 2 : 0) serials_add(&serials, told);
    check("what is told apart", !serials_is_stale(&serials, SERIALS_TOLD_APART) && serials_is_stale(&serials, 3));
    serials_add(&serials, INT32_MAX);
    check("what isn't stays stale", serials_is_stale(&serials, INT32_MAX) && serials_is_stale(&serials, 1 << 28));
    serials_clear(&serials);
    check("what was freed", freed == 6);
    check("what was freed is had no more", still_had == 0);
    see_fewer();
    return conclude("kept");
}
