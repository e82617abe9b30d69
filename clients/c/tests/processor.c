/* On a processor that is too old an opening says so, and nothing is said to the host's streams or done to its process.
 * The linker puts this function in the place of the C library's, by --wrap. */
#include "check.h"

/* No feature is there. */
const void *__wrap___x86_get_cpuid_feature_leaf(unsigned leaf);

const void *__wrap___x86_get_cpuid_feature_leaf(unsigned leaf)
{
    static const unsigned none[16];
    (void)leaf;
    return none;
}

int main(void)
{
    jpstore *store;
    jpstore_cause cause = {.refusal = -1};
    CHECK(jpstore_open_memory(64, &store, &cause) == JPSTORE_PROCESSOR && store == NULL && cause.refusal == 0);
    CHECK(jpstore_open("none", NULL, &store, NULL) == JPSTORE_PROCESSOR);
    CHECK(jpstore_format("none", 64, NULL, NULL, NULL) == JPSTORE_PROCESSOR);
    CHECK(jpstore_check("none", NULL, NULL) == JPSTORE_PROCESSOR);
    CHECK(jpstore_copy("none", "new", 64, NULL, NULL) == JPSTORE_PROCESSOR);
    CHECK(jpstore_upgrade("none", 0, NULL, NULL) == JPSTORE_PROCESSOR);
    return checks_end();
}
