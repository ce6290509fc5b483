/* Writes the header's errors, a number and a name to a line. Every number has a text, and no two have the same. */
#include "gitaymba.h"
#include "tests.h"

int main(void) {
    static const char *texts[256];
    const char *unknown = gitaymba_error_text(255);
    HOLDS(strcmp(gitaymba_error_text(0), "no error") == 0 && strcmp(unknown, "unknown error") == 0);
#define GITAYMBA_X(number, name, text) \
    printf("%d %s\n", GITAYMBA_ERROR_##name, #name); \
    texts[number] = text;
    GITAYMBA_ERRORS(GITAYMBA_X)
#undef GITAYMBA_X
    for (int i = 1; i < 256; i++) {
        HOLDS(strcmp(gitaymba_error_text((uint8_t)i), texts[i] ? texts[i] : unknown) == 0);
        for (int j = 1; j < i; j++) HOLDS(!texts[i] || !texts[j] || strcmp(texts[i], texts[j]) != 0);
    }
    return failures != 0;
}
