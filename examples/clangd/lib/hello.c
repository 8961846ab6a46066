#include <stdio.h>
#include "hello.h"

void hello(const char *greeting, const char *version) {
    printf("%s from version %s\n", greeting, version);
}
