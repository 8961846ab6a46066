#include <stdio.h>
#include "bye.h"

void bye(void) {
    puts("Bye");
}
