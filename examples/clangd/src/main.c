#include "../lib/bye.h"
#include "../lib/hello.h"
#include "words.h"

int main(void) {
    hello(GREETING, VERSION);
    bye();
    return 0;
}
