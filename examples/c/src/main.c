#include "bye.h"
#include "hello.h"
#include "version.h"
#include "words.h"

int main(void) {
    hello(GREETING, VERSION);
    bye();
    return 0;
}
