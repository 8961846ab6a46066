#include "size.h"
main
