#include "../inc/size.h"
int list[SIZE];
