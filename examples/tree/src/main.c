#include "../inc/size.h"
int main;
