#define LEFT
#include "side.h"
#undef WHICH
#include "side.h"
int main(void) { return left() + right() + WHICH; }
