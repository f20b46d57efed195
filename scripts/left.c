#include "point.h"
#define SIDE X
