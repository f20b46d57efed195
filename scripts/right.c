#include "point.h"
#define SIDE Y
