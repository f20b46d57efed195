#define X 0
#define Y 1
