#define Q <
