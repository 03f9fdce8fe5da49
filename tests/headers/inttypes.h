#include <stdint.h>
#define PRIu64 __UINT64_FMTu__
