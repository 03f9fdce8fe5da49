/* What the C of this repository takes from C's headers: the kit's compiler comes without them. */
#ifndef STDINT_H
#define STDINT_H
typedef __UINT64_TYPE__ uint64_t;
#define UINT32_MAX 0xffffffffu
#define UINT64_MAX __UINT64_MAX__
#endif
