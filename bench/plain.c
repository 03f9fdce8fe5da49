/* All of plain C in one, so that the compiler sees across its files, as it does across the crates of the archive. */
#include "plain_card.c"
#include "plain_finish.c"
#include "plain_rack.c"
