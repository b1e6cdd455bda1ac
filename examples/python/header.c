/* What include/koelchair.h says beyond its functions, as names of the shared library: for languages that cannot include it. */
#include "koelchair.h"

const char koelchair_version[] = KOELCHAIR_VERSION;

const size_t koelchair_store_length = KOELCHAIR_STORE_LENGTH;
const size_t koelchair_table_length = KOELCHAIR_TABLE_LENGTH;
const size_t koelchair_listing_length = KOELCHAIR_LISTING_LENGTH;
const size_t koelchair_written_most = KOELCHAIR_WRITTEN_MOST;

/* The bytes of each struct, by which a caller sees that its own declarations fit. */
const size_t koelchair_standing_bytes = sizeof(koelchair_standing);
const size_t koelchair_answer_bytes = sizeof(koelchair_answer);
const size_t koelchair_moved_bytes = sizeof(koelchair_moved);
const size_t koelchair_shown_bytes = sizeof(koelchair_shown);
const size_t koelchair_desk_sizes_bytes = sizeof(koelchair_desk_sizes);
const size_t koelchair_worked_entry_bytes = sizeof(koelchair_worked_entry);

const char *koelchair_words(uint8_t number)
{
    return koelchair_refusal_words(number);
}
