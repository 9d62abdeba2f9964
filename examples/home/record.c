#include "record.h"

void record_add(struct record *record, struct fact fact)
{
    if (record->count < RECORD_MOST) {
        record->facts[record->count++] = fact;
    }
}
