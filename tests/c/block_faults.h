/* block_faults.h: the faults that read_plan's test puts into a plan's file, table by table. */
#ifndef BLOCK_FAULTS_H
#define BLOCK_FAULTS_H

#include "image.h"

/* The file of ROWS rows, its blocks picked by PICK, is changed in block BLOCK: its index, its count of rows (the rows past it are
 * cleared), and bytes that must be zero. Then its check is made right, and at last its byte CHANGED is changed. */
enum { ROWS = OWN_FIELDS, BLOCK, LEN_MORE, PICK, INDEX_MORE, USED, ZERO_AT, ZERO_IS, TOO_AT, TOO_IS, CHANGED, PLAN_MORE,
       ROWS_LEN };

/* Faults of the lists and of a block's index and count; then by where the changed block stands: first, second or last of three,
 * alone, or last of the most. */
struct faults of_lists(const struct format *f);
struct faults of_head(const struct format *f);
struct faults of_first(const struct format *f);
struct faults of_second(const struct format *f);
struct faults of_last(const struct format *f);
struct faults of_alone(const struct format *f);
struct faults of_largest(const struct format *f);
/* Each word of a block changed, the check among them, and not made right again; and each of the bytes before the rows that must be
 * zero. */
struct faults of_places(const struct format *f);

#endif
