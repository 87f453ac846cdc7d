/*
 * Sheets for the C tests and the measurements. The sheet of an order is written operation by
 * operation into a struct sheet; from any sheet the verdict and the operations can be read.
 */

#ifndef SHEETS_H
#define SHEETS_H

#include <stddef.h>
#include <stdint.h>

#define SHEET_HEADER 4
#define SHEET_OPERATIONS 65535

/* The bytes of a sheet, with room for as many operations as its field k can count. */
struct sheet {
    uint8_t bytes[SHEET_HEADER + 2 * SHEET_OPERATIONS];
    size_t length;
};

/* Begins the sheet of an order of no operations. */
static inline void sheet_begin(struct sheet *sheet)
{
    static const uint8_t header[SHEET_HEADER] = {1, 0, 0, 0};
    for (size_t i = 0; i < SHEET_HEADER; i++)
        sheet->bytes[i] = header[i];
    sheet->length = SHEET_HEADER;
}

/* Appends an operation number and counts it. */
static inline void sheet_list(struct sheet *sheet, unsigned operation)
{
    sheet->bytes[sheet->length++] = (uint8_t)(operation >> 8);
    sheet->bytes[sheet->length++] = (uint8_t)operation;
    size_t k = (sheet->length - SHEET_HEADER) / 2;
    sheet->bytes[2] = (uint8_t)(k >> 8);
    sheet->bytes[3] = (uint8_t)k;
}

/* The number in the two bytes from there on. */
static inline unsigned sheet_u16(const uint8_t *bytes)
{
    return (unsigned)bytes[0] << 8 | bytes[1];
}

/* The verdict on a sheet: 0 for an order, or the number of a pattern. */
static inline unsigned sheet_verdict(const uint8_t *sheet)
{
    return sheet[1];
}

/* How many operations a sheet lists. */
static inline unsigned sheet_k(const uint8_t *sheet)
{
    return sheet_u16(sheet + 2);
}

/* The sheet of the operations 0 to k - 1 in the order of their calls. */
static inline void sheet_call_order(struct sheet *sheet, unsigned k)
{
    sheet_begin(sheet);
    for (unsigned i = 0; i < k; i++)
        sheet_list(sheet, i);
}

#endif /* SHEETS_H */
