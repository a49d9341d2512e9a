/* The exported entries of the static library libsheet.a, which `tools/static-libraries sheet` makes. */
#ifndef AXIS_H
#define AXIS_H

#include <stddef.h>
#include <stdint.h>

/* The least length of output of axis_sheet, and the length of the longest sheet that is accepted, and so of the longest that axis_write writes. */
#define AXIS_OUTPUT_LENGTH 35500
#define AXIS_SHEET_LENGTH 4708

/* The codes of tasks. The index of a task names an exponent for AXIS_POWM, a direction for the four derivatives, and is 0 otherwise. */
enum axis_code {
    AXIS_EXPM = 0,
    AXIS_LOGM = 1,
    AXIS_SQRTM = 2,
    AXIS_POWM = 3,
    AXIS_COSM = 4,
    AXIS_SINM = 5,
    AXIS_FRECHET_EXPM = 6,
    AXIS_FRECHET_LOGM = 7,
    AXIS_FRECHET_SQRTM = 8,
    AXIS_COND_EXPM = 9,
    AXIS_FRECHET_SQRTM_SYLVESTER = 10
};

#ifdef __cplusplus
extern "C" {
#endif

/*
 * Runs a sheet and writes one line for each task, as documents 01 and 02 say; a sheet that is refused gives one line. Reports the bytes written. Later
 * bytes of the output stay as they are, and no zero byte is added.
 *
 * Where output_length is below AXIS_OUTPUT_LENGTH, 0 is reported, nothing is read and nothing is written; otherwise at least one line is written.
 *
 * sheet points to sheet_length bytes and output to output_length bytes. Neither is null, also where its length is 0, and the two do not overlap. Nothing is
 * kept after the call.
 */
size_t axis_sheet(const uint8_t *sheet, size_t sheet_length, uint8_t *output, size_t output_length);

/*
 * Writes a sheet to output and reports its length, which is at least 14. Later bytes of the output stay as they are. What is written is read by axis_sheet as
 * the same sections; the sections of a sheet that axis_sheet accepts are written as the same bytes.
 *
 * order is that of the matrices; directions, exponents and tasks say how many there are. A number is the 64 bits of a double, and is written as it is, a NaN
 * too. matrix has order x order numbers, row by row; direction has those of one direction after the other; exponent has one number each; task has the code of
 * the first task, its index, the code of the second, and so on.
 *
 * Where the sheet is refused, 0 is reported and no byte of the output is written. why is written in either case: 0, 0, 0 where the sheet is written, or the
 * number of the refusal and its two details:
 *
 *   16, position, 0      The order is not 1 to 8, directions or exponents are not 0 to 8, tasks not 1 to 16, a code is none or an index names nothing. The
 *                        position is the one that the byte would have had on the sheet; the leftmost is named. Codes and indices are asked as far as both
 *                        tasks and task_length reach.
 *   5, found, wanted     A length is wrong: that of matrix, direction, exponent or task is another, or output is too short, asked in this order and after all
 *                        of 16. AXIS_SHEET_LENGTH bytes of output are enough for every sheet.
 *
 * Each pointer points to as many numbers or bytes as the length after it says, why to three numbers. None is null, also where its length is 0, those to
 * uint64_t are aligned for it, and output and why overlap nothing. Nothing is kept after the call.
 */
size_t axis_write(size_t order, const uint64_t *matrix, size_t matrix_length,
                  size_t directions, const uint64_t *direction, size_t direction_length,
                  size_t exponents, const uint64_t *exponent, size_t exponent_length,
                  size_t tasks, const uint8_t *task, size_t task_length,
                  uint8_t *output, size_t output_length, uint64_t why[3]);

#ifdef __cplusplus
}
#endif

#endif
