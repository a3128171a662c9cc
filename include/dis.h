/* Dis modules for C and for languages that call C: load, write and walk. Link with libabi.a (x86-64, System V):
 * what `rt lib --cpu x86-64` writes of crate abi_c, as examples/c/run.sh shows.
 *
 * A slice is a pointer and then how many elements it points to. There may be none; the pointer is not null even then. A
 * slice that is written overlaps no other. Nothing else is asked: any bytes and any numbers may be handed in, and no
 * function reads or writes outside its slices, allocates memory or keeps a pointer.
 *
 * Three slices hold numbers at their front; what stands past those is neither read nor written.
 *
 * module, 16: magic, signature start, signature length, flags, stack extent, code size, data size, type size, export
 *     size, entry pc, entry type, name start, name length, data items, import modules, handlers.
 * state, 3: 0 0 0 idle. 1 pc frame: at a pc; the frame is -1 none, -2 the default, else a type's number.
 *     2 reason 0: stopped; 1 no entry, 2 no code, 3 end of code, 4 uncaught, 5 no catch-all. 3 0 0 broken.
 *     Handed in, any other code or reason is taken as broken, and numbers that a state has no use for are not looked at.
 *     Handed back, it is one of these exactly.
 * answer, 4: 0 and three numbers that each function tells. Or, refused: number, section, place and detail
 *     (docs/REFUSALS.md); every other slice is then as it was lent.
 *
 * Each function returns 0; or -1 exactly when module, state or answer has fewer numbers than that, and then it has written
 * nothing at all.
 */
#ifndef DIS_H
#define DIS_H

#include <stddef.h>
#include <stdint.h>

#ifdef __cplusplus
extern "C" {
#endif

/* Loads a file: fills module, and words from the front with the module's tables. answer: 0, bytes used, words needed, 0.
 * With too few words the refusal is number 20 and its detail is how many are needed. */
int32_t dis_load(const uint8_t *file, size_t file_len,
                 int32_t *words, size_t words_len,
                 int32_t *module, size_t module_len,
                 int64_t *answer, size_t answer_len);

/* Writes a module as a file, from the front of out. module, file and words are as dis_load left them, or any others: tables
 * that are not well-formed are refused. answer: 0, bytes written, 0, 0. With too short an out the refusal is number 24 and
 * its detail is how many bytes are needed. */
int32_t dis_write(const int32_t *module, size_t module_len,
                  const uint8_t *file, size_t file_len,
                  const int32_t *words, size_t words_len,
                  uint8_t *out, size_t out_len,
                  int64_t *answer, size_t answer_len);

/* The walk. Each event replaces the state. answer: 0, 0, 0, 0. */

/* Goes to the module's entry, from any state. */
int32_t dis_entry(const int32_t *module, size_t module_len,
                  const uint8_t *file, size_t file_len,
                  const int32_t *words, size_t words_len,
                  int32_t *state, size_t state_len,
                  int64_t *answer, size_t answer_len);

/* Goes to export number k, counted from 0, from any state. Where there is none the refusal is number 25. */
int32_t dis_export(const int32_t *module, size_t module_len,
                   const uint8_t *file, size_t file_len,
                   const int32_t *words, size_t words_len,
                   uint32_t k,
                   int32_t *state, size_t state_len,
                   int64_t *answer, size_t answer_len);

/* Goes on to the next instruction, where the state is at a pc; any other state stays. */
int32_t dis_next(const int32_t *module, size_t module_len,
                 const uint8_t *file, size_t file_len,
                 const int32_t *words, size_t words_len,
                 int32_t *state, size_t state_len,
                 int64_t *answer, size_t answer_len);

/* Raises a name, where the state is at a pc, and goes to the case that takes it; any other state stays. */
int32_t dis_raise(const int32_t *module, size_t module_len,
                  const uint8_t *file, size_t file_len,
                  const int32_t *words, size_t words_len,
                  const uint8_t *name, size_t name_len,
                  int32_t *state, size_t state_len,
                  int64_t *answer, size_t answer_len);

#ifdef __cplusplus
}
#endif
#endif
