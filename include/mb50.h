/* The calls of libmb50.a: the MB5016 desk machine and the text of its instructions. docs/BOUNDARY.md describes them, with the refusals' numbers.
 *
 * state       32 words: 0-15 r0-r15 (13 ia, 14 f, 15 pc); 16-21 csr0-csr5; 22 clock; 23 RXD + 256*TXD; 24 R + 2*T + 4*halted; 25 next slot;
 *             26 records held; 27-29 not read, written as 0; 30 and 31 the first and the last protected address, given back as they came. A store by an
 *             instruction to a byte of RAM there is dropped; a first above the last means none. The starting state is all 0 but word 24, which is 2,
 *             and words 30 and 31: 1 and 0 where nothing is protected.
 * ram, n      n bytes of RAM, at most 65504
 * journal, m  m words: slots of 32 words, at most 1024 of them, or none
 * list, entries  so many breakpoints and watches, at most 64
 * line, today, last_good, setup  what a pen is given, which is only read
 * result      bits 0-15: the refusal's number, 0 if accepted; 16-31: the steps of a run; 32-55: bus bytes of a step or a run; 56-63: a run's cause,
 *             0 budget used up, 1 halted. On a refusal all else is 0, and state, RAM, journal and list stay as given.
 *
 * A caller owes: no pointer is null, also not that of no elements; each points to as many elements as the length after it says, and state to 32;
 * what is lent in one call does not overlap; words are aligned to 2 bytes; nobody else reads or writes what is lent until the call has returned.
 * Any values may stand there. Nothing is kept between calls. */
#ifndef MB50_H
#define MB50_H

#include <stddef.h>
#include <stdint.h>

#ifdef __cplusplus
extern "C" {
#endif

uint64_t mb50_step(uint16_t *state, uint8_t *ram, size_t n, uint16_t *journal, size_t m);
uint64_t mb50_tick(uint16_t *state, uint8_t *ram, size_t n, uint16_t *journal, size_t m);
uint64_t mb50_receive(uint16_t *state, uint8_t *ram, size_t n, uint16_t *journal, size_t m, uint8_t byte);
uint64_t mb50_sent(uint16_t *state, uint8_t *ram, size_t n, uint16_t *journal, size_t m);
uint64_t mb50_set_register(uint16_t *state, uint8_t *ram, size_t n, uint16_t *journal, size_t m, uint8_t number, uint16_t content);
uint64_t mb50_poke(uint16_t *state, uint8_t *ram, size_t n, uint16_t *journal, size_t m, uint16_t address, uint8_t byte);
uint64_t mb50_reset(uint16_t *state, uint8_t *ram, size_t n, uint16_t *journal, size_t m);
uint64_t mb50_run(uint16_t *state, uint8_t *ram, size_t n, uint16_t *journal, size_t m, uint16_t budget);
uint64_t mb50_step_back(uint16_t *state, uint8_t *ram, size_t n, uint16_t *journal, size_t m);

/* A breakpoint (kind 1) or a watch (kind 2), and how often it stopped a run; the count stops at 65535. */
typedef struct { uint16_t address, kind, hits; } mb50_entry;

/* A run that stops also before a step with pc at a break's address, the first step excepted, and after a step that stored to a watch's; a dropped byte is not
 * stored. It counts the hits in the list. Bits 56-57 of the result are the cause: 0 budget used up, 1 halted, 2 watch, 3 break; bits 58-63 the place in the
 * list, from 0, of the first entry that stopped it, or 0. */
uint64_t mb50_run_watched(uint16_t *state, uint8_t *ram, size_t n, uint16_t *journal, size_t m, mb50_entry *list, size_t entries, uint16_t budget);

/* One pen of the overnight bench. line has the pen's number, 1 to 9 digits and nothing else. today and last_good are manifests in UTF-8: lines of a number, a
 * tab and a name. The name in the first line with the pen's number, of today's lines or else of the last good ones, is poked as ISO 8859-1 with a closing 0;
 * the given registers are set; a run follows that stops as at one break. setup has words: the name's address, the address to stop at, the budget, then each
 * given register's number and content; words that are not there are 0. Bits 16-31 of the result are r0, bits 32-55 the run's bus bytes, bits 56-57 its cause:
 * 0 budget used up, 1 halted, 3 stopped at the address. A refused pen changes nothing. */
uint64_t mb50_pen(uint16_t *state, uint8_t *ram, size_t n, uint16_t *journal, size_t m, const uint8_t *line, size_t digits, const uint8_t *today, size_t a,
                  const uint8_t *last_good, size_t b, const uint16_t *setup, size_t words);

/* Writes an instruction's text to out, which has n bytes; bits 16-31 of the result are the text's length. 16 bytes are enough for any. */
uint64_t mb50_list(uint16_t word, uint8_t *out, size_t n);

/* Reads the instruction in a line of n bytes; bits 16-31 of the result are the word. */
uint64_t mb50_assemble(const uint8_t *line, size_t n);

#ifdef __cplusplus
}
#endif

#endif
