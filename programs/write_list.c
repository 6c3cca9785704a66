/* write_list: reads a write list from standard input, as lines of lower-case hexadecimal, and prints its encoding, or `refused N at P`. The
 * exit status is 0 for an encoding, 1 for a refusal, and 2 where the input cannot be read or the answer cannot be written, which is said on
 * standard error.
 *
 * All of that is the proved crate `program`: Rattle's `main` has no exit status, so this hands its answer on. tests/program builds and runs it. */
#include <stdint.h>

uint32_t ajuqvane_write_list(void);

int main(void)
{
    return (int)ajuqvane_write_list();
}
