/* libFuzzer's entry: the one of the two that ENTRY names. */
#include <stddef.h>
#include <stdint.h>

int ENTRY(const uint8_t *data, size_t size);
int LLVMFuzzerTestOneInput(const uint8_t *data, size_t size);

int LLVMFuzzerTestOneInput(const uint8_t *data, size_t size)
{
    return ENTRY(data, size);
}
