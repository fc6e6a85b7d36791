/* The files of the differential tests on standard input, each after its length in four bytes, the low one
 * first, through fuzz/fuzz.c: the library against the reference, built with sanitizers. */
#include <stdint.h>
#include <stdio.h>

int LLVMFuzzerTestOneInput(const uint8_t *data, size_t size);

int main(void)
{
    static uint8_t head[4], file[1 << 18];
    unsigned long passed = 0, longer = 0;
    while (fread(head, 1, sizeof head, stdin) == sizeof head) {
        size_t length = head[0] | (size_t)head[1] << 8 | (size_t)head[2] << 16 | (size_t)head[3] << 24;
        if (length > sizeof file || fread(file, 1, length, stdin) != length) {
            printf("FAILED: file %lu of %zu bytes\n%lu passed, 1 failed\n", passed + longer, length, passed);
            return 1;
        }
        if (LLVMFuzzerTestOneInput(file, length) == 0)
            passed++;
        else
            longer++;
    }
    printf("%lu files that are longer than the memory lent were left out\n", longer);
    printf("%lu passed, %d failed\n", passed, longer > 100);
    return passed == 0 || longer > 100;
}
