/* replay FILE..: runs each file through LLVMFuzzerTestOneInput, as libFuzzer would, and prints its name before it does. */
#include <stdint.h>
#include <stdio.h>
#include <stdlib.h>

int LLVMFuzzerTestOneInput(const uint8_t *data, size_t size);

int main(int argc, char **argv)
{
    static uint8_t data[1 << 17];
    for (int i = 1; i < argc; i++) {
        puts(argv[i]);
        fflush(stdout);
        FILE *file = fopen(argv[i], "rb");
        if (file == NULL) {
            perror(argv[i]);
            return EXIT_FAILURE;
        }
        const size_t size = fread(data, 1, sizeof data, file);
        const int whole = feof(file);
        fclose(file);
        if (!whole) {
            fprintf(stderr, "%s: cannot be read as a whole\n", argv[i]);
            return EXIT_FAILURE;
        }
        LLVMFuzzerTestOneInput(data, size);
    }
    return EXIT_SUCCESS;
}
