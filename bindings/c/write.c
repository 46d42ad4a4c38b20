/* Writes a small brush and reads it back: prints its colour numbers, and a dot where no pixel shows. */

#include <stdio.h>

#include "florinhado.h"

int main(void)
{
    static const uint8_t palette[] = {0, 0, 0, 255, 0, 0, 0, 255, 0, 0, 0, 255};
    static const uint8_t frame[] = {0, 1, 2, 3, 3, 2, 1, 0};
    static const uint8_t shape[] = {0, 1, 1, 0, 1, 1, 1, 1};
    uint8_t file[100], colours[sizeof frame], shown[sizeof shape];
    size_t length, place, leftover, n;
    size_t answer = ilbm_write(4, 2, 0, 0, 2, 1, 1, 0, 1, 1, 4, 2, palette, sizeof palette,
                               frame, sizeof frame, shape, sizeof shape, file, sizeof file, &length);

    if (answer == 0)
        answer = ilbm_shape_frame(file, length, 0, colours, sizeof colours, shown, sizeof shown,
                                  &place, &leftover);
    if (answer != 0) {
        printf("refusal %zu, %s\n", answer, florinhado_meaning(answer));
        return 1;
    }
    for (n = 0; n < sizeof colours; n++)
        printf("%c%c", shown[n] ? '0' + colours[n] : '.', n % 4 == 3 ? '\n' : ' ');
    return 0;
}
