#include <stdio.h>
#include <string.h>
#include "hermitian.h"

int main(void)
{
    uint8_t sent[8 * 39], frame[HERMITIAN_SUPERFRAME_BYTES], messages[8 * 39], status;
    for (int i = 0; i < 8 * 39; i++)
        sent[i] = i % 16;
    hermitian_build_superframe(39, sent, sizeof sent, frame, sizeof frame);
    for (int s = 100; s < 148; s++)
        frame[4 + s] ^= 5;                                       /* 48 symbols in a row are received wrong */
    uint8_t refusal = hermitian_take_superframe_apart(frame, sizeof frame, messages, sizeof messages, &status);
    printf("refusal %d, status %d, messages %s\n", refusal, status, memcmp(messages, sent, sizeof sent) ? "changed" : "as sent");
    frame[4 + 148] ^= 5;                                         /* and one more, the seventh of word 4 */
    refusal = hermitian_take_superframe_apart(frame, sizeof frame, messages, sizeof messages, &status);
    printf("refusal %d, status %d\n", refusal, status);
}
