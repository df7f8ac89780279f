#include <stdio.h>
#include "hermitian.h"

int main(void)
{
    uint8_t message[39] = {0, 1}, word[64], table[2048] = {0}, answer[39], report[HERMITIAN_REPORT_BYTES];
    hermitian_encode(39, message, 39, word, 64, 0);              /* the function x: place p holds p/4 */
    word[7] ^= 5;                                                /* received wrong */
    for (int p = 0; p < 64; p++)
        for (int s = 0; s < 16; s++)
            table[32 * p + 2 * s + 1] = s == word[p] ? 0 : 40;   /* costs are two bytes, high first */
    uint8_t refusal = hermitian_decode_table(39, table, 2048, 0, answer, 39, report, sizeof report);
    printf("%s: symbol 1 is %d, total %lu, changed %d, mark %d\n", hermitian_refusal_text(refusal), answer[1],
           (unsigned long)hermitian_report_total(report), hermitian_report_changed(report), hermitian_report_mark(report));
    uint8_t doubtful[] = {7, 9}, capture[HERMITIAN_CAPTURE_BYTES(2)];   /* for the recorder */
    hermitian_make_capture(39, doubtful, 2, table, 2048, capture, sizeof capture);
    refusal = hermitian_decode_capture(capture, sizeof capture, answer, 39, report, sizeof report);
    printf("%s: %d of 4 test words are near\n", hermitian_refusal_text(refusal), hermitian_report_tests(report));
}
