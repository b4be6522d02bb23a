/* Faults under the exported functions, to see that the checks at the boundary notice each: FAULT in the environment has the number
 * of one, or 0. Linked with libraries in which the functions below are called real_ (scripts/boundary). */
#include "../../../include/da728x.h"
#include <stdlib.h>
#include <string.h>

#define REAL(name) extern __typeof__(name) real_##name
REAL(da728x_register_addresses);
REAL(da728x_read_counts);
REAL(da728x_frame);
REAL(da728x_answers);
REAL(da728x_assemble_strict);
REAL(da728x_assemble);
REAL(da728x_read_lists);
REAL(da728x_page);
REAL(da728x_merge);
REAL(da728x_enable);
REAL(da728x_configure);
REAL(da728x_upload_waveform_memory);
REAL(da728x_play_sequence);
REAL(da728x_pending);
REAL(da728x_answer);
REAL(da728x_result);

static volatile unsigned seen;

static int fault(int number)
{
    static int chosen = -1;
    if (chosen < 0) {
        const char *word = getenv("FAULT");
        chosen = word ? atoi(word) : 0;
    }
    return chosen == number;
}

/* 1: a byte is written behind the slice. 2: it is, and is what was there. */
size_t da728x_register_addresses(uint8_t *out, size_t out_len)
{
    volatile uint8_t *behind = out + out_len;
    size_t told = real_da728x_register_addresses(out, out_len);
    if (fault(1) && out_len > 0) *behind = 1;
    if (fault(2) && out_len > 0) *behind = *behind;
    return told;
}

/* 3: a byte is read behind the slice. 4: one is read before it. */
uint32_t da728x_read_counts(const uint8_t *image, size_t image_len)
{
    if (fault(3) && image_len > 0) seen += *(volatile const uint8_t *)(image + image_len);
    if (fault(4) && image_len > 0) seen += *(volatile const uint8_t *)(image - 1);
    return real_da728x_read_counts(image, image_len);
}

/* 5: all of out is written. */
uint32_t da728x_frame(const uint8_t *calls, size_t calls_len, uint8_t *out, size_t out_len)
{
    uint32_t told = real_da728x_frame(calls, calls_len, out, out_len);
    for (size_t i = told; fault(5) && told < 65536 && i < out_len; i++) out[i] = 0;
    return told;
}

/* 6: a shorter last record has no answer. 8: a builder call answers a number that is not listed. */
size_t da728x_answers(const uint8_t *calls, size_t calls_len, uint8_t *answers, size_t answers_len)
{
    size_t last = calls_len / 4, cut = calls_len % 4 && last < answers_len;
    uint8_t before = cut ? answers[last] : 0;
    size_t told = real_da728x_answers(calls, calls_len, answers, answers_len);
    if (fault(6) && cut) answers[last] = before;
    if (fault(8) && calls_len > 100 && answers_len > 20) answers[20] = 11;
    return told;
}

/* 7: a refused image is cleared. */
uint8_t da728x_assemble(const uint8_t *calls, size_t calls_len, uint8_t *image, size_t image_len)
{
    uint8_t told = real_da728x_assemble(calls, calls_len, image, image_len);
    if (fault(7) && told && image_len > 0) image[0] = 0;
    return told;
}

/* 17: a refused call's place counts from 0. 18: an image is written although a call is refused. */
uint32_t da728x_assemble_strict(const uint8_t *calls, size_t calls_len, uint8_t *image, size_t image_len)
{
    uint32_t told = real_da728x_assemble_strict(calls, calls_len, image, image_len);
    if (fault(18) && told) da728x_assemble(calls, calls_len, image, image_len);
    return fault(17) && told >= 256 ? told - 256 : told;
}

/* 19: the ends of snippets that are not there are written. 20: the lists of no image are cleared. */
uint32_t da728x_read_lists(const uint8_t *image, size_t image_len, uint8_t *lists, size_t lists_len)
{
    uint32_t told = real_da728x_read_lists(image, image_len, lists, lists_len);
    if (fault(19) && told < 15 * 256 && lists_len > 110) lists[110] = lists[96];
    if (fault(20) && told >= 65536 && lists_len > 0) lists[0] = 0;
    return told;
}

/* 27: a terminator is written behind the page. 28: as much of a page is written as has room. 29: a buffer without room for a line is
 * told before bytes that are no image. */
uint32_t da728x_page(const uint8_t *image, size_t image_len, uint8_t *out, size_t out_len)
{
    uint8_t whole[DA728X_PAGE];
    uint32_t told = real_da728x_page(image, image_len, out, out_len);
    if (fault(27) && told < out_len) out[told] = 0;
    if (fault(28) && told == 65536 * 24 && out_len > 0) {
        real_da728x_page(image, image_len, whole, sizeof whole);
        memcpy(out, whole, out_len);
    }
    return fault(29) && told == 65536 * 18 && out_len < 37 ? 65536 * 24 : told;
}

/* 30: as much of a merged image is written as has room. 31: a buffer that is too short is told before what the images are refused for. */
uint8_t da728x_merge(const uint8_t *first, size_t first_len, const uint8_t *second, size_t second_len,
                     uint8_t *image, size_t image_len)
{
    uint8_t whole[DA728X_IMAGE];
    uint8_t told = real_da728x_merge(first, first_len, second, second_len, image, image_len);
    if (fault(30) && told == 24 && image_len > 0) {
        real_da728x_merge(first, first_len, second, second_len, whole, sizeof whole);
        memcpy(image, whole, image_len);
    }
    return fault(31) && told && image_len < DA728X_IMAGE ? 24 : told;
}

/* 9: the record, which is const, is changed. */
uint8_t da728x_enable(const uint8_t *record, size_t record_len, uint8_t *session, size_t session_len)
{
    if (fault(9) && record_len > 0) ((uint8_t *)record)[record_len - 1] ^= 1;
    return real_da728x_enable(record, record_len, session, session_len);
}

/* 10: a refusal is told that is not listed. */
uint8_t da728x_configure(const uint8_t *record, size_t record_len, const uint8_t *settings,
                         size_t settings_len, uint8_t *session, size_t session_len)
{
    uint8_t told = real_da728x_configure(record, record_len, settings, settings_len, session, session_len);
    return fault(10) && told == 13 ? 15 : told;
}

/* Where a record has its count of sequences. */
#define COUNT 37

/* 11: a refused start ends the session that was there. 24: the start of an upload leaves the count. */
uint8_t da728x_upload_waveform_memory(uint8_t *record, size_t record_len, const uint8_t *image,
                                      size_t image_len, uint8_t lock_after, uint8_t *session,
                                      size_t session_len)
{
    uint8_t count = record_len > COUNT ? record[COUNT] : 0;
    if (fault(11) && image_len > 100 && session_len > 2) session[2] = 255;
    uint8_t told = real_da728x_upload_waveform_memory(record, record_len, image, image_len, lock_after,
                                                      session, session_len);
    if (fault(24) && record_len > COUNT) record[COUNT] = count;
    return told;
}

/* 25: the number of a sequence may be the count. */
uint8_t da728x_play_sequence(const uint8_t *record, size_t record_len, uint8_t sequence_id,
                             uint8_t loops, uint8_t *session, size_t session_len)
{
    uint8_t told = real_da728x_play_sequence(record, record_len, sequence_id, loops, session, session_len);
    return fault(25) && told == 28 && record_len > COUNT && sequence_id == record[COUNT] ? 0 : told;
}

/* 12: an exchange is pending after the end. */
uint32_t da728x_pending(const uint8_t *session, size_t session_len, uint8_t *bytes, size_t bytes_len)
{
    uint32_t told = real_da728x_pending(session, session_len, bytes, bytes_len);
    return fault(12) && !told && session_len == DA728X_SESSION ? 1 : told;
}

/* Where a session has the record that it is for. */
#define OF_SESSION 117

/* 13: a byte that is refused is stored. 14: a count of exchanges that is too high. 15: settings are stored before the last
 * exchange. 21: an ended session gives its record again. 22: settings are stored in another chip's record. 26: the count stays
 * where an upload fails. */
uint32_t da728x_answer(uint8_t *record, size_t record_len, uint8_t *session, size_t session_len, uint8_t kind,
                       uint8_t byte, uint8_t *buffer, size_t buffer_len)
{
    uint8_t count = record_len > COUNT ? record[COUNT] : 0;
    uint32_t told =
        real_da728x_answer(record, record_len, session, session_len, kind, byte, buffer, buffer_len);
    int of_configure = session_len == DA728X_SESSION && record_len == DA728X_RECORD && session[OF_SESSION + 2] == 2;
    int last = !(told & 255) && told >> 24;
    if (fault(13) && (told & 255) == 19 && buffer_len > 0) buffer[0] = byte;
    if (fault(15) && of_configure && !(told & 255) && !last) memcpy(record, session + OF_SESSION, DA728X_RECORD);
    if (fault(21) && of_configure && (told & 255) == 19 && told >> 24) memcpy(record, session + OF_SESSION, DA728X_RECORD);
    if (fault(22) && of_configure && last) memcpy(record + 2, session + OF_SESSION + 2, DA728X_RECORD - 2);
    if (fault(26) && (told & 255) == 17 && record_len > COUNT) record[COUNT] = count;
    return fault(14) && !(told & 255) ? told + 65536 : told;
}

/* 16: a byte decides that was never written. 23: a result that is not completed has no count. */
uint64_t da728x_result(const uint8_t *session, size_t session_len)
{
    volatile uint8_t never[64];
    uint64_t told = real_da728x_result(session, session_len);
    if (fault(16) && never[session_len % 64] == 7) seen++;
    return fault(23) && !(told >> 32) ? 0 : told;
}
