// peers: what else the library is held to: CRC_32 a byte at a time, copying and CRC_32 alone, and Debian's libdvbpsi and libavutil, where they are.
// SPDX-License-Identifier: MIT
#include <string.h>

#include "bench.h"
#include "plain_numbers.h"

uint64_t crc32_byte_table(const uint8_t *s, size_t n) { return plain_crc32_byte_table(s, n); }

// ---- the least that gathering full sections can do: CRC_32 over each, its payload copied into the store, and all payloads to the body

typedef uint32_t checksum(const uint8_t *s, size_t n);

static inline __attribute__((always_inline)) uint64_t copied(checksum *crc32, const uint8_t *s, size_t n) {
    size_t sections = n / NW_MOST_SECTION;
    for (; n > 0; s += NW_MOST_SECTION, n -= NW_MOST_SECTION) {
        if (crc32(s, NW_MOST_SECTION) != 0) return NW_CHECK_NOT_ZERO;
        memcpy(lent_store + (size_t)s[6] * NW_MOST_PAYLOAD, s + 8, NW_MOST_PAYLOAD);
    }
    memcpy(output, lent_store, sections * NW_MOST_PAYLOAD);
    return (uint64_t)sections * NW_MOST_PAYLOAD << 8;
}

uint64_t copied_library(const uint8_t *s, size_t n) { return copied(nw_crc32, s, n); }
uint64_t copied_plain(const uint8_t *s, size_t n) { return copied(plain_crc32, s, n); }

// ---- libdvbpsi

#ifdef WITH_DVBPSI
#include <stdbool.h>

#include <dvbpsi/dvbpsi.h>

#include <dvbpsi/psi.h>

// It writes the CRC_32 after the bytes too, where the input has room.
uint64_t crc32_dvbpsi(const uint8_t *s, size_t n) {
    uint8_t *begin = input + (s - input);
    dvbpsi_psi_section_t section = {.i_table_id = NW_INDEX, .b_syntax_indicator = true, .p_data = begin, .p_payload_end = begin + n};
    dvbpsi_CalculateCRC32(&section);
    return section.i_crc;
}

static size_t body_bytes;

// A good section goes into the decoder's list, as in libdvbpsi's own tables; when the list is whole, its payloads are the body.
static void take_section(dvbpsi_t *handle, dvbpsi_psi_section_t *section) {
    dvbpsi_decoder_t *decoder = handle->p_decoder;
    decoder->i_last_section_number = section->i_last_number;
    dvbpsi_decoder_psi_section_add(decoder, section);
    if (!dvbpsi_decoder_psi_sections_completed(decoder)) return;
    for (const dvbpsi_psi_section_t *s = decoder->p_sections; s; s = s->p_next) {
        size_t length = (size_t)(s->p_payload_end - s->p_payload_start);
        memcpy(output + body_bytes, s->p_payload_start, length);
        body_bytes += length;
    }
    dvbpsi_decoder_reset(decoder, true);
}

// A decoder of its own for each table, as the library has a state of its own.
uint64_t table_of_dvbpsi(const uint8_t *s, size_t n) {
    dvbpsi_t *handle = dvbpsi_new(NULL, DVBPSI_MSG_NONE);
    if (!handle || !(handle->p_decoder = dvbpsi_decoder_new(take_section, NW_MOST_SECTION, true, sizeof(dvbpsi_decoder_t)))) return 0;
    body_bytes = 0;
    for (size_t at = 0; at < n; at += NW_PACKET_BYTES) dvbpsi_packet_push(handle, input + (s - input) + at);
    dvbpsi_decoder_delete(handle->p_decoder);
    handle->p_decoder = NULL;
    dvbpsi_delete(handle);
    return body_bytes;
}
#endif

// ---- libavutil, ffmpeg's: its CRC has the register's bytes turned round

#ifdef WITH_AVUTIL
#include <libavutil/bswap.h>
#include <libavutil/crc.h>

uint64_t crc32_avutil(const uint8_t *s, size_t n) {
    return av_bswap32(av_crc(av_crc_get_table(AV_CRC_32_IEEE), UINT32_MAX, s, n));
}
#endif
