/* Functions of crashlog.h, written by hand in C and not proved: the limit that the library is measured against. */
#ifndef PLAIN_H
#define PLAIN_H

#include "crashlog.h"

uint32_t plain_list(const uint8_t *region, uint64_t region_len, const uint32_t *rules, uint64_t rules_len, uint64_t limit,
                    uint32_t *spans, uint64_t spans_len, crashlog_listing *told);

uint32_t plain_list_cper(const uint8_t *cper, uint64_t cper_len, const uint8_t *record_id, const uint32_t *rules,
                         uint64_t rules_len, uint64_t limit, uint32_t *spans, uint64_t spans_len, crashlog_listing *told);

uint32_t plain_receiver_start(crashlog_receiver *receiver, const uint32_t *rules, uint64_t rules_len);

uint32_t plain_receiver_feed(crashlog_receiver *receiver, const uint8_t *piece, uint64_t piece_len,
                             uint32_t *spans, uint64_t spans_len, uint64_t *rows);

uint32_t plain_receiver_finish(crashlog_receiver *receiver, uint32_t *spans, uint64_t spans_len, crashlog_listing *told);

uint32_t plain_decode(const uint8_t *bytes, uint64_t bytes_len, const uint32_t *rules, uint64_t rules_len,
                      crashlog_header *header, crashlog_judged *told);

uint32_t plain_encode(const crashlog_header *header, const uint32_t *rules, uint64_t rules_len,
                      uint8_t *out, uint64_t out_len, uint64_t *length);

uint32_t plain_normalise(const uint8_t *cper, uint64_t cper_len, uint8_t *out, uint64_t out_len, uint64_t *length);

#endif
