// The certificate table's target.
// SPDX-License-Identifier: MIT
#include "table.h"

static void make(struct input *in, nw_form *f) {
    for (int lists = 0; lists < 2; lists++)
        for (size_t count = put_count(in, f, 4); count > 0; count--) put_some(in, f);
    put_some(in, f);
}

static void ask(struct input *in, const uint8_t *body, size_t n, bool accepted) {
    nw_answer lists = nw_certificate_authorization_count(body, n), certificates = nw_certificate_certificate_count(body, n);
    hold_number(lists, 255);
    hold_number(certificates, 255);
    for (uint64_t i = 0; taken(lists) && i < nw_value(lists); i++) hold_part(nw_certificate_authorization(body, n, i), n);
    for (uint64_t i = 0; taken(certificates) && i < nw_value(certificates); i++) hold_part(nw_certificate_certificate(body, n, i), n);
    hold_part(nw_certificate_authorization(body, n, take(in, 8)), n);
    hold_part(nw_certificate_certificate(body, n, take(in, 8)), n);
    nw_part signature = nw_certificate_signature(body, n);
    hold_part(signature, n);
    if (!accepted) return;
    must(taken(lists) && taken(certificates) && taken(signature));
    must(nw_part_start(signature) + nw_part_length(signature) == n);
    must(refused(nw_certificate_authorization(body, n, nw_value(lists)), NW_OUTSIDE_SET));
    must(refused(nw_certificate_certificate(body, n, nw_value(certificates)), NW_OUTSIDE_SET));
}

static size_t enough(size_t n) { return NW_CERTIFICATE_ENTRIES(n); }

static const struct table certificate = {
    NW_CERTIFICATE, nw_certificate_read, nw_certificate_lay, nw_certificate_measure, nw_certificate_write, enough, make, ask,
};

int LLVMFuzzerTestOneInput(const uint8_t *data, size_t size) {
    try_table(&certificate, (struct input){data, size});
    return 0;
}
