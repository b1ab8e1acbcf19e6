// walk_certificate.c: the way through a certificate table (GD/J 086-2018, table 6).
// SPDX-License-Identifier: MIT
#include "steps.h"

static bool authorization(struct walk *w, uint64_t i, uint64_t count) {
    nw_part part = nw_certificate_authorization(BODY(w), i);
    enter(w, (struct group){.name = "CertAuth", .label = "authorization list", .number = i, .count = count, .row = true});
    return leave(w, step_length(w, "CertAuth_length", 16, part) && step_opaque(w, "CertAuth_data", "", part));
}

static bool certificate(struct walk *w, uint64_t i, uint64_t count) {
    nw_part part = nw_certificate_certificate(BODY(w), i);
    enter(w, (struct group){.name = "cert", .label = "certificate", .number = i, .count = count, .row = true});
    return leave(w, step_length(w, "cert_length", 8, part) && step_opaque(w, "cert_data", "", part));
}

bool walk_certificate(struct walk *w) {
    nw_answer lists = nw_certificate_authorization_count(BODY(w));
    bool on = step_count(w, "CertAuth_number", "authorization lists", lists);
    for (uint64_t i = 0; on && i < nw_value(lists); i++) on = authorization(w, i, nw_value(lists));
    if (!on) return false;
    nw_answer count = nw_certificate_certificate_count(BODY(w));
    on = step_count(w, "cert_number", "certificates", count);
    for (uint64_t i = 0; on && i < nw_value(count); i++) on = certificate(w, i, nw_value(count));
    return on && step_signature(w, nw_certificate_signature(BODY(w)));
}
