// The target of nw's whole way over a capture: tables whose bodies the input has, cut, repeated and damaged, bare or in packets, go to every
// command that reads one. Nothing in a capture steers the terminal or is taken for HTML, the ways of showing agree, and what a form has is the same.
// SPDX-License-Identifier: MIT
#include "nw.h"

// ---- a capture

enum { ROOM = 1 << 16, MOST_PIECES = 4 };

// A capture in the making, and the last body of an index table.
struct made {
    uint8_t s[ROOM], index[2048];
    size_t n, index_bytes;
    bool in_packets;
    unsigned packets;
};

static void put(struct made *m, const uint8_t *s, size_t n) {
    if (n > ROOM - m->n) n = ROOM - m->n;
    memcpy(m->s + m->n, s, n);
    m->n += n;
}

// A section that is good by itself, whatever its payload is.
static void put_section(struct made *m, unsigned kind, unsigned extension, unsigned flags, unsigned number, unsigned last, const uint8_t *payload, size_t n) {
    uint8_t s[NW_MOST_SECTION], packets[NW_MOST_PACKED];
    size_t length = n + 9;
    const uint8_t heading[] = {(uint8_t)kind, (uint8_t)(0xF0 | length >> 8), (uint8_t)length, (uint8_t)(extension >> 8), (uint8_t)extension,
                               (uint8_t)(0xC0 | flags), (uint8_t)number, (uint8_t)last};
    memcpy(s, heading, sizeof heading);
    memcpy(s + 8, payload, n);
    uint32_t check = nw_crc32(s, n + 8);
    for (size_t i = 0; i < 4; i++) s[n + 8 + i] = (uint8_t)(check >> (24 - 8 * i));
    must(taken(nw_section_read(s, n + 12)));
    nw_answer packed = nw_packet_pack(s, n + 12, m->packets % 16, packets, sizeof packets);
    if (!m->in_packets) put(m, s, n + 12);
    else put(m, packets, (size_t)nw_value(packed)), m->packets += (unsigned)(nw_value(packed) / NW_PACKET_BYTES);
}

// A table of a body, in some pieces; now and then one of them is missing, it is not current, or its extension is not the identifier's.
static void put_table(struct input *in, struct made *m, unsigned kind, const uint8_t *body, size_t n) {
    unsigned how = (unsigned)take(in, 1), version = (unsigned)take(in, 1), pieces = 1 + how % MOST_PIECES;
    unsigned extension = kind == NW_CONTENT && n >= 18 ? extension_of(body) : how >> 2 & 1;
    if (how >> 5 == 7) extension ^= 1;
    for (unsigned i = 0; i < pieces; i++) {
        size_t from = n * i / pieces, to = n * (i + 1) / pieces;
        if (how >> 5 == 6 && i == pieces - 1) break;
        put_section(m, kind, extension, (version % 32) << 1 | (version < 0xF0), i, pieces - 1, body + from, to - from);
    }
    if (kind != NW_INDEX || n > sizeof m->index) return;
    memcpy(m->index, body, n);
    m->index_bytes = n;
}

// A step of the making: a table of some bytes, the bytes as they are, or damage.
static void put_step(struct input *in, struct made *m) {
    unsigned what = (unsigned)take(in, 1) % 8;
    size_t n = (size_t)take(in, 2) % 2048;
    if (n > in->n) n = in->n;
    const uint8_t *body = in->s;
    if (what < 5) in->s += n, in->n -= n;
    if (what < 4) put_table(in, m, NW_CONFIGURATION + what, body, n);
    else if (what == 4) put(m, body, n);
    else if (what == 5 && m->n > 0) m->s[(n * 31 + take(in, 1)) % m->n] ^= (uint8_t)(1 << n % 8);
    else if (what == 6 && m->n > 0) m->n -= n % m->n;
    else put(m, m->s + m->n / 2, m->n - m->n / 2);
}

// ---- what is asked of the screen: the code and the start of the first message, or near them

static void ask(struct input *in, const struct made *m, char code[24], char at[24]) {
    uint8_t resource[NW_RESOURCE_BYTES] = {0xF0};
    uint64_t start = 0;
    if (m->index_bytes >= 52) {
        memcpy(resource, m->index + 40, sizeof resource);
        for (size_t i = 23; i < 28; i++) start = start << 8 | m->index[i];
    }
    nw_digits_text(resource, sizeof resource, code);
    for (size_t i = 0; i < 23; i++)
        if (code[i] > '9' || now_and_then(in, 200)) code[i] = '7';
    start += take(in, 1) % 4;
    if (!taken(nw_time_print_start(start, 0, (uint8_t *)at, 19))) strcpy(at, "03/11/2024 07:50:00");
    at[19] = '\0';
}

// ---- JSON

LOOKING

static void hold_json(const struct written *w) {
    char open[8];
    size_t depth = 0;
    bool quoted = false;
    for (size_t i = 0; i < w->n; i++) {
        char c = w->s[i];
        must(c == '\n' ? !quoted : c >= 0x20 && c < 0x7F);
        if (quoted && c == '\\') i++;
        else if (c == '"') quoted = !quoted;
        else if (!quoted && (c == '{' || c == '[')) must(depth < sizeof open), open[depth++] = c;
        else if (!quoted && (c == '}' || c == ']')) must(depth > 0 && open[--depth] == (c == '}' ? '{' : '['));
    }
    must(!quoted && depth == 0);
}

// ---- HTML

// The tags that a page has, and those of them that have no end.
static const char tags[] = "a blockquote body code dd dl dt figcaption figure footer h1 h2 h3 head header html li main nav ol p section small span strong "
                           "style svg table tbody td text th thead title tr ul line rect ";
static const char endless[] = "meta wbr ";

static bool is_among(const char *list, const char *s, size_t n) {
    for (size_t size; *list != '\0'; list += size + 1) {
        size = strcspn(list, " ");
        if (size == n && memcmp(list, s, n) == 0) return true;
    }
    return false;
}

static size_t letters(const char *s) { return strspn(s, "abcdefghijklmnopqrstuvwxyzABCDEFGHIJKLMNOPQRSTUVWXYZ0123456789-"); }

// An entity. Answers how many characters it takes.
static size_t hold_entity(const char *s) {
    size_t n = 1 + strcspn(s + 1, ";");
    must(is_among("amp lt gt quot times #x2713 #x2717 ", s + 1, n - 1));
    return n + 1;
}

// The attributes of a tag up to its end, each in quotes. Answers how many characters they take.
static size_t hold_attributes(const char *s) {
    const char *at = s;
    while (*at == ' ') {
        at += 1 + letters(at + 1);
        if (*at == ' ' || *at == '>' || *at == '/') continue;
        must(at[0] == '=' && at[1] == '"');
        for (at += 2; *at != '"'; at += *at == '&' ? hold_entity(at) : 1) must(*at != '<' && *at != '>' && *at != '\0');
        at++;
    }
    if (*at == '/') at++;
    must(*at == '>');
    return (size_t)(at - s) + 1;
}

// A tag, with its element put on a pile of those that are open or taken off it. Answers how many characters it takes.
static size_t hold_tag(const char *s, const char **open, size_t *depth) {
    bool ends = s[1] == '/';
    const char *name = s + 1 + ends;
    size_t n = letters(name), more;
    must(is_among(tags, name, n) || (!ends && is_among(endless, name, n)));
    if (ends) {
        must(name[n] == '>' && *depth > 0 && memcmp(open[--*depth], name, n) == 0 && letters(open[*depth]) == n);
        return 2 + n + 1;
    }
    more = hold_attributes(name + n);
    if (is_among(endless, name, n) || name[n + more - 2] == '/') return 1 + n + more;
    must(*depth < 32);
    open[(*depth)++] = name;
    return 1 + n + more + (is_among("style ", name, n) ? strcspn(name + n + more, "<") : 0);
}

// A page: every tag is one of the program's, in its place, and all else is text.
static void hold_page(struct written *w) {
    static const char begin[] = "<!DOCTYPE html>\n";
    const char *open[32];
    size_t depth = 0, at = sizeof begin - 1;
    hold_plain(w);
    keep(w, "", 1);
    must(memcmp(w->s, begin, at) == 0 && strlen(w->s) == w->n - 1);
    while (w->s[at] != '\0') {
        char c = w->s[at];
        must(c != '>');
        at += c == '<' ? hold_tag(w->s + at, open, &depth) : c == '&' ? hold_entity(w->s + at) : 1;
    }
    must(depth == 0);
}

LOOKED

// ---- the commands

static void try_forms(const char *name, const char *bits, const char *offset) {
    struct written out;
    int status = CALL(form, &out, "--auxiliary", bits, "--offset", offset, name);
    struct file printed = file_of(out.s, out.n);
    must(status <= 1);
    if (status == 0) must(STATUS(compare, "--auxiliary", bits, name, printed.name) == 0);
    if (out.n != 0) must(STATUS(make, "--auxiliary", bits, printed.name, "/dev/null") == 0);
    close(printed.at);
    free(out.s);
}

static void try_capture(const char *name, const char *other, const char *bits, const char *offset, const char *code, const char *at) {
    struct written json, page, said;
    int status = STATUS(show, "--auxiliary", bits, "--offset", offset, name);
    must(status <= 1 && STATUS(show, "--bytes", "--auxiliary", bits, name) == status);
    must(CALL(show, &json, "--json", "--auxiliary", bits, "--offset", offset, name) == status);
    hold_json(&json);
    must(call(show, &show_command, (const char *[]){"--html", "-", "--auxiliary", bits, "--offset", offset, name, NULL}, &page, &said) == status);
    must(said.n == 0);
    hold_page(&page);
    free(json.s);
    free(page.s);
    free(said.s);
    int shown = STATUS(screen, "--auxiliary", bits, "--code", code, "--at", at, name);
    must(shown != 2 && (shown == 1 || status == 0));
    must(STATUS(compare, "--auxiliary", bits, "--offset", offset, name, other) <= 1 && STATUS(salvage, name, "/dev/null") <= 1);
    try_forms(name, bits, offset);
}

int LLVMFuzzerTestOneInput(const uint8_t *data, size_t size) {
    static struct made m;
    char code[24], at[24];
    struct input in = {data, size};
    m.n = m.index_bytes = m.packets = 0;
    unsigned how = (unsigned)take(&in, 1);
    m.in_packets = how & 1;
    struct file other = {-1, "/dev/null"};
    while (in.n > 0 && m.n < ROOM) {
        put_step(&in, &m);
        if (other.at < 0) other = file_of(m.s, m.n);
    }
    ask(&in, &m, code, at);
    struct file capture = file_of(m.s, m.n);
    if (m.n == 0 || memchr(" \t\r\n#\xEFt", m.s[0], 7) == NULL) // which would be a form
        try_capture(capture.name, other.name, how & 2 ? "32" : "24", how & 4 ? "-05:30" : "480", code, at);
    close(capture.at);
    if (other.at >= 0) close(other.at);
    return 0;
}
