// topics.c: what `nw help` tells beside how the commands are used: each refusal, and what to look at; and what stands in a form.
// SPDX-License-Identifier: MIT
#include "topics.h"
#include <neapwillow.h>
#include <stdio.h>
#include <string.h>

// What to look at, by the refusal's number; NULL where its words are enough or nobody on the bench meets it.
static const char *const looks[] = {
    [NW_SECTION_TOO_SHORT] = "the capture ends or was cut here",
    [NW_OTHER_KIND] = "bytes of something else: other tables, packets, junk",
    [NW_FIXED_BIT_ZERO] = "damage in the heading, or a head end that sets the reserved bits to 0",
    [NW_SECTION_LENGTH_OUTSIDE] = "damage in the heading, or no section at all",
    [NW_OTHER_LENGTH] = "the capture ends in the section, or bytes of it were lost",
    [NW_NUMBER_ABOVE_LAST] = "a head end that counts its sections from 1",
    [NW_CHECK_NOT_ZERO] = "damage on the line; from every section of a head end, its CRC_32",
    [NW_NOT_CURRENT] = "a version announced before its time: wait for current_next_indicator 1",
    [NW_OTHER_HEADING] = "an older version that is still sent, or two head ends on one line",
    [NW_CONTRADICTION] = "a table changed without a new version_number",
    [NW_MISSING] = "damage or too short a capture: capture some seconds more",
    [NW_PAST_BODY] = "a length or a count that is too large, or bytes lost before the cutting",
    [NW_PAST_PART] = "a length that disagrees with what it counts",
    [NW_LEFT_OVER] = "signature_length, or a table that was filled up",
    [NW_RESERVED_BIT_ZERO] = "a head end that sets reserved bits to 0",
    [NW_DIGIT_ABOVE_NINE] = "binary where the standard has decimal digits, as in a time",
    [NW_OUTSIDE_SET] = "class, level 1 to 4, letters a to z, character set 0 to 4, volume to 100",
    [NW_IMPOSSIBLE_DAY] = "day and month in the wrong order, hour 24, a field of zeros",
    [NW_OTHER_CHECKSUM] = "the CRC-16 of EBM_id's 140 bits, without the four reserved ones",
    [NW_NOT_OF_THE_FORM] = "dd/mm/yyyy hh:mm:ss, day first, and nothing else in the line",
    [NW_NOT_A_PACKET] = "the capture ends or was cut here",
    [NW_NO_SYNC_BYTE] = "bytes lost or added between packets, or damage in the first byte of one",
    [NW_SCRAMBLED] = "a multiplexer that scrambles PID 0x0021, which has to be in the clear",
    [NW_PAST_PACKET] = "damage in a packet's header, or a multiplexer that points past the packet"};

enum { NUMBERS = 256, KNOWN = sizeof looks / sizeof *looks };

int tell_refusals(const struct command *c) {
    const char *none = nw_refusal_text(NUMBERS); // no refusal has this number
    puts("Refusals by their numbers: what each means, and what to look at.");
    for (unsigned number = 1; number < NUMBERS; number++) {
        const char *words = nw_refusal_text(number);
        if (strcmp(words, none) == 0) continue;
        printf("%3u  %s\n", number, words);
        if (number < KNOWN && looks[number] != NULL) printf("       %s\n", looks[number]);
    }
    return finish_output(c, TAKEN);
}

// A form, line by line: each word, in its order, and what stands after it.
static const char *const form_lines[] = {
    "A form is UTF-8 text. A line is a word, a space and a value; spaces at its",
    "ends don't matter, nor do empty lines and remarks, which begin with #. Lines",
    "stand in the order given here; those with * may be missing or stand more than",
    "once. All of it is one table after the other.",
    "",
    "table index",
    "  extension 0x0000      0 to 65535; numbers are decimal, or hexadecimal after 0x",
    "  version 5             0 to 31",
    "  message* DIGITS       its identifier, 35 digits; 0 to 255 messages",
    "    network 1           0 to 65535",
    "    start 03/11/2024 07:45:00 +08:00  local, day first, its offset from UTC",
    "    end 03/11/2024 08:15:00 +08:00    the same, or the word live",
    "    type 11A01          five ASCII characters",
    "    class 3             1 to 4",
    "    level 4             1 to 4",
    "    resource* DIGITS    23 digits; 0 to 255",
    "    channel*            one or none",
    "      network 10        0 to 65535; so are the next two",
    "      transport 20",
    "      program 30",
    "      pcr 0x1FFF        a PID, 0 to 0x1FFF",
    "      descriptor* 0x44  its tag, 0 to 255",
    "        data BYTES      up to 255",
    "      stream* 0x1B      its type, 0 to 255",
    "        pid 0x0101",
    "        descriptor* 0x0A",
    "          data BYTES",
    "  signature BYTES       up to 65535",
    "table content           its extension follows from the identifier",
    "  version 5",
    "  message DIGITS        the identifier of its message",
    "  language* eng         three letters a to z; 1 to 5 languages",
    "    set GB/T 2312       or GB/T 18030, GB/T 13000, GB/T 21669, GB 16959",
    "    text STRING         a line for each line of the text; up to 65535 bytes",
    "    agency STRING       up to 255 bytes",
    "    file* 9             its type, 0 to 255; up to two files",
    "      data BYTES",
    "  signature BYTES",
    "table certificate",
    "  extension 0x0000",
    "  version 5",
    "  authorization* BYTES  up to 65535; 0 to 255 lists",
    "  certificate* BYTES    up to 255; 0 to 255 certificates",
    "  signature BYTES",
    "table configuration",
    "  extension 0x0000",
    "  version 5             then 0 to 255 commands in any order, with their lines:",
    "  clock* 03/11/2024 07:45:09  day first; its six numbers are sent as they are",
    "  code* BYTES           a terminal's address, up to 255",
    "    resource DIGITS     23 digits",
    "  frequency* 355000     kHz, up to 32 bits; so are rate and period",
    "    rate 6875           kBd",
    "    mapping 3           0 to 5",
    "    terminal* DIGITS    23 digits; 0 to 255; last, as in the next four too",
    "  return* 3             the kind of address",
    "    address back.example.org:8080  1: 11 digits; 2: as 192.0.2.7:8080; 3: so",
    "  period* 86400         seconds",
    "  volume* 50            0 to 100",
    "  query*",
    "    parameter* 1        0 to 255; 0 to 255 parameters",
    "  command* 153          any other tag, 0 or 8 to 255",
    "    data BYTES          up to 65535",
    "  signature BYTES",
    "",
    "BYTES are hexadecimal digits, two for each byte, more of them in lines with the",
    "word hex after it; or the word none; or the word from and the name of a file",
    "whose bytes they are.",
    "STRING is text, \\xNN for a byte that can't be typed or seen, or is a space at an",
    "end, and \\\\ for a backslash. It is converted to the language's set where the C",
    "library can."};

int tell_form(const struct command *c, const struct command *form) {
    printf("usage: %s\n%s\n", form->usage, form->more);
    for (size_t i = 0; i < sizeof form_lines / sizeof *form_lines; i++) puts(form_lines[i]);
    return finish_output(c, TAKEN);
}
