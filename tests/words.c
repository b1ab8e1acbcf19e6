// words: the header's digits to and from text, and its names of classes, levels and character sets, as made by hand.
// SPDX-License-Identifier: MIT
#include <stdio.h>
#include <string.h>

#include "neapwillow.h"

static int failures;

static void expect(int holds, const char *what) {
    if (!holds) {
        printf("not so: %s\n", what);
        failures++;
    }
}

// The identifier and a resource of examples/drill.txt, their digits put into bytes by hand: four one bits, then four bits each.
static const char identifier[] = "36543200000000303010103202411030001", resource[] = "36543200000000303010103";
static const uint8_t identifier_bytes[18] = {0xF3, 0x65, 0x43, 0x20, 0x00, 0x00, 0x00, 0x03, 0x03,
                                             0x01, 0x01, 0x03, 0x20, 0x24, 0x11, 0x03, 0x00, 0x01};
static const uint8_t resource_bytes[12] = {0xF3, 0x65, 0x43, 0x20, 0x00, 0x00, 0x00, 0x03, 0x03, 0x01, 0x01, 0x03};
static const char every_digit[] = "01234567890123456789012";
static const uint8_t every_digit_bytes[12] = {0xF0, 0x12, 0x34, 0x56, 0x78, 0x90, 0x12, 0x34, 0x56, 0x78, 0x90, 0x12};

static void to_text_and_back(void) {
    char text[36], small[24];
    uint8_t bytes[18];
    expect(strcmp(nw_identifier_text(identifier_bytes, text), identifier) == 0, "an identifier's text");
    expect(strcmp(nw_resource_text(resource_bytes, small), resource) == 0, "a resource's text");
    expect(strcmp(nw_resource_text(every_digit_bytes, small), every_digit) == 0, "the text of every digit");
    expect(nw_identifier_bytes(identifier, bytes) == 1 && memcmp(bytes, identifier_bytes, 18) == 0, "an identifier's bytes");
    expect(nw_resource_bytes(resource, bytes) == 1 && memcmp(bytes, resource_bytes, 12) == 0, "a resource's bytes");
    expect(nw_resource_bytes(every_digit, bytes) == 1 && memcmp(bytes, every_digit_bytes, 12) == 0, "the bytes of every digit");
}

// Reserved bits do not stand in the text, and a digit above 9 is no digit.
static void odd_bytes(void) {
    char text[24];
    uint8_t bytes[12];
    memcpy(bytes, resource_bytes, 12);
    bytes[0] = 0x03;
    expect(strcmp(nw_resource_text(bytes, text), resource) == 0, "reserved bits of 0 change nothing");
    bytes[0] = 0xFA;
    bytes[11] = 0xF9;
    expect(strcmp(nw_resource_text(bytes, text), "?65432000000003030101?9") == 0, "digits above 9 are shown as ?");
}

static void refused(const char *text) {
    uint8_t bytes[18], before[18];
    memset(bytes, 0x5A, sizeof bytes);
    memcpy(before, bytes, sizeof before);
    expect(nw_identifier_bytes(text, bytes) == 0 && nw_resource_bytes(text, bytes) == 0, text);
    expect(memcmp(bytes, before, sizeof bytes) == 0, "what is refused writes nothing");
}

// One digit too few or too many, other characters at each place, those beside the digits among them.
static void other_texts(void) {
    static const char *const texts[] = {"",
                                        "3",
                                        "3654320000000030301010",
                                        "365432000000003030101032",
                                        "3654320000000030301010320241103000",
                                        "365432000000003030101032024110300010",
                                        " 36543200000000303010103",
                                        "+6543200000000303010103"};
    static const char others[] = "/:aA -\n\x80";
    for (size_t i = 0; i < sizeof texts / sizeof texts[0]; i++) refused(texts[i]);
    for (size_t at = 0; at < 35; at++)
        for (const char *c = others; *c != '\0'; c++) {
            char text[36];
            memcpy(text, identifier, sizeof text);
            text[at] = *c;
            refused(text);
            text[23] = '\0';
            if (at < 23) refused(text);
        }
}

// GD/J 086-2018: 6.2, tables 2 and 3, whose words stand beside these; 6.3, table 5. What they reserve has no name.
static void names(void) {
    expect(strcmp(nw_class_text(1), "drill of the issuing system") == 0, "class 1, 发布系统演练");
    expect(strcmp(nw_class_text(2), "simulated drill") == 0, "class 2, 模拟演练");
    expect(strcmp(nw_class_text(3), "actual drill") == 0, "class 3, 实际演练");
    expect(strcmp(nw_class_text(4), "emergency broadcast") == 0, "class 4, 应急广播");
    expect(strcmp(nw_level_text(1), "very grave") == 0, "level 1, 特别重大");
    expect(strcmp(nw_level_text(2), "grave") == 0, "level 2, 重大");
    expect(strcmp(nw_level_text(3), "serious") == 0, "level 3, 较大");
    expect(strcmp(nw_level_text(4), "ordinary") == 0, "level 4, 一般");
    expect(strcmp(nw_character_set_text(0), "GB/T 2312-1980") == 0, "character set 0");
    expect(strcmp(nw_character_set_text(1), "GB/T 18030-2005") == 0, "character set 1");
    expect(strcmp(nw_character_set_text(2), "GB/T 13000-2010") == 0, "character set 2");
    expect(strcmp(nw_character_set_text(3), "GB/T 21669-2008") == 0, "character set 3");
    expect(strcmp(nw_character_set_text(4), "GB 16959-1997") == 0, "character set 4");
    static const uint64_t others[] = {0, 5, 15, 255, UINT64_C(1) << 32 | 1, UINT64_MAX};
    for (size_t i = 0; i < sizeof others / sizeof others[0]; i++) {
        expect(strcmp(nw_class_text(others[i]), "no such class") == 0, "another class");
        expect(strcmp(nw_level_text(others[i]), "no such level") == 0, "another level");
        expect(i == 0 || strcmp(nw_character_set_text(others[i]), "no such character set") == 0, "another character set");
    }
}

// The enumerators by the same tables.
static void numbers(void) {
    expect(NW_CLASS_SYSTEM_DRILL == 1 && NW_CLASS_SIMULATED_DRILL == 2 && NW_CLASS_ACTUAL_DRILL == 3 && NW_CLASS_EMERGENCY == 4,
           "the classes' numbers");
    expect(NW_LEVEL_VERY_GRAVE == 1 && NW_LEVEL_GRAVE == 2 && NW_LEVEL_SERIOUS == 3 && NW_LEVEL_ORDINARY == 4,
           "the levels' numbers");
    expect(NW_SET_GB_2312 == 0 && NW_SET_GB_18030 == 1 && NW_SET_GB_13000 == 2 && NW_SET_GB_21669 == 3 && NW_SET_GB_16959 == 4,
           "the character sets' numbers");
}

int main(void) {
    to_text_and_back();
    odd_bytes();
    other_texts();
    names();
    numbers();
    puts(failures ? "words: not as they should be" : "words: digits and names are as made by hand");
    return failures != 0;
}
