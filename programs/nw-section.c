// nw-section: the section program as a command of its own.
// SPDX-License-Identifier: MIT
#include "section.h"
#include <locale.h>

int main(int words, char **word) {
    setlocale(LC_CTYPE, "");
    return section(&nw_dash_section, words - 1, word + 1);
}
