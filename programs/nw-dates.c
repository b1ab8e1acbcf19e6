// nw-dates: the date program as a command of its own.
// SPDX-License-Identifier: MIT
#include "dates.h"
#include <locale.h>

int main(int words, char **word) {
    setlocale(LC_CTYPE, "");
    return dates(&nw_dash_dates, words - 1, word + 1);
}
