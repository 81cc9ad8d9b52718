# The line of a file with its number, and a caret below the byte at the column. Tabs go to each eighth cell, characters
# take the cells that a terminal gives them, and of a long line the part around the place is shown.
# Variables: line, column, cells (the width of the terminal).

# The code of the character that begins at a byte, or -1 where the bytes spell none; its length goes to len.
function decoded(text, i, lead, code, n) {
    lead = ord[substr(text, i, 1)]
    len = 1
    if (lead < 128) return lead
    n = lead >= 240 && lead < 245 ? 4 : lead >= 224 ? 3 : lead >= 194 ? 2 : 0
    if (!n || lead >= 245) return -1
    code = lead % (n == 2 ? 32 : n == 3 ? 16 : 8)
    while (len < n) {
        lead = ord[substr(text, i + len, 1)]
        if (lead < 128 || lead >= 192) { len = 1; return -1 }
        code = code * 64 + lead % 64
        len++
    }
    return code
}
function cells_of(code) {
    if (code >= 768 && code < 880 || code >= 8203 && code < 8208 || code >= 8400 && code < 8448 || code >= 65024 && code < 65040) return 0
    if (code >= 4352 && code < 4448 || code >= 11904 && code < 42192 && code != 12351 || code >= 44032 && code < 55204) return 2
    if (code >= 63744 && code < 64256 || code >= 65072 && code < 65136 || code >= 65281 && code < 65377) return 2
    if (code >= 65504 && code < 65511 || code >= 127744 && code < 129792 || code >= 131072 && code < 262142) return 2
    return 1
}
function show(text, i, k, at, code, shown, room, from, out) {
    sub(/\r$/, "", text)
    if (column > 2000) {
        k = column - 1000
        while (ord[substr(text, k, 1)] >= 128 && ord[substr(text, k, 1)] < 192) k++
        text = substr(text, k)
        column -= k - 1
    }
    text = substr(text, 1, column + 1000)
    caret = -1
    for (i = 1; i <= length(text); i += len) {
        code = decoded(text, i)
        glyph[++shown] = code == 9 || code >= 32 && code != 127 && !(code >= 128 && code < 160) ? substr(text, i, len) : "?"
        width[shown] = code == 9 ? 8 - at % 8 : glyph[shown] == "?" ? 1 : cells_of(code)
        if (code == 9) glyph[shown] = sprintf("%" width[shown] "s", "")
        start[shown] = at
        if (column >= i && column < i + len) caret = at
        at += width[shown]
    }
    if (caret < 0) caret = at
    room = cells - length(line) - 6
    from = at <= room || caret < room - 10 ? 0 : caret - int(room / 2)
    for (k = 1; k <= shown; k++) if (start[k] >= from && start[k] + width[k] <= from + room) out = out glyph[k]
    printf "  %s | %s\n", line, out
    printf "  %" length(line) "s | %" (caret - from) "s^\n", "", ""
}
BEGIN { for (i = 1; i < 256; i++) ord[sprintf("%c", i)] = i }
NR == line { is_shown = 1; show($0); exit }
END { if (!is_shown) show("") }
