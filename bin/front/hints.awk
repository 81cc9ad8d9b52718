# Hints below what `why` writes: a table by its first block's sentences and by the part under the carets. It is no claim of the program.
function hint(text) {
    if (!done++) print "  hint: " text
}

# What stands between the first two back quotes of the text.
function quoted(text, rest) {
    rest = substr(text, index(text, "`") + 1)
    return substr(rest, 1, index(rest, "`") - 1)
}

# The type at the end of a sentence that tells what something has.
function type_in(sentence) {
    sub(/.* has /, "", sentence)
    sub(/[.]$/, "", sentence)
    return sentence
}

{ sub(/^  /, "") }
NR == 1 { shown = $0; next }
NR == 2 && /^ *\^+$/ {
    start = index($0, "^")
    under = substr(shown, start, length($0) - start + 1)
    behind = substr(shown, length($0) + 1)
    next
}
/^  / { next }
/^The (operand|left operand|right operand|condition|index|command|value|body|argument|length) .* has / { part = $0; has = type_in($0) }
/^The argument `"[^"]"` has charseq[.]$/ { letter = quoted($0) }
/ can't be assigned to: / { assigned = quoted($0) }
/^It has to have / {
    wanted = $0
    sub(/^It has to have /, "", wanted)
    sub(/[.]$/, "", wanted)
    if (wanted ~ /^comm/ && has == "bool" && under ~ / = /) hint("`=` compares, `:=` assigns.")
    else if (wanted == "bool" && under ~ / == /) hint("`==` defines a field, `=` compares.")
    else if (part ~ /left operand of `-`/ && has ~ / -> / && behind ~ /^ - [0-9]/) {
        sub(/^ - /, "", behind)
        hint("`" under " -" behind "` takes " behind " from " under "; an argument below zero stands in parentheses: `" under " (-" behind ")`.")
    } else if (wanted !~ / or |, / && has ~ ("^[^&>]* -> " wanted "$")) hint("`" under "` takes one argument more.")
}
/ takes char: the argument has no char[.]$/ && letter != "" {
    letter = substr(letter, 2, length(letter) - 2)
    hint("\"" letter "\" is a sequence of characters, '" letter "' is a character.")
}
/ is a name that `let` defines, / && assigned != "" && quoted($0) == assigned { hint("`new x: int := .. in ..` makes a variable.") }
