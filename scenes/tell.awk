# Shows a script of calls and what was answered side by side, in words and decimals. -v answers=FILE names what replay wrote.

BEGIN {
    split("done;refused: not set up;refused: bad input;samples ended, no route;full;refused: no roadmap;refused: start not valid;" \
        "no solution;refused: route buffer too short", names, ";")
    ahead = (getline pending < answers) > 0
}

# Comments tell the story.
/^[ \t]*#/ { sub(/^[ \t]*#[ ]?/, ""); print; next }
/^[ \t]*$/ { print ""; next }

{
    shown = length($0) > 96 ? substr($0, 1, 93) "..." : $0
    printf "  %s\n", shown
    if (!ahead) { print "      -> (nothing was answered)"; next }
    printf "      -> %s\n", plain(pending)
    while ((ahead = (getline pending < answers) > 0) && (pending ~ /^(  |!)/ || ($2 == "tables" && pending ~ /^goal /)))
        printf "         %s\n", plain(pending)
}

# An answer line in words: numbers of document 01's table by name, bits as decimals.
function plain(line,   words, n, i, out) {
    n = split(line, words, " ")
    if (words[1] == "=" && n == 4 && words[2] ~ /^[0-9]+$/) {
        out = names[words[2] + 1]
        if (words[3] > 0) out = out ", a route of " words[3] " states"
        if (words[4] > 0) out = out ", " words[4] " samples taken"
        return out
    }
    if (words[1] == "?") return "no call: " line
    out = ""
    for (i = (words[1] == "=") ? 2 : 1; i <= n; i++) out = out (out == "" ? "" : "  ") decimal(words[i])
    return out
}

# `x` and 16 hexadecimal digits as the decimal number that they are the bits of.
function decimal(word,   high, exponent, fraction, value, i) {
    if (word !~ /^x[0-9a-f]+$/ || length(word) != 17) return word
    high = digit(word, 2) * 256 + digit(word, 3) * 16 + digit(word, 4)
    exponent = high % 2048
    fraction = 0
    for (i = 5; i <= 17; i++) fraction = fraction * 16 + digit(word, i)
    if (exponent == 2047) return fraction == 0 ? "infinity" : "NaN"
    value = exponent == 0 ? fraction * 2 ^ -1074 : (1 + fraction / 2 ^ 52) * 2 ^ (exponent - 1023)
    return sprintf("%s%.6g", high >= 2048 ? "-" : "", value)
}

function digit(word, i) { return index("0123456789abcdef", substr(word, i, 1)) - 1 }
