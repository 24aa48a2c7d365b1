# Bytes in the forms that people have, for bin/show: `\xNN` for each byte goes out, which printf of bash makes bytes of.
#   -v lines=0   one payload or message; in comes what `od -An -v -tx1` says of the input. Out: `FORM COUNT FRAME ESCAPES` or `bad REASON`; FORM is
#                hex, dump or raw, FRAME where the UDP payload begins if the bytes are an Ethernet frame, else 0
#   -v lines=1   a payload or message a line, as hex. Out, for each line: `NUMBER hex COUNT ESCAPES` or `NUMBER bad REASON`, nothing for an empty one
#   -v raw=1     the bytes as they are, whatever they look like
# Hex is digits in any groups, with spaces, line ends, commas, colons, semicolons, hyphens, quotes or brackets between them and 0x or \x in front.
# A dump is what xxd, tshark -x, hexdump -C and od -tx1 print: offsets, bytes, and mostly the bytes as text. Text that is neither is bad.

BEGIN {
    digits = "0123456789abcdef"
    for (i = 0; i < 256; i++) {
        code = substr(digits, int(i / 16) + 1, 1) substr(digits, i % 16 + 1, 1)
        number[code] = i
        # beyond ASCII it may be text in UTF-8, and no hex
        character[code] = i == 9 || i == 13 ? " " : i == 10 ? "\n" : i >= 32 && i < 127 ? sprintf("%c", i) : i > 127 ? "?" : ""
    }
}

# ---- hex: its digits, or "" and `why`

function hex_of(text,    out, pieces, count, k) {
    why = ""
    gsub(/\\x/, " 0x", text)
    gsub(/[][{}(),:;"'-]/, ",", text)
    count = split(tolower(text), pieces, ",")
    for (k = 1; k <= count && why == ""; k++) out = out piece(pieces[k])
    return why == "" ? out : ""
}

# What stands between two marks: whole bytes, with spaces anywhere.
function piece(text,    tokens, count, k, token, out) {
    count = split(text, tokens, /[ \t\r\n]+/)
    for (k = 1; k <= count; k++) {
        token = tokens[k]
        if (token ~ /^0x/) {
            token = substr(token, 3)
            if (length(token) % 2 || token == "") token = "0" token
        }
        if (match(token, /[^0-9a-f]/)) {
            why = "text that is no hex: '" substr(token, RSTART, 1) "' in '" substr(token, 1, 40) "'"
            return ""
        }
        out = out token
    }
    if (length(out) % 2) why = "half a byte is left over: an odd number of hex digits, " length(out) (length(out) < 20 ? ", in '" out "'" : "")
    return out
}

# ---- dumps

# the value of an offset's digits, or -1
function value(token, base,    k, d, out) {
    for (k = 1; k <= length(token); k++) {
        d = index(digits, substr(token, k, 1)) - 1
        if (d < 0 || d >= base) return -1
        out = out * base + d
    }
    return out + 0
}

# The bytes of a line behind its offset, as digits; "" and `not_dump` where they are none. They end at two spaces, or with the line: what follows
# is the same as text. Behind a colon (xxd) they stand in groups, else one by one, and some (hexdump -C) have two spaces behind the eighth.
function dumped(rest, grouped,    k, count, tokens, out) {
    sub(/^ +/, "", rest)
    if (!grouped && rest ~ /^.. .. .. .. .. .. .. ..  [0-9a-f][0-9a-f]( |$)/) rest = substr(rest, 1, 24) substr(rest, 26)
    sub(/  .*$/, "", rest)
    count = split(rest, tokens, " ")
    for (k = 1; k <= count; k++) {
        if (tokens[k] ~ /[^0-9a-f]/ || length(tokens[k]) % 2 || (!grouped && length(tokens[k]) != 2)) { not_dump = 1; return "" }
        out = out tokens[k]
    }
    return out
}

# The base of a dump's offsets: 16, but for od, which has seven digits; then it is told by the first that is not 0.
function base_of(token, grouped, bytes, repeated) {
    if (grouped || length(token) != 7) return 16
    if (repeated || value(token, 8) == bytes) return 8
    return value(token, 10) == bytes ? 10 : 16
}

# A dump's digits; "" where the text is none, and then `why` where it surely was meant to be one. Headings in front of it are passed over.
function dump_of(text,    rows, count, k, row, token, grouped, part, base, first, out, last, repeated, dumps, at) {
    why = ""
    count = split(tolower(text), rows, "\n")
    for (k = 1; k <= count; k++) {
        row = rows[k]
        sub(/^ +/, "", row)
        sub(/ +$/, "", row)
        if (row == "") continue
        if (row == "*" && first) { repeated = 1; continue }
        token = match(row, /^[0-9a-f]+:?( |$)/) ? substr(row, 1, RLENGTH) : ""
        sub(/ $/, "", token)
        part = substr(row, length(token) + 1)
        grouped = sub(/:$/, "", token)
        not_dump = length(token) < 4 || length(token) > 8
        if (!not_dump) part = dumped(part, grouped)
        if (!first) {
            # the first line begins at 0 and has bytes
            if (token !~ /^0+$/ || not_dump || part == "") {
                if (not_dump && !grouped && token == "0000000") {
                    why = "it looks like words of hexdump or od, whose bytes are swapped: use xxd, hexdump -C or od -tx1"
                    return ""
                }
                if (row ~ /[^][{}(),:;"'x0-9a-f -]/) continue
                return ""
            }
        } else if (not_dump) {
            why = "line " k " is none of a dump: '" substr(row, 1, 40) "'"
            return ""
        } else if (token ~ /^0+$/) {
            dumps++
        } else if (!dumps) {
            if (!base) base = base_of(token, grouped, length(out) / 2, repeated)
            at = value(token, base)
            if (repeated) while (length(out) < at * 2) out = out last
            if (at * 2 != length(out)) {
                why = "a dump with a gap: its line " k " should begin at byte " length(out) / 2
                return ""
            }
        }
        repeated = 0
        first = 1
        if (!dumps) out = out part
        last = part
    }
    if (dumps) why = "a dump of " dumps + 1 " packets: give one of them, or lines of hex with --lines"
    return dumps ? "" : out
}

# ---- frames

function at16(hex, i) { return value(substr(hex, 2 * i + 1, 4), 16) }
function at8(hex, i) { return value(substr(hex, 2 * i + 1, 2), 16) }

# Where the UDP payload of an Ethernet frame begins, whose lengths agree; 0 where the bytes are none.
function frame(hex,    type, ip, udp) {
    for (type = 12; at16(hex, type) == 33024; type += 4) {}
    ip = type + 2
    if (at16(hex, type) == 2048 && int(at8(hex, ip) / 16) == 4 && at8(hex, ip + 9) == 17) {
        udp = ip + at8(hex, ip) % 16 * 4
        if (at16(hex, udp + 4) + udp - ip == at16(hex, ip + 2) && (at16(hex, ip + 2) + ip) * 2 <= length(hex)) return udp + 8
    }
    if (at16(hex, type) == 34525 && int(at8(hex, ip) / 16) == 6 && at8(hex, ip + 6) == 17)
        if (at16(hex, ip + 44) == at16(hex, ip + 4) && (at16(hex, ip + 4) + ip + 40) * 2 <= length(hex)) return ip + 48
    return 0
}

# ---- out

function escapes(hex,    i, out) {
    for (i = 1; i < length(hex); i += 2) out = out "\\x" substr(hex, i, 2)
    return out
}

function told(form, hex) { print form " " length(hex) / 2 " " frame(hex) " " escapes(hex) }

# All bytes of the input: `all` as digits, and `text` unless they are `no_text`.
function whole(    hex) {
    if (raw || no_text || more) { told("raw", all); return }
    hex = dump_of(text)
    if (hex != "") { told("dump", hex); return }
    if (why == "") hex = hex_of(text)
    if (why == "") told("hex", hex)
    else print "bad " why
}

lines {
    why = ""
    if ($0 ~ /[^\t\r -~]/) why = "bytes that are no text"
    else hex = hex_of($0)
    if (why != "") print NR " bad " why
    else if (hex != "") print NR " hex " length(hex) / 2 " " escapes(hex)
    next
}

# `more` bytes of a character in UTF-8 are to come
function letter(code,    i) {
    i = number[code]
    if (character[code] == "" || (i >= 128 && i < 192) != (more > 0)) no_text = 1
    more = more > 0 ? more - 1 : i < 192 ? 0 : i < 224 ? 1 : i < 240 ? 2 : 3
    text = text character[code]
}

{
    for (i = 1; i <= NF; i++) {
        all = all $i
        if (!no_text) letter($i)
    }
}

END { if (!lines) whole() }
