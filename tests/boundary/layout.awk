# The layouts as AnswerBytes, Boundary, WalkBytes and WhyBytes under crates/ define them (with stream_values of frame/specs/Writing.antt and the rules):
# a line for each value, 'at NAME OFFSET BYTES'; for each whole, 'whole NAME BYTES'; for each refusal number, 'number N'.
function name(value) {
    if (value ~ /reason_number/) return "REASON"
    if (value ~ /refusal_given/) return "REFUSAL"
    if (value ~ /place_given/) return "BEFORE"
    if (value ~ /_(in|by|of) [(a-z]/) sub(/_(in|by|of) .*/, "", value)
    gsub(/digit|[() ]|\.[0-9]/, "", value)
    sub(/^.*\./, "", value)
    return toupper(value)
}
function lay(values, counts, from,    v, c, n, i) {
    n = split(values, v, / ∷ /) - 1
    split(counts, c, / ∷ /)
    for (i = 1; i <= n; i++) {
        print "at", prefix name(v[i]), from, c[i]
        from += c[i]
    }
    return from
}
# a piece 'encode (COUNTS) (VALUES)'
function number(piece, from,    counts, values) {
    counts = piece; sub(/^encode \(/, "", counts); sub(/\) \(.*/, "", counts)
    values = piece; sub(/^.*\[\]\) \(/, "", values)
    return lay(values, counts, from)
}
{ left = $0; sub(/^.* = /, "", left) }
/^(first|second|third|stream|marks|reason)_values .* = / || /^(first|second|third|stream|marks|why)_counts = / { is[$1] = left }
/^part_bytes .* = / { print "whole PART", number(left, 0) }
/^told_bytes .* =$/ { telling = 1; steps = ""; next }
telling && /^ / { sub(/^ +/, steps == "" ? "" : " "); steps = steps $0; next }
telling { telling = 0 }
FILENAME !~ /Writing/ {
    for (rest = $0; match(rest, /\([0-9]+ when /); rest = substr(rest, RSTART + RLENGTH)) print "number", substr(rest, RSTART + 1, RLENGTH - 7)
}
END {
    table = lay(is["third_values"], is["third_counts"], lay(is["second_values"], is["second_counts"], lay(is["first_values"], is["first_counts"], 0)))
    entry = lay(is["stream_values"], is["stream_counts"], 0)
    print "whole TABLE", table
    print "whole ENTRY", entry
    print "whole ANSWER", table + 64 * entry
    split(steps, piece, / \+\+ /)
    at = lay(is["marks_values"], is["marks_counts"], number(piece[1], 0))
    at = number(piece[3], at)
    prefix = "ITEM_" # the answer has FCT and LEVEL too
    print "whole WALK", number(piece[4], at)
    prefix = ""
    print "whole WHY", lay(is["reason_values"], is["why_counts"], 0)
}
