# The structs and calls of include/handset.h and door/handset.c.
#   awk -f header.awk FILES              the listing of rattle.awk, and "RESULT NAME(PARAMETERS) {" for each call that is defined
#   awk -v asking=1 -f header.awk FILES  a table of the fields, for where.c; first the structs that programs do not see
#   awk -v flags=1 -f header.awk FILES   a table of every flag of struct handset, for calls.c
# Struct handset never crosses whole, so where its fields lie is C's own affair.
function cleaned(text) {
    gsub(/[ \t\n]+/, " ", text)
    sub(/^ /, "", text)
    sub(/ $/, "", text)
    return text
}
function field(struct, text,    name, type) {
    text = cleaned(text)
    sub(/;$/, "", text)
    name = text
    sub(/.* /, "", name)
    type = text
    sub(/ [^ ]*$/, "", type)
    if (match(name, /\[.*/)) {
        type = type substr(name, RSTART)
        name = substr(name, 1, RSTART - 1)
    }
    names[struct, ++count[struct]] = name
    types[struct, count[struct]] = type
}
function list_flags(struct, path,    k, type, places) {
    for (k = 1; k <= count[struct]; k++) {
        type = types[struct, k]
        places = type
        gsub(/.*\[|\]/, "", places)
        if (type == "bool") print "FLAG(" path names[struct, k] ")"
        else if (type ~ /^bool\[/) while (places-- > 0) print "FLAG(" path names[struct, k] "[" places "])"
        else if (sub(/^struct /, "", type)) list_flags(type, path names[struct, k] ".")
    }
}
{ text = text $0 "\n" }
END {
    while (match(text, /\/\*/)) {
        end = index(substr(text, RSTART), "*/")
        text = substr(text, 1, RSTART - 1) substr(text, RSTART + end + 1)
    }
    n = split(text, lines, "\n")
    for (k = 1; k <= n; k++) {
        line = lines[k]
        if (line ~ /^struct [a-z_]+ \{/) {
            split(line, word, " ")
            struct = structs[++struct_count] = word[2]
        }
        if (asking && struct ~ /^proved_/) print line
        if (struct != "" && line ~ /^};/) struct = ""
        else if (struct != "" && line ~ /;/) field(struct, line)
        else if (struct == "" && (call != "" || line ~ /^[A-Za-z].*(handset|proved)_[a-z_]+\(/)) {
            call = call " " line
            if (line !~ /\);?$/) continue
            sub(/\)$/, ") {", call)
            sub(/^ HANDSET_RESULT/, "", call)
            calls[++call_count] = cleaned(call)
            call = ""
        }
    }
    if (flags) list_flags("handset", "")
    for (s = 1; s <= struct_count && !flags; s++) {
        struct = structs[s]
        if (asking && struct == "handset") continue
        for (k = 1; k <= count[struct]; k++)
            if (asking) printf "FIELD(%s, %s, \"%s\")\n", struct, names[struct, k], types[struct, k]
            else print "struct " struct, k, names[struct, k], types[struct, k]
        if (asking) printf "SIZE(%s)\n", struct
    }
    for (k = 1; k <= call_count && !flags && !asking; k++) print calls[k]
}
