# The structs and calls that cross to C, as the Rattle sources have them. Sources: those that declare `#[repr(C)]` structs and
# `#[unsafe(no_mangle)] pub extern "C"` functions, in the layout of rt fmt.
#   awk -f rattle.awk SOURCES              "STRUCT PLACE FIELD TYPE" for each field, where the first place is 1, and "RESULT
#                                          NAME(PARAMETERS);" for each call, in C's words
#   awk -v crate=1 -f rattle.awk SOURCES   a crate that tells where each field lies: the structs as they stand, and for each field an
#                                          exported function at_STRUCT_FIELD that takes the struct, with 256 bytes behind it, and hands
#                                          back the first value in that field; size_of_STRUCT hands back the first byte behind it
#   awk -v asking=1 -f rattle.awk SOURCES  a table of these functions in C, for where.c
# Only structs that a call takes or hands back, and those inside them, are listed, and struct handset, in which C keeps what
# proved_in_range takes: all of a record.

# proved_fed for ProvedFed, handset_row for HandsetRow, handset_small for Small
function c_name(type,    owner) {
    owner = type ~ /^Proved/ ? "proved_" : "handset_"
    sub(/^(Proved|Handset)/, "", type)
    return owner tolower(type)
}
function c_type(type) {
    if (type == "u8") return "uint8_t"
    if (type == "u16") return "uint16_t"
    if (type == "u32") return "uint32_t"
    if (type == "usize") return "uint64_t"
    if (type == "bool") return "bool"
    return "struct " c_name(type)
}
# `long` is a word of C's own
function c_field(name) { return name == "long" ? "long_stage" : name }
function element(type) { sub(/^\[/, "", type); sub(/;.*/, "", type); return type }
function places(type) { sub(/.*; /, "", type); sub(/\]$/, "", type); return type }
function listed(type) { return type ~ /^\[/ ? c_type(element(type)) "[" places(type) "]" : c_type(type) }

function parameter(text,    name, type, lent) {
    name = text
    sub(/:.*/, "", name)
    type = text
    sub(/^[^:]*: /, "", type)
    gsub(/'a /, "", type)
    if (type !~ /^&/) return c_type(type) " " name
    lent = type ~ /^&mut / ? "" : "const "
    sub(/^&(mut )?/, "", type)
    if (type ~ /;/) return lent c_type(element(type)) " " name "[" places(type) "]"
    gsub(/[][]/, "", type)
    return lent c_type(type) " *" name ", uint64_t " name "_len"
}
function call(text,    name, inside, result, part, n, k, line, field) {
    name = text
    sub(/.* fn /, "", name)
    sub(/[<(].*/, "", name)
    inside = text
    sub(/^[^(]*\( */, "", inside)
    sub(/,? *\) -> .*/, "", inside)
    result = text
    sub(/.*\) -> /, "", result)
    sub(/ .*/, "", result)
    crosses(result)
    n = split(inside, part, /, */)
    for (k = 1; k <= n; k++) {
        line = line (k > 1 ? ", " : "") parameter(part[k])
        field = part[k]
        sub(/:.*/, "", field)
        sub(/^[^:]*: (&'a )?/, "", part[k])
        crosses(part[k])
        if (name == "proved_in_range") calls[++call_count] = "struct handset " k " " field " " listed(part[k])
    }
    calls[++call_count] = c_type(result) " " name "(" line ");"
}
function crosses(type,    k) {
    if (!(type in count) || type in crossing) return
    crossing[type] = 1
    for (k = 1; k <= count[type]; k++) crosses(field_type[type, k])
}

# the first number or flag of a field, one struct down at a time
function read_first(name, type,    from, depth) {
    from = "with.it"
    while (1) {
        printf "    let part%d = %s;\n", depth, from
        from = "part" (depth + 0) "." name
        if (!(type in count)) break
        depth++
        name = field_name[type, 1]
        type = field_type[type, 1]
    }
    printf "    %s%s\n", from, type ~ /^\[/ ? "[0]" : ""
}
function first_type(type) {
    if (type ~ /^\[/) return element(type)
    if (!(type in count)) return type
    return first_type(field_type[type, 1])
}

# A size or a lent array may have a name: its value, or the array itself, is put in its place.
function without_names(text,    name) {
    for (name in named)
        while (match(text, "(^|[^A-Za-z_])" name "($|[^A-Za-z_])")) {
            if (substr(text, RSTART, length(name)) != name) RSTART++
            text = substr(text, 1, RSTART - 1) named[name] substr(text, RSTART + length(name))
        }
    return text
}
/^pub const [A-Z_]+: usize = [0-9]+;/ {
    named[substr($3, 1, length($3) - 1)] = substr($6, 1, length($6) - 1)
    next
}
/^pub type [A-Za-z]+ = \[/ {
    array = $0
    sub(/^[^=]*= /, "", array)
    sub(/;$/, "", array)
    named[$3] = without_names(array)
    next
}
{ $0 = without_names($0) }
/^#\[repr\(C\)\]/ { marked = 1; next }
marked && /^pub struct [A-Za-z]*\(pub [a-z0-9]*\);/ {
    struct = $3
    sub(/\(.*/, "", struct)
    type = $4
    sub(/\);.*/, "", type)
    structs[++struct_count] = struct
    count[struct] = 1
    field_name[struct, 1] = "0"
    c_called[struct, 1] = tolower(struct)
    field_type[struct, 1] = type
    declared = declared "#[repr(C)]\n#[derive(Clone, Copy)]\n" $0 "\n\n"
    marked = 0
    next
}
marked && /^pub struct / {
    struct = $3
    structs[++struct_count] = struct
    count[struct] = 0
    declared = declared "#[repr(C)]\n#[derive(Clone, Copy)]\n" $0 "\n"
    marked = 0
    inside_struct = 1
    next
}
inside_struct && /^    pub / {
    name = $2
    sub(/:$/, "", name)
    type = $0
    sub(/^[^:]*: /, "", type)
    sub(/,$/, "", type)
    k = ++count[struct]
    field_name[struct, k] = name
    c_called[struct, k] = c_field(name)
    field_type[struct, k] = type
}
inside_struct { declared = declared $0 "\n" (/^}/ ? "\n" : "") }
inside_struct && /^}/ { inside_struct = 0 }
/^pub extern "C" fn / { signature = "" ; reading = 1 }
reading {
    line = $0
    gsub(/^ +/, " ", line)
    signature = signature line
    if (line ~ /\) -> /) {
        signatures[++signature_count] = signature
        reading = 0
    }
}
END {
    for (k = 1; k <= signature_count; k++) call(signatures[k])
    if (crate) printf "#![tactic(auto)]\n\n%s", declared
    for (s = 1; s <= struct_count; s++) {
        struct = structs[s]
        if (!(struct in crossing)) continue
        short = c_name(struct)
        if (crate) printf "#[repr(C)]\n#[derive(Clone, Copy)]\npub struct With%s {\n    pub it: %s,\n    pub behind: [u8; 256],\n}\n\n", struct, struct
        for (k = 1; k <= count[struct]; k++) {
            type = field_type[struct, k]
            leaf = first_type(type)
            at = "at_" short "_" c_called[struct, k]
            if (crate) {
                printf "#[unsafe(no_mangle)]\npub extern \"C\" fn %s(with: With%s) -> %s {\n", at, struct, leaf
                read_first(field_name[struct, k], type)
                printf "}\n\n"
            } else if (asking) printf "ASK_%s(%s, %s, %s, \"%s\")\n", toupper(leaf), at, short, c_called[struct, k], listed(type)
            else print "struct " short, k, c_called[struct, k], listed(type)
        }
        at = "size_of_" short
        if (crate) printf "#[unsafe(no_mangle)]\npub extern \"C\" fn %s(with: With%s) -> u8 {\n    with.behind[0]\n}\n\n", at, struct
        else if (asking) printf "ASK_U8(%s, %s, size, \"\")\n", at, short
    }
    if (!crate && !asking) for (k = 1; k <= call_count; k++) print calls[k]
}
