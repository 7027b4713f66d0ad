# Reads the sources of crate capi, and writes a line for each function that it exports, as it has to be declared in C:
#   catsvomi_nea5(const uint8_t key[32], uint8_t *work, size_t work_length, ..)
# A slice is a pointer and a length. The last parameter has another name in C than in Rattle.
function declared(name, type)
{
    if (type == "u8" || type == "u32")
        return "uint" substr(type, 2) "_t " name
    if (type ~ /^&\[u8; [0-9]+\]$/)
        return "const uint8_t " name "[" substr(type, 7, length(type) - 7) "]"
    if (type == "&[u8]")
        return "const uint8_t *" name ", size_t " name "_length"
    if (type == "&mut [u8]")
        return "uint8_t *" name ", size_t " name "_length"
    if (name == "details" && type == "&mut Details")
        return "struct catsvomi_refusal *refusal"
    return "unknown " type " " name
}

/^pub extern "C" fn / {
    line = $5
    within = 1
    between = ""
    next
}

within && /^\) -> u32$/ {
    print line ")"
    within = 0
}

within {
    name = $1
    sub(/:$/, "", name)
    type = $0
    sub(/^[^:]*: /, "", type)
    sub(/,$/, "", type)
    line = line between declared(name, type)
    between = ", "
}
