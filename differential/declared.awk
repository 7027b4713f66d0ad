# Reads catsvomi.h as the C preprocessor leaves it, and writes a line for each function that it declares, in one spelling:
#   catsvomi_nea5(const uint8_t key[32], uint8_t *work, size_t work_length, ..)
{
    text = text " " $0
}

END {
    count = split(text, declarations, ";")
    for (i = 1; i <= count; i++)
        if (match(declarations[i], /uint32_t +catsvomi_[a-z0-9_]+ *\([^)]*\)/)) {
            line = substr(declarations[i], RSTART, RLENGTH)
            gsub(/[ \t]+/, " ", line)
            gsub(/\[static /, "[", line)
            gsub(/ ?\( ?/, "(", line)
            sub(/ \)/, ")", line)
            sub(/^uint32_t /, "", line)
            print line
        }
}
