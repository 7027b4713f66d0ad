# Reads the lines that declared.awk writes, and writes a call of each function in C, whose arguments are those of the same names in
# a struct arguments. So it is by the names in the header that the test makes its calls: a parameter that stands in the wrong place
# there gets a wrong value.
function name_of(parameter)
{
    sub(/\[.*/, "", parameter)
    sub(/.*[ *]/, "", parameter)
    return parameter
}

{
    name = parameters = $0
    sub(/\(.*/, "", name)
    sub(/^[^(]*\(/, "", parameters)
    sub(/\)$/, "", parameters)
    count = split(parameters, parameter, /, */)
    call = ""
    for (i = 1; i <= count; i++)
        call = call (i > 1 ? ", " : "") "of->" name_of(parameter[i])
    printf("static uint32_t call_%s(const struct arguments *of)\n{\n    return %s(%s);\n}\n\n", substr(name, length("catsvomi_") + 1), name, call)
}
