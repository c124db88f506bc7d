# Finds what the program `tacho` is built from. Scripts source this file, and call its functions in the root of the repository.

# Prints the folders of the program's crate and of the crates that it depends on, as crates.txt lists them.
crates() {
    awk '
        function list(name, libraries, count, i) {
            if (!(name in below) || name in listed)
                return
            listed[name]
            print "crates/" name
            count = split(below[name], libraries)
            for (i = 1; i <= count; i++)
                list(libraries[i])
        }
        { sub(/#.*/, "") }
        split($0, sides, ":") == 2 { split(sides[1], heads); below[heads[1]] = sides[2] }
        END { list("tacho") }
    ' crates.txt
}

# Prints a checksum of crates.txt and of all files that the program is built from, including their names.
sum_of_sources() {
    # shellcheck disable=SC2046
    set -- $(crates)
    { echo crates.txt && find "$@" \( -name out -o -name must-fail -o -name slips \) -prune -o -type f -print; } |
        LC_ALL=C sort | tr '\n' '\0' | xargs -0 sha256sum | sha256sum
}
