# Answers help, the version and faults of words without the program: sourced by the script `wafl`. What it knows of the words it reads
# out of the help texts in crates/rows/data/help, which are the program's own, byte for byte. The installed script knows its own words alone.
# shellcheck disable=SC2154 # The script has set $own_helps, and $root, where it answers for the program too.

helps=${root-}/crates/rows/data/help

# answer WORD.. : ends the script where the words ask for help or the version, or aren't understood; returns where the program has to
# be asked.
answer() {
    [ -f "$helps/wafl.txt" ] || return 0
    case ${1-} in
        # The program itself takes it out of the words.
        --wait | --wait=*) return 0 ;;
        --help | -h) show wafl ;;
        --version | -V) [ ! -f "$helps/version.txt" ] || show version ;;
        help)
            [ "$#" -le 2 ] || return 0
            is_command "${2-wafl}" || fault wafl "unrecognized subcommand '$2'"
            show "${2-wafl}"
            ;;
        '') [ "$#" -gt 0 ] || fault wafl "'wafl' requires a subcommand but one was not provided" ;;
    esac
    if ! is_command "$1"; then
        case $1 in
            -?*) fault wafl "unexpected argument '$1' found" ;;
            *) fault wafl "unrecognized subcommand '$1'" ;;
        esac
    fi
    judged=$(judge "$@") && return 0
    case $judged in
        help) show "$1" ;;
        *) fault "$1" "$judged" ;;
    esac
}

# answer_own WORD.. : does the same for a word of the script itself, whose help stands in the folder $own_helps.
answer_own() {
    helps=$own_helps
    judged=$(judge "$@") && return 0
    case $judged in
        help) show "$1" ;;
        *) fault "$1" "$judged" ;;
    esac
}

# is_command NAME : whether the program has this command.
is_command() {
    case $1 in
        *[!a-z]*) return 1 ;;
        *) [ -f "$helps/$1.txt" ] && [ "$1" != version ] ;;
    esac
}

# show NAME : prints the help text NAME and ends the script, with 2 where standard output can't be written, as the program does.
show() {
    cat "$helps/$1.txt" 2>/dev/null || exit 2
    exit 0
}

# fault NAME TEXT : says what is wrong with the words, and how NAME is used.
fault() {
    printf 'error: %s\n\n%s\n\nFor more information, try '\''--help'\''.\n' "$2" "$(grep '^Usage:' "$helps/$1.txt")" >&2
    exit 1
}

# judge NAME WORD.. : ends with 0 where these words go with the command NAME, as far as its help text tells, and else prints `help`, or
# what is wrong with them. Values aren't looked at.
judge() {
    awk '
        function fault(text) { print text; exit 1 }
        # One line of the part Arguments or Options: places in order, and options by their names.
        function learn(line, names, count, i) {
            if (part == "Arguments:" && line ~ /^  [<\[]/) {
                split(line, names, " ")
                place[++places] = names[1]
                if (names[1] ~ /^</) least++
                if (names[1] ~ /\.\.\.$/) is_many = 1
            }
            if (part == "Options:" && line ~ /^ +-/) {
                count = split(line, names, " ")
                for (i = 1; i <= count && names[i] ~ /^-/; i++) {
                    sub(/,$/, "", names[i])
                    has_value[names[i]] = names[i + 1] ~ /^</
                    # Behind an equals sign, or not at all.
                    may_have[names[i]] = names[i + 1] ~ /^\[</
                    shown[names[i]] = names[i] (names[i + 1] ~ /^\[?</ ? " " names[i + 1] : "")
                }
            }
        }
        # The options that the usage has outside of brackets must be given.
        function demand(line, names, count, i) {
            gsub(/\[[^\]]*\]/, "", line)
            count = split(line, names, " ")
            for (i = 1; i <= count; i++) if (names[i] ~ /^--/) needed[++needs] = names[i]
        }
        # Takes the option in the word at `at`, and returns where its last word is.
        function take(at, word, name, equals) {
            # The program itself takes it out of the words first, and judges its number.
            if (word ~ /^--wait(=|$)/) return at
            equals = word ~ /^--/ ? index(word, "=") : 0
            name = equals ? substr(word, 1, equals - 1) : word
            if (!(name in has_value)) {
                if (is_many && found >= places - 1) { found++; is_open = 0; return at }
                fault("unexpected argument \047" word "\047 found")
            }
            if (equals && !has_value[name] && !may_have[name]) fault("unexpected value \047" substr(word, equals + 1) "\047 for \047" name "\047 found; no more were expected")
            if (name == "--help" || name == "-h") { print "help"; exit 1 }
            if (name in given) fault("the argument \047" shown[name] "\047 cannot be used multiple times")
            given[name] = 1
            if (!has_value[name] || equals) return at
            if (at + 1 >= ARGC || ARGV[at + 1] ~ /^-./) fault("a value is required for \047" shown[name] "\047 but none was supplied")
            return at + 1
        }
        BEGIN {
            file = ARGV[1]
            while ((getline line < file) > 0) {
                if (line ~ /^Usage:/) demand(line)
                if (line ~ /^[^ ].*:$/) part = line
                learn(line)
            }
            is_open = 1
            for (i = 3; i < ARGC; i++) {
                word = ARGV[i]
                if (is_open && word == "--") { is_open = 0; continue }
                if (is_open && word ~ /^-./) { i = take(i, word); continue }
                if (++found > places && !is_many) fault("unexpected argument \047" word "\047 found")
                # Behind the first of many words all are its own.
                if (is_many && found >= places) is_open = 0
            }
            for (i = 1; i <= needs; i++) if (!(needed[i] in given)) missing = missing "\n  " shown[needed[i]]
            for (i = found + 1; i <= least; i++) missing = missing "\n  " place[i]
            if (missing != "") fault("the following required arguments were not provided:" missing)
        }' "$helps/$1.txt" "$@"
}
