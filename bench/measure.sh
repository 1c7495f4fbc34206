# What the scripts of this folder share: sourced by them, with the folder to work in as the current one.

# measure NAME COMMAND.. : runs the command and prints one line of the table. Before each further run of it, under strace and under
# GNU time, it runs `$again`, which brings the files back to what they were. Without these two programs their columns are "-".
measure() {
    name=$1; shift
    begin=$(date +%s.%N)
    "$@" > replies 2> faults
    end=$(date +%s.%N)
    seconds=$(echo "$begin $end" | awk '{printf "%.2f", $2 - $1}')
    writes=- ; syncs=- ; memory=-
    if command -v strace > /dev/null; then
        "$again" > /dev/null
        strace -f -e trace=write,pwrite64,pwritev,fsync,fdatasync -o calls "$@" > replies 2> faults
        writes=$(grep -cE 'write(v|64)?\(([02-9]|1[0-9])' calls || true) # replies go to 1
        syncs=$(grep -c 'sync(' calls || true)
    fi
    if [ -x /usr/bin/time ]; then
        "$again" > /dev/null
        /usr/bin/time -f %M -o peak "$@" > replies 2> faults
        memory="$(awk 'END {printf "%.1f", $1 / 1024}' peak)"
    fi
    printf '%-16s %9s s %9s writes %9s syncs %8s MiB\n' "$name" "$seconds" "$writes" "$syncs" "$memory"
}

# refused PATTERN : ends the script where a reply isn't what the pattern says.
refused() {
    if grep -vqE "$1" replies; then
        echo "wafl refused commands: $(grep -vE "$1" replies | head -n 1)" >&2
        exit 1
    fi
}
