# For the scripts that make something of proved crates. They run in the repository's root and source this file.

# The name of each crate of crates.txt, a line for each.
crate_names() {
    sed -nE 's/^([a-z_0-9]+)( staticlib)?:.*/\1/p' crates.txt
}

# crates_below NAME..: these crates and those that they stand on, in the order of crates.txt
crates_below() {
    awk -F: -v rest="$*" '
        /^[a-z_0-9]+( staticlib)?:/ { sub(/ staticlib$/, "", $1); below[$1] = $2; crate[++crates] = $1 }
        END { while (rest != "") { n = split(rest, name, " "); rest = ""
                  for (i = 1; i <= n; i++) if ((name[i] in below) && !(name[i] in seen)) { seen[name[i]]; rest = rest " " below[name[i]] } }
              for (i = 1; i <= crates; i++) if (crate[i] in seen) print crate[i] }' crates.txt
}

# sum_of NAME: a sum of all that the proof of this crate reads: the kit, and what crates.txt and the folders of it and of the crates
# below say. What was made of the same sum need not be made again.
sum_of() {
    local crate
    {
        rt version
        for crate in $(crates_below "$1"); do
            grep -E "^$crate( staticlib)?:" crates.txt
            find "crates/$crate" -name out -prune -o -type f \( -path '*/src/*' -o -path '*/specs/*' -o -path '*/proofs/*' \) -print0 |
                LC_ALL=C sort -z | xargs -0 -r sha256sum
        done
    } | sha256sum | cut -d ' ' -f 1
}

# in_crate NAME COMMAND..: runs this in the crate's folder
in_crate() { (cd "crates/$1" && "${@:2}"); }

# How many crates rt may prove side by side: one for each processor, where there are 4 GB of memory for it.
side_by_side() {
    local jobs room
    jobs=$(nproc)
    room=$(awk '/^MemAvailable:/ { print int($2 / 4000000) }' /proc/meminfo)
    [ "$room" -ge "$jobs" ] || jobs=$room
    [ "$jobs" -ge 1 ] || jobs=1
    echo "$jobs"
}

# prove_all LOG: proves every crate, several side by side; what rt says goes to the log, and the name of each crate that it has
# proved just now is printed. A crate that is not proved is told by what is made of it later.
prove_all() {
    rt all check --jobs "$(side_by_side)" 2>&1 | tee -a "$1" | awk '
        /^== / { name = $2 }
        /^logic=proved / { print name " is proved"; fflush() }' || true
}
