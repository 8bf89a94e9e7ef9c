# What ./demo, ./build and their kin share. To be read by scripts that have set $top to the top of this repository.

# need NAME..: ends the script where one of these commands isn't on PATH.
need() {
  for name in "$@"; do
    command -v "$name" > /dev/null || { echo "$(basename "$0"): the command $name isn't here; README.md says what has to be" >&2; exit 1; }
  done
}

# make_room: a folder $room for this run, which goes with it, as does what runs then: a command in the background hears no Ctrl-C.
make_room() {
  running=
  room=$(mktemp -d)
  trap 'exit 130' INT TERM
  trap '[ -z "$running" ] || kill "$running" 2>/dev/null || true; rm -rf "$room"' EXIT
}

# waiting WHAT SECONDS LOG COMMAND..: runs a command with its output in LOG, and says every five seconds how long it has run and about how
# long is left, if it takes so many seconds: no terminal is left silent for more than ten. Its status is the command's.
waiting() {
  local what=$1 usual=$2 log=$3 begun=$SECONDS ran left
  shift 3
  printf '%s: about %s s\n' "$what" "$usual"
  "$@" > "$log" 2>&1 < /dev/null &
  running=$!
  while kill -0 "$running" 2>/dev/null; do
    # (in small steps, so that the end is seen at once)
    for _ in 1 2 3 4 5 6 7 8 9 10; do kill -0 "$running" 2>/dev/null && sleep 0.5; done
    ran=$((SECONDS - begun)) left=$((usual - SECONDS + begun))
    kill -0 "$running" 2>/dev/null || break
    if [ "$left" -gt 0 ]; then printf '  %s s, about %s s left\n' "$ran" "$left"; else printf '  %s s, longer than usual here\n' "$ran"; fi
  done
  local ended=$running
  running=
  wait "$ended"
}

# sum_of_sources: a number of all that the proved program is made of, and of the toolchain.
sum_of_sources() {
  (
    cd "$top"
    rt version
    cat crates.txt HANDLES
    crates_of_program | while read -r name; do
      find "crates/$name" -path "crates/$name/out" -prune -o -type f -print | LC_ALL=C sort | xargs sha256sum
    done
  ) | sha256sum | cut -d' ' -f1
}

# crates_of_program: the crates of this repository that the program stands on, and its own, each behind those that it stands on.
crates_of_program() {
  awk '
    /^#/ || NF == 0 { next }
    { name = $1; sub(/:$/, "", name); known[name] = 1; below[name] = $0; sub(/^[^ ]+/, "", below[name]) }
    function visit(name,    parts, count, i) {
      if (seen[name] || !known[name]) return
      seen[name] = 1
      count = split(below[name], parts, " ")
      for (i = 1; i <= count; i++) visit(parts[i])
      print name
    }
    END { visit("scons_cli") }
  ' "$top/crates.txt"
}

# keeps_proofs: whether this kit's `rt ci` takes the names of crates, and keeps on the machine what it proved: rattle-kit-13f does both,
# rattle-kit-13b neither.
keeps_proofs() {
  grep -q '^class Kept' "$(realpath "$(command -v rt)")"
}
