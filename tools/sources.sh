# What the program is made of. bin/stepmill, bin/test and the scripts in tools/ read this file; each has the top of the
# repository in `here`.

# The crates that the program is made of, from crates.txt: a line 'NAME: CRATE..' for each, in the order in which rt
# takes them, fewest crates below first.
crates() {
  awk '
    { sub(/#.*/, "") }
    /:/ { at = index($0, ":"); split(substr($0, 1, at - 1), head, " "); uses[head[1]] = substr($0, at + 1) }
    function visit(name, of, names, i, count) {
      if (!(name in uses) || (of, name) in below) return
      below[of, name] = 1
      size[of]++
      count = split(uses[name], names, " ")
      for (i = 1; i <= count; i++) visit(names[i], of)
      if (of == top) order[++last] = name
    }
    END {
      top = "stepmill"
      if (!(top in uses)) exit 1
      visit(top, top)
      for (i = 1; i <= last; i++) if (order[i] != top) visit(order[i], order[i])
      for (rank = 1; rank <= last; rank++)
        for (i = 1; i <= last; i++)
          if (size[order[i]] == rank) print order[i] ":" uses[order[i]]
    }' "$here/crates.txt"
}

# The names of the files that the program is made of, each ended by a zero byte: crates.txt, and every source, definition and
# proof of the crates above. Crates of tests are not among them.
sources() (
  set -e -o pipefail
  export LC_ALL=C
  cd "$here"
  listed=$(crates)
  folders=()
  while IFS=: read -r name _; do
    for part in src specs proofs; do
      if [ -e "crates/$name/$part" ]; then folders+=("crates/$name/$part"); fi
    done
  done <<< "$listed"
  find crates.txt "${folders[@]}" \( -type f -o -type l \) -print0 | sort -z
)

# The digest over these files: that of their names with their own digests.
source_digest() (
  set -e -o pipefail
  cd "$here"
  sources | xargs -0 sha256sum -- | sha256sum | {
    read -r digest _
    echo "$digest"
  }
)

# kit_strip PROGRAM TO: the program without what no run of it reads, by the tool of the kit that built it.
kit_strip() {
  local kit
  kit=$(dirname "$(dirname "$(readlink -f "$(command -v rt)")")")
  (exec -a llvm-strip "$kit/toolchain/bin/clang" --strip-all --remove-section=.comment -o "$2" "$1")
}

# gate_record DIGEST: what bin/test keeps of a gate that passed on sources of this digest, for the program that it built.
gate_record() {
  echo "$1 $(sha256sum < "$here/crates/stepmill/out/stepmill")"
}
