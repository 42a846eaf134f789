#!/usr/bin/env bash
# Tells the time and the memory of compiling part texts of 600,000 and of 1,200,000 instances (33 and 66 MB): the sample
# part, with instances behind its own that it does not name. Both should about double from the first to the second.
cd "$(dirname "$0")/.." || exit 1
program=crates/stepmill/out/stepmill
sample=crates/stepmill/data/one.stp
if [ ! -x "$program" ] || [ ! -x /usr/bin/time ] || ! command -v python3 > /dev/null; then
  echo "skipped: no built program, no /usr/bin/time or no python3" >&2
  exit 0
fi
folder=$(mktemp -d) || exit 1
trap 'rm -rf "$folder"' EXIT

# The sample part with further instances, up to so many in all.
write_text() {
  python3 - "$sample" "$1" << 'END'
import sys

lines = open(sys.argv[1]).read().splitlines()
end = lines.index("ENDSEC;", lines.index("DATA;"))
instances = lines[lines.index("DATA;") + 1 : end]
out = [line + "\n" for line in lines[:end]]
for n in range(len(instances) + 1, int(sys.argv[2]) + 1):
    if n % 6 == 4:
        body = "DIRECTION('axis',(0.,-0.70710678,0.70710678))"
    elif n % 6 == 5:
        body = f"AXIS2_PLACEMENT_3D('placement',#{n - 2},#{n - 1},$)"
    else:
        x, y, z = n * 7919 % 400000 - 200000, n * 104729 % 300000 - 150000, n * 31 % 90000
        body = f"CARTESIAN_POINT('',({x / 1000:.3f},{y / 1000:.3f},{z / 1000:.3f}))"
    out.append(f"#{n}={body};\n")
out += [line + "\n" for line in lines[end:]]
sys.stdout.writelines(out)
END
}

for count in 600000 1200000; do
  text=$folder/$count.stp
  write_text "$count" > "$text" || exit 1
  bytes=$(wc -c < "$text")
  /usr/bin/time -q -f "compile $count instances, $bytes bytes: %e s, %M KB, status %x" "$program" compile "$text" --cell 1000 > /dev/null
done
