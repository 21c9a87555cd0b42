#!/usr/bin/env python3
"""Tries what `make dist` packs on clean roots of Debian without the kit, which mmdebstrap makes and removes. A release takes about a minute.

usage: try_package.py RELEASE..      such as bullseye bookworm sid

The package is installed over an older one, shows the example's lines and the stored replies, and is purged without a file left; the archive shows them too.
Where the C library is too old, the package has to be refused, also without a file left. The status is 1 if anything else came.
"""
import pathlib
import shutil
import subprocess
import sys
import tempfile

import dist

STEPS = r"""
everything() { find / -xdev \( -path /proc -o -path /sys -o -path /dev -o -path /tmp -o -path /var/log \) -prune -o -print | sort; }
runs() {
  "$1/bin/protols" check --quiet --root "$1/share/doc/protols/examples/protos" > /tmp/lines || test $? -eq 1
  cmp /tmp/lines /tmp/check.stdout
  "$1/bin/protols" serve < /tmp/stdin | cmp - /tmp/stdout
}
everything > /tmp/before
if dpkg --compare-versions "$(dpkg-query -W -f '${Version}' libc6)" lt "$NEEDED"; then
  if dpkg -i /tmp/newer/*.deb; then exit 1; fi
else
  dpkg -i /tmp/older/*.deb
  dpkg -i /tmp/newer/*.deb
  runs /usr
  mkdir /tmp/unpacked
  tar -xzf /tmp/newer/*.tar.gz -C /tmp/unpacked --strip-components=1
  runs /tmp/unpacked
fi
dpkg --purge protols
everything | diff /tmp/before -
"""


def is_right(release, brought, needed):
    """Whether every step went well on a clean root of a release."""
    # (a mirror that is kept as it was has lists that have run out)
    words = ["mmdebstrap", "--quiet", "--variant=minbase", "--format=null", '--aptopt=Acquire::Check-Valid-Until "false"']
    words += [f"--customize-hook=copy-in {brought} /tmp", f'--customize-hook=NEEDED={needed} chroot "$1" sh -eu /tmp/steps.sh', release, "-"]
    right = subprocess.run(words, check=False).returncode == 0
    print(f"{release}: {'as expected' if right else 'OTHERWISE'}", flush=True)
    return right


def main(releases):
    if not releases or not shutil.which("mmdebstrap"):
        sys.exit(f"{__doc__}\nIt needs the command mmdebstrap.")
    with tempfile.TemporaryDirectory() as room:
        folder, program = pathlib.Path(room), str(dist.ROOT / "crates/protols/out/protols")
        dist.pack(program, folder / "older", 0, "0.0.1")
        needed = dist.pack(program, folder / "newer", 1)[1].partition(">= ")[2].partition(")")[0]
        for path in ("crates/protols/stdin", "crates/protols/stdout", "examples/check.stdout"):
            shutil.copy(dist.ROOT / path, folder)
        (folder / "steps.sh").write_text(STEPS)
        brought = " ".join(map(str, sorted(folder.iterdir())))
        sys.exit(0 if all([is_right(release, brought, needed) for release in releases]) else 1)


if __name__ == "__main__":
    main(sys.argv[1:])
