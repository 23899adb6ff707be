#!/usr/bin/env bash
# Makes the Python package ready, and prints the interpreter to use it with: installs what it needs of Debian's packages
# where that is missing and may be done, links the proved library for it (python/relief/librelief.so), and writes the
# command target/bin/relief-raster. The interpreter is the one that Debian's packages belong to; RELIEF_PYTHON, if set,
# is another, which must have NumPy, Pillow and Matplotlib. RELIEF_LIB_DIR is as for tools/library.sh. With the argument
# `packages` it only sees to the packages and prints the interpreter.
set -euo pipefail
cd "$(dirname "$0")/.."

python=${RELIEF_PYTHON:-/usr/bin/python3}
packages=(python3-numpy python3-pil python3-matplotlib)
modules=(numpy PIL matplotlib)

# the packages whose modules the interpreter does not have
missing() {
    local i
    for i in "${!modules[@]}"; do
        "$python" -c "import ${modules[$i]}" 2> /dev/null || echo "${packages[$i]}"
    done
}

absent=$(missing | paste -sd ' ')
if [ -n "$absent" ] && [ -z "${RELIEF_PYTHON:-}" ] && [ "$(id -u)" = 0 ] && command -v apt-get > /dev/null; then
    echo "installing $absent (target/python.log)" >&2
    install="apt-get install -y --no-install-recommends $absent"
    DEBIAN_FRONTEND=noninteractive bash tools/quiet.sh target/python.log bash -c "$install || { apt-get update && $install; }" ||
        true # what is still missing is said below
    absent=$(missing | paste -sd ' ')
fi
if [ -n "$absent" ] && [ -n "${RELIEF_PYTHON:-}" ]; then
    echo "$python, which RELIEF_PYTHON names, lacks what Debian has as $absent: install it for that interpreter" >&2
    exit 1
elif [ -n "$absent" ]; then
    echo "$python lacks packages: as root, apt-get install $absent" >&2
    echo "(or let RELIEF_PYTHON name an interpreter that has NumPy, Pillow and Matplotlib)" >&2
    exit 1
fi

if [ "${1:-}" = packages ]; then
    echo "$python"
    exit
fi

bash tools/library.sh > /dev/null
library=python/relief/librelief.so
gcc -std=c11 -O2 -Wall -Wextra -pedantic -fPIC -shared -Iinclude python/boundary.c -Wl,-z,defs \
    -Wl,--whole-archive "${RELIEF_LIB_DIR:-target/staticlib}/librelief_c.a" -Wl,--no-whole-archive -o "$library.part"
mv "$library.part" "$library"

mkdir -p target/bin
command=target/bin/relief-raster
printf '#!/usr/bin/env bash\n# written by tools/python.sh\nPYTHONPATH=%q${PYTHONPATH:+:$PYTHONPATH} exec %q -m relief "$@"\n' \
    "$PWD/python" "$python" > "$command.part"
chmod +x "$command.part"
mv "$command.part" "$command"
echo "$python"
