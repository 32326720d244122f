#!/usr/bin/env bash
# Proves the library seedpaint_c, links it into a shared one, and makes a wheel of the Python package over it:
#
#     tools/build_python.sh            dist/libseedpaint.so and dist/seedpaint-*.whl
#     tools/build_python.sh --test     the same, and all tests of them, in a virtual environment of their own
#
# It needs the kit's rt, and of Debian gcc, binutils, python3-numpy, python3-pip, python3-setuptools and python3-wheel;
# for the tests also python3-venv, libasan (with gcc) and valgrind, and python3-skimage, python3-dask, python3-numpydoc
# and python3-mypy, without which the tests that ask for them are left out. PYTHON names another Python than Debian's.
# It fetches nothing.
set -euo pipefail
cd "$(dirname "$0")/.."

PYTHON=${PYTHON:-/usr/bin/python3}
KIT=$(dirname "$(dirname "$(readlink -f "$(command -v rt)")")")
CRATE=crates/seedpaint_c
ARCHIVES=("$CRATE/out/libseedpaint_c.a" "$KIT/c/liblibc_c.a")
WORK=$(mktemp -d)
trap 'rm -rf "$WORK"' EXIT

# The names of the exports, as the header declares them.
exports() {
  sed -n 's/^uint32_t \(seedpaint_[a-z_]*\)(.*/\1/p' "$CRATE/seedpaint.h"
}

# Links the archive into a shared library that shows the exports and nothing else.
link_library() {
  {
    echo '{ global:'
    exports | sed 's/$/;/'
    echo 'local: *; };'
  } > "$WORK/exports.map"
  local wanted
  mapfile -t wanted < <(exports | sed 's/^/-Wl,-u,/')
  mkdir -p dist
  cc -shared -o dist/libseedpaint.so "${wanted[@]}" "${ARCHIVES[@]}" -Wl,-z,defs -Wl,-z,relro,-z,now \
    -Wl,--version-script="$WORK/exports.map" -Wl,-soname,libseedpaint.so
}

# The shared library shows each export and nothing else, and asks for no glibc after 2.17.
check_library() {
  diff <(exports | sort) <(nm -D --defined-only dist/libseedpaint.so | awk '{print $3}' | sort)
  if ! objdump -T dist/libseedpaint.so > "$WORK/symbols"; then
    echo "build_python.sh: objdump (binutils) is wanted to see which glibc the library needs" >&2
    exit 1
  fi
  local newest
  newest=$({ grep -o 'GLIBC_[0-9.]*' "$WORK/symbols" || true; } | sort -Vu | tail -1)
  if [ "$(printf '%s\nGLIBC_2.17\n' "$newest" | sort -V | tail -1)" != GLIBC_2.17 ]; then
    echo "build_python.sh: the library needs $newest, and the wheel says glibc 2.17" >&2
    exit 1
  fi
}

# Makes the wheel from a copy of the package, so that nothing is left in the repository.
make_wheel() {
  mkdir "$WORK/python"
  cp -r python/pyproject.toml python/setup.py python/README.md python/seedpaint "$WORK/python"
  cp dist/libseedpaint.so "$WORK/python/seedpaint/"
  rm -f dist/seedpaint-*.whl
  "$PYTHON" -m pip wheel --quiet --no-index --no-deps --no-build-isolation -w dist "$WORK/python"
}

# Refuses each growth of memory in turn: plainly, under the address sanitizer and under valgrind.
run_refusals() {
  local words=(-O1 -g -Wall -Werror -I "$CRATE" python/tests/refusals.c "${ARCHIVES[@]}"
    -Wl,--wrap=malloc,--wrap=realloc,--wrap=free)
  cc -o "$WORK/refusals" "${words[@]}"
  cc -fsanitize=address -o "$WORK/refusals_asan" "${words[@]}"
  "$WORK/refusals"
  "$WORK/refusals_asan"
  valgrind --quiet --error-exitcode=1 --leak-check=full "$WORK/refusals"
}

# Installs the wheel in a virtual environment that has Debian's packages beside it, as docs/PYTHON.md does.
install_wheel() {
  "$PYTHON" -m venv --system-site-packages "$WORK/venv"
  "$WORK/venv/bin/pip" install --quiet --no-index dist/seedpaint-*.whl
}

# The Python lines of the package's README, as a newcomer types them: they print what stands behind them.
run_readme() {
  sed -n '/^    import/,/^$/s/^    //p' python/README.md > "$WORK/readme.py"
  diff <(sed -n 's/^print(.*) *# //p' "$WORK/readme.py") <("$WORK/venv/bin/python" "$WORK/readme.py")
}

(cd "$CRATE" && rt lib)
link_library
check_library
make_wheel
ls -l dist
if [ "${1:-}" = --test ]; then
  run_refusals
  install_wheel
  run_readme
  "$WORK/venv/bin/python" -m unittest discover --verbose -s python/tests
fi
