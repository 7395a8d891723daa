# What the checks need of Debian's packages. They are installed where they are missing and root runs this. A check reads this file after steps.sh;
# `python` is a Python that has NumPy: it may be another than the first on the path, Debian's.
has_NumPy() { for python in python3 /usr/bin/python3; do "$python" -c 'import numpy' 2>/dev/null && return; done; }
has_headers() { [ -f "$("$python" -c 'import sysconfig; print(sysconfig.get_path("include"))')/Python.h" ]; }
has_venv() { "$python" -m ensurepip --version >/dev/null 2>&1; }
has_modules() { "$python" -c 'import pytest, dask, zarr' 2>/dev/null; }
has_Chromium() { command -v chromium-headless-shell chromium chromium-browser google-chrome >/dev/null; }
has_crates() { compgen -G '/usr/share/cargo/registry/image-[0-9]*' >/dev/null && compgen -G '/usr/share/cargo/registry/rayon-[0-9]*' >/dev/null; }
has_arrays() { [ -f /usr/include/xtensor/xadapt.hpp ] && [ -f /usr/include/boost/multi_array.hpp ] && [ -f /usr/include/eigen3/Eigen/Core ]; } # (of bench/doors)
has_packages() { has arrays && has NumPy && has headers && has venv && has modules && has Chromium && has cmark-gfm && has crates; }
install_packages() {
    local apt=(apt-get -qq -o DPkg::Lock::Timeout=600)
    "${apt[@]}" update
    "${apt[@]}" install -y --no-install-recommends python3-{numpy,dev,venv,pytest,dask,zarr} cmark-gfm librust-{image,rayon}-dev lib{xtensor,boost,eigen3}-dev
    "${apt[@]}" install -y --no-install-recommends chromium-headless-shell || "${apt[@]}" install -y --no-install-recommends chromium
}
has_packages || [ "$(id -u)" -ne 0 ] || install_packages >"$room/apt" 2>&1 || cat "$room/apt"
