"""The kit's own command `rt`, loaded as a module: `rt` and, below it, `rtlib`. Whoever imports this makes use of the
inside of a few versions of the kit, which KNOWN names; `is_known` says whether the kit that stands here is one of them."""
import hashlib
import importlib.machinery
import importlib.util
import os
import shutil
import sys

sys.dont_write_bytecode = True

# Of each kit its identity and the sums of the scripts whose inside is used, and the module that works with it.
KNOWN = {
    (
        "rattle-kit-13b logic dac8208d650f15bf",
        "a29960395884d54b18725ad44ad89e0f82549f67150763bf576db274e11439c6",
        "4a12f3c5badcbef95b02ce10e5a270c6bfa7318c8bbf46eea97d0f86c02889dd",
    ): "kit_13b",
    (
        "rattle-kit-13f logic dac8208d650f15bf",
        "80bcb2d5aef7205688dd85a279ba826502bb88dcc037e860a256d3963c92d37f",
        "4a12f3c5badcbef95b02ce10e5a270c6bfa7318c8bbf46eea97d0f86c02889dd",
    ): "kit_13f",
}


def path_of_rt():
    """Where the kit's command stands: on the path, else in the kit's usual folder."""
    found = shutil.which("rt") or "/opt/rattle/bin/rt"
    return os.path.realpath(found) if os.path.isfile(found) else None


def sum_of(file):
    with open(file, "rb") as it:
        return hashlib.sha256(it.read()).hexdigest()


def identity():
    """What KNOWN has to name for the kit that stands here, or None if there is none."""
    if RT is None:
        return None
    folder = os.path.dirname(RT)
    try:
        with open(f"{os.path.dirname(folder)}/KIT-ID", encoding="utf-8") as it:
            return it.read().strip(), sum_of(RT), sum_of(f"{folder}/rtlib.py")
    except OSError:
        return None


def is_known():
    return identity() in KNOWN


def way():
    """The name of the module that works with the kit that stands here."""
    return KNOWN[identity()]


def load():
    loader = importlib.machinery.SourceFileLoader("rt", RT)
    made = importlib.util.module_from_spec(importlib.util.spec_from_loader("rt", loader))
    loader.exec_module(made)
    return made


RT = path_of_rt()
rt = load() if is_known() else None
rtlib = rt.rtlib if rt else None
