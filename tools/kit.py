"""What the tools use of the toolchain's own command, whose insides have no promise: all of it is named here, and a new kit is looked at here first.

Of the module `rtlib`: Crate(folder, top, cache) with name, folder, rlib, deps, of_kit, below(), words(flags, keeps=), is_built(), build_rlib(flags, anew=);
guarded(), lock(), text_of(), RATTLE, KIT, PARTS. Of the command itself: read_edit(), checked(), must_fail(), free(), processors(), REFUSED,
handles_of(), crates_of(), Crate with allowed and cuts_libraries, and Kept with key(), place(), give(), drop() and is_built().
"""
import importlib.machinery, importlib.util, os, shutil, sys

PATH = os.path.realpath(shutil.which('rt') or '/no/rt')


def library():
    """The command's library: crates, and the words of a check."""
    sys.dont_write_bytecode = True
    if os.path.dirname(PATH) not in sys.path:
        sys.path.insert(0, os.path.dirname(PATH))
    import rtlib
    return rtlib


def command():
    """The command as a module: its way to check a copy, and to try one edit."""
    library()
    loader = importlib.machinery.SourceFileLoader('rt_command', PATH)
    module = importlib.util.module_from_spec(importlib.util.spec_from_loader('rt_command', loader))
    loader.exec_module(module)
    return module
