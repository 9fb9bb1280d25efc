"""The functions of the library that a test run calls are recorded: the last test compares them with the header's."""
import pytest
import vejgodat
from vejgodat import _calls

called = set()


class Recorder:
    def __init__(self, lib):
        self._lib = lib

    def __getattr__(self, name):
        if name.startswith("vejgodat_"):
            called.add(name)
        return getattr(self._lib, name)


vejgodat.lib = _calls.lib = Recorder(_calls.lib)


@pytest.fixture
def functions_called():
    return called
