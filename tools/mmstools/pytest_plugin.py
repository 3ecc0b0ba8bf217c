"""Fixtures for pytest: the proved device in a project's own tests (docs/LIVE.md).

    PYTHONPATH=/path/to/mmscell/tools pytest -p mmstools.pytest_plugin

    def test_my_client(mms_port):             # a device listens on 127.0.0.1 at that port
        assert MyClient("127.0.0.1", mms_port).status() == "operational"

`mms_device` is the device itself (mmstools.device.Device), also that behind `mms_port`. Its configuration is that of
the fixture `mms_config`, which a project overrides: a text in TOML, or the path of a file. pytest is wanted only where
it runs.
"""
from typing import Iterator

from .device import Device

try:
    from pytest import fixture
except ImportError:  # the functions are there without it, too

    def fixture(function):
        """As pytest's."""
        return function


@fixture
def mms_config() -> str:
    """The device's configuration."""
    return ""


@fixture
def mms_device(mms_config) -> Iterator[Device]:
    """A device of its own for each test."""
    with Device(mms_config) as device:
        yield device


@fixture
def mms_port(mms_device) -> int:
    """The port of 127.0.0.1 at which that device listens."""
    return mms_device.listen()
