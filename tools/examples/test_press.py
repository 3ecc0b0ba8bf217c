"""How a project tests against the proved device: its own client, and a press with two robots (press.toml).

    PYTHONPATH=/path/to/mmscell/tools pytest -p mmstools.pytest_plugin
"""
import os

from mmstools.device import INITIATE
from mmstools.pytest_plugin import fixture
from mmstools.stack.blocking import Client
from mmstools.write import written

HERE = os.path.dirname(os.path.abspath(__file__))


@fixture
def mms_config():
    """The configuration of the device in these tests."""
    return os.path.join(HERE, "press.toml")


class Press:
    """What a project has of its own: a client of the press over TCP."""

    def __init__(self, port):
        self.client = Client("127.0.0.1", port)
        self.client.open(INITIATE)

    def ask(self, words, invoke=1):
        """The answer to a request in words."""
        return self.client.ask(written(words, invoke).octets)


def test_status(mms_port):
    """One line makes a device to talk to."""
    assert Press(mms_port).ask("Status") == bytes.fromhex("A10B020101A006800100810100")


def test_who_has_a_robot_may_write(mms_device, mms_port):
    """The speed is guarded: who has no robot is refused. When control ends, the one who waits has it."""
    first, second = Press(mms_port), Press(mms_port)
    assert first.ask("Write Speed 7").hex() == "a108020101a503800103"  # object-access-denied
    first.ask("TakeControl Robots namedToken=R1 controlTimeOut=100")
    assert first.ask("Write Speed 7").hex() == "a107020101a5028100"  # success
    second.client.send(written("TakeControl Robots namedToken=R1", 5).octets)
    second.ask("Status", 6)
    assert mms_device.tick(99) == {}
    told = mms_device.tick(1)
    assert [pdu.words for pdu in told[2]] == ["TakeControl granted"]
    assert second.client.receive() == told[2][0]


def test_without_a_network(mms_device):
    """The same device, event by event; what was served is a recording."""
    press = mms_device.client(1)
    press.open()
    assert [pdu.words for pdu in press.send("Read Speed")] == ["Read 0"]
    assert mms_device.recording.count("\n1 A0") == 1
