"""Sessions that go on behind a torn transcript."""

import pytest

import ridepool as rp

COMMANDS = [
    ("submit", {"rider": 1, "origin": 1, "destination": 9, "second": 0}),
    ("submit", {"rider": 2, "origin": 2, "destination": 8, "second": 0}),
    ("seal", {"second": 10}),
    ("report", {"vehicle": 1, "node": 1, "second": 20}),
    ("cancel", {"rider": 2}),
]


@pytest.fixture(scope="module")
def given():
    """A small town, and the transcript of a session in it."""
    net = rp.Network.made(side=3, seed=2)
    fleet = rp.Fleet.drawn(net, vehicles=2, seed=2)
    with rp.live(net, fleet, rp.Settings(proof=True)) as session:
        for kind, fields in COMMANDS:
            getattr(session, kind)(**fields)
        session.close()
        return net, fleet, session.transcript.encode()


def test_a_session_goes_on_behind_each_line(given):
    net, fleet, whole = given
    ends = [place + 1 for place, byte in enumerate(whole) if byte == 10]
    for end in ends[3::3]:
        with rp.resume(whole[: end + 2], net, fleet) as session:
            entries, was_open = session.stand.entries, session.stand.open is not None
            reply = session.report(vehicle=2, node=9, second=40)
            assert reply.is_taken and reply.position == entries + was_open
            assert session.transcript.encode().startswith(whole[: session.stand.bytes])
            day = session.close()
        assert len(day.replies) == entries + was_open + 1


def test_a_row_of_a_kept_round_never_comes(given):
    net, fleet, whole = given
    with rp.resume(whole, net, fleet, judge=True, workers=1) as session:
        assert session.stand == rp.sessions.resumed.Stand(len(COMMANDS) + 1, len(whole) - len(b"done 6\n"), 0, None)
        assert session.dialogue.round == 1
        assert session.cancel(rider=1).position == len(COMMANDS) + 1


def test_a_transcript_that_is_none(given):
    net, fleet, whole = given
    for torn in b"", whole[:30], whole.replace(b"proof=1", b"proof=0"):
        with pytest.raises(rp.AuditFailed):
            rp.resume(torn, net, fleet)
