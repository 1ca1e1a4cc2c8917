"""Each text that is typed has a fate."""

from __future__ import annotations

from cases.stage import Stage, demand


def fates(stage: Stage) -> None:
    """Texts wait while a member is killed and stopped, more are typed than there are turns, and one goes away for
    longer than the run. Each is sent, refused, or told as unsent."""
    stage.make(3, 4)
    stage.servers[0].start()
    for member in stage.members:
        member.start()
    stage.say(2)
    ann, ben, cem = stage.members
    # (nothing goes yet, since a server isn't there)
    ben.type("say 1 waits in vain")
    ben.type("say 0 not mine")
    ben.type("say 1 " + "long " * 30)
    stage.until(lambda: len(ben.lines("refused")) == 2, "two refusals")
    ben.kill()
    ben.start()
    stage.until(lambda: "unsent ben waits in vain" in ben.told(), "the texts that a kill left")
    ben.type("say 1 comes")
    cem.type("say 2 waits until it is stopped")
    cem.type("say 0 not mine")
    stage.until(lambda: cem.lines("refused"), "a refusal")
    cem.stop()
    demand("unsent cem waits until it is stopped" in cem.told(), f"a stopped member told {cem.told()}")
    cem.start()
    stage.servers[1].start()
    stage.wrote(0, 2)
    for number in range(stage.shape.turns + 2):
        ann.type(f"say 0 number {number}")
    stage.until(lambda: "refused ann over" in ann.told(), "a refusal of a text too many")
    cem.type("say 2 goes ahead")
    cem.type(f"away {stage.shape.turns + stage.rng.randint(1, 1000)}")
    stage.until(lambda: cem.lines("away"), "a member to go away")
    cem.type("say 2 too late")
    stage.until(lambda: "refused cem over" in cem.told(), "a refusal of a text after the last turn")
    stage.until(lambda: "turns were left" in cem.complaints(), "a word about away beyond the end")
    ann.kill()
    ann.start()
    for number in range(stage.shape.turns):  # (so many that one goes in each turn that is read)
        ann.type(f"say ann once more {number}")
    stage.end_all()
    stage.compare()
    stage.pads()
