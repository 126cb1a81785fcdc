"""The example of gourzhiel.5, to the byte."""

from pathlib import Path

from beside_faults.room import TOP, sound


def faults_of_the_manual(room):
    with sound():
        Path("overlay.catalogue").write_text("module overlay\n")
        for words in ("create catalogue=overlay.catalogue", "modprobe overlay", "hold web17 overlay", "release web17"):
            room.runs(f"disk/overlay {words}")
        manual = (TOP / "docs/man/gourzhiel.5").read_text()
        setup, journal = (Path(f"disk/overlay/{name}").read_text() for name in ("setup", "journal"))
        is_there = f"indent\n{setup}.Ed" in manual and f"indent\n{journal[:-1]}.Ed" in manual and journal[-1] == " "
        room.sees(is_there, "the example of gourzhiel.5", setup, journal)
