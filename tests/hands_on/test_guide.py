"""Tests of the guide: each command of docs/SCHEDULES.md is run and must give what stands below it."""

import re
import subprocess

from checks import APART, ROOT

GUIDE = ROOT / "docs" / "SCHEDULES.md"


def blocks():
    """The commands of the guide, each with the text below it."""
    for block in re.findall(r"```console\n(.*?)```", GUIDE.read_text(), re.S):
        for part in re.split(r"^\$ ", block, flags=re.M)[1:]:
            command, _, output = part.partition("\n")
            yield command, output


def all_of(checks):
    checks.group("guide: its commands")
    folder = APART / "guide"
    folder.mkdir(parents=True, exist_ok=True)
    for name in ("tools", "examples", "tests"):
        if not (folder / name).exists():
            (folder / name).symlink_to(ROOT / name)
    for command, output in blocks():
        shown = re.fullmatch(r"cat (\w+\.txt)", command)
        if shown:
            (folder / shown[1]).write_text(output)
        ran = subprocess.run(command, shell=True, cwd=folder, stdout=subprocess.PIPE, stderr=subprocess.STDOUT, text=True)
        checks.equal(command, ran.stdout, output)
    named = set(re.findall(r"`([a-z-]+[0-9]?)`", GUIDE.read_text().split("## The gallery")[1].split("##")[0]))
    there = {path.stem for path in (ROOT / "examples").glob("*.txt") if not path.stem.startswith("refused-")}
    checks.equal("the guide names the gallery", named, there)
