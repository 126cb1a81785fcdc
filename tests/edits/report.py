"""What a check prints of each function, and what that says of an edit."""

import re

FUNCTION_LINE = re.compile(r"fn (\S+): (.*)")
# (the last two where another function's proof is a hole)
PROVED = re.compile(r"(?:proved|assumed|no holes)(?:[,;:].*)?|depends on a hole in .*")
ERROR_LINE = re.compile(r"(?:\./)?(\S+?):\d+:\d+: error(?:\[[\w-]+\])?: (?:(`[^`]*`): )?(.*)")
CALLS = re.compile(r"(?:; )?it calls ((?:`[^`]+`(?: and )?)+), which (?:is|are) not proved")
STANDS_ON = re.compile(r"it stands on (.*?), which antt refuses")
TAKEN_AWAY = re.compile(r"has no field|is not in scope|has no `|was not admitted")
NOT_READ = re.compile(
    r"is not in scope|has no field|is no name|operand is missing|expected the end|cannot continue",
)
ONLY_NAMES = "only because a proof file names what the edit took away: "


class Report:
    """The lines of a check: what it says of each function, its errors, and the functions that it checked again."""

    def __init__(self, said):
        self.said = said
        self.verdicts = dict(found.groups() for found in map(FUNCTION_LINE.fullmatch, said.splitlines()) if found)
        self.errors = [found.groups() for found in map(ERROR_LINE.match, said.splitlines()) if found]
        self.checked = set(re.findall(r"(?m)^checked ([^\s,]+)", said))

    def has_verdict(self):
        return re.search("(?m)^(logic|only)=", self.said) is not None

    def is_refused(self):
        """Whether the crate, or one of the functions asked for, is not proved."""
        return bool(self.refused()) or re.search("(?m)^logic=not-proved", self.said) is not None

    def refused(self):
        """The functions that are not proved."""
        return {name for name, verdict in self.verdicts.items() if not PROVED.fullmatch(verdict)}

    def files_not_read(self, changed):
        """The files whose text cannot be read. There the prover tried no contract."""
        stated = [it for it in self.errors if it[0] in changed or it[0].startswith(("src/", "specs/"))]
        return {path for path, name, said in stated if not self.has_verdict() or not name or is_not_read(said)}

    def errors_of(self, function):
        """The errors in the files of the function's proof."""
        folder = "/".join(["proofs", *function.split("::")[1:]]) + "/"
        return [f"{path}: {said}" for path, _, said in self.errors if path.startswith(folder)]


def is_not_read(said):
    return NOT_READ.search(re.sub(r"`[^`]*`", "", said)) is not None


def belongs(name, functions):
    """Whether the function is one of these, or a closure in one of them."""
    plain = re.sub(r"\+Fn\w*::\w+", "", name).replace("::fn::", "::")
    return any(plain == it or plain.startswith(f"{it}::") for it in functions)


def called(verdict):
    """The functions that are not proved and that this one calls."""
    return {name for found in CALLS.finditer(verdict) for name in re.findall(r"`([^`]+)`", found[1])}


def own_cause(name, report):
    """Why the function is not proved, if that lies in the function, or None."""
    verdict = CALLS.sub("", report.verdicts[name])
    errors = report.errors_of(name)
    searched = re.search(r"`search` did not prove.*", verdict)
    stands = STANDS_ON.search(verdict)
    if searched:
        return searched[0]
    if errors:
        first = next((it for it in errors if not TAKEN_AWAY.search(it)), None)
        return first or ONLY_NAMES + errors[0]
    return stands[0] if stands and name.replace("::", ".").partition(".")[2] in stands[1] else None


def judged(edit, report, is_alone):
    """Whether the edit is refused, and why. It is None if this round cannot tell."""
    missing = [name for name in edit.functions if name not in report.verdicts]
    if missing:
        return False, f"the prover prints nothing of {missing[0]}"
    own = sorted(name for name in report.refused() if belongs(name, edit.functions))
    if not own:
        return False, "NOT REFUSED: the function is still proved"
    cause = next(filter(None, (own_cause(name, report) for name in own)), None)
    if is_alone:
        return True, cause or report.verdicts[own[0]]
    calls = {it for name in own for it in called(report.verdicts[name])}
    others = {it for it in calls & report.refused() if not belongs(it, edit.functions)}
    return (None, "") if others or not cause else (True, cause)
