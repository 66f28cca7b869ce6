"""All policies of folders and files: each that is found, its bounds, and what of it breaks a limit or can't be read."""
import os
import sys
import types
from dataclasses import dataclass, field, replace

from zsched_tools import bounding, checks, command, drawn
from zsched_tools.bounding import Bounds, Driver
from zsched_tools.command import Refused, Unread
from zsched_tools.place import FaultAt
from zsched_tools.policy import configs, limits, saying, walking
from zsched_tools.policy.fields import Found
from zsched_tools.policy.reading import Wrong
from zsched_tools.schedule_rules import cause_of
from zsched_tools.settings import not_covered
from zsched_tools.trying.layers import Layers
from zsched_tools.words import duration, listed, plural, shown

# What a finding is, by its word.
RULES = {"unreadable": "A file or a folder that can't be read, or what looks like a known policy and can't.",
         "limit": "No proof holds a policy to a limit.",
         "not-applied": "A limit of a policy of which not each setting is applied.",
         "fits-nothing": "A part of .zsched.toml that fits no file, no policy, or no finding.",
         "nothing": "No policy was found, or no policy has a limit.",
         "not-understood": "A file that mentions retries where no policy is known. Only --strict asks for it."}


@dataclass
class Finding:
    """What is wrong, with its rule, at a place. `reason` says why it is ignored."""
    rule: str
    path: str
    line: int
    text: str
    column: int | None = None
    name: str | None = None
    reason: str | None = None

    def place(self):
        return ":".join([shown(self.path, 400), str(self.line), *([str(self.column)] if self.column else [])])

    def what(self):
        return f"{self.name}: {self.text}" if self.name else self.text

    def words(self):
        return f"{self.place()}: {self.what()}"


@dataclass
class Checked:
    """A policy of a file: where it was found, what runs it, its bounds and its first waits, and its limits."""
    path: str
    found: Found
    policy: drawn.Policy
    limits: dict
    driver: Driver
    bounds: Bounds | None = None
    waits: saying.Waits | None = None
    broken: list = field(default_factory=list)

    def finding(self, rule, text):
        return Finding(rule, self.path, self.found.line, text, self.found.column, self.found.name)


def _unread(path, refused):
    """The finding that a file is rejected, at the place that is known of it."""
    if isinstance(refused, Unread):
        return Finding("unreadable", path, refused.line or 1, refused.what, refused.column)
    return Finding("unreadable", path, 1, str(refused))


def _fault(fault):
    """What is said of a fault of a tool in one file. The check of the others goes on."""
    if isinstance(fault, RecursionError):
        return "the input is nested too deeply"
    for line in command.trace_of(fault):
        print(line, file=sys.stderr)
    return f"internal error, please report: {shown(repr(fault), 400)}; ZSCHED_TRACE=1 shows where"


def _driver(policy, attempt, asked):
    """What runs a policy: attempts take up to a time, or up to its own limit, and services ask for waits of up to
    another, of which it makes those that its settings have."""
    attempt = min(filter(None, (attempt, policy.timeout)), default=None)
    return Driver(attempt and (1, attempt), asked=min(it for it in (policy.asked or 0, asked) if it is not None))


class Check:
    """The policies of some places, and what is wrong. `files` counts what isn't searched, by the rule; `searched`
    and `with_policies` the others. `mentions` has those that mention retries and have no policy, each with its place.
    `allowed` has the settings that no check has to apply, and `is_whole` says whether all files of the config's folder
    are searched."""

    def __init__(self, config, given):
        self.config, self.given, self.files, self.policies, self.findings = config, given, {}, [], []
        self.searched, self.with_policies, self.seen, self.allowed, self.is_whole = 0, 0, set(), set(), False
        self.mentions = {}

    def walk(self, places):
        """Reads the policies of folders and files."""
        for place in places:
            if not os.path.isdir(place):
                self._file(place, True)
                continue
            self.is_whole |= not os.path.relpath(self.config.folder, place).startswith("..")
            for path in walking.files_of(place, self._unlisted):
                try:
                    rule = walking.rule_of(path, self.config)
                except OSError as failure:
                    self._add(Finding("unreadable", path, 1, failure.strerror or str(failure)))
                    continue
                if rule is None:
                    self._file(path, False)
                else:
                    self.files[rule] = self.files.get(rule, 0) + 1

    def _unlisted(self, path, why):
        """Adds a folder that can't be listed, unless it is left out."""
        if self.config.left_out(path) is None and self.config.left_out(os.path.join(path, "")) is None:
            self._add(Finding("unreadable", path, 1, f"this folder can't be listed: {why}"))

    def _file(self, path, is_named):
        """Reads the policies of a file, once: of a folder's one if it looks as if it had any."""
        if (place := os.path.abspath(path)) in self.seen:
            return
        self.seen.add(place)
        self.searched += 1
        policies, text = [], ""
        try:
            text = "" if is_named else walking.text_of(path)
            if is_named or walking.is_known(path) and walking.has_mark(path, text):
                with command.budget(path):
                    policies = configs.policies_of(path)
                    for found in policies:
                        self._policy(path, found)
        except Refused as refused:
            self._add(_unread(path, refused))
            return
        except OSError as failure:
            if is_named or failure.errno is None:
                raise
            self._add(Finding("unreadable", path, 1, failure.strerror or str(failure)))
            return
        except MemoryError:
            raise
        except Exception as fault:
            self._add(Finding("unreadable", path, 1, _fault(fault)))
            return
        self.with_policies += bool(policies)
        if found := walking.mention(path, text, [it.line for it in policies]):
            self._mention(path, found)
        if is_named and not policies:
            self._add(Finding("nothing", path, 1, f"no policy; {configs.names_of([])}"))

    def _mention(self, path, found):
        """Adds a file that mentions retries where no policy is known."""
        self.mentions[path] = found
        if self.given.strict:
            self._add(Finding("not-understood", path, found.line, f"{found.word} is a word of retries, and no policy "
                              "is known there; leave_out or ignore says that there is none"))

    def _policy(self, path, found):
        """Adds a policy of a file, or why it can't be read."""
        try:
            policy = drawn.Policy(f"@{path}#{found.name}", self.given.zsched, configs.policy_of(found))
            policy.schedule(drawn.HIGH)
        except (Wrong, FaultAt) as wrong:
            what = (wrong.line, wrong.what, wrong.column) if isinstance(wrong, Wrong) else (
                found.line, wrong.cause.what, found.column)
            self._add(Finding("unreadable", path, *what, found.name))
            return
        except (Refused, OSError, MemoryError):
            # The limit of the file's work is over, or a program is missing: its other policies fare no better.
            raise
        except Exception as fault:
            self._add(Finding("unreadable", path, found.line, _fault(fault), found.column, found.name))
            return
        known = self.config.of(path, found.name) | self.given.limits
        driver = _driver(policy, known.get("attempt"), known.get("asked"))
        self.policies.append(Checked(path, found, policy, known, driver))

    def _add(self, finding):
        finding.reason = self.config.reason(finding.path, finding.name)
        self.findings.append(finding)

    def prove(self):
        """Finds the bounds and the first waits of all, and adds what breaks a limit."""
        waits = saying.waits_of(self.given.zsched, [it.policy for it in self.policies])
        wrong = [(it, cause) for it, cause in zip(self.policies, waits) if not isinstance(cause, saying.Waits)]
        for it, cause in wrong:
            self._add(it.finding("unreadable", cause.what))
        pairs = [(it, found) for it, found in zip(self.policies, waits) if isinstance(found, saying.Waits)]
        self.policies = [it for it, _ in pairs]
        all_bounds = bounding.of_policies(self.given.bounds, [it.policy for it in self.policies],
                                          [it.driver for it in self.policies])
        for (it, it.waits), it.bounds in zip(pairs, all_bounds):
            for rule, text in self._broken(it):
                self._add(it.finding(rule, text))
                it.broken.append(self.findings[-1])
        self._loads()
        self._layers()

    def _broken(self, it):
        """The rule and the words of each limit that a policy breaks."""
        asked = [name for name in checks.LIMITS if name in it.limits]
        if not asked and "load" not in it.limits:
            return
        yield from self._not_applied([it.policy], it.limits.get("allow_left_out", []), "bound")
        yield from self._over(it.limits, it.bounds, it.policy)

    def _not_applied(self, policies, allowed, tool):
        allowed = [*allowed, *self.given.allow_left_out]
        names = {name for it in policies for name in (*it.refused(tool), *it.left_out)}
        self.allowed |= names & {*allowed}
        for text in not_covered([it for it in allowed if it in names], policies, tool):
            what = text.partition(": ")[2].partition("; no check passes")[0]
            yield "not-applied", f"{what}; no limit holds over that without allow_left_out"

    def _over(self, known, bounds, *policies):
        """What isn't proved of limits, for a policy or for layers."""
        end, (latest, is_cut) = known.get("end"), bounds.latest()
        if end is not None and is_cut and latest <= end:
            if not (known.get("by_call_limit") or self.given.allow_unproved):
                yield "limit", (f"end {duration(end)} is not proved: a call of up to {bounding.rounded(latest)} by the "
                                "call's own limit (by_call_limit = true accepts it)")
            end = None
        bounds = replace(bounds, is_product=bounds.is_product and not known.get("by_product"))
        asked = types.SimpleNamespace(require_end=end, allow_unproved=self.given.allow_unproved, **{
            f"require_{it}": known.get(it) for it in checks.LIMITS if it != "end"})
        for text in checks.not_proved(asked, bounds, *policies, before=""):
            needs = "; an end needs attempt = TIME" * (not bounds.is_limited and text.startswith("end "))
            by_product = text.replace("layers is unproved (--allow-unproved", "layers is unproved (by_product = true")
            yield "limit", by_product + needs

    def _loads(self):
        """Adds each load that isn't proved: attempts that begin within a time, of clients that begin at once. A client
        makes at most those of its policy with a limit of that time."""
        groups = {}
        for it in self.policies:
            if (load := it.limits.get("load")) and (driven := it.policy.driven()):
                text = f"({driven[0]} && elapsed.whileOutput(< {load.within}))"
                if cause_of(text, "too big") is None:
                    groups.setdefault((it.driver.with_late(it.policy.late), driven[1]), []).append((it, text))
        known = {}
        for (driver, waits), group in groups.items():
            found = bounding.run(self.given.bounds, [text for _, text in group], driver, waits)
            known |= {id(it): bounds for (it, _), bounds in zip(group, found)}
        for it in self.policies:
            if load := it.limits.get("load"):
                self._load(it, load, known.get(id(it)))

    def _load(self, it, load, bounds):
        most = None if bounds is None or it.policy.is_cut else bounds.most
        what = f"load {load.attempts} of {load.clients} clients within {duration(load.within)} is not proved: "
        is_proved = bounds is not None and bounds.is_proved and not it.policy.is_argued or self.given.allow_unproved
        if most is None:
            text = "no limit of attempts"
        elif most * load.clients > load.attempts:
            text = f"up to {plural(most * load.clients, 'attempt')}"
        elif not is_proved:
            text = "zsched-bounds is unproved (--allow-unproved accepts it)"
        else:
            return
        self._add(it.finding("limit", what + text))
        it.broken.append(self.findings[-1])

    def _layers(self):
        """Adds the limits of layers that aren't proved."""
        for entry in self.config.layers:
            chosen = [self._named(entry, name) for name in entry.names]
            if None in chosen:
                continue
            policies = [it.policy for it in chosen]
            made = Layers(None, types.SimpleNamespace(read=policies), [it.timeout for it in policies], ())
            driver = _driver(policies[-1], entry.attempt, entry.asked)
            whole = made.bounds(self.given.bounds, driver)[1]
            known = {"attempts": entry.attempts, "end": entry.end, "by_call_limit": entry.by_call_limit,
                     "by_product": entry.by_product}
            for rule, text in [*self._not_applied(policies, entry.allow_left_out or [], "layers"),
                               *self._over({key: it for key, it in known.items() if it is not None}, whole, *policies)]:
                self._add(Finding(rule, self.config.path, entry.line, f"{listed(entry.names, 'over')}: {text}"))

    def _named(self, entry, name):
        """The one policy with a name of layers, or PATH#NAME."""
        path, _, plain = name.rpartition("#")
        found = [it for it in self.policies if it.found.name == plain and (
            not path or self.config.relative(it.path) == path)]
        if len(found) != 1:
            what = f"{len(found)} policies have the name {shown(name)}: write PATH#NAME" if found else (
                f"no policy has the name {shown(name)}")
            if found or self.is_whole:
                self._add(Finding("fits-nothing", self.config.path, entry.line, f"layers: {what}"))
        return found[0] if len(found) == 1 else None

    def finish(self):
        """Adds what of the limits fits nothing, if all files were read, and whether there is nothing to check."""
        for line, what in self.config.unused(self.allowed) if self.is_whole else ():
            self._add(Finding("fits-nothing", self.config.path, line, f"{what} fits nothing: remove or mend it"))
        for name in self.given.allow_left_out:
            if name not in self.allowed:
                raise Refused(f"--allow-left-out {name}: no policy with a limit leaves that out")
        if not self.policies and not self.findings:
            self._add(Finding("nothing", ".", 1, f"no policy; {configs.names_of([])}"))
        elif self.policies and not (self.config.layers or any(self.has_limit(it) for it in self.policies)):
            self._add(Finding("nothing", self.config.path or limits.NAME, 1,
                              "no policy has a limit, so nothing was checked: write [[limits]] there, or give "
                              "--require-end 30s"))
        self.findings.sort(key=lambda it: (it.path, it.line, it.column or 0))

    @staticmethod
    def has_limit(it):
        return any(name in it.limits for name in (*checks.LIMITS, "load"))

    def wrong(self):
        """The findings that aren't ignored."""
        return [it for it in self.findings if it.reason is None]
