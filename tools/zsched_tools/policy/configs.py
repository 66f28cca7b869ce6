"""The policies of a config's file: each is found first, and read when it is wanted."""
from zsched_tools import command
from zsched_tools.command import Unread
from zsched_tools.policy import java_source, libraries, profiles, python_source, reading, scala_policies, services
from zsched_tools.policy.reading import Wrong
from zsched_tools.words import listed, shown

# The name that all policies of a file have.
EACH = "*"


def _found(path):
    text = reading.read_text(path)
    kind = reading.kind_of(path, text)
    if kind == "python":
        return sorted(python_source.find(text), key=lambda it: it.line)
    if kind in ("scala", "typescript"):
        return scala_policies.find(text, kind)
    if kind == "java":
        return list(java_source.find(text))
    if kind == "ini":
        return list(services.find_aws(reading.read_ini(text)))
    return profiles.found(path, _trees(path, text), lambda other: _trees(other, reading.read_text(other)),
                          lambda tree: [*services.find(tree), *libraries.find(tree, path)])


def _trees(path, text):
    """The trees of a config's documents."""
    kind = reading.kind_of(path, text)
    if kind == "json":
        return [reading.read_json(text)]
    return (reading.read_properties if kind == "properties" else reading.read_yaml)(text)


def policies_of(path):
    """All policies of a file, each with a name that no other one has."""
    named, used = [], {}
    try:
        for policy in _found(path):
            name = shown(policy.name, 200)
            used[name] = used.get(name, 0) + 1
            named.append(policy._replace(name=name if used[name] == 1 else f"{name}-{used[name]}"))
    except Wrong as wrong:
        raise Unread(path, wrong.what, wrong.line, wrong.column) from None
    return named


def names_of(policies):
    more = [f"{len(policies) - 20} more"] if len(policies) > 20 else []
    names = listed([*(it.name for it in policies[:20]), *more])
    return f"it has {names}" if names else "zsched-policy import --help lists the formats"


def policy_of_file(path, name):
    """The Policy of a file with this name; without a name, or with *, the file has one policy, with any names."""
    with command.budget(path):
        policies = policies_of(path)
        chosen = [it for it in policies if name in (None, it.name)] or (policies if name == EACH else [])
        if not chosen or any(it.read is not chosen[0].read for it in chosen):
            what = "more than one policy, write @FILE#NAME" if chosen else f"no policy {shown(name or '')}".rstrip()
            raise Unread(path, f"{what}; {names_of(policies)}")
        return read(path, chosen[0])


def read(path, found):
    """The Policy of what was found in a file, or its error. What of the source is not there is noted."""
    try:
        policy = policy_of(found)
    except Wrong as wrong:
        raise Unread(path, f"{found.name}: {wrong.what}", wrong.line, wrong.column) from None
    for what in policy.notes:
        command.note(f"{found.name}: {what}", "zsched-policy")
    return policy


def policy_of(found):
    """The Policy of what was found in a file. Wrong has its error."""
    try:
        policy = found.read()
    except ValueError as wrong:
        raise Wrong(found.line, wrong, found.column) from None
    policy.name = found.name
    return policy


def each_of_file(path):
    """The Policy of each that a file has."""
    with command.budget(path):
        if not (policies := policies_of(path)):
            raise Unread(path, f"no policy; {names_of(policies)}")
        return [read(path, it) for it in policies]


def members(found, policy):
    """A policy as an object of JSON."""
    return {"name": found.name, "format": found.form, "schedule": policy.waits, "attempt_timeout_ms": policy.timeout,
            "deadline_ms": policy.deadline, "drawn": policy.draws, "retries_on": list(policy.on),
            "asked_ms": policy.asked, "budget": policy.budget, "parallel": policy.parallel, "jitter": policy.jitter,
            "left_out": policy.left_out, **({"mode": policy.mode} if policy.mode else {})}
