"""Converts a report to JSON lines, and JSON lines to the report.

Each attempt is an object of type `attempt`, each job's ending an object of type `end`, and the last line an object of
type `total`. Numbers are JSON numbers, up to 2^64 - 1 (the total has no bound). Outputs of schedules are texts, as in
the report."""
import json

from zsched_tools.command import Refused
from zsched_tools.reports import Attempt, Ending, Reader, records, shown, text_lines

_decode = json.JSONDecoder(parse_float=str).decode
_encode = json.JSONEncoder(separators=(",", ":")).encode
_ordered = json.JSONEncoder(sort_keys=True).encode


def item_of(job, record):
    if isinstance(record, Attempt):
        return {"type": "attempt", "job": job.name, "mode": job.mode, "attempt": record.number, "begin": record.begin,
                "end": record.end, "outcome": record.outcome, "value": record.value, "waited": record.waited,
                "out": record.out, "next": record.next}
    if isinstance(record, Ending):
        return {"type": "end", "job": job.name, "mode": job.mode, "ending": record.how, "value": record.value,
                "out": record.out, "at": record.at, "polls": record.polls}
    return {"type": "total", "polls": record.polls}


def write_lines(file, write, progress=None):
    """Writes the JSON lines of a report, a binary file, while it is read."""
    for job, record in records(file, progress):
        write(_encode(item_of(job, record)))


def report_lines(item, is_open):
    """The report's lines for a JSON object. If no job is open, the job's first line is before them."""
    if item["type"] == "total":
        return [f"polls {item['polls']}"]
    first = [] if is_open else [f"job {item['job']} {item['mode']}"]
    if item["type"] == "attempt":
        ended = "running" if item["end"] is None else f"{item['end']} {item['outcome']} {item['value']}"
        space = " " if item["end"] is None else ""
        lines = [*first, f"attempt {item['attempt']} {item['begin']}..{space}{ended}"]
        after = "done" if item["next"] is None else f"next {item['next']}"
        return lines + ([] if item["out"] is None else [f"step {item['attempt']} out {item['out']} {after}"])
    if item["type"] == "end":
        result = {"succeeded": f" {item['value']}", "failed": f" {item['value']}", "finished": f" {item['out']}"}
        how = item["ending"]
        return [*first, f"end {how}{result.get(how, '')} at {item['at']} polls {item['polls']}"]
    raise KeyError(item["type"])


def _again(reader, line):
    """The report's lines for a JSON line. The line is rejected if it differs from the object that these lines make."""
    item = _decode(line)
    job, record = reader.job, None
    texts = report_lines(item, job is not None)
    for text in texts:
        if "\n" in text:
            raise ValueError(text)
        record = reader.take(text)
        job = job or reader.job
    if record is None or _ordered(item_of(job, record)) != _ordered(item):
        raise ValueError(line)
    return texts


def write_report(source, write):
    """Writes the report of JSON lines, line by line. The lines must be those that `write_lines` writes for that report,
    except for white space and the order of keys."""
    reader, number = Reader(), 0
    for number, line in enumerate(text_lines(source), 1):
        try:
            texts = _again(reader, line)
        except Refused as refused:
            raise Refused(f"line {number}, made into a report: {refused}") from None
        except (ValueError, KeyError, TypeError, AttributeError, RecursionError):
            raise Refused(f"line {number} isn't a line of a report as JSON: {shown(line)}") from None
        for text in texts:
            write(text)
    if reader.total is None:
        raise Refused(f"ends after line {number}, without its last line, of type total")
