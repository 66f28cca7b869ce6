"""A log of calls, read as attempts with their moments: CSV, JSON lines, Envoy's access log, or the JSON of
OpenTelemetry's or Jaeger's spans.

Moments and lengths are whole nanoseconds here. A log may have millions of rows: of each only a few numbers stay in
memory. A cell that isn't understood, or has no request, is an error with its row and column."""
import array
import collections
import csv
import functools
import gc
import io
import itertools
import json
import math
import operator
import re
from typing import NamedTuple

from zsched_tools.call_cells import (MOST_CODE, MOST_NANOSECONDS, UNITS, Column, Lengths, Moments, Statuses, is_moment,
                                     plain_name)
from zsched_tools.command import Refused, number
from zsched_tools.progress import Progress
from zsched_tools.words import listed, plural, shown

# The known columns, without their units, in the order of the search.
REQUESTS = ["request_id", "request", "parent", "parent_span_id", "parent_id", "trace_id", "correlation_id", "call_id",
            "name", "id", "job", "key"]
BEGINS = ["begin", "start", "started", "begin_time", "start_time", "begin_at", "started_at", "start_at"]
ENDS = ["end", "finish", "ended", "finished", "end_time", "finish_time", "ended_at", "finished_at", "end_at"]
STAMPS = ["timestamp", "ts", "datetime", "date", "logged_at", "at", "time"]
LENGTHS = ["latency", "duration", "elapsed", "took", "response_time", "request_time", "time_taken", "time", "ms"]
STATUSES = ["status_code", "http_status", "http_status_code", "http_response_status_code", "response_code",
            "grpc_status", "grpc_code", "status", "code", "outcome", "result", "status_status_code"]
ENDPOINTS = ["endpoint", "path", "url", "uri", "route", "target", "host", "upstream", "service", "name"]
# What is an attempt's endpoint, each column that is there; and the requests that may call several, each a request.
PARTS = {"method", "http_method", "http_request_method", "request_method", "rpc_method", "service", "peer_service",
         "rpc_service", "host", "authority", "http_host", "server_address", "server_port", "net_peer_name",
         "net_peer_port", "endpoint", "path", "http_path", "request_path", "url_path", "url", "http_url", "url_full",
         "uri", "request_uri", "route", "http_route", "url_template", "target", "http_target"}
SHARED = {"parent", "parent_span_id", "parent_id", "trace_id"}
# What each option names, in words.
ROLES = {"--name": "request", "--begin": "begin", "--end": "end", "--time": "length", "--status": "status",
         "--endpoint": "endpoint"}
# How packed files begin, and what unpacks them.
PACKED = {b"\x1f\x8b": "gzip: zcat", b"\x28\xb5\x2f\xfd": "zstd: zstdcat", b"BZh": "bzip2: bzcat",
          b"\xfd7zXZ": "xz: xzcat"}
# Exports of systems that store logs: the keys by which each is known, and what makes rows of the lines in it.
_EXPORTS = {
    "Loki": ([["data", "result", 0, "values"]],
             ".data.result[].values[] | {timestamp: .[0]} + (.[1] | fromjson)"),
    "logcli": ([["labels"], ["line"], ["timestamp"]], "{timestamp} + (.line | fromjson)"),
    "CloudWatch": ([["events", 0, "message"], ["events", 0, "timestamp"]],
                   ".events[] | {timestamp} + (.message | fromjson)"),
    "CloudWatch Insights": ([["results", 0, 0, "field"]], ".results[] | map({(.field): .value}) | add"),
    "Datadog": ([["data", 0, "attributes", "attributes"]], ".data[].attributes | del(.attributes) + .attributes")}
# The columns by which a log of pino is known, of pino-http or Fastify, and what makes rows of it. Its moments are ends.
_PINO = {"level", "time", "pid", "hostname", "res.statusCode"}
_PINO_ROWS = ('select(.res) | {request_id: (.req.headers["x-request-id"] // .req.id // .reqId), method: .req.method, '
              "url: .req.url, end: .time, duration_ms: .responseTime, status: (.res.statusCode // 0)}")
# A line of Envoy's access log in its usual form, or in Istio's, which has three more words after the flags.
_ENVOY = re.compile(r'\[(?P<start_time>[0-9]{4}-[^] ]*)\] "(?P<method>\S*) (?P<path>\S*) [^"]*" '
                    r'(?P<response_code>[0-9]+) \S+ (?:\S+ \S+ "[^"]*" )?[0-9]+ [0-9]+ (?P<duration>[0-9]+) \S+ '
                    r'"[^"]*" "[^"]*" "(?P<request_id>[^"]*)" "(?P<authority>[^"]*)"')
# The keys of spans with a status, and what a client's span and an error are.
_SPAN_CODES = ["http.response.status_code", "http.status_code", "rpc.grpc.status_code"]
_SPAN_TEXTS = ["traceId", "spanId", "parentSpanId", "name"]
_CLIENT = ("3", "SPAN_KIND_CLIENT")
# The keys of OpenTelemetry's exports, and of an answer of Jaeger in its older form.
_RESOURCES = ["resourceSpans", "resource_spans"]
_ANSWER = {"data", "total", "limit", "offset", "errors", "structuredLogs"}
_ERROR = ("2", "STATUS_CODE_ERROR")
_ROWS = 5000


class Notes:
    """The changes of a file: the first change of each kind, and the number of changes."""

    def __init__(self):
        self.found = {}

    def add(self, kind, place, text):
        """Adds a change. `place` is its place in the file."""
        self.found.setdefault(kind, [place, text, 0])[2] += 1

    def lines(self):
        """A line for each kind of change: its place and its text."""
        for place, text, count in sorted(self.found.values()):
            yield place, text if count == 1 else f"{text}; {count} such changes, this is the first"


class Call(NamedTuple):
    """An attempt. Without moments `begin` is None; `length` is None if no column has it. Equal rows have one `mark`."""
    begin: int | None
    length: int | None
    is_ok: bool
    code: int
    row: int
    mark: int


def add_options(group):
    """Adds the options of a log to a command's."""
    group.add_argument("--name", metavar="COLUMN", help="the column with the request of an attempt, or several, as a,b")
    for option, what in list(ROLES.items())[1:-1]:
        group.add_argument(option, metavar="COLUMN", help=f"the column with the {what} of an attempt")
    group.add_argument("--unit", choices=list(UNITS), help="the unit of lengths (by the column's name, else ms)")
    group.add_argument("--timestamps", choices=["begin", "end"], default="begin",
                       help="what a column 'timestamp' is: the begin of an attempt (default) or its end")
    group.add_argument("--errors-from", type=number(0, MOST_CODE, "{} is not a whole number"), default=400, metavar="N",
                       help="a status of N or more is an error (400); so is 0, unless N is below 100")
    group.add_argument("--endpoint", metavar="NAME", help="only the attempts of this endpoint, path or span's name")


def in_ms(length):
    """Nanoseconds as whole milliseconds, rounded."""
    return (length + 500_000) // 1_000_000


class Reader:
    """A log of calls, read as the options of a command say; `told` says how the columns were read. The attempts are in
    the order of the rows: their requests, which are numbers of `names`, begins, lengths, statuses, rows and marks.
    `latest` is the last moment of the rows that --endpoint leaves out."""

    def __init__(self, tool, path, data, given, notes):
        self.path, self.given = path, given
        self.requested, self.begins, self.lengths, self.statuses = array.array("L"), array.array("q"), [], []
        self.rows, self.marks, self.latest = array.array("Q"), array.array("q"), -math.inf
        progress = Progress(tool, lambda rows: f"reads {path}: {rows:,} rows")
        # What is made for each row has no cycles, and looking for some takes half of the time.
        gc.disable()
        try:
            rows, self.word = _rows(path, data)
            (_, head), *firsts = itertools.islice(rows, 2)
            self.head = [name.strip() for name in head]
            if not self.head:
                raise Refused(f"{path}:1: the log has no attempt")
            self._refuse_missing(tool)
            self._find_columns(firsts[0][1] if firsts else [])
            self._take(itertools.chain(firsts, rows), notes, progress)
        except UnicodeDecodeError:
            raise _not_utf8(path, data) from None
        finally:
            progress.close()
        if not self.rows:
            where = "" if given.endpoint is None else f" of the endpoint {shown(given.endpoint)}"
            raise Refused(f"{path}:1: the log has no attempt{where}")

    def _column(self, chosen, known, option=None, but=()):
        """The column that was chosen, else the first that is known. With an option there has to be one."""
        names = self.head
        pairs = [plain_name(name) for name in names]
        words, but, same = (names, (), names) if chosen is not None else ([plain for plain, _ in pairs], but, pairs)
        for name in known if chosen is None else [chosen]:
            if name in words and words.index(name) not in but:
                number = words.index(name)
                if same.count(same[number]) > 1:
                    raise Refused(f"{self.path}:1: two columns are named {shown(names[number])}")
                return Column(number, names[number], pairs[number][1], self.path, self.word)
        if option is None and chosen is None:
            return None
        names_it = "" if option == "--endpoint" else f": {option} COLUMN names it"
        what = (f"{option}: no column {shown(chosen)}" if chosen is not None
                else f"no known column has the {ROLES[option]} of an attempt{names_it}")
        raise Refused(f"{self.path}:1: {what}; the columns are {listed([shown(name) for name in names]) or 'none'}")

    def _refuse_missing(self, tool):
        """Rejects a log in which no known column has several things that a row must have, and names all of them.
        Lengths will do for a plan."""
        given, moments = self.given, BEGINS + ENDS + STAMPS + (LENGTHS if tool == "zsched-plan" else [])
        if _PINO <= {*self.head} and given.name is given.status is None:
            raise Refused(f"{self.path}:1: this is a log of pino: jq -c '{_PINO_ROWS}' makes rows of it, and - reads "
                          "what that prints")
        known = {"--name": REQUESTS, "--status": STATUSES, "--begin": moments}
        chosen = {"--name": given.name, "--status": given.status, "--begin": given.begin or given.end}
        missing = [it for it in known if chosen[it] is None and self._column(None, known[it]) is None]
        if len(missing) > 1:
            options = listed([f"{it} COLUMN" for it in missing])
            columns = listed([shown(name) for name in self.head]) or "none"
            what = listed([ROLES[it] for it in missing])
            raise Refused(f"{self.path}:1: no known column has the {what} of an attempt: {options} name them; the "
                          f"columns are {columns}")

    def _find_columns(self, first):
        """Finds the columns. `first` has the cells of the first row."""
        given = self.given
        names = [given.name] if given.name is None or given.name in self.head else given.name.split(",")
        self.request = [self._column(name and name.strip(), REQUESTS, "--name") for name in names]
        own = [column.number for column in self.request]
        self.status = self._column(given.status, STATUSES, "--status", own)
        self.begin = self._column(given.begin, BEGINS, given.begin and "--begin")
        self.end = self._column(given.end, ENDS, given.end and "--end")
        self.length = self._column(given.time, LENGTHS, given.time and "--time")
        stamp = self._column(None, STAMPS)
        if stamp is not None and self.length is not None and stamp.number == self.length.number:
            other = self._column(None, LENGTHS, but=[stamp.number]) if given.time is None else None
            if other is None and not (first and is_moment(first[stamp.number].strip())):
                stamp = None
            else:
                self.length = other
        if stamp is not None and given.timestamps == "end" and self.end is None:
            self.end = stamp
        elif stamp is not None and given.timestamps == "begin" and self.begin is None:
            self.begin = stamp
        self.place = None
        if given.endpoint is not None:
            self.place = self._column(None, ENDPOINTS, "--endpoint", own).number
        self.is_shared = len(own) == 1 and plain_name(self.head[own[0]])[0] in SHARED
        known = PARTS | {"name"} if self.is_shared else PARTS
        self.parts = [number for number, name in enumerate(self.head) if len(own) == 1 and number not in own
                      and plain_name(name)[0].removeprefix("attributes_") in known]
        # The endpoints with their numbers, and of each request the row and the endpoint of its first attempt.
        self.endpoints, self.firsts = {}, array.array("Q")
        self.has_moments = self.begin is not None or self.end is not None
        self.has_lengths = self.length is not None or None not in (self.begin, self.end)

    def _take(self, rows, notes, progress):
        unit, found = self.given.unit, {}
        begin, end = (column and Moments(column, unit, notes) for column in (self.begin, self.end))
        length = None if None not in (begin, end) else self.length and Lengths(self.length, unit)
        status = Statuses(self.status, self.given.errors_from, notes)
        for row, cells in rows:
            if self.place is not None and cells[self.place].strip() != self.given.endpoint:
                texts = ((it, cells[it.column.number].strip()) for it in (begin, end) if it)
                self.latest = max([self.latest, *(it(row, text) for it, text in texts if text)])
                continue
            self.requested.append(self._number_of(row, cells, found))
            took = length and length(row, cells[self.length.number].strip())
            if begin:
                begun = begin(row, cells[self.begin.number].strip())
                took = end(row, cells[self.end.number].strip()) - begun if end else took
                if end and took < 0:
                    raise self.end.refused(row, "this attempt ends before it begins")
            else:
                begun = end(row, cells[self.end.number].strip()) - (took or 0) if end else 0
            if begun < -MOST_NANOSECONDS:
                raise self.end.refused(row, "this attempt begins before the year 1678")
            self.begins.append(begun)
            self.lengths.append(took)
            self.statuses.append(status(row, cells[self.status.number].strip()))
            self.rows.append(row)
            self.marks.append(hash(tuple(cells)))
            if not len(self.rows) % _ROWS:
                progress.add(_ROWS)
        forms = [("begin", self.begin, begin), ("end", self.end, end), ("length", self.length, length)]
        parts = [f"{word} {column.name} ({it.form or 'no row'})" for word, column, it in forms if it]
        request = " and ".join(column.name for column in self.request)
        if self.is_shared and self.parts:
            request += f" with {', '.join(self.head[it] for it in self.parts)}"
        self.told = ", ".join([f"request {request}", *parts, f"status {self.status.name}"])
        self.names = self._names(found)

    def _number_of(self, row, cells, found):
        """The number of a row's request. `found` has the requests: their names, each with the number of its endpoint if
        a name may have several."""
        texts = [cells[column.number].strip() for column in self.request]
        if not texts[0]:
            raise self.request[0].refused(row, "this attempt has no request; --name COLUMN names another column")
        name, endpoint = texts[0] if len(texts) == 1 else tuple(texts), 0
        if self.parts:
            endpoint = tuple([cells[it].strip() for it in self.parts])
            endpoint = self.endpoints.setdefault(endpoint, len(self.endpoints))
        number = found.setdefault((name, endpoint) if self.is_shared else name, len(found))
        if number == len(self.firsts):
            self.firsts.append((row << 32) + endpoint)
        elif self.firsts[number] & 0xFFFFFFFF != endpoint:
            raise self._of_several(name, row, endpoint, self.firsts[number])
        return number

    def _of_several(self, name, row, endpoint, first):
        """The error of rows of one request with two endpoints."""
        ends = list(self.endpoints)
        at, here, there = next(it for it in zip(self.parts, ends[endpoint], ends[first & 0xFFFFFFFF]) if it[1] != it[2])
        return Refused(f'{self.path}:{self.word}{row}: request {shown(name)}: column {shown(self.head[at])} has '
                       f'"{shown(here)}", and "{shown(there)}" in {self.word or "row "}{first >> 32}: --endpoint NAME '
                       f"takes the attempts of one, --name {shown(self.request[0].name)},{shown(self.head[at])} "
                       "makes each a request")

    def _names(self, found):
        """The names of the requests, with what differs between the endpoints of those with one name."""
        if not self.is_shared:
            return [it if isinstance(it, str) else " ".join(it) for it in found]
        ends, values = list(self.endpoints) or [()], collections.defaultdict(lambda: [set() for _ in self.parts])
        for name, endpoint in found:
            for seen, value in zip(values[name], ends[endpoint]):
                seen.add(value)
        return [" ".join([name, *(it for it, seen in zip(ends[endpoint], values[name]) if len(seen) > 1)])
                for name, endpoint in found]

    def requests(self):
        """Each request with its attempts, in the order of their begins if the log has moments, else of the rows."""
        order, first = range(len(self.rows)), {}
        if self.has_moments:
            order = sorted(order, key=self.begins.__getitem__)
        for at in order:
            first.setdefault(self.requested[at], len(first))
        order = sorted(order, key=lambda at: first[self.requested[at]])
        for number, places in itertools.groupby(order, self.requested.__getitem__):
            yield self.names[number], [Call(self.begins[at] if self.has_moments else None, self.lengths[at],
                                            *self.statuses[at], self.rows[at], self.marks[at]) for at in places]


def _rows(path, data):
    """The number and the cells of each row of a log, the names of the columns first, and the word before a number."""
    for mark, packed in PACKED.items():
        if data.startswith(mark):
            form, _, unpacks = packed.partition(": ")
            raise Refused(f"{path}:1: the file is packed by {form}: {unpacks} unpacks it, and - reads what that prints")
    if data.startswith((b"\xff\xfe", b"\xfe\xff")) or b"\0" in data[:1000]:
        raise Refused(f"{path}:1: the text is UTF-16 or no text: iconv -f utf-16 -t utf-8 makes it UTF-8")
    begin = 3 if data.startswith(b"\xef\xbb\xbf") else 0
    if re.compile(rb'\[[0-9]{4}-[^]\n]*\] "').match(data, begin):
        return _envoy_rows(path, data[begin:]), ""
    if re.compile(rb"\s*[\[{]").match(data, begin):
        return _json_rows(path, data[begin:])
    return _csv_rows(path, data, begin), ""


def _not_utf8(path, data):
    """The error of the first line that is not UTF-8."""
    for at, line in enumerate(io.BytesIO(data), 1):
        try:
            line.decode()
        except UnicodeDecodeError as fault:
            return Refused(f"{path}:{at}: byte {fault.start + 1} of the line, {line[fault.start]:#04x}, is not "
                           "UTF-8: iconv -f latin1 -t utf-8 makes it so, if the text is Latin-1")
    return Refused(f"{path}: the text is not UTF-8")


def _csv_rows(path, data, begin):
    """The number and the cells of each line of a CSV text from a byte on, the names of the columns first."""
    file = io.BytesIO(data)
    file.seek(begin)
    first = file.readline().decode(errors="replace")
    file.seek(begin)
    mark = max(",;\t", key=first.count)
    rows = csv.reader(io.TextIOWrapper(file, "utf-8", newline=""), delimiter=mark, strict=True)
    try:
        if not (head := next(rows, [])):
            raise Refused(f"{path}:1: the file is empty")
        if mark not in first:
            raise Refused(f"{path}:1: one column: a log has commas, semicolons or tabs between its columns; tr '|' ',' "
                          "makes others so")
        yield 1, head
        for row in filter(None, rows):
            # A row may have line ends within quotes; its number is that of the line on which it ends.
            if len(row) != len(head):
                raise Refused(f"{path}:{rows.line_num}: {plural(len(row), 'column')}, and line 1 has {len(head)}")
            yield rows.line_num, row
    except csv.Error as fault:
        raise Refused(f"{path}:{rows.line_num}: not CSV: {fault}") from None


def _envoy_rows(path, data):
    """The number and the cells of each line of Envoy's access log, the names of the columns first."""
    yield 1, [*_ENVOY.groupindex]
    for number, line in enumerate(io.TextIOWrapper(io.BytesIO(data), "utf-8"), 1):
        if found := _ENVOY.match(line):
            yield number, ["" if cell == "-" else cell for cell in found.groups()]
        elif line.strip():
            raise Refused(f"{path}:{number}: not in the usual form of Envoy's access log: its JSON form, with the keys "
                          "start_time, request_id, method, path, response_code and duration, can be read")


def _json_documents(path, data, is_lines):
    """The documents of a JSON text, one or one a line, each with the number of its line. Numbers are texts."""
    for at, piece in enumerate(io.BytesIO(data) if is_lines else [data], 1):
        try:
            if piece.strip():
                yield at, json.loads(piece.decode(), parse_int=str, parse_float=str, parse_constant=str)
        except RecursionError:
            raise Refused(f"{path}:{at}: this is nested too deeply") from None
        except UnicodeDecodeError:
            raise
        except ValueError as fault:
            line = at if is_lines else fault.lineno
            raise Refused(f"{path}:{line}: not JSON: {str(fault).partition(': line')[0]}") from None


def _is_lines(data):
    """Whether a JSON text has a document in its first line, and more lines."""
    first = re.match(rb"\s*([^\n]*)", data)
    try:
        json.loads(first[1])
    except (ValueError, RecursionError):
        return False
    return re.compile(rb"\s*\S").match(data, first.end()) is not None


def _json_rows(path, data):
    """The rows of JSON, as those of CSV, and the word before a row's number. JSON lines are read twice, so that one
    document is in memory."""
    is_lines, head = _is_lines(data), {}
    documents = functools.partial(_json_documents, path, data, is_lines)

    def taken():
        for line, document in documents():
            if is_lines and isinstance(document, dict):
                head.update((name, "") for name, _ in _pairs(document))
            yield f"{path}:{line}" if is_lines else path, document
    if spans := spans_in(path, taken()):
        items, word = functools.partial(enumerate, spans, 1), "span "
    elif export := _export_of(next(documents())[1]):
        raise Refused(f"{path}:1: this is an export of {export}: jq -c '{_EXPORTS[export][1]}' makes rows of it if its "
                      "lines are JSON, and - reads what that prints")
    elif is_lines:
        items, word = documents, ""
    else:
        whole = next(documents())[1]
        if "jobs" in whole or "policies" in whole:
            raise Refused(f"{path}:1: this is a plan or a scenario, and no log of calls")
        items, word = functools.partial(enumerate, whole if isinstance(whole, list) else [whole], 1), "record "
    if spans or not is_lines:
        head = dict.fromkeys(itertools.chain.from_iterable(_flat(path, word, *it) for it in items()), "")
    rows = ((number, list((head | _flat(path, word, number, item)).values())) for number, item in items())
    return itertools.chain([(1, list(head))], rows), word


def _export_of(document):
    """The system whose export a document is, or None."""
    def has(keys):
        try:
            functools.reduce(operator.getitem, keys, document)
        except (LookupError, TypeError):
            return False
        return True
    return next((name for name, (paths, _) in _EXPORTS.items() if all(map(has, paths))), None)


def _flat(path, word, number, item):
    """The keys and texts of an object, those of inner ones with the outer key before."""
    if not isinstance(item, dict):
        raise Refused(f"{path}:{word}{number}: this is not an object with the keys of an attempt")
    return dict(_pairs(item))


def _pairs(item, before=""):
    for name, value in item.items():
        if isinstance(value, dict):
            yield from _pairs(value, f"{before}{name}.")
        elif not isinstance(value, list):
            words = {True: "true", False: "false", None: ""}
            yield before + name, value if isinstance(value, str) else words[value]


def _items(value, *names):
    """The items of the list of the first of these keys, or nothing."""
    found = next((value[name] for name in names if isinstance(value, dict) and name in value), [])
    return found if isinstance(found, list) else []


def _objects(value, place, *names):
    """The objects of the list of the first of these keys, each with its place, or nothing. Another item is an error."""
    name = next((name for name in names if name in value), None)
    for number, item in enumerate(_items(value, *names)):
        where = f"{place}{name}[{number}]"
        if not isinstance(item, dict):
            raise Refused(f"{where} is not an object")
        yield item, f"{where}."


def spans_in(path, documents):
    """The attempts in documents of OpenTelemetry or Jaeger, as objects with a name for each column: the spans of the
    kind client, else those without spans below. Each document has its place before it."""
    spans = _all_spans(documents)
    for name, span in itertools.product(_SPAN_TEXTS, spans):
        if not isinstance(span.get(name), str | None):
            raise Refused(f"{path}: a span has {name} {shown(json.dumps(span[name]))}, which is not a text")
    parents = {span.get("parentSpanId") for span in spans}
    of_clients = [span for span in spans if span.get("kind") in _CLIENT]
    attempts = of_clients or [span for span in spans if span.get("spanId") not in parents - {None, ""}]
    traces = collections.defaultdict(set)
    for span in attempts:
        traces[_parent(span)].add(span.get("traceId"))

    def request(span):
        """The parent, with its trace if several have such a parent."""
        parent = _parent(span)
        return parent and (f"{span.get('traceId')} " if len(traces[parent]) > 1 else "") + parent
    return [{"parent": request(span), "trace_id": span.get("traceId", ""), "span_id": span.get("spanId", ""),
             "name": span.get("name", ""),
             **{name: text for name, text in _attributes(span).items() if name.replace(".", "_") in PARTS},
             "start_time_unix_nano": span.get("startTimeUnixNano", ""),
             "end_time_unix_nano": span.get("endTimeUnixNano", ""), "status": _span_status(span)} for span in attempts]


def _all_spans(documents):
    """The spans of all documents. Rows among them would be attempts that no one sees, so they are an error."""
    spans, with_spans, rows, first = [], 0, 0, None
    for place, document in documents:
        found = list(_spans_of(document, f"{place}: ")) if isinstance(document, dict) else []
        spans += found
        if found:
            with_spans += 1
        elif not _is_empty_export(document):
            rows, first = rows + 1, first or place
    if spans and rows:
        raise Refused(f"{first}: {rows} of the lines {'has' if rows == 1 else 'have'} no spans, and {with_spans} "
                      f"{'has' if with_spans == 1 else 'have'}; give the rows and the spans in separate files")
    return spans


def _is_empty_export(document):
    """Whether a document is one of spans, as exports and answers are, though it has none."""
    return isinstance(document, dict) and (list(document) in [[it] for it in _RESOURCES] or (
        document.get("data") == [] and _ANSWER.issuperset(document)))


def _spans_of(document, place):
    """The spans of an object, as OpenTelemetry's. Jaeger has them under a key "result" or, in its older form, "data".
    """
    for whole, head in ((document, place), (document.get("result"), f"{place}result.")):
        for resource, at in _objects(whole, head, *_RESOURCES) if isinstance(whole, dict) else ():
            for scope, inner in _objects(resource, at, "scopeSpans", "scope_spans", "instrumentationLibrarySpans"):
                yield from (span for span, _ in _objects(scope, inner, "spans"))
    if any(_items(trace, "spans") for trace in _items(document, "data")):
        for trace, at in _objects(document, place, "data"):
            yield from (_of_jaeger({"traceID": trace.get("traceID")} | span)
                        for span, _ in _objects(trace, at, "spans"))


def _is_object(value):
    return isinstance(value, dict)


def _of_jaeger(span):
    """A span of Jaeger's older form, whose times are microseconds. Its parent is the first reference CHILD_OF within
    its trace, else the first other one."""
    tags = {str(it.get("key")): it.get("value") for it in filter(_is_object, _items(span, "tags"))}
    above = [it for it in filter(_is_object, _items(span, "references")) if it.get("traceID") == span["traceID"]]
    parent = min(above, key=lambda it: it.get("refType") != "CHILD_OF", default={"spanID": span.get("parentSpanID")})
    times = [str(span.get(name)) for name in ["startTime", "duration"]]
    begin, end = (f"{sum(map(int, parts))}000" if all(re.fullmatch("[0-9]{1,16}", it) for it in parts) else ""
                  for parts in [times[:1], times])
    is_error = tags.get("error") in (True, "true") or tags.get("otel.status_code") == "ERROR"
    return {"traceId": span["traceID"], "spanId": span.get("spanID"), "parentSpanId": parent.get("spanID"),
            "name": span.get("operationName", ""), "kind": "3" if tags.get("span.kind") == "client" else "",
            "startTimeUnixNano": begin, "endTimeUnixNano": end, "status": {"code": "2" if is_error else ""},
            "attributes": [{"key": key, "value": {"text": value}} for key, value in tags.items()]}


def _parent(span):
    """The span whose attempt this is: its parent, without one its trace."""
    return str(span.get("parentSpanId") or span.get("traceId") or "")


def _attributes(span):
    """The attributes of a span, as texts."""
    found = ((it.get("key"), it.get("value")) for it in filter(_is_object, _items(span, "attributes")))
    return {key: str(next(iter(value.values()))) for key, value in found
            if isinstance(key, str) and isinstance(value, dict) and value}


def _span_status(span):
    """The status as a text: that of HTTP or gRPC, and whether the span has an error."""
    given = span.get("status")
    is_error = isinstance(given, dict) and given.get("code") in _ERROR
    values = _attributes(span)
    for name in _SPAN_CODES:
        if (code := values.get(name)) is not None:
            is_grpc = name == _SPAN_CODES[2]
            return f"error {code}" if is_error or (is_grpc and code != "0") else f"ok {code}" if is_grpc else code
    return "error" if is_error else "ok"
