"""The commands: capture, explain, chart, compare, run, write, rows, serve, drive."""
import argparse
import gc
import json
import os
import sys

from . import as_json, comments, configuration, texts
from . import capture as capturing
from . import chart as drawing
from . import compare as comparing
from . import drive as driving
from . import explain as explaining
from . import rows as of_gate
from . import run as running
from . import serve as serving
from . import spoken
from . import write as writing
from .history import history, served


JSON = "as JSON, whose shape tools/mmstools/result.schema.json describes"


def main(words=None) -> int:
    """Runs one command. The status is its own, or 2 with a sentence where it can't be done."""
    ap = argparse.ArgumentParser(
        prog="mms", description="Tools beside mmscell: captures to recordings, reports in words and as pictures."
    )
    sub = ap.add_subparsers(dest="command", required=True, metavar="COMMAND")
    every = (_capture_words, _explain_words, _chart_words, _compare_words, _run_words, _write_words, _rows_words)
    every += (_serve_words, _drive_words)
    for command in every:
        command(sub)
    a = ap.parse_args(words)
    collects = gc.isenabled()
    gc.disable()  # a command ends soon: to look through 100,000 PDUs for garbage takes longer than all else
    try:
        return a.run(a)
    except (texts.BadText, capturing.Unread) as bad:
        print(f"mms {a.command}: {bad}", file=sys.stderr)
    except OSError as bad:
        if isinstance(bad, BrokenPipeError):
            sys.stderr.close()
            return 2
        print(f"mms {a.command}: {bad.filename or 'output'}: {bad.strerror}", file=sys.stderr)
    finally:
        if collects:
            gc.enable()
    return 2


def _command(sub, name: str, run, text: str, more: str):
    """A command's parser, with one line of help and with what `--help` says of it alone."""
    raw = argparse.RawDescriptionHelpFormatter
    parser = sub.add_parser(name, help=text, description=more, formatter_class=raw)
    parser.set_defaults(run=run)
    return parser.add_argument


def _capture_words(sub) -> None:
    """The words of `mms capture`."""
    more = capturing.__doc__ + (
        "\nStatus 0: nothing is lacking. 1: the capture lacks something, which is told. 2: nothing comes of it, or it"
        "\nends in the middle of a frame; what stands before that is written.\n"
    )
    add = _command(sub, "capture", _capture, "a packet capture to a recording", more)
    add("file", help="pcap or pcapng, also compressed, as tshark reads it")
    add("-o", "--output", help="the recording; standard output where it is left out")
    add("--seen", metavar="FILE", help="also write what the captured server answered, as a report")
    add("--server", metavar="ADDRESS[:PORT]", help="which server, where the capture has several")
    add("--port", type=int, help="the TCP port of MMS, where it is not 102")
    add("--tick", type=int, default=1, metavar="MS", help="the least time that becomes a tick (1); 0 for no ticks")
    quiet = "seconds of silence, with nothing unanswered, after which a phase ends (1)"
    add("--quiet", type=float, default=1.0, metavar="S", help=quiet)
    add("--each", action="store_true", help="a phase for each event")
    given = "lines of the configuration, such as cells and pools, in place of what the answers tell"
    add("--config", metavar="FILE", help=given)
    least = "1 or 2, of the recording; where it is left out the least that takes what clients send"
    add("--edition", choices=("1", "2"), default="", help=least)
    learned = "do not write cells, names and texts of the answers into the configuration"
    add("--no-learn", action="store_true", help=learned)


def _explain_words(sub) -> None:
    """The words of `mms explain`."""
    text = "a recording, a report or one PDU in words, octet by octet"
    add = _command(sub, "explain", _explain, text, explaining.__doc__)
    add("file", help="a recording or a report, - for standard input; or a PDU in hexadecimal digits")
    again = "the recording again, with the meaning of each element in comments above its PDU"
    add("--comments", action="store_true", help=again)
    add("--json", action="store_true", help=JSON)


def _chart_words(sub) -> None:
    """The words of `mms chart`."""
    add = _command(sub, "chart", _chart, "a report or a recording as a picture", drawing.__doc__)
    add("file", help="a report; or a recording, which is served first, so that each answer stands at its event")
    formats = ".svg, .png (with rsvg-convert) or .md (Mermaid); standard output, SVG, where it is left out"
    add("-o", "--output", help=formats)
    seen = "a report of what a captured server answered; where it differs, it is shown too"
    add("--seen", metavar="FILE", help=seen)
    program = "what serves a recording; MMSCELL's or the program that the gate left, where it is left out"
    add("--program", metavar="PATH", help=program)
    add("--places", metavar="A-B", help="the events from place A to place B alone")
    add("--clients", metavar="N,..", help="these clients alone, and the cell")
    add("--title", help="the heading; the name of the file where it is left out")


def _compare_words(sub) -> None:
    """The words of `mms compare`."""
    more = comparing.__doc__ + "\nStatus 0: the same octets. 1: some answers differ. 2: they can't be compared.\n"
    add = _command(sub, "compare", _compare, "two reports of one recording, answer by answer", more)
    add("first", help="such as what `capture --seen` wrote")
    add("second", help="the report of mmscell")
    kinds = ", ".join(k for k in comparing.KINDS if k != "same")
    add("--json", action="store_true", help=JSON)
    add("--ignore", default="", metavar="KIND,..", help=f"kinds of differences that do not count: {kinds} (none)")


def _write_words(sub) -> None:
    """The words of `mms write`."""
    add = _command(sub, "write", _put_in_octets, "PDUs and recordings from words", writing.__doc__)
    add("words", nargs="+", metavar="WORDS|FILE", help="a PDU in words; or a recording, - for standard input")
    add("--invoke", type=int, metavar="N", help="the invokeID of the PDU (1)")
    least = "1 or 2 (2): whose names the PDU may have; a recording says its own"
    add("--edition", choices=("1", "2"), default="2", help=least)
    add("--back", action="store_true", help="the other way: digits or a recording, in words")
    add("-o", "--output", metavar="OUT", help="standard output where it is left out")


def _rows_words(sub) -> None:
    """The words of `mms rows`."""
    add = _command(sub, "rows", _rows, "the rows of the gate in words, and their index", of_gate.__doc__)
    add("words", nargs="*", metavar="WORD", help="rows in which each of these words stands; all where none is given")
    add("--index", action="store_true", help="the page docs/ROWS-INDEX.md")


def _run_words(sub) -> None:
    """The words of `mms run`."""
    add = _command(sub, "run", _run, "serve each recording of a folder, and compare", running.__doc__)
    add("folder", help="a folder with recordings, NAME.mms, and their reports, NAME.report; also in folders below it")
    add("--accept", action="store_true", help="store what comes in place of a report that is missing or differs")
    add("--json", action="store_true", help=JSON)
    add("--junit", metavar="FILE", help="also write the results as JUnit's XML")
    program = "what serves a recording; MMSCELL's or the program that the gate left, where it is left out"
    add("--program", metavar="PATH", help=program)
    add("--jobs", type=int, metavar="N", help="how many at once; as many as there are processors, where it is left out")


def _serve_words(sub) -> None:
    """The words of `mms serve`."""
    add = _command(sub, "serve", serving.command, "a device to connect to, over TCP", serving.__doc__)
    add("--config", metavar="FILE", help="a configuration in TOML, or a recording, whose configuration is taken")
    add("--edition", choices=("1", "2"), help="1 or 2; the recording's, or else 1")
    add("--host", default="127.0.0.1", help="the address to listen at (127.0.0.1)")
    add("--port", type=int, default=102, help="the port (102); 0 for any that is free, which is told")
    add("--keep", metavar="FILE", help="the recording of all that came, which replays to what was sent")
    add("--log", metavar="FILE", help="what happens in words, with its time, is written behind what is there")
    add("--pcap", metavar="FILE", help="a capture of the traffic")
    add("--idle", type=float, default=60.0, metavar="S", help="seconds of nothing or of half a message (60)")
    add("--still", action="store_true", help="no time goes by but what is asked for on standard input")
    add("--now", action="store_true", help="the device's clock begins now, in place of the configuration's moment")
    add("--usr1", default="tick 1000", metavar="LINE", help="what SIGUSR1 does: a line of standard input (tick 1000)")
    program = "the program; MMSCELL's or that which the gate left, where it is left out"
    add("--program", metavar="PATH", help=program)


def _drive_words(sub) -> None:
    """The words of `mms drive`."""
    text = "play a recording's clients against a device that listens"
    add = _command(sub, "drive", driving.command, text, driving.__doc__)
    add("recording", help="whose clients are played")
    add("--host", default="127.0.0.1", help="where the device listens (127.0.0.1)")
    add("--port", type=int, default=102, help="and at which port (102)")
    add("-o", "--output", metavar="SEEN", help="the report of what came back; standard output where it is left out")
    add("--wait", type=float, default=0.2, metavar="S", help="seconds of silence after which nothing more comes (0.2)")
    cell = "where ticks and ends are written, such as the named pipe that a server with --still has on standard input"
    add("--cell", metavar="FILE", help=cell)
    add("--late", action="store_true", help="open each connection when its client first sends")
    add("--check", action="store_true", help="also replay the recording, and compare")
    program = "what replays it; MMSCELL's or the program that the gate left, where it is left out"
    add("--program", metavar="PATH", help=program)


def _read(path: str) -> str:
    """A text, each octet as one letter, so that none is refused."""
    if path == "-":
        return sys.stdin.buffer.read().decode("latin-1")
    with open(path, "rb") as f:
        return f.read().decode("latin-1")


def _write(path, text: str) -> None:
    """Writes a text to a file or to standard output."""
    if path in (None, "-"):
        sys.stdout.write(text)
        sys.stdout.flush()
    else:
        with open(path, "w", encoding="utf-8", newline="\n") as f:
            f.write(text)


def _config(path: str):
    """The lines of a configuration, which is UTF-8, or None without a file."""
    if not path:
        return None
    try:
        with open(path, encoding="utf-8") as f:
            text = f.read().rstrip("\n")
    except UnicodeDecodeError:
        raise texts.BadText(f"{path} isn't UTF-8") from None
    found = configuration.unread(text.encode().decode("latin-1"))
    if found is not None:
        print(f"mms capture: {path} is {found.what}; whether it is a configuration, mmscell decides", file=sys.stderr)
    return text.split("\n")


def _report(path: str) -> texts.Report:
    """The report of a file; what is wrong with it is said with its name."""
    try:
        return texts.read_report(_read(path))
    except texts.BadText as bad:
        raise texts.BadText(f"{path}, {bad}") from None


def _capture(a) -> int:
    """`mms capture`."""
    if not os.path.exists(a.file):
        raise capturing.Unread(f"{a.file}: no such file")
    config = _config(a.config)
    options = capturing.Options(_server(a.server), a.port, a.tick, a.quiet, a.each, not a.no_learn, config, a.edition)
    got = capturing.capture(a.file, options)
    _write(a.output, texts.write_recording(got.recording))
    if a.seen:
        _write(a.seen, texts.write_report(got.seen))
    said = got.warnings[:20]
    if len(got.warnings) > 20:
        said.append(f"{len(got.warnings) - 20} more of these")
    pdus = sum(e.kind == "heard" for p in got.recording.phases for e in p)
    answers = sum(len(o) for p in got.seen.phases for o in p.outputs.values())
    sums = f"{texts.count(pdus, 'PDU')} of {texts.count(len(got.clients), 'client')}, {texts.count(answers, 'answer')}"
    said += [*got.remarks, sums]
    for line in said + [got.broken] * bool(got.broken):
        print(f"mms capture: {line}", file=sys.stderr)
    return 2 if got.broken else 1 if got.warnings else 0


def _server(words):
    """Address and port of `--server`, of which either may be left out."""
    if not words:
        return None
    host, port = words, ""
    if words.count(":") == 1 or "]" in words:
        host, _, port = words.rpartition(":")
        if "]" in port:
            host, port = words, ""
    return host.strip("[]") or None, int(port) if port.isdigit() else None


def _explain(a) -> int:
    """`mms explain`."""
    if a.json:
        said = as_json.of_text(a.file)
        _write(None, said)
        return json.loads(said)["status"]
    if not a.comments:
        return explaining.command(a)
    _write(None, comments.commented(_read(a.file)))
    return 0


def _chart(a) -> int:
    """`mms chart`."""
    _drawable(a.output)
    text, names, note, end = _read(a.file), {}, "", ""
    if texts.kind_of(text) == "recording":
        recording = texts.read_recording(text)
        names = _names(recording)
        rows = served(recording, drawing.program(a.program))
    else:
        report = texts.read_report(text)
        if report.end and not any(p.served for p in report.phases):
            raise texts.BadText(f"{a.file} has no event, and ends with `{report.end}`: `mms explain` tells why")
        if any(len(p.served) > 1 for p in report.phases):
            note = "the events of late answers worked out from the report alone"
        end = drawing.ended(report)
        note = "; ".join(x for x in (note, end) if x)
        rows = history(report)
    seen = comparing.by_place(comparing.compare(_report(a.seen), None, rows)) if a.seen else {}
    rows = drawing.chosen(rows, a.places or "", a.clients or "")
    if a.output and a.output.endswith(".md"):
        _write(a.output, f"```mermaid\n{drawing.mermaid(rows)}```\n" + f"\n{end}\n" * bool(end))
        return _drawn(a.file, end)
    svg = drawing.chart(rows, a.title or os.path.basename(a.file), note, names, seen)
    if a.output and a.output.endswith(".png"):
        drawing.write_png(svg, a.output)
    else:
        _write(a.output, svg)
    return _drawn(a.file, end)


def _drawn(name: str, end: str) -> int:
    """The status of a picture; one that is drawn to its report's end alone is told."""
    if end:
        print(f"mms chart: {name}: {end}", file=sys.stderr)
    return 1 if end else 0


def _put_in_octets(a) -> int:
    """`mms write`."""
    said = " ".join(a.words)
    text = _read(said) if said == "-" or os.path.exists(said) else None
    out = spoken.command(said, text) if a.back else writing.command(said, text, a.invoke, a.edition)
    _write_octets(a.output, out)
    return 0


def _write_octets(path, text: str) -> None:
    """Writes a text of which each sign is an octet."""
    if path in (None, "-"):
        sys.stdout.flush()
        out = getattr(sys.stdout, "buffer", None)
        out.write(text.encode("latin-1")) if out else sys.stdout.write(text)
        sys.stdout.flush()
    else:
        with open(path, "wb") as f:
            f.write(text.encode("latin-1"))


def _rows(a) -> int:
    """`mms rows`."""
    if a.index:
        _write(None, of_gate.index())
        return 0
    count = 0
    for text in of_gate.said(a.words):
        print(text.encode("ascii", "backslashreplace").decode("ascii"))
        count += 1
    if not count:
        print(f"mms rows: no row has {' and '.join(a.words)}", file=sys.stderr)
    return 0 if count else 1


def _drawable(output) -> None:
    """Refuses a name of a file that tells of no kind of picture."""
    if output not in (None, "-") and not output.endswith((".svg", ".png", ".md")):
        raise texts.BadText(f"{output}: a picture's name ends in .svg, .png or .md")


def _names(recording) -> dict:
    """Who the clients are, by the comments that `capture` writes."""
    out = {}
    for notes in recording.notes.values():
        for n in notes:
            words = n.replace(":", " ", 1).split()
            if len(words) > 2 and words[0] == "client" and words[1].isdigit():
                out.setdefault(int(words[1]), words[2])
    return out


def _run(a) -> int:
    """`mms run`."""
    names, device = running.recordings(a.folder), drawing.program(a.program)
    jobs = a.jobs if a.jobs is not None else os.cpu_count() or 1
    if jobs < 1:
        raise texts.BadText("--jobs wants a number from 1 on")
    results, bar, bad = [], running.Bar(len(names)), 0
    for one in running.run_all(names, device, a.accept, jobs):
        results.append(one)
        bad += one.kind not in ("same", "accepted")
        bar.step(bad)
    if a.junit:
        _write(a.junit, running.junit(results, a.folder))
    status = running.status(results)
    _write(None, as_json.of_results(status, results) if a.json else running.words(results, a.folder))
    return status


def _compare(a) -> int:
    """`mms compare`."""
    ignored = frozenset(a.ignore.split(",")) - {""}
    unknown = ignored - set(comparing.KINDS)
    if unknown:
        raise texts.BadText(f"there is no kind of difference `{sorted(unknown)[0]}`")
    found = comparing.compare(_report(a.first), _report(a.second))
    names = [os.path.basename(f) for f in (a.first, a.second)]
    if names[0] == names[1]:
        names = [a.first, a.second]
    status = 1 if any(d.kind != "same" and d.kind not in ignored for d in found) else 0
    said = as_json.of_differences(status, found) if a.json else comparing.words(found, tuple(names), ignored)
    _write(None, said)
    return status
