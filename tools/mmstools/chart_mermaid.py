"""A report as a sequence diagram in the language of Mermaid, which viewers of Markdown draw."""

from .chart_lines import asks, is_answer
from .history import Output, Row

LONGEST = 90  # signs of a message


def mermaid(rows: list[Row]) -> str:
    """The diagram of these rows."""
    heard, told = {row.event.client for row in rows}, {output.client for row in rows for output in row.outputs}
    clients = sorted((heard | told) - {0})
    lines = ["sequenceDiagram"]
    lines += [f"    participant c{client} as client {client}" for client in clients] + ["    participant cell"]
    first, phase = f"c{clients[0]}," if clients else "", 0
    for row in rows:
        if row.phase != phase:
            phase = row.phase
            lines.append(f"    Note over {first}cell: phase {phase}")
        lines.append("    " + came_in(row))
        lines += ["    " + went_out(row, output) for output in row.outputs]
    return "\n".join(lines) + "\n"


def came_in(row: Row) -> str:
    """The message or note of an event."""
    event = row.event
    if event.kind == "heard":
        answers = "answers " if is_answer(row.said) else ""
        return f"c{event.client}->>cell: " + plain(f"{row.place}: {answers}{row.said.title} {row.said.detail}")
    if event.kind == "lost":
        return f"c{event.client}-xcell: {row.place}: connection lost"
    return f"Note over cell: {row.place}: {plain(event.line())}"


def went_out(row: Row, output: Output) -> str:
    """The message of an output: crossed where it is an abort, dotted where it answers."""
    words = f"{output.said.title} {output.said.detail}"
    if asks(output):
        return f"cell->>c{output.client}: " + plain("asks " + words)
    if output.asked is not None and output.asked is not row:
        words = f"(to place {output.asked.place}) {words}"
    if not output.sure:
        words = "(a guess) " + words
    return f"cell-{'x' if output.octets is None else '->>'}c{output.client}: " + plain(words)


def plain(words: str) -> str:
    """Words without the signs that mean something in the language, cut where they are long."""
    words = " ".join(words.split())
    if len(words) > LONGEST:
        words = f"{words[:LONGEST]} .. {len(words) - LONGEST} more signs"
    return words.replace("#", "no. ").replace(";", ",").replace("<", "(").replace(">", ")")
