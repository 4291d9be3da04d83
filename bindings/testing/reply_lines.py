"""What replies say, as rows have it: a line for each part of a result, and one for the end."""

import mysql_session as ms
from mysql_session import ColumnType, EndKind

LONG = 32  # From how many bytes on equal ones are counted.


def shown(data):
    """Returns bytes as rows have them."""
    count = ""
    if len(data) >= LONG and data == data[:1] * len(data):
        count, data = f"{len(data)} * ", data[:1]
    if all(0x20 <= it < 0x7F and it != 0x22 for it in data):
        return f'{count}"{data.decode()}"'
    return count + "x" + data.hex()


def camel(code, prefix):
    """Returns a code's name as rows have it."""
    return "".join(it.capitalize() for it in code.name[len(prefix):].split("_"))


def column_line(word, column):
    """Returns a column's type, numbers and texts."""
    kind = ColumnType(column.type).name
    texts = [column.schema, column.table, column.org_table, column.name, column.org_name]
    return (f"{word}: MYSQL_TYPE_{kind} charset {column.charset} length {column.length} "
            f"flags {column.flags:04x} decimals {column.decimals} " + " ".join(map(shown, texts)))


def told(result):
    """Returns what an OK packet tells: its status, a text, and short changes of states."""
    line = f" status {result.status:04x} warnings {result.warnings}"
    if result.info:
        line += " info " + shown(result.info)
    if result.states:
        changes = b"".join(bytes([it.type, len(it.data)]) + it.data for it in result.states)
        line += " changes x" + changes.hex()
    return line


def row_line(row):
    """Returns a row's cells."""
    cells = ["null" if it is None else shown(it) if isinstance(it, bytes) else str(it)
             for it in row]
    return " ".join(["row:", *cells])


def lines_of(result):
    """Returns a result's lines."""
    if isinstance(result, ms.Rows):
        lines = [column_line("column", it) for it in result.columns]
        lines += [row_line(it) for it in result.rows]
        return lines + (["end of rows:" + told(result)] if result.ended else [])
    if isinstance(result, ms.Prepared):
        return ([f"prepared: id {result.statement} warnings {result.warnings}"]
                + [column_line("parameter", it) for it in result.params]
                + [column_line("column", it) for it in result.columns])
    if isinstance(result, ms.ServerError):
        state = f" {shown(result.state)}" if result.state else ""
        return [f"error: {result.code}{state} {shown(result.message)}"]
    if isinstance(result, ms.File):
        return ["file: " + shown(result.name)]
    if isinstance(result, ms.RawRows):
        end = f" status {result.status:04x} warnings {result.warnings}" if result.ended else ""
        return [f"raw rows: {result.count}{end}"]
    last = f" id {result.last_insert_id}" if result.last_insert_id else ""
    return [f"ok: rows {result.affected_rows}{last}" + told(result)]


def joined(results):
    """Returns results with the rows of one result set together."""
    whole = []
    for result in results:
        last = whole[-1] if whole else None
        if isinstance(result, ms.Rows) and isinstance(last, ms.Rows) and not last.ended:
            result = result._replace(rows=last.rows + result.rows)
            whole.pop()
        whole.append(result)
    return whole


def reply_lines(results, end):
    """Returns the lines of a reply's results and of its end."""
    lines = [line for it in joined(results) for line in lines_of(it)]
    if end.fault is not None:
        return lines + [f"end: fault {end.payload} {camel(end.fault, 'REPLY_')}"]
    return lines + ["end: whole" if end.kind == EndKind.WHOLE else "end: unfinished"]
