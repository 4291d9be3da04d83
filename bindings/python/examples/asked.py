"""What drivers ask a server by themselves, as they connect: variables, its version, who they are.

    answer("select version(), @@sql_mode", {"version()": "8.0.0"})

An answer is as a table of `test_server.py` has it. The names of variables are those of the manuals
of MySQL and MariaDB ("Server System Variables").
"""

from __future__ import annotations

import re
from typing import Any, Dict, List, Mapping, Optional, Union

Value = Union[int, str, None]

VARIABLES: Dict[str, Value] = {
    "auto_increment_increment": 1, "autocommit": 1, "character_set_client": "utf8mb4",
    "character_set_connection": "utf8mb4", "character_set_database": "utf8mb4",
    "character_set_results": "utf8mb4", "character_set_server": "utf8mb4",
    "collation_connection": "utf8mb4_general_ci", "collation_database": "utf8mb4_general_ci",
    "collation_server": "utf8mb4_general_ci", "default_storage_engine": "InnoDB",
    "have_ssl": "DISABLED", "init_connect": "", "interactive_timeout": 28800, "license": "GPL",
    "lower_case_table_names": 0, "max_allowed_packet": 1 << 24, "net_buffer_length": 16384,
    "net_read_timeout": 30, "net_write_timeout": 60, "performance_schema": 0, "query_cache_size": 0,
    "query_cache_type": "OFF", "sql_auto_is_null": 0, "sql_mode": "", "system_time_zone": "UTC",
    "time_zone": "SYSTEM", "transaction_isolation": "REPEATABLE-READ", "transaction_read_only": 0,
    "tx_isolation": "REPEATABLE-READ", "tx_read_only": 0, "version_comment": "canned answers",
    "wait_timeout": 28800}

# By which the `mysql` client of 8.0.32 and later asks whether `$$` begins a string: an error says no.
DOLLARS = "select $$"
NO_DOLLARS = {"error": 1064, "state": "42000", "message": "You have an error in your SQL syntax"}

_COMMENTS = re.compile(r"(?:\s*/\*(?![!+]|M!).*?\*/)*\s*", re.S)
# What a list has: a variable, a function without arguments, Django's question for time zones.
_ITEM = re.compile(r"\s*(?:@@(?:(?:session|local|global)\.)?(?P<variable>\w+)|(?P<call>\w+)\s*\(\s*\)"
                   r"|(?P<zones>convert_tz\('[^']*',\s*'[^']*',\s*'[^']*'\) is not null))"
                   r"(?:\s+(?:as\s+)?(?!limit\b)(?P<quote>[`'\"]?)(?P<name>\w+)(?P=quote))?\s*",
                   re.I)
_SHOW = re.compile(r"show (?:(?:session|global|local) )?variables"
                   r"(?: like '(?P<like>[\w%]*)'| where (?P<where>[^;]*))?\Z", re.I)
_NAMES = re.compile(r"'(\w+)'")
_WARNINGS = {"columns": {"Level": "varchar", "Code": "int", "Message": "varchar"}, "rows": []}


def _values(told: Mapping[str, Value]) -> Dict[str, Value]:
    """All variables, by their names."""
    return {**VARIABLES, "version": told["version()"]}


def _table(names: List[str], values: List[Value]) -> Dict[str, Any]:
    """One row under these names."""
    kinds = ["bigint" if isinstance(it, int) else "varchar" for it in values]
    return {"columns": dict(zip(names, kinds)), "rows": [values]}


def _selected(items: str, told: Mapping[str, Value]) -> Optional[Dict[str, Any]]:
    """The answer to what a SELECT lists; none where anything else is listed."""
    variables = _values(told)
    names: List[str] = []
    values: List[Value] = []
    at = 0
    while True:
        found = _ITEM.match(items, at)
        if found is None:
            return None
        call = f"{found['call']}()".lower()
        variable = (found["variable"] or "").lower()
        if found["zones"] is None and call not in told and variable not in variables:
            return None
        values.append(1 if found["zones"] else told[call] if found["call"] else variables[variable])
        names.append(found["name"] or found[0].strip())
        at = found.end()
        if items[at:at + 1] != ",":
            break
        at += 1
    ends = re.fullmatch(r"(?:limit 1)?", items[at:].strip(), re.I)
    return _table(names, values) if ends and len(set(names)) == len(names) else None


def _shown(found: "re.Match[str]", told: Mapping[str, Value]) -> Dict[str, Any]:
    """The answer to SHOW VARIABLES: all, those like a pattern, or those that are named."""
    variables = _values(told)
    if found["like"] is not None:
        pattern = re.compile(found["like"].replace("%", ".*"), re.I)
        variables = {name: it for name, it in variables.items() if pattern.fullmatch(name)}
    elif found["where"] is not None:
        wanted = {it.lower() for it in _NAMES.findall(found["where"])}
        variables = {name: it for name, it in variables.items() if name in wanted}
    return {"columns": {"Variable_name": "varchar", "Value": "varchar"},
            "rows": [[name, str(it)] for name, it in sorted(variables.items())]}


def answer(query: str, told: Mapping[str, Value]) -> Optional[Dict[str, Any]]:
    """The answer to a query that drivers ask by themselves, without a `;` at its end. `told` has
    the values of functions, `version()` among them. None where it is no such query."""
    text = query[_COMMENTS.match(query).end():].strip()  # type: ignore[union-attr]
    shown = _SHOW.match(" ".join(text.split()))
    if shown is not None:
        return _shown(shown, told)
    if text.lower() == "show warnings":
        return _WARNINGS
    if text.lower() == DOLLARS:
        return NO_DOLLARS
    listed = re.match(r"select\s+", text, re.I)
    return None if listed is None else _selected(text[listed.end():], told)
