"""The rules by which tests/rows_by_rule.py lists rows: a module for each part of docs/PROTOCOL.md that rows are about."""
